"""The desk of the reading room: tickets, seats, orders, runs, what is out, and permits."""
import dataclasses
import re

from .elements import BLANK
from .limits import LONGEST_NAME, MOST_ORDERS, MOST_PERMITS, MOST_RUNS, MOST_TICKETS
from .refusals import refuse


@dataclasses.dataclass
class Reader:
    """A reader: the name, and the last day of the ticket."""

    name: str
    until: str


@dataclasses.dataclass
class Order:
    """An order: who wants which container, and since which day."""

    ticket: int
    container: int
    day: str


class Desk:
    """Readers by their tickets, who sits on a seat, orders and runs by their numbers, places by container (none is the
    shelf), permits by ticket and unit."""

    def reader(self, ticket):
        """The reader with this ticket; refuses one that is unknown (2)."""
        refuse(2, ticket not in self.readers)
        return self.readers[ticket]

    def has_expired(self, ticket):
        """Whether the last day of a ticket is over."""
        return self.readers[ticket].until < self.day

    def queue(self, container):
        """The numbers of the orders that wait for a container, the first one first."""
        return [n for n in self.waiting if self.orders[n].container == container]

    def seat_of(self, ticket):
        return next((seat for seat, it in self.seated.items() if it == ticket), None)

    def out(self):
        return {c: self.orders[place].ticket for c, place in sorted(self.places.items()) if place != "desk"}

    def open_day(self, day):
        """Begins a later day, with empty seats; refuses that while a container is out."""
        refuse(18, day <= self.day)
        refuse(19, self.out())
        self.day = day
        self.seated = {}
        return {"day": day}

    # ---- readers and seats

    def register(self, name, until):
        """Gives a new reader the next ticket; refuses a bad name, and one more than the limit."""
        size = len(name.encode())
        refuse(27, not 1 <= size <= LONGEST_NAME or not name.strip(BLANK) or re.search("[\0-\x1f\x7f]", name))
        refuse(23, len(self.readers) >= MOST_TICKETS)
        ticket = len(self.readers) + 1
        self.readers[ticket] = Reader(name, until)
        return {"ticket": ticket}

    def renew(self, ticket, until):
        self.reader(ticket).until = until
        return {"ticket": ticket}

    def take_seat(self, ticket):
        """Seats a reader on the first free seat; refuses an expired ticket, a second seat and a full room."""
        self.reader(ticket)
        refuse(4, self.has_expired(ticket))
        refuse(9, self.seat_of(ticket))
        free = [it for it in range(1, self.seats + 1) if it not in self.seated]
        refuse(8, not free)
        self.seated[free[0]] = ticket
        return {"seat": free[0]}

    def leave_seat(self, ticket):
        """Frees the seat of a reader, who must not have a container."""
        self.reader(ticket)
        seat = self.seat_of(ticket)
        refuse(10, seat is None)
        refuse(11, ticket in self.out().values())
        del self.seated[seat]
        return {"seat": seat}

    # ---- orders

    def order(self, ticket, container):
        """Places an order; the first check that fails refuses it."""
        self.reader(ticket)
        refuse(4, self.has_expired(ticket))
        refuse(5, not self.is_open(container, ticket))
        refuse(6, any(it.ticket == ticket for it in self.live(container).values()))
        refuse(7, self.placed[self.day, ticket] >= self.daily)
        refuse(23, len(self.orders) >= MOST_ORDERS)
        number = len(self.orders) + 1
        self.orders[number] = Order(ticket, container, self.day)
        self.waiting.append(number)
        self.placed[self.day, ticket] += 1
        return {"order": number}

    def live(self, container):
        """The orders for a container that wait or are out."""
        place = self.places.get(container, "desk")
        numbers = self.queue(container) + ([] if place == "desk" else [place])
        return {it: self.orders[it] for it in numbers}

    def cancel(self, order):
        refuse(12, order not in self.orders)
        refuse(13, order not in self.waiting)
        self.waiting.remove(order)
        return {"order": order}

    # ---- the containers' ways

    def run(self):
        """Brings the containers of the first orders that can be fetched to the desk, as many as a run takes."""
        waiting = {self.orders[it].container for it in self.waiting}
        heads = sorted(self.queue(it)[0] for it in waiting if it not in self.places)
        picked = [it for it in heads if self.is_open(self.orders[it].container, self.orders[it].ticket)][: self.run_size]
        refuse(24, not picked)
        refuse(23, len(self.runs) >= MOST_RUNS)
        lines = [(self.orders[it].container, it, self.orders[it].ticket) for it in picked]
        self.places.update((container, "desk") for container, _, _ in lines)
        number = len(self.runs) + 1
        self.runs[number] = self.day, lines
        return {"run": number, "taken": len(lines)}

    def reshelve(self):
        """Puts all containers at the desk that nobody waits for back on the shelf; refuses if there is none."""
        idle = sorted(it for it, place in self.places.items() if place == "desk" and not self.queue(it))
        refuse(24, not idle)
        for it in idle:
            del self.places[it]
        return {"containers": idle}

    def container(self, container):
        """Refuses the number of a container that is unknown (3)."""
        refuse(3, not 1 <= container <= len(self.containers))

    def issue(self, container, ticket):
        """Gives a container at the desk to the first reader who waits for it; the first check that fails refuses it."""
        self.container(container)
        refuse(14, self.places.get(container) != "desk")
        head = next(iter(self.queue(container)), None)
        refuse(15, head is None or self.orders[head].ticket != ticket)
        refuse(4, self.has_expired(ticket))
        refuse(10, self.seat_of(ticket) is None)
        refuse(16, list(self.out().values()).count(ticket) >= self.hands)
        refuse(5, not self.is_open(container, ticket))
        self.waiting.remove(head)
        self.places[container] = head
        return {"order": head}

    def give_back(self, container):
        """Takes a container back to the desk from the reader who has it."""
        self.container(container)
        refuse(17, container not in self.out())
        order = self.places[container]
        self.places[container] = "desk"
        return {"order": order}

    # ---- permits

    def permit(self, ticket, unit, until):
        """Lets a reader see a closed unit until a day, or until the day of an earlier permit if that is later."""
        self.reader(ticket)
        self.unit(unit)
        refuse(23, (ticket, unit) not in self.permits and self.permits_of(ticket) >= MOST_PERMITS)
        self.permits[ticket, unit] = max(until, self.permits.get((ticket, unit), ""))
        return {"ticket": ticket, "unit": unit, "until": self.permits[ticket, unit]}

    def permits_of(self, ticket):
        return sum(it == ticket for it, _ in self.permits)

    def revoke(self, ticket, unit):
        """Takes back a permit; refuses that if it would withhold what the reader has."""
        self.reader(ticket)
        self.unit(unit)
        refuse(28, (ticket, unit) not in self.permits)
        del self.permits[ticket, unit]
        self.gate()
        return {"unit": unit}
