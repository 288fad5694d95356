"""What the office answers to questions: texts for the public and the stacks, and what staff are told."""
from .elements import CODE, ELEMENTS, FOUND_ABOVE, LEVEL, TITLE, one_line, text
from .refusals import refuse


class Shown:
    """Answers of an office."""

    def code(self, unit):
        """The reference code of a unit: country, repository, and the identifiers from the top down to it."""
        identifiers = [self.units[it].texts.get(CODE) for it in self.path(unit)]
        joined = "/".join(one_line(it) for it in identifiers if it)
        return " ".join([self.country, self.repo, *([joined] if joined else [])])

    def head(self, unit):
        """The line of a unit: code, level, and title, or in place of the title the day until which it is closed."""
        texts = self.units[unit].texts
        level, title = (one_line(texts.get(it, "-")) for it in (LEVEL, TITLE))
        told = f"closed until {self.units[unit].until}" if self.is_closed(unit) else title
        return f"{self.code(unit)} [{level}] {told}"

    def check_shown(self, unit):
        """Refuses what the public is not shown."""
        refuse(1, unit not in self.units)
        path = self.path(unit)
        refuse(1, any(self.units[it].draft for it in path) or any(map(self.is_closed, path[:-1])))

    def public_below(self, unit):
        return [it for it in self.below(unit) if not self.units[it].draft]

    def boxes(self, unit):
        """A line for each box that a unit names itself."""
        return [f"Container {it}: {one_line(self.containers[it - 1][0])}" for it in self.units[unit].boxes]

    def public_aid(self, unit):
        """The finding aid of a unit as a text; refuses what the public is not shown."""
        self.check_shown(unit)
        return text(self.aid(unit))

    def aid(self, unit):
        """The lines of a finding aid: a unit's own, and those below it indented; a closed unit has one line."""
        lines = [self.head(unit)]
        if not self.is_closed(unit):
            texts = self.units[unit].texts
            own = [(it, name) for it, name, _ in ELEMENTS if it in texts and it not in (CODE, TITLE, LEVEL)]
            lower = [f"{it} {name}: {one_line(texts[it])}" for it, name in own] + self.boxes(unit)
            lower += [line for it in self.public_below(unit) for line in self.aid(it)]
            lines += [f"  {line}" for line in lower]
        return lines

    def page(self, unit):
        """The page of a unit: its elements and boxes, also those of units above, and the units right below it."""
        self.check_shown(unit)
        lines = [self.head(unit)]
        if self.is_closed(unit):
            return text(lines)
        for it, name, _ in ELEMENTS:
            places = reversed(self.path(unit)) if it in FOUND_ABOVE else [unit]
            place = next((n for n in places if it in self.units[n].texts), None)
            if place is not None and it not in (CODE, TITLE, LEVEL):
                lines.append(f"  {it} {name}: {one_line(self.units[place].texts[it])}{self.origin(unit, place)}")
        place = self.housing_unit(unit)
        if place is not None:
            lines += [f"  {line}{self.origin(unit, place)}" for line in self.boxes(place)]
        return text(lines + [f"  Unit {it}: {self.head(it)}" for it in self.public_below(unit)])

    def origin(self, unit, place):
        """The words for where a value comes from, or nothing if it is the unit's own."""
        return "" if place == unit else f" (from {self.code(place)})"

    def fonds(self):
        """The list of the top units that are not drafts, each with its number."""
        return text(f"{it} {self.head(it)}" for it in self.public_below(None))

    # ---- the stacks and the desk

    def slip(self, run):
        """The slip of a run: its containers in the order of their places; refuses a run that is unknown (26)."""
        refuse(26, run not in self.runs)
        day, lines = self.runs[run]
        rows = sorted((*self.triple(container), container, order, ticket) for container, order, ticket in lines)
        lines = [
            f"{one_line(location):<20} {one_line(name):<16} {container:>6} {order:>8} {ticket:>7}"
            for location, name, _, container, order, ticket in rows
        ]
        return text([f"Run {run}  {day}", *lines])

    def triple(self, container):
        """The location, the name and the type of a container."""
        name, location, kind = self.containers[container - 1]
        return location, name, kind

    def reader_report(self, ticket):
        """What staff are told of a reader: name, last day, seat, and orders that wait or are out."""
        it = self.reader(ticket)
        out = [n for n in self.places.values() if n != "desk"]
        live = sorted(n for n in [*self.waiting, *out] if self.orders[n].ticket == ticket)
        states = [(n, "out" if n in out else "waiting") for n in live]
        orders = [{"container": self.orders[n].container, "order": n, "state": state} for n, state in states]
        return {"name": it.name, "orders": orders, "seat": self.seat_of(ticket), "ticket": ticket, "until": it.until}

    def queue_report(self, container):
        """What staff are told of a container: its name, its place, and who waits for it."""
        self.container(container)
        place = self.places.get(container, "shelf")
        out = None if place in ("desk", "shelf") else place
        waiting = [{"order": it, "ticket": self.orders[it].ticket} for it in self.queue(container)]
        name = self.containers[container - 1][0]
        told = place if out is None else "out"
        return {"container": container, "name": name, "out": out, "place": told, "waiting": waiting}

    def permits_report(self, ticket):
        """The permits of a ticket, by the numbers of their units."""
        self.reader(ticket)
        return [{"unit": unit, "until": until} for (t, unit), until in sorted(self.permits.items()) if t == ticket]

    def issued(self):
        """The containers that are out, each with its order and its ticket."""
        return [{"container": it, "order": self.places[it], "ticket": ticket} for it, ticket in self.out().items()]
