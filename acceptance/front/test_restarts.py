"""The program is killed in the midst of eight clients' requests: each request is answered, and none is done twice."""

import json
import time

import pytest

from acceptance.front.office import ARCHIVES, MANY_PAGES
from acceptance.front.senders import UNANSWERED, Sender, count_unread, registration
from acceptance.front.waits import until

CLIENTS = 8
MANY = 40
AWAY = 6  # seconds: longer than a queue that tries three or four times to reach the program


@pytest.fixture(scope="module")
def office(new_office):
    return new_office(files=[("archives", ARCHIVES)], changes=MANY_PAGES)


def reader(port, first):
    """A client that asks for pages of units, in an order of its own."""
    return Sender(port, [("GET", f"/public/units/{1 + (first + 7 * one) % 40}", None, {}) for one in range(MANY)])


def test_nothing_is_lost_while_the_program_is_killed_twice(asks, office):
    """The program is killed twice while clients ask. It sends the head of an answer, and then the body: each time one
    answer may end after its head, which the front has passed on by then."""
    wanted = {f"/public/units/{unit}": asks.question(f"/public/units/{unit}")[1].encode() for unit in range(1, 41)}
    clients = [reader(office.ports["8080"], k) for k in range(CLIENTS)]
    starts = office.starts
    for client in clients:
        client.start()
    for share in (0.25, 0.6):
        until(lambda: sum(len(client.got) for client in clients) >= share * CLIENTS * MANY,
              f"{share} of the answers are there")
        office.kill_program()
    for client in clients:
        client.join(90)
    answers = [(request[1], got) for client in clients for request, got in zip(client.requests, client.got)]
    cut = [got for _, got in answers if got[0] == "IncompleteRead"]
    lost = [got for path, got in answers
            if got not in cut and got != (200, wanted[path]) and not (got[0] == 404 and got[1] == wanted[path])]
    assert len(answers) == CLIENTS * MANY, "requests that were answered"
    assert lost[:3] == [], "requests that were lost or answered otherwise"
    assert len(cut) <= 2, ("an answer is cut off by an end of the program alone", len(cut))
    assert office.starts >= starts + 2, ("the program was begun again", office.starts - starts)


def test_commands_that_come_while_the_program_is_away_are_held_and_done_once(asks, office):
    first = asks.next_ticket()
    clients = [registration(office, "Held") for _ in range(CLIENTS)]
    with office.without_program():
        for client in clients:
            client.start()
        until(lambda: office.count_queued() == CLIENTS - 1, "all but one wait in the queue")
        time.sleep(AWAY)  # how long they are held is what is measured
        assert [got for client in clients for got in client.got] == [], "nothing is answered while it is away"
    for client in clients:
        client.join(90)
    tickets = sorted(json.loads(answer)["ticket"] for client in clients for status, answer in client.got if status == 200)
    assert tickets == list(range(first, first + CLIENTS)), "each was done once"
    assert asks.question(f"/desk/readers/{first + CLIENTS}", True)[0] == 404, "and no other"


def test_a_command_that_the_program_has_received_is_never_repeated(asks, office):
    """Nor answered by the front: over connections that are kept, and over new ones to the program and to the queue."""
    first = asks.next_ticket()
    for new, port in (("nothing", "8081"), ("the program", "8081"), ("the queue", "8092")):
        if new != "nothing":
            await_idle(office)
        client = registration(office, "Cut off", port)
        kill_with_request_of(client, office)
        assert client.got == [UNANSWERED], f"the command is not answered, the connection to {new} being new"
        assert asks.question(f"/desk/readers/{first}", True)[0] == 404, "and not repeated: there is no ticket"
    done = json.loads(asks.try_command("/desk/register", {"name": "Next", "until": "2030-01-01"})[1])
    assert done == {"ticket": first}, "the next ticket has its number"


def test_a_question_that_the_program_has_received_is_put_again(asks, office):
    wanted = asks.question("/public/fonds")
    for kept in (True, False):
        if not kept:
            await_idle(office)
        client = Sender(office.ports["8080"], [("GET", "/public/fonds", None, {})])
        kill_with_request_of(client, office)
        assert client.got == [(wanted[0], wanted[1].encode())], f"the question is answered, kept: {kept}"


def await_idle(office):
    """Waits until queue and gate have closed the connections that they kept."""
    until(lambda: not any(int(office.queue_state(*server)["idle_conn_cur"])
                          for server in (("office", "gate"), ("gate", "program"))), "no connection is kept")


def kill_with_request_of(client, office):
    """The program is stopped, gets the client's request, and is killed. Ends when the client has its answer."""
    stopped = office.stop_program()
    client.start()
    until(lambda: count_unread(office.ports["8090"]) > 0, "the request has come to the program's socket")
    stopped.kill()
    client.join(90)
