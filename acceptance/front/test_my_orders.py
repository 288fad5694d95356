"""My orders: who has a ticket's secret sees what of it waits, is ready or is out, orders and cancels; nobody else is told
anything, by a number, a guess, an old card, a time, a log or a cache. With the office itself and its servers; guesses by
thousands in this process, before a desk that counts what it is asked."""

import contextlib
import datetime
import http.client
import importlib
import json
import random
import re
import sqlite3
import subprocess
import sys
import time
from typing import NamedTuple

import pytest

from acceptance import client
from acceptance.front.catalogue import archives, dock_company
from acceptance.front.desk_state import DeskState
from acceptance.front.measured import Measured
from acceptance.front.office import MANY_ORDERS, SELDOM, SITE, TOP
from acceptance.front.waits import until

FAR, PAST = "2030-12-31", "2020-01-01"
NEXT, SECOND = "It waits, and you are next.", "It waits. 1 reader is before you."
WANTED = "Wanted: GB 0999 HUL/1, Minutes"
FORM = {"Content-Type": "application/x-www-form-urlencoded"}
LETTERS = "0123456789abcdefghjkmnpqrstvwxyz"


class Told(NamedTuple):
    """What a browser is told."""

    status: int
    fields: dict
    text: str

    @property
    def same(self):
        """What may not differ: all but the time."""
        return self.status, {name: value for name, value in self.fields.items() if name != "date"}, self.text


class Reader:
    """A browser without scripts that keeps a cookie."""

    def __init__(self, office, secret=""):
        self.office, self.cookie, self.secret = office, "", secret

    def ask(self, path, form=None, **fields):
        connection = http.client.HTTPConnection(client.HOST, self.office.ports["8080"], timeout=60)
        with contextlib.closing(connection):
            given = {"Connection": "close", **(FORM if form is not None else {}), **fields}
            given |= {"Cookie": f"my={self.cookie}"} if self.cookie else {}
            connection.request("GET" if form is None else "POST", path, form, given)
            answer = connection.getresponse()
            told = Told(answer.status, {name.lower(): value for name, value in answer.getheaders()}, answer.read().decode())
        if (kept := re.match("my=([^;]*)", told.fields.get("set-cookie", ""))):
            self.cookie = kept[1]
        return told

    def open(self):
        """Opens the address of the ticket; what is shown then."""
        told = self.ask(f"/my/{self.secret}")
        assert (told.status, told.fields["location"]) == (302, "/my"), told
        return self.ask("/my")


class Desk(DeskState):
    """The desk, and who has which secret."""

    def secret(self, ticket):
        return self.asks.read(f"/my/{ticket}")["address"].rpartition("/")[2]

    def reader(self, ticket):
        return Reader(self.asks.office, self.secret(ticket))


@pytest.fixture(scope="module")
def office(new_office, module_room):
    office = new_office(readers=SELDOM, tries=True, files=archives(module_room, catalogue=dock_company()), changes=MANY_ORDERS)
    office.serve_my("--messages", "yes")
    return office


@pytest.fixture
def desk_state(asks):
    found = Desk(asks)
    found.empty()
    return found


def boxes(text):
    """What a page of My orders lists: the containers, each with what is said of it."""
    found = re.findall(r"container (\d+), .*?<p class=\"state (\w+)\">(.*?)</p>", text, re.S)
    return {int(box): (state, re.sub("<[^>]+>", "", said)) for box, state, said in found}


def states(text):
    return {box: state for box, (state, _) in boxes(text).items()}


# What its reader sees and does

def test_a_reader_sees_what_waits_is_ready_or_is_out(desk_state, asks):
    ann, ben = desk_state.readers()[:2]
    reader = desk_state.reader(ann)
    assert "No order is waiting" in reader.open().text
    desk_state.order(ben, 2)
    for box in (1, 2, 3):
        desk_state.order(ann, box)
    assert boxes(reader.ask("/my").text) == {1: ("waiting", NEXT), 2: ("waiting", SECOND), 3: ("waiting", NEXT)}
    asks.command("/desk/run")
    assert states(reader.ask("/my").text) == {1: "ready", 2: "waiting", 3: "ready"}
    desk_state.issue(ann, 1)
    shown = reader.ask("/my", **{"Accept-Language": "de"}).text
    assert states(shown.replace("Archivschachtel", "container")) == {1: "out", 2: "waiting", 3: "ready"}
    assert '<html lang="de"' in shown and "Neill" not in shown and "Smith" not in shown, "nobody's name"


def test_a_reader_orders_without_a_number_and_cancels_what_waits(desk_state, asks):
    ann, ben = desk_state.readers()[:2]
    reader, his = desk_state.reader(ann), desk_state.order(ben, 1)
    reader.open()
    unit = desk_state.unit("Minutes")
    page = reader.ask(f"/unit/{unit}").text
    assert 'action="/my/order"' in page and f"You order with ticket {ann}." in page and 'id="ticket"' not in page
    assert reader.secret not in page, "the readers' service does not know the secret"
    form = "&".join(f"container={value}" for value in re.findall(r'name="container" value="([^"]+)"', page))
    told = reader.ask("/my/order", form)
    assert told.status == 200 and "Ordered" in told.text
    orders = desk_state.orders_of(ann)
    assert orders and set(orders.values()) == {"waiting"}
    for number in (his, 999, "x", ""):
        assert "not cancelled" in reader.ask("/my/cancel", f"order={number}").text, f"order {number} is not hers"
    assert desk_state.orders_of(ben) == {his: "waiting"} and desk_state.orders_of(ann) == orders
    assert "is cancelled" in reader.ask("/my/cancel", f"order={min(orders)}").text
    assert desk_state.orders_of(ann) == {number: "waiting" for number in list(orders)[1:]}
    assert (reader.ask("/my/cancel").status, reader.ask("/my").status) == (302, 200), "an answer that is loaded again"
    assert (reader.ask("/my/leave", "").status, reader.ask("/my").status) == (302, 404), "the browser has forgotten it"


def test_pages_of_other_sites_send_nothing(desk_state):
    ann = desk_state.readers()[0]
    reader, order = desk_state.reader(ann), desk_state.order(ann, 1)
    reader.open()
    for fields in ({"Origin": "http://evil.example"}, {"Sec-Fetch-Site": "cross-site"}, {"Sec-Fetch-Site": "same-site"}):
        for path, form in (("cancel", f"order={order}"), ("order", "container=1-2"), ("leave", ""), ("message", "wanted=1")):
            assert reader.ask(f"/my/{path}", form, **fields).status == 403, (path, fields)
    assert desk_state.orders_of(ann) == {order: "waiting"}


# Nobody else

@pytest.fixture
def played(room):
    """The service in this process, before a desk that has two tickets, of which one has ended; and what it was asked."""
    import languages
    import my_orders
    from cards import Cards
    from layouts import Layouts
    from service import Answering
    pages, asked = my_orders.MyOrders(None, None, Cards(room), Layouts(languages.load(), room / "none"), 6000, False), []

    def desk(path):
        asked.append(path)
        until = {"1": FAR, "2": PAST}.get(path.rpartition("/")[2])
        return until and json.dumps({"name": "Ann", "orders": [], "seat": None, "ticket": int(path[-1]), "until": until})

    pages.asking = lambda *_: desk
    app = Answering(pages).app

    def answer(path, secret=""):
        """What is told at this address, with this cookie."""
        told = []
        asked.clear()
        environ = {"REQUEST_METHOD": "GET", "PATH_INFO": path, "wsgi.url_scheme": "http",
                   "HTTP_RECORD_OFFICE_SECRET": secret}
        body = b"".join(app(environ, lambda status, fields: told.extend((status, tuple(fields)))))
        return (*told, body)
    return answer, pages.cards, asked, room


def test_ten_thousand_guesses_old_cards_cut_and_changed_secrets_are_all_told_the_same(played):
    """By the address and by the cookie: the same to the byte, and one question of the desk, which names no number that was
    guessed; so an answer's time tells nothing."""
    answer, cards, asked, room = played
    from cards import Cards
    lost = cards.secret(1)
    cards.take_back(1)
    right, rng = cards.secret(1), random.Random(1)
    (room / "other").mkdir()
    guesses = {f"{rng.choice((1, 1, 2, 3, 10**9))}-{''.join(rng.choices(LETTERS, k=26))}" for _ in range(10_000)}
    guesses |= {right[:size] for size in range(len(right))}
    guesses |= {right + "0", right + "/", right.upper(), f" {right}", right + "\n", "0" + right, right[2:]}
    guesses |= {"2" + right[1:], lost}
    guesses |= {right[:at] + letter + right[at + 1:] for at in range(len(right)) for letter in LETTERS if right[at] != letter}
    guesses |= {Cards(room / "other").secret(1), "1", "1-", "-", "%", "\0", "é", "order/", "9" * 5000}
    assert len(guesses) > 10_800 and right not in guesses
    told = set()
    for at, guess in enumerate(sorted(guesses - {""})):
        told.add(answer(*(("/my", guess) if at % 10 == 0 else (f"/my/{guess}",))))
        assert asked == ["/desk/readers/0"], guess
    assert len(told) == 1 and next(iter(told))[0] == "404 Not Found"
    for number, what in ((2, "ended"), (3, "was never given")):
        assert {answer("/my", cards.secret(number)), answer(f"/my/{cards.secret(number)}")} == told, f"a ticket that {what}"
        assert len(asked) == 1, "and the desk is asked as much"
    assert answer(f"/my/{right}")[0] == "302 Found" and answer("/my", right)[0] == "200 OK"


WAYS = [("queue.sock", "GET", "/desk/readers/1", 200), ("queue.sock", "GET", "/desk/queue/1", 200),
        ("queue.sock", "POST", "/desk/cancel", 409), ("queue.sock", "POST", "/public/orders", 409),
        *(("queue.sock", "GET", path, 404) for path in ("/desk/issued", "/desk/permits/1", "/desk/runs/1", "/desk/cancel",
                                                        "/public/fonds", "/public/units/1", "/desk/../desk/issued")),
        *(("queue.sock", "POST", f"/desk/{name}", 404) for name in (
            "seat", "leave", "issue", "return", "run", "register", "renew", "permit", "import/x", "readers/1", "day")),
        *(("readers.sock", method, path, 404) for method, path in (
            ("GET", "/desk/readers/1"), ("GET", "/desk/queue/1"), ("POST", "/desk/cancel")))]


@pytest.mark.parametrize("socket, method, path, status", WAYS)
def test_the_way_to_the_office_is_narrow_and_readers_pages_have_none(office, state, socket, method, path, status):
    from asking import Connection
    state.readers()
    connection = Connection(office.folder / ("my" if socket == "queue.sock" else "") / socket, 60)
    with contextlib.closing(connection):
        connection.request(method, path, '{"order":999999,"ticket":999999,"container":1}' if status == 409 else None)
        assert connection.getresponse().status == status


@pytest.mark.parametrize("path", ["/desk/readers/1", "/ready", "/my/1", "/cards/1", "/my/ready", "/de/my/1"])
def test_readers_reach_nothing_of_the_desks_side(office, path):
    for form in (None, "{}"):
        told = Reader(office).ask(path, form)
        assert told.status == 404 and "address" not in told.fields and SITE + "/my/1-" not in told.text, path


def test_a_secret_is_in_no_log_no_cache_and_no_index(desk_state, office):
    ann = desk_state.readers()[0]
    reader = desk_state.reader(ann)
    shown = [reader.ask(f"{at}/my/{secret}{more}") for at in ("", "/de") for secret in (reader.secret, f"{ann}-{'0' * 26}")
             for more in ("", "?lang=fr")]
    without = [reader.ask("/my"), reader.ask("/my/order", "container=1-1"), reader.ask("/my/cancel", "order=1")]
    for told in shown + without:
        got = [told.fields.get(name) for name in ("cache-control", "referrer-policy", "x-robots-tag", "etag")]
        assert got == ["no-store", "same-origin" if told in without else "no-referrer", "noindex", None], told
        assert told.status == 302 or (reader.secret not in told.text and f"{ann}-000" not in told.text), "nor on paper"
    for path in ("/public.css", "/my", f"/{reader.secret}/my"):
        reader.ask(path, Referer=f"{office.public}/my/{reader.secret}")
    assert "/my" not in reader.ask("/robots.txt").text
    with office.without_queue():
        assert reader.ask("/my").status == 503
    office.kill_my()
    assert {Reader(office).ask(f"/my/{reader.secret}").status, reader.ask("/my").status} == {503}
    office.serve_my("--messages", "yes")
    letters = reader.secret.partition("-")[2]
    reader.ask("/last.css")
    until(lambda: "/last.css" in (office.folder / "access.log").read_text(), "the log has the last line")
    for path in sorted(office.folder.rglob("*")):
        if path.is_file() and path.suffix in (".log", ".told"):
            assert letters not in path.read_text("utf-8", "replace").replace(f"/{reader.secret}/my HTTP", ""), path.name


# What staff and operator do

def test_a_lost_card_is_void_at_once_and_so_is_one_that_ended_or_whose_reader_was_erased(desk_state, asks, office):
    ann, ben = desk_state.readers()[:2]
    reader, other, address = desk_state.reader(ann), desk_state.reader(ben), asks.read(f"/my/{ann}")["address"]
    reader.open()
    asks.command(f"/my/{ann}")
    assert Reader(office, reader.secret).ask(f"/my/{reader.secret}").status == reader.ask("/my").status == 404, "the lost one"
    assert asks.read(f"/my/{ann}")["address"] != address and desk_state.reader(ann).open().status == 200, "the new one"
    assert other.open().status == 200, "another reader's is as it was"
    asks.command("/desk/renew", ticket=ben, until=PAST)
    assert other.ask("/my").status == 404, "one that has ended"
    asks.command("/desk/renew", ticket=ben, until=FAR)
    assert other.open().status == 200
    with tools() as my_cards:
        my_cards.void(Namespace(my=office.folder / "my.state"), [ben])
    assert other.ask("/my").status == 404, "one whose reader was erased"


class Namespace:
    def __init__(self, **members):
        self.__dict__.update(members)


@contextlib.contextmanager
def tools():
    """A context with the tools' module of what My orders keeps."""
    sys.path.insert(0, str(TOP / "packaging/tools"))
    try:
        yield importlib.import_module("my_cards")
    finally:
        sys.path.pop(0)


def test_a_copy_brings_the_key_to_another_machine_but_no_secret_back_that_was_taken(room):
    from cards import Cards
    places = [Namespace(my=room / name) for name in ("here", "there")]
    for place in places[:1]:
        place.my.mkdir()
    here = Cards(places[0].my)
    here.take_back(1)
    old = {number: here.secret(number) for number in (1, 2)}
    kept = {name: (places[0].my / name).read_bytes() for name in ("key", "my.db")}
    here.take_back(1)
    with tools() as my_cards:
        for place in places:
            for name, content in kept.items():
                my_cards.take(place, name, content)
    assert {number: Cards(places[1].my).secret(number) for number in (1, 2)} == old, "printed tickets are good there"
    assert Cards(places[0].my).ticket_of(old[1]) == 0 and here.ticket_of(here.secret(1)) == 1, "none comes back"
    assert {path.stat().st_mode & 0o777 for path in places[1].my.iterdir()} == {0o600}


def test_an_office_may_ask_the_secret_of_every_order(desk_state, asks, office):
    ann, unit = desk_state.readers()[0], desk_state.unit("Minutes")
    reader = desk_state.reader(ann)
    reader.open()
    with office.change_file("orders-from.conf", "default 1;", "default card;"):
        page = Reader(office).ask(f"/unit/{unit}").text
        assert "by its code" in page and 'id="ticket"' not in page
        for path, form in ((f"/unit/{unit}/order", f"ticket={ann}&container=1"),
                           ("/ordered/order", f"ticket={ann}&container=1-1"),
                           ("/public/orders", f'{{"ticket":{ann},"container":1}}')):
            assert reader.ask(path, form).status == 403, path
        assert Reader(office).ask("/my/order", "container=1-1&ticket=1").status == 404, "without the secret"
        assert desk_state.orders_of(ann) == {} and reader.ask("/my/order", f"container={unit}-1").status == 200
        assert list(desk_state.orders_of(ann).values()) == ["waiting"]
        desk_state.order(ann, 2)  # the desk may
    with office.change_file("orders-from.conf", "default 1;", "default 0;"):
        assert reader.ask("/my/order", f"container={unit}-3").status == 403, "not from here"


def test_an_office_may_switch_it_off(desk_state, asks, office):
    ann = desk_state.readers()[0]
    office.kill_my()
    try:
        assert asks.question(f"/my/{ann}", True) == (204, "") and Reader(office).ask("/my").status == 503
        told = Reader(office).ask("/public/orders", f'{{"ticket":{ann},"container":1}}')
        assert told.status == 200, "orders by a number go on"
    finally:
        office.serve_my("--messages", "yes")


@pytest.mark.parametrize("days", [20, pytest.param(250, marks=pytest.mark.thorough)])
def test_the_register_says_who_cancelled_through_a_year_and_the_office_who_ordered(desk_state, asks, office, room, days):
    """On My orders and at the desk at random. What readers cancel is kept for forty days, and a night reads again what it has
    read."""
    tickets, dice, began = desk_state.readers()[:3], random.Random(days), time.time()
    readers = {ticket: desk_state.reader(ticket) for ticket in tickets}
    assert {reader.open().status for reader in readers.values()} == {200}
    waiting, ordered, cancelled = {}, [], []
    for day in range(days):
        asks.command("/desk/day", day=f"{datetime.date(2025 + days // 100, 1, 1) + datetime.timedelta(day)}")
        for _ in range(dice.randint(2, 9)):
            who, ticket, box = dice.choice(("the reader", "desk")), dice.choice(tickets), dice.randint(1, 3)
            others = [order for (whose, _), order in waiting.items() if whose != ticket]
            readers[ticket].ask("/my/cancel", f"order={dice.choice([0, *others])}")
            if (ticket, box) in waiting:
                cancel(asks, readers[ticket] if who == "the reader" else None, waiting.pop((ticket, box)))
                cancelled.append((ticket, box, who, 1))
            else:
                number = order_from(readers[ticket], box) if who == "the reader" else desk_state.order(ticket, box)
                ordered.append((number, ticket, box, box + 1 if who == "the reader" else None))
                waiting[ticket, box] = number
        asks.try_command("/desk/run", {})
        pass_a_day(office, room, day % 10 == 9)
    print(f"{len(ordered)} orders, {len(cancelled)} cancelled, {sum(who == 'desk' for _, _, who, _ in cancelled)} at the desk")
    since = "SELECT ticket, container, staff, is_sure FROM event WHERE what = 'cancel' AND at > ? ORDER BY at"
    assert rows(room / "register.db", since, began) == cancelled
    from_first = """SELECT orders.id, orders.ticket, orders.container, unit FROM orders
        LEFT JOIN kept.wanted ON number = orders.id WHERE orders.id >= ? ORDER BY orders.id"""
    assert rows(room / "copy.db", from_first, ordered[0][0], kept=office.kept / "ordered.db") == ordered


def order_from(reader, box):
    """The number of a reader's order of a box, from the page of the unit behind it."""
    return int(re.search(' data-number="([0-9]+)"', reader.ask("/my/order", f"container={box + 1}-{box}").text)[1])


def cancel(asks, reader, order):
    """Cancels an order on My orders or, without a reader, at the desk."""
    if reader:
        assert "is cancelled" in reader.ask("/my/cancel", f"order={order}").text
    else:
        asks.command("/desk/cancel", order=order)


def pass_a_day(office, room, is_copied):
    """Makes what readers have cancelled older, and the register as in a night with a copy."""
    place = Namespace(my=office.folder / "my.state")
    with tools() as my_cards, my_cards.opened(place.my / my_cards.TABLE) as table:
        table.execute("UPDATE cancelled SET at = at - 86400")
        lines = [*my_cards.lines(place), (office.folder / "log-desk.log").read_text()]
    if is_copied:
        office.copy_store(room / "copy.db")
        command = [TOP / "packaging/lists/record-office-register", room / "register.db", "--copy", room / "copy.db"]
        subprocess.run(command, input="".join(lines), text=True, check=True, capture_output=True)


def rows(path, select, *values, **more):
    """Rows of a file of SQLite; more: further files by the names by which they are selected from."""
    with contextlib.closing(sqlite3.connect(path)) as db:
        for name, other in more.items():
            db.execute(f"ATTACH ? AS {name}", (str(other),))
        return db.execute(select, values).fetchall()


def test_who_wants_it_is_told_once_that_a_box_is_ready_by_the_operators_command(desk_state, asks, office, room):
    ann, ben = desk_state.readers()[:2]
    readers = [desk_state.reader(ticket) for ticket in (ann, ben)]
    assert [reader.open().status for reader in readers] == [200, 200]
    assert "You will get a message" in readers[0].ask("/my/message", "wanted=1").text
    place = Namespace(settings=room, cards=office.folder / "mine/cards.sock")
    told = room / "told"

    def tell(command="cat >> told"):
        (room / "my-orders.conf").write_text(f"READY_COMMAND='cd {room} && {command}'\n")
        with tools() as my_cards:
            my_cards.tell_ready(place)
        return told.read_text().split() if told.exists() else []

    assert tell() == []
    desk_state.fetch((ann, 1), (ben, 2))
    assert tell("exit 1") == [] and tell() == tell() == [str(ann)], "again if the command failed, else once"
    desk_state.fetch((ann, 3))
    assert tell() == [str(ann)] * 2, "another box"
    assert "no more messages" in readers[0].ask("/my/message", "").text
    desk_state.fetch((ann, 4))
    assert tell() == [str(ann)] * 2


# In the browser

@pytest.mark.browser
@pytest.mark.needs("chromium", "zbarimg")
def test_the_printed_code_leads_a_phone_without_scripts_to_orders_and_back(browser, desk_state, desk, office, room, shot):
    ann = desk_state.readers()[0]
    address = f"{SITE}/my/{desk_state.secret(ann)}"
    for at, words in ((f"/readers/{ann}/ticket", "Your orders"), (f"/readers/{ann}", "Make a new address")):
        desk.at(at).see(words)
        desk.see(address)
        desk.shot(room / "code.png")
        shot(desk, f"my-orders-at-desk-{at.count('/')}")
        assert address in subprocess.check_output(["zbarimg", "-q", "--raw", room / "code.png"], text=True).split()
    with browser.tab(office.public) as phone:
        phone.size(390, 800, 3, True)
        phone.call("Emulation.setScriptExecutionDisabled", value=True)
        phone.visit(address.removeprefix(SITE)).see("No order is waiting")
        assert phone.js("location.pathname") == "/my", "nothing of the secret stays in the address"
        phone.visit(f"/unit/{desk_state.unit('Minutes')}")
        phone.press_starting("Order")
        phone.js("document.querySelector('form.command button').click()")
        phone.see("Ordered.")
        phone.see("It waits, and you are next.")
        measured = Measured(phone)
        measured.structure()
        measured.measure("1.4.3 contrast", "contrast")
        measured.sizes()
        assert not measured.broken
        phone.press_starting("Cancel")
        phone.see("Your order is cancelled.")
        phone.visit("/my").see("No order is waiting")
    desk.press("Make a new address")
    desk.press("Make a new address", "dialog")
    desk.see("The ticket has a new address.")
    assert address not in desk.text() and desk_state.secret(ann) in desk.text()


@pytest.mark.browser
@pytest.mark.needs("chromium")
def test_what_was_collected_is_ordered_without_a_number(browser, desk_state, desk, office):
    """And the desk sees for which unit it is, wherever it sees the order."""
    ann = desk_state.readers()[0]
    office.copy_store("office-2024-03-01.db")
    with browser.tab(office.public) as hall:
        hall.visit(f"/my/{desk_state.secret(ann)}").see("No order is waiting")
        hall.visit(f"/unit/{desk_state.unit('Minutes')}").press("Collect it, to order later")
        hall.visit("/ordered").see(f"You order with ticket {ann}.")
        hall.press("Order all of these")
        hall.see("It waits, and you are next.")
        order = next(iter(desk_state.orders_of(ann)))
        hall.visit("/ordered").see(f"order {order}")
    for address in (f"/readers/{ann}", "/orders"):
        desk.at(address).see(WANTED)
    desk.at("/runs").press("Begin a run")
    desk.see(WANTED, ".beside")
    desk.press("Call slips to cut")
    desk.see(WANTED, ".call-slip")
