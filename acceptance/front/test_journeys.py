"""Journeys of a reader: from the list of archives or a search to a unit, its order and back; by keyboard alone on a desk's
screen and at 200 %, and by thumb on a phone. And what a list, a wide series and a long finding aid take."""

import csv
import json

import pytest

from acceptance.front.browser import LEAVE, TWO_FRAMES
from acceptance.front.catalogue import archives, deep, dock_company, harbour, wide
from acceptance.front.office import MANY_PAGES
from acceptance.front.waits import until

pytestmark = [pytest.mark.browser, pytest.mark.needs("chromium")]

SHAPES = {"desk": (1280, 850, 1, False), "phone": (390, 844, 2, True), "200": (640, 425, 2, False)}
ORDERED = "Ordered. Your order has the number"
TICKET = "Number of your reader’s ticket"
LEVELS = 64  # of the deep archive
LONG = 2500  # units of the long finding aid, which is printed in parts

INSIDE = """((selector) => { const box = document.querySelector(selector).getBoundingClientRect();
  return box.height > 0 && box.top >= 0 && box.bottom <= innerHeight + 1; })"""
# The middle of what begins with these words, or of its first 60 px; `isMet` is true once it was clicked.
TARGET = """(words) => { const text = (one) => (one.labels?.[0] ?? one).textContent.replace(/\\s+/g, ' ').trim();
  const one = [...document.querySelectorAll('a, button, summary, input')]
    .find((it) => it.offsetParent && text(it).startsWith(words));
  window.isMet = false; one.addEventListener('click', () => { window.isMet = true; }, { once: true });
  one.scrollIntoView({ block: 'nearest' }); const { left, top, width, height } = one.getBoundingClientRect();
  const [x, y] = [left + Math.min(width, 60) / 2, top + height / 2];
  return { x, y, height, free: one.contains(document.elementFromPoint(x, y)) }; }"""
FOCUS_TEXT = """(document.activeElement.labels?.[0] ?? document.activeElement).textContent
  .replace(/\\s+/g, ' ').trim()"""
IS_FOCUS_SEEN = """(() => { const box = document.activeElement.getBoundingClientRect();
  const top = document.elementFromPoint(box.left + Math.min(box.width, 20) / 2, box.top + Math.min(box.height, 20) / 2);
  return document.activeElement.contains(top); })()"""
SHOWN_BLOCKS = """[...document.querySelectorAll('.block')]
  .filter((block) => getComputedStyle(block).display !== 'none').length"""
TYPED = "document.activeElement.dispatchEvent(new Event('input', { bubbles: true }))"
# Counts what was asked for and has been answered, or given up.
COUNT_ENDED = """(() => { const { send } = XMLHttpRequest.prototype; window.ended = 0;
  XMLHttpRequest.prototype.send = function () {
    this.addEventListener('loadend', () => { window.ended += 1; }); send.call(this); }; })()"""
# Keeps what is saved as a file.
CATCH_FILE = """URL.createObjectURL = (blob) => { blob.text().then((text) => { window.saved = text; }); return '#'; };
  HTMLAnchorElement.prototype.click = () => {}"""


@pytest.fixture(scope="module")
def office(new_office, module_room):
    """An office with a harbour board's archive, a deep one, one with a long finding aid, and those of the day."""
    files = archives(module_room, harbour=harbour(), deep=deep(LEVELS), long=wide(LONG), dock=dock_company())
    office = new_office(readers=True, files=files, changes=[("rate=6r/m", "rate=600r/m"), *MANY_PAGES])
    until(office.count_rounds, "a round is over", 5)
    return office


@pytest.fixture
def ticket(state):
    return state.register("Ann")


def number_of(asks, words):
    """The number of the archive whose line has these words."""
    return int(next(line for line in asks.text("/public/fonds").splitlines() if words in line).split()[0])


@pytest.fixture(scope="module")
def top(asks):
    return number_of(asks, "HAR")


@pytest.fixture(scope="module")
def logbook(asks, top):
    lines = asks.text(f"/public/units/{top + 1}").splitlines()
    return int(next(line for line in lines if "Logbook" in line).split()[1].rstrip(":"))


# Ways to use a page

@pytest.fixture(params=SHAPES)
def use(request, hall):
    """Uses what begins with these words, in the way of a window: with keys, or on a phone with a thumb."""
    hall.size(*SHAPES[request.param])

    def use_keys(words):
        """Tab to it, which must then be seen, and Enter."""
        hall.tab_until(f"{FOCUS_TEXT}.startsWith({hall.quote(words)})", words)
        assert hall.js(IS_FOCUS_SEEN), words
        if hall.js("document.activeElement.tagName !== 'INPUT'"):
            hall.key("Enter")

    def tap(words):
        """A thumb on it: nothing may lie over it, and it is large enough. What is added to the page just then may move it
        away, so the thumb tries again until it has met it."""
        def met():
            """Taps once; returns the place if the tap was received."""
            box = hall.js(f"({TARGET})({hall.quote(words)})")
            for kind in ("mousePressed", "mouseReleased"):
                hall.call("Input.dispatchMouseEvent", type=kind, button="left", clickCount=1, x=box["x"], y=box["y"])
            # a page that was left has met it
            return box["free"] and hall.js(f"{TWO_FRAMES}.then(() => window.isMet ?? true)") and box
        assert until(met, f"a thumb meets {words}")["height"] >= 24, words

    way = tap if request.param == "phone" else use_keys
    way.shape = request.param
    return way


def is_inside(hall, selector):
    """Whether an element is in the window from top to bottom."""
    return hall.js(f"{INSIDE}({hall.quote(selector)})")


# Journeys

def test_a_reader_comes_from_the_archives_by_a_finding_aid_to_an_order_and_back(hall, asks, use, ticket, logbook):
    """What matters is in the window each time; Back leads to what was found."""
    hall.visit("/")
    use("GB 0999 HAR [Fonds] Harbour Board")
    hall.see("Contents: 2 units")
    use("Finding aid")
    hall.see("Finding aid: Harbour Board", "h1")
    use("Search in this finding aid")
    hall.type("cafe logb*")
    hall.key("Enter")
    hall.see("1 unit.", ".told")
    assert hall.js("[...document.querySelectorAll('.hit mark')].map((one) => one.textContent)") == ["Logbook", "Cafe\u0301"]
    use("GB 0999 HAR/1/77 [File] Logbook")
    hall.see("Cafe\u0301", "h1")
    assert hall.js("location.pathname") == f"/unit/{logbook}"
    if use.shape != "200":
        assert is_inside(hall, "details.order summary"), "the order button"
    order_a_carton(hall, use, ticket)
    hall.js("history.go(-3)")  # over the answers to both forms
    hall.see("1 unit.", ".told")
    assert hall.js("document.querySelector('#find-q').value") == "cafe logb*"


def order_a_carton(hall, use, ticket):
    """Orders a container of the unit that is shown, first with a ticket that nobody has."""
    use("Order")
    hall.wait("document.activeElement.name === 'container'")
    hall.js("document.activeElement.click()")
    use(TICKET)
    assert hall.js("document.activeElement.inputMode") == "numeric", "a phone offers digits"
    hall.type("999")
    hall.key("Enter")
    hall.see("There is no reader\u2019s ticket with this number.")
    hall.wait("document.activeElement.className === 'outcome'")
    assert is_inside(hall, ".outcome .note"), "the refusal"
    hall.choose("Carton 77a")
    hall.fill(TICKET, str(ticket))
    hall.key("Enter")
    hall.see(ORDERED, ".outcome")
    hall.wait("document.activeElement.className === 'outcome'")
    assert is_inside(hall, ".outcome"), "the answer"
    assert "next run to the strongrooms" in hall.text(".outcome")


def test_a_reader_comes_from_the_search_to_an_order(hall, asks, use, ticket):
    hall.visit("/")
    use("Search in all archives")
    hall.type("minutes 1774")
    hall.key("Enter")
    hall.see("unit", ".told")
    assert hall.js("document.documentElement.scrollWidth <= innerWidth"), "it need not be scrolled sideways"
    use("GB 0999 HUL/1 [Series] Minutes")
    hall.see("Where it is kept")
    use("Order")
    hall.wait("document.activeElement.name === 'ticket'")
    hall.type(str(ticket))
    hall.key("Enter")
    hall.see(ORDERED, ".outcome")
    hall.wait("document.activeElement.className === 'outcome'")
    assert is_inside(hall, ".outcome")
    assert [one["state"] for one in asks.read(f"/desk/readers/{ticket}")["orders"]] == ["waiting"]


# Orders and lists

def send(hall, boxes, ticket, words):
    """Orders these containers of the unit that is shown, and waits for what is said."""
    hall.js("document.querySelector('details.order').open = true")
    for box in boxes:
        hall.choose(box)
    hall.fill(TICKET, str(ticket))
    hall.press("Order these containers")
    hall.see(words)
    hall.wait("document.readyState === 'complete'")


def test_of_several_containers_one_is_refused_beside_one_that_is_not(hall, asks, ticket, logbook):
    """The list of what was ordered is kept only if the reader wants it."""
    hall.visit(f"/unit/{logbook}")
    send(hall, [], ticket, "No container is chosen. Choose at least one.")
    send(hall, ["Carton 77a"], ticket, ORDERED)
    send(hall, ["Carton 77a", "Carton 77b"], ticket, f"Ordered: 1 of 2 containers, with ticket {ticket}.")
    assert "Carton 77a: not ordered. You have ordered this container already." in hall.text(".outcome")
    assert hall.js("sessionStorage.length") == 0, "no list is kept unasked"
    hall.press("Keep a list of my orders in this tab")
    hall.visit("/ordered").see("Carton 77b\norder", "ul.units")
    assert hall.js("document.querySelectorAll('ul.units li').length") == 1
    hall.press("Forget this list")
    hall.see("Nothing is on your list.")
    assert hall.js("sessionStorage.length") == 0
    hall.visit(f"/unit/{logbook}")
    send(hall, ["Carton 77a", "Carton 77b"], 4711, "There is no reader\u2019s ticket with this number.")
    assert len(asks.read(f"/desk/readers/{ticket}")["orders"]) == 2


def test_units_are_collected_and_ordered_together(hall, asks, ticket, logbook):
    """The ticket is typed once; what came of each stands on the list, which is printed and saved."""
    for number in (logbook, logbook + 1):
        hall.visit(f"/unit/{number}").press("Collect it, to order later")
        hall.see("It is on your list.", ".collect")
    hall.see("Your list (3)", "header")
    hall.press("Your list (3)")
    hall.see("Carton 78", "ul.units")
    hall.js(f"{LEAVE}; document.querySelector('[data-drop]').click()")
    hall.await_page("document.querySelectorAll('ul.units li').length === 2")
    hall.fill(TICKET, str(ticket))
    hall.press("Order all of these")
    hall.see(f"Ordered: 2 of 2 containers, with ticket {ticket}.", ".outcome")
    hall.wait("document.readyState === 'complete'")
    orders = [order["order"] for order in asks.read(f"/desk/readers/{ticket}")["orders"]]
    told = hall.js("[...document.querySelectorAll('[data-told]')].map((one) => one.textContent)")
    assert told == [f"order {order}" for order in orders]
    assert hall.js("JSON.parse(sessionStorage.getItem('list') ?? '[]').map((one) => +one.order)") == orders
    assert hall.js("document.querySelector('[data-open]').hidden"), "they are not offered again"
    hall.js(CATCH_FILE)
    hall.press("Save the list as CSV")
    hall.wait("window.saved")
    lines = hall.js("window.saved").splitlines()
    assert len(lines) == 3
    for part in ("Carton 78", f'"{orders[1]}"', "Record office, GB 0999 HAR/1/78"):
        assert part in lines[2]
    hall.call("Emulation.setEmulatedMedia", media="print")
    assert "Record office, GB 0999 HAR/1/77" in hall.text("ul.units"), "the citations are printed"
    hall.call("Emulation.setEmulatedMedia", media="")
    hall.press("Forget this list")
    hall.see("Nothing is on your list.")
    assert hall.js("getComputedStyle(document.querySelector('[data-list] ul.units')).borderTopWidth") == "0px"


def test_a_second_click_orders_nothing_until_a_reader_comes_back_to_where_the_order_was_sent(hall, logbook):
    """Else the reader would be told that it is ordered already. Who comes back to the page as it was left can order again."""
    kept_back = hall.visit(f"/unit/{logbook}").js("""(() => {
      const form = document.querySelector('details.order form'), kept = [];
      form.addEventListener('submit', (event) => { kept.push(event.defaultPrevented); event.preventDefault(); });
      const send = () => form.dispatchEvent(new SubmitEvent('submit', { cancelable: true }));
      send(), send(), window.dispatchEvent(new PageTransitionEvent('pageshow', { persisted: true })), send();
      return kept; })()""")
    assert kept_back == [False, True, False], "what is kept back: the first press, a second, and one after coming back"


def test_what_is_refused_stays_on_the_list_with_its_reason(hall, asks, ticket, logbook):
    carton = int(hall.visit(f"/unit/{logbook}").js("document.querySelector('[data-box]').dataset.box"))
    asks.command("/public/orders", ticket=ticket, container=carton)
    hall.press("Collect it, to order later")
    hall.visit("/ordered").fill(TICKET, str(ticket))
    hall.press("Order all of these")
    hall.see(f"Ordered: 1 of 2 containers, with ticket {ticket}.", ".outcome")
    hall.visit("/help").visit("/ordered").see("You have ordered this container already.", "ul.units")
    assert hall.js("document.querySelectorAll('ul.units input').length") == 1


def test_a_list_of_another_page_is_shown_when_this_one_is_shown_again_as_it_was_left(hall):
    entry = {"unit": "1", "box": "1", "head": "=1+1", "name": "@sum of \"a\"", "cite": "-2", "order": ""}
    hall.visit("/ordered").js(f"sessionStorage.setItem('list', {hall.quote(json.dumps([entry]))})")
    hall.js("window.dispatchEvent(new PageTransitionEvent('pageshow', { persisted: true }))")
    hall.see("Your list (1)", "header")
    hall.see('@sum of "a"', "ul.units")
    hall.js(CATCH_FILE)
    hall.press("Save the list as CSV")
    hall.wait("window.saved")
    assert list(csv.reader(hall.js("window.saved").splitlines()))[1][:3] == ["'-2", "'=1+1", "'@sum of \"a\""], (
        "what is saved is text, and a title with quotation marks stays in its column")


def test_a_reader_whose_browser_keeps_nothing_is_told_so(hall, logbook):
    hall.call("Page.addScriptToEvaluateOnNewDocument", source="""Object.defineProperty(window, 'sessionStorage',
      { get() { throw new DOMException('refused', 'SecurityError'); } })""")
    assert hall.visit(f"/unit/{logbook}").js("document.querySelector('[data-collect]').hidden")
    hall.visit("/ordered").see("Your browser does not let this page keep a list. You can order on the pages of units.")


def test_a_filter_that_is_not_answered_says_so(hall, top):
    """And does not look as if nothing were there."""
    hall.visit(f"/unit/{top + 1}").answer_with("*only=contents*", 503, b"")
    hall.fill("Show only units with", "captain")
    hall.js(TYPED)
    hall.see("Nothing was looked for. Please try again in a minute.", "#contents")


# What the pages have

def test_a_series_is_shown_a_hundred_at_a_time_and_filtered_at_each_key(hall, office, top):
    """Back keeps the filter; a unit names those beside it, and how to cite it. A late answer to other words is not shown."""
    hall.visit(f"/unit/{top + 1}").see("1 to 100 of 121 units.")
    assert hall.js("document.querySelectorAll('.contents .facts')[1].textContent") == "1802 \u00b7 1 bundle"
    hall.press("Next 100")
    hall.see("101 to 121 of 121 units.")
    hall.js(COUNT_ENDED)
    hall.answer_with("*has=captain*", 503, b"")
    hall.browser.answer = None  # an answer is held back
    hall.fill("Show only units with", "captain")
    hall.js(TYPED)
    until(lambda: hall.count_sent("GET", "has=captain"), "the office is asked")
    hall.fill("Show only units with", "CAFE ank")
    hall.js(TYPED)
    hall.see("1 to 1 of 1 unit.")
    hall.answer_with(None, 0, b"")  # and comes now
    hall.wait("window.ended === 2")
    assert "1 to 1 of 1 unit." in hall.text(), "a reader sees what other words have found"
    hall.js("document.querySelector('.contents ul.units a').click()")
    hall.see("Cafe\u0301", "h1")
    assert hall.js("[...document.querySelectorAll('nav.beside a')].map((a) => a.textContent)") == [
        "Previous: GB 0999 HAR/1/76 [File] Letters of captain 76", "Next: GB 0999 HAR/1/78 [File] Letters of captain 78"]
    hall.press_starting("Cite this unit")
    assert hall.text(".citation") == ("Record office, GB 0999 HAR/1/77, Logbook of the Cafe\u0301 Zum Anker, 1877, "
                                      f"{office.public}/ref/GB/0999/HAR/1/77")
    hall.js("history.back()")
    hall.see("1 to 1 of 1 unit.")
    assert hall.js("document.querySelector('.filter input').value") == "CAFE ank"
    hall.fill("Show only units with", "nothing")
    hall.js(TYPED)
    hall.see("No unit here has these words.")


def test_a_list_of_more_than_five_hundred_gets_its_dates_and_those_of_what_is_filtered(hall, asks):
    hall.visit(f"/unit/{number_of(asks, 'WIDE')}")
    hall.wait("document.querySelectorAll('.contents .facts').length === 100")
    assert hall.js("document.querySelectorAll('.contents .facts')[1].textContent") == "1702 \u00b7 1 bundle"
    hall.fill("Show only units with", "ship 117")
    hall.js(TYPED)
    hall.wait("document.querySelectorAll('.contents .facts').length < 100")
    hall.see("1817 \u00b7 1 bundle", "#contents")


def test_the_branch_below_a_unit_opens_without_one_more_request(hall, top, logbook):
    """A line of it leads to its unit, which is marked among the others."""
    asked = "performance.getEntriesByType('resource').filter((one) => /fetch|request/.test(one.initiatorType)).length"
    before = hall.visit(f"/unit/{top}").js(asked)
    hall.press_starting("121 units")
    hall.wait("document.querySelectorAll('details.branch[open] li').length === 101")
    assert hall.js(asked) == before
    assert "And 21 more: open the unit to see them." in hall.text("details.branch")
    hall.js("document.querySelectorAll('details.branch a')[77].click()")
    hall.see("Cafe\u0301", "h1")
    assert hall.js("location.pathname") == f"/unit/{logbook}"
    hall.see("Logbook", "details.level [aria-current=page]")


def test_contents_begin_in_the_first_window(hall, top):
    """Beside the description or, on a phone, below the head, with or without scripts; and there a long list is folded."""
    for name, shape in SHAPES.items():
        hall.size(*shape)
        hall.visit(f"/unit/{top + 1}")
        assert hall.js("document.querySelector('#contents').getBoundingClientRect().top + scrollY") < 600, name
        assert hall.js("document.querySelector('#contents').open") == (name == "desk"), name
    hall.size(*SHAPES["phone"])
    hall.call("Emulation.setScriptExecutionDisabled", value=True)
    hall.visit(f"/unit/{top + 1}")
    assert hall.js("document.querySelector('.description').getBoundingClientRect().top + scrollY") < 1500


def test_of_a_long_finding_aid_one_part_is_printed(hall, asks, room):
    hall.visit(f"/aid/{number_of(asks, 'WIDE')}")
    hall.wait(f"document.querySelectorAll('.aid .unit').length === {LONG + 1}")
    assert hall.js("document.querySelectorAll('.tools option').length") > 1
    hall.js("""(() => { const list = document.querySelector('.tools select'); list.value = '1';
      list.dispatchEvent(new Event('change')); })()""")
    assert hall.js("document.querySelectorAll('.block.printed').length") == 10
    hall.call("Emulation.setEmulatedMedia", media="print")
    assert hall.js(SHOWN_BLOCKS) == 10
    hall.call("Emulation.setEmulatedMedia", media="")
    hall.pdf(room / "part.pdf")
