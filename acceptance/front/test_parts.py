"""Who of the staff may do what: three parts, and somebody with one that there is not, on every route of the table of RULES,
with stand-ins behind the front; and in the browser what is shown to whom."""

import re
import signal

import pytest

from acceptance.client import TOP
from acceptance.front.asks import ask_once, body_of, status
from acceptance.front.catalogue import archives, dock_company
from acceptance.front.office import FRONT, PARTS, PASSWORD, SELDOM, signed_in
from acceptance.front.test_answers import Front
from acceptance.front.waits import until
from acceptance.reference_model.requests import COMMANDS, QUESTIONS

RANKS = ("counter", "archivist", "all")
STAFF = {part: name for name, part in PARTS.items()} | {"all": PASSWORD[0]}
ROW = re.compile(r"^\| (counter|archivist|all) \| ([^|]+) \| ((?:`/[^`]*` ?)+)\|$", re.M)
RULES = (TOP / "docs/RULES.md").read_text("utf-8")
ROWS = [(part, what, re.findall("`([^`]+)`", paths)) for part, what, paths in ROW.findall(RULES)]
TABLE = {path: part for part, _, paths in ROWS for path in paths}


def written(path):
    """The paths that a path of the table stands for."""
    path = re.sub(r"N$", "1", path.replace("SOURCE", "catalogue").replace("LANGUAGE", "de"))
    if "-without-row" in path:
        path += "-catalogue"
    ends = [".html", ".csv", *["-2024.svg"] * path.startswith("/lists/year-")]
    return [path + end for end in ends] if re.fullmatch(r"/lists/[\w-]+", path) else [path]


@pytest.fixture(scope="module")
def front(module_room):
    """The front with stand-ins behind it, and a file in place of each list."""
    front = Front(module_room / "front")
    front.begin()
    for path in (one for path in TABLE if path.startswith("/lists/") for one in written(path)):
        place = front.folder / "cache" / path.removeprefix("/").removesuffix("/")
        if not path.endswith("/"):
            place.write_text(place.name)
    yield front
    front.end()


def ask(front, name, path, password=PASSWORD[1], other=False):
    """What the desk answers to somebody: status and body; and whether it came to one of those behind. other: to the other one
    of GET and POST."""
    for one in front.behind:
        one.requests.clear()
    port = front.ports["8081"]
    is_command = (path in COMMANDS or path.startswith(("/try/", "/desk/import/"))) != other
    method, body = ("POST", "{}") if is_command else ("GET", None)
    answer = ask_once(port, method, path, body, f"127.0.0.1:{port}", signed_in(name, password))
    return status(answer), body_of(answer).decode(), any(one.requests for one in front.behind)


@pytest.mark.parametrize("part", [*RANKS, "clerk"])
@pytest.mark.parametrize("least, what, paths", ROWS, ids=[f"{least}: {what}" for least, what, _ in ROWS])
def test_each_part_of_the_staff_reaches_what_is_its_own_and_nothing_else(front, least, what, paths, part):
    may = part in RANKS[RANKS.index(least):]
    for path in (one for path in paths for one in written(path)):
        got, body, came = ask(front, STAFF[part], path)
        behind = path.startswith(("/desk/", "/try/", "/public/", "/my/"))
        if may:
            assert came == behind and got in ((401,) if path == "/sign-out" else (200,) if behind else (200, 204)), (path, got)
        else:
            refused = 403, f'{{"error":"not your part","needs":"{least}"}}', False
            assert (got, body, came) == refused == ask(front, STAFF[part], path, other=True), path


def test_the_table_has_every_route_of_the_program_and_every_list():
    routes = {*COMMANDS, *(f"{path}N" if path.endswith("/") else path for path in QUESTIONS), "/desk/import/SOURCE"}
    tries = re.search(r"\^/try/(.*)", (FRONT / "server/desk.conf").read_text("utf-8"))[1]
    tries = {*re.findall(r"\b[a-z]{4,}\b", tries)} - {"dates"}
    assert tries == {path.split("/")[2] for path in TABLE if path.startswith("/try/")}
    scripts = [path.read_text("utf-8") for folder in ("desk", "shared") for path in sorted((FRONT / folder).glob("*.js"))]
    asked = {path for script in scripts for path in re.findall(r"fetch\('(/[\w.-]+\.json)'", script)}
    lists = (TOP / "packaging/lists/lists.sql").read_text("utf-8")
    found = re.findall(r"^-- list: (.*)\n-- title: .*\n(?:-- part: (.*)\n)?", lists, re.M)
    assert {f"/lists/{name}": part or "all" for name, part in found}.items() <= TABLE.items(), "each list is for its part"
    assert routes | asked | {"/my/N"} <= TABLE.keys(), (routes | asked) - TABLE.keys()
    listed = {path for path in TABLE if path.startswith(("/desk/", "/public/"))}
    assert listed <= routes, listed - routes


def test_what_no_line_names_is_for_who_has_all_parts(front):
    for path in ("/desk/none", "/desk/Permits/1", "/lists/own.html", "/lists/drafts.htm", "/none.txt"):
        assert [ask(front, STAFF[part], path)[0] == 403 for part in RANKS] == [True, True, False], path


@pytest.mark.parametrize("path", ["/desk/permits/1?x=/desk/day", "/desk//permits/1", "/desk/./permits/1", "/%64esk/permits/1",
                                  "/desk/x/../permits/1", "/lists/%64rafts.csv"])
def test_however_a_path_is_written_it_is_for_the_same_part(front, path):
    assert ask(front, STAFF["counter"], path)[0] == 403


def test_each_file_of_the_pages_is_for_everybody(front):
    names = [path.name for path in sorted((FRONT / "desk").iterdir()) if path.name != "signed-out.html"]
    assert {name: ask(front, STAFF["counter"], f"/{name}")[0] for name in names} == dict.fromkeys(names, 200)


def test_the_password_comes_before_the_part(front):
    """So nobody learns without one who has which part."""
    for path in ("/desk/import/catalogue", "/signed-in.json"):
        assert ask(front, STAFF["counter"], path, "wrong")[0] == 401, path


def test_each_part_has_its_own_page_of_lists(front):
    found = {part: ask(front, STAFF[part], "/lists/")[1] for part in RANKS}
    assert found == {"counter": "index-counter.html", "archivist": "index-archivist.html", "all": "index.html"}
    (front.folder / "cache/lists/index-counter.html").unlink()
    assert ask(front, STAFF["counter"], "/lists/")[1] == "index.html", "until a night has made it"


def test_where_only_names_and_passwords_are_told_everybody_may_do_all(front):
    """So it is after an upgrade of an office whose file has no parts, and where the desk is in a site of the operator's."""
    parts = front.folder / "desk/staff.conf"
    told = parts.read_text()
    parts.unlink()
    try:
        read_anew(front, "counter", 200)
        for part in ("counter", "clerk"):
            assert [ask(front, STAFF[part], path)[0] for path in ("/desk/permits/1", "/lists/visits.csv")] == [200, 200], part
    finally:
        parts.write_text(told)
        read_anew(front, "counter", 403)


def read_anew(front, part, wanted):
    """Has the desk's nginx read its files, until a unit's route is answered so, also by workers that end only then."""
    next(one for one in front.nginx if "desk-nginx" in str(one.args[-1])).send_signal(signal.SIGHUP)
    until(lambda: {ask(front, STAFF[part], "/desk/status")[0] for _ in range(30)} == {wanted}, f"{part} is answered {wanted}")


@pytest.fixture(scope="module")
def office(new_office, module_room):
    return new_office(readers=SELDOM, files=archives(module_room, catalogue=dock_company()))


IMPORT, UNIT, PERMIT = "Import", "Set the closure", "Give a permit"
REFUSED = "performance.getEntriesByType('resource').filter((one) => one.responseStatus === 403).length"
SAYS = {"counter": "with the part of the counter", "archivist": "with the part of an archivist", "all": "with all parts"}


@pytest.mark.browser
@pytest.mark.needs("chromium")
@pytest.mark.parametrize("part", RANKS)
def test_what_is_not_of_a_part_is_not_shown_and_today_says_who_has_signed_in(browser, office, state, part):
    ticket, is_archivist = state.start()[0], part != "counter"
    with browser.tab(office.staff, signed_in(STAFF[part])) as page:
        page.at("/").see(f"{STAFF[part]} has signed in, {SAYS[part]}.")
        links = page.js("[...document.querySelectorAll('header nav a')].map((one) => one.textContent).join()")
        assert ("Units" in links, IMPORT in links, "Orders" in links) == (is_archivist, is_archivist, True)
        for at, words, own in ((f"/readers/{ticket}", PERMIT, "Give a seat"), ("/units/1", UNIT, "Another unit")):
            page.at(at).see(own)
            assert ((words in page.text()), page.js(REFUSED)) == (is_archivist, 0), at
        page.at("/import").see("Import the file" if is_archivist else "This is for archivists.")
