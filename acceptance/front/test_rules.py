"""What no reader and no page of another site may do, tried on a whole office. What each site answers to what stands in
test_answers.py."""

import base64
import concurrent.futures
import itertools
import json
import threading
import time
from http.server import BaseHTTPRequestHandler, ThreadingHTTPServer

import pytest

from acceptance import client
from acceptance.front.asks import ask_once, exchange, fields_of, send_at_once, status
from acceptance.front.office import ARCHIVES, MANY_PAGES, PASSWORD, SIGNED_IN

# Ways to write the path of a desk route that a careless server might pass on.
ODD_PATHS = [form.format(way) for way in ("desk/issued", "desk/run", "desk/register") for form in (
    "/{}", "//{}", "/./{}", "/public/../{}", "/public/..%2f{}", "/public/..%2F{}", "/public/%2e%2e/{}",
    "/public/%2e%2e%2f{}", "/public/..;/{}", "/public/.%2e/{}", "/public/units/../../{}", "/public/units/..%2f..%2f{}",
    "/public/aid/1/../../../{}", "/public\\..\\{}", "/public/%5c..%5c{}", "/%2f{}", "/shared/../{}", "http://x/{}")] + [
    "/%64esk/issued", "/DESK/issued", "/desk%2fissued", "/desk/issued%00", "/desk/issued?x=/public/fonds",
    "/public/units/1/..%2f..%2f..%2fdesk/issued"]
STRAY = {"name": "Stray", "until": "2030-01-01"}
# A page whose form and script send commands to the desk at %s.
FOREIGN_PAGE = """<!doctype html><title>x</title><form method=post action='%s/desk/register' enctype=text/plain>
<input name='{"name":"Stray","until":"2030-01-01","x":"' value='"}'></form><script>
const send = (path) => fetch('%s' + path, {method: 'POST', body: '{"name":"Stray","until":"2030-01-01"}',
  mode: 'no-cors', credentials: 'include'}).catch(() => 0);
Promise.all([send('/desk/register'), send('/desk/run'), send('/desk/reshelve')])
  .finally(() => document.forms[0].submit())</script>"""


@pytest.fixture(scope="module")
def office(new_office):
    """An office with archives, where nobody is told that there were too many pages."""
    return new_office(readers=True, changes=MANY_PAGES, files=[("archives", ARCHIVES)])


@pytest.fixture
def nothing_is_done(asks):
    """Fails if a test has registered a reader or begun a run."""
    before = asks.next_ticket(), asks.next_number("/desk/runs")
    yield
    assert (asks.next_ticket(), asks.next_number("/desk/runs")) == before


def test_however_a_reader_writes_a_path_it_does_not_come_to_the_desk(office, nothing_is_done):
    for path, method in itertools.product(ODD_PATHS, ("GET", "POST")):
        got = ask_once(office.ports["8080"], method, path, json.dumps(STRAY) if method == "POST" else "")
        page = got.split(b"\r\n\r\n", 1)[-1]
        safe = status(got) in (400, 403, 404, 405) and b'"ticket"' not in page and page.strip() != b"[]"
        assert safe, (method, path, got[:200])


def time_password(office, path, given):
    """The desk's answer to who gives this for a password (nothing: does not), and how many seconds it takes."""
    began, port = time.monotonic(), office.ports["8081"]
    got = ask_once(port, "GET", path, host=f"{client.HOST}:{port}", fields={"Authorization": given} if given else {})
    return got, time.monotonic() - began


def test_a_wrong_password_is_answered_late_and_signing_in_and_out_at_once(office):
    wrong = base64.b64encode(f"{PASSWORD[0]}:wrong".encode()).decode()
    got, late = time_password(office, "/desk/issued", f"Basic {wrong}")
    assert status(got) == 401
    assert status(time_password(office, "/desk/issued", SIGNED_IN["Authorization"])[0]) == 200
    for path, given in (("/", ""), ("/desk/issued", ""), ("/sign-out", ""), ("/sign-out", SIGNED_IN["Authorization"])):
        got, took = time_password(office, path, given)
        assert (status(got), "www-authenticate" in fields_of(got)) == (401, True), f"{path} asks for a password"
        assert took < late - 1, (f"at once at {path} {'with a right one' * bool(given)}", (took, late))


def test_wrong_passwords_keep_nobody_else_waiting(office):
    """Of one name from one address a limited number is looked at, at a time."""
    wrong, port = base64.b64encode(b"guest:wrong").decode(), office.ports["8081"]
    fields = {"Authorization": f"Basic {wrong}", "Connection": "close"}
    request = client.request("GET", "/desk/issued", host=f"{client.HOST}:{port}", fields=fields)
    with concurrent.futures.ThreadPoolExecutor(1) as other:
        guessing = other.submit(send_at_once, port, request, 140)
        got = []
        while not guessing.done() and len(got) < 20:
            got.append(time_password(office, "/desk/issued", SIGNED_IN["Authorization"]))
        answers = guessing.result()
    assert {status(one) for one, _ in got} == {200}, "the right one is answered beside them"
    assert max(took for _, took in got) < 4, "the right one is answered at once"
    times = [took for one, took in answers if one == 401]
    assert 90 <= len(times) <= 100 and all(4.5 < took < 20 for took in times), "100 guesses take five seconds"
    assert {one for one, _ in answers} == {401, 429}, "and more are turned away"


@pytest.mark.parametrize("path", ["/public/fonds", "/public/units/1", "/public/aid/1", "/unit/1", "/aid/1", "/search?q=x",
                                  "/public/units/999999"])
def test_head_is_the_head_of_get_and_the_connection_goes_on(asks, office, path):
    wanted = asks.question(path)[0]
    two = client.request("HEAD", path) + client.request("HEAD", path, fields={"Connection": "close"})
    heads = exchange(office.ports["8080"], two).decode().split("\r\n\r\n")
    assert ([int(head.split()[1]) for head in heads[:-1]], heads[-1]) == ([wanted, wanted], "")


@pytest.mark.browser
def test_a_page_of_another_site_in_a_signed_in_browser_does_nothing(office, browser, nothing_is_done):
    desk, site = browser.page(SIGNED_IN), office.staff
    other = serve((FOREIGN_PAGE % (site, site)).encode())
    desk.call("Page.navigate", url=f"http://127.0.0.1:{other.server_port}/")
    desk.wait(f"location.href.startsWith('{site}')")
    told = desk.text("body")
    assert "another site" in told or "403" in told, "what another site's page sends is turned away"
    other.shutdown()


def serve(html):
    """Starts a server that answers each question with this page, on a free port; returns it."""

    class Handler(BaseHTTPRequestHandler):
        """Answers with the page, and logs nothing."""

        def do_GET(self):
            self.send_response(200)
            self.send_header("Content-Type", "text/html")
            self.end_headers()
            self.wfile.write(html)

        def log_message(self, *_):
            """Writes nothing."""

    server = ThreadingHTTPServer(("127.0.0.1", 0), Handler)  # a browser keeps connections open that it does not use
    threading.Thread(target=server.serve_forever, daemon=True).start()
    return server
