"""What the front answers, as it was approved: each site, without TLS and with it; each kind of path and method, heads of
many kinds, bodies of many sizes, and what stands behind it failing. There is no program: stand-ins
have the places of the program, of the readers' service and of the trials, and answer with what came to them. So a line has
both what the front made of the answer and what it had passed on:

    site method path and what else was sent | status kind, how long it is kept; other fields | what the body is

What all answers have is left out: the policy of their site, a date, a length; and of what was passed on the fields that all
requests have there."""

import functools
import gzip
import http
import re
import socket
import ssl
import subprocess
import threading

import pytest

from acceptance import client
from acceptance.front.asks import POLICY, exchange, status
from acceptance.front.office import FRONT, KINDS, NGINX, SIGNED_IN, Office, free_ports, mime_types, user_name
from acceptance.front.stand_in import StandIn
from acceptance.front.waits import until

pytestmark = pytest.mark.needs("nginx", "haproxy", "openssl")

READERS, DESK = "archive.example.org", "desk.example.org"
# What an answer from behind has beside its length: none of it is the front's own.
MORE = ("Server: behind", "Set-Cookie: a=b", "Record-Office-Took: 7", "Cache-Control: public")
CAME = "html; public; no-store; set-cookie: a=b"  # what is made of that
ELSEWHERE = "127.0.7.1"  # an address from which nobody may order
STATUSES = (204, 301, 401, 403, 404, 409, 413, 418, 429, 500, 502, 503, 504)
YEAR = "max-age=31536000"
# Fields that are told by nothing or in short
UNTOLD = {"date", "connection", "content-length", "transfer-encoding", "etag", "last-modified", "accept-ranges", "server",
          "content-type", "cache-control", "strict-transport-security", *POLICY}
# What every request has that comes to one of those behind.
READERS_SERVICE = ["host: SITE", "x-forwarded-proto: http", "x-forwarded-for: READER", "record-office-room: 0",
                   "record-office-since: NOW"]  # and its own name where it has one
USUAL = {**dict.fromkeys(("program", "trials", "cards"), ["host: office"]), **dict.fromkeys((*KINDS, "my"), READERS_SERVICE)}


class Echo(StandIn):
    """Answers with the request that came. A path that ends in a number of three digits gets that status; `000` is dropped."""

    def __init__(self, name, place):
        self.name, self.hold = name, threading.Event()
        self.hold.set()
        super().__init__(place, drops=lambda head: head.split(" ", 2)[1].endswith("000"), at_once=8)

    def reply_to(self, head, body):
        """What came, in a line."""
        self.hold.wait(60)
        found = re.search(r"\b(\d{3})$", head.split(" ", 2)[1])
        status = http.HTTPStatus(int(found[1]) if found and int(found[1]) in STATUSES else 200)
        told = f"{self.name} got {'; '.join(head.splitlines())}{f'; body of {len(body)}' * bool(body)}".encode()
        if status in (204, 304):
            told = b""
        lines = [f"HTTP/1.1 {status.value} {status.phrase}", "Content-Type: text/html; charset=utf-8", *MORE,
                 f"Content-Length: {len(told)}"]
        return "".join(f"{line}\r\n" for line in [*lines, ""]).encode() + told


class Front(Office):
    """All sites, without TLS and with it by their names, and the queue; with stand-ins behind them."""

    def __init__(self, folder):
        super().__init__(None, folder, changes=[("default 1;\n", f"default 1;\n{ELSEWHERE} 0;\n")])
        self.behind, self.nginx, taken = [], [], set(self.ports.values())
        self.ports.update(zip(("80", "443"), [one for one in free_ports(len(taken) + 2) if one not in taken]))

    def adapt(self, text):
        """A file of the configuration with our ports below 1000 besides, and the desk's name."""
        text = super().adapt(text.replace(DESK, "desk.kept")).replace("desk.kept", DESK)
        text = re.sub(r"\[::1\]:(80|443)\b", lambda found: f"[::1]:{self.ports[found[1]]}", text)
        return re.sub(r"\blisten (80|443)\b", lambda found: f"listen 127.0.0.1:{self.ports[found[1]]}", text)

    def configure(self):
        """Writes the configuration, each site with a configuration of its own, and a certificate."""
        super().configure()
        for name, file in (("main", "office"), ("main-tls", "tls")):
            text = NGINX.format(user=user_name(), mime=mime_types()).replace("office.conf", f"{file}.conf")
            (self.folder / f"{name}.conf").write_text(text.replace("nginx.pid", f"{name}.pid"))
        words = ["openssl", "req", "-x509", "-newkey", "ec", "-pkeyopt", "ec_paramgen_curve:prime256v1", "-nodes",
                 "-days", "2", "-subj", f"/CN={READERS}", "-keyout", self.folder / "key.pem",
                 "-out", self.folder / "certificate.pem"]
        subprocess.run(words, check=True, capture_output=True)

    def sites(self):
        return [self.folder / f"{name}.conf" for name in ("main", "desk-nginx", "main-tls", "desk-tls")]

    def begin(self):
        self.configure()
        self.running = True
        for name in ("cache/lists/a.html", "cache/lists/a.csv", "cache/lists/a.json", "cache/lists/a.txt", "texts/de.json"):
            (self.folder / name).parent.mkdir(parents=True, exist_ok=True)
            (self.folder / name).write_text("caf\u00e9\n", "utf-8")
        self.behind = [Echo("program", self.ports["8090"]), Echo("trials", self.folder / "tries.sock"),
                       *(Echo(kind, self.folder / f"mine/{kind}.sock") for kind in ("my", "cards")),
                       *(Echo(kind, self.folder / f"{kind}.sock") for kind in KINDS)]
        self._begin_queue()
        self.nginx = [self._run("nginx", "-p", str(self.folder), "-c", str(path), told=path.stem) for path in self.sites()]
        for name in ("8080", "8081", "80", "443", "8443", "8091", "8092", "8093"):
            until(lambda name=name: self.is_open(name), f"{name} takes connections")
        until(self.queue.exists, "the queue takes the service's connections")
        return self

    def is_open(self, name):
        for process in (self.haproxy, *self.nginx):
            if process.poll() is not None:
                raise AssertionError(f"{process.args} has ended: {(self.folder / 'haproxy.told').read_text()[-200:]}")
        with socket.socket() as it:
            return it.connect_ex((client.HOST, self.ports[name])) == 0

    def end_all_behind(self):
        """From now on nothing is behind nginx."""
        self.haproxy.terminate()
        self.haproxy.wait(20)
        for one in self.behind:
            one.end()

    def end(self):
        for one in self.behind:
            one.end()
        super().end()


class Table:
    """Asks, and keeps a line for each answer. Each request comes from another address, so that no limit is met by chance."""

    def __init__(self, office):
        self.office, self.answers, self.many = office, [], 0
        self.names = {str(port): name for name, port in office.ports.items()}
        self.ports = re.compile(f":({'|'.join(self.names)})\\b")

    def source(self):
        self.many += 1
        return f"127.{1 + self.many // 250}.0.{1 + self.many % 250}"

    def send(self, site, sent, source=None):
        """The bytes of the answer of a site to these bytes."""
        if site in ("readers by TLS", "desk by TLS"):
            return self.by_tls(site, sent, source)[0]
        port = self.office.ports[{"readers": "8080", "desk": "8081", "redirect": "80"}[site]]
        source = source or (client.HOST if site.startswith("desk") else self.source())
        return exchange(port, sent, source, source if ":" in source else client.HOST)

    def by_tls(self, site, sent, source=None, name=None):
        """The same by TLS, and the protocol that was agreed on of HTTP/2 and HTTP/1.1; sent: None asks for that alone."""
        own, port = (READERS, "443") if site.startswith("readers") else (DESK, "8443")
        context = ssl.SSLContext(ssl.PROTOCOL_TLS_CLIENT)  # without any certificates: those take long to read
        context.check_hostname, context.verify_mode = False, ssl.CERT_NONE
        context.set_alpn_protocols(["http/1.1"] if sent else ["h2", "http/1.1"])
        source = source or client.HOST
        place = source if ":" in source else client.HOST
        with (socket.create_connection((place, self.office.ports[port]), 60, (source, 0)) as plain,
              context.wrap_socket(plain, server_hostname=name or own) as it):
            return whole(it, sent) if sent else b"", it.selected_alpn_protocol()

    def ask_from(self, source, *asked):
        """Asks the readers' site many times from this address, and keeps the last answer."""
        many = client.request(*asked) * 40 + client.request(*asked, fields={"Connection": "close"})
        answer = exchange(self.office.ports["8080"], many, source)
        self.keep(f"readers {asked[0]} {asked[1]} from {source}", answer[answer.rindex(b"HTTP/1.1 "):])

    def ask(self, site, method, path, fields=(), body=None, host=None, by=None):
        names = {"readers by TLS": READERS, "desk by TLS": DESK}
        own = host or names.get(site) or f"{client.HOST}:{self.office.ports['8081' if site == 'desk' else '8080']}"
        given = {**(SIGNED_IN if site.startswith("desk") else {}), **dict(fields), "Connection": "close"}
        given = {name: value for name, value in given.items() if value is not None}
        try:
            answer = self.send(site, client.request(method, path, body, own, given), by)
        except OSError as wrong:
            answer = type(wrong).__name__.encode()
        about = "".join(f" {name}: {value}" for name, value in dict(fields).items())
        about += "" if body is None else f" {len(body)} bytes"
        about += f" Host: {host}" if host else ""
        about += " by IPv6" if by == "::1" else f" from {by}" if by else ""
        self.keep(f"{site} {method} {path}{about}", answer)

    def came(self, *ends):
        """How often requests for paths with one of these ends have come to one of those behind; they are forgotten."""
        found = [one for behind in self.office.behind for one in behind.requests if one[0].split(" ", 2)[1].endswith(ends)]
        for behind in self.office.behind:
            behind.requests.clear()
        return len(found)

    def keep(self, head, answer):
        self.answers.append(self.line(head, answer))

    def line(self, head, answer):
        return f"{short(self.masked(head), 70)} | {' | '.join(self.parts(head, answer))}"

    def parts(self, head, answer):
        first, _, body = answer.removeprefix(b"HTTP/1.1 100 Continue\r\n\r\n").partition(b"\r\n\r\n")
        status, *lines = re.sub(r"^(HTTP/1.1 \d+) [^\r\n]*", r"\1", first.decode("latin-1")).split("\r\n")
        fields = [line.partition(": ")[::2] for line in lines if ": " in line]
        yield f"{short(status.removeprefix('HTTP/1.1 ')[:40])} {self.fields(head, fields)}".strip()
        if dict(fields).get("Content-Encoding") == "gzip":
            body = b"".join(chunks(body)) if "Transfer-Encoding" in dict(fields) else body
            body = gzip.decompress(body) if body else b""
        yield self.shown(body.decode("utf-8", "replace"))

    def fields(self, head, fields):
        """The kind of an answer and how long it is kept; what else is in its head; and what of the policy is not that of its
        site."""
        has = {}
        for name, value in fields:
            has.setdefault(name.lower(), []).append(value)
        kind = [value.replace("; charset=utf-8", "").split("/")[-1] for value in has.get("content-type", [])]
        told = [*kind, *has.get("cache-control", [])]
        told += [f"{name.lower()}: {value}" for name, value in fields if name.lower() not in UNTOLD]
        told = [re.sub(r"; record-office-took: \d+", " with its time", "; ".join(told).replace(CAME, "as it came"))]
        forms = "'self'" if head.startswith("readers") else "'none'"
        wanted = {name: value.replace("FORMS", forms) for name, value in POLICY.items()}
        wanted |= {"strict-transport-security": YEAR} if " by TLS" in head else {}
        differs = [f"{name}: {'; '.join(has.get(name, ['none']))}" for name, value in wanted.items()
                   if has.get(name) != [value]]
        told += ["no policy"] if len(differs) >= len(POLICY) - 1 else differs
        return "; ".join(told)

    def shown(self, body):
        """What is told of a body: what came to a stand-in, which file it is, the title of a page, or the beginning."""
        if found := re.match(r"(\w+) got ", body):
            first, *fields = body.split("; ")
            fields = [self.masked(f"{name.lower()}: {value}" if value else name)
                      for name, _, value in (one.partition(": ") for one in fields)]
            fields = [re.sub(f"^(host: )({client.HOST}:<808[01]>|{READERS}|{DESK})$", r"\1SITE", one) for one in fields]
            usual = USUAL[found[1]]
            told = [one for one in fields if one not in usual and not one.startswith("content-length")]
            told += [f"without {one}" for one in usual if one.split(":")[0] not in {field.split(":")[0] for field in fields}]
            return "; ".join([short(first.removesuffix(" HTTP/1.1")), *told])
        if file := file_with(body):
            return f"file {file}"
        if title := re.search("<title>(.*?)</title>", body):
            return f"page: {title[1]}"
        return short(body, 24)

    def masked(self, line):
        """A line without what differs from run to run."""
        line = self.ports.sub(lambda found: f":<{self.names[found[1]]}>", line)
        line = re.sub(r"(?<=since: )\d{10}[.]\d{3}$", "NOW", line)
        return re.sub(r"127[.][1-9]\d*[.]0[.]\d+", "READER", line)


@pytest.fixture(scope="module")
def front(module_room):
    front = Front(module_room / "front")
    yield front.begin()
    front.end()


@pytest.fixture
def table(front):
    """Asks, and keeps a line for each answer."""
    return Table(front)


@functools.cache
def file_with(text):
    """The name of the style, script or table of front/ that has this text, or None."""
    paths = (path for path in sorted(FRONT.rglob("*")) if path.suffix in (".css", ".js", ".json"))
    return next((str(path.relative_to(FRONT)) for path in paths if path.read_bytes().decode() == text), None)


def whole(connection, sent):
    """All that comes until the other side closes the connection."""
    connection.settimeout(60)
    connection.sendall(sent)
    return b"".join(iter(lambda: connection.recv(65536), b""))


def chunks(body):
    while body:
        size, _, rest = body.partition(b"\r\n")
        many = int(size, 16)
        yield rest[:many]
        body = rest[many + 2:] if many else b""


def short(text, most=100):
    text = repr(text)[1:-1]
    return text if len(text) <= most else f"{text[:most]} .. {len(text)}"


READERS_PATHS = """
/ /unit/1 /unit/1/order /unit/01/order /aid/1 /aid/1/2 /aid/12345678901 /search?q=x /search /searches /public/search?q=x
/ordered /ordered/order /help?x=y /robots.txt /enhance.js?1 /public.css /none.js /shared/dom.js /shared/base.css
/shared/none.js /shared/../desk/main.js /public/ /public/fonds /public/fonds?x /public/fonds/ /public/units/1
/public/units/01 /public/units/12345678901 /public/units/1/2 /public/aid/1 /public/aid/0 /public/orders /public/none
/de /de/unit/1 /de/unit/1/order /de/aid/1 /de/search?q=x /gsw/help /german/help
/sitemap.xml /sitemap/1.xml /a-z /de/a-z /unit/1/dates
/my /my/ /my/1-a /de/my /de/my/1-a /my/order /my/cancel /my/a/b /%6dy/1-a /x/../my/1-a /mY /mys
/desk/issued /try/differences/x /lists/a.html /texts/de.json /often.html /away.html /not-from-here.html /quietly/away.html
/.well-known/x /index.html /a%2fb /%zz /public/../desk/x //public/fonds /Public/fonds /public/fonds%0a /caf%C3%A9
""".split()
DESK_PATHS = """
/ /main.js /index.html /none /desk.css /shared/dom.js /shared/none.js /shared/words.json /sign-out /signed-out.html
/desk/issued /desk/issued?x=y /desk/ /desk/a/b /desk/a/b/c /desk/seat /desk/leave /desk/issue /desk/return /desk/day
/desk/days /desk/import/x /desk/import/x/y /public/fonds /public/units/1 /public/orders /public/aid/1/2/3 /try/differences/x
/try/imported/x /try/look /try/look/x /try/other/x /try/differences/x/y
/lists/a.csv /lists/a.html /lists/a.json /lists/a.txt /lists/none.csv
/texts/de.json /texts/xx.json /often.html /desk/issued%0a /signed-in.json /my/1 /my/01 /my/1-a /my/ready /ready /desk/cancel
""".split()
METHODS = ("GET", "POST", "HEAD", "PUT", "OPTIONS")
EVERY_METHOD = set("/ /unit/1 /unit/1/order /aid/1 /search?q=x /public.css /public/fonds /public/orders /public/aid/1 "
                   "/shared/dom.js /desk/issued /desk/seat /desk/import/x /try/imported/x /lists/a.csv "
                   "/my /my/1-a /my/order /my/1".split())
COMMANDS = {"readers": ("/public/orders", "/unit/1/order", "/ordered/order", "/my/cancel", "/my/order"),
            "desk": ("/my/1", "/desk/run", "/desk/seat", "/desk/import/x", "/public/orders", "/try/differences/x",
                     "/try/imported/x")}


def test_each_path_with_each_method(table, approved):
    for site, paths in (("readers", READERS_PATHS), ("desk", DESK_PATHS)):
        for path in paths:
            for method in METHODS if path in EVERY_METHOD else METHODS[:1]:
                table.ask(site, method, path, body=b"{}" if method in ("POST", "PUT") else None)
    approved("server/methods", table.answers)


def test_what_somebody_may_write_into_a_head(table, approved):
    odd = {"Cookie": "a=b", "X-Forwarded-For": "192.0.2.1", "X-Forwarded-Proto": "https", "Record-Office-For": "round",
           "Record-Office-Room": "1", "Record-Office-Crawler": "yes", "Expect": "100-continue", "X": "y", "Range": "bytes=0-1",
           "Accept-Encoding": "gzip", "Transfer-Encoding": None, "Upgrade": "h2c", "Referer": "http://a.example/?b"}
    for site, path in (("readers", "/unit/1"), ("readers", "/search?q=x"), ("readers", "/aid/1"), ("readers", "/public/fonds"),
                       ("readers", "/public/aid/1"), ("readers", "/public/search?q=x"), ("readers", "/enhance.js"),
                       ("readers", "/ordered/order"), ("desk", "/desk/issued"), ("desk", "/try/differences/x"), ("desk", "/"),
                       ("desk", "/desk/seat"), ("desk", "/desk/import/x"), ("readers", "/public/orders")):
        method = "POST" if path.endswith(("order", "orders", "/x", "seat")) else "GET"
        table.ask(site, method, path, odd, b"{}" if method == "POST" else None)
    for agent in ("Mozilla/5.0", "Examplebot/1.0", "a CRAWLER", "spider", "Slurp", "archiver", ""):
        table.ask("readers", "GET", "/unit/1", {"User-Agent": agent})
    for path in ("/aid/1", "/search?q=x", "/public/aid/1"):
        table.ask("readers", "GET", path, {"User-Agent": "Examplebot/1.0"})
    for cookie, accepts in (("lang=fr", "de"), ("lang=FR", "de"), ("lang=fran", "de"), ("lang=f", "de"), ("lang=fra", ""),
                            ("x=y; lang=de", "fr"), ("lang=", "fr"), ("language=de", "fr")):
        table.ask("readers", "GET", "/help", {"Cookie": cookie, "Accept-Language": accepts})
    for path in ("/unit/1", "/public.css", "/shared/dom.js", "/public/fonds", "/robots.txt"):
        table.ask("readers", "GET", path, {"Accept-Encoding": "gzip"})
    for path in ("/desk.css", "/desk/issued", "/shared/words.json"):
        table.ask("desk", "GET", path, {"Accept-Encoding": "gzip"})
    for value in ("*", '"x"'):
        table.ask("readers", "GET", "/public.css", {"If-None-Match": value})
    approved("server/heads", table.answers)


def test_what_another_sites_page_sends_is_turned_away(table, approved):
    for site, paths in COMMANDS.items():
        own = f"http://{client.HOST}:{table.office.ports['8081' if site == 'desk' else '8080']}"
        for path in paths:
            for fields in ({"Origin": own, "Sec-Fetch-Site": "same-origin"}, {"Origin": "http://evil.example"},
                           {"Sec-Fetch-Site": "cross-site"}, {"Origin": f"{own}.x"}, {"Sec-Fetch-Site": "none"}):
                table.ask(site, "POST", path, fields, b"{}")
    own = f"http://{client.HOST}:{table.office.ports['8081']}"
    for fields in ({"Origin": "null"}, {"Sec-Fetch-Site": "same-site"}, {"Sec-Fetch-Site": "x"}, {"Sec-Fetch-Site": ""},
                   {"Origin": own.replace("http", "https")}, {"Origin": f"x {own}"}, {"Origin": f"{own} {own}"},
                   {"Origin": ""}):
        table.ask("desk", "POST", "/desk/run", fields, b"{}")
    for path in ("/unit/1", "/public/fonds", "/search?q=x"):
        table.ask("readers", "GET", path, {"Origin": "http://evil.example", "Sec-Fetch-Site": "cross-site"})
    approved("server/origins", table.answers)


def test_other_names_no_password_and_lines_that_are_no_request(table, approved):
    for host in ("evil.example", "127.0.0.1", "localhost", "[::1]", "office", "127.0.0.2"):
        for site, path in (("readers", "/unit/1"), ("desk", "/desk/issued"), ("desk", "/")):
            table.ask(site, "GET", path, host=host)
    for path in ("/", "/desk/issued", "/main.js", "/sign-out", "/lists/a.csv", "/texts/de.json", "/signed-out.html",
                 "/try/imported/x"):
        table.ask("desk", "GET", path, {"Authorization": None})
    for given in ("Basic", "Basic eDp5", "Bearer x", ""):
        table.ask("desk", "GET", "/sign-out", {"Authorization": given})
    for site, path in (("readers", "/unit/1"), ("readers", "/public/fonds"), ("desk", "/desk/issued")):
        for host in ("[::1]", "evil.example"):
            table.ask(site, "GET", path, by="::1", host=host)
    for site in ("readers", "desk"):
        for line in ("GET / HTTP/1.0", "GET /unit/1 HTTP/2.0", "TRACE / HTTP/1.1", "GET  HTTP/1.1", "get / HTTP/1.1", "GET /",
                     f"GET /{'a' * 8100} HTTP/1.1", f"GET /{'a' * 8300} HTTP/1.1", "CONNECT x:80 HTTP/1.1", "\x16\x03\x01"):
            sent = f"{line}\r\nHost: {client.HOST}\r\nConnection: close\r\n\r\n"
            table.keep(f"{site}: {line[:30]}, {len(line)}", table.send(site, sent.encode()))
        for line in (f"X: {'a' * 8100}", f"X: {'a' * 8300}", "\r\n".join([f"X: {'a' * 8000}"] * 4), "no colon",
                     "Host: y", "X_Y: z"):
            sent = f"GET / HTTP/1.1\r\nHost: {client.HOST}\r\nConnection: close\r\n{line}\r\n\r\n"
            table.keep(f"{site}, {line[:30]}, {len(line)}", table.send(site, sent.encode()))
        table.keep(f"{site} without a host", table.send(site, b"GET / HTTP/1.1\r\nConnection: close\r\n\r\n"))
    approved("server/names", table.answers)


def test_bodies_within_and_beyond_each_limit(table, approved):
    for site, path, most in (("readers", "/public/orders", 4096), ("readers", "/unit/1/order", 4096), ("readers", "/", 4096),
                             ("readers", "/search", 4096), ("desk", "/desk/run", 65536), ("desk", "/desk/seat", 65536),
                             ("desk", "/public/orders", 65536), ("desk", "/desk/import/x", 8 << 20), ("desk", "/none", 4096),
                             ("desk", "/try/differences/x", 8 << 20), ("desk", "/sign-out", 4096)):
        for size in (most, most + 1):
            table.ask(site, "POST", path, body=b"x" * size)
    approved("server/sizes", table.answers)


def test_what_the_front_makes_of_each_status_from_behind(table, approved):
    """And of a connection that is dropped: a question is put again, a command never."""
    for site, path in (("readers", "/unit/"), ("readers", "/aid/"), ("readers", "/public/units/"), ("readers", "/public/aid/"),
                       ("readers", "/search?q="), ("desk", "/desk/readers/"), ("desk", "/try/imported/")):
        for number in STATUSES:
            table.ask(site, "GET", f"{path}{number}")
        alike = {}
        for number, line in zip(STATUSES, table.answers[-len(STATUSES):]):
            alike.setdefault(line.replace(str(number), "N"), []).append(str(number))
        table.answers[-len(STATUSES):] = [f"N = {' '.join(numbers)}: {line}" for line, numbers in alike.items()]
        table.ask(site, "GET", f"{path}1000")
        table.answers.append(f"  came {table.came('/1000', '=1000')} times")
    for site, path in (("readers", "/unit/1/order?000"), ("readers", "/public/orders?000"), ("desk", "/desk/000"),
                       ("desk", "/desk/409"), ("desk", "/desk/import/000"), ("desk", "/try/imported/000")):
        table.ask(site, "POST", path, body=b"{}")
        table.answers.append(f"  came {table.came(path)} times")
    approved("server/statuses", table.answers)


def test_sites_with_tls_and_where_readers_without_it_are_sent(table, approved):
    for site, paths in (("readers by TLS", ("/", "/unit/1", "/public/fonds", "/public.css", "/search?q=x", "/public/x")),
                        ("desk by TLS", ("/", "/desk/issued", "/desk/a/b/c", "/lists/a.csv", "/sign-out", "/texts/de.json"))):
        for path in paths:
            table.ask(site, "GET", path)
    own = {"readers by TLS": f"https://{READERS}", "desk by TLS": f"https://{DESK}"}
    for site, path in (("readers by TLS", "/public/orders"), ("desk by TLS", "/desk/run")):
        for origin in (own[site], own[site].replace("https", "http"), "https://evil.example"):
            table.ask(site, "POST", path, {"Origin": origin}, b"{}")
        table.ask(site, "GET", "/", host="other.example")
    for path in ("/", "/unit/1?x=y", "/.well-known/acme-challenge/none", "/.well-known/x", "//evil.example", "/a%0d%0ab"):
        table.ask("redirect", "GET", path, host=READERS)
        table.ask("redirect", "POST", path, host="other.example", body=b"x")
    for site in own:
        table.ask(site, "GET", "/", by="::1")
        table.ask(site, "GET", "/", by="127.0.0.2")
        table.answers.append(f"{site}: {table.by_tls(site, None)[1]}")
        for name in (READERS, DESK, "other.example.org"):
            sent = client.request("GET", "/", None, name, {"Connection": "close"})
            try:
                told = status(table.by_tls(site, sent, None, name)[0])
            except (ssl.SSLError, ConnectionError):
                told = "no certificate"
            table.answers.append(f"{site} by the name {name}: {told}")
    approved("server/encrypted", table.answers)


def test_who_asks_too_often_or_may_not_order_from_elsewhere(table, approved):
    for number, path in enumerate(("/public/orders", "/unit/1/order", "/aid/1", "/public/aid/1", "/search?q=x",
                                   "/public/search?q=x"), 1):
        method = "POST" if "order" in path else "GET"
        body = ("{}",) if method == "POST" else ()
        table.ask_from(f"127.0.10.{number}", method, path, *body)
    for path in ("/public/orders", "/unit/1/order", "/ordered/order", "/de/unit/1/order"):
        table.ask_from(ELSEWHERE, "POST", path, "{}")
    approved("server/often", table.answers)


@pytest.fixture
def alone(room):
    front = Front(room / "front")
    front.begin()
    front.end_all_behind()
    yield front
    front.end()


def test_what_is_told_where_nothing_is_behind_the_front(alone, approved):
    table = Table(alone)
    for site, path in (("readers", "/unit/1"), ("readers", "/aid/1"), ("readers", "/search?q=x"),
                       ("readers", "/public/fonds"), ("readers", "/public/aid/1"), ("desk", "/desk/issued"),
                       ("desk", "/try/imported/x")):
        table.ask(site, "GET", path)
    for site, path in (("readers", "/public/orders"), ("readers", "/unit/1/order"), ("desk", "/desk/run"),
                       ("desk", "/desk/seat"), ("desk", "/desk/import/x"), ("desk", "/try/differences/x")):
        table.ask(site, "POST", path, body=b"{}")
    approved("server/away", table.answers)


def test_what_stands_in_the_logs(room, approved):
    """Of readers the network, and nothing of what they search for; of the desk who did what."""
    front = Front(room / "front")
    try:
        table = Table(front.begin())
        for path in ("/unit/1", "/search?q=secret", "/public/search?q=secret", "/de/search?q=secret", "/none.js"):
            table.ask("readers", "GET", path, {"Referer": "http://a.example/?b", "User-Agent": "Mozilla/5.0"})
        table.send("readers", b"GET / HTTP/9.0\r\n\r\n")
        # Both sites write there, and of such a request nginx does so once the other side has closed the connection.
        log = front.folder / "access.log"
        until(lambda: "HTTP/9.0" in log.read_text("utf-8"), "the readers' lines are in the log")
        for path in ("/", "/desk/issued", "/none"):
            table.ask("desk", "GET", path)
        for name in ("run", "seat", "leave", "issue", "return", "day"):
            table.ask("desk", "POST", f"/desk/{name}", {"Referer": "http://a.example/?b"}, b"{}")
        table.ask("desk", "POST", "/desk/seat", {"Origin": "http://evil.example"}, b"{}")
        table.ask("desk", "GET", "/", {"Authorization": None})
    finally:
        front.end()
    lines = []
    for name in ("access.log", "log-desk.log"):
        text = re.sub(r"\[\d\d/\w+/\d{4}:[\d:]+ [+-]\d+\]", "[TIME]", (front.folder / name).read_text("utf-8"))
        text = re.sub(r'"id":"\w+"|"at":"[\d.]+"|"time":"[^"]+"', lambda one: one[0].split(":")[0] + ":..", text)
        lines += [f"== {name}", *re.sub(r"(\" \d{3}) [1-9]\d*(?= \")", r"\1 MANY", text).splitlines()]
    assert "secret" not in (front.folder / "nginx.log").read_text()
    approved("server/logs", lines)
