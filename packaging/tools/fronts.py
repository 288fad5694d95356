"""Where an office's front listens: addresses, names and certificates, as nginx itself reads its configuration."""

import contextlib
import fnmatch
import http.client
import pathlib
import re
import socket
import ssl
import subprocess
import urllib.parse
from typing import NamedTuple

from offices import Trouble, conf_of

WORD = re.compile(r"""#[^\n]*|"(?:\\.|[^"\\])*"|'(?:\\.|[^'\\])*'|[{};]|(?:\$\{\w+\}|[^\s{};])+""")
LISTEN = re.compile(r"(?:(?P<host>\[[^]]*\]|[^:]+):)?(?P<port>\d+)|(?P<alone>.+)")
NAME = re.compile(r"\w[\w.-]*\w")  # of a server, but no pattern
EVERYWHERE = {None: "127.0.0.1", "*": "127.0.0.1", "0.0.0.0": "127.0.0.1", "[::]": "::1"}


class Site(NamedTuple):
    """An address at which nginx answers, under a name."""

    host: str
    port: int
    name: str
    is_tls: bool
    certificate: str | None = None

    def __str__(self):
        return f"http{'s' if self.is_tls else ''}://{self.name}:{self.port}"


class Configuration:
    """The configuration of an nginx, whose files it prints itself."""

    def __init__(self, path="/etc/nginx/nginx.conf"):
        done = subprocess.run(["nginx", "-T", "-q", "-c", str(path)], text=True, capture_output=True)
        if done.returncode:
            raise Trouble(done.stderr.strip().partition("\n")[0])
        parts = re.split(r"^# configuration file (\S+):\n", done.stdout, flags=re.M)
        self.files = dict(zip(parts[1::2], parts[2::2]))
        self.directives = self.read(str(path))

    def read(self, path):
        """The directives of a file: the words of each, and those of its block. What a file includes stands in its place."""
        return self.block(word for word in WORD.findall(self.files[path]) if not word.startswith("#"))

    def block(self, words):
        """The directives up to the end of a block."""
        found, directive = [], []
        for word in words:
            if word not in (";", "{", "}"):
                directive.append(word.strip("\"'"))
                continue
            if word == "}":
                break
            if word == "{":
                found.append((directive, self.block(words)))
            elif directive[0] == "include":
                pattern = str(pathlib.PurePath("/etc/nginx", directive[1]))
                for path in sorted(fnmatch.filter(self.files, pattern)):
                    found += self.read(path)
            else:
                found.append((directive, []))
            directive = []
        return found


def every(directives, name):
    """The words of all directives of this name, in blocks too."""
    for words, block in directives:
        if words[0] == name:
            yield words[1:], block
        yield from every(block, name)


def first(directives, name):
    """The first word after a directive's name, of the block itself; None if it is not there."""
    return next((words[1] for words, _ in directives if words[0] == name), None)


def sites_in(directives, is_wanted):
    """The addresses of the servers whose directives are wanted: of each server one, under each of its names."""
    found = []
    for _, http_block in every(directives, "http"):
        for _, server in every(http_block, "server"):
            if server and is_wanted(server):
                found += addresses(server, first(server, "ssl_certificate") or first(http_block, "ssl_certificate"))
    return found


def addresses(server, certificate):
    """The first address of a server, under each of its names that can be asked for."""
    listens = [words for words, _ in every(server, "listen") if not words[0].startswith("unix:")] or [["80"]]
    listen = next((words for words in listens if not words[0].startswith("[")), listens[0])
    where = LISTEN.fullmatch(listen[0])
    host = where["alone"] or where["host"]
    host = EVERYWHERE.get(host, host).strip("[]")
    names = [name for words, _ in every(server, "server_name") for name in words if NAME.fullmatch(name)]
    return [Site(host, int(where["port"] or 80), name, "ssl" in listen, certificate) for name in names or [host]]


def sites_of(office, part):
    """Where the readers' pages or the desk's are asked for: as alarm.conf says, else as nginx is configured."""
    url = conf_of(office, f"{part.upper()}_URL")
    if url:
        read = urllib.parse.urlsplit(url)
        is_tls = read.scheme == "https"
        return [Site(read.hostname, read.port or (443 if is_tls else 80), read.hostname, is_tls)]
    if part == "desk":
        path = office.settings / "desk-nginx.conf"
        found = sites_in(Configuration(path).directives, lambda server: (
            [str(office.settings / "staff")] in [words for words, _ in every(server, "auth_basic_user_file")]))
    else:
        passed = re.compile(f"http://record_office_{f'{office.name}_' if office.name else ''}(?:pages|service)")
        found = sites_in(Configuration().directives, lambda server: (
            any(passed.fullmatch(words[0]) for words, _ in every(server, "proxy_pass"))))
    return found


def connection(site, limit):
    """A connection to a site under its name. What the certificate is worth has a line of its own."""
    plain = socket.create_connection((site.host, site.port), limit)
    if not site.is_tls:
        return plain
    context = ssl.create_default_context()
    context.check_hostname, context.verify_mode = False, ssl.CERT_NONE
    return context.wrap_socket(plain, server_hostname=site.name)


def status_of(site, path, limit, method="GET", body=None):
    """The status with which a site answers."""
    with contextlib.closing(http.client.HTTPConnection(site.name, site.port, timeout=limit)) as asked:
        asked.sock = connection(site, limit)
        asked.request(method, path, body)
        with asked.getresponse() as answer:
            answer.read()
            return answer.status


def served(site, limit):
    """The certificate that a site serves, as the bytes of DER."""
    with connection(site, limit) as shown:
        return shown.getpeercert(binary_form=True)
