"""Strangers who want to shut everybody out, in a network of their own: half-sent heads from twenty addresses, with the rules
of strangers.nft and without. One test begins the others with `unshare`, which a kernel may forbid."""

import contextlib
import http.client
import os
import resource
import shutil
import socket
import subprocess
import sys
import time

import pytest

from acceptance import client
from acceptance.conftest import do_without
from acceptance.front.office import ARCHIVES, SIGNED_IN, TOP, Office
from acceptance.front.waits import until

HALF = client.get("/public/fonds")[:30]  # a head that nobody finishes
MANY, EACH, ALLOWED = 20, 130, 100  # addresses, connections that each wants, and that it gets
READERS = 12
OWN_NETWORK = "RECORD_OFFICE_OWN_NETWORK"  # is set where the tests are in it
inside = pytest.mark.skipif(OWN_NETWORK not in os.environ, reason="is played in a network of its own")
NETWORKS = ("fd00:1::1", "fd00:1::2", "fd00:2::1")  # two addresses of one network, and one of another


class Reached(Office):
    """An office whose readers come by all addresses of this machine."""

    def adapt(self, text):
        """As it comes, but for ports and folders."""
        text = super().adapt(text).replace(f"listen 127.0.0.1:{self.ports['8080']}", f"listen {self.ports['8080']}")
        return text.replace(f"listen [::1]:{self.ports['8080']}", f"listen [::]:{self.ports['8080']}")

    def connect(self, source):
        """A connection to the readers' pages from this address, or None if it is refused."""
        it = socket.socket(socket.AF_INET6 if ":" in source else socket.AF_INET)
        try:
            it.bind((source, 0))
            it.connect(("::1" if ":" in source else "127.0.0.1", self.ports["8080"]))
            it.sendall(HALF)
        except OSError:
            it.close()
            return None
        return it


@pytest.fixture(scope="module")
def office(new_office):
    """An office whose readers come by all addresses of a network that nobody else has."""
    resource.setrlimit(resource.RLIMIT_NOFILE, (resource.getrlimit(resource.RLIMIT_NOFILE)[1],) * 2)
    addresses = (["-6", "addr", "add", f"{one}/64", "dev", "lo", "nodad"] for one in NETWORKS)
    for words in (["link", "set", "lo", "up"], *addresses):
        subprocess.run([shutil.which("ip", path="/usr/sbin:/sbin:/usr/bin:/bin"), *words], check=True)
    return new_office(kind=Reached, files=[("archives", ARCHIVES)])


@pytest.mark.needs("unshare", "nft", "ip")
@pytest.mark.skipif(OWN_NETWORK in os.environ, reason="is there already")
def test_strangers_shut_nobody_out(program):
    """Plays the others in a network of their own, if the kernel lets it have one."""
    may = subprocess.run(["unshare", "-rn", "sh", "-c", "PATH=$PATH:/usr/sbin; ip link set lo up && nft list ruleset"],
                         capture_output=True, check=False)
    if may.returncode:
        do_without(f"a network of its own ({may.stderr.decode().strip()})")
    words = ["unshare", "-rn", sys.executable, "-m", "pytest", "-q", "-p", "no:cacheprovider", "--program",
             program.path, __file__]
    done = subprocess.run(words, check=False, capture_output=True, text=True, cwd=TOP, env={**os.environ, OWN_NETWORK: "1"})
    assert done.returncode == 0, done.stdout[-4000:]


def ask(port, path, source, heads=()):
    """The status of an answer within five seconds, or nothing."""
    it = http.client.HTTPConnection("127.0.0.1", port, timeout=5, source_address=(source, 0))
    try:
        it.request("GET", path, headers=dict(heads))
        return it.getresponse().status
    except OSError:
        return None
    finally:
        it.close()


def everybody(office):
    """What readers of other addresses, and what staff get."""
    readers = [ask(office.ports["8080"], "/public/fonds", f"127.0.2.{n}") for n in range(1, READERS + 1)]
    staff = [ask(office.ports["8081"], "/desk/issued", f"127.0.2.{n}", SIGNED_IN) for n in range(1, READERS + 1)]
    return readers, staff


@contextlib.contextmanager
def crowd(office, sources, each):
    """So many connections from each address: how many each got."""
    held = {source: [one for one in (office.connect(source) for _ in range(each)) if one] for source in sources}
    try:
        yield {source: len(ones) for source, ones in held.items()}
    finally:
        for ones in held.values():
            for one in ones:
                one.close()


@inside
def test_without_the_rules_the_desk_is_not_shut_out(office):
    with office.change_file("main.conf", "worker_connections 8192", "worker_connections 500"):
        with crowd(office, ["127.0.1.1"], 600):
            assert everybody(office)[1] == [200] * READERS, "staff are answered while readers' nginx is full"


@inside
def test_nginx_counts_the_addresses_of_a_network_together(office):
    def row(source):
        with contextlib.closing(http.client.HTTPConnection("::1", office.ports["8080"], 30, source_address=(source, 0))) as it:
            statuses = []
            for _ in range(24):
                it.request("GET", "/public/search?q=x")
                answer = it.getresponse()
                answer.read()
                statuses.append(answer.status)
        return sum(status != 429 for status in statuses)
    through = [row(source) for source in NETWORKS]
    assert through[0] >= 21 and through[1] <= 5 and through[2] >= 21, f"a network has one limit, another its own: {through}"


def connections_from(office, source):
    it = office.connect(source)
    if it:
        it.close()
    return it is not None


@inside
def test_with_the_rules_each_address_has_so_many_connections(office):
    path = office.folder / "strangers.nft"
    path.write_text(path.read_text().replace("8080", str(office.ports["8080"])))
    for _ in range(2):  # a second time after a change
        subprocess.run([shutil.which("nft", path="/usr/sbin:/sbin:/usr/bin"), "-f", path], check=True)
    addresses = [f"127.0.1.{n}" for n in range(1, MANY + 1)]
    with crowd(office, addresses, EACH) as got:
        assert set(got.values()) == {ALLOWED}, "of each address so many connections are let in"
        began = time.monotonic()
        assert everybody(office) == ([200] * READERS,) * 2, "everybody else is answered"
        assert time.monotonic() - began < 5, "at once"
    until(lambda: connections_from(office, addresses[0]), "who was limited may come again")
    with crowd(office, NETWORKS, 80) as got:
        assert tuple(got.values()) == (80, ALLOWED - 80, 80), "of IPv6 a network has so many"
    with crowd(office, ["127.0.0.1"], EACH) as got:
        assert got == {"127.0.0.1": EACH}, "but a reading room has more"
    through = [ask(office.ports["8080"], "/public/fonds", "127.0.3.1") for _ in range(2 * ALLOWED)]
    assert set(through) == {200}, "connections that have ended do not count"
