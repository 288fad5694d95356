"""What the numbers of nginx's configuration and of the queue's must be to one another, where waiting to see it would take
minutes, and that those that no scenario meets are there."""

import re
from pathlib import Path

import pytest

from acceptance.client import table
from acceptance.front.office import FRONT

TEXTS = {path.name: path.read_text() for path in (FRONT / "server").iterdir()}
CASES = table(Path(__file__).with_name("settings.txt"))


def place_in(name, text, place):
    """The part of a file that begins with these words; of haproxy.cfg the defaults of the queue or the gate, or a section."""
    if name == "haproxy.cfg":
        named = {"queue": "defaults", "gate": "defaults"}.get(place, place)
        found = re.findall(rf"^{named}\n(?:[ \n#].*\n?|\n)*", text, re.M)
        return found[-1 if place == "gate" else 0]
    part = text[text.index(place):] if place else text
    first = part.split("\n", 1)[0]
    if not place or first.endswith("}"):  # a block on one line
        return first if place else text
    return re.split(r"\n\s*\}", part)[0]


def seconds(name, text):
    """The seconds that a setting of HAProxy has in this text."""
    return int(re.findall(rf"^\s*{name} (\d+)s", text, re.M)[0])


def test_there_are_settings():
    assert len(CASES) > 80 and {name for name, *_ in CASES} <= set(TEXTS)


@pytest.mark.parametrize("name, place, setting, why", CASES, ids=[f"{one[0]}: {one[2]}, so that: {one[3]}" for one in CASES])
def test_what_no_scenario_meets_stands_where_it_should(name, place, setting, why):
    part = re.sub("#.*", "", place_in(name, TEXTS[name], place))
    assert re.search(rf"(?<![\w-]){re.escape(setting)}(?![\w.])", part), f"{place or name} lacks `{setting}`, so that: {why}"


def test_who_asks_gives_up_after_who_is_asked():
    """Each of these relations is said in a comment of the configuration."""
    queue, gate = TEXTS["haproxy.cfg"].split("\ndefaults\n")[1:]
    kept = max(int(one) for one in re.findall(r"keepalive_timeout (\d+)s", TEXTS["common.conf"]))
    for name, at in (("the queue", queue), ("the gate", gate)):
        assert seconds("timeout http-keep-alive", at) > kept, f"{name} keeps idle connections longer than who asks it"
    served, reads = seconds("timeout server", queue), int(re.search(r"proxy_read_timeout (\d+)s", TEXTS["passed.conf"])[1])
    assert reads > seconds("timeout queue", queue) + served, "nginx waits longer than the queue"
    assert seconds("timeout client", queue) > reads, "the queue waits for nginx longer than that"
    assert served >= 120, "an import or a removal has two minutes"
    assert seconds("timeout queue", queue) >= 120, "and so has what waits behind one"
    assert seconds("timeout client", gate) > served and seconds("timeout server", gate) > served, "the gate waits longer"
    tries = int(re.search(r"retries (\d+)", gate)[1])
    assert 100 <= tries < served, "the gate says that it did not reach the program before the queue gives up"


def test_there_is_room_for_a_connection_to_the_gate_for_each_request():
    every, *ways, gates = [int(one) for one in re.findall(r"maxconn (\d+)", re.sub(r"server .*", "", TEXTS["haproxy.cfg"]))]
    assert gates >= sum(ways) and every >= sum(ways) + gates
    assert len(ways) == 4 and ways[0] >= 100, "readers of many addresses fill no way but theirs"


def test_queue_and_desk_are_reached_from_this_machine_alone():
    binds = re.findall(r"bind (\S+)", TEXTS["haproxy.cfg"])
    assert all(re.match(r"127\.0\.0\.1:|unix@/", one) for one in binds), binds
    listens = re.findall(r"listen (\S+)", TEXTS["desk-nginx.conf"])
    assert all(one.startswith(("127.0.0.1:", "[::1]:")) for one in listens), listens


LIMIT = r"limit_(?:req|conn) (?:zone=)?record_office_(\w+) (?:burst=)?(\d+)"
SIZES = dict(re.findall(r"zone=record_office_(\w+):(\w+)", TEXTS["common.conf"]))


@pytest.mark.parametrize("limits", [
    pytest.param(re.findall(r"zone=record_office_(\w+):.*rate=(\d+)r/", TEXTS["common.conf"]), id="rates"),
    *(pytest.param(re.findall(LIMIT, place), id=place.split("\n", 1)[0])
      for place in TEXTS["readers.conf"].split("\nlocation "))])
def test_a_reading_room_has_each_limit_of_an_address_eight_times_as_high(limits):
    found = {name.removesuffix("_in_a_row"): int(number) for name, number in reversed(limits)}  # of two of aids the first
    rooms = {name.removeprefix("room_"): number for name, number in found.items() if name.startswith("room_")}
    assert rooms == {name: 8 * number for name, number in found.items() if f"room_{name}" in SIZES}


def test_what_counts_has_room_for_the_addresses_of_many_readers():
    for name, wanted in (("visits", "100"), ("aids", "10"), ("reading", "12")):
        found = set(re.findall(rf"limit_conn record_office_{name} (\d+);", TEXTS["readers.conf"]))
        assert found == {wanted}, f"as many {name} at once at each place"
    assert SIZES == {name: "1m" if name.startswith("room_") else "64k" if name in ("reading", "searching") else "2m"
                     for name in SIZES}


@pytest.mark.parametrize("name", ["nginx.conf", "tls.conf", "desk-tls.conf"])
def test_each_site_listens_by_ipv6_too(name):
    listens = re.findall(r"listen (?:(\[::\]):)?(\d+)( .*)?;", TEXTS[name])
    by_ipv4, by_ipv6 = [[one[1:] for one in listens if bool(one[0]) == is_ipv6] for is_ipv6 in (False, True)]
    assert by_ipv4 == by_ipv6


def test_defaults_of_the_readers_service():
    """What its unit does not say: rounds a minute apart, a fifth of the time at most, and orders as nginx has them."""
    defaults = dict(re.findall(r'"--(\w+)", type=float, default=(\d+)', (FRONT / "readers/service.py").read_text("utf-8")))
    orders = re.search(r"zone=record_office_orders:2m rate=(\d+)r/m;", TEXTS["common.conf"])[1]
    assert defaults == {"every": "60", "rest": "4", "orders": orders}
