"""The units of systemd, without a boot: what `systemd-analyze security` says of each, and what their directives must be to one
another, to the configurations and to the files that they name. `packaging/try.sh` tries them in a Debian that is booted."""

import json
import re
import subprocess
from pathlib import Path

import pytest

from acceptance.client import table
from acceptance.front.office import FRONT, KINDS, TOP

UNITS = FRONT / "units" if (FRONT / "units").is_dir() else TOP / "packaging"  # mutation/front.py has copies of them there
# What is left open of all that systemd-analyze looks at, and for what: of the services that go on.
ANYWHERE = {"RootDirectoryOrRootImage", "PrivateMounts", "DeviceAllow"}
OPEN = {
    "record-office": {"PrivateNetwork", "RestrictAddressFamilies_AF_INET_INET6", "IPAddressDeny",  # a port of this machine
                      "SystemCallFilter_privileged"},  # @chown
    "record-office-queue": {"PrivateNetwork", "RestrictAddressFamilies_AF_INET_INET6", "IPAddressDeny",
                            "RestrictAddressFamilies_AF_UNIX", "SystemCallFilter_privileged", "SystemCallFilter_resources"},
    "record-office-readers": {"RestrictAddressFamilies_AF_UNIX", "IPAddressDeny"},
    "record-office-try": {"RestrictAddressFamilies_AF_UNIX", "IPAddressDeny", "SystemCallFilter_resources", "ProcSubset",
                          "PrivateUsers"},
    "record-office-my": {"RestrictAddressFamilies_AF_UNIX", "IPAddressDeny", "PrivateUsers"},  # its folder's user
    "record-office-desk": {"PrivateNetwork", "RestrictAddressFamilies_AF_INET_INET6", "RestrictAddressFamilies_AF_UNIX",
                           "IPAddressDeny", "PrivateUsers", "ProcSubset", "MemoryDenyWriteExecute", "UserOrDynamicUser",
                           "SystemCallFilter_privileged", "SystemCallFilter_resources",
                           "CapabilityBoundingSet_CAP_DAC_FOWNER_IPC_OWNER",  # root reads passwords and keys, and binds 443
                           "CapabilityBoundingSet_CAP_CHOWN_FSETID_SETFCAP",
                           "CapabilityBoundingSet_CAP_SET_UID_GID_PCAP",
                           "CapabilityBoundingSet_CAP_NET_BIND_SERVICE_BROADCAST_RAW)"}}  # the bracket is systemd's
# What is shut at others, which do much as root.
SHUT = {"record-office-backup": {"NoNewPrivileges", "PrivateTmp", "ProtectControlGroups", "ProtectKernelModules",
                                 "ProtectKernelTunables", "UMask"},
        "record-office-strangers": {"NoNewPrivileges", "CapabilityBoundingSet_CAP_SYS_ADMIN",
                                    "CapabilityBoundingSet_CAP_SYS_PTRACE"}}


def directives():
    for units, directive, why in table(Path(__file__).with_name("directives.txt")):
        name, values = directive.split("=", 1)
        for unit in units.split():
            full = "record-office" if unit == "program" else f"record-office-{unit}"
            yield pytest.param(full, name, values.replace("OWN", full).split(" & "), id=f"{full}: {name}: {why}")


def read(path):
    """The directives of a unit: by their names the values."""
    found = {}
    for name, value in re.findall(r"^([A-Za-z]+)=(.*)$", path.read_text("utf-8"), re.M):
        found.setdefault(name, []).append(value)
    return found


SERVICES = {path.stem: read(path) for path in sorted(UNITS.glob("*.service"))}
TIMERS = {path.name: read(path) for path in UNITS.glob("*.timer")}
SERVER = {path.name: path.read_text("utf-8") for path in (FRONT / "server").iterdir()}
SOCKETS = re.findall(r"bind unix@(\S+)", SERVER["haproxy.cfg"])  # of the readers' service, and of My orders


@pytest.mark.parametrize("unit, name, values", directives())
def test_each_directive_that_nothing_else_shows(unit, name, values):
    assert (SERVICES | TIMERS)[unit].get(name, []) == values


def left_open(unit):
    words = ["systemd-analyze", "security", "--offline=true", "--no-pager", "--json=short", UNITS / f"{unit}.service"]
    found = json.loads(subprocess.run(words, capture_output=True, check=True).stdout)
    return {one["json_field"] for one in found if not one["set"] and one["exposure"]}


@pytest.mark.needs("systemd-analyze")
@pytest.mark.parametrize("unit", OPEN)
def test_what_a_service_cannot_do(unit):
    assert left_open(unit) - OPEN[unit] - ANYWHERE == set(), "it leaves more open"


@pytest.mark.needs("systemd-analyze")
@pytest.mark.parametrize("unit", SHUT)
def test_what_a_tool_of_root_cannot_do(unit):
    assert left_open(unit) & SHUT[unit] == set(), "it has not shut"


@pytest.mark.parametrize("unit", [unit for unit in SERVICES if not unit.endswith(("alarm@", "resume"))])
def test_somebody_is_told_that_a_service_failed(unit):
    assert "record-office-alarm@%n.service" in " ".join(SERVICES[unit].get("OnFailure", []))


def test_folders_that_the_configurations_name_are_those_of_units():
    named = set(re.findall(r"/run/record-office-([a-z]+)/", "\n".join(SERVER.values())))
    assert named == {"queue", "readers", "try", "my", "desk"}  # see the table
    group = re.findall(r"readers\.sock mode 660 group (\S+)", SERVER["haproxy.cfg"])
    for unit in ("record-office-queue", "record-office-readers"):
        assert SERVICES[unit].get("Group") == group, f"{unit} shares the socket"


def test_what_my_orders_needs_of_the_queue():
    begin = " ".join(SERVICES["record-office-my"]["ExecStart"])
    assert f" --queue {SOCKETS[1]} " in begin
    assert " --messages=${READY_COMMAND}" in begin and " --words ${RUNTIME_DIRECTORY}/office.json " in begin


def test_each_service_of_readers_tells_the_desk_by_a_socket_of_its_own_what_was_ordered():
    told = [re.search(r" --desk (\S+)", SERVICES[f"record-office-{unit}"]["ExecStart"][0])[1] for unit in ("readers", "my")]
    taken = SERVICES["record-office-try"]["ExecStart"][0].replace("${RUNTIME_DIRECTORY}", "/run/record-office-try")
    assert taken.endswith(f" --ordered {' '.join(told)}") and len({*told}) == 2


def test_the_desk_has_two_files_for_each_connection():
    files = re.findall(r"worker_rlimit_nofile (\d+);", SERVER["desk-main.conf"])
    assert SERVICES["record-office-desk"].get("LimitNOFILE") == files
    assert int(files[0]) > 2 * int(re.search(r"worker_connections (\d+);", SERVER["desk-main.conf"])[1])


def test_the_program_listens_where_the_queue_asks_it():
    port = re.findall(r"server program 127\.0\.0\.1:(\d+)", SERVER["haproxy.cfg"])[0]
    wanted = f"/usr/bin/record_office serve --store office.db --port {port} --connections 10000"
    assert SERVICES["record-office"]["ExecStart"] == [wanted]
    assert SERVICES["record-office"]["SocketBindAllow"] == [f"ipv4:tcp:{port}"]


def test_the_rules_of_strangers_end_with_their_table():
    table = re.search(r"^delete (table .*)$", SERVER["strangers-table.nft"], re.M)[1]
    assert SERVICES["record-office-strangers"]["ExecStop"] == [f"/usr/sbin/nft delete {table}"]


@pytest.mark.parametrize("unit", SERVICES)
def test_what_a_service_begins_is_there(unit):
    tool = re.match(r"/usr/sbin/(record-office-\w+)", SERVICES[unit]["ExecStart"][0])
    assert not tool or (TOP / "packaging/tools" / tool[1]).is_file()


def test_what_tells_why_the_program_ended_is_there():
    assert (TOP / "packaging/tools/ended.py").is_file()


@pytest.mark.parametrize("unit, upstream, alone", [
    *(("readers", kind, " -E") for kind in KINDS),
    ("try", "try", ""), ("my", "my", ""), ("my", "cards", "")])  # these are told where their modules are
def test_services_of_python_listen_where_nginx_asks(unit, upstream, alone):
    begin = " ".join(SERVICES[f"record-office-{unit}"]["ExecStart"])
    begin = begin.replace("${RUNTIME_DIRECTORY}", f"/run/record-office-{unit}")
    socket = re.search(rf"upstream record_office_{upstream} {{ server unix:(\S+); }}", SERVER["common.conf"])[1]
    assert f" --listen {socket}" in begin or f" --listen {socket.rsplit('/', 1)[0]} " in begin
    plain = f"/usr/bin/python3 -B{alone} -s /usr/share/record-office/"
    assert begin.startswith(plain), "Debian's own Python, with nothing of the user's"
    assert (FRONT / re.search(r"record-office/(\S+\.py)", begin)[1]).is_file()


@pytest.mark.parametrize("option, value", [("queue", None), ("index", "${CACHE_DIRECTORY}/index.db"),
                                           ("words", "${RUNTIME_DIRECTORY}/office.json"),
                                           ("texts", "${RUNTIME_DIRECTORY}/texts")])
def test_what_the_readers_service_is_told(option, value):
    value = value or re.search(r"bind unix@(\S+)", SERVER["haproxy.cfg"])[1]
    assert f" --{option} {value}" in " ".join(SERVICES["record-office-readers"]["ExecStart"])
