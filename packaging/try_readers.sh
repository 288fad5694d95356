#!/usr/bin/env bash
# try.sh calls this inside its booted root once there is an office: the service of the readers' pages and their search. It answers
# by the site; stopped, nothing else changes; and what its hardening promises holds for a process that is begun as the service is.
set -uo pipefail
readers=http://127.0.0.1:8080
desk=http://127.0.0.1:8081
unit=record-office-readers
drop_in=/run/systemd/system/$unit.service.d

. "$(dirname "$0")/try_checks.sh"

# found WORD: waits until the site's search finds a unit for the word, or for two minutes
found() {
    for _ in $(seq 120); do
        curl -s "$readers/public/search?q=$1" | grep -q '"unit"' && return
        sleep 1
    done
    return 1
}

# A word that stands in the head of the first archive.
word() { curl -s $readers/public/fonds | sed -n '1s/.*\] //p' | tr -cs 'A-Za-z' '\n' | awk 'length > 3' | head -1; }

answers() {
    is 'the search finds a word of the first archive' found "$(word)"
    same 'the box is there: a question without words is answered' "$(status "$readers/public/search?")" 200
    same 'nginx logs no search' "$(grep -c /public/search /var/log/nginx/access.log)" 0
}

stops() {
    systemctl stop $unit
    same 'stopped it is not there' "$(systemctl is-active $unit)" inactive
    same 'then pages and searches are away, and readers are told so' \
        "$(status $readers/) $(status "$readers/public/search?q=x") $(curl -s $readers/ | grep -q 'not there just now' && echo told)" '503 503 told'
    same 'questions of other programs and the desk go on' \
        "$(status $readers/public/fonds) $(status $readers/public/units/1) $(status -u desk:quiet-paper $desk/desk/issued)" '200 200 200'
    same 'so do program and queue' "$(systemctl is-active record-office record-office-queue | xargs)" 'active active'
    systemctl start $unit
    is 'begun again it answers' found "$(word)"
    systemctl kill -s KILL $unit
    is 'killed it is begun again' found "$(word)"
    systemctl stop $unit
    rm -rf /var/cache/private/$unit/* /var/cache/$unit/*
    systemctl start $unit
    is 'without its index too' found "$(word)"
    for file in "/var/cache/private/$unit"/index.db*; do head -c 8192 /dev/urandom >"$file"; done
    is 'and with a damaged one' found "$(word)"
}

# What a process may do that is begun as the service is: a line each.
probe() {
    cat >/usr/local/lib/try_readers_probe.py <<'PROBE'
import ctypes, mmap, os, pathlib, socket

def tried(what, act):
    try:
        print(what, "may" if act() is not False else "may not")
    except OSError:
        print(what, "may not")

def makes(family):
    return lambda: socket.socket(family).close()

tried("unix", makes(socket.AF_UNIX))
tried("inet", makes(socket.AF_INET))
tried("inet6", makes(socket.AF_INET6))
tried("netlink", makes(socket.AF_NETLINK))
tried("packet", makes(socket.AF_PACKET))
tried("office", lambda: os.listdir("/var/lib/record-office"))
tried("passwords", lambda: open("/etc/record-office/staff").close())
tried("write", lambda: pathlib.Path("/usr/share/record-office/x").write_text("x"))
tried("home", lambda: len(os.listdir("/root")) > 0)
tried("execute", lambda: mmap.mmap(-1, 4096, prot=mmap.PROT_READ | mmap.PROT_WRITE | mmap.PROT_EXEC).close())
tried("unshare", lambda: ctypes.CDLL(None).unshare(0x10000000) == 0)
tried("root", lambda: os.getuid() == 0)
tried("queue", lambda: socket.socket(socket.AF_UNIX).connect("/run/record-office-queue/readers.sock"))
print("interfaces", *(line.split(":")[0].strip() for line in open("/proc/self/net/dev").readlines()[2:]))
PROBE
    mkdir -p $drop_in
    # shellcheck disable=SC2016  # systemd expands it
    printf '[Service]\nExecStartPre=/bin/sh -c "/usr/bin/python3 /usr/local/lib/try_readers_probe.py >${CACHE_DIRECTORY}/probe"\n' >$drop_in/probe.conf
    systemctl daemon-reload
    systemctl restart $unit
    cp /var/cache/$unit/probe /tmp/probe
    rm -r $drop_in /usr/local/lib/try_readers_probe.py /var/cache/$unit/probe
    systemctl daemon-reload
    systemctl restart $unit
}

hardened() {
    is 'there is more of a network than loopback' ip link show outside
    probe
    same 'of sockets it may make those of the file system alone' "$(grep -E '^(unix|inet|inet6|netlink|packet) ' /tmp/probe | xargs)" \
        'unix may inet may not inet6 may not netlink may not packet may not'
    same 'it has no network but loopback' "$(grep '^interfaces' /tmp/probe)" 'interfaces lo'
    same 'it sees neither the office nor the passwords' "$(grep -E '^(office|passwords|home) ' /tmp/probe | xargs)" 'office may not passwords may not home may not'
    is 'nor are they there for it, whatever their modes' hidden "$(systemctl show -p MainPID --value $unit)" \
        /var/lib/record-office/office.db /etc/record-office/staff
    same 'it reaches the queue' "$(grep '^queue' /tmp/probe)" 'queue may'
    same 'it writes nowhere else, and executes nothing that it wrote' "$(grep -E '^(write|execute|unshare|root) ' /tmp/probe | xargs)" \
        'write may not execute may not unshare may not root may not'
    same 'systemd says so too' "$(systemctl show -p PrivateNetwork,RestrictAddressFamilies,DynamicUser $unit | sort | xargs)" \
        'DynamicUser=yes PrivateNetwork=yes RestrictAddressFamilies=AF_UNIX'
    is 'its exposure is small' sh -c "systemd-analyze security --no-pager --threshold=12 $unit"
    is 'and it answers as before' found "$(word)"
}

answers
stops
hardened
