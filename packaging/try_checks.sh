# shellcheck shell=bash
# What the parts of try.sh that run inside the clean Debian share. They source this file.

# is WHAT COMMAND ..: checks that the command ends with 0
is() {
    local what=$1
    shift
    if "$@" >/tmp/out 2>&1; then echo "passed: $what"; else echo "FAILED: $what: $(tail -3 /tmp/out)"; fi
}

# same WHAT FOUND EXPECTED: checks that the two are equal
same() {
    if [ "$2" = "$3" ]; then echo "passed: $1"; else echo "FAILED: $1: '$2' is not '$3'"; fi
}

# answered URL ..: whether each is answered with 200
answered() {
    local url
    for url in "$@"; do [ "$(status -m 5 "$url")" = 200 ] || return 1; done
}

status() { curl -s -o /dev/null -m 30 -w '%{http_code}' "$@"; }

# hidden PROCESS PATH ..: a process that runs sees none of these paths, whatever their modes
hidden() {
    local process=$1 path
    shift
    test -d "/proc/$process/root/usr" || return
    for path; do test ! -e "/proc/$process/root$path" || return; done
}

# waits COMMAND ..: until the command succeeds, or for a minute, or MINUTES
waits() {
    local end=$((SECONDS + 60 * ${MINUTES:-1}))
    until "$@" >/dev/null 2>&1; do
        [ $SECONDS -lt $end ] || return
        sleep 0.2
    done
}
