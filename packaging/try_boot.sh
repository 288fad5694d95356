# shellcheck shell=bash
# What try.sh and try_upgrades.sh share, and source with their words, PROGRAM [ROOT.tar [SUITE ..]]: a folder that is removed at the
# end, counts, packages of trees, and a Debian that is booted.

here=$(cd "$(dirname "$0")" && pwd)
[ $# -ge 1 ] || { echo "usage: packaging/${0##*/} PROGRAM [ROOT.tar [SUITE]]" >&2; exit 2; }
program=$(realpath "$1")
room=$(mktemp -d)
tar=${2:-$room/root.tar}
suite=${3:-bookworm}
root=$room/root
chmod 755 "$room"
group=/sys/fs/cgroup/unified/record-office-try.$$
booted=
passed=0
failed=0

ends() {
    [ -z "$booted" ] || kill -KILL "$booted" 2>/dev/null || true
    for _ in $(seq 20); do
        [ -d "$group" ] || break
        find "$group" -depth -type d -exec rmdir {} \; 2>/dev/null || true
        sleep 0.5
    done
    rm -rf --one-file-system "$room"
}
trap ends EXIT

# is WHAT STATUS: prints and counts the result of one check
is() {
    if [ "$2" = 0 ]; then
        passed=$((passed + 1))
        echo "passed: $1"
    else
        failed=$((failed + 1))
        echo "FAILED: $1"
    fi
}

# tree FOLDER: a copy of this tree as it stands, with its history
tree() {
    git clone -q --no-checkout "$here/.." "$1"
    git -C "$1" remote remove origin
    (cd "$here/.." && git ls-files -z debian packaging front docs examples CHANGELOG.md | xargs -0 cp --parents -t "$1")
}

# build FOLDER: makes the package of a tree in the folder above it, and prints its name
build() {
    (cd "$1" && PROGRAM=$program dpkg-buildpackage -b -us -uc) >"$1.log" 2>&1 || tail -20 "$1.log" >&2
    ls "${1%/*}"/*.deb
}

# root_with PACKAGES: a Debian with these packages as $root, from $tar, which is made if it is not there
root_with() {
    [ -s "$tar" ] || mmdebstrap --quiet --variant=minbase --include="systemd-sysv,dbus,curl,iproute2,ca-certificates$1" "$suite" "$tar"
    mkdir "$root"
    tar -C "$root" -xf "$tar" --exclude='./dev/*'
}

# systemd as the first process of its own namespaces, in a control group of its own. Its network is loopback and a bridge to
# nowhere, which shows what has no network. This machine may run other such systems: `booted` is the child of the process that
# was begun here, and it has the root that was made here.
boot() {
    mkdir "$group"
    setsid bash -c "echo \$\$ >'$group/cgroup.procs'; exec unshare -mpfCn --kill-child bash -c '
        mount --bind $root $root; cd $root
        mount -t proc proc proc; mount -t sysfs -o ro sysfs sys; mount -t tmpfs none run; mount -t tmpfs none tmp; mount --rbind /dev dev
        mount -t cgroup2 none sys/fs/cgroup; ip link set lo up; ip link add outside type bridge
        pivot_root . mnt; umount -l /mnt; exec env container=other /lib/systemd/systemd'" <"/dev/null" >"$room/boot" 2>&1 &
    local began=$!
    for _ in $(seq 30); do
        sleep 1
        booted=$(xargs 2>/dev/null <"/proc/$began/task/$began/children" || true)
        [ -z "$booted" ] || [ "$(cat "/proc/$booted/comm")" != systemd ] || [ ! "/proc/$booted/root/root" -ef "$root/root" ] || return 0
    done
    return 1
}

# inside COMMAND ..: runs it there, without this environment, and counts the results that it prints
inside() {
    nsenter -t "$booted" -m -p -n -C env -i PATH=/usr/local/sbin:/usr/local/bin:/usr/sbin:/usr/bin:/sbin:/bin HOME=/root "$@" >"$room/inside" 2>&1 || true
    cat "$room/inside"
    passed=$((passed + $(grep -c '^passed: ' "$room/inside" || true)))
    failed=$((failed + $(grep -c '^FAILED: ' "$room/inside" || true)))
}

