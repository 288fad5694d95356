#!/usr/bin/env bash
# Makes the package, calls lintian, installs the package on a clean Debian root, boots systemd there in namespaces of its own,
# runs an office by the lines of OPERATING, upgrades, removes and purges the package, and prints each result:
#
#     packaging/try.sh PROGRAM [ROOT.tar [SUITE]]
#
# ROOT.tar is the clean root; the script makes it if it does not exist (some two minutes), of bookworm unless SUITE says trixie. It
# needs root, git, debhelper, dh-python, mmdebstrap, lintian and the network for Debian's packages. It changes nothing outside its folder except a control group of its own, which it removes.
# Its last line is `N passed, M failed`; if systemd cannot be started, it says so and counts that as failed.
set -euo pipefail
. "$(dirname "$0")/try_boot.sh"
mkdir "$room/one" "$room/two" "$room/three"
tree "$room/one/tree"
deb=$(build "$room/one/tree")
how=0
lintian --fail-on error,warning "$deb" >"$room/lintian" 2>&1 || how=1
[ "$how" = 0 ] || cat "$room/lintian"
is "lintian finds no error and no warning" "$how"

again=$(umask 077 && tree "$room/two/tree" && LC_ALL=C TZ=Asia/Tokyo build "$room/two/tree")
how=0
cmp "$deb" "$again" || how=1
is "another build of the package is equal byte for byte" "$how"

for page in "$here"/*.[18]; do
    how=0
    said=$(cd "$here" && LC_ALL=C.UTF-8 MANWIDTH=80 man --warnings -l -Tutf8 "$page" 2>&1 >/dev/null) || how=$?
    [ -z "$said" ] || how=1
    is "man finds nothing wrong with ${page##*/}${said:+: $said}" "$how"
done

root_with ''
cp /etc/resolv.conf "$root/etc/resolv.conf"
cp "$deb" "$root/root/record-office.deb"
cp "$here/../acceptance/version1.db" "$here"/{try_back.sh,try_alarms.sh,try_registers.sh,try_limits.sh,try_checks.sh,try_inside.sh,try_readers.sh} "$root/root"
cp "$here/../examples/archives.csv" "$root/root"
# The next commit, in which each file that the package brings to /etc has changed, and a page without another size.
next=$room/three/tree
mv "$room/two/tree" "$next"
for file in "$next"/front/server/*.{conf,cfg} "$next"/packaging/{backup,alarm}.conf; do echo '# of the next version' >>"$file"; done
sed -i 's/The desk/the Desk/' "$next/front/desk/index.html"
git -C "$next" -c user.name=try -c user.email=try@localhost commit -q --allow-empty -m 'the next commit'
next=$(build "$next")
how=0
dpkg --compare-versions "$(dpkg-deb -f "$next" Version)" gt "$(dpkg-deb -f "$deb" Version)" || how=1
is "a build of the next commit has a greater version" "$how"
cp "$next" "$root/root/next.deb"
mkdir -p "$root/root/top/crates/record_office/out"
cp -r "$here/../front" "$here/../packaging" "$root/root/top"
cp "$program" "$root/root/top/crates/record_office/out/record_office"
install() {
    unshare -mpf --kill-child bash -c "
        mount --bind '$root' '$root'; mount -t proc proc '$root/proc'; mount --rbind /dev '$root/dev'; mount -t tmpfs none '$root/run'
        chroot '$root' sh -c 'export DEBIAN_FRONTEND=noninteractive; apt-get update -qq && apt-get install -qq -y /root/record-office.deb'"
}
how=0
install >"$room/install" 2>&1 || how=1
[ "$how" = 0 ] || tail -20 "$room/install"
is "apt installs the package, with nginx and HAProxy, on a clean root" "$how"

# operating PLACE FOLDER: runs the lines of OPERATING that are meant for this place
operating() {
    local how=0
    "$here/../run" acceptance.operating --place "$1" --shell "nsenter -t $booted -m -p -n -C bash -c 'cd $2 && exec bash'" >"$room/lines" || how=$?
    grep -v '^left out' "$room/lines" || true
    is "the lines of OPERATING, place '$1': $(tail -1 "$room/lines")" "$how"
}

if boot && sleep 3; then
    is "systemd begins there" 0
    inside bash /root/try_inside.sh before
    operating package /root
    inside bash /root/try_readers.sh
    inside bash /root/try_inside.sh after
    grep -q '^to the end$' "$room/inside" || is "the trial inside came to its end" 1
    operating hand /root/top
else
    cat "$room/boot"
    is "systemd begins there" 1
fi
echo "$passed passed, $failed failed"
[ "$failed" = 0 ]
