#!/usr/bin/env bash
# Tries upgrades from each package that was built for others, and the way back, with one office and with two, with files edited and
# not, with TLS and without, in a Debian that is booted in namespaces:
#
#     packaging/try_upgrades.sh PROGRAM [ROOT.tar [SUITE [OLD]]]
#
# ROOT.tar is a Debian with what the package needs; the script makes it if it does not exist, of bookworm unless SUITE says
# trixie. OLD is a folder for the old packages, which are made from the history if they are not there. CASES names the cases, if
# not all. It needs what try.sh needs. Its last line is `N passed, M failed`.
set -euo pipefail
. "$(dirname "$0")/try_boot.sh"
old=${4:-$room/old}
"$here/old_packages.sh" "$program" "$old"
mkdir "$room/one"
tree "$room/one/tree"
root_with ,adduser,python3,sqlite3,haproxy,nftables,nginx,openssl,procps,python3-babel,python3-jinja2,python3-segno,python3-snowballstemmer,python3-waitress
cp "$(build "$room/one/tree")" "$root/root/new.deb"
dpkg-deb -R "$root/root/new.deb" "$room/broken"
echo 'nonsense;' >>"$room/broken/usr/share/record-office/server/common.conf"
dpkg-deb --root-owner-group -Znone -b "$room/broken" "$root/root/broken.deb" >/dev/null
cp "$old"/*.deb "$here"/{try_checks,try_upgrades_inside}.sh "$here/../examples/archives.csv" "$root/root"
cases=${CASES:-$(for version in 87a45c06 d4f3b408; do for offices in one two; do for files in given edited; do for site in plain tls; do
    echo "$version-$offices-$files-$site"; done; done; done; done)}
if boot && sleep 3; then
    for case in $cases; do
        inside bash /root/try_upgrades_inside.sh "$case"
        grep -q '^to the end$' "$room/inside" || is "the case $case came to its end" 1
    done
else
    cat "$room/boot"
    is "systemd begins there" 1
fi
echo "$passed passed, $failed failed"
[ "$failed" = 0 ]
