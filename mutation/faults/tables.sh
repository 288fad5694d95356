#!/usr/bin/env bash
# Refuses each allocation of each test of the tables in turn, and counts how the tests end: tables.sh [TESTS [K [NAME ..]]]
# TESTS is a program of tests; with K every K-th allocation is refused. shim.c is loaded before the C library.
# First: cd crates/store_tests && rt test
set -euo pipefail
top=$(cd "$(dirname "$0")/../.." && pwd)
tests=${1:-"$top/crates/store_tests/out/store_tests_tests"}
every=${2:-1}
shift $(($# < 2 ? $# : 2))
room=$(mktemp -d)
trap 'rm -r "$room"' EXIT
cc -shared -fPIC -O2 -o "$room/shim.so" "$top/mutation/faults/shim.c" -ldl

names=("$@")
[ $# -gt 0 ] || mapfile -t names < <("$tests" --list | sed -n 's/: test$//p')
for name in "${names[@]}"; do
    echo "$name, every ${every}th of its allocations refused:"
    EACH=$every SHOW=1 LD_PRELOAD="$room/shim.so" "$tests" "$name" 2>&1 || true
done
