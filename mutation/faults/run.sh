#!/usr/bin/env bash
# Refuses each allocation, and fails, interrupts or shortens each read and write of previews in turn: run.sh [PROGRAM]
# Each run must end with the right fault, or as it does undisturbed. Equal endings are counted; a checksum and a length stand
# for the output. shim.c is loaded before the C library. The script ends with 1 if a run ends in another way, or if there was
# nothing to disturb. First: cd crates/record_office && rt run
set -euo pipefail
top=$(cd "$(dirname "$0")/../.." && pwd)
program=$(realpath "${1:-$top/crates/record_office/out/record_office}")
fonds="$top/examples/fonds.csv"
room=$(mktemp -d)
trap 'rm -r "$room"' EXIT
cc -shared -fPIC -O2 -o "$room/shim.so" "$top/mutation/faults/shim.c" -ldl
nothing=$(cksum </dev/null)
wrong=0

# ending HOW INPUT WORD ..: how the program ends when the shim disturbs it like this
ending() {
    local variables input=$2 status=0
    read -r -a variables <<<"$1"
    shift 2
    env "${variables[@]}" LD_PRELOAD="$room/shim.so" "$program" "$@" <"$input" >"$room/out" 2>"$room/err" || status=$?
    echo "status $status, out $(cksum <"$room/out"), err $(tr '\n' '~' <"$room/err")"
}

# each NAME CALLS FAULT HOW INPUT WORD ..: a run for each call of this kind, which is disturbed
each() {
    local name=$1 calls=$2 fault=$3 how=$4 input=$5 count whole
    shift 5
    whole=$(ending "" "$input" "$@")
    count=$(ending SHOW=1 "$input" "$@" | sed "s/.*$calls=\([0-9]*\).*/\1/")
    for n in $(seq 1 "$count"); do ending "${how/N/$n}" "$input" "$@"; done | sort | uniq -c >"$room/ends"
    sed "s/^/$name:/" "$room/ends" | cut -c1-120
    if [ ! -s "$room/ends" ] || sed 's/^ *[0-9]* //' "$room/ends" | grep -vxF -e "$whole" -e "$fault"; then
        echo "WRONG $name"
        wrong=1
    fi
}

preview=(preview --country GB --repo 0999)
no_memory="status 3, out $nothing, err no memory~"
file_fault="status 3, out $nothing, err file fault~"
each 'allocations, standard input' allocs "$no_memory" FA=N "$fonds" "${preview[@]}"
each 'allocations, FILE' allocs "$no_memory" FA=N /dev/null "${preview[@]}" "$fonds"
each 'allocations, empty file' allocs "$no_memory" FA=N /dev/null "${preview[@]}"
each 'allocations, wrong words' allocs "$no_memory" FA=N /dev/null preview
each 'failing reads' reads "$file_fault" FR=N "$fonds" "${preview[@]}"
each 'failing reads of FILE' reads "$file_fault" FR=N /dev/null "${preview[@]}" "$fonds"
each 'failing writes' writes "$file_fault" FW=N "$fonds" "${preview[@]}"
each 'failing writes of messages' writes "status 1, out $nothing, err " FW=N /dev/null "${preview[@]}"
for how in INTR=1 SHORT=1; do
    each "reads with $how" reads undisturbed "FR=N $how" "$fonds" "${preview[@]}"
    each "writes with $how" writes undisturbed "FW=N $how" "$fonds" "${preview[@]}"
done
exit "$wrong"
