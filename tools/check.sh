#!/usr/bin/env bash
# Checks a crate over the libraries that are there, without a walk over what each was made from: some seconds to a
# minute, where `rt check` takes one to three more. Whoever calls it knows that the libraries below are built of what
# stands there.
#   tools/check.sh CRATE [--build] [--only F] [--start F --allow-holes] [--test]
# --build also leaves the crate's library in its out/. What is there of a run of rt ci (crates/*/out/rlib, until it ends)
# serves. It is no verdict: rt ci is.
set -euo pipefail
kit=/opt/rattle
top=$(cd "$(dirname "$0")/.." && pwd)
crate=$1
shift

# needs CRATE: what a crate stands on, of this repository and of the kit
needs() {
    sed -n "s/^$1://p" "$top/crates.txt"
}

words=(--crate-name "$crate" src/lib.rt)
[ ! -f "$top/crates/$crate/src/main.rt" ] || words=(--crate-name "$crate" src/main.rt)
words+=(--extern "std=$kit/rlibs/std.rlib" -L "dependency=$kit/rlibs")
declare -A below=()
waiting=()
for it in $(needs "$crate"); do
    if [ -d "$top/crates/$it" ]; then
        words+=(--extern "$it=$top/crates/$it/out/rlib/$it.rlib")
        waiting+=("$it")
    else
        words+=(--extern "$it=$kit/rlibs/$it.rlib")
    fi
done
while [ ${#waiting[@]} -gt 0 ]; do
    it=${waiting[0]}
    waiting=("${waiting[@]:1}")
    if [ -n "${below[$it]:-}" ] || [ ! -d "$top/crates/$it" ]; then continue; fi
    below[$it]=yes
    words+=(-L "dependency=$top/crates/$it/out/rlib")
    read -r -a more <<<"$(needs "$it")"
    waiting+=(${more[@]+"${more[@]}"})
done

cd "$top/crates/$crate"
mkdir -p out/incremental
verb=check
flags=(--progress)
if [ "${1:-}" == --build ]; then
    shift
    verb=build
    rm -rf "out/rlib/$crate.rlib"
    mkdir -p out/rlib
    flags=(-o "$PWD/out/rlib/$crate.rlib")
fi
exec "$kit/bin/rattle" "$verb" "${words[@]}" --antt-project "$kit/rattle/logic/antt-project.json" \
    --logic-built "$kit/logic_built" --links "$crate=" --jobs 1 --incremental out/incremental "${flags[@]}" "$@"
