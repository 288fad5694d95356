#!/usr/bin/env bash
# Makes the packages that were built for others before, from the history, with this program: packaging/old_packages.sh PROGRAM FOLDER
# Each goes to FOLDER/COMMIT.deb, if it is not there yet.
set -euo pipefail
here=$(cd "$(dirname "$0")" && pwd)
program=$(realpath "$1")
folder=$(realpath -m "$2")
for commit in 87a45c06 d4f3b408; do
    [ ! -s "$folder/$commit.deb" ] || continue
    mkdir -p "$folder/$commit"
    git clone -q --no-checkout "$here/.." "$folder/$commit/tree"
    git -C "$folder/$commit/tree" checkout -q "$commit"
    "$folder/$commit/tree/packaging/deb.sh" "$program" "$folder/$commit" >/dev/null
    mv "$folder/$commit"/*.deb "$folder/$commit.deb"
    rm -rf "${folder:?}/$commit"
done
