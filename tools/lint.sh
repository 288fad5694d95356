#!/usr/bin/env bash
# What flake8 and mypy find in Python, eslint in JavaScript and shellcheck in shell: tools/lint.sh
# It tries to install them from Debian's packages. What cannot be installed is left out; in CI that is wrong. It ends with 1 if
# something was found.
set -euo pipefail
cd "$(dirname "$0")/.."
. tools/has.sh
failed=0
# Debian's modules of Node, if `node` is not Debian's own
export NODE_PATH=/usr/share/nodejs:/usr/lib/nodejs MYPY_CACHE_DIR=$PWD/.mypy_cache

# finds WHERE TOOL WORD ..: runs a tool in a folder if it can be had, and notes if it finds something
finds() {
    if ! has "$2"; then
        echo "left out: $2 is not here and cannot be installed"
        if [ -n "${CI:-}" ]; then failed=1; fi
    else
        (cd "$1" && "${@:2}") || failed=1
    fi
}

mapfile -t shell < <(grep -rlE --exclude-dir={crates,.git,out,record-office} '^#!/(usr/)?bin/(env )?(ba)?sh|^# shellcheck shell' .)
finds . flake8 . packaging/tools/record-office-* packaging/lists/record-office-{lists,register}
finds . mypy
# What is installed from a folder finds its modules there; trying an import also finds those of the look at a file.
for folder in front/readers front/look front/try front/my packaging/tools packaging/lists; do
    mapfile -t files < <(cd $folder && grep -lE '^#!/usr/bin/python3|^"""' ./*.py ./record-office-* 2>/dev/null)
    MYPYPATH=$PWD/front/look:$PWD/front/readers finds $folder mypy --config-file "$PWD/pyproject.toml" --scripts-are-modules "${files[@]#./}"
done
finds . eslint --format unix front acceptance
finds . shellcheck "${shell[@]}"
[ "$failed" = 1 ] || echo "flake8, mypy, eslint and shellcheck find nothing"
exit "$failed"
