# shellcheck shell=bash
# What scripts share that need programs which may not be here. They source this file.

# install PACKAGE..: tries to install packages of Debian
install() {
    if [ "$(id -u)" = 0 ] && command -v apt-get >/dev/null; then
        timeout 120 apt-get update -q >/dev/null 2>&1 || true
        DEBIAN_FRONTEND=noninteractive timeout 300 \
            apt-get install -y -q --no-install-recommends "$@" >/dev/null 2>&1 || true
    fi
}

# has NAME [PACKAGE..]: whether there is such a program, or it can be installed
has() {
    command -v "$1" >/dev/null && return
    local packages=("${@:2}")
    install "${packages[@]:-$1}"
    command -v "$1" >/dev/null
}
