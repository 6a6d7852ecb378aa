#!/bin/sh
# Is read by the other scripts: what they need from Debian is installed, or named.

# install PACKAGE: as root, by apt-get
install_package() {
    if [ "$(id -u)" = 0 ] && command -v apt-get >/dev/null 2>&1; then
        echo "installing $1" >&2
        DEBIAN_FRONTEND=noninteractive apt-get -o DPkg::Lock::Timeout=300 install -y -qq \
            --no-install-recommends "$1" >/dev/null 2>&1 && return 0
        apt-get -o DPkg::Lock::Timeout=300 update -qq >/dev/null 2>&1
        DEBIAN_FRONTEND=noninteractive apt-get -o DPkg::Lock::Timeout=300 install -y -qq \
            --no-install-recommends "$1" >/dev/null 2>&1
    fi
}

# missing PACKAGE: says what to do, and ends
missing() {
    echo "$(basename "$0"): apt-get install $1" >&2
    exit 1
}

# need COMMAND PACKAGE
need() {
    command -v "$1" >/dev/null 2>&1 || install_package "$2"
    command -v "$1" >/dev/null 2>&1 || missing "$2"
}

# need_python MODULE PACKAGE
need_python() {
    /usr/bin/python3 -c "import $1" >/dev/null 2>&1 || install_package "$2"
    /usr/bin/python3 -c "import $1" >/dev/null 2>&1 || missing "$2"
}
