#!/bin/sh
# Checks docs/openapi.yaml: that it is valid, that docs/API.md says the same, that its examples are cases, and that each
# response of the built program is one that it describes.
#
#     api_check/check.sh PROGRAM [--seed N] [--requests N] [--planted]
#
# It installs what it needs by Debian's names, prints the seed of the requests that it draws (`--seed` draws the same
# again), and ends with `api: N passed, M failed`. Its status is 1 where something failed, 2 where it couldn't begin.
set -u
if [ $# -lt 1 ]; then
    echo "usage: api_check/check.sh PROGRAM [--seed N] [--requests N] [--planted]" >&2
    exit 2
fi
program=$(realpath -- "$1")
shift
cd "$(dirname "$0")/.." || exit 2

needed="python3-yaml python3-jsonschema python3-hypothesis openapi-specification libopenapi-client-perl"
needed="$needed yamllint black flake8 mypy python3-typeshed gcc libc6-dev"
missing=""
for package in $needed; do
    dpkg-query -W -f='${Status}' "$package" 2>/dev/null | grep -q "ok installed" || missing="$missing $package"
done
if [ -n "$missing" ]; then
    echo "installing$missing"
    # shellcheck disable=SC2086
    DEBIAN_FRONTEND=noninteractive apt-get -o DPkg::Lock::Timeout=300 install -y -qq $missing >/dev/null ||
        { apt-get -o DPkg::Lock::Timeout=300 update -qq &&
            DEBIAN_FRONTEND=noninteractive apt-get -o DPkg::Lock::Timeout=300 install -y -qq $missing >/dev/null; } ||
        { echo "api_check: install$missing by apt-get, then run this again" >&2; exit 2; }
fi

exec timeout 600 /usr/bin/python3 -m api_check --style "$program" "$@"
