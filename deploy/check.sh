#!/usr/bin/env bash
# check.sh PROGRAM: tries the front, the units and the package over the built program.
#
# It works in folders of its own, on free ports of 127.0.0.1, and installs the Debian packages that
# it needs (as root). A line each row, "ok NAME" or "FAILED NAME: why"; the last line counts them.
#   check.sh PROGRAM            all
#   check.sh PROGRAM PART ..    some of: lint units front package
set -uo pipefail

if [ $# -lt 1 ] || [ ! -x "$1" ]; then
    echo "usage: check.sh PROGRAM [lint|units|front|package ..]; PROGRAM is the built bim_server" >&2
    exit 2
fi
PROGRAM=$(realpath "$1")
shift
PARTS=("$@")
[ ${#PARTS[@]} -gt 0 ] || PARTS=(lint units front package)
DEPLOY=$(dirname "$(realpath "$0")")
WORK=$(mktemp -d)
trap 'rm -rf "$WORK"' EXIT
PASSED=0
FAILED=0

# row NAME COMMAND..: a row passes where the command's status is 0; else its output says why
row() {
    local name=$1 output
    shift
    if output=$("$@" 2>&1 </dev/null); then
        PASSED=$((PASSED + 1))
        echo "ok $name"
    else
        FAILED=$((FAILED + 1))
        echo "FAILED $name: $(tail -n 12 <<<"$output" | tr '\n' ' ' | cut -c1-1500)"
    fi
}

# the Debian packages that are missing, installed without starting what they bring
need() {
    local missing=() name
    for name in "$@"; do
        dpkg-query -W -f '${Status}' "$name" 2>/dev/null | grep -q 'ok installed' || missing+=("$name")
    done
    [ ${#missing[@]} -gt 0 ] || return 0
    [ "$(id -u)" -eq 0 ] || { echo "check.sh: install ${missing[*]} (Debian packages), or run as root" >&2; exit 2; }
    local policy=/usr/sbin/policy-rc.d made=no status=0
    if [ ! -e $policy ]; then
        printf '#!/bin/sh\nexit 101\n' >$policy
        chmod 755 $policy
        made=yes
    fi
    export DEBIAN_FRONTEND=noninteractive
    local words=(-o DPkg::Lock::Timeout=300 -qq -y --no-install-recommends)
    apt-get install "${words[@]}" "${missing[@]}" >"$WORK/apt.log" 2>&1 </dev/null ||
        { apt-get -qq update >>"$WORK/apt.log" 2>&1 </dev/null && apt-get install "${words[@]}" "${missing[@]}" >>"$WORK/apt.log" 2>&1 </dev/null; } || status=1
    [ $made = no ] || rm -f $policy
    [ $status -eq 0 ] || { tail -n 20 "$WORK/apt.log" >&2; echo "check.sh: can't install ${missing[*]}" >&2; exit 2; }
}

# ---- lint
json_files() { local each; for each in "$DEPLOY"/etc/*.json; do python3 -m json.tool "$each" >/dev/null || return 1; done; }

# a reload of HAProxy holds maxconn lanes twice, and two are left over
lanes_fit() {
    local most lanes unit
    most=$(sed -n 's/^ *server lanes .* maxconn \([0-9]*\) .*/\1/p' "$DEPLOY/haproxy/queue.cfg")
    lanes=$(sed -n 's/^LANES=\([0-9]*\)$/\1/p' "$DEPLOY/debian/yulfrets.default")
    unit=$(sed -n 's/^Environment=.* LANES=\([0-9]*\) .*/\1/p' "$DEPLOY/systemd/yulfrets.service")
    echo "maxconn $most, LANES $lanes and $unit"
    [ "$lanes" -eq $((2 * most + 2)) ] && [ "$unit" -eq "$lanes" ] && [ "$lanes" -le 32 ]
}

# passwords that were right are kept in memory alone, and for a minute
names_in_memory() {
    grep -q '^proxy_cache_path /run/' "$DEPLOY/nginx/http.conf" && grep -q 'proxy_cache_valid 204 60s;' "$DEPLOY/nginx/who/passwords.conf"
}

check_lint() {
    need shellcheck black isort flake8 mypy mandoc
    row "shell scripts: shellcheck" shellcheck -x -P "$DEPLOY" "$DEPLOY"/check.sh "$DEPLOY"/build_deb.sh "$DEPLOY"/checks/package.sh
    row "Python: black" black --quiet --check --diff --line-length 100 "$DEPLOY/checks" "$DEPLOY/load.py"
    row "Python: isort" isort --profile black --line-length 100 --check --diff "$DEPLOY/checks" "$DEPLOY/load.py"
    row "Python: flake8" flake8 --isolated --max-line-length 100 --extend-ignore E203,W503 "$DEPLOY/checks" "$DEPLOY/load.py"
    row "Python: mypy" env MYPYPATH="$DEPLOY/checks" mypy --strict --cache-dir "$WORK/mypy" "$DEPLOY/checks" "$DEPLOY/load.py"
    row "the man page: mandoc" mandoc -T lint -W warning "$DEPLOY/debian/bim_server.1"
    row "static answers are JSON" json_files
    row "lanes are twice maxconn and two more" lanes_fit
    row "remembered passwords stay in memory" names_in_memory
}

# ---- units
# a unit with this program in place of the installed one
unit_copy() {
    mkdir -p "$WORK/units/usr" "$WORK/units/etc"
    sed "s|/usr/bin/bim_server serve|$PROGRAM serve|" "$DEPLOY/systemd/$1.service" >"$WORK/units/$1.service"
}

verified() {
    unit_copy "$1"
    local said
    said=$(systemd-analyze verify --man=no "$WORK/units/$1.service" 2>&1) || { echo "$said"; return 1; }
    said=$(grep -F "$1" <<<"$said")
    [ -z "$said" ] || { echo "$said"; return 1; }
}

exposed_below_two() {
    unit_copy "$1"
    local score
    score=$(systemd-analyze security --offline=yes --no-pager "$WORK/units/$1.service" | sed -n 's/.*Overall exposure level.*: \([0-9.]*\) .*/\1/p')
    echo "exposure $score"
    [ -n "$score" ] && awk -v score="$score" 'BEGIN { exit !(score < 2.0) }'
}

check_units() {
    need systemd haproxy nginx-light
    local unit
    for unit in yulfrets yulfrets-queue yulfrets-passwords; do
        row "$unit.service: verify" verified $unit
        row "$unit.service: exposure below 2.0" exposed_below_two $unit
    done
}

# ---- front
check_front() {
    need nginx-light haproxy apache2-utils openssl
    local line
    while IFS= read -r line; do
        case $line in
        ok\ *) PASSED=$((PASSED + 1)) ;;
        *) FAILED=$((FAILED + 1)) ;;
        esac
        echo "$line"
    done < <(timeout 400 python3 "$DEPLOY/checks/check_front.py" "$PROGRAM" 2>"$WORK/front.log" </dev/null || echo "FAILED the front's rows ended: $(tail -n 3 "$WORK/front.log" | tr '\n' ' ')")
}

# ---- package
check_package() {
    need debhelper fakeroot dpkg-dev lintian nginx-light haproxy openssl
    export DPKG_DEB_COMPRESSOR_LEVEL=1
    # shellcheck source=checks/package.sh
    . "$DEPLOY/checks/package.sh"
    row "the package is built" built 0.1
    [ -f "$WORK/out/yulfrets_0.1_$(dpkg --print-architecture).deb" ] || return 0
    row "lintian is quiet" lintian_is_quiet
    row "the package has its files" has_its_files
    row "it installs into a folder" installs
    row "the installed server answers" installed_server_answers
    row "nginx and HAProxy take the installed files" installed_front_is_valid
    row "an upgrade keeps the operator's files and doesn't stop the server" upgrades
    row "it is removed, and purged without a rest" is_removed
}

for part in "${PARTS[@]}"; do
    case $part in
    lint | units | front | package) "check_$part" ;;
    *) echo "check.sh: no part $part: lint, units, front or package" >&2; exit 2 ;;
    esac
done
echo "deploy: $PASSED passed, $FAILED failed"
[ $FAILED -eq 0 ]
