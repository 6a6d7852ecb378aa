#!/bin/bash
# check.sh PROGRAM: lints, types and tests of the client against a built server. The last line is
# "client: N passed, M failed"; the status is 0 where nothing failed. Below two minutes.
set -u
program=${1:?usage: client/check.sh PROGRAM (the built bim_server)}
program=$(realpath "$program")
[ -x "$program" ] || { echo "client: $program is no program"; exit 1; }
cd "$(dirname "$0")" || exit 1
python=/usr/bin/python3

# what it needs, by Debian's names; what is missing is installed where this user may
needed="python3 python3-requests python3-rich python3-openpyxl python3-pil python3-pytest
  python3-lxml python3-typeshed mypy black isort flake8 openssl zsh"
missing=
for package in $needed; do
    dpkg-query -W -f='${Status}\n' "$package" 2>/dev/null | grep -q '^install ok installed$' ||
        missing="$missing $package"
done
if [ -n "$missing" ]; then
    export DEBIAN_FRONTEND=noninteractive
    # shellcheck disable=SC2086
    { apt-get -q -o DPkg::Lock::Timeout=300 install -y --no-install-recommends $missing ||
        { apt-get -q update && apt-get -q -o DPkg::Lock::Timeout=300 install -y \
            --no-install-recommends $missing; }; } >/tmp/yulfrets-client-apt.$$ 2>&1 ||
        { tail -5 /tmp/yulfrets-client-apt.$$; echo "client: packages are missing:$missing"; exit 1; }
    rm -f /tmp/yulfrets-client-apt.$$
fi

passed=0 failed=0
step() { # step NAME COMMAND..
    local name=$1
    shift
    if "$@"; then
        passed=$((passed + 1))
    else
        failed=$((failed + 1))
        echo "failed: $name"
    fi
}

scratch=$(mktemp -d)
trap 'rm -rf "$scratch"' EXIT
export PYTHONDONTWRITEBYTECODE=1 YULFRETS_TEST_SERVER=$program
if command -v ruff >/dev/null; then
    step ruff ruff check --no-cache .
fi
step black "$python" -m black --quiet --check .
step isort "$python" -m isort --quiet --check .
step flake8 "$python" -m flake8 .
step mypy "$python" -m mypy --cache-dir "$scratch/mypy" yulfrets bin/yulfrets

"$python" -m pytest --basetemp "$scratch/pytest" --junit-xml "$scratch/tests.xml" --durations 3
tests=$("$python" - "$scratch/tests.xml" <<'END'
import sys
import xml.etree.ElementTree as tree

try:
    suite = tree.parse(sys.argv[1]).getroot().find("testsuite")
except (OSError, tree.ParseError):
    suite = None
if suite is None:
    print(0, 1)
else:
    count = {name: int(suite.get(name, 0)) for name in ("tests", "failures", "errors", "skipped")}
    bad = count["failures"] + count["errors"] + count["skipped"]
    print(count["tests"] - bad, bad or int(count["tests"] == 0))
END
)
passed=$((passed + ${tests% *})) failed=$((failed + ${tests#* }))
echo "client: $passed passed, $failed failed"
[ "$failed" -eq 0 ]
