#!/bin/sh
# check.sh PROGRAM: the page's files are linted, then it is tested in a real browser before the given program.
# It installs Debian's packages that it needs where it may. The last line is `viewer: N passed, M failed`.
set -u
here=$(cd "$(dirname "$0")" && pwd)
if [ $# -ne 1 ]; then
    echo "check.sh PROGRAM" >&2
    exit 2
fi
program=$(realpath "$1")
if [ ! -x "$program" ]; then
    echo "check.sh: no program at $1: run \`make build\` first" >&2
    exit 1
fi
. "$here/packages.sh"
need nginx nginx-light
need chromium chromium
need chromedriver chromium-driver
need eslint eslint
need tidy tidy
need shellcheck shellcheck
need black black
need flake8 flake8
need mypy mypy
need_python selenium python3-selenium
need_python PIL python3-pil

passed=0
failed=0
cd "$here" || exit 1

# row NAME COMMAND ..: one check, quiet where it passes
row() {
    name=$1
    shift
    if said=$("$@" 2>&1); then
        echo "ok   $name"
        passed=$((passed + 1))
    else
        echo "FAIL $name"
        echo "$said" | head -40
        failed=$((failed + 1))
    fi
}

# Debian's modules for node, also where another node comes first
NODE_PATH=/usr/share/nodejs:/usr/lib/nodejs
export NODE_PATH
row "JavaScript by eslint" eslint --no-eslintrc -c eslint.json -f unix --max-warnings 0 www
row "HTML by tidy" tidy -quiet -errors --show-warnings yes --drop-empty-elements no www/index.html
row "shell by shellcheck" shellcheck -x check.sh view.sh picture.sh packages.sh
row "Python's layout by black" /usr/bin/python3 -m black --quiet --check --diff -l 120 .
# Debian's selenium says that it is typed, but half of its functions aren't.
row "Python by mypy" mypy --strict --allow-untyped-calls --ignore-missing-imports --no-error-summary \
    --python-version 3.11 --cache-dir /dev/null .
row "Python by flake8" /usr/bin/python3 -m flake8 --max-line-length 160 --extend-ignore E203,W503 .

log=$(mktemp)
timeout 600 /usr/bin/python3 check.py "$program" | tee "$log"
last=$(tail -1 "$log")
rm -f "$log"
case $last in
    "rows: "*)
        passed=$((passed + $(echo "$last" | cut -d' ' -f2)))
        failed=$((failed + $(echo "$last" | cut -d' ' -f4)))
        ;;
    *)
        echo "FAIL the rows in the browser did not finish"
        failed=$((failed + 1))
        ;;
esac
echo "viewer: $passed passed, $failed failed"
[ "$failed" = 0 ]
