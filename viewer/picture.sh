#!/bin/sh
# picture.sh PROGRAM OUT.png: the page with a new clash of the made building, as README shows it (below 300 kB).
set -eu
here=$(cd "$(dirname "$0")" && pwd)
if [ $# -ne 2 ]; then
    echo "picture.sh PROGRAM OUT.png" >&2
    exit 2
fi
. "$here/packages.sh"
need nginx nginx-light
need chromium chromium
need chromedriver chromium-driver
need_python selenium python3-selenium
need_python PIL python3-pil
exec /usr/bin/python3 "$here/picture.py" "$1" "$2"
