#!/bin/sh
# view.sh PROGRAM [--port N]: the page with a building, its clashes and its topics, on the loopback, until Ctrl-C.
# It needs Debian's nginx-light; as root it installs it. Project 1 is a made building; project 2 is a real house, where
# Debian's assimp-testmodels and the built converter are there.
set -eu
here=$(cd "$(dirname "$0")" && pwd)
if [ $# -lt 1 ]; then
    echo "view.sh PROGRAM [--port N]" >&2
    exit 2
fi
. "$here/packages.sh"
need nginx nginx-light
need /usr/bin/python3 python3
house=/usr/share/assimp/models/IFC/AC14-FZK-Haus.ifc
exec /usr/bin/python3 "$here/stage.py" "$@" --house "$house"
