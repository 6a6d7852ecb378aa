#!/usr/bin/env bash
# build_deb.sh PROGRAM VERSION OUT: builds the Debian package yulfrets_VERSION_ARCH.deb in the folder OUT.
#
# PROGRAM is the built bim_server. The viewer (viewer/www), the client (client/yulfrets) and the
# converter (convert/target/release/ifc2grid, mesh2grid) are taken from the checkout where they are
# there; what is absent is left out, with a note. VIEWER, CLIENT and CONVERTER name other places.
set -euo pipefail

[ $# -eq 3 ] || { echo "usage: build_deb.sh PROGRAM VERSION OUT" >&2; exit 2; }
[ -x "$1" ] || { echo "build_deb.sh: $1 is no program: run 'make build', or name one" >&2; exit 2; }
[[ "$2" =~ ^[0-9][0-9A-Za-z.+~]*$ ]] || { echo "build_deb.sh: $2 is no version: begin with a digit, no dash" >&2; exit 2; }
PROGRAM=$(realpath "$1")
VERSION=$2
mkdir -p "$3"
OUT=$(realpath "$3")
DEPLOY=$(dirname "$(realpath "$0")")
ROOT=$(dirname "$DEPLOY")
VIEWER=${VIEWER:-$ROOT/viewer/www}
CLIENT=${CLIENT:-$ROOT/client}
CONVERTER=${CONVERTER:-$ROOT/convert/target/release}

for command in dh fakeroot dpkg-buildpackage; do
    command -v "$command" >/dev/null || { echo "build_deb.sh: $command is missing: apt-get install debhelper fakeroot dpkg-dev" >&2; exit 2; }
done

WORK=$(mktemp -d)
trap 'rm -rf "$WORK"' EXIT
TREE=$WORK/yulfrets
FILES=$TREE/files

note() { echo "build_deb.sh: $*" >&2; }

# the packaging itself, with the version that was asked for
lay_out_packaging() {
    mkdir -p "$TREE" "$FILES" "$TREE/man" "$TREE/doc" "$TREE/examples"
    cp -r "$DEPLOY/debian" "$TREE/debian"
    mv "$TREE"/debian/*.1 "$TREE/man/"
    cp "$DEPLOY"/systemd/yulfrets.service "$TREE/debian/yulfrets.service"
    cp "$DEPLOY"/systemd/yulfrets-queue.service "$TREE/debian/yulfrets.yulfrets-queue.service"
    cp "$DEPLOY"/systemd/yulfrets-passwords.service "$TREE/debian/yulfrets.yulfrets-passwords.service"
    printf 'yulfrets (%s) stable; urgency=medium\n\n  * Built from the checkout.\n\n -- Yulfrets <yulfrets@yulfrets.invalid>  %s\n' \
        "$VERSION" "$(date -R -d "@${SOURCE_DATE_EPOCH:-$(date +%s)}")" >"$TREE/debian/changelog"
    : >"$TREE/debian/parts.substvars"
}

# the program and the front
lay_out_server() {
    install -D -m 755 "$PROGRAM" "$FILES/usr/bin/bim_server"
    local share=$FILES/usr/share/yulfrets etc=$FILES/etc/yulfrets
    mkdir -p "$share/nginx/who" "$etc" "$TREE/examples/nginx" "$TREE/examples/haproxy"
    cp "$DEPLOY"/nginx/*.conf "$share/nginx/"
    cp "$DEPLOY"/nginx/who/*.conf "$share/nginx/who/"
    rm "$share/nginx/site.conf"
    cp "$DEPLOY"/nginx/site.conf "$DEPLOY"/nginx/who/subrequest.conf "$TREE/examples/nginx/"
    cp "$DEPLOY"/haproxy/queue.cfg "$TREE/examples/haproxy/"
    cp "$DEPLOY"/haproxy/queue.cfg "$DEPLOY"/etc/* "$etc/"
    local page
    for page in README.md docs/API.md docs/LIMITS.md docs/SECURITY.md docs/OPERATIONS.md; do
        if [ -f "$ROOT/$page" ]; then cp "$ROOT/$page" "$TREE/doc/"; else note "$page isn't there: left out"; fi
    done
    # a build with memory checks, as make try's, needs more address space than the unit allows
    if grep -aq AddressSanitizer "$PROGRAM"; then
        note "the program has memory checks: the unit's LimitAS is lifted"
        mkdir -p "$FILES/lib/systemd/system/yulfrets.service.d"
        printf '[Service]\nLimitAS=infinity\n' >"$FILES/lib/systemd/system/yulfrets.service.d/checked.conf"
    fi
    if [ -f "$ROOT/docs/openapi.yaml" ]; then install -D -m 644 "$ROOT/docs/openapi.yaml" "$share/openapi.yaml"; fi
}

# the viewer's static files, or a page that says that there is none
lay_out_viewer() {
    local to=$FILES/usr/share/yulfrets/viewer
    mkdir -p "$to"
    if [ -f "$VIEWER/index.html" ]; then
        cp -r "$VIEWER/." "$to/"
    else
        note "the viewer ($VIEWER) isn't there: left out"
        echo '<!doctype html><html lang="en"><title>Yulfrets</title><p>The server runs. This package was built without the viewer.</html>' >"$to/index.html"
    fi
}

# the client: a Python package of its own folder and the command
lay_out_client() {
    if [ ! -f "$CLIENT/yulfrets/__main__.py" ]; then
        note "the client ($CLIENT/yulfrets) isn't there: left out"
        return
    fi
    mkdir -p "$FILES/usr/share/yulfrets/client" "$FILES/usr/bin"
    cp -r "$CLIENT/yulfrets" "$FILES/usr/share/yulfrets/client/"
    find "$FILES/usr/share/yulfrets/client" -name __pycache__ -prune -exec rm -rf {} +
    printf '#!/usr/bin/python3\nimport sys\n\nsys.dont_write_bytecode = True\nsys.path.insert(0, "/usr/share/yulfrets/client")\n\nimport runpy  # noqa: E402\n\nrunpy.run_module("yulfrets", run_name="__main__", alter_sys=True)\n' >"$FILES/usr/bin/yulfrets"
    chmod 755 "$FILES/usr/bin/yulfrets"
    {
        echo 'client:Recommends=python3 (>= 3.11), python3-requests'
        echo 'client:Suggests=python3-openpyxl, python3-pil, python3-rich'
    } >>"$TREE/debian/parts.substvars"
    local page
    for page in "$CLIENT"/*.1; do if [ -f "$page" ]; then cp "$page" "$TREE/man/"; fi; done
}

# the converter
lay_out_converter() {
    local name
    for name in ifc2grid mesh2grid; do
        if [ -x "$CONVERTER/$name" ]; then
            install -D -m 755 "$CONVERTER/$name" "$FILES/usr/bin/$name"
            if [ -f "$ROOT/convert/$name.1" ]; then cp "$ROOT/convert/$name.1" "$TREE/man/"; fi
        else
            note "the converter's $name ($CONVERTER/$name) isn't there: left out"
        fi
    done
}

lay_out_packaging
lay_out_server
lay_out_viewer
lay_out_client
lay_out_converter
find "$FILES" -type f ! -path '*/usr/bin/*' -exec chmod 644 {} +
(cd "$TREE" && dpkg-buildpackage -us -uc -b -rfakeroot >"$WORK/log" 2>&1) || { cat "$WORK/log" >&2; note "the package isn't built: see above"; exit 1; }
cp "$WORK"/yulfrets_*.deb "$OUT/"
ls "$OUT"/yulfrets_"$VERSION"_*.deb
