# shellcheck shell=bash
# The package's rows, for check.sh: functions over $DEPLOY, $PROGRAM and $WORK.

ARCH=$(dpkg --print-architecture)

built() {
    mkdir -p "$WORK/out"
    "$DEPLOY/build_deb.sh" "$PROGRAM" "$1" "$WORK/out" </dev/null
}

# Tags that are expected, with their reasons:
#   no-manual-page: the client and the converter say what they do by --help
#   initial-upload-closes-no-bugs, bogus-mail-host: the package isn't one of Debian's
lintian_is_quiet() {
    local said
    said=$(lintian --allow-root --tag-display-limit 0 --suppress-tags no-manual-page,initial-upload-closes-no-bugs,bogus-mail-host \
        "$WORK/out/yulfrets_0.1_$ARCH.deb" 2>&1 | grep -E '^[EW]:')
    [ -z "$said" ] || { echo "$said"; return 1; }
}

has_its_files() {
    local listed each
    listed=$(dpkg-deb --contents "$WORK/out/yulfrets_0.1_$ARCH.deb" | awk '{ print $1, $2, $6 }')
    for each in "-rwxr-xr-x root/root ./usr/bin/bim_server" \
        "-rw-r--r-- root/root ./lib/systemd/system/yulfrets.service" \
        "-rw-r--r-- root/root ./lib/systemd/system/yulfrets-queue.service" \
        "-rw-r--r-- root/root ./lib/systemd/system/yulfrets-passwords.service" \
        "-rw-r--r-- root/root ./etc/default/yulfrets" \
        "-rw-r--r-- root/root ./etc/yulfrets/queue.cfg" \
        "-rw-r--r-- root/root ./usr/share/yulfrets/nginx/server.conf" \
        "-rw-r--r-- root/root ./usr/share/yulfrets/nginx/who/passwords.conf" \
        "-rw-r--r-- root/root ./usr/share/yulfrets/viewer/index.html" \
        "-rw-r--r-- root/root ./usr/share/doc/yulfrets/examples/nginx/site.conf" \
        "-rw-r--r-- root/root ./usr/share/man/man1/bim_server.1.gz" \
        "-rw-r--r-- root/root ./usr/share/doc/yulfrets/OPERATIONS.md"; do
        grep -qF -- "$each" <<<"$listed" || { echo "it lacks $each"; return 1; }
    done
}

# dpkg over a folder of its own; scripts run outside of it and are given its path
dpkg_there() {
    dpkg --root="$WORK/root" --log=/dev/null --force-not-root,script-chrootless,depends,unsafe-io --force-confold "$@"
}

installs() {
    mkdir -p "$WORK/root/var/lib/dpkg/info" "$WORK/root/var/lib/dpkg/updates"
    : >"$WORK/root/var/lib/dpkg/status"
    dpkg_there -i "$WORK/out/yulfrets_0.1_$ARCH.deb" || return 1
    dpkg_there --audit
    local wanted=$WORK/root/etc/systemd/system/multi-user.target.wants
    [ -L "$wanted/yulfrets.service" ] || { echo "yulfrets.service isn't enabled"; return 1; }
    [ ! -e "$wanted/yulfrets-queue.service" ] || { echo "yulfrets-queue.service is enabled"; return 1; }
}

# started as the unit says, with the words of /etc/default/yulfrets and another port
installed_server_answers() {
    local port words answer=
    port=$(python3 -c 'import socket; s = socket.create_server(("127.0.0.1", 0)); print(s.getsockname()[1])')
    words=$(sed -n 's/^ExecStart=//p' "$WORK/root/lib/systemd/system/yulfrets.service")
    env -i sh -c "set -a; . '$WORK/root/etc/default/yulfrets'; ADDR=127.0.0.1:$port; exec '$WORK/root'$words" &
    local server=$!
    for _ in $(seq 50); do
        answer=$(python3 -c "import urllib.request as u; print(u.urlopen('http://127.0.0.1:$port/bcf/3.0/projects', timeout=5).read().decode())" 2>&1) && break
        sleep 0.2
    done
    kill $server
    wait $server
    grep -q '"name":"Project 1"' <<<"$answer" || { echo "$answer"; return 1; }
}

# the installed site and queue with the root's paths, as nginx and HAProxy read them
installed_front_is_valid() {
    local root=$WORK/root front=$WORK/front
    mkdir -p "$front/tmp" "$front/tls" "$front/run"
    openssl req -x509 -newkey ec -pkeyopt ec_paramgen_curve:P-256 -nodes -days 2 -subj /CN=bim.example \
        -keyout "$front/tls/server.key" -out "$front/tls/server.crt" 2>/dev/null || return 1
    local paths=(-e "s|/usr/share/yulfrets|$front/share|g" -e "s|/etc/yulfrets/tls|$front/tls|g" -e "s|/etc/yulfrets|$root/etc/yulfrets|g"
        -e "s|/run/yulfrets-|$front/run/|g" -e "s|/var/log/nginx|$front|g" -e '/listen \[::\]/d' -e 's/listen \(80\|443\)/listen 127.0.0.1:6\1/')
    cp -r "$root/usr/share/yulfrets" "$front/share"
    find "$front/share/nginx" -name '*.conf' -exec sed -i "${paths[@]}" {} +
    sed "${paths[@]}" "$root/usr/share/doc/yulfrets/examples/nginx/site.conf" >"$front/site.conf"
    sed "${paths[@]}" "$root/etc/yulfrets/queue.cfg" >"$front/queue.cfg"
    # Debian's own nginx.conf, with the site in place of those of this machine
    sed -e "s|^pid .*|pid $front/nginx.pid;|" -e "s|include /etc/nginx/sites-enabled/.*|include $front/site.conf;|" \
        -e "/modules-enabled/d" -e "/conf.d/d" -e "s|/var/log/nginx|$front|g" /etc/nginx/nginx.conf >"$front/nginx.conf"
    nginx -t -q -e stderr -p "$front" -c "$front/nginx.conf" && haproxy -c -q -f "$front/queue.cfg"
}

upgrades() {
    echo eva >>"$WORK/root/etc/yulfrets/readers"
    dpkg-deb -R "$WORK/out/yulfrets_0.1_$ARCH.deb" "$WORK/next" || return 1
    sed -i 's/^Version: 0.1$/Version: 0.2/' "$WORK/next/DEBIAN/control"
    dpkg-deb --root-owner-group -Zgzip -z1 -b "$WORK/next" "$WORK/out/yulfrets_0.2_$ARCH.deb" || return 1
    dpkg_there -i "$WORK/out/yulfrets_0.2_$ARCH.deb" || return 1
    grep -q '^eva$' "$WORK/root/etc/yulfrets/readers" || { echo "the operator's file is gone"; return 1; }
    # what the old package's script does before an upgrade: stopping is for a removal alone
    dpkg-deb --ctrl-tarfile "$WORK/out/yulfrets_0.1_$ARCH.deb" | tar -xO ./prerm |
        awk '/deb-systemd-invoke stop/ { found = 1; if (last !~ /"\$1" = remove/) bad = 1 } { last = $0 } END { exit bad || !found }' ||
        { echo "prerm stops the server at an upgrade"; return 1; }
    # what the new one's does after it: start, which leaves a running server as it is
    grep -q "deb-systemd-invoke start 'yulfrets.service'" "$WORK/next/DEBIAN/postinst" ||
        { echo "postinst doesn't start the server, or starts it again at an upgrade"; return 1; }
}

is_removed() {
    dpkg_there -r yulfrets || return 1
    [ ! -e "$WORK/root/usr/bin/bim_server" ] || { echo "the program is left"; return 1; }
    [ -e "$WORK/root/etc/yulfrets/readers" ] || { echo "the operator's files are gone without a purge"; return 1; }
    dpkg_there -P yulfrets || return 1
    local left
    left=$(find "$WORK/root/etc" "$WORK/root/usr" "$WORK/root/lib" ! -type d 2>/dev/null)
    [ -z "$left" ] || { echo "left: $left"; return 1; }
}
