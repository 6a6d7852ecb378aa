#!/usr/bin/env bash
# try_install.sh PACKAGE.deb [FOLDER]: docs/OPERATIONS.md step by step, on a clean Debian 12 that boots in systemd-nspawn.
#
# FOLDER keeps the clean Debian for the next time (some 220 MB); making it takes a minute and the network.
# Run as root, by hand: no part of check.sh. Prints each step's outcome; the last line is "installed" or why not.
set -euo pipefail

if [ $# -lt 1 ] || [ ! -f "$1" ]; then
    echo "usage: try_install.sh PACKAGE.deb [FOLDER]; PACKAGE.deb is what build_deb.sh made" >&2
    exit 2
fi
PACKAGE=$(realpath "$1")
WORK=$(mktemp -d)
trap 'rm -rf "$WORK"' EXIT
CLEAN=${2:-$WORK/clean}

for command in mmdebstrap systemd-nspawn; do
    command -v "$command" >/dev/null || { echo "try_install.sh: $command is missing: apt-get install mmdebstrap systemd-container" >&2; exit 2; }
done
PARTS=systemd,systemd-sysv,nginx-light,haproxy,apache2-utils,openssl,curl,ca-certificates
[ -d "$CLEAN/etc" ] || mmdebstrap --quiet --variant=apt --include=$PARTS bookworm "$CLEAN"
cp -a "$CLEAN" "$WORK/root"
cp "$PACKAGE" "$WORK/root/root/yulfrets.deb"

cat >"$WORK/root/root/steps.sh" <<'STEPS'
#!/bin/bash
# the steps of OPERATIONS, with a password that isn't asked for
set -x
dpkg -i /root/yulfrets.deb
systemctl is-active yulfrets
for i in $(seq 50); do curl -s http://127.0.0.1:8080/bcf/3.0/projects && break; sleep 0.2; done
touch /etc/yulfrets/passwords
chown root:www-data /etc/yulfrets/passwords
chmod 640 /etc/yulfrets/passwords
htpasswd -b -B -C 10 /etc/yulfrets/passwords eva secret
systemctl enable --now yulfrets-queue yulfrets-passwords
openssl req -x509 -newkey ec -pkeyopt ec_paramgen_curve:P-256 -nodes -days 365 \
    -subj /CN=bim.test -addext subjectAltName=DNS:bim.test \
    -keyout /etc/yulfrets/tls/server.key -out /etc/yulfrets/tls/server.crt
chmod 600 /etc/yulfrets/tls/server.key
sed 's/bim\.example/bim.test/' /usr/share/doc/yulfrets/examples/nginx/site.conf >/etc/nginx/sites-available/yulfrets
ln -s ../sites-available/yulfrets /etc/nginx/sites-enabled/yulfrets
rm -f /etc/nginx/sites-enabled/default
nginx -t && systemctl reload-or-restart nginx
sleep 1
C="curl -s --cacert /etc/yulfrets/tls/server.crt --resolve bim.test:443:127.0.0.1 -w [%{http_code}]\n"
P=https://bim.test/bcf/3.0/projects/00000001-0000-8000-8000-000000000000
$C -u eva:secret -d '{"title":"First topic"}' $P/topics
$C -u eva:wrong $P/topics
$C -u eva:secret https://bim.test/ -o /dev/null
$C https://bim.test/health
$C -u eva:secret $P/topics/00000001-0000-8000-8000-000000000001/files
systemctl reload yulfrets-queue && systemctl reload yulfrets-passwords && echo reloaded
$C -u eva:secret $P/extensions
dpkg -i /root/yulfrets.deb
$C -u eva:secret $P/topics | grep -q 'First topic' && echo kept at an upgrade
systemctl stop yulfrets
$C https://bim.test/health
systemctl start yulfrets
$C https://bim.test/health
systemctl --no-pager status yulfrets yulfrets-queue yulfrets-passwords
systemctl show yulfrets -p MemoryCurrent -p DynamicUser -p NoNewPrivileges -p Result
grep -E '^(Uid|CapEff|NoNewPrivs|Seccomp|VmSize|VmRSS):' /proc/$(systemctl show yulfrets -p MainPID --value)/status
systemd-analyze --no-pager security yulfrets | tail -1
systemctl kill -s SEGV yulfrets; sleep 4; systemctl is-active yulfrets; systemctl show yulfrets -p NRestarts
sed -i 's/^LANES=.*/LANES=99/' /etc/default/yulfrets; systemctl restart yulfrets; sleep 1; systemctl show yulfrets -p Result -p ExecMainStatus -p NRestarts
dpkg -r yulfrets; systemctl is-active yulfrets
echo all steps were run
STEPS
chmod 755 "$WORK/root/root/steps.sh"
cat >"$WORK/root/etc/systemd/system/steps.service" <<'UNIT'
[Unit]
After=multi-user.target
[Service]
Type=oneshot
ExecStart=/root/steps.sh
StandardOutput=file:/root/steps.log
StandardError=inherit
ExecStopPost=/bin/systemctl poweroff --force
[Install]
WantedBy=default.target
UNIT
ln -s ../steps.service "$WORK/root/etc/systemd/system/default.target.wants" 2>/dev/null || true
mkdir -p "$WORK/root/etc/systemd/system/multi-user.target.wants"
sed -i 's/^After=.*/After=basic.target network.target/' "$WORK/root/etc/systemd/system/steps.service"
ln -s ../steps.service "$WORK/root/etc/systemd/system/multi-user.target.wants/steps.service"

timeout 300 systemd-nspawn --quiet --register=no --keep-unit --directory="$WORK/root" --private-network --boot </dev/null >"$WORK/boot.log" 2>&1 || true
[ -f "$WORK/root/root/steps.log" ] || { tail -n 20 "$WORK/boot.log"; echo "try_install.sh: it doesn't boot here"; exit 1; }
cat "$WORK/root/root/steps.log"
grep -q '"creation_author":"eva".*\[201\]' "$WORK/root/root/steps.log" || { echo "no topic was made through TLS"; exit 1; }
grep -q '^reloaded' "$WORK/root/root/steps.log" || { echo "the queue or the password service can't be reloaded"; exit 1; }
grep -q '^kept at an upgrade' "$WORK/root/root/steps.log" || { echo "an upgrade lost the topic"; exit 1; }
grep -q 'all steps were run' "$WORK/root/root/steps.log" || { echo "the steps ended early"; exit 1; }
echo installed
