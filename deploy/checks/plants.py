"""Plants a wrong configuration for each row and demands that the row fails.

    plants.py PROGRAM [--only TEXT] [--part front|lint|units|package]

By hand: some ten minutes. A row that passes in spite of its fault is printed, and the status is 1.
"""

from __future__ import annotations

import argparse
import shutil
import subprocess
import sys
import tempfile
from pathlib import Path

from check_front import run_group
from front import DEPLOY
from rows import GROUPS, QUEUE, Edits

HTTP, SITE, SERVER, PROXY = (f"nginx/{name}.conf" for name in ("http", "site", "server", "proxy"))
ERRORS, HEADERS = "nginx/errors.conf", "nginx/page_headers.conf"
BY_PASSWORD, WHO, PASSWORDS = "nginx/who/passwords.conf", "nginx/who.conf", "nginx/passwords.conf"
PAGE_WHO = "location / {\n    include /usr/share/yulfrets/nginx/who.conf;"
OPTIONS = "if ($request_method = OPTIONS) { rewrite ^ /_preflight last; }"
CERTIFICATE = '"passwords:SUCCESS" $yulfrets_certificate_name;'
NO_CERTIFICATE = "if ($ssl_client_verify != SUCCESS) { return 401; }"

# the row's name, and the edits: file, text, other text
FRONT: dict[str, list[tuple[str, str, str]]] = {
    "two users are the authors": [(PROXY, "X-User $yulfrets_user", "X-User eva")],
    "without a password: 401": [(WHO, "auth_request /_who;", "")],
    "the page asks for a password": [(SERVER, PAGE_WHO, "location / {")],
    "a wrong password: 401": [(PASSWORDS, 'auth_basic "Yulfrets";', "auth_basic off;")],
    "a forged X-User isn't taken": [(PROXY, "X-User $yulfrets_user", "X-User $http_x_user")],
    "who may read alone may not write": [(QUEUE, "if is_reader is_change", "if is_reader FALSE")],
    "current-user names the user": [(SERVER, '"id":"$yulfrets_user"', '"id":"eva"')],
    "a password is hashed once a minute": [
        (BY_PASSWORD, "proxy_cache yulfrets_names;", "proxy_cache off;")
    ],
    "a client certificate names the user": [(HTTP, CERTIFICATE, '"passwords:SUCCESS" eva;')],
    "a certificate's name beyond ASCII": [(QUEUE, " or has_odd_user", "")],
    "a certificate of another CA": [
        (SITE, "ssl_verify_client optional;", "ssl_verify_client optional_no_ca;"),
        (BY_PASSWORD, "($ssl_client_verify = SUCCESS)", "($ssl_client_verify != NONE)"),
        (HTTP, CERTIFICATE, '"~^passwords:FAILED" eva;'),
    ],
    "the viewer's files": [(HEADERS, "script-src 'self'", "script-src 'self' 'unsafe-inline'")],
    "OPTIONS before the password": [(PROXY, OPTIONS, "")],
    "other hosts are refused": [(SITE, "return 421", "return 200")],
    "plain HTTP leads to TLS": [(SITE, "https://$host$request_uri", "https://$host/")],
    "TLS 1.2 and 1.3 alone": [(SITE, "TLSv1.2 TLSv1.3", "TLSv1.2")],
    "HEAD as GET": [(HTTP, "HEAD GET;", "HEAD HEAD;")],
    "long replies come compressed": [(SERVER, "gzip on;", "gzip off;")],
    "errors of the server": [(PROXY, "proxy_next_upstream off;", "proxy_intercept_errors on;")],
    "a body of 32 MiB": [(SERVER, "client_max_body_size 32m", "client_max_body_size 31m")],
    "a body of one byte more": [(SERVER, "client_max_body_size 32m", "client_max_body_size 33m")],
    "the body of rules": [(SERVER, "^/coord/1/projects/[^/]+/rules$", "^/coord/1/nothing$")],
    "bodies in chunks": [(SERVER, "client_max_body_size 32m", "client_max_body_size 40m")],
    "a topic's body": [(SERVER, "client_max_body_size 4m", "client_max_body_size 5m")],
    "heads: 8 KiB a line": [
        (SERVER, "large_client_header_buffers 2 8k", "large_client_header_buffers 2 4k")
    ],
    "twenty slow senders": [(PROXY, "proxy_request_buffering on", "proxy_request_buffering off")],
    "200 idle clients": [(SERVER, "keepalive_timeout 65s", "keepalive_timeout 0")],
    "forty clients at once": [(SITE, "server 127.0.0.1:8081", "server 127.0.0.1:8080")],
    "BCF API 3.0: every call": [("etc/extensions-3.0.json", '"users"', '"user_id_type"')],
    "BCF API 2.1: every call": [(SERVER, "rewrite ^/bcf/2", "# rewrite ^/bcf/2")],
    "lists of what isn't there": [(QUEUE, "if is_ok is_nothing", "if is_nothing")],
    "addresses in versions": [(HTTP, '[0-9]+)?$" $http_host', '[0-9]+)?$" $host')],
    "the server stopped": [(QUEUE, " hdr Retry-After 1", "")],
    "HAProxy stopped": [(ERRORS, "error_page 502 @yulfrets_unknown;", "")],
    "the password server stopped": [(ERRORS, "error_page 500 501 @yulfrets_fault;", "")],
    "pages of other origins": [(HTTP, '"~^.+\\|00$" 1;', "")],
    "certificates alone": [("nginx/who/certificates.conf", NO_CERTIFICATE, "")],
    "single sign-on": [(HTTP, "$upstream_http_x_auth_request_user", "$http_x_auth_request_user")],
    "what of a request reaches": [
        (PROXY, "proxy_pass_request_headers off", "proxy_pass_request_headers on")
    ],
    "no triangles: 204": [(QUEUE, "[^/]+/triangles$", "[^/]+/triangle$")],
    "triangles come through": [(QUEUE, "is_not_found !has_turn", "is_not_found")],
    "slow readers hold no lane": [(PROXY, "proxy_buffering on", "proxy_buffering off")],
    "a user's requests are bounded": [(QUEUE, "if is_fast", "if is_fast FALSE")],
    "an address's requests": [
        (PROXY, "limit_req zone=yulfrets_requests burst=1000 nodelay;", "# burst=1000")
    ],
    "wrong passwords are bounded": [
        (PASSWORDS, "limit_req zone=guesses burst=20 nodelay;", "# burst=20")
    ],
    "a server that hangs": [(QUEUE, "maxconn 8 ", "maxconn 100 ")],
}

# part, the row's name, file, text (empty: the end), other text
UNIT, QUEUE_UNIT = "systemd/yulfrets.service", "systemd/yulfrets-queue.service"
PASSWORD_UNIT, RULES = "systemd/yulfrets-passwords.service", "debian/rules"
LEFT = '#!/bin/sh\nset -e\n#DEBHELPER#\necho x >"$DPKG_ROOT/etc/left"\n'
SHELL: list[tuple[str, str, str, str, str]] = [
    ("lint", "shell scripts: shellcheck", "build_deb.sh", "", "echo $OUT/*\n"),
    ("lint", "Python: black", "checks/walk.py", "", "x = {  1 }\n"),
    ("lint", "Python: isort", "checks/walk.py", "import Callable", "import Set, Callable"),
    ("lint", "Python: flake8", "checks/walk.py", "", "UNUSED = f'no place'\n"),
    ("lint", "Python: mypy", "checks/walk.py", "", "\n\ndef one():\n    return 1\n"),
    ("lint", "the man page: mandoc", "debian/bim_server.1", "", ".Nonsense\n"),
    ("lint", "static answers are JSON", "etc/extensions-2.1.json", "", "}"),
    ("lint", "lanes are twice maxconn", "debian/yulfrets.default", "LANES=18", "LANES=17"),
    (
        "lint",
        "remembered passwords stay",
        HTTP,
        "proxy_cache_path /run/",
        "proxy_cache_path /var/cache/",
    ),
    ("units", "yulfrets.service: verify", UNIT, "[Service]", "[Service]\nNonsense=yes"),
    ("units", "yulfrets.service: exposure", UNIT, "SystemCallFilter=", "#"),
    ("units", "yulfrets-queue.service: verify", QUEUE_UNIT, "[Service]", "[Service]\nNonsense=yes"),
    ("units", "yulfrets-queue.service: exposure", QUEUE_UNIT, "SystemCallFilter=", "#"),
    (
        "units",
        "yulfrets-passwords.service: verify",
        PASSWORD_UNIT,
        "[Service]",
        "[Service]\nNonsense=yes",
    ),
    ("units", "yulfrets-passwords.service: exposure", PASSWORD_UNIT, "SystemCallFilter=", "#"),
    ("package", "the package is built", RULES, "dh $@", "dh $@ && false"),
    ("package", "lintian is quiet", "debian/control", "Section: science", "Section: nonsense"),
    (
        "package",
        "the package has its files",
        "build_deb.sh",
        'cp "$DEPLOY"/nginx/who/*',
        'echo "$DEPLOY"/nginx/who/*',
    ),
    (
        "package",
        "it installs into a folder",
        RULES,
        "--name=yulfrets --no-stop",
        "--name=yulfrets --no-enable --no-stop",
    ),
    ("package", "the installed server answers", UNIT, "--lanes ${LANES}", "--lanes 99"),
    ("package", "nginx and HAProxy take", QUEUE, "http-reuse always", "http-reuse sometimes"),
    (
        "package",
        "an upgrade keeps",
        RULES,
        "--name=yulfrets --no-stop-on-upgrade",
        "--name=yulfrets --restart-after-upgrade",
    ),
    ("package", "it is removed", "debian/yulfrets.postinst", "", LEFT),
]


def plant_front(program: str, only: str) -> list[str]:
    """Rows of the front that passed in spite of their fault."""
    passed = []
    names = {name: group for group in GROUPS.values() for name in group.rows}
    for text, planted in FRONT.items():
        if only not in text:
            continue
        name = next(each for each in names if text in each)
        edits: Edits = {}
        for file, old, new in planted:
            edits.setdefault(file, []).append((old, new))
        fault = run_group(program, names[name], edits, name)[name]
        bad = not fault or fault.startswith("not started")
        print(f"{'PASSED' if bad else 'fails'} {name}: {fault[:160]}", flush=True)
        passed += [name] if bad else []
    missing = [name for name in names if not only and not any(text in name for text in FRONT)]
    return passed + [f"no fault is planted for: {name}" for name in missing]


def plant_shell(program: str, part: str, only: str) -> list[str]:
    """Rows of check.sh's other parts that passed in spite of their fault."""
    passed = []
    for group, text, file, old, new in SHELL:
        if only not in text or part not in ("", group):
            continue
        with tempfile.TemporaryDirectory(prefix="yulfrets-plant-") as folder:
            copy = Path(folder) / "deploy"
            shutil.copytree(DEPLOY, copy)
            shutil.copytree(DEPLOY.parent / "docs", Path(folder) / "docs")
            path = copy / file
            before = path.read_text() if path.exists() else ""
            path.write_text(before.replace(old, new) if old else before + new)
            words = [str(copy / "check.sh"), program, group]
            said = subprocess.run(words, capture_output=True, text=True, check=False).stdout
        row = next((line for line in said.splitlines() if text in line), f"no row {text}")
        bad = not row.startswith("FAILED")
        print(f"{'PASSED' if bad else 'fails'} {row[:200]}", flush=True)
        passed += [text] if bad else []
    return passed


def main() -> int:
    """Plants all, and prints the rows that passed."""
    words = argparse.ArgumentParser(description=__doc__)
    words.add_argument("program")
    words.add_argument("--only", default="")
    words.add_argument("--part", default="")
    given = words.parse_args()
    passed = plant_front(given.program, given.only) if given.part in ("", "front") else []
    if given.part != "front":
        passed += plant_shell(given.program, given.part, given.only)
    print(
        f"plants: {len(passed)} rows passed in spite of their fault"
        + "".join(f"\n  {each}" for each in passed)
    )
    return int(bool(passed))


if __name__ == "__main__":
    sys.exit(main())
