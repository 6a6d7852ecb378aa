"""The front before a server, in a folder of its own and on free ports.

The files are those that are installed; what an operator would edit (ports, paths, host) is
replaced in copies, and `edits` plants faults.
"""

from __future__ import annotations

import os
import shutil
import signal
import socket
import subprocess
import time
from pathlib import Path

DEPLOY = Path(__file__).resolve().parent.parent
HOST = "bim.example"
USERS = {"eva": "secret", "jörg": "geheim", "reader": "secret", "late": "secret"}
PAGE = "<!doctype html><title>viewer</title><script type=module src=app.js></script>"
MAIN = """
worker_processes {workers};
pid {folder}/nginx.pid;
{user}
error_log {folder}/error.log warn;
events {{ worker_connections 1024; }}
http {{
    include /etc/nginx/mime.types;
    default_type application/octet-stream;
    access_log off;
    client_body_temp_path {folder}/tmp/body; proxy_temp_path {folder}/tmp/proxy;
    fastcgi_temp_path {folder}/tmp/f; uwsgi_temp_path {folder}/tmp/u; scgi_temp_path {folder}/tmp/s;
    include {folder}/site.conf;
}}
"""


class StartFault(Exception):
    """A part of the front didn't start; the text says which and what it printed."""


def free_ports(count: int) -> list[int]:
    """Ports of 127.0.0.1 that nothing listened on just now."""
    held = [socket.create_server(("127.0.0.1", 0)) for _ in range(count)]
    ports = [each.getsockname()[1] for each in held]
    for each in held:
        each.close()
    return ports


def listens(port: int) -> bool:
    """Whether something accepts connections there."""
    try:
        socket.create_connection(("127.0.0.1", port), 1).close()
    except OSError:
        return False
    return True


def wait_for(port: int, process: subprocess.Popen[bytes], what: str, log: Path) -> None:
    """Until the process listens there, 20 seconds at most."""
    for _ in range(400):
        if listens(port):
            return
        if process.poll() is not None:
            break
        time.sleep(0.05)
    text = log.read_text(errors="replace")[-2000:] if log.exists() else ""
    raise StartFault(f"{what} doesn't listen at port {port}: {text}")


class Front:
    """The server, HAProxy, the password server and nginx, as they are deployed."""

    def __init__(self, program: str, folder: Path, **options: object) -> None:
        self.program = program
        self.folder = folder
        self.edits = dict(options.get("edits") or {})  # type: ignore[call-overload]
        self.mode = str(options.get("mode") or "passwords")
        self.lanes = int(str(options.get("lanes") or 18))
        self.workers = int(str(options.get("workers") or 1))
        self.parts: dict[str, subprocess.Popen[bytes]] = {}
        names = ("server", "queue", "passwords", "tls", "plain", "sign_in")
        self.ports = dict(zip(names, free_ports(len(names))))

    def replaced(self, name: str, text: str) -> str:
        """A file's text for this folder and these ports, with the planted edits."""
        for old, new in self.edits.get(name, []):
            if old not in text:
                raise StartFault(f"the edit of {name} finds no {old!r}")
            text = text.replace(old, new)
        lines = [line for line in text.splitlines() if "listen [::]" not in line]
        text = "\n".join(lines) + "\n"
        places = {
            "listen 443": f"listen 127.0.0.1:{self.ports['tls']}",
            "listen 80": f"listen 127.0.0.1:{self.ports['plain']}",
            "127.0.0.1:8080": f"127.0.0.1:{self.ports['server']}",
            "127.0.0.1:8081": f"127.0.0.1:{self.ports['queue']}",
            "127.0.0.1:8082": f"127.0.0.1:{self.ports['passwords']}",
            "127.0.0.1:4180": f"127.0.0.1:{self.ports['sign_in']}",
            "/usr/share/yulfrets": str(self.folder),
            "/etc/yulfrets": f"{self.folder}/etc",
            "/run/yulfrets-": f"{self.folder}/run-",
            "/var/log/nginx/yulfrets.log": f"{self.folder}/access.log",
            # what a process may open is little on some machines
            "    maxconn 4000": "    maxconn 400",
        }
        for old, new in places.items():
            text = text.replace(old, new)
        return text

    def site(self, text: str) -> str:
        """The site with the lines that an operator changes for this mode."""
        folder = "/usr/share/yulfrets/nginx/who"
        text = text.replace(f"    include {folder}/passwords.conf;\n", "")
        if self.mode == "subrequest":
            return text.replace("    # include /etc/yulfrets/sub", "    include /etc/yulfrets/sub")
        text = text.replace("    # ssl_client_certificate", "    ssl_client_certificate")
        text = text.replace("    # ssl_verify_client", "    ssl_verify_client")
        line = f"    include {folder}/{self.mode}.conf;\n"
        return text.replace("    # ---- who it is", f"{line}    # ---- who it is")

    def write(self) -> None:
        """All files of the front, the viewer's stand-in, users."""
        for name in ("tmp", "etc", "run-passwords"):
            (self.folder / name).mkdir(parents=True, exist_ok=True)
        self.write_viewer()
        for path in sorted(DEPLOY.glob("nginx/**/*.conf")):
            name = str(path.relative_to(DEPLOY))
            to = self.folder / name
            to.parent.mkdir(parents=True, exist_ok=True)
            text = path.read_text()
            text = self.site(text) if path.name == "site.conf" else text
            to.write_text(self.replaced(name, text))
        shutil.copy(self.folder / "nginx/site.conf", self.folder / "site.conf")
        shutil.copy(self.folder / "nginx/who/subrequest.conf", self.folder / "etc")
        queue = (DEPLOY / "haproxy/queue.cfg").read_text()
        (self.folder / "queue.cfg").write_text(self.replaced("haproxy/queue.cfg", queue))
        for path in sorted((DEPLOY / "etc").iterdir()):
            text = self.replaced(f"etc/{path.name}", path.read_text())
            (self.folder / "etc" / path.name).write_text(text)
        with open(self.folder / "etc/readers", "a", encoding="utf-8") as readers:
            readers.write("reader\n")
        user = "user www-data;" if os.getuid() == 0 else ""
        main = MAIN.format(folder=self.folder, user=user, workers=self.workers)
        (self.folder / "nginx.conf").write_text(main)
        make_users(self.folder / "etc/passwords")
        make_certificates(self.folder / "etc/tls")
        if os.getuid() == 0:
            for each in (self.folder, *self.folder.rglob("*")):
                shutil.chown(each, "www-data", "www-data")

    def write_viewer(self) -> None:
        """The viewer's files where the checkout has them, and a stand-in of each kind."""
        folder = self.folder / "viewer"
        folder.mkdir(exist_ok=True)
        (folder / "index.html").write_text(PAGE)
        (folder / "app.js").write_text("export const one = 1;\n")
        (folder / "app.css").write_text("body { margin: 0 }\n")
        if (DEPLOY.parent / "viewer/www/index.html").exists():
            shutil.copytree(DEPLOY.parent / "viewer/www", folder, dirs_exist_ok=True)

    def spawn(self, name: str, *words: str) -> None:
        """Starts a part; its output goes into a log of its own."""
        with open(self.folder / f"{name}.log", "ab") as log:
            self.parts[name] = subprocess.Popen(
                words, stdin=subprocess.DEVNULL, stdout=log, stderr=log, start_new_session=True
            )
        port = self.ports["tls" if name == "nginx" else name]
        wait_for(port, self.parts[name], name, self.folder / f"{name}.log")

    def start_server(self) -> None:
        """The server, empty."""
        address = f"127.0.0.1:{self.ports['server']}"
        words = ["--addr", address, "--lanes", str(self.lanes), "--workers", "2"]
        self.spawn("server", self.program, "serve", *words)

    def start_queue(self) -> None:
        """HAProxy."""
        self.spawn("queue", "haproxy", "-db", "-f", str(self.folder / "queue.cfg"))

    def start(self, server: bool = True) -> None:
        """All parts, from the server to nginx."""
        self.write()
        if server:
            self.start_server()
        self.start_queue()
        off = ["-g", "daemon off;", "-e", "stderr", "-p", str(self.folder)]
        passwords = str(self.folder / "nginx/passwords.conf")
        by = ["setpriv", "--reuid=www-data", "--regid=www-data", "--clear-groups"]
        by = by if os.getuid() == 0 else []
        self.spawn("passwords", *by, "nginx", *off, "-c", passwords)
        self.spawn("nginx", "nginx", *off, "-c", str(self.folder / "nginx.conf"))

    def stop_part(self, name: str) -> None:
        """Ends one part and waits for its end."""
        part = self.parts.pop(name, None)
        if part is None:
            return
        for number in (signal.SIGTERM, signal.SIGKILL):
            try:
                os.killpg(part.pid, number)
                part.wait(5)
                return
            except (subprocess.TimeoutExpired, ProcessLookupError):
                continue

    def stop(self) -> None:
        """Ends all parts."""
        for name in ("nginx", "passwords", "queue", "server"):
            self.stop_part(name)

    def __enter__(self) -> "Front":
        try:
            self.start()
        except BaseException:
            self.stop()
            raise
        return self

    def __exit__(self, *_: object) -> None:
        self.stop()


def run(*words: str, text: str | None = None) -> str:
    """A command's output; its failure is a fault with what it printed."""
    done = subprocess.run(words, input=text, capture_output=True, text=True, timeout=60)
    if done.returncode:
        raise StartFault(f"{' '.join(words)}: {done.stderr or done.stdout}")
    return done.stdout


def make_users(path: Path) -> None:
    """The users' file, by bcrypt as docs/OPERATIONS.md says."""
    path.write_text("")
    for user, password in USERS.items():
        cost = "12" if user == "eva" else "8"
        line = run("htpasswd", "-nbB", "-C", cost, user, password).strip()
        path.write_text(f"{path.read_text()}{line}\n")


def make_certificates(folder: Path) -> None:
    """A CA, the server's certificate, and those of two users, one with a letter beyond ASCII."""
    if folder.exists():
        return
    folder.mkdir()
    new = ["openssl", "req", "-x509", "-newkey", "ec", "-pkeyopt", "ec_paramgen_curve:P-256"]
    new += ["-nodes", "-days", "2", "-utf8"]

    def make(name: str, subject: str, *more: str) -> None:
        files = ["-keyout", str(folder / f"{name}.key"), "-out", str(folder / f"{name}.crt")]
        run(*new, "-subj", subject, *files, *more)

    make("clients-ca", "/CN=Office CA")
    by = ["-CA", str(folder / "clients-ca.crt"), "-CAkey", str(folder / "clients-ca.key")]
    make("server", f"/CN={HOST}", "-addext", f"subjectAltName=DNS:{HOST}")
    make("carla", "/O=Office/CN=carla", *by)
    make("umlaut", "/O=Office/CN=jörg", *by)
    make("stranger", "/O=Office/CN=eva")
