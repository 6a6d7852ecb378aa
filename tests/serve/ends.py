"""How a server ends: by the number of its connections, by a signal, by words that it doesn't take.
"""

import signal
import socket
import subprocess
import time

from tests.serve.mind import model
from tests.support.checks import expect
from tests.support.client import Client, wait_for_clashes
from tests.support.http import RULES, coord_of, topics_of
from tests.support.one_thread import Log, check_replies
from tests.support.server import HOST, Server


def end_by_links(program: str) -> str:
    """A server that is to serve so many connections a lane ends by itself, with what was left to be
    checked done."""
    with Server(program, lanes=2, workers=2, links=3) as server:
        logs: list[Log] = []
        for n in range(5):
            client = Client(server)
            client.ask("POST", topics_of(), b'{"title":"%d"}' % n, last=True)
            client.close()
            logs.append(client.log)
        client = Client(server)
        client.ask("PUT", f"{coord_of()}/rules", RULES[1])
        client.ask("PUT", f"{coord_of()}/models/a", model(program, 200, 5))
        # The other lane has ended: workers are there until all have.
        expect(wait_for_clashes(client, 2).status == 200, "no clashes")
        client.ask("PUT", f"{coord_of()}/rules", RULES[2])
        logs.append(client.log)
        expect(server.run.poll() is None, "the server ended before its last connection did")
        client.close()
        expect(server.status() == 0, f"status {server.run.returncode}")
        check_replies(program, 1, logs)
    return "status 0"


def end_by_signal(program: str) -> str:
    """A signal ends the server at once, and its port can be taken again."""
    for number in (signal.SIGTERM, signal.SIGINT):
        with Server(program, lanes=4, workers=2) as server:
            clients = [Client(server) for _ in range(3)]
            for client in clients:
                client.ask("GET", topics_of())
            server.run.send_signal(number)
            expect(server.status(5) == -number, f"status {server.run.returncode}")
            again = subprocess.Popen(server.words, stdout=subprocess.PIPE)
            time.sleep(0.3)
            expect(again.poll() is None, "the port can't be taken again")
            again.kill()
            again.communicate()
    return "ended by both signals"


def words(program: str) -> str:
    """Words outside the grammar, and an address that can't be had."""
    usage = b"usage: bim_server replay|check|generate|serve\n"
    for outside in (
        ["--lanes", "33"],
        ["--lanes", "0"],
        ["--workers", "9"],
        ["--workers", "0"],
        ["--links", "1000001"],
        ["--projects", "9"],
        ["--lanes", "2", "--lanes", "2"],
        ["--help"],
        ["more"],
        ["--addr"],
    ):
        run = subprocess.run([program, "serve"] + outside, stdout=subprocess.PIPE, timeout=30)
        expect(
            (run.returncode, run.stdout) == (2, usage),
            f"{outside}: {run.returncode} {run.stdout!r}",
        )
    with socket.socket() as taken:
        taken.bind((HOST, 0))
        taken.listen()
        for addr in ("nowhere", "127.0.0.1:99999", "%s:%d" % taken.getsockname()):
            run = subprocess.run(
                [program, "serve", "--addr", addr, "--links", "1"],
                stdout=subprocess.PIPE,
                timeout=30,
            )
            expect(
                (run.returncode, run.stdout) == (4, b""), f"{addr}: {run.returncode} {run.stdout!r}"
            )
    return "10 outside, 3 addresses"
