"""Limits, slow and idle clients, rates, and a server that is stopped or hangs."""

from __future__ import annotations

import signal
import ssl
import time
from threading import Thread

from asking import BCF, COORD, Tls, ask, ask_on, basic, is_answer, must
from front import Front

MODEL = 32 * 1024 * 1024
OTHER = 4 * 1024 * 1024


def body_of_32_mib(front: Front) -> None:
    """It reaches the server, which finds that it is no Part 21 file."""
    answer = ask(front, "PUT", f"{COORD}/models/m", bytes(MODEL), timeout="90")
    is_answer(answer, 422, "U1")


def refused_by_nginx(front: Front, count: int) -> None:
    """The last requests of the log were answered 413, and the server wasn't asked. nginx writes
    their lines once it is done with them, which takes a while on a busy machine."""
    end = time.monotonic() + 10
    while True:
        lines = (front.folder / "access.log").read_text().splitlines()[-count:]
        others = [it for it in lines if " 413 " not in it or "server=-/-" not in it]
        if not others or time.monotonic() > end:
            break
        time.sleep(0.1)
    must(not others, f"not refused by nginx: {others[:1]}")


def body_of_32_mib_and_one(front: Front) -> None:
    answer = ask(front, "PUT", f"{COORD}/models/m", bytes(MODEL + 1), Expect="100-continue")
    is_answer(answer, 413, "H4")
    refused_by_nginx(front, 1)


def body_in_chunks(front: Front) -> None:
    """Chunks become one body of a known length; a byte too many is refused as well."""
    piece = bytes(1 << 20)
    connection = Tls(front, timeout=90)
    for more, status, code in (([b""], 422, "U1"), ([b"x"], 413, "H4")):
        chunks = [piece] * 32 + [each for each in more if each]
        try:
            answer = ask_on(connection, "PUT", f"{COORD}/models/m", chunks, **basic("eva"))
        except (BrokenPipeError, ConnectionResetError, ssl.SSLError):
            must(status == 413, "the connection was cut within the body")
            continue
        is_answer(answer, status, code)
    refused_by_nginx(front, 1)


def body_of_a_topic(front: Front) -> None:
    answer = ask(front, "POST", f"{BCF}/topics", b" " * OTHER)
    is_answer(answer, 400, "H9")
    answer = ask(front, "POST", f"{BCF}/topics", b" " * (OTHER + 1), Expect="100-continue")
    is_answer(answer, 413, "H4")
    refused_by_nginx(front, 1)


def body_of_rules(front: Front) -> None:
    """The front takes 4 MiB, where the server would take 32."""
    is_answer(ask(front, "PUT", f"{COORD}/rules", b" " * OTHER), 400, "H9")
    answer = ask(front, "PUT", f"{COORD}/rules", b" " * (OTHER + 1), Expect="100-continue")
    is_answer(answer, 413, "H4")
    refused_by_nginx(front, 1)


def head_too_long(front: Front) -> None:
    answer = ask(front, "GET", BCF, Long="a" * 20000)
    must(answer.status in (400, 431), f"a field of 20,000 bytes: {answer.said()}")
    is_answer(ask(front, "GET", BCF, Long="a" * 7000), 200)
    is_answer(ask(front, "GET", f"{BCF}?{'a' * 20000}"), 431, "H2")
    many = {f"field{number}": "x" for number in range(100)}
    is_answer(ask(front, "GET", BCF, **many), 200)


def answered_within(front: Front, seconds: float, what: str) -> None:
    """A user is answered in time, five times."""
    for _ in range(5):
        start = time.monotonic()
        answer = ask(front, "GET", BCF, timeout=str(seconds + 5))
        took = time.monotonic() - start
        must(answer.status == 200, f"{what}: {answer.said()}")
        must(took < seconds, f"{what}: another waited {took:.1f} s")


def slow_senders(front: Front) -> None:
    """Twenty clients that send a model a piece at a time: more than lanes."""
    held = []
    head = f"PUT {COORD}/models/slow HTTP/1.1\r\nHost: bim.example\r\nContent-Length: 1000000\r\n"
    head += f"Authorization: {basic('eva')['Authorization']}\r\n\r\n"
    for _ in range(20):
        connection = Tls(front)
        connection.connect()
        connection.sock.sendall(head.encode() + b"x" * 1000)
        held.append(connection)
    time.sleep(0.3)
    for connection in held:
        connection.sock.sendall(b"x" * 1000)
    answered_within(front, 3, "twenty slow senders")
    for connection in held:
        connection.close()


def idle_clients(front: Front) -> None:
    """200 clients that were answered once and keep their connections."""
    held = []
    for number in range(200):
        connection = Tls(front)
        answer = ask_on(connection, "GET", BCF, **basic("eva"))
        must(answer.status == 200, f"client {number}: {answer.said()}")
        must(connection.sock is not None, f"client {number}: its connection isn't kept")
        held.append(connection)
    answered_within(front, 3, "200 idle clients")
    again = ask_on(held[0], "GET", BCF, **basic("eva"))
    must(again.status == 200, f"the first client again: {again.said()}")
    for connection in held:
        connection.close()


def nobody_starves(front: Front) -> None:
    """Forty clients at once, more than lanes, each asking one request after another."""
    counts = [0] * 40
    end = time.monotonic() + 3

    def client(number: int) -> None:
        connection = Tls(front, timeout=8)
        while time.monotonic() < end:
            if ask_on(connection, "GET", BCF, **basic("eva")).status == 200:
                counts[number] += 1

    threads = [Thread(target=client, args=(number,), daemon=True) for number in range(40)]
    for each in threads:
        each.start()
    for each in threads:
        each.join(12)
    never = counts.count(0)
    must(never == 0, f"{never} of forty clients were never answered")


def statuses_of(front: Front, user: str, count: int) -> list[int]:
    """The statuses of so many requests of a user over one connection."""
    connection = Tls(front)
    target = "/bcf/3.0/projects"
    return [ask_on(connection, "GET", target, **basic(user)).status for _ in range(count)]


def rate_of_a_user(front: Front) -> None:
    """With the bound at 30 in ten seconds: 60 requests of eva, and then one of jörg."""
    seen = statuses_of(front, "eva", 60)
    must(seen[:20] == [200] * 20, f"the first twenty: {seen[:20]}")
    must(429 in seen, "sixty requests of a user, and none was refused")
    answer = ask(front, "GET", BCF)
    is_answer(answer, 429, "F1")
    must(answer.field("Retry-After") != "", "429 without Retry-After")
    is_answer(ask(front, "GET", BCF, user="jörg"), 200)


def rate_of_an_address(front: Front) -> None:
    """With the bound at 5 a second and 20 at once: 40 requests."""
    seen = statuses_of(front, "eva", 40)
    must(seen[:15] == [200] * 15, f"the first fifteen: {seen[:15]}")
    must(429 in seen, "forty requests of an address, and none was refused")


def server_stopped(front: Front) -> None:
    """503 as JSON while it is away; once it is there again all is as before."""
    is_answer(ask(front, "GET", "/health", user=""), 200)
    front.stop_part("server")
    for method, target in (("GET", BCF), ("POST", f"{BCF}/topics")):
        answer = ask(front, method, target, {"title": "a"} if method == "POST" else None)
        is_answer(answer, 503, "F2")
        must(answer.field("Retry-After") == "1", "503 without Retry-After")
    is_answer(ask(front, "GET", "/health", user=""), 503, "F2")
    must(ask(front, "GET", "/").status == 200, "the page is gone with the server")
    front.start_server()
    is_answer(ask(front, "GET", "/health", user=""), 200)
    answer = ask(front, "GET", f"{BCF}/topics")
    must(answer.json() == [], "the server began with topics")


def queue_stopped(front: Front) -> None:
    """Without HAProxy: 502 as JSON, which says that what became of the request isn't known."""
    front.stop_part("queue")
    is_answer(ask(front, "GET", BCF), 502, "F5")
    front.start_queue()
    is_answer(ask(front, "GET", BCF), 200)


def password_server_stopped(front: Front) -> None:
    """A user who isn't remembered gets 500 as JSON, and nobody gets in."""
    front.stop_part("passwords")
    is_answer(ask(front, "GET", BCF, user="late"), 500, "F7")


def server_hangs(front: Front) -> None:
    """With 2 s for an answer and 1 s in the queue: 504 for what was sent, 503 for the rest.

    Once the server goes on, exactly the topics that were answered 504 or 201 are there.
    """
    process = front.parts["server"]
    ask(front, "GET", BCF)
    process.send_signal(signal.SIGSTOP)
    seen: dict[str, str] = {}

    def post(number: int) -> None:
        title = f"late {number}"
        seen[title] = ask(front, "POST", f"{BCF}/topics", {"title": title}).said()

    threads = [Thread(target=post, args=(number,)) for number in range(20)]
    for each in threads:
        each.start()
    for each in threads:
        each.join()
    process.send_signal(signal.SIGCONT)
    must(sorted(set(seen.values())) == ["503 F2", "504 F5"], f"answers {set(seen.values())}")
    time.sleep(1)
    made = {topic["title"] for topic in ask(front, "GET", f"{BCF}/topics").json()}
    queued = {title for title, said in seen.items() if said == "503 F2"}
    must(not made & queued, f"answered 503 and made: {sorted(made & queued)}")
