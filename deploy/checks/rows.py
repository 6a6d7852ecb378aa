"""The rows of the front's check, in groups that share one front."""

from __future__ import annotations

from collections.abc import Callable
from dataclasses import dataclass, field
from functools import partial

import rows_browsers as browsers
import rows_limits as limits
import rows_users as users
import walk
from front import Front

Row = Callable[[Front], None]
Edits = dict[str, list[tuple[str, str]]]


@dataclass
class Group:
    """Rows that run over one front, and how that front is set up."""

    rows: dict[str, Row]
    mode: str = "passwords"
    edits: Edits = field(default_factory=dict)
    server: bool = True


QUEUE = "haproxy/queue.cfg"
GROUPS: dict[str, Group] = {
    "plain": Group(
        {
            "two users are the authors of what they make": users.two_users,
            "without a password: 401": users.no_password,
            "the page asks for a password": users.page_asks_for_password,
            "a wrong password: 401": users.wrong_password,
            "a forged X-User isn't taken": users.forged_name,
            "who may read alone may not write": users.reader_may_read,
            "current-user names the user": users.current_user,
            "a password is hashed once a minute": users.password_is_hashed_once,
            "a client certificate names the user": users.certificate,
            "a certificate's name beyond ASCII is refused": users.certificate_beyond_ascii,
            "a certificate of another CA is refused": users.certificate_of_a_stranger,
            "the viewer's files, with their types and policy": browsers.page,
            "OPTIONS before the password": browsers.preflight,
            "other hosts are refused": browsers.other_hosts,
            "plain HTTP leads to TLS": browsers.plain_http,
            "TLS 1.2 and 1.3 alone": browsers.old_tls,
            "HEAD as GET without the body": browsers.head,
            "long replies come compressed": browsers.compressed,
            "errors of the server come through": browsers.errors_of_the_server,
            "no triangles: 204": browsers.no_triangles,
            "a body of 32 MiB reaches the server": limits.body_of_32_mib,
            "a body of one byte more: 413": limits.body_of_32_mib_and_one,
            "bodies in chunks have the same limit": limits.body_in_chunks,
            "a topic's body: 4 MiB": limits.body_of_a_topic,
            "the body of rules: 4 MiB": limits.body_of_rules,
            "heads: 8 KiB a line, 16 KiB in all": limits.head_too_long,
            "twenty slow senders hold nobody up": limits.slow_senders,
            "200 idle clients beside one that is served": limits.idle_clients,
            "forty clients at once, none starves": limits.nobody_starves,
            "BCF API 3.0: every call": partial(walk.walk_is_right, version="3.0"),
            "BCF API 2.1: every call": partial(walk.walk_is_right, version="2.1"),
            "BCF API: lists of what isn't there": walk.things_that_are_not,
            "BCF API: addresses in versions": walk.addresses,
            "the server stopped and started again": limits.server_stopped,
            "HAProxy stopped and started again": limits.queue_stopped,
            "the password server stopped": limits.password_server_stopped,
        },
        # On a fast machine these rows ask more than the bounds on rates allow: those have groups
        # of their own.
        edits={
            QUEUE: [("gt 2000", "gt 1000000")],
            "nginx/http.conf": [("rate=400r/s", "rate=100000r/s")],
        },
    ),
    "origins": Group(
        {"pages of other origins": browsers.other_origins},
        edits={"nginx/site.conf": [('# "https://viewer.example" 1', '"https://viewer.example" 1')]},
    ),
    "certificates": Group({"certificates alone": users.certificates_alone}, mode="certificates"),
    "subrequest": Group({"single sign-on by a subrequest": users.by_provider}, mode="subrequest"),
    "echo": Group(
        {
            "what of a request reaches the server": browsers.what_reaches_the_server,
            "slow readers hold no lane": browsers.slow_readers,
            "triangles come through": browsers.triangles,
        },
        server=False,
    ),
    "rate of a user": Group(
        {"a user's requests are bounded": limits.rate_of_a_user},
        edits={QUEUE: [("gt 2000", "gt 30")]},
    ),
    "rate of an address": Group(
        {"an address's requests are bounded": limits.rate_of_an_address},
        edits={
            "nginx/http.conf": [("rate=400r/s", "rate=5r/s")],
            "nginx/proxy.conf": [("burst=1000", "burst=20")],
        },
    ),
    "guesses": Group(
        {"wrong passwords are bounded": users.guesses_are_bounded},
        edits={"nginx/passwords.conf": [("rate=5r/s", "rate=1r/m"), ("burst=20", "burst=3")]},
    ),
    "hang": Group(
        {"a server that hangs: 504 and 503": limits.server_hangs},
        edits={
            QUEUE: [
                ("timeout queue 10s", "timeout queue 1s"),
                ("timeout server 120s", "timeout server 2s"),
            ]
        },
    ),
}
# preflight needs a listed origin as well
GROUPS["origins"].rows["OPTIONS before the password"] = GROUPS["plain"].rows.pop(
    "OPTIONS before the password"
)
