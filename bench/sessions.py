"""How the time of a recorded session grows with its requests: python3 -m bench.sessions PROGRAM.
They only list the topics of an empty project. Each time is the least of seven runs; the ratio is
the time a request, against that of the shortest session. Also one session that makes topics, to see
that making one does not go over those made before.
"""

import sys

from bench.timing import least, replay_words, request
from tests.support.checks import arguments
from tests.support.http import topics_of
from tests.support.programs import built

RUNS = 7
SESSIONS = {
    "list": request("GET", topics_of()),
    "make": request("POST", topics_of(), '{"title":"Pipe"}'),
}


def main() -> int:
    program = built(arguments(__doc__).parse_args().program)
    for name, one in SESSIONS.items():
        base = None
        for count in (1000, 3000, 9000):
            took, output = least(replay_words(program), one * count, RUNS)
            if output.count(b"X-Book-Turn: ") != count:
                sys.exit(f"{output.count(b'X-Book-Turn: ')} of {count} requests were answered")
            each = took / count
            base = base or each
            spent = f"{took * 1000:.1f} ms, {each * 1e6:.2f} us a request"
            print(f"{name} {count}: {spent}, ratio {each / base:.2f}")
    return 0


if __name__ == "__main__":
    sys.exit(main())
