"""Shows which file names of specs/ are in two crates: python3 -m lint.spec_names. A name should
lead to one file: each that is in several crates is a fault. Exit status 1 if there is any.
"""

import os
import sys

from lint.repository import all_crates, files_below

LISTS = ("Lib.antt", "inner.antt")


def holders() -> dict[str, list[str]]:
    """The crates of each file name of specs/, one for each file of that name."""
    found: dict[str, list[str]] = {}
    for crate in all_crates():
        for path in files_below(f"crates/{crate}/specs", ".antt"):
            name = os.path.basename(path)
            if name not in LISTS:
                found.setdefault(name, []).append(crate)
    return found


def main() -> int:
    names = holders()
    shared = {name: crates for name, crates in sorted(names.items()) if len(crates) > 1}
    for name, crates in shared.items():
        print(f"specs/{name} is in {' and '.join(crates)}")
    print(f"{len(names)} file names of specs/, {len(shared)} in several crates")
    return 1 if shared else 0


if __name__ == "__main__":
    sys.exit(main())
