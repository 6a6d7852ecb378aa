"""The words of the command line."""

from __future__ import annotations

import argparse
from collections.abc import Callable

from . import VERSION
from .commands import clashes, export, import_bcf, push, report, rules, topics, versions, watch
from .completion import completion
from .context import Context
from .errors import ExitStatus
from .tables import GROUPS

Run = Callable[[Context], int]
EPILOG = """environment: YULFRETS_URL, YULFRETS_PROJECT, YULFRETS_USER, YULFRETS_PASSWORD,
YULFRETS_CA, YULFRETS_CONVERTER and YULFRETS_INSTANCE stand for options that are absent
exit statuses: 0 done, 2 words, 3 refused, 4 no server, 5 not known whether it was done,
6 files, 7 not finished in time, 8 elements left out, 9 new clashes (--fail-if-new)"""


def natural(text: str) -> int:
    """A whole number from 0 of up to 15 digits."""
    if not (text.isascii() and text.isdigit() and len(text) <= 15):
        raise argparse.ArgumentTypeError(f"{text!r} is no whole number")
    return int(text)


def seconds(text: str) -> float:
    """A number of seconds above zero."""
    try:
        value = float(text)
    except ValueError:
        value = -1.0
    if not 0 < value <= 1_000_000:
        raise argparse.ArgumentTypeError(f"{text!r} is no number of seconds")
    return value


def common() -> argparse.ArgumentParser:
    """The options that stand before or behind each command's name."""
    made = argparse.ArgumentParser(add_help=False, argument_default=argparse.SUPPRESS)
    group = made.add_argument_group("options of all commands")
    group.add_argument("--url", help="address of the server (http://127.0.0.1:8080)")
    group.add_argument("--project", help="its name, number or identifier (the first)")
    group.add_argument("--user", help="your name, which stands beside what you change")
    group.add_argument("--ca", metavar="FILE", help="certificates that are trusted, PEM")
    group.add_argument("--timeout", type=seconds, help="for an answer, in seconds (130)")
    group.add_argument("--wait", type=seconds, help="for clashes, in seconds (3600)")
    group.add_argument("--instance", help="the server's name in identifiers of BCF files")
    group.add_argument("--json", action="store_true", help="print JSON")
    group.add_argument("--quiet", "-q", action="store_true", help="print failures alone")
    return made


class Builder:
    """Adds subcommands that all take the common options."""

    def __init__(self, parser: argparse.ArgumentParser, dest: str, shared: argparse.ArgumentParser):
        self.group = parser.add_subparsers(dest=dest, metavar="COMMAND", required=True)
        self.shared = shared

    def add(self, name: str, help_text: str, run: Run | None = None) -> argparse.ArgumentParser:
        """A subcommand, and what runs it."""
        made = self.group.add_parser(
            name, help=help_text, description=help_text + ".", parents=[self.shared]
        )
        if run:
            made.set_defaults(run=run)
        return made


def add_tables(parser: argparse.ArgumentParser) -> None:
    """Options of what prints rows."""
    parser.add_argument("--csv", metavar="FILE", help="write CSV, - for standard output")
    parser.add_argument("--separator", default=",", help="between the columns of CSV (,)")
    parser.add_argument("--xlsx", metavar="FILE", help="write a sheet for Excel")
    parser.add_argument("--all", action="store_true", help="print more than 50 rows on a terminal")


def add_version(parser: argparse.ArgumentParser) -> None:
    """Options that choose a version's clashes."""
    parser.add_argument("--version", type=natural, metavar="N", help="of version N (the newest)")
    parser.add_argument("--new", action="store_true", help="those that the version before lacks")
    parser.add_argument("--since", type=natural, metavar="N", help="those that version N lacks")


def add_filters(parser: argparse.ArgumentParser) -> None:
    """Options that choose topics."""
    parser.add_argument("--status", help="topics of that status alone")
    parser.add_argument("--type", help="topics of that type alone")
    parser.add_argument("--assigned-to", help="topics of that person alone")


def add_push(build: Builder) -> None:
    """`push`."""
    made = build.add("push", "upload models, print new and gone clashes", push.run)
    made.add_argument("files", nargs="+", metavar="FILE", help="FILE or NAME=FILE")
    made.add_argument("--name", help="name of the model (the file's)")
    made.add_argument(
        "--grid",
        choices=("exact", "snap"),
        default="exact",
        help="refuse lengths between tenths of a millimetre, or round them (exact)",
    )
    made.add_argument(
        "--convert",
        choices=("auto", "always", "never"),
        default="auto",
        help="convert files that the server refuses, all files, or none (auto)",
    )
    made.add_argument("--converter", metavar="PROGRAM", help="the converter (ifc2grid)")
    made.add_argument("--origin-file", metavar="FILE", help="common origin, for the converter")
    made.add_argument("--no-wait", action="store_true", help="don't wait for the clashes")
    made.add_argument("--fail-if-new", action="store_true", help="status 9 if clashes are new")


def add_clashes(build: Builder) -> None:
    """`clashes`."""
    made = build.add("clashes", "print the clashes of a version", clashes.run)
    add_version(made)
    made.add_argument("--by", choices=GROUPS, help="count them")
    made.add_argument("--fail-if-new", action="store_true", help="status 9 if some are new")
    add_tables(made)


def add_topics(build: Builder) -> None:
    """`topics` and `topics make`."""
    made = build.add("topics", "list topics, or make some of clashes", topics.run)
    add_filters(made)
    add_tables(made)
    inner = made.add_subparsers(dest="action", metavar="make")
    maker = inner.add_parser("make", help="make topics of clashes", parents=[build.shared])
    maker.set_defaults(run=topics.run_make)
    maker.add_argument("places", nargs="*", type=natural, metavar="PLACE", help="from 0")
    add_version(maker)
    maker.add_argument("--every", action="store_true", help="of all clashes of the version")
    maker.add_argument("--most", type=natural, default=100, help="at most so many (100)")
    maker.add_argument("--assigned-to", help="who has to see to them")
    maker.add_argument("--priority", help="their priority")


def add_rules(build: Builder) -> None:
    """`rules get`, `rules put` and `rules check`."""
    inner = Builder(build.add("rules", "get, put or check clash rules"), "action", build.shared)
    get = inner.add("get", "print the rules of a version as a file", rules.run_get)
    get.add_argument("file", nargs="?", metavar="FILE", help="write them there")
    get.add_argument("--version", type=natural, metavar="N", help="of version N (the newest)")
    put = inner.add("put", "set the rules of a file", rules.run_put)
    put.add_argument("file", metavar="FILE")
    check = inner.add("check", "check the rules of a file, and whether they meet any element")
    check.set_defaults(run=rules.run_check)
    check.add_argument("file", metavar="FILE")
    check.add_argument("--offline", action="store_true", help="don't ask the server")


def add_versions(build: Builder) -> None:
    """`versions`, `projects` and `remove`."""
    made = build.add("versions", "list the versions and what each changed", versions.run)
    made.add_argument("--most", type=natural, default=16, metavar="N", help="at most N (16)")
    build.add("projects", "list the projects of the server", versions.run_projects)
    remove = build.add("remove", "take a model out of the project", versions.run_remove)
    remove.add_argument("model", metavar="NAME")


def add_export(build: Builder) -> None:
    """`export bcf`."""
    inner = Builder(build.add("export", "write files for other programs"), "format", build.shared)
    made = inner.add("bcf", "write topics as a BCF file", export.run)
    made.add_argument("file", metavar="FILE")
    made.add_argument("--bcf-version", choices=("2.1", "3.0"), default="2.1")
    made.add_argument("--no-snapshots", action="store_true", help="without pictures")
    add_filters(made)


def add_import(build: Builder) -> None:
    """`import bcf`."""
    inner = Builder(build.add("import", "read files of other programs"), "format", build.shared)
    made = inner.add("bcf", "make the topics of a BCF file", import_bcf.run)
    made.add_argument("file", metavar="FILE")
    made.add_argument(
        "--update", action="store_true", help="bring topics that are there up to date"
    )
    made.add_argument(
        "--own-name", action="store_true", help="be the author of all, not the file's"
    )
    made.add_argument("--dry-run", action="store_true", help="read the file and change nothing")


def add_report(build: Builder) -> None:
    """`report` and `watch`."""
    made = build.add("report", "write clashes and topics as one HTML file", report.run)
    made.add_argument("file", metavar="FILE.html")
    add_version(made)
    made.add_argument("--most", type=natural, default=60, metavar="N", help="clashes shown (60)")
    made.add_argument("--no-topics", action="store_true", help="clashes alone")
    seen = build.add("watch", "print a line for each change", watch.run)
    seen.add_argument("--every", type=seconds, default=5.0, help="seconds between looks (5)")
    seen.add_argument("--for", dest="duration", type=seconds, help="end after so many seconds")
    seen.add_argument("--comments", action="store_true", help="look at comments too")
    seen.add_argument("--from-start", action="store_true", help="print what is there already")


def run_completion(context: Context) -> int:
    """Prints the script of a shell."""
    print(completion(parser(), context.words.shell), end="")
    return ExitStatus.DONE


def add_completion(build: Builder) -> None:
    """`completion`."""
    made = build.add("completion", "print the completion of a shell", run_completion)
    made.add_argument("shell", choices=("bash", "zsh"))


def parser() -> argparse.ArgumentParser:
    """The whole command line."""
    shared = common()
    made = argparse.ArgumentParser(
        prog="yulfrets",
        description="Uploads building models, finds what clashes, carries topics.",
        epilog=EPILOG,
        formatter_class=argparse.RawDescriptionHelpFormatter,
        parents=[shared],
    )
    made.add_argument("-V", action="version", version=f"yulfrets {VERSION}")
    build = Builder(made, "command", shared)
    for adds in (add_push, add_clashes, add_topics, add_rules, add_versions):
        adds(build)
    for adds in (add_export, add_import, add_report, add_completion):
        adds(build)
    return made
