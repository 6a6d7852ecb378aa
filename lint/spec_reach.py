"""Shows files of specs/ that are in the wrong room: python3 -m lint.spec_reach [--list]. specs/
says what is meant: each of its files has a definition that an exported contract reaches.
specs/inner/ holds what mirrors the code: none of its files has one. Exported is what the root file
of a crate makes public: functions and laws by their clauses, traits, and types by their fields,
invariants and views, and those of the types of their fields. Reached is what such a clause names,
and what a definition names that is reached. Reads text only. --list prints all definitions that
aren't reached. Exit status 1 if a file is in the wrong room.
"""

import argparse
import os
import re
import sys
from collections.abc import Iterator
from dataclasses import dataclass, field

from lint.dead_names import IMPORT, WORD, Name, Text
from lint.repository import all_crates, files_below, text_of
from lint.rust_items import Item, implemented, items, without_words

FULL_PATH = re.compile(r"Rattle\.[\w.+'-]+")
TYPES = ("struct", "enum", "trait", "type")
Definition = tuple[str, int]  # the file's module, and the place among its names


@dataclass
class Imports:
    """What words of a file mean: a name of a module, or a module."""

    names: dict[str, list[tuple[str, str]]] = field(default_factory=dict)
    modules: dict[str, str] = field(default_factory=dict)

    @staticmethod
    def of(source: str) -> "Imports":
        found = Imports()
        for _, module, names, alias in IMPORT.findall(source):
            for part in names.split(","):
                name, _, other = part.strip().partition(" as ")
                if name:
                    found.names.setdefault(other.strip() or name, []).append((module, name))
            if not names:
                found.modules[alias or module.split(".")[-1]] = module
        return found

    def cited(self, text: str) -> Iterator[tuple[str, str]]:
        """The names of modules that a text cites."""
        for path in FULL_PATH.findall(text):
            module, _, name = path.rpartition(".")
            yield module, name
        for word in set(WORD.findall(text)):
            yield from self.names.get(word, [])
        for word, module in self.modules.items():
            for name in re.findall(rf"(?<![\w.]){re.escape(word)}\.([^\s(){{}}\[\],;.]+)", text):
                yield module, name
        for word, places in self.names.items():
            if "◌" in word and word.strip("◌") in text:
                yield from places


class Crate:
    """A crate's code: its items and impls by the files' modules, and the names that it exports."""

    def __init__(self, name: str) -> None:
        self.name = name
        self.items: dict[str, list[tuple[str, Item]]] = {}
        self.impls: dict[str, list[tuple[str, Item]]] = {}
        self.imports: dict[str, Imports] = {}
        self.root: list[Item] = []
        for path in files_below(f"crates/{name}/src", ".rt"):
            source = without_words(text_of(path))
            module = os.path.basename(path).removesuffix(".rt")
            self.imports[module] = Imports.of(source)
            found = list(items(source))
            if module in ("lib", "main"):
                self.root = found
            for item in found:
                if item.kind == "impl":
                    self.impls.setdefault(implemented(item)[1], []).append((module, item))
                elif item.name:
                    self.items.setdefault(item.name, []).append((module, item))

    def exported(self) -> Iterator[tuple[str, Item]]:
        """The items that the root file makes public, with the modules that hold them."""
        for item in self.root:
            if item.kind == "fn" and (item.public or item.name == "main"):
                yield from self.items[item.name]
            elif item.kind == "use" and item.public:
                path = re.sub(r"\s+", "", item.text.partition("use")[2])
                for name in self.used_names(path):
                    yield from self.items.get(name, [])
            elif item.kind == "mod" and item.public:
                for places in self.items.values():
                    yield from (place for place in places if place[0] == item.name)
            elif item.public:
                yield from self.items.get(item.name, [])

    @staticmethod
    def used_names(path: str) -> list[str]:
        return [
            re.split(r"::|\bas\b", word)[-1]
            for word in re.sub(r"^.*?\{|\}", "", path).split(",")
            if word
        ]


class Reach:
    """What the exported contracts of all crates reach."""

    def __init__(self) -> None:
        self.crates = {name: Crate(name) for name in all_crates()}
        self.texts: dict[str, Text] = {}
        self.spec_imports: dict[str, Imports] = {}
        self.inner_names: dict[str, dict[str, int]] = {}
        for name in self.crates:
            for path in files_below(f"crates/{name}/specs", ".antt"):
                if os.path.basename(path) not in ("Lib.antt", "inner.antt"):
                    self.read_spec(path)
        self.reached: set[Definition] = set()
        self.types: set[tuple[str, str, bool]] = set()
        for crate in self.crates.values():
            for module, item in crate.exported():
                self.reach_item(crate, module, item, True)

    def read_spec(self, path: str) -> None:
        text = Text(path)
        module = text.module or ""
        self.texts[module] = text
        self.spec_imports[module] = Imports.of(text_of(path))
        parents: dict[str, int] = {}
        for place, name in enumerate(text.names):
            for line in text.lines[name.first : name.last]:
                for word in re.findall(r"^\s+(?:pub )?([^\s(){}\[\],;.]+) :", line):
                    parents.setdefault(word, place)
        for place, name in enumerate(text.names):
            parents[name.word] = place
        self.inner_names[module] = parents

    def reach_item(self, crate: Crate, module: str, item: Item, exported: bool) -> None:
        """What an item promises is reached; of a type also what its impls promise."""
        imports = crate.imports[module]
        self.reach_text(crate, imports, item.text)
        for inner in item.within:
            self.reach_text(crate, imports, inner.text)
        if item.kind in TYPES:
            self.reach_type(crate, item.name, exported)

    def reach_type(self, crate: Crate, name: str, exported: bool) -> None:
        """The promises of a type: of one that isn't exported its fields, invariants and views."""
        if (crate.name, name, exported) in self.types:
            return
        self.types.add((crate.name, name, exported))
        for module, item in crate.items.get(name, []):
            if item.kind in TYPES:
                self.reach_item(crate, module, item, exported)
        for module, item in crate.impls.get(name, []):
            of_trait = implemented(item)[0] != ""
            imports = crate.imports[module]
            for inner in item.within:
                if inner.kind == "ghost" or (exported and (of_trait or inner.public)):
                    self.reach_text(crate, imports, inner.text)

    def reach_text(self, crate: Crate, imports: Imports, text: str) -> None:
        for module, name in imports.cited(text):
            self.reach_name(module, name)
        for word in set(re.findall(r"[A-Z]\w*", text)):
            if any(item.kind in TYPES for _, item in crate.items.get(word, [])):
                self.reach_type(crate, word, False)

    def reach_name(self, module: str, name: str) -> None:
        """A name of a module of specs, of a type of one, or of what the code declares."""
        parts = module.split(".")
        if len(parts) < 3 or parts[0] != "Rattle" or parts[1] not in self.crates:
            return
        if parts[2:4] == ["specs", "declared"]:
            for word in [*parts[4:], name]:
                self.reach_type(self.crates[parts[1]], word, False)
            return
        if module not in self.texts:
            module, _, name = module.rpartition(".")
        if module not in self.texts:
            return
        place = self.inner_names[module].get(name)
        if place is not None:
            self.reach_definition(module, place)
            return
        for passed_on, other, names, _ in self.texts[module].imports:
            if passed_on and name in re.split(r"[,\s]+", names):
                self.reach_name(other, name)

    def reach_definition(self, module: str, place: int) -> None:
        if (module, place) in self.reached:
            return
        self.reached.add((module, place))
        text = self.texts[module]
        name = text.names[place]
        own = "\n".join(text.lines[name.first : name.last])
        heads = "\n".join(line for line in text.lines if re.match(r"\s*module ", line))
        for other, word in self.spec_imports[module].cited(own + "\n" + heads):
            self.reach_name(other, word)
        words = set(WORD.findall(own))
        symbols = {w for w in self.inner_names[module] if "◌" in w and w.strip("◌") in own}
        for word in (words | symbols) & self.inner_names[module].keys():
            self.reach_definition(module, self.inner_names[module][word])

    def unreached(self, module: str) -> list[Name]:
        names = self.texts[module].names
        return [name for at, name in enumerate(names) if (module, at) not in self.reached]


def main() -> int:
    parser = argparse.ArgumentParser(
        description=__doc__, formatter_class=argparse.RawDescriptionHelpFormatter
    )
    parser.add_argument("--list", action="store_true", help="all definitions that aren't reached")
    given = parser.parse_args()
    reach = Reach()
    found = []
    for module, text in sorted(reach.texts.items()):
        unreached = reach.unreached(module)
        is_inner = text.path.split(os.sep)[3] == "inner"
        if given.list:
            for name in unreached:
                print(f"{text.path}:{name.first + 1}: {name.word}")
        if is_inner and len(unreached) < len(text.names):
            found.append(f"{text.path}: an exported contract reaches it: it belongs in specs/")
        elif not is_inner and len(unreached) == len(text.names):
            found.append(
                f"{text.path}: no exported contract reaches it: it belongs in specs/inner/"
            )
    for line in found:
        print(line)
    total = sum(len(text.names) for text in reach.texts.values())
    print(
        f"{len(reach.texts)} files of specs, {total} definitions, {len(reach.reached)} of them "
        f"reached, {len(found)} files in the wrong room"
    )
    return 1 if found or not total else 0


if __name__ == "__main__":
    sys.exit(main())
