"""Names of models, places in files, and the size of functions."""

from __future__ import annotations

import ast
import re
from pathlib import Path

import pytest
from conftest import CLIENT
from models import Block, model

from yulfrets.errors import UsageFault
from yulfrets.names import model_name, sources_of
from yulfrets.part21 import element_of, place_of, text_of


@pytest.mark.parametrize(
    ("path", "name"),
    [
        ("haus.ifc", "haus"),
        ("HAUS.IFC", "HAUS"),
        ("/srv/büro/Außen Wände (neu).ifc", "Aussen_Waende_neu"),
        ("C:\\Büro Köln\\Projekt 7\\TGA-Lüftung_v1.2.ifc", "TGA-Lueftung_v1.2"),
        ("\\\\server\\share\\x.ifc", "x"),
        ("U\u0308bersicht.ifc", "Uebersicht"),
        ("café œuvre.ifc", "cafe_uvre"),
        ("Łódź.ifc", "Lodz"),
        ("modell.ifczip", "modell.ifczip"),
        ("a" * 80 + ".ifc", "a" * 64),
    ],
)
def test_the_name_of_a_model(path: str, name: str) -> None:
    assert model_name(path) == name


@pytest.mark.parametrize("path", ["...ifc", "模型.ifc", ".ifc", "C:\\"])
def test_a_file_of_which_no_name_can_be_made(path: str) -> None:
    with pytest.raises(UsageFault, match="no name"):
        model_name(path)


def test_words_that_name_files(tmp_path: Path) -> None:
    for name in ("a.ifc", "b.ifc", "x=y.ifc"):
        (tmp_path / name).write_text("")
    found = sources_of([str(tmp_path / "*.ifc")], None)
    assert [one.name for one in found] == ["a", "b", "x_y"]
    found = sources_of([f"Haus={tmp_path / 'a.ifc'}", str(tmp_path / "x=y.ifc")], None)
    assert [(one.name, one.path.name) for one in found] == [("Haus", "a.ifc"), ("x_y", "x=y.ifc")]
    assert sources_of([str(tmp_path / "a.ifc")], "z")[0].name == "z"


def test_texts_of_a_file() -> None:
    assert text_of(rb"T\X2\00FC\X0\r") == "Tür"
    assert text_of(rb"T\X\FCr \S\|") == "Tür ü"
    assert text_of(rb"a\\b ''c''") == "a\\b 'c'"
    assert text_of(rb"\X4\0001F3E0\X0\!") == "\U0001f3e0!"
    assert text_of("Tür".encode()) == "Tür"


def test_places_in_a_file() -> None:
    data = model([Block(5, (0, 0, 0), (9, 9, 9)), Block(6, (0, 0, 0), (9, 9, 9), name="x;#10")])
    raw = data.encode()
    element = f"#24 IFCPIPESEGMENT {6:022d} 'x;#10'"
    for number in (20, 21, 22, 23, 24):
        assert element_of(raw, number) == element
    assert element_of(raw, 10).startswith("#14 ")
    assert element_of(raw, 99) == ""
    place = place_of(raw, None, 20)
    assert place and raw.splitlines()[place.line - 1].startswith(b"#20=")
    at = raw.index(b"#21=")
    place = place_of(raw, at, None)
    assert place and raw.splitlines()[place.line - 1].decode().startswith(place.text[:20])
    assert place_of(raw, None, 77) is None and place_of(raw, None, None) is None


def test_the_page_names_every_option_and_status() -> None:
    """docs/CLIENT.md has each option and each status of the command, and no other."""
    from yulfrets.arguments import parser
    from yulfrets.completion import paths
    from yulfrets.errors import ExitStatus

    page = (CLIENT.parent / "docs" / "CLIENT.md").read_text("utf-8")
    # options of other programs that the page's lines run
    others = {"--no-build-isolation", "--no-index", "--no-deps", "--lanes"}
    named = set(re.findall(r"(?<![\w-])--[a-z][a-z-]*", page)) - others
    words = {word for _, found in paths(parser()) for word in found if word.startswith("--")}
    assert words - {"--help"} - named == set() and named - words == set()
    statuses = {int(number) for number in re.findall(r"^\| (\d+) \|", page, re.MULTILINE)}
    # Python's own status of a program that breaks
    assert statuses == {int(one) for one in ExitStatus} | {1}
    commands = {path for path, _ in paths(parser()) if path and " " not in path}
    assert all(f"`{name}" in page or f"`{name} " in page for name in commands)


def test_functions_are_small() -> None:
    """Below 40 lines each, with a docstring, in the client itself."""
    for path in CLIENT.glob("yulfrets/**/*.py"):
        tree = ast.parse(path.read_text("utf-8"))
        assert ast.get_docstring(tree), path
        for node in ast.walk(tree):
            if isinstance(node, ast.FunctionDef | ast.ClassDef):
                inner = node.name.startswith("__") or node.name in ("taken", "wide", "value")
                assert inner or ast.get_docstring(node), (path.name, node.name)
            if isinstance(node, ast.FunctionDef):
                lines = (node.end_lineno or 0) - node.lineno + 1
                assert lines < 40, (path.name, node.name, lines)
