"""Rows: rules as a table, models uploaded and removed, faults with their line."""
import tempfile
from pathlib import Path

from .case import Case, Rows, same


def rule_field(row: int, column: int) -> str:
    """A field of the table, from 1 on; column 2 is the first class."""
    return f"#rule-table tbody tr:nth-child({row}) td:nth-child({column}) > *"


def version(case: Case, number: int) -> None:
    """Waits until a version is shown."""
    case.browser.until(f"page.state.version === {number} && page.state.loadingClashes === ''")


def rules(case: Case) -> None:
    """The table says the rules, and how many clashes each found; edited and put they are the server's."""
    b = case.browser
    b.click("#tab-rules")
    wanted = [(r["a"], r["b"], r["kind"]) for r in case.newest()["rules"]]
    same(
        [
            tuple(r)
            for r in b.js(
                """return [...document.querySelectorAll('#rule-table tbody tr')]
            .map(tr => [...tr.querySelectorAll('input, select')].slice(0, 3).map(f => f.value))"""
            )
        ],
        wanted,
    )
    found = [sum(c["rule"] == n for c in case.clashes(4)) for n in range(4)]
    same([int(v) for v in b.all("#rule-table td:nth-child(9)")], found)
    b.fill(rule_field(2, 5), "60")
    b.click("#add-rule")
    b.fill(rule_field(5, 2), "IFCDOOR")
    b.choose(rule_field(5, 6), "same")
    b.fill(rule_field(5, 7), "First floor")
    b.click("#put-rules")
    version(case, 5)
    got = case.newest()["rules"]
    same([len(got), got[1]["distance"]], [5, 60])
    same(
        got[4],
        {
            "a": "IFCDOOR",
            "b": "*",
            "distance": 50,
            "kind": "clash",
            "level": "First floor",
            "models": "any",
            "storey": "same",
        },
    )


def rule_order(case: Case) -> None:
    """A rule goes up, another is removed."""
    b = case.browser
    b.js("document.querySelector('#rule-table tbody tr:nth-child(5) td:last-child button:nth-child(1)').click()")
    b.js("document.querySelector('#rule-table tbody tr:nth-child(1) td:last-child button:nth-child(3)').click()")
    b.click("#put-rules")
    version(case, 6)
    same(
        [(r["a"], r["b"]) for r in case.newest()["rules"]],
        [("IFCDUCTSEGMENT", "IFCBEAM"), ("IFCPIPESEGMENT", "*"), ("IFCDOOR", "*"), ("*", "*")],
    )


def bad_rule(case: Case) -> None:
    """A rule that the server refuses is marked, with the reason."""
    b = case.browser
    b.js(
        "const f = document.querySelector(arguments[0]); f.value = '2000'; f.dispatchEvent(new Event('change'))",
        rule_field(2, 5),
    )
    b.click("#put-rules")
    b.until("document.querySelector('#rule-table tr.bad')")
    same(
        b.js("return [...document.querySelectorAll('#rule-table tbody tr')].findIndex(tr => tr.className === 'bad')"), 1
    )
    same(b.text("#error").startswith("C3: A distance must be 0 to 1,000 mm"), True)
    same([line for line in b.console() if "422" not in line], [])
    b.press("#pane-rules", "Undo changes")
    b.click("#tab-clashes")


DROP = """
    const files = new DataTransfer();
    for (const [name, content] of arguments[0]) files.items.add(new File([content], name));
    document.dispatchEvent(new DragEvent('dragover', { bubbles: true, cancelable: true, dataTransfer: files }));
    document.dispatchEvent(new DragEvent('drop', { bubbles: true, cancelable: true, dataTransfer: files }))"""


def dropped(case: Case) -> None:
    """Two files are dropped: each makes a model of its name, with progress in between."""
    b = case.browser
    b.js(
        """window.seen = [];
        new MutationObserver(() => { const bar = document.querySelector('#uploads progress'); if (bar) seen.push(bar.max); })
            .observe(document.getElementById('uploads'), { childList: true, subtree: true })"""
    )
    one = case.stage.generate(20, 3).decode()
    two = case.stage.generate(30, 4).decode()
    b.js(DROP, [["Ebene ü 1.ifc", one], ["more.ifc", two]])
    version(case, 8)
    same(
        {m["name"]: len(m["elements"]) for m in case.newest()["models"] if m["name"] not in ("arch", "mep")},
        {"Ebene-u-1": 20, "more": 30},
    )
    same(
        b.all("#uploads li .good"),
        [
            "Uploaded as more: 30 elements, 360 triangles, version 8.",
            "Uploaded as Ebene-u-1: 20 elements, 240 triangles, version 7.",
        ],
    )
    same(len(b.js("return seen")) >= 2, True)


def chosen(case: Case) -> None:
    """A file is put by the button, for those who don't drag."""
    b = case.browser
    with tempfile.TemporaryDirectory() as folder:
        path = Path(folder) / "more.ifc"
        path.write_bytes(case.stage.generate(10, 5))
        b.find("#files").send_keys(str(path))
        version(case, 9)
    same({m["name"]: len(m["elements"]) for m in case.newest()["models"]}["more"], 10)


def removed(case: Case) -> None:
    """A model is removed, after a question."""
    b = case.browser
    for name, number in (("more", 10), ("Ebene-u-1", 11)):
        b.js(
            "[...document.querySelectorAll('#models li')].find(li => li.innerText.startsWith(arguments[0])).querySelector('button').click()",
            name,
        )
        b.driver.switch_to.alert.accept()
        version(case, number)
    same([m["name"] for m in case.newest()["models"]], ["arch", "mep"])


def refused(case: Case, name: str, content: str) -> list[str]:
    """Drops a file that is refused; the lines that the page says of it."""
    b = case.browser
    b.js("document.getElementById('uploads').replaceChildren()")
    b.js(DROP, [[name, content]])
    b.until("document.querySelector('#uploads .bad')")
    same([line for line in b.console() if "422" not in line], [])
    return b.all("#uploads li > p, #uploads li > pre")


def fault_lines(case: Case) -> None:
    """A fault is shown with its line: by a place in the bytes, and by an instance's number."""
    file = case.stage.generate(5, 1).decode().split("\n")
    broken = list(file)
    broken[12] = "#12=IFCSHAPE REPRESENTATION;"
    said = refused(case, "broken.ifc", "\n".join(broken))
    same([said[0][:3], said[1], said[2]], ["U3:", "Line 13 of the file:", broken[12]])
    dangling = [line.replace("#13,$,$);", "#999,$,$);") for line in file]
    place = next(n for n, line in enumerate(dangling) if "#999" in line)
    said = refused(case, "dangling.ifc", "\n".join(dangling))
    same([said[0][:3], said[1], said[2]], ["U6:", f"Line {place + 1} of the file:", dangling[place]])


def not_of_profile(case: Case) -> None:
    """Files that aren't of the profile are named with what the converter does, one even before it is sent."""
    file = case.stage.generate(5, 1).decode()
    solid = file.replace("IFCTRIANGULATEDFACESET(#10,$,.T.,", "IFCEXTRUDEDAREASOLID(#10,$,.T.,", 1)
    said = refused(case, "solid.ifc", solid)
    line = next(n for n, text in enumerate(solid.split("\n")) if "EXTRUDED" in text) + 1
    same([said[0][:4], said[1]], ["U13:", f"Line {line} of the file:"])
    same(["reads IFC2X3, IFC4 and IFC4X3" in said[3], said[4]], [True, "ifc2grid solid.ifc solid.grid.ifc"])
    said = refused(case, "old.ifc", file.replace("'IFC4'", "'IFC2X3'"))
    same([said[0], said[2]], ["The file is of schema IFC2X3; the server takes IFC4.", "ifc2grid old.ifc old.grid.ifc"])
    said = refused(case, "plan.dwg", "AC1032")
    same(said[0].startswith("This is no IFC file"), True)


ROWS: Rows = [
    ("rules as a table", rules),
    ("order of rules", rule_order),
    ("a rule that is refused", bad_rule),
    ("models by drag and drop", dropped),
    ("a model by the button", chosen),
    ("a model is removed", removed),
    ("faults with their line", fault_lines),
    ("files that aren't of the profile", not_of_profile),
]
