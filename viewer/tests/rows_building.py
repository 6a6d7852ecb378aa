"""Rows: projects, versions, models, elements, sections, picking, measuring."""
from collections import Counter

from stage import PROJECT, SECOND

from .case import Case, Rows, same
from .facts import boxes
from .pictures import alike


def projects(case: Case) -> None:
    """Both projects are offered, and the empty one opens."""
    b = case.browser
    same(b.all("#project option"), ["Project 1", "Project 2"])
    b.choose("#project", SECOND)
    b.until("page.state.elements.length === 0 && page.state.version === 0")
    same(b.text("#models"), "No model yet: upload one below.")
    b.choose("#project", PROJECT)
    case.ready()
    same(b.js("return page.state.elements.length"), len(case.facts))


def versions(case: Case) -> None:
    """They count down from the newest; an older one opens, and the newest again."""
    b = case.browser
    same(b.js("return [...document.querySelectorAll('#version option')].map(o => o.value)"), ["4", "3", "2", "1", "0"])
    b.choose("#version", "2")
    b.until("page.state.version === 2 && page.state.loadingClashes === ''")
    arch = [e for e in case.facts if e.model == "arch"]
    same(b.js("return page.state.elements.length"), len(arch))
    b.click("#tab-versions")
    same(len(b.all("#version-list li")), 5)
    b.js("document.querySelector('#version-list button').click()")
    b.until("page.state.version === 4 && page.state.loadingClashes === ''")
    b.click("#tab-clashes")


def changes(case: Case) -> None:
    """What changed between two versions, in words."""
    b = case.browser
    before = case.stage.call("GET", f"/coord/1/projects/{PROJECT}/versions/3")
    old = boxes(before, "mep")
    now = {e.guid: e for e in case.facts if e.model == "mep"}
    new, gone = len(set(now) - set(old)), len(set(old) - set(now))
    other = sum(1 for g in set(now) & set(old) if list(now[g].box) != old[g])
    b.click("#tab-versions")
    same(b.all("#change-list li")[0], f"mep: {new} elements new, {gone} gone, {other} changed")
    b.click("#tab-clashes")


def models(case: Case) -> None:
    """Each model with its counts, and the sums."""
    b = case.browser
    lines = []
    for name in ("arch", "mep"):
        own = [e for e in case.facts if e.model == name]
        lines.append(f"{name} {len(own)} elements, {sum(e.triangles for e in own):,} triangles")
    same(b.all("#models .name"), lines)
    triangles = sum(e.triangles for e in case.facts)
    same(b.text("#summary"), f"{len(case.facts)} elements, {triangles:,} triangles, 4 rules")


def groups(case: Case) -> None:
    """Elements by class, storey and model, with their counts."""
    b = case.browser
    script = "return [...document.querySelectorAll('#groups .name')].map(e => [e.title, Number(e.querySelector('small').textContent)])"
    for by, key in (("storey", "storey"), ("model", "model"), ("class", "kind")):
        b.choose("#by", by)
        same(dict(b.js(script)), dict(Counter(getattr(e, key) for e in case.facts)))
    b.choose("#by", "storey")
    same(b.js(script)[0][0], "Roof")
    b.choose("#by", "class")


def press_group(case: Case, name: str, nth: int) -> None:
    """Presses the first (hide), second (only) or third (faint) button of a group."""
    case.browser.js(
        """[...document.querySelectorAll('#groups li')].find(li => li.querySelector('.name').title === arguments[0])
        .querySelectorAll('button')[arguments[1]].click()""",
        name,
        nth,
    )


def whole_picture(case: Case) -> None:
    """The building as it is stored."""
    case.reset()
    case.looks_like("whole")


def hides(case: Case) -> None:
    """A class is hidden, and shown again."""
    case.reset()
    press_group(case, "IFCSLAB", 0)
    press_group(case, "IFCWALL", 0)
    case.looks_like("hidden")
    press_group(case, "IFCSLAB", 0)
    press_group(case, "IFCWALL", 0)
    same(case.browser.js("return page.state.hidden.size"), 0)


def isolates(case: Case) -> None:
    """A class alone."""
    case.reset()
    press_group(case, "IFCDUCTSEGMENT", 1)
    ducts = sum(e.kind == "IFCDUCTSEGMENT" for e in case.facts)
    same(case.browser.js("return page.state.hidden.size"), len(case.facts) - ducts)
    case.looks_like("alone")
    case.reset()


def sees_through(case: Case) -> None:
    """A model that is seen through."""
    case.browser.choose("#by", "model")
    case.reset()
    press_group(case, "arch", 2)
    case.looks_like("faint")
    case.reset()
    case.browser.choose("#by", "class")


def sections(case: Case) -> None:
    """Each of the three planes cuts, from both sides, and the picture is the stored one."""
    b = case.browser
    case.reset()
    whole = b.picture()
    for nth in (1, 2, 3):
        row = f"#sections .section:nth-child({nth})"
        b.js(
            "const e = document.querySelector(arguments[0]); e.value = 400; e.dispatchEvent(new Event('input'))",
            f"{row} input[type=range]",
        )
        one = b.picture()
        b.click(f"{row} button")
        other = b.picture()
        if alike(whole, one) or alike(whole, other) or alike(one, other):
            raise AssertionError(f"plane {nth} doesn't cut")
        if nth < 3:
            b.click(f"{row} input[type=checkbox]")
    b.click("#sections .section:nth-child(3) button")
    low, high = min(e.box[2] for e in case.facts), max(e.box[5] for e in case.facts)
    per = case.newest().get("per_mm", 1)
    at = round((low + 0.4 * (high - low)) * per) / per
    same(b.text("#sections .section:nth-child(3) output"), f"{at:,.10g} mm")
    case.looks_like("section")
    b.click("#sections .section:nth-child(3) input[type=checkbox]")
    if not alike(whole, b.picture()):
        raise AssertionError("the planes don't go away")


def picks(case: Case) -> None:
    """A click on the roof from above names it; where it is hidden, what is below."""
    b = case.browser
    case.reset()
    b.click("#top")
    roof = case.fact("Slab Roof", "Roof")
    at = [(roof.box[k] + roof.box[k + 3]) // 2 for k in range(3)]
    b.click_at(*b.place_of([at[0], at[1], roof.box[5]]))
    same(b.all("#card dd"), ["Slab Roof", "IFCSLAB", "Roof", "arch", roof.guid, str(roof.triangles)])
    b.press("#card", "Hide")
    b.click_at(*b.place_of([at[0] - 1900, 3000, roof.box[5]]))
    same(b.all("#card dd")[2] != "Roof", True)
    case.reset()


def picks_within_sections(case: Case) -> None:
    """What a plane cuts away can't be picked: a click meets what is left below."""
    b = case.browser
    case.reset()
    b.click("#top")
    slider = "#sections .section:nth-child(3) input[type=range]"
    b.js("const e = document.querySelector(arguments[0]); e.value = 10; e.dispatchEvent(new Event('input'))", slider)
    b.click_at(*b.place_of([9000, 3000, 0]))
    same(b.all("#card dd")[:3], ["Slab Ground floor", "IFCSLAB", "Ground floor"])
    b.click("#sections .section:nth-child(3) input[type=checkbox]")
    case.reset()


def measures(case: Case) -> None:
    """From corner to corner of the roof, near which the clicks are: exact numbers of the file."""
    b = case.browser
    case.reset()
    b.click("#top")
    box = case.fact("Slab Roof", "Roof").box
    b.click("#measure")
    for x, y, inward in ((box[0], box[1], 90), (box[3], box[4], -90)):
        b.click_at(*b.place_of([x + inward, y + inward, box[5]]))
    wide, deep = box[3] - box[0], box[4] - box[1]
    far = (wide**2 + deep**2) ** 0.5
    same(b.all("#card dd"), [f"{far:,.1f} mm", f"X {wide:,}, Y {deep:,}, Z 0 mm"])
    b.click("#measure")
    case.reset()


ROWS: Rows = [
    ("projects", projects),
    ("versions count down and open", versions),
    ("what changed between versions", changes),
    ("models with counts", models),
    ("elements by class, storey, model", groups),
    ("picture of the whole", whole_picture),
    ("hide", hides),
    ("only", isolates),
    ("see-through", sees_through),
    ("sections by three planes", sections),
    ("picking", picks),
    ("picking within sections", picks_within_sections),
    ("measuring on the grid", measures),
]
