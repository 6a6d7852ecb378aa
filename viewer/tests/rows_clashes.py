"""Rows: clashes in pages, filters, against another version, framed."""
from .case import Case, Rows, same
from .facts import pair


def pages(case: Case) -> None:
    """Fifty a page, all of them in the end."""
    b = case.browser
    b.choose("#against", "")
    case.ready()
    total = len(case.clashes(4))
    same(b.text("#total"), f"({total})")
    same([len(b.all("#clash-list li")), b.text("#page")], [50, f"1 to 50 of {total}"])
    b.click("#next")
    same([len(b.all("#clash-list li")), b.text("#page")], [total - 50, f"51 to {total} of {total}"])
    same(b.find("#next").is_enabled(), False)
    b.click("#previous")
    same(b.text("#page"), f"1 to 50 of {total}")


def filters(case: Case) -> None:
    """Each filter leaves as many as the files say."""
    b = case.browser
    known = {(e.model, e.guid): e for e in case.facts}
    clashes = case.clashes(4)
    sides = [[known[(c[s]["model"], c[s]["guid"])] for s in "ab"] for c in clashes]
    b.js("document.getElementById('filters').open = true")
    wishes = [
        (1, "1", [c["rule"] == 1 for c in clashes]),
        (2, "mep", [any(e.model == "mep" for e in s) for s in sides]),
        (3, "arch", [any(e.model == "arch" for e in s) for s in sides]),
        (4, "IFCBEAM", [any(e.kind == "IFCBEAM" for e in s) for s in sides]),
        (5, "IFCWALL", [any(e.kind == "IFCWALL" for e in s) for s in sides]),
        (6, "First floor", [any(e.storey == "First floor" for e in s) for s in sides]),
    ]
    for nth, value, wanted in wishes:
        field = f"#filter-fields > :nth-child({2 * nth})"
        b.choose(field, value)
        shown(case, sum(wanted))
        b.choose(field, "")
    one_side = """const { fits } = await import('/clashes.js'), clash = page.state.all[0], wish = {};
        for (const name of ['change', 'rule', 'modelA', 'modelB', 'classA', 'classB', 'element']) wish[name] = '';
        const element = page.state.elements[page.state.byKey.get(clash.b.model + ' ' + clash.b.guid)], storey = element.storey;
        element.storey = 'Elsewhere';
        const found = ['Elsewhere', storey, 'Nowhere'].map(name => fits(clash, Object.assign({ storey: name }, wish)));
        element.storey = storey;
        return found"""
    same(b.later(one_side), [True, True, False])
    both = [{"IFCBEAM", "IFCDUCTSEGMENT"} == {e.kind for e in s} for s in sides]
    b.choose("#filter-fields > :nth-child(8)", "IFCDUCTSEGMENT")
    b.choose("#filter-fields > :nth-child(10)", "IFCBEAM")
    shown(case, sum(both))
    b.press("#filter-fields", "Clear filters")
    word = "Riser 2"
    b.fill("#filter-fields > :nth-child(14)", word)
    shown(case, sum(any(word in e.name for e in s) for s in sides))
    b.press("#filter-fields", "Clear filters")
    b.js("document.getElementById('filters').open = false")


def shown(case: Case, wanted: int) -> None:
    """The number of clashes that the page says, and that it isn't none or all by chance."""
    text = case.browser.text("#page")
    same(text if wanted else "No clashes", f"1 to {min(50, wanted)} of {wanted}" if wanted else text)


def compared(case: Case) -> None:
    """New, kept and gone are those of both lists, each with its word and its colour."""
    b = case.browser
    b.choose("#against", "3")
    case.ready()
    now, before = ({pair(c) for c in case.clashes(n)} for n in (4, 3))
    counts = {"new": len(now - before), "kept": len(now & before), "gone": len(before - now)}
    same(all(counts.values()), True)
    labels = [f"all {sum(counts.values())}", *(f"{k} {v}" for k, v in counts.items())]
    same(b.all("#changes button"), labels)
    sets = {"new": now - before, "kept": now & before, "gone": before - now}
    got = b.js("return page.state.all.map(c => [c.change, c.a.model, c.a.guid, c.b.model, c.b.guid])")
    for change, wanted in sets.items():
        same({frozenset([(r[1], r[2]), (r[3], r[4])]) for r in got if r[0] == change}, wanted)
    pairs = """const { compareClashes } = await import('/compare.js');
        const clash = (one, two) => ({ a: { model: one, guid: 'x' }, b: { model: two, guid: 'x' } });
        return compareClashes([clash('m', 'n')], [clash('m', 'o'), clash('n', 'm')]).map(c => [c.b.model, c.change])"""
    same(b.later(pairs), [["n", "kept"], ["o", "gone"]])
    colours = set()
    for change in ("new", "kept", "gone"):
        b.click(f"#changes .word-{change}")
        same(len(b.all("#clash-list li")), min(50, counts[change]))
        colours.add(b.js("return getComputedStyle(document.querySelector('#clash-list li')).borderLeftColor"))
    same(len(colours), 3)
    b.js("document.querySelector('#changes button').click()")


def coloured(case: Case) -> None:
    """The building coloured by its clashes."""
    b = case.browser
    case.reset()
    b.choose("#by", "clash")
    case.looks_like("clashes")
    b.choose("#by", "class")


def framed(case: Case) -> None:
    """A clash is chosen: one element red, one blue, both within the picture, and the place between them."""
    b = case.browser
    case.reset()
    b.js("document.querySelector('#clash-list button').click()")
    places = b.js(
        "const c = page.state.clash; return [c.a, c.b].map(s => page.state.elements[page.state.byKey.get(s.model + ' ' + s.guid)].box)"
    )
    same(b.js("return [...page.state.marked.values()].map(c => c[0] > c[2])"), [True, False])
    size = b.find("#canvas").size
    for box in places:
        for n in range(8):
            x, y = b.place_of([box[k + 3] if n >> k & 1 else box[k] for k in range(3)])
            same(0 <= x <= size["width"] and 0 <= y <= size["height"], True)
    picture = case.looks_like("clash")
    pixels = list(picture.getdata())
    same(any(r > 150 and g < 70 and b_ < 70 for r, g, b_ in pixels), True)
    same(any(b_ > 150 and r < 70 for r, g, b_ in pixels), True)


def near(case: Case) -> None:
    """The place where both are near is framed: its middle is the middle of the part that both boxes share."""
    b = case.browser
    boxes = b.js("return [...page.state.marked.keys()].map(n => page.state.boxes[n])")
    middle = [sum(sorted(boxes[0][k::3] + boxes[1][k::3])[1:3]) / 2 for k in range(3)]
    b.click("#where-near")
    target = b.js("return page.view.camera.target.map((v, k) => v + page.view.scene.origin[k])")
    same([abs(a - m) < 1 for a, m in zip(target, middle)], [True] * 3)
    case.looks_like("near")


def gone_one(case: Case) -> None:
    """A clash that is gone can be looked at, and no topic is made of it."""
    b = case.browser
    b.click("#changes .word-gone")
    b.js("document.querySelector('#clash-list button').click()")
    same(b.find("#make-topic").is_enabled(), False)
    same(b.js("return page.state.marked.size"), 2)
    b.js("document.querySelector('#changes button').click()")
    case.reset()


def of_element(case: Case) -> None:
    """The clashes of a picked element."""
    b = case.browser
    case.reset()
    wall = case.fact("End wall east", "Second floor")
    b.click("#side")
    middle = [wall.box[3], (wall.box[1] + wall.box[4]) // 2, (wall.box[2] + wall.box[5]) // 2]
    b.click_at(*b.place_of(middle))
    same(b.all("#card dd")[0], "End wall east")
    b.press("#card", "Its clashes")
    both = case.clashes(4) + case.clashes(3)
    wanted = {pair(c) for c in both if ("arch", wall.guid) in pair(c)}
    shown(case, len(wanted))
    b.press("#filter-fields", "Clear filters")
    b.js("document.getElementById('filters').open = false")
    case.reset()


ROWS: Rows = [
    ("clashes in pages", pages),
    ("filters", filters),
    ("new, kept and gone", compared),
    ("coloured by clashes", coloured),
    ("a clash is framed", framed),
    ("the place where both are near", near),
    ("a clash that is gone", gone_one),
    ("clashes of a picked element", of_element),
]
