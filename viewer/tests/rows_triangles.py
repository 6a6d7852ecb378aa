"""Rows: triangles from a small server of the tests' own; without them boxes."""
import os
import time
from pathlib import Path

from .case import Case, Rows, same
from .fake import EACH, Fake, Model

TURN = """
    const { scene, camera } = page.view, start = performance.now(), frames = scene.frames;
    let least = Infinity;
    return await new Promise(done => {
        const step = () => {
            camera.turn(0.03, 0); scene.move(); least = Math.min(least, scene.short ? scene.budget : scene.total());
            const time = performance.now() - start;
            if (time < 3000) requestAnimationFrame(step); else done([(scene.frames - frames) / time * 1000, least, scene.total()]);
        };
        step();
    })"""


def memory() -> int:
    """The bytes of this test's browsers, shared ones counted once, in all their processes."""
    children = {os.getpid()}
    parents = {}
    for path in Path("/proc").glob("[0-9]*/stat"):
        try:
            parents[int(path.parent.name)] = int(path.read_text().rsplit(")", 1)[1].split()[1])
        except OSError:
            continue
    for _ in range(6):
        children |= {child for child, parent in parents.items() if parent in children}
    total = 0
    for child in children - {os.getpid()}:
        try:
            lines = Path(f"/proc/{child}/smaps_rollup").read_text().splitlines()
        except OSError:
            continue
        total += sum(int(line.split()[1]) for line in lines if line.startswith("Pss:")) * 1024
    return total


def memory_after(case: Case) -> int:
    """The memory once what isn't used any more is given back."""
    case.browser.driver.execute_cdp_cmd("HeapProfiler.collectGarbage", {})
    time.sleep(0.7)
    return memory()


def opened(case: Case, fake: Fake) -> None:
    """Opens the page of a fake, until its elements are there."""
    case.browser.open(fake.address)
    case.ready()


def boxes_stay(case: Case) -> None:
    """Where the server answers 404 or 204, boxes are drawn, and it isn't asked for more."""
    for status in (404, 204):
        fake = Fake(case.page, Model(30), status)
        try:
            opened(case, fake)
            case.browser.js("return 0")
            case.browser.until("page.view.scene.total() === 360")
            same([fake.asked, case.browser.js("return page.view.scene.triangles")], [1, None])
            same(case.browser.text("#state"), "")
            lines = case.browser.console()
            same([line for line in lines if "triangles" not in line], [])
            same(len(lines), 1 if status == 404 else 0)
        finally:
            fake.stop()


def drawn(case: Case) -> None:
    """Triangles in place of boxes, each with its element: a click names it, a measure meets its corners."""
    b = case.browser
    fake = Fake(case.page, Model(186, per_mm=10))
    try:
        opened(case, fake)
        b.until("page.view.scene.triangles")
        same(b.js("return [page.view.scene.total(), page.view.scene.triangles.at.length / 9]"), [fake.model.total] * 2)
        same(fake.asked, -(-fake.model.total // 20000))
        b.click("#top")
        case.looks_like("triangles")
        wide = round(186**0.5)
        for n in (0, 123, 185):
            x, y = n % wide * 1200 + 640, n // wide * 1200 + 620
            b.click_at(*b.place_of([x, y, 100]))
            same(b.all("#card dd")[0], f"Ground {n}")
        same(b.console(), [])
        rate = b.later(TURN)
        load = os.getloadavg()[0]
        case.notes.append(
            f"turning {rate[2]:,} triangles: {rate[0]:.1f} frames a second (load {load:.1f}), at least {rate[1]:,} drawn"
        )
        b.until("!page.view.scene.short && performance.now() - page.view.scene.moved > 300")
    finally:
        fake.stop()


SEEN = """return [page.state.boxes, [...page.view.scene.triangles.at], page.view.camera.distance]"""


def grids(case: Case) -> None:
    """A version's `per_mm` says how its boxes and triangles are read; without it they are millimetres. Tenths are measured and cut at."""
    b = case.browser
    seen = []
    for per_mm in (None, 1, 10, 16):
        fake = Fake(case.page, Model(9, per_mm))
        try:
            opened(case, fake)
            b.until("page.view.scene.triangles")
            seen.append(b.js(SEEN))
        finally:
            fake.stop()
    same([one == seen[0] for one in seen], [True] * 4)
    least, most = (f(box[k] for box in seen[0][0]) for f, k in ((min, 0), (max, 3)))
    same([least, most], [0, 3300])
    fake = Fake(case.page, Model(4, 10, apart=1200.3))
    try:
        opened(case, fake)
        b.until("page.view.scene.triangles")
        b.click("#top")
        b.click("#measure")
        for x in (0, 1200.3):
            b.click_at(*b.place_of([x + 25, 10, 190]))
        same(b.all("#card dd"), ["1,200.3 mm", "X 1,200.3, Y 0, Z 0 mm"])
        at_end = "const e = document.querySelector('#sections input[type=range]'); e.value = e.max; e.dispatchEvent(new Event('input'))"
        b.js(at_end)
        same(b.text("#sections .section:nth-child(1) output"), "2,100.3 mm")
    finally:
        fake.stop()


def million(case: Case) -> None:
    """A million triangles: how long they take, how much memory, and fewer are drawn while turning."""
    b = case.browser
    fake = Fake(case.page, Model(30))
    opened(case, fake)
    b.until("page.view.scene.triangles")
    before = memory_after(case)
    fake.stop()
    fake = Fake(case.page, Model(6173, per_mm=10))
    try:
        opened(case, fake)
        b.until("page.view.scene.triangles", 60)
        seconds = b.later(
            """page.view.scene.render(page.view.scene.total());
            page.view.scene.gl.readPixels(0, 0, 1, 1, page.view.scene.gl.RGBA, page.view.scene.gl.UNSIGNED_BYTE, new Uint8Array(4));
            return [page.view.loaded / 1000, page.view.scene.bytes + page.view.scene.triangles.at.byteLength, page.view.scene.total()]"""
        )
        same(seconds[2], 6173 * EACH)
        same(seconds[1] / seconds[2] < 150, True)
        load = os.getloadavg()[0]
        grown = (memory_after(case) - before) / seconds[2]
        same(grown < 150, True)
        case.notes.append(
            f"{seconds[2]:,} triangles loaded in {seconds[0]:.2f} s (load {load:.1f}), "
            f"{seconds[1] / seconds[2]:.0f} bytes a triangle held, {grown:.0f} measured"
        )
        rate = b.later(TURN)
        same(rate[1] < rate[2] / 4, True)
        case.notes.append(f"turning them: {rate[0]:.1f} frames a second, at least {rate[1]:,} drawn")
        b.until("!page.view.scene.short && performance.now() - page.view.scene.moved > 300", 30)
    finally:
        fake.stop()


ROWS: Rows = [
    ("boxes where there are no triangles", boxes_stay),
    ("triangles with their elements", drawn),
    ("grids of other numbers", grids),
    ("a million triangles", million),
]
