"""What the rows share: the server on its stage, the browser, the facts of the building, and stored pictures."""
import sys
import time
from pathlib import Path
from typing import Any, Callable

from PIL import Image

from stage import PAGE, PROJECT, RULES, Stage, sample

from .browser import Browser
from .facts import Element, elements
from .pictures import SMALLER, alike, blank, difference, shifted

PICTURES = Path(__file__).resolve().parent / "pictures"
Rows = list[tuple[str, Callable[["Case"], None]]]


def same(got: Any, wanted: Any) -> None:
    """Fails where they differ, and says how."""
    if got != wanted:
        raise AssertionError(f"got {got!r}, wanted {wanted!r}")


class Case:
    """One run of the checks."""

    def __init__(self, program: str, store: bool, page: str = "") -> None:
        self.store = store
        self.page = Path(page).resolve() if page else PAGE
        self.stage = Stage(program, projects=2, page=self.page)
        self.browser = Browser()
        arch, mep = sample("arch").decode(), sample("mep-next").decode()
        self.facts: list[Element] = elements("arch", arch) + elements("mep", mep)
        self.notes: list[str] = []
        self.address = f"http://127.0.0.1:{self.stage.port}/"

    def load(self) -> None:
        """The building in three versions: rules, both trades, the second trade again."""
        self.stage.put_rules(RULES)
        self.stage.put_model("arch", sample("arch"))
        self.stage.put_model("mep", sample("mep"))
        self.stage.put_model("mep", sample("mep-next"))
        for number in (3, 4):
            self.clashes(number)

    def clashes(self, number: int) -> list[dict[str, Any]]:
        """All clashes of a version, from the server itself, once they are found."""
        path = f"/coord/1/projects/{PROJECT}/versions/{number}/clashes"
        for _ in range(600):
            reply = self.stage.call("GET", path)
            if "clashes" in reply:
                found: list[dict[str, Any]] = reply["clashes"]
                return found
            time.sleep(0.1)
        raise AssertionError(f"the clashes of version {number} aren't found in a minute")

    def newest(self) -> dict[str, Any]:
        """The newest version, from the server itself."""
        return self.stage.call("GET", f"/coord/1/projects/{PROJECT}/versions/newest")

    def topics(self, rest: str = "") -> Any:
        """Topics from the server itself."""
        return self.stage.call("GET", f"/bcf/3.0/projects/{PROJECT}/topics{rest}")

    def ready(self) -> None:
        """Waits until a version and its clashes are shown."""
        self.browser.until(
            "window.page && page.state && page.state.elements.length && page.state.loadingClashes === ''"
        )

    def reset(self) -> None:
        """Back to the whole building, nothing hidden, from the first side."""
        self.browser.js(
            """document.getElementById('showAll').click();
            Object.assign(page.view.camera, { azimuth: -1.05, elevation: 0.5 });
            document.getElementById('whole').click()"""
        )

    def fact(self, name: str, storey: str) -> Element:
        """An element by its name and storey."""
        return next(e for e in self.facts if e.name == name and e.storey == storey)

    def looks_like(self, name: str) -> Image.Image:
        """Compares what is drawn with a stored picture, after seeing that blank and shifted ones would fail."""
        whole = self.browser.picture()
        picture = whole.reduce(SMALLER)
        path = PICTURES / f"{name}.png"
        if self.store:
            path.parent.mkdir(exist_ok=True)
            picture.save(path, optimize=True)
        stored = Image.open(path).convert("RGB")
        for what, other in (("blank", blank(stored)), ("shifted", shifted(stored, 3))):
            if alike(stored, other):
                raise AssertionError(f"the tolerance passes a {what} picture of {name}")
        if not alike(picture, stored):
            out = Path(sys.argv[0]).resolve().parent / f"{name}.differs.png"
            picture.save(out)
            mean, part = difference(picture, stored)
            raise AssertionError(f"{name}: mean {mean:.2f}, strongly {part:.4f}: see {out}")
        return whole

    def close(self) -> None:
        """Ends all of it."""
        self.browser.close()
        self.stage.stop()
