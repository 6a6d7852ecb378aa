#!/usr/bin/python3
"""picture.py PROGRAM OUT.png: the page as a coordinator sees it, a new clash chosen, for README."""
import argparse
import io
import sys
from pathlib import Path

from PIL import Image

from stage import Failure
from tests.case import Case

MOST = 300_000


def take(case: Case) -> bytes:
    """The page with a clash of a duct and a wall."""
    b = case.browser
    case.load()
    b.open(case.address)
    case.ready()
    b.until("page.state.all.length")
    b.js("page.view.camera.azimuth = -0.9; page.view.camera.elevation = 0.42")
    b.js("document.querySelector('#clash-list button').click()")
    b.js("page.view.camera.zoom(0.8); page.view.scene.dirty = true")
    b.js("document.activeElement.blur()")
    b.later("for (let n = 0; n < 4; ++n) await new Promise(done => requestAnimationFrame(done))")
    picture = Image.open(io.BytesIO(b.driver.get_screenshot_as_png())).convert("RGB")
    out = io.BytesIO()
    # 256 colours are enough for a page, and a third of the bytes
    picture.quantize(256, dither=Image.Dither.NONE).save(out, "PNG", optimize=True)
    return out.getvalue()


def main() -> int:
    """Writes the picture."""
    parser = argparse.ArgumentParser(description=__doc__)
    parser.add_argument("program")
    parser.add_argument("out", type=Path)
    words = parser.parse_args()
    case = None
    try:
        case = Case(words.program, False)
        data = take(case)
        if len(data) > MOST:
            raise Failure(f"the picture has {len(data)} bytes, more than {MOST}")
        words.out.write_bytes(data)
        print(f"{words.out}: {len(data)} bytes")
        return 0
    except Failure as failure:
        print(f"picture: {failure}", file=sys.stderr)
        return 1
    finally:
        if case:
            case.close()


if __name__ == "__main__":
    sys.exit(main())
