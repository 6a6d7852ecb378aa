"""Debian's chromium, driven by its chromedriver: one at a time, with software GL, and no way out of this machine."""
import base64
import io
import time
from collections.abc import Sequence
from typing import Any

from PIL import Image
from selenium import webdriver
from selenium.webdriver.chrome.service import Service

FLAGS = [
    "--headless=new",
    "--no-sandbox",
    "--use-gl=angle",
    "--use-angle=swiftshader",
    "--enable-unsafe-swiftshader",
    "--window-size=1400,900",
    "--disable-dev-shm-usage",
    "--no-proxy-server",
    "--no-first-run",
    "--disable-background-networking",
    "--disable-component-update",
    "--disable-sync",
    "--disable-default-apps",
    "--lang=en-US",
    "--host-resolver-rules=MAP * ~NOTFOUND , EXCLUDE 127.0.0.1",
]
WIDE, HIGH = 1400, 850


class Browser:
    """A page in a browser, with what the tests ask of it."""

    def __init__(self) -> None:
        options = webdriver.ChromeOptions()
        for flag in FLAGS:
            options.add_argument(flag)
        options.set_capability("goog:loggingPrefs", {"browser": "ALL"})
        options.binary_location = "/usr/bin/chromium"
        service = Service("/usr/bin/chromedriver")
        self.driver = webdriver.Chrome(options=options, service=service)
        self.driver.set_script_timeout(100)
        self.driver.set_page_load_timeout(60)
        size = {"width": WIDE, "height": HIGH, "deviceScaleFactor": 1, "mobile": False}
        self.driver.execute_cdp_cmd("Emulation.setDeviceMetricsOverride", size)

    def open(self, address: str) -> None:
        """Goes to a page."""
        self.driver.get(address)

    def js(self, script: str, *values: Any) -> Any:
        """Runs a script; `return` gives a value."""
        return self.driver.execute_script(script, *values)

    def later(self, script: str, *values: Any) -> Any:
        """Awaits a script's promise."""
        body = f"const done = arguments[arguments.length - 1]; (async () => {{ {script} }})()"
        body += ".then(done, fault => done({ fault: String(fault.stack || fault) }))"
        out = self.driver.execute_async_script(body, *values)
        if isinstance(out, dict) and "fault" in out:
            raise AssertionError(out["fault"])
        return out

    def until(self, condition: str, seconds: float = 25) -> None:
        """Waits until an expression holds."""
        end = time.monotonic() + seconds
        while not self.js(f"return !!({condition})"):
            if time.monotonic() > end:
                said = self.js("return document.getElementById('error').textContent")
                raise AssertionError(f"never came: {condition} ({said})")
            time.sleep(0.03)

    def all(self, selector: str) -> list[str]:
        """The texts of elements, as they are seen."""
        script = "return [...document.querySelectorAll(arguments[0])].map(e => e.innerText)"
        texts: list[str] = self.js(script, selector)
        return texts

    def text(self, selector: str) -> str:
        """The text of one element."""
        return self.all(selector)[0]

    def find(self, selector: str) -> Any:
        """One element."""
        return self.driver.find_element("css selector", selector)

    def click(self, selector: str) -> None:
        """Clicks as a person would: it has to be in sight."""
        self.find(selector).click()

    def press(self, within: str, label: str) -> None:
        """Clicks the button with that text."""
        buttons = self.driver.find_elements("css selector", f"{within} button")
        next(b for b in buttons if b.text == label).click()

    def choose(self, selector: str, value: str) -> None:
        """Chooses an entry of a list by its value."""
        script = (
            "const s = arguments[0]; s.value = arguments[1]; s.dispatchEvent(new Event('change', { bubbles: true }))"
        )
        self.js(script, self.find(selector), value)

    def fill(self, selector: str, value: str) -> None:
        """Writes into a field in place of what is there."""
        field = self.find(selector)
        field.clear()
        field.send_keys(value)

    def click_at(self, x: float, y: float) -> None:
        """Clicks at a place of the picture."""
        canvas = self.find("#canvas")
        size = canvas.size
        mouse = webdriver.ActionChains(self.driver, duration=10)
        right, down = round(x - size["width"] / 2), round(y - size["height"] / 2)
        mouse.move_to_element_with_offset(canvas, right, down).click().perform()

    def place_of(self, point: Sequence[float]) -> tuple[float, float]:
        """Where a point of the building is in the picture."""
        script = """
            const { camera, scene } = page.view, m = camera.matrix(scene.aspect());
            const p = arguments[0].map((v, k) => v - scene.origin[k]);
            const [x, y, , w] = [0, 1, 2, 3].map(r => m[r] * p[0] + m[4 + r] * p[1] + m[8 + r] * p[2] + m[12 + r]);
            return [(x / w + 1) / 2 * scene.canvas.clientWidth, (1 - y / w) / 2 * scene.canvas.clientHeight]"""
        x, y = self.js(script, point)
        return x, y

    def picture(self) -> Image.Image:
        """What is drawn, without the page around it."""
        script = "page.view.scene.render(page.view.scene.total()); return page.view.scene.canvas.toDataURL('image/png')"
        data = self.js(script).split(",", 1)[1]
        return Image.open(io.BytesIO(base64.b64decode(data))).convert("RGB")

    def console(self) -> list[str]:
        """The lines of the console since the last call."""
        return [line["message"] for line in self.driver.get_log("browser")]

    def close(self) -> None:
        """Ends the browser."""
        self.driver.quit()
