"""Rows: languages, keyboard, screen reader, light and dark, the content policy, the console."""
import http.client

from .case import Case, Rows, same
from .fake import Fake, Model


def languages(case: Case) -> None:
    """German and back; no text is missing in either."""
    b = case.browser
    texts = b.later("return Object.entries((await import('/texts.js')).TEXTS)")
    same([key for key, pair in texts if len(pair) != 2 or not all(pair)], [])
    holes = [
        key
        for key, (one, two) in texts
        if [f"{{{n}}}" in one for n in range(9)] != [f"{{{n}}}" in two for n in range(9)]
    ]
    same(holes, [])
    b.choose("#language", "de")
    same(
        [b.text("h1"), b.text("#tab-clashes span"), b.js("return document.documentElement.lang")],
        ["Koordination", "Kollisionen", "de"],
    )
    same(
        b.js(
            "return [...document.querySelectorAll('[data-text]')].filter(e => e.textContent === e.dataset.text && /[a-z][A-Z]/.test(e.textContent)).length"
        ),
        0,
    )
    b.choose("#language", "en")
    same(b.text("h1"), "Coordination")


def used_texts(case: Case) -> None:
    """Each key that the page's files name has a text."""
    b = case.browser
    missing = b.later(
        """const { TEXTS } = await import('/texts.js'), out = [];
        for (const name of arguments[0]) {
            const source = await (await fetch('/' + name)).text();
            for (const [, key] of source.matchAll(/\\btext\\('([^']+)'[,)]|data-(?:text|label)="([^"]+)"/g)) if (key && !(key in TEXTS)) out.push(key);
            for (const [, key] of source.matchAll(/data-(?:text|label)="([^"]+)"/g)) if (!(key in TEXTS)) out.push(key);
        }
        return out""",
        [path.name for path in sorted(case.page.iterdir()) if path.suffix in (".js", ".html")],
    )
    same(missing, [])


def keyboard(case: Case) -> None:
    """The picture, the tabs and the lists go by keys alone."""
    b = case.browser
    case.reset()
    camera = "const c = page.view.camera; return [c.azimuth, c.elevation, c.distance, ...c.target]"
    press = """document.getElementById('canvas').focus();
        document.activeElement.dispatchEvent(new KeyboardEvent('keydown', { ...arguments[0], bubbles: true, cancelable: true }))"""
    for key, moved in (
        ("ArrowLeft", {0}),
        ("ArrowRight", {0}),
        ("ArrowUp", {1}),
        ("ArrowDown", {1}),
        ("+", {2}),
        ("-", {2}),
    ):
        before = b.js(camera)
        b.js(press, {"key": key})
        same({n for n, (one, two) in enumerate(zip(before, b.js(camera))) if one != two}, moved)
    for key in ("ArrowLeft", "ArrowRight", "ArrowUp", "ArrowDown"):
        before = b.js(camera)
        b.js(press, {"key": key, "shiftKey": True})
        now = b.js(camera)
        same([before[:3] == now[:3], before[3:] == now[3:]], [True, False])
    b.find("#canvas").send_keys("\ue011")  # Home
    b.find("#canvas").send_keys("\ue007")  # Enter
    same(len(b.all("#card dd")) > 3, True)
    b.find("#canvas").send_keys("\ue00c")  # Escape
    same(b.find("#card").is_displayed(), False)
    b.find("#tab-clashes").send_keys("\ue014")  # right
    same(
        b.js("return [document.activeElement.id, document.getElementById('pane-topics').hidden]"), ["tab-topics", False]
    )
    b.find("#tab-topics").send_keys("\ue012")  # left
    b.find("#clash-list button").send_keys("\ue015")  # down
    same(b.js("return [...document.querySelectorAll('#clash-list button')].indexOf(document.activeElement)"), 1)
    b.driver.switch_to.active_element.send_keys("\ue007")  # enter
    same(b.js("return page.state.marked.size"), 2)
    same(b.js("return [...document.querySelectorAll('#clash-list button')].indexOf(document.activeElement)"), 1)
    case.reset()


USED = {
    "button",
    "combobox",
    "textbox",
    "searchbox",
    "checkbox",
    "slider",
    "spinbutton",
    "tab",
    "tabpanel",
    "link",
    "application",
    "progressbar",
}


def names(case: Case) -> None:
    """Whatever can be used has a name in the browser's own accessibility tree, in each tab and in a topic."""
    b = case.browser
    roles = set()
    for tab in ("topics", "rules", "versions", "clashes"):
        b.click(f"#tab-{tab}")
        for node in b.driver.execute_cdp_cmd("Accessibility.getFullAXTree", {})["nodes"]:
            if not node.get("ignored"):
                roles.add((node.get("role", {}).get("value"), node.get("name", {}).get("value", "").strip()))
    same(sorted(role for role, name in roles if role in USED and not name), [])
    wanted = {("tab", "Rules"), ("button", "Measure"), ("combobox", "Version"), ("toolbar", "Tools of the view")}
    wanted |= {
        ("button", "Hide: Wall"),
        ("slider", "Section across X"),
        ("application", "View"),
        ("spinbutton", "Rule 1: mm"),
    }
    same(wanted - roles, set())


def dark(case: Case) -> None:
    """With a dark system both the page and the picture are dark, and texts can be read on them."""
    b = case.browser
    case.reset()
    light = b.picture().getpixel((2, 2))
    contrast = """
        const part = c => { c /= 255; return c <= 0.03928 ? c / 12.92 : ((c + 0.055) / 1.055) ** 2.4; };
        const lum = s => { const [r, g, b] = s.match(/\\d+/g).map(Number).map(part); return 0.2126 * r + 0.7152 * g + 0.0722 * b; };
        const back = lum(getComputedStyle(document.body).backgroundColor);
        return ['body', '.soft', '.word-new', '.word-kept', '.word-gone'].map(s => { const l = lum(getComputedStyle(document.querySelector(s)).color);
            return (Math.max(l, back) + 0.05) / (Math.min(l, back) + 0.05); })"""
    ratios = b.js(contrast)
    b.driver.execute_cdp_cmd(
        "Emulation.setEmulatedMedia", {"features": [{"name": "prefers-color-scheme", "value": "dark"}]}
    )
    b.until("page.view.scene.background[0] < 0.3")
    ratios += b.js(contrast)
    night = b.picture().getpixel((2, 2))
    b.driver.execute_cdp_cmd("Emulation.setEmulatedMedia", {"features": []})
    b.until("page.view.scene.background[0] > 0.7")
    same([sum(light) > 600, sum(night) < 200], [True, True])
    same([r for r in ratios if r < 4.5], [])


INLINE = """
    const s = document.createElement('script'); s.textContent = 'window.broken = 1'; document.body.append(s);
    const d = document.createElement('div'); d.innerHTML = '<b style="color:red" onclick="window.broken=1">x</b>'; document.body.append(d);
    d.firstChild.click(); const red = getComputedStyle(d.firstChild).color === 'rgb(255, 0, 0)'; d.remove(); s.remove();
    return [window.broken === undefined, red]"""


def policy(case: Case) -> None:
    """Only this host is asked, and no script or style that stands in the page runs."""
    b = case.browser
    hosts = b.js("return [...new Set(performance.getEntriesByType('resource').map(e => new URL(e.name).host))]")
    same(hosts, [case.address.split("/")[2]])
    same(b.console(), [])
    same(b.js(INLINE), [True, False])
    lines = b.console()
    same([len(lines) > 0, [line for line in lines if "Content Security Policy" not in line]], [True, []])
    link = http.client.HTTPConnection("127.0.0.1", case.stage.port)
    link.request("GET", "/")
    header = link.getresponse().getheader("Content-Security-Policy", "")
    link.close()
    same([part in header for part in ("default-src 'none'", "script-src 'self'", "frame-ancestors 'none'")], [True] * 3)


def own_policy(case: Case) -> None:
    """The page keeps its policy also where the front sends none."""
    fake = Fake(case.page, Model(1), 204)
    try:
        case.browser.open(fake.address)
        case.ready()
        same(case.browser.console(), [])
        same(case.browser.js(INLINE), [True, False])
        case.browser.console()
    finally:
        fake.stop()
    case.browser.open(case.address)
    case.ready()


def signed_in(case: Case) -> None:
    """Where a front says who has signed in, the page shows that name and sends none; else it sends the one of its field."""
    b = case.browser
    field = """const f = document.getElementById('user');
        return [f.previousElementSibling.textContent, f.value, f.readOnly, f.labels[0].textContent.trim()]"""
    for user, wanted, named in (
        ("Jörg Ω", ["Signed in as", "Jörg Ω", True, "Signed in as"], {None}),
        ("", ["Your name", "eva", False, "Your name"], {None, "eva"}),
    ):
        fake = Fake(case.page, Model(1), 204, user)
        try:
            b.open(fake.address)
            case.ready()
            b.js("localStorage.setItem('user', 'eva')")
            fake.named.clear()
            b.open(fake.address)
            case.ready()
            same(b.js(field), wanted)
            same(fake.named, named)
            b.choose("#language", "de")
            same(b.js(field)[0], "Angemeldet als" if user else "Ihr Name")
            b.choose("#language", "en")
            same(b.console(), [])
        finally:
            fake.stop()
    b.open(case.address)
    case.ready()


def newer(case: Case) -> None:
    """A version that another made is offered, and opened at a press."""
    b = case.browser
    made = case.stage.put_rules([{"a": "*", "b": "*", "distance": 0, "models": "other"}])["version"]
    b.until("!document.getElementById('newer').hidden", 15)
    b.click("#newer")
    b.until(f"page.state.version === {made} && page.state.loadingClashes === ''")


def console(case: Case) -> None:
    """All that was done since has left no line on the console."""
    same(case.browser.console(), [])


ROWS: Rows = [
    ("English and German", languages),
    ("no text is missing", used_texts),
    ("keyboard", keyboard),
    ("names for a screen reader", names),
    ("light and dark", dark),
    ("a strict content policy", policy),
    ("the page's own policy", own_policy),
    ("who has signed in", signed_in),
    ("a newer version is offered", newer),
    ("no line on the console", console),
]
