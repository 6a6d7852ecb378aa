"""Rows: a topic of a clash, changed, commented, with viewpoints of components."""
from typing import Any

from .case import Case, Rows, same


def first_new(case: Case) -> dict[str, Any]:
    """Chooses the first new clash; its two identifiers."""
    b = case.browser
    b.click("#tab-clashes")
    b.click("#changes .word-new")
    b.js("document.querySelector('#clash-list button').click()")
    guids: list[str] = b.js("return [page.state.clash.a.guid, page.state.clash.b.guid]")
    return {"guids": guids, "title": f"Clash of {guids[0]} and {guids[1]}"}


def made(case: Case) -> None:
    """A topic of a new clash, by the name that was given, with a viewpoint of both elements."""
    b = case.browser
    same(case.topics(), [])
    b.fill("#user", "Jürgen Ω")
    b.js("document.getElementById('user').dispatchEvent(new Event('change'))")
    clash = first_new(case)
    b.click("#make-topic")
    b.until("document.getElementById('topic-form')")
    (topic,) = case.topics()
    same([topic["title"], topic["creation_author"]], [clash["title"], "Jürgen Ω"])
    (view,) = case.topics(f"/{topic['guid']}/viewpoints")
    selection = case.topics(f"/{topic['guid']}/viewpoints/{view['guid']}/selection")["selection"]
    same([c["ifc_guid"] for c in selection], clash["guids"])
    same(b.js("return [...page.state.marked.keys()].map(n => page.state.elements[n].guid)"), clash["guids"])


def is_there(case: Case) -> None:
    """The clash says that it has a topic, and leads to it; none is made twice, even by an older page."""
    b = case.browser
    first_new(case)
    same(len(b.all("#clash-list .badge")), 1)
    same([b.text("#open-topic"), len(b.driver.find_elements("id", "make-topic"))], ["Open topic 1", 0])
    b.click("#open-topic")
    b.until("document.getElementById('topic-form') && !document.getElementById('pane-topics').hidden")
    clash = b.js("return { a: page.state.clash.a, b: page.state.clash.b, version: 4, place: page.state.clash.place }")
    b.later("const t = await import('/topics.js'); page.state.topics = []; await t.topicOfClash(arguments[0])", clash)
    same(len(case.topics()), 1)


def changed(case: Case) -> None:
    """Status, priority, assignee and more are changed; the title too, and the clash still knows its topic."""
    b = case.browser
    values = {"title": "Move the riser", "topic_status": "In progress", "priority": "High", "assigned_to": "Anna"}
    for name, value in values.items():
        b.fill(f"#topic-form [name={name}]", value)
    b.fill("#topic-form [name=labels]", "mep, urgent")
    b.fill("#topic-form [name=description]", "By 50 mm")
    b.js("document.querySelector('#topic-form [name=due_date]').value = '2027-01-31'")
    b.click("#save-topic")
    b.until("page.state.topic.title === 'Move the riser'")
    (topic,) = case.topics()
    wanted = {
        **values,
        "labels": ["mep", "urgent"],
        "description": "By 50 mm",
        "topic_type": "Clash",
        "due_date": "2027-01-31T00:00:00Z",
    }
    same({k: topic.get(k) for k in wanted}, wanted)
    b.open(case.address)
    case.ready()
    b.until("document.querySelectorAll('#clash-list .badge').length === 1")
    b.click("#tab-topics")
    same("In progress, High, Anna" in b.text("#topic-list"), True)


def keeps_the_rest(case: Case) -> None:
    """Members that the form doesn't show stay when it saves."""
    b = case.browser
    made_one = case.stage.call(
        "POST",
        f"/bcf/3.0/projects/{b.js('return page.state.project')}/topics",
        b'{"title":"Other","stage":"Design","index":7}',
    )
    b.later(
        "const t = await import('/topics.js'); await t.load(); await t.openTopic({ guid: arguments[0] })",
        made_one["guid"],
    )
    b.fill("#topic-form [name=priority]", "Low")
    b.click("#save-topic")
    b.until("page.state.topic.priority === 'Low'")
    topic = case.topics(f"/{made_one['guid']}")
    same([topic["stage"], topic["index"], topic["priority"]], ["Design", 7, "Low"])


def commented(case: Case) -> None:
    """A comment, with its author."""
    b = case.browser
    b.fill("#comment", "Please look <b>here</b>")
    b.click("#send-comment")
    b.until("document.querySelectorAll('#comments li').length === 1")
    guid = b.js("return page.state.topic.guid")
    (comment,) = case.topics(f"/{guid}/comments")
    same([comment["comment"], comment["author"]], ["Please look <b>here</b>", "Jürgen Ω"])
    same("Please look <b>here</b>" in b.text("#comments"), True)


def viewpoint(case: Case) -> None:
    """What is shown is kept as components, and comes back."""
    b = case.browser
    case.reset()
    wall = case.fact("End wall east", "First floor")
    b.js(
        """document.querySelectorAll('#groups li').forEach(li => { if (li.querySelector('.name').title === 'IFCSLAB') li.querySelector('button').click() });
        page.state.picked = page.state.byKey.get('arch ' + arguments[0])""",
        wall.guid,
    )
    b.click("#keep-view")
    b.until("document.querySelectorAll('.viewpoint').length === 1")
    guid = b.js("return page.state.topic.guid")
    (view,) = case.topics(f"/{guid}/viewpoints")
    selection = case.topics(f"/{guid}/viewpoints/{view['guid']}/selection")["selection"]
    visibility = case.topics(f"/{guid}/viewpoints/{view['guid']}/visibility")["visibility"]
    slabs = {e.guid for e in case.facts if e.kind == "IFCSLAB"}
    same([c["ifc_guid"] for c in selection], [wall.guid])
    same([visibility["default_visibility"], {c["ifc_guid"] for c in visibility["exceptions"]}], [True, slabs])
    case.reset()
    b.click(".viewpoint")
    b.until("page.state.marked.size === 1")
    same(b.js("return page.state.hidden.size"), len(slabs))
    case.reset()


def of_its_own(case: Case) -> None:
    """A topic that is of no clash; an empty viewpoint list; back to the list."""
    b = case.browser
    b.click("#back")
    b.fill("#pane-topics form input", "Façade")
    b.click("#pane-topics form button")
    b.until("document.getElementById('topic-form') && page.state.topic.title === 'Façade'")
    same([t["title"] for t in case.topics()], ["Move the riser", "Other", "Façade"])
    b.click("#back")
    same(len(b.all("#topic-list li")), 3)
    b.click("#tab-clashes")


ROWS: Rows = [
    ("a topic of a clash", made),
    ("a topic that is there already", is_there),
    ("a topic is changed", changed),
    ("a topic keeps its other members", keeps_the_rest),
    ("a comment", commented),
    ("viewpoints of components", viewpoint),
    ("a topic of its own", of_its_own),
]
