"""Texts of filters and orders as a target spells them, and which of them a list of topics takes."""

from __future__ import annotations

# Each text, with whether it is taken: by the grammar of docs/crates/odata_filter.md.
TEXTS = {
    "filter": {
        "title%20eq%20'x'": True,
        "priority%20eq%20null": True,
        "index%20gt%205": True,
        "due_date%20lt%202025-01-01T00:00:00Z": True,
        "not%20contains(labels,'x')": True,
        "(title%20ne%20'x'%20or%20index%20eq%201)and%20stage%20ne%20null": True,
        "title": False,
        "title%20gt%205": False,
        "x": False,
        "": False,
    },
    "order": {
        "title": True,
        "due_date%20desc,title": True,
        "index%20asc": True,
        "labels": False,
        "title,title,title,title,title": False,
        "": False,
    },
}
CODES = {"filter": "H14", "order": "H15"}
