"""What to do about the codes that the server answers."""

from __future__ import annotations

from .errors import Refused

HINTS = {
    "U1": "this is no IFC file (ISO 10303-21): export the model as IFC",
    "U2": "the file is broken at that place: export it anew",
    "U3": "the file is broken or cut off at that place: export it anew",
    "U4": "the schema has to be IFC4: export the model as IFC4, or convert it by ifc2grid",
    "U5": "two instances have one number: export the model anew",
    "U6": "it refers to an instance that isn't there: export the model anew",
    "U7": "an attribute hasn't the form that IFC4 gives it: export the model anew",
    "U8": "the project needs one length unit: the metre, also with a prefix, the inch or the foot",
    "U9": "a length lies between two tenths of a millimetre: add --grid snap",
    "U10": "the model lies over 800 m from zero: export it near its own origin",
    "U11": "it is turned by other than quarter turns: convert the file by ifc2grid",
    "U12": "its placements refer to each other in a ring: export the model anew",
    "U13": "only face sets are taken: export as IFC4 Reference View, or convert by ifc2grid",
    "U14": "a face names a point that isn't there: export the model anew",
    "U15": "a face can't be cut into triangles: convert the file by ifc2grid",
    "U16": "the holes of a face can't be joined to its outline: convert the file by ifc2grid",
    "U17": "two elements have one GlobalId: mend it in the authoring program",
    "U18": "an object stands in two storeys or wholes: mend it in the authoring program",
    "U19": "the file is too large: split it, by storey or by discipline",
    "C1": "a member of the rule is missing or isn't what it may be: yulfrets rules check FILE",
    "C2": "a project has at most 200 rules",
    "C3": "a distance is a whole number of millimetres, 0 to 1000",
    "K1": "the server has no such project: yulfrets projects",
    "K2": "the project has no such model: yulfrets versions",
    "K3": "there is no such version yet: yulfrets versions",
    "K4": "the last 16 versions are kept: yulfrets versions",
    "K6": "the server's store is full until it is started anew: ask who runs it",
    "K7": "a project has at most 100,000 elements: take a model out or split the project",
    "K8": "the elements are too large or too many for their space: split the project",
    "K9": "the server's journal is full until it is started anew: ask who runs it",
    "K12": "the version has no clash at that place: yulfrets clashes",
    "K13": "the server hasn't come to that turn: ask again later",
    "B5": "the server has 10,000 topics: delete some",
    "B6": "the server has 100,000 comments: delete some",
    "B9": "the server has 20,000 viewpoints: delete some",
    "H4": "the body is too large",
    "M1": "the server is out of memory: try again later, or ask who runs it",
}


def with_hint(fault: Refused) -> Refused:
    """The failure with what to do about its code, where nothing was said."""
    if not fault.hint:
        fault.hint = HINTS.get(fault.code, "")
    return fault
