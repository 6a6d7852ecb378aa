"""What an upload makes, read anew in plain Python from the profile's own text (docs/API.md): the
elements of a model, or the fault of its file. Numbers are whole or fractions, never floats.

    tokens, statements   Part 21: the bytes as instances
    attributes           which instances are used, and the form of their attributes
    lengths              the length unit, and the grid of tenths of a millimetre
    tree                 storeys
    frames, placing      axes, placements and operators
    polygons, faces      faces as triangles
    building             the faults in their order, and the elements
"""

from tests.oracle.model_file.building import Element, build

__all__ = ["Element", "build"]
