"""Whether a draw paints each pixel of the target anew, so that nothing which lay there before shows after it."""
from rules.snapping import snap

from .raster import Triangle
from .records import DrawRecord
from .states import State


def replaces(state: State) -> bool:
    """Whether it shows wherever its triangles are, and nothing of what was there."""
    is_tested = state.depth["enable"] and state.depth["func"] != "ALWAYS"
    return not (state.blend["enable"] or state.blend["mask"] != 15 or state.discards or is_tested)


def paints_all(record: DrawRecord, width: int, height: int) -> bool:
    if not (record.after and replaces(record.state)):
        return False
    rows = [0] * height
    for _, corners in record.shapes:
        shape = Triangle([(snap(x), snap(y)) for x, y, _ in corners])
        if not shape.is_culled(record.state.raster):
            for y, x0, x1 in shape.spans(width, height, record.state.rectangle()):
                rows[y] |= (1 << x1) - (1 << x0)
    return all(row == (1 << width) - 1 for row in rows)
