#!/usr/bin/env python3
"""rules_mutations: wrong versions of the rules of drawing that the tools share, each of which the tests must see.

Each is a copy with one text exchanged, and the test that has to fail on it, and to pass on what is there.
"""
import folders

from wrong_versions import Version, try_all

MUTATIONS = [   # name, file, text, what stands there instead, test
    ("snapping: ties up", "snapping.py", "rest == 128 and quotient & 1", "rest == 128", "Snapping.test_by_hand"),
    ("snapping: ties down", "snapping.py", "rest > 128 or rest == 128 and quotient & 1", "rest > 128", "Snapping.test_beside_the_reference"),
    ("snapping: a vertex's own x for its y", "snapping.py", 'snap(vertex["y"])', 'snap(vertex["x"])', "Snapping.test_vertices"),
    ("coverage: centres are corners", "coverage.py", "256 * y + CENTRE", "256 * y", "Coverage.test_centres_and_areas"),
    ("coverage: areas of the other sign", "coverage.py", "(b[0] - a[0]) * (c[1] - a[1]) - (b[1] - a[1]) * (c[0] - a[0])",
     "(b[1] - a[1]) * (c[0] - a[0]) - (b[0] - a[0]) * (c[1] - a[1])", "Coverage.test_centres_and_areas"),
    ("coverage: lower right", "coverage.py", "v[1] < u[1] or v[1] == u[1] and v[0] > u[0]", "v[1] > u[1] or v[1] == u[1] and v[0] < u[0]",
     "Coverage.test_what_lies_on_an_edge"),
    ("coverage: the lower edge too", "coverage.py", "v[1] == u[1] and v[0] > u[0]", "v[1] == u[1]", "Coverage.test_what_lies_on_an_edge"),
    ("culling: the other face", "coverage.py", '(raster["cull"] == "front")', '(raster["cull"] == "back")', "Coverage.test_what_is_culled"),
    ("culling: the front is always the same", "coverage.py", ' != raster["front_ccw"]', "", "Coverage.test_what_is_culled"),
    ("culling: none is all that is behind", "coverage.py", 'None if raster["cull"] == "none" else ', "", "Coverage.test_what_is_culled"),
    ("shading: the smaller of two halves", "shading.py", "(2 * rest >= whole)", "(2 * rest > whole)", "Shading.test_means"),
    ("shading: rounded down along a row", "shading.py", "2 * total + whole, 2 * whole", "2 * total, 2 * whole", "Shading.test_a_row_of_them"),
    ("shading: half a step along a row", "shading.py", "2 * i * step", "i * step", "Shading.test_a_row_of_them"),
    ("depth: EQUAL passes what is less", "depth.py", '"EQUAL": operator.eq', '"EQUAL": operator.le', "Depth"),
    ("blending: rounded down", "blending.py", "WHOLE) + HALF) // 255", "WHOLE)) // 255", "Blending.test_beside_the_reference"),
    ("blending: subtracts the other way round", "blending.py", 'own - was if operation == "SUBTRACT" else was - own',
     'was - own if operation == "SUBTRACT" else own - was', "Blending.test_beside_the_reference"),
    ("blending: the mask is that of all channels", "blending.py", "if not self.mask >> channel & 1:", "if not self.mask:", "Blending.test_beside_the_reference"),
    ("blending: what is known is so for any factor", "blending.py", '*blend["alpha"], *factor)', '*blend["alpha"], *(255,) * 4)',
     "Blending.test_factors_and_masks_are_kept_apart"),
    ("states: front faces run the other way at the start", "states.py", "captures.raster()", "captures.raster(front_ccw=True)", "States.test_at_the_start"),
    ("states: an event sets its own state", "states.py", "bisect.bisect_left(numbers, number) - 1", "bisect.bisect_right(numbers, number) - 1", "States.test_setters"),
    ("states: the last of any kind", "states.py", "if other == kind]", "if True]", "States.test_setters"),
    ("states: what is off sets a state", "states.py", "if is_on is None or is_on(numbers[at]):", "if True:", "States.test_setters_that_are_off"),
]


if __name__ == "__main__":
    try_all(__doc__, [Version(name, f"tools/rules/{file}", old, new, "test_rules.py", test) for name, file, old, new, test in MUTATIONS])
