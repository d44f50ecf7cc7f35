#!/usr/bin/env python3
"""d3d11_mutations: wrong versions of play_d3d11.exe and of what it is compared with, each of which the tests must see.

Each is a copy with one text exchanged, and the test that has to fail on it, and to pass on what is there. They want Wine and a compiler for Windows.
"""
import folders

from wine_testing import missing
from wrong_versions import Version, try_all

MUTATIONS = [
    ("drawing: front faces turned", "drawing.c", ".FrontCounterClockwise = event->front_ccw", ".FrontCounterClockwise = !event->front_ccw",
     "Compared.test_examples"),
    ("drawing: y upwards", "drawing.c", "card->reach ? -y / card->reach : 1 - 2 * y / card->height",
     "card->reach ? y / card->reach : 2 * y / card->height - 1", "Compared.test_examples"),
    ("drawing: masks ignored", "drawing.c", "(UINT8)event->mask}", "15}", "Compared.test_examples"),
    ("capture: snapped down", "capture.c", "return low + (rest > 128 || (rest == 128 && (low & 1)));", "return low + 0 * (rest > 128);", "Compared.test_scenes"),
    ("capture: indices out of bounds", "capture.c", "whole(each, 0, vertices->count - 1)", "whole(each, 0, INT32_MAX)", "Refused.test_captures"),
    ("json: numbers with a point", "json.c", "if (*end == '.' || *end == 'e' || *end == 'E')", "if (0)", "Refused.test_captures"),
    ("comparing: nothing is mended", "comparing.c", "if (event->kind == DRAW && !is_running)", "if (0 && is_running)", "Compared.test_each_draw_alone"),
    ("comparing: depths that are off by 1 are mended", "comparing.c", "pictures->before.depths[pixel]) > 1)", "pictures->before.depths[pixel]) > 0)",
     "Compared.test_scenes"),
    ("comparing: off by 1, whatever it is", "comparing.c", "return sum.most > 1 || sum.most_depth > 1 ? MORE : ", "return ",
     "Compared.test_a_planted_shift"),
    ("comparing: quiet tells all", "comparing.c", "if (!is_alike(&counts) && !how->is_quiet)", "if (!is_alike(&counts))", "Compared.test_a_planted_shift"),
    ("rules: a file that is cut", "rules.c", "(unsigned)size) != (int)size)", "(unsigned)size) < 0)", "Refused.test_rules"),
    ("rules: a file of another size", "rules.c", "if (width != capture->width ||", "if ((0 && width != capture->width) ||", "Refused.test_rules"),
    ("files: bytes of depth exchanged", "play_d3d11.c", "fputc(picture->depths[i] >> 8, file);\n            fputc(picture->depths[i] & 255, file);",
     "fputc(picture->depths[i] & 255, file);\n            fputc(picture->depths[i] >> 8, file);", "Files.test_pictures"),
    ("files: what is right as it is", "tools/driving/rules.py", "            before, deep_before = image, deep\n", "", "Files.test_what_is_right"),
    ("shaders: another checksum", "build/direct3d_shaders.py", "(len(data) * 2) | 1", "len(data) * 2", "Built.test_shaders"),
]


if __name__ == "__main__":
    why = missing() or ""
    try_all(__doc__, [Version(name, file if "/" in file else f"tools/direct3d/{file}", text, instead, "test_d3d11.py", test, why)
                      for name, file, text, instead, test in MUTATIONS])
