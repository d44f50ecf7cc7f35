#!/usr/bin/env python3
"""test_fuzz_captures: the captures of fuzz_captures tell a wrong reading from the right one, and a run of it tells a
wrong program.

    tests/test_fuzz_captures.py [TEST ..]

Each wrong reading is build/reference.py with one change: a limit off by one, two faults in the other order, a rule
of JSON left out.
"""
import pathlib
import subprocess
import tempfile
import types
import unittest

from folders import BUILD, CHECKS

import reference
from fuzzing import cases, limits

SEED, MOST_CASES = 3, 12000
WRONG = [
    # limits
    ("capture.get(name), 1, 16384)", "capture.get(name), 1, 16383)"),
    ("capture.get(name), 1, 16384)", "capture.get(name), 1, 16385)"),
    ("capture.get(name), 1, 16384)", "capture.get(name), 0, 16384)"),
    ('capture.get("version"), 1, 3)', 'capture.get("version"), 1, 4)'),
    ('capture.get("version"), 1, 3)', 'capture.get("version"), 0, 3)'),
    ('capture.get("version"), 1, 3)', 'capture.get("version"), 1, 2)'),
    ("whole(n, 0, 255)", "whole(n, 0, 256)"),
    ("whole(n, 0, 255)", "whole(n, -1, 255)"),
    ("whole(n, 0, 255)", "whole(n, 1, 255)"),
    (
        'and all(whole(value.get(name), -(2**30), 2**30) for name in "xy")',
        'and all(whole(value.get(name), -(2**30), 2**30 + 1) for name in "xy")',
    ),
    (
        'and all(whole(value.get(name), -(2**30), 2**30) for name in "xy")',
        'and all(whole(value.get(name), -(2**30), 2**30 - 1) for name in "xy")',
    ),
    (
        'and all(whole(value.get(name), -(2**30), 2**30) for name in "xy")',
        'and all(whole(value.get(name), -(2**30) - 1, 2**30) for name in "xy")',
    ),
    (
        'and all(whole(n, -(2**31), 2**31 - 1) for n in e["rect"]),',
        'and all(whole(n, -(2**31), 2**31) for n in e["rect"]),',
    ),
    (
        'and all(whole(n, -(2**31), 2**31 - 1) for n in e["rect"]),',
        'and all(whole(n, -(2**31) - 1, 2**31 - 1) for n in e["rect"]),',
    ),
    (
        'and all(whole(n, -(2**31), 2**31 - 1) for n in e["rect"]),',
        'and all(whole(n, -(2**31), 2**31 - 2) for n in e["rect"]),',
    ),
    ('e.get("mask"), 0, 15)', 'e.get("mask"), 0, 16)'),
    ('e.get("depth"), 0, 65535)', 'e.get("depth"), 0, 65536)'),
    ('value.get("z"), 0, 65535)', 'value.get("z"), 0, 65536)'),
    ("len(vertices) - 1)", "len(vertices))"),
    ("len(vertices) - 1)", "len(vertices) - 2)"),
    ("and len(name.encode()) <= 64", "and len(name.encode()) <= 65"),
    ("and len(name.encode()) <= 64", "and len(name.encode()) <= 63"),
    ("len(name.encode())", "len(name)"),
    ('character < " "', 'character <= " "'),
    ('character < " "', 'character < "\\x1f"'),
    (' or character == "\\x7f"', ""),
    ("<= 127 else", "<= 126 else"),
    ("<= 127 else", "<= 128 else"),
    # the order of faults, and which event is named
    ("return 4, FAULTS[4]", "return 5, FAULTS[5]"),
    ("return 3, FAULTS[3]\n    if not whole(capture", "return 4, FAULTS[4]\n    if not whole(capture"),
    ('if e["kind"] not in KINDS', 'if isinstance(e["kind"], list)'),
    ("        return 8\n    if e", "        return 7\n    if e"),
    ('enumerate(capture["events"], 1)', 'enumerate(capture["events"], 0)'),
    ('in enumerate(capture["events"], 1)', 'in reversed(list(enumerate(capture["events"], 1)))'),
    (' or version == 1 and e["kind"] in SINCE_VERSION_2', ""),
    ('not isinstance(e, dict) or', ""),
    # members
    ('f[-6:] != "_COLOR"', 'f != "SRC_COLOR"'),
    ('e.get("indices", [])', 'e.get("indices") or []'),
    ("len(value) == 4", "len(value) >= 4"),
    ("len(value) == 3", "len(value) >= 3"),
    ('len(e["rect"]) == 4', 'len(e["rect"]) >= 4'),
    ("isinstance(e.get(name), bool)", 'type(e.get(name)) in (bool, int)'),
    ("version == 1 or whole", "whole"),
    ('"none", "front", "back")', '"none", "front", "back", "")'),
    # pictures
    ("0, 16383)", "0, 16384)"),
    ("0, 16383)", "0, 16382)"),
    ("0, 16383)", "-1, 16383)"),
    ('"texels"), 4 * texels)', '"texels"), 3 * texels)'),
    ("len(value) == -(-length // 3) * 4 and len(bytes_of(value) or b\"\") == length", "bytes_of(value) is not None"),
    ("data if base64.b64encode(data).decode() == text else None", "data"),
    ("-(-texels // 8)", "texels // 8"),
    ('"holes" not in value or', ""),
    ('"holes" not in value', 'value.get("holes") is None'),
    ('version == 3 and e.get("interp")', 'version > 1 and e.get("interp")'),
    ("(painted or is_color", "(is_color"),
    ("is_picture(e.get(\"picture\")) if painted", "True if painted"),
    ("return type(value) is int and", "return type(value) in (int, bool) and"),
    ("    return dict(members)", "    return dict(reversed(members))"),
    # JSON
    (' and text != "-0"', ""),
    ("if math.isinf(float(text)):", "if math.isinf(float(text)) and text[0] != '-':"),
    ("int(text) if", "int(float(text)) if not math.isfinite(1) or float(text) == int(float(text)) else 0.5 if"),
    ("        check_texts(name)\n", ""),
    ("        check_texts(value)\n", ""),
    ("return check_texts(value) if", "return value if"),
    ("parse_constant=no_json, ", ""),
    ('data.decode("utf-8")', 'data.decode("utf-8-sig")'),
    ('data.decode("utf-8")', 'data.decode("utf-8", "replace")'),
    ('data.decode("utf-8")', 'data.decode("utf-8").strip()'),
    (
        "text, parse_constant=no_json, parse_int=number_of, parse_float=number_of, object_pairs_hook=object_of",
        "text,\n        strict=False,\n        parse_constant=no_json,\n        parse_int=number_of,\n        "
        "parse_float=number_of,\n        object_pairs_hook=object_of,",
    ),
]


WRONG_WHERE_LONG = [
    (limits.of_bytes, 67108864, "len(data) > 67108864", "len(data) >= 67108864"),
    (limits.of_bytes, 67108865, "len(data) > 67108864", "len(data) > 67108865"),
    (limits.of_events, 1000000, 'len(capture["events"]) > 1000000', 'len(capture["events"]) >= 1000000'),
    (limits.of_events, 1000001, 'len(capture["events"]) > 1000000', 'len(capture["events"]) > 1000001'),
    (limits.of_indices, 196608, "len(list_) <= 196608", "len(list_) < 196608"),
    (limits.of_indices, 196609, "len(list_) <= 196608", "len(list_) <= 196609"),
]


def reading(old, new):
    """What build/reference.py would say of captures with a piece of it exchanged."""
    source = (BUILD / "reference.py").read_text()
    assert source.count(old) >= 1, old
    module = types.ModuleType("wrong")
    exec(compile(source.replace(old, new, 1), "wrong", "exec"), module.__dict__)
    return module.fault


def answered(fault, data):
    try:
        return fault(data)
    except Exception as raised:  # a wrong reading may fail in any way
        return raised


class Readings(unittest.TestCase):
    def test_the_seeds_are_accepted(self):
        for seed in cases.SEEDS:
            self.assertIsNone(reference.fault(seed.encode()), seed)

    def test_each_wrong_reading_is_seen(self):
        unseen = {(old, new): reading(old, new) for old, new in WRONG}
        for number in range(MOST_CASES):
            data = cases.case(SEED, number)
            right = reference.fault(data)
            unseen = {change: fault for change, fault in unseen.items() if answered(fault, data) == right}
            if not unseen:
                return
        self.fail(f"not seen: {list(unseen)}")

    def test_wrong_readings_of_long_captures_are_seen(self):
        for make, count, old, new in WRONG_WHERE_LONG:
            self.assertIn((make, count), limits.CASES)
            data = make(count).encode()
            self.assertNotEqual(reading(old, new)(data), reference.fault(data), f"{old} -> {new}")


class Runs(unittest.TestCase):
    def run_of(self, body, count):
        """Status and output of a run of the tool over a program that is a script."""
        with tempfile.TemporaryDirectory() as folder:
            program, kept = pathlib.Path(folder) / "program", pathlib.Path(folder) / "kept"
            program.write_text(f"#!/bin/sh\n{body}\n")
            program.chmod(0o755)
            options = ["--count", str(count), "--seed", "1", "--program", program, "--keep", kept, "--workers", "1"]
            ran = subprocess.run([CHECKS / "fuzz_captures", *options], capture_output=True, text=True)
            return (
                ran.returncode,
                ran.stdout,
                {path.name: path.read_bytes() for path in kept.glob("*")} if kept.exists() else {},
            )

    def test_a_wrong_program_is_seen(self):
        for body in ["exit 0", 'echo "framedbg: capture refused 2 not json" >&2; exit 2', "exit 5", "kill -SEGV $$"]:
            status, printed, kept = self.run_of(body, 20)
            self.assertEqual(status, 1, printed)
            self.assertTrue(0 < len(kept) <= 10)
            for name, data in kept.items():
                self.assertEqual(data, cases.case(1, int(name.removeprefix("1-").removesuffix(".json"))))

    def test_the_seed_is_told_and_makes_the_same(self):
        self.assertIn("of seed 1\n", self.run_of("exit 0", 1)[1])
        self.assertEqual(
            [cases.case(7, number) for number in range(50)], [cases.case(7, number) for number in range(50)]
        )
        self.assertNotEqual(cases.case(7, 0), cases.case(8, 0))


if __name__ == "__main__":
    unittest.main()
