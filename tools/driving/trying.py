"""try: scenes of one feature each, drawn by framedbg and by the driver; a table of what is alike."""
import argparse
import collections
import json
import pathlib
import time
from collections.abc import Iterable, Sequence
from dataclasses import dataclass, field
from typing import Any

from writing.counting import counted as counted_as

from . import junit, plants, reading
from .driver import line_of, player_of
from .exact import Exact, program_of
from .faults import ALIKE, DIFFERS, Fault
from .features import FEATURES, UNSNAPPED, WHOLE, scene
from .judging import Judge, Judgement
from .kinds import Counts, Kind, counted, is_beyond, is_fault
from .scenes import SIDE

COLUMNS = {  # of the table: what they have, and the kinds that are counted there
    "coverage": (Kind.COVERAGE,),
    "state": (Kind.CULL, Kind.SCISSOR),
    "by 1": (Kind.BY_1,),
    "adds up": (Kind.ADDS_UP,),
    "by more": (Kind.BY_2, Kind.BY_MORE),
    "test": (Kind.DEPTH_TEST,),
    "tie": (Kind.DEPTH_TIE,),
    "depth by 1": (Kind.DEPTH_BY_1,),
    "by more ": (Kind.DEPTH_BY_MORE,),
}
PROBES, PROBE_SCENES = ("subpixels", "shared edges"), 3  # by which the bits of a pixel's fraction are found out
FEWER_BITS = 4
MOST_BITS = 8


@dataclass
class Row:
    """What came of a feature."""

    name: str
    pixels: int = 0
    seconds: float = 0.0
    counts: Counts = field(default_factory=collections.Counter)
    left_open: int = 0  # pixels beyond rounding, and those of them that OpenGL leaves to its drivers
    beyond: int = 0

    def note(self, one: Judgement, tolerance: int) -> None:
        self.pixels += one.changed
        self.counts += one.counts
        beyond = [pixel for pixel in one.found if is_beyond(pixel.kind, tolerance)]
        self.beyond += len(beyond)
        self.left_open += sum(pixel.is_left_open for pixel in beyond)

    @property
    def verdict(self) -> str:
        return "differs" if self.beyond else "within 1" if +self.counts else "exact"

    @property
    def breaks(self) -> str:
        """Whose rules it breaks: those of Direct3D, or of OpenGL too."""
        return "" if not self.beyond else "Direct3D" if self.left_open == self.beyond else "both"


def run(given: argparse.Namespace) -> int:
    if given.features:
        print("\n".join(FEATURES))
        return ALIKE
    if given.scene is not None:
        print(scene_text(given.scene, given.bits or MOST_BITS))
        return ALIKE
    names = [name for name in FEATURES if not given.only or name.startswith(tuple(given.only))]
    if not names:
        raise Fault("no feature's name begins so: framedbg-driver try --features names them")
    return tried(given, Trial(given, program_of(given.program)), names)


def scene_text(words: str, bits: int) -> str:
    name, _, seed = words.rpartition(" ")
    if name not in FEATURES or not (seed.isascii() and seed.isdigit() and len(seed) < 10):
        raise Fault("a scene is a feature and a number, as in --scene 'linear 7'; --features names the features")
    return json.dumps(scene(name, int(seed), bits))


def tried(given: argparse.Namespace, trial: "Trial", names: Iterable[str]) -> int:
    began, driver, bits = time.monotonic(), trial.player.named(), given.bits or trial.bits()
    if not given.json:
        print(f"{line_of(driver)}; corners on {bits} bits, {counted_as(given.scenes, 'scene')} of each feature")
        print(heading(), flush=True)
    rows = []
    for name in names:
        rows.append(
            trial.row(name, range(given.seed, given.seed + (1 if name.startswith(WHOLE) else given.scenes)), bits)
        )
        if not given.json:
            print(line(rows[-1]), flush=True)
    seconds = time.monotonic() - began
    print(json.dumps(value_of(driver, bits, rows, seconds), indent=1) if given.json else closing(rows, seconds))
    if given.junit:
        reading.write(
            given.junit,
            junit.text_of(f"features of {driver['renderer']}", [case_of(row, given.tolerance) for row in rows]),
        )
    return DIFFERS if any(is_fault(kind, given.tolerance) for row in rows for kind in +row.counts) else ALIKE


class Trial:
    """The driver and framedbg, for scenes one after the other."""

    def __init__(self, given: argparse.Namespace, program: str) -> None:
        self.given, self.program = given, program
        self.player, self.change = player_of(given, SIDE, SIDE), plants.change_of(given.plant)

    def bits(self) -> int:
        """8 bits of a pixel's fraction, or 4 where those alone are covered exactly: what a driver says of them isn't
        to be believed."""
        for bits in (MOST_BITS, FEWER_BITS):
            rows = [self.row(name, range(1, 1 + PROBE_SCENES), bits, is_probe=True) for name in PROBES]
            if not any(row.counts[Kind.COVERAGE] for row in rows):
                return bits
        return MOST_BITS

    def row(self, name: str, seeds: Iterable[int], bits: int, is_probe: bool = False) -> Row:
        began, row, is_kept = time.monotonic(), Row(name), is_probe or not self.given.write
        self.player.is_raw = self.given.raw or name in UNSNAPPED
        for seed in seeds:
            capture = scene(name, seed, bits)
            self.player.resize(capture["width"], capture["height"])
            with Exact(self.program, capture) as exact:
                for one in Judge(exact, self.player, capture, self.change):
                    row.note(one, self.given.tolerance)
            if row.beyond and not is_kept:
                is_kept = True
                self.keep(f"{name.replace(' ', '_').replace(',', '')}_{seed}.json", capture)
        row.seconds = time.monotonic() - began
        return row

    def keep(self, name: str, capture: dict[str, Any]) -> None:
        try:
            self.given.write.mkdir(parents=True, exist_ok=True)
        except OSError as fault:
            raise Fault(f"{self.given.write}: {fault.strerror}") from None
        reading.write(pathlib.Path(self.given.write, name), json.dumps(capture))


# ---- What is told
def heading() -> str:
    return f"{'feature':33}{'pixels':>9}" + "".join(f"{column:>11}" for column in COLUMNS) + "  verdict   breaks"


def line(row: Row) -> str:
    cells = [sum(row.counts[kind] for kind in kinds) for kinds in COLUMNS.values()]
    return (
        f"{row.name:33}{row.pixels:9,}"
        + "".join(f"{cell if cell else '.':>11}" for cell in cells)
        + f"  {row.verdict:9} {row.breaks}"
    ).rstrip()


def closing(rows: Sequence[Row], seconds: float) -> str:
    verdicts = [row.verdict for row in rows]
    return (
        f"{counted_as(len(rows), 'feature')}: {verdicts.count('exact')} exact, {verdicts.count('within 1')} within 1, "
        f"{verdicts.count('differs')} differ; {seconds:.0f} s"
    )


def value_of(driver: dict[str, Any], bits: int, rows: Iterable[Row], seconds: float) -> dict[str, Any]:
    features = {
        row.name: {
            "pixels": row.pixels,
            "differ": {kind.value: count for kind, count in counted(row.counts).items()},
            "verdict": row.verdict,
            "breaks": row.breaks or None,
        }
        for row in rows
    }
    return {"driver": driver, "bits": bits, "seconds": round(seconds, 1), "features": features}


def case_of(row: Row, tolerance: int) -> junit.Case:
    is_failed = any(is_fault(kind, tolerance) for kind in +row.counts)
    counts = ", ".join(f"{count:,} {kind}" for kind, count in counted(row.counts).items())
    return junit.Case(
        row.name,
        row.seconds,
        f"{row.verdict}: {counts} of {counted_as(row.pixels, 'pixel')} changed" if is_failed else "",
    )
