"""draw: the driver's picture of a capture."""
import argparse
import pathlib
import sys
import zlib

from framedbg_client import Image
from writing import files
from writing.counting import counted

from . import plants
from .driver import player_of
from .faults import ALIKE, READING, Fault
from .player import Player
from .reading import read_capture


def run(given: argparse.Namespace) -> int:
    capture = read_capture(given.capture)
    events = capture["events"]
    if given.at is not None and given.at > len(events):
        has = counted(len(events), "event")
        raise Fault(f"there is no position {given.at}: the capture has {has}")
    player, change = player_of(given, capture["width"], capture["height"]), plants.change_of(given.plant)
    kinds = ["fresh"]
    tell(given, player, kinds)
    size = capture["width"], capture["height"]
    for event in events[: given.at]:
        player.apply(change(event))
        kinds.append(event["kind"])
        tell(given, player, kinds)
        if given.pictures:
            keep(given.pictures, len(kinds) - 1, Image(*size, player.colours()))
    player.check()
    if not given.each and not given.pictures:
        sys.stdout.buffer.write(Image(*size, player.colours()).pam())
        sys.stdout.buffer.flush()
    return ALIKE


def keep(folder: pathlib.Path, number: int, image: Image) -> None:
    """The picture after an event, named by it: framedbg-blame judges each of them alone."""
    try:
        folder.mkdir(parents=True, exist_ok=True)
        files.keep(pathlib.Path(folder, f"{number}.pam"), image.pam())
    except OSError as fault:
        raise Fault(f"{folder}: {fault.strerror}", READING) from None


def tell(given: argparse.Namespace, player: Player, kinds: list[str]) -> None:
    if given.each:
        print(
            len(kinds) - 1,
            kinds[-1],
            f"{zlib.crc32(player.colours()):08x}",
            f"{zlib.crc32(player.depths().tobytes()):08x}",
        )
