"""--list: EGL's devices."""
import argparse

from . import egl
from .driver import line_of
from .faults import ALIKE, NoDriver
from .player import Player, Way


def run(given: argparse.Namespace) -> int:
    api = getattr(given, "api", "gl")
    count = len(egl.devices(egl.library()))
    if not count:
        raise NoDriver("EGL lists no devices here")
    for number in range(count):
        print(f"{number} {told(api, number)}")
    return ALIKE


def told(api: str, number: int) -> str:
    try:
        player = Player(1, 1, Way(api, number))
    except NoDriver as fault:
        return f"none: {fault}"
    named = player.named()
    player.close()
    return line_of(named)
