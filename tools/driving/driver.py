"""The driver that a command line asks for."""
import argparse
from collections.abc import Mapping
from typing import Any

from .player import Player, Way


def player_of(given: argparse.Namespace, width: int, height: int) -> Player:
    """The driver with a target of a size."""
    player = Player(width, height, Way(given.api, given.device, given.viewport, given.linear, given.convention))
    player.is_raw = given.raw
    return player


def line_of(named: Mapping[str, Any]) -> str:
    return f"{named['renderer']}, {named['version']}, {named['subpixel_bits']} subpixel bits"
