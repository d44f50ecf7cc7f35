"""A client of framedbg for scripts: it starts `framedbg run`, asks, and gives what is replied as values.
docs/CLIENTS.md shows it at work."""
from .client import Client, Refusal
from .connection import Ended
from .image import Fault, Image, read_pam
from .program import find_program
from .replies import (
    At,
    Bad,
    Bye,
    Colour,
    Depths,
    DepthState,
    Entry,
    Event,
    Events,
    Garbled,
    History,
    Pixel,
    Refused,
    Reply,
    State,
    Stopped,
)

__all__ = [
    "At",
    "Bad",
    "Bye",
    "Client",
    "Colour",
    "DepthState",
    "Depths",
    "Ended",
    "Entry",
    "Event",
    "Events",
    "Fault",
    "Garbled",
    "History",
    "Image",
    "Pixel",
    "Refusal",
    "Refused",
    "Reply",
    "State",
    "Stopped",
    "find_program",
    "read_pam",
]
