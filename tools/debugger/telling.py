"""How things are told: plainly, one fact a line in framedbg's own words, or laid out for a reader, with colours
where the terminal has them.

Each call gives lines.
"""
from collections.abc import Sequence

from captures import STATES
from framedbg_client import Bad, Entry, Refused, Reply, State

from .frame import Change, DebuggedFrame

Parts = list[tuple[str, str, int | None]]  # of a state, each in words, and the event that set it
CHANNELS = "RGBA"


def printable(text: str) -> str:
    """Without what a terminal might obey: a capture is somebody else's file."""
    return (
        text
        if text.isprintable()
        else "".join(c if c.isprintable() else c.encode("unicode_escape").decode() for c in text)
    )


def state_parts(frame: DebuggedFrame, state: State) -> Parts:
    """The parts of a state in the words of the events that set them, each with the event that did, or None."""
    truth = lambda flag: str(int(flag))
    told = {
        "raster": f"{state.cull} {truth(state.front_ccw)} {truth(state.scissor)}",
        "scissor": " ".join(map(str, state.rect)),
        "blend": f"{truth(state.blend)} {' '.join(state.rgb)} {' '.join(state.alpha)} {state.mask}",
        "factor": str(state.factor),
    }
    if state.depth:
        told["depth"] = f"{truth(state.depth.enable)} {truth(state.depth.write)} {state.depth.func}"
    return [(part, told[part], frame.setter(part, frame.position)) for part in STATES if part in told]


def set_by(event: int | None) -> str:
    return f"set by {event}" if event else "as at the start"


def letters(mask: int) -> str:
    return "".join(letter for bit, letter in enumerate(CHANNELS) if mask >> bit & 1) or "nothing"


class Plain:
    """One fact a line, as framedbg has it."""

    paints = False

    def note(self, *texts: str) -> list[str]:
        return list(texts)

    def refusal(self, reply: Refused | Bad) -> list[str]:
        return self.note(f"{type(reply).__name__.lower()} {reply.number} {reply.why}")

    def event(self, frame: DebuggedFrame, event: int) -> list[str]:
        return [frame.line(event)]

    def here(self, frame: DebuggedFrame, stopped: bool) -> list[str]:
        told = [f"{'stopped' if stopped else 'at'} {frame.position}"]
        return told + ([frame.line(frame.position)] if frame.position else [])

    def pixel(self, reply: Reply) -> list[str]:
        return [reply.text]

    def history(self, reply: Reply) -> list[str]:
        return [reply.text, *reply.lines]

    def entries(self, reply: Reply, event: int) -> list[str]:
        return [line for line, entry in zip(reply.lines, reply.value.entries) if entry.event == event]

    def state(self, frame: DebuggedFrame, state: State) -> list[str]:
        return [f"{part} {text} {set_by(event)}" for part, text, event in state_parts(frame, state)]

    def change(self, what: str, change: Change) -> list[str]:
        return [f"{what} from {change.before} to {change.after}"]


class Laid(Plain):
    """Laid out, as a reader wants it."""

    def __init__(self, paints: bool) -> None:
        self.paints = paints

    def dim(self, text: str) -> str:
        return f"\x1b[2m{text}\x1b[22m" if self.paints and text else text

    def bold(self, text: str) -> str:
        return f"\x1b[1m{text}\x1b[22m" if self.paints else text

    def swatch(self, colour: Sequence[int | str]) -> str:
        return f"\x1b[48;2;{colour[0]};{colour[1]};{colour[2]}m  \x1b[49m " if self.paints else ""

    def note(self, *texts: str) -> list[str]:
        return [f"  {text}" for text in texts]

    def event(self, frame: DebuggedFrame, event: int) -> list[str]:
        kind, _, rest = frame.events[event - 1].partition(" ")
        swatch = self.swatch(rest.split()) if kind in ("clear", "factor") else ""
        text = f"{event:>5} {' ' if frame.is_on(event) else 'x'} {kind:<7} {swatch}{printable(rest)}"
        if event == frame.position:
            return [f"{self.bold('=>')} {self.bold(text)}"]
        return [f"   {text if event < frame.position else self.dim(text)}"]

    def here(self, frame: DebuggedFrame, stopped: bool) -> list[str]:
        told = (
            self.note(f"stopped {frame.position}: no more memory; the same word goes on from here") if stopped else []
        )
        return told + (self.event(frame, frame.position) if frame.position else ["=> before the first event"])

    def pixel(self, reply: Reply) -> list[str]:
        pixel = reply.value
        return self.note(
            f"{self.swatch(pixel.colour)}{pixel.colour}{'' if pixel.depth is None else f', depth {pixel.depth}'}"
        )

    def history(self, reply: Reply) -> list[str]:
        entries = reply.value.entries
        if not entries:
            return self.note("nothing has touched the pixel up to here")
        wide = "   " if self.paints else ""
        head = f"  event  tri  verdict      {wide}{'source':<16} {wide}{'before':<16} {wide}{'after':<16}"
        depths = " depths: source, before, after" if entries[0].depths else ""
        return [self.dim(f"{head}{depths}".rstrip()), *map(self.entry, entries)]

    def entry(self, entry: Entry) -> str:
        triangle = "-" if entry.triangle is None else entry.triangle
        colours = " ".join(
            f"{self.swatch(colour)}{str(colour):<16}" for colour in (entry.source, entry.before, entry.after)
        )
        depths = " " + " ".join(f"{depth:>5}" for depth in entry.depths) if entry.depths else ""
        text = f"  {entry.event:>5}  {triangle:>3}  {entry.verdict:<11}  {colours}{depths}".rstrip()
        return text if entry.is_drawn else self.bold(text)

    def entries(self, reply: Reply, event: int) -> list[str]:
        return [self.entry(entry) for entry in reply.value.entries if entry.event == event]

    def state(self, frame: DebuggedFrame, state: State) -> list[str]:
        by = {part: set_by(event) for part, _, event in state_parts(frame, state)}
        onoff = lambda flag: "on" if flag else "off"
        rows = [
            ("cull", f"{state.cull}, front is {'counter-' if state.front_ccw else ''}clockwise", by["raster"]),
            ("scissor", onoff(state.scissor), by["raster"]),
            ("  rect", " ".join(map(str, state.rect)), by["scissor"]),
            ("blend", onoff(state.blend), by["blend"]),
            ("  colour", " ".join(state.rgb), ""),
            ("  alpha", " ".join(state.alpha), ""),
            ("  writes", letters(state.mask), ""),
            ("factor", str(state.factor), by["factor"]),
        ]
        if state.depth:
            rows.append(
                (
                    "depth",
                    f"{onoff(state.depth.enable)}, {state.depth.func}{'' if state.depth.write else ', not written'}",
                    by["depth"],
                )
            )
        return [f"  {name:<9} {text:<30} {self.dim(said)}".rstrip() for name, text, said in rows]

    def change(self, what: str, change: Change) -> list[str]:
        return self.note(
            f"{self.swatch(change.before)}{change.before} became {self.swatch(change.after)}{change.after}"
        )


PLAIN = Plain()
