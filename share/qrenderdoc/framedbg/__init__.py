"""An extension of RenderDoc's window: Tools, Save as framedbg capture. It runs the converter on the open frame.

Its modules are looked for in the folder that FRAMEDBG_TOOLS names, in `tools` within this folder, in the repository
that this folder is part of, and where the program on the path is installed.
"""
import os
import pathlib
import shutil
import sys

HERE = pathlib.Path(__file__).resolve().parent
TITLE, LABEL = "framedbg", ["Save as framedbg capture"]
HISTORIES, SMALLEST = 400, 16  # as renderdoc_to_capture has them


class NoTools(Exception):
    """The converter isn't where it is looked for."""


def find_tools():
    """The folder of the converter's modules, from which they can be imported then."""
    named = os.environ.get("FRAMEDBG_TOOLS")
    program = shutil.which("renderdoc_to_capture")
    places = [*([pathlib.Path(named)] if named else []), HERE / "tools", HERE.parents[2] / "tools"]
    places += [pathlib.Path(program).resolve().parent.parent / "share/framedbg/tools"] if program else []
    for place in places:
        if (place / "real_frames").is_dir():
            if str(place) not in sys.path:
                sys.path.insert(0, str(place))
            return place
    raise NoTools(f"the converter isn't in {', '.join(map(str, places))}: FRAMEDBG_TOOLS names another folder")


def converted(controller, path, say=lambda line: None):
    """The text of a capture, of a frame that is open, and the lines on what was lost."""
    find_tools()
    from real_frames import opened, telling
    from real_frames.gather import Gatherer, Wanted
    from real_frames.losses import Losses
    from real_frames.painter import Detail
    from real_frames.pictured import PicturedWriter

    losses = Losses()
    with opened.Opened(path, controller) as frame:
        part = Wanted(*telling.ALL, with_colours=True, with_alone=True, histories=HISTORIES)
        gatherer = Gatherer(frame, telling.target_of(frame), losses, part, say)
        size, records = gatherer.size, gatherer.gather()
    writer = PicturedWriter(size, records, losses, Detail(None, SMALLEST), "measured")
    writer.say = say
    return telling.written(writer.capture()), list(losses.lines())


def save(context, path):
    """Writes the open frame to a file, and gives the lines to tell. It waits, and leaves the window where it was."""
    found = {}

    def convert(controller):
        try:
            text, lines = converted(controller, context.GetCaptureFilename())
            pathlib.Path(path).write_text(text, encoding="utf-8")
            found["lines"] = [f"{path} is written: {len(text):,} bytes", *lines]
        except Exception as fault:  # whatever it is: the window has nobody else to tell
            found["lines"] = [f"nothing is written: {fault}"]

    context.Replay().BlockInvoke(convert)
    context.SetEventID([], context.CurSelectedEvent(), context.CurEvent(), True)
    return found["lines"]


def ask_and_save(context, _):
    """What the menu does."""
    extensions = context.Extensions()
    if not context.IsCaptureLoaded():
        return extensions.MessageDialog("No frame is open.", TITLE)
    path = extensions.SaveFileName(LABEL[0], "", "Captures of framedbg (*.json)")
    if path:
        extensions.MessageDialog("\n".join(save(context, path)), TITLE)
    return None


def register(_, context):
    import qrenderdoc

    context.Extensions().RegisterWindowMenu(qrenderdoc.WindowMenu.Tools, LABEL, ask_and_save)


def unregister():
    """RenderDoc takes the menu away."""
