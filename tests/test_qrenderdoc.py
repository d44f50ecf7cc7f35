#!/usr/bin/env python3
"""test_qrenderdoc: tries share/qrenderdoc, the extension of RenderDoc's window: its menu, and a frame converted there.

    tests/test_qrenderdoc.py [TEST ..]

The window is opened on a display that nobody sees. It wants qrenderdoc, Xvfb and Mesa's drivers.
"""
import json
import os
import pathlib
import shutil
import subprocess
import sys
import tempfile
import unittest
from unittest import mock

from folders import TOOLS, TOP

import passed_over
from display import Display

EXTENSION = TOP / "share/qrenderdoc/framedbg"
SECONDS = 600
# RenderDoc's settings, so that it asks nobody about statistics, adds no markers of its own, and loads the extension
SETTINGS = {
    "rdocConfigData": 1,
    "Analytics_TotalOptOut": True,
    "CheckUpdate_AllowChecks": False,
    "EventBrowser_AddFake": False,
    "AlwaysLoad_Extensions": ["framedbg"],
}
# What the window runs: it opens the frame, saves it, and says what was told
SCRIPT = """
import json, os, sys
import renderdoc
context, frame = pyrenderdoc, {frame!r}
told = {{"loaded": context.Extensions().IsExtensionLoaded("framedbg")}}
try:
    context.LoadCapture(frame, renderdoc.ReplayOptions(), frame, False, True)
    before = context.CurEvent()
    told["lines"] = sys.modules["framedbg"].save(context, {to!r})
    told["stays"] = context.CurEvent() == before
    told["refused"] = sys.modules["framedbg"].save(context, "/nowhere/at/all.json")
except BaseException as fault:
    told["fault"] = repr(fault)
with open({said!r}, "w") as file:
    json.dump(told, file)
os._exit(0)
"""


def missing():
    absent = [name for name in ("qrenderdoc", "Xvfb") if not shutil.which(name)]
    return f"{', '.join(absent)} isn't installed" if absent else None


sys.path.insert(0, str(EXTENSION.parent))
import framedbg  # noqa: E402


class Menu(unittest.TestCase):
    """What the menu asks and tells, without RenderDoc."""

    def context(self, is_loaded, path):
        made = mock.Mock()
        made.IsCaptureLoaded.return_value, made.Extensions().SaveFileName.return_value = is_loaded, path
        return made

    def test_what_it_asks(self):
        both = "first\nsecond"
        for is_loaded, path, told in ((False, "", "No frame is open."), (True, "", None), (True, "/x.json", both)):
            context = self.context(is_loaded, path)
            with mock.patch.object(framedbg, "save", return_value=["first", "second"]) as saved:
                framedbg.ask_and_save(context, None)
            self.assertEqual(saved.call_args_list, [mock.call(context, path)] if path else [])
            said = [call.args[0] for call in context.Extensions().MessageDialog.call_args_list]
            self.assertEqual(said, [told] if told else [])

    def test_where_the_converter_is(self):
        self.assertEqual(framedbg.find_tools(), TOOLS)
        with tempfile.TemporaryDirectory() as folder:
            (pathlib.Path(folder) / "real_frames").mkdir()
            named = mock.patch.dict(os.environ, {"FRAMEDBG_TOOLS": folder})
            with named, mock.patch.object(sys, "path", list(sys.path)):
                self.assertEqual(framedbg.find_tools(), pathlib.Path(folder))
            elsewhere = mock.patch.object(framedbg, "HERE", pathlib.Path(folder, "a/b/c"))
            with elsewhere, mock.patch.dict(os.environ, {"PATH": "/nowhere"}), self.assertRaises(framedbg.NoTools):
                framedbg.find_tools()
            program = pathlib.Path(folder, "bin/renderdoc_to_capture")
            tools = pathlib.Path(folder, "share/framedbg/tools")
            for made in (program.parent, tools / "real_frames"):
                made.mkdir(parents=True)
            program.touch(0o755)
            on_path = mock.patch.dict(os.environ, {"PATH": str(program.parent)})
            with elsewhere, on_path, mock.patch.object(sys, "path", list(sys.path)):
                self.assertEqual(framedbg.find_tools(), tools)

    def test_what_it_says_of_itself(self):
        told = json.loads((EXTENSION / "extension.json").read_text())
        self.assertEqual((told["extension_api"], told["name"]), (1, "framedbg"))


@unittest.skipIf(missing(), missing())
class Window(unittest.TestCase):
    @classmethod
    def setUpClass(cls):
        cls.room = pathlib.Path(cls.enterClassContext(tempfile.TemporaryDirectory(prefix="qrenderdoc-")))
        display = Display()
        cls.addClassCleanup(display.end)
        folders = {"HOME": cls.room, "XDG_RUNTIME_DIR": cls.room, "XDG_DATA_HOME": cls.room / "data"}
        cls.environment = {
            **os.environ,
            "DISPLAY": display.name,
            "LIBGL_ALWAYS_SOFTWARE": "1",
            **{name: str(folder) for name, folder in folders.items()},
        }
        scene = TOP / "checks/frame_scene.py"
        cls.run_([TOOLS / "take_frame", "--seconds", "3", "--out", "scene", "/usr/bin/python3", scene])
        [cls.frame] = cls.room.glob("scene_frame*.rdc")

    @classmethod
    def run_(cls, words, **how):
        return subprocess.run(
            list(map(str, words)),
            cwd=cls.room,
            env=cls.environment,
            stdin=subprocess.DEVNULL,
            timeout=SECONDS,
            check=True,
            **how,
        )

    def test_a_frame(self):
        """The window loads the extension, which writes what renderdoc_to_capture does; it stays where it was."""
        settings = self.room / "data/qrenderdoc"
        (settings / "extensions/framedbg").mkdir(parents=True)
        for file in ("__init__.py", "extension.json"):  # RenderDoc follows links to files alone
            (settings / "extensions/framedbg" / file).symlink_to(EXTENSION / file)
        (settings / "UI.config").write_text(json.dumps(SETTINGS))
        script, to, said = (self.room / name for name in ("script.py", "window.json", "said.json"))
        script.write_text(SCRIPT.format(frame=str(self.frame), to=str(to), said=str(said)))
        self.run_(["qrenderdoc", "--python", script], stdout=subprocess.DEVNULL, stderr=subprocess.DEVNULL)
        told = json.loads(said.read_text())
        self.assertNotIn("fault", told)
        self.assertEqual((told["loaded"], told["stays"]), (True, True))
        self.assertRegex(told["lines"][0], r"window\.json is written: [\d,]+ bytes$")
        self.assertRegex(told["refused"][0], "^nothing is written: .*No such file")
        wanted = self.run_([TOOLS / "renderdoc_to_capture", "--quiet", self.frame], capture_output=True).stdout
        self.assertEqual(json.loads(to.read_text()), json.loads(wanted))


if __name__ == "__main__":
    passed_over.run_tests("test_qrenderdoc")
