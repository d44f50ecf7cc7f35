"""The viewer in one file: its page with scripts, style, the program and a capture inside."""
import base64
import gzip
import html
import os
import pathlib
import re

HERE = pathlib.Path(__file__).resolve().parent
EXAMPLES = pathlib.Path(os.environ.get("EXAMPLES", HERE.parent.parent / "examples"))
SCRIPTS = [
    "run.js",
    "runner.js",
    "choose.js",
    "output.js",
    "packed.js",
    "part.js",  # run.js in the place of the viewer's
    "refused.js",
    "rules.js",
    "json_text.js",
    "near.js",
    "printable.js",
    "refusal.js",
    "reloaded.js",
    "search.js",
    "changes.js",
    "worked.js",
    "evidence.js",
    "clusters.js",
    "capture.js",
    "aligned.js",
    "contents.js",
    "differing.js",
]
POLICY = (
    "default-src 'none'; script-src 'unsafe-inline' 'wasm-unsafe-eval' data: blob:; worker-src blob:; style-src "
    "'unsafe-inline'; img-src data:; "
    "base-uri 'none'; form-action 'none'"
)


def packed(data):
    return base64.b64encode(gzip.compress(data, 9, mtime=0)).decode()


def address(script):
    return "data:text/javascript;base64," + base64.b64encode(re.sub(r'from "\./', 'from "', script).encode()).decode()


def imports(viewer, own):
    """An import map: each script by its name, as an address that has all of its text."""
    texts = {it.name: it.read_text() for it in viewer.glob("*.js")} | {
        name: (own / name).read_text() for name in SCRIPTS
    }
    lines = ",\n".join(f'"{name}": "{address(text)}"' for name, text in sorted(texts.items()))
    return f'<script type="importmap">{{"imports": {{\n{lines}}}}}</script>\n'


def inside(identity, name, text, more=""):
    """A text that a script of the page reads."""
    return f'<script type="text/plain" id="{identity}" data-name="{html.escape(name)}"{more}>{text}</script>\n'


def hunts():
    """The frames with a planted bug, for somebody who was sent the page and has no capture."""
    files = [file for file in sorted((EXAMPLES / "hunts").glob("*.json")) if not file.stem.endswith("_mended")]
    return [
        (
            f'<script type="text/plain" class="hunt" '
            f'data-name="{html.escape(file.name)}">{packed(file.read_bytes())}</script>\n'
        )
        for file in files
    ]


def exchanged(whole, old, new):
    if whole.count(old) != 1:
        raise ValueError(f"index.html has {whole.count(old)} times {old}")
    return whole.replace(old, new)


def page(module, capture, opens=False, viewer=HERE.parent.parent / "tools/viewer/page", own=HERE):
    """The page's text. It opens the capture at once, or offers it and the hunts beside the reader's own."""
    whole = (viewer / "index.html").read_text()
    head = (
        f'<meta http-equiv="Content-Security-Policy" '
        f'content="{POLICY}">\n<style>\n{(viewer / "viewer.css").read_text()}</style>\n{imports(viewer, own)}'
    )
    whole = exchanged(whole, '<link rel="stylesheet" href="viewer.css">\n', head)
    whole = exchanged(whole, '<script type="module" src="viewer.js"></script>\n', "")
    texts = [
        inside("program", "program.js", (own / "program.js").read_text()),
        inside("module", "framedbg.wasm", packed(module)),
        inside("own", capture.name, packed(capture.read_bytes()), ' data-opens=""' if opens else ""),
        *([] if opens else hunts()),
    ]
    wants = "<noscript>This page runs framedbg itself, as WebAssembly: it wants JavaScript.</noscript>\n"
    return exchanged(
        whole, "</body>", f"{wants}{''.join(texts)}<script>\n{(own / 'needs.js').read_text()}</script>\n</body>"
    )
