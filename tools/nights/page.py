"""The report of a night as one page: for each capture that differs its picture, the wanted one, where they differ,
and the finding."""
import base64
from collections.abc import Sequence
from html import escape

from writing.counting import counted

from .folder import Results
from .told import Told

STYLE = """body { font: 15px/1.5 system-ui, sans-serif; margin: 2em auto; max-width: 72em; padding: 0 1em; color: #222; background: #fff; }
table { border-collapse: collapse; } td, th { padding: .2em 1em .2em 0; text-align: left; }
figure { display: inline-block; margin: 0 1em 1em 0; } figcaption { color: #666; }
img { width: 22em; max-width: 100%; image-rendering: pixelated; border: 1px solid #ccc; }
pre { background: #f5f5f5; padding: 1em; overflow-x: auto; } .differs, .failed { color: #a00; }
@media (prefers-color-scheme: dark) { body { color: #ddd; background: #181818; } pre { background: #242424; } figcaption { color: #999; } a { color: #8bf; } .differs, .failed { color: #f88; } }"""


def text_of(night: Sequence[Told], results: Results, table: str = "") -> str:
    told = [one for one in night if one.verdict != "alike"]
    rows = "\n".join(
        (
            f'<tr><td><a href="#{anchor(one)}">{escape(one.shown)}</a></td><td '
            f'class="{one.verdict}">{one.verdict}</td><td>{escape(one.headline)}</td></tr>'
        )
        for one in told
    )
    head = (
        f"{counted(len(night), 'capture')}, {sum(one.verdict == 'alike' for one in night)} alike, "
        f"{sum(one.verdict == 'differs' for one in night)} differ, "
        f"{sum(one.verdict == 'failed' for one in night)} failed"
    )
    parts = "\n".join(section(one, results) for one in told)
    return (
        f'<!DOCTYPE html>\n<html lang="en"><head><meta charset="utf-8"><title>A night of '
        f'captures</title><style>{STYLE}</style></head><body>\n'
        f"<h1>A night of captures</h1>\n<p>{head}</p>\n{table}<table>{rows}</table>\n{parts}\n</body></html>\n"
    )


def anchor(one: Told) -> str:
    return f"c{one.number}"


def section(one: Told, results: Results) -> str:
    shown = "".join(
        figure(one, results, name, caption)
        for name, caption in (
            ("drawn", "as it is drawn"),
            ("wanted", "as it should be"),
            ("difference", "where they differ"),
        )
    )
    lines = escape("\n".join(one.lines))
    return (
        f'<h2 id="{anchor(one)}">{escape(one.shown)}</h2>\n{shown if one.verdict == "differs" else ""}<pre>'
        f'{lines}</pre>'
    )


def figure(one: Told, results: Results, name: str, caption: str) -> str:
    path = results.path(one.name, f".{name}.png")
    if not path.exists():
        return ""
    data = base64.b64encode(path.read_bytes()).decode()
    return (
        f'<figure><img alt="{escape(one.shown)} {caption}" '
        f'src="data:image/png;base64,{data}"><figcaption>{caption}</figcaption></figure>\n'
    )
