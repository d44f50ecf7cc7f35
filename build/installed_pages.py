"""What a page of the documents says once it is installed: programs by the names by which they are called there, and
where the modules for Python are."""
import re

OF_THE_SOURCE = {
    "CONTRIBUTING.md",
    "CHANGELOG.md",
    "ARCHITECTURE.md",
    "DECISIONS.md",
    "DEFINITIONS.md",
    "PROVED.md",
    "MEASURED.md",
}  # these stay as they are
# of whatever framedbg is on the path
MODULES = '"$(dirname "$(readlink -f "$(command -v framedbg)")")/../share/framedbg/tools"'
NOTE = """
These pages were installed with framedbg. What they tell you to type wants its programs on the path, and this folder, or a copy of it that you can write to:
`cp -r PREFIX/share/doc/framedbg pages && cd pages`.
"""


def as_installed(page, text, names):
    """The text of a page; `names` are what tools are called there, by their names in tools/."""
    if page.rsplit("/", 1)[-1] in OF_THE_SOURCE:
        return text
    text = re.sub(rf"\btools/({'|'.join(map(re.escape, names))})(?![\w/.-])", lambda found: names[found[1]], text)
    text = re.sub(r"`tools/(captures\.py|framedbg_client)`", r"`PREFIX/share/framedbg/tools/\1`", text)
    text = text.replace("PYTHONPATH=tools ", f"PYTHONPATH={MODULES} ")
    return text.replace("\n\n", f"\n{NOTE}\n", 1) if page == "README.md" else text
