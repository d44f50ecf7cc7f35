"""A wheel: what `pip install FILE` or `pipx install FILE` puts into an environment, program and tools on its path,
and the client to import."""
import base64
import hashlib
import io
import time
import zipfile

from folders import TOOLS

import packing
from packing import File

METADATA = """Metadata-Version: 2.1
Name: framedbg
Version: {version}
Summary: A frame debugger that steps back
License: MIT
Requires-Python: >=3.10
Classifier: Environment :: Console
Classifier: Operating System :: POSIX :: Linux
Classifier: Topic :: Software Development :: Debuggers
Description-Content-Type: text/plain

framedbg draws a frame event by event, forward and back, and tells who wrote each pixel.
On the path come framedbg, fdb, framedbg-view, framedbg-blame, framedbg-night, framedbg-driver, framedbg-explain, the converters and pam_to_png.
framedbg_client is a client for Python. Documents and examples lie in share/doc/framedbg of the environment.
"""
WHEEL = """Wheel-Version: 1.0
Generator: framedbg
Root-Is-Purelib: false
Tag: {tag}
"""


def place_of(place, name):
    """Where a file of an installed folder stands in the wheel."""
    folder, _, rest = place.partition("/")
    return f"{name}.data/scripts/{rest}" if folder == "bin" else f"{name}.data/data/{place}"


def made():
    """The wheel's name and its bytes."""
    version, _ = packing.told()
    name, tag = f"framedbg-{version}", "py3-none-manylinux_{}_{}_x86_64".format(*packing.library())
    entries = {place_of(place, name): file for place, file in packing.files().items()}
    entries |= {
        f"framedbg_client/{path.name}": File(path.read_bytes(), 0o644)
        for path in sorted((TOOLS / "framedbg_client").glob("*.*"))
    }
    about = f"{name}.dist-info"
    entries |= {
        f"{about}/METADATA": File(METADATA.format(version=version).encode(), 0o644),
        f"{about}/WHEEL": File(WHEEL.format(tag=tag).encode(), 0o644),
    }
    record = "".join(
        f"{place},sha256={digest(file.data)},{len(file.data)}\n" for place, file in sorted(entries.items())
    )
    entries[f"{about}/RECORD"] = File(f"{record}{about}/RECORD,,\n".encode(), 0o644)
    return f"{name}-{tag}.whl", zipped(entries, f"{about}/")


def digest(data):
    return base64.urlsafe_b64encode(hashlib.sha256(data).digest()).rstrip(b"=").decode()


def zipped(entries, last):
    """A zip file, whose entries stand in order, what is about the wheel behind the others."""
    made_ = io.BytesIO()
    with zipfile.ZipFile(made_, "w", zipfile.ZIP_DEFLATED, compresslevel=9) as archive:
        for name, file in sorted(entries.items(), key=lambda entry: (entry[0].startswith(last), entry[0])):
            entry = zipfile.ZipInfo(name, time.gmtime(packing.when())[:6])
            entry.compress_type, entry.create_system, entry.external_attr = (
                zipfile.ZIP_DEFLATED,
                3,
                (0o100000 | file.mode) << 16,
            )
            archive.writestr(entry, file.data, compresslevel=9)
    return made_.getvalue()
