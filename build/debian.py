"""A package for Debian and Ubuntu: what `apt install ./FILE` puts below /usr, and `apt remove framedbg` takes away."""
import hashlib

import packing
from packing import File

CONTROL = """Package: framedbg
Version: {version}
Architecture: amd64
Maintainer: framedbg <framedbg@localhost>
Installed-Size: {size}
Depends: libc6 (>= {library}), python3 (>= 3.10)
Section: devel
Priority: optional
Description: frame debugger that steps back
 framedbg draws a frame event by event, forward and back, and tells who wrote
 each pixel. With it come a prompt (fdb), a viewer in the browser, the search
 for what made a picture wrong, converters of frames, documents and examples.
"""
MOVED = {"share/zsh/site-functions/": "share/zsh/vendor-completions/"}  # where Debian looks for what a package brings
START = b"exec python3 ", b"exec python3 -B "  # without what Python keeps beside modules, which no package takes away


def made():
    """The package's name and its bytes."""
    version, _ = packing.told()
    entries = {f"usr/{moved(place)}": started(place, file) for place, file in packing.files().items()}
    size = sum(-(-len(file.data) // 1024) for file in entries.values())
    control = CONTROL.format(version=version, size=size, library="{}.{}".format(*packing.library()))
    sums = "".join(f"{hashlib.md5(file.data).hexdigest()}  {name}\n" for name, file in sorted(entries.items()))
    about = {"control": File(control.encode(), 0o644), "md5sums": File(sums.encode(), 0o644)}
    members = {"debian-binary": b"2.0\n", "control.tar.gz": packing.tar(about), "data.tar.gz": packing.tar(entries)}
    return f"framedbg_{version}_amd64.deb", archive(members)


def moved(place):
    return next((there + place.removeprefix(here) for here, there in MOVED.items() if place.startswith(here)), place)


def started(place, file):
    return (
        File(file.data.replace(*START, 1), file.mode)
        if place.startswith("bin/") and file.data.startswith(b"#!/bin/sh\n")
        else file
    )


def archive(members):
    """The members as an ar file."""
    made_ = b"!<arch>\n"
    for name, data in members.items():
        made_ += (
            f"{name:<16}{packing.when():<12}{0:<6}{0:<6}{'100644':<8}{len(data):<10}`\n".encode()
            + data
            + b"\n" * (len(data) % 2)
        )
    return made_
