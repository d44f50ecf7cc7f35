"""The captures of a frame's targets, each shown by a server of its own: a tab of a page leads to the page of another
target."""
import threading
from collections.abc import Iterable, Mapping
from typing import TYPE_CHECKING, Any

import targets

if TYPE_CHECKING:
    from .server import Server


def joined(servers: "Mapping[int, Server]", frame: dict[str, Any]) -> None:
    """Tells each server, by target, of the others, and which of its draws read what they show (targets.py). Targets are
    told as texts: RenderDoc's numbers may be larger than a page's are exact."""
    for own, server in servers.items():
        tabs = [
            {
                "name": one["name"] or str(one["target"]),
                "target": str(one["target"]),
                "address": servers[one["target"]].address,
                "own": one["target"] == own,
            }
            for one in frame["targets"]
            if one["target"] in servers
        ]
        reads = [
            {
                "position": read["position"],
                "target": str(read["reads"]),
                "address": servers[read["reads"]].address,
                "at": read["at"],
                "laid": laid(frame, read),
            }
            for read in frame["reads"]
            if read["target"] == own and read["reads"] in servers
        ]
        server.tabs = {"tabs": tabs, "reads": reads}


def laid(frame: dict[str, Any], read: dict[str, Any]) -> list[Any] | None:
    """[how the target that is read lies over the one that reads it, the size of this, the other's], or None where that
    isn't told."""
    sizes = targets.sizes_of(frame, read)
    return [read["laid"], *sizes] if read.get("laid") in targets.LAID and all(sizes) else None


def serve_beside(servers: "Iterable[Server]") -> None:
    """Those but the first answer in threads of their own."""
    for server in list(servers)[1:]:
        threading.Thread(target=server.serve_forever, daemon=True).start()
