"""Pictures of a frame: targets as bytes, depths, RenderDoc's overlays as sets of pixels, and draws alone."""
import struct
from collections.abc import Mapping

import renderdoc as rd

from . import states
from .fault import Fault
from .frame import RenderDoc

WHOLE = rd.Subresource(0, 0, 0)
COVERED, PASSES = "covered", "passes"
OVERLAYS = {COVERED: rd.DebugOverlay.Drawcall, PASSES: rd.DebugOverlay.Depth}
HALF = {2: 0x38, 4: 0x3F}  # the upper byte of a float of 16 or of 32 bits that is 0.5 or more
WINDOW = 16, 16  # pixels of the window that RenderDoc shows overlays in: what is read isn't that window


class Pictures:
    output: RenderDoc

    def __init__(self, controller: RenderDoc, textures: Mapping[int, RenderDoc], lowest_row_first: bool) -> None:
        self.controller, self.textures, self.lowest_row_first = controller, textures, lowest_row_first
        self.is_gl = lowest_row_first  # of OpenGL, whatever the target that is followed has first
        self.output = None

    def Shutdown(self) -> None:  # as RenderDoc's own objects have it
        if self.output:
            self.output.Shutdown()

    def of(self, target: int) -> bytes:
        """The bytes of a colour target at the event that was gone to: RGBA, rows from the top."""
        texture = self.textures[target]
        content = decoded(self.controller.GetTextureData(texture.resourceId, WHOLE), texture)
        return self.upright(content, texture.width * 4)

    def upright(self, content: bytes, row: int) -> bytes:
        if not self.lowest_row_first:
            return content
        return b"".join(content[at : at + row] for at in range(len(content) - row, -1, -row))

    def depth_value(self, depth_target: RenderDoc, x: int, y: int) -> float:
        """The depth at a pixel, 0 to 1. PickPixel ends the process on lavapipe's depths of 16 bits (RenderDoc 1.24),
        so those are read whole."""
        if self.is_gl:
            y = y if self.lowest_row_first else self.textures[int(depth_target)].height - 1 - y
            return self.controller.PickPixel(depth_target, x, y, WHOLE, rd.CompType.Typeless).floatValue[0]
        texture = self.textures[int(depth_target)]
        content = self.controller.GetTextureData(depth_target, WHOLE)
        width, at = texture.format.compByteWidth, y * texture.width + x
        if texture.format.type == rd.ResourceFormatType.Regular and width == 2:
            return struct.unpack_from("<H", content, at * 2)[0] / 0xFFFF
        if texture.format.type == rd.ResourceFormatType.Regular and width == 4:
            return struct.unpack_from("<f", content, at * 4)[0]
        if texture.format.type == rd.ResourceFormatType.D24S8 or width == 3:
            return (struct.unpack_from("<I", content, at * 4)[0] & 0xFFFFFF) / 0xFFFFFF
        if texture.format.type == rd.ResourceFormatType.D32S8:
            return struct.unpack_from("<f", content, at * 8)[0]
        raise Fault(f"depth targets of {texture.format.Name()} aren't read")

    def marked(self, target: int, kind: str) -> bytes:
        """The pixels that an overlay marks, as a byte of 0 or 1 for each: those that the draw covers, or at which it
        passes."""
        texture = self.textures[target]
        self.show(target, OVERLAYS[kind])
        content = self.controller.GetTextureData(self.output.GetDebugOverlayTexID(), WHOLE)
        self.show_nothing(target)
        size = texture.width * texture.height
        wide = len(content) // size // 4  # bytes a channel: floats of 16 or of 32 bits
        if wide not in HALF:
            raise Fault(f"an overlay of {len(content)} bytes for {size} pixels")
        is_large = bytes(int(HALF[wide] <= byte < 0x80) for byte in range(256))
        red, green, alpha = (
            content[channel * wide + wide - 1 :: 4 * wide].translate(is_large) for channel in (0, 1, 3)
        )
        first, other = (red, alpha) if kind == COVERED else (green, red.translate(bytes([1, 0]) + bytes(254)))
        both = int.from_bytes(first, "little") & int.from_bytes(other, "little")
        return self.upright(both.to_bytes(size, "little"), texture.width)

    def alone(self, target: int) -> bytes:
        """What the draw that was gone to gives on a target cleared to zeros: the overlay draws that on the very
        target."""
        self.show(target, rd.DebugOverlay.ClearBeforeDraw)
        result = self.of(target)
        self.show_nothing(target)
        return result

    def show_nothing(self, target: int) -> None:
        """Takes the overlay away: an output that keeps one draws it anew at each step, on the very target that is
        read afterward."""
        self.show(target, rd.DebugOverlay.NoOverlay)

    def show(self, target: int, overlay: RenderDoc) -> None:
        texture = self.textures[target]
        if self.output is None:
            window = rd.CreateHeadlessWindowingData(*WINDOW)
            self.output = self.controller.CreateOutput(window, rd.ReplayOutputType.Texture)
        display = rd.TextureDisplay()
        display.resourceId = texture.resourceId
        display.overlay = overlay
        display.scale = 1.0
        display.rangeMin, display.rangeMax = 0.0, 1.0
        display.typeCast = rd.CompType.Typeless
        display.subresource = WHOLE
        display.backgroundColor = rd.FloatVector(0, 0, 0, 0)
        self.output.SetTextureDisplay(display)
        if overlay != rd.DebugOverlay.NoOverlay:  # to take one away nothing is drawn
            self.output.Display()


def decoded(content: bytes, texture: RenderDoc) -> bytes:
    """Bytes of a texture as RGBA; a Fault for a format that isn't known here."""
    kind = texture.format
    unknown = Fault(f"targets of {kind.Name()} aren't carried over")
    if kind.type != rd.ResourceFormatType.Regular or kind.compByteWidth not in (1, 2) or kind.compCount not in (3, 4):
        raise unknown
    count, pixels = kind.compCount, texture.width * texture.height
    if (kind.compByteWidth, count) == (1, 4):
        return turned_round(content[: pixels * 4]) if kind.BGRAOrder() else content[: pixels * 4]
    if kind.compByteWidth == 2:
        if kind.compType != rd.CompType.Float:
            raise unknown
        values = struct.unpack(f"<{pixels * count}e", content[: pixels * count * 2])
        content = bytes(states.byte(v) if v == v else 0 for v in values)
    result = bytearray(b"\xff" * (pixels * 4))
    order = (2, 1, 0, 3) if kind.BGRAOrder() else (0, 1, 2, 3)
    for channel in range(count):
        result[channel::4] = content[order[channel] : pixels * count : count]
    return bytes(result)


def turned_round(content: bytes) -> bytes:
    """Bytes in which red and blue of each pixel have changed their places."""
    result = bytearray(content)
    result[0::4], result[2::4] = content[2::4], content[0::4]
    return bytes(result)
