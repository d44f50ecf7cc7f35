"""A context of OpenGL without a window or a display, over EGL by ctypes."""
import ctypes
import os
import pathlib
from collections.abc import Callable, Iterable
from ctypes import POINTER, byref, c_char_p, c_int, c_uint, c_void_p
from typing import Any

from .faults import NoDriver

NONE, EXTENSIONS = 0x3038, 0x3055
SURFACELESS, DEVICE = 0x31DD, 0x313F  # platforms
OPENGL, OPENGL_ES = 0x30A2, 0x30A0
MAJOR, MINOR, PROFILE, CORE = 0x3098, 0x30FB, 0x30FD, 1
MOST_DEVICES = 32
VERSIONS = {"gl": (OPENGL, [MAJOR, 3, MINOR, 3, PROFILE, CORE]), "es": (OPENGL_ES, [MAJOR, 3, MINOR, 0])}
VERSIONS["vulkan"] = VERSIONS["gl"]  # which Mesa's zink draws by Vulkan
RENDER_NODES = pathlib.Path("/dev/dri")


def library() -> ctypes.CDLL:
    """libEGL, with the calls that are wanted of it."""
    try:
        egl = ctypes.CDLL("libEGL.so.1")
    except OSError as fault:
        raise NoDriver(f"{fault}: libegl1 and a driver are wanted") from None
    for name in ("eglGetProcAddress", "eglGetPlatformDisplay", "eglCreateContext"):
        getattr(egl, name).restype = c_void_p
    egl.eglQueryString.restype = c_char_p
    egl.eglGetProcAddress.argtypes = [c_char_p]
    egl.eglGetPlatformDisplay.argtypes = [c_uint, c_void_p, c_void_p]
    egl.eglCreateContext.argtypes = [c_void_p, c_void_p, c_void_p, c_void_p]
    egl.eglMakeCurrent.argtypes = [c_void_p] * 4
    egl.eglDestroyContext.argtypes = [c_void_p, c_void_p]
    egl.eglInitialize.argtypes = [c_void_p, c_void_p, c_void_p]
    egl.eglQueryString.argtypes = [c_void_p, c_int]
    return egl


def devices(egl: ctypes.CDLL) -> list[int | None]:
    """EGL's devices, in its order; none where it can't list them."""
    address = egl.eglGetProcAddress(b"eglQueryDevicesEXT")
    if not address or b"EGL_EXT_platform_device" not in (egl.eglQueryString(None, EXTENSIONS) or b""):
        return []
    found, count = (c_void_p * MOST_DEVICES)(), c_int()
    ctypes.CFUNCTYPE(c_uint, c_int, POINTER(c_void_p), POINTER(c_int))(address)(MOST_DEVICES, found, byref(count))
    return list(found[: count.value])


def display_of(egl: ctypes.CDLL, device: int | None) -> int:
    """An initialised display: of a device by its number, or without a surface, or of the first device."""
    if device is not None:
        found = devices(egl)
        if not 0 <= device < len(found):
            raise NoDriver(f"there is no device {device}: EGL has {len(found)}, counted from 0")
        display = egl.eglGetPlatformDisplay(DEVICE, found[device], None)
    elif b"EGL_MESA_platform_surfaceless" in (egl.eglQueryString(None, EXTENSIONS) or b""):
        display = egl.eglGetPlatformDisplay(SURFACELESS, None, None)
    else:
        display = next((egl.eglGetPlatformDisplay(DEVICE, one, None) for one in devices(egl)), None)
    if not display or not egl.eglInitialize(display, None, None):
        raise NoDriver("EGL has no display here: a driver is wanted")
    return display


def choose_vulkan() -> None:
    """Has Mesa draw by Vulkan: by its loader where there is a card, else by the choice among its software renderers."""
    if any(RENDER_NODES.glob("renderD*")):
        os.environ["MESA_LOADER_DRIVER_OVERRIDE"] = "zink"
    else:
        os.environ.update(GALLIUM_DRIVER="zink", LIBGL_ALWAYS_SOFTWARE="1")


class Context:
    """A context that is current. `api` is gl (OpenGL 3.3 core), es (OpenGL ES 3.0) or vulkan; `device` a number of
    EGL's devices, or None."""

    def __init__(self, api: str = "gl", device: int | None = None) -> None:
        if api == "vulkan":
            choose_vulkan()
        self.egl = library()
        self.display = display_of(self.egl, device)
        bound, words = VERSIONS[api]
        self.egl.eglBindAPI(bound)
        self.context = self.egl.eglCreateContext(self.display, None, None, (c_int * (len(words) + 1))(*words, NONE))
        if not self.context or not self.egl.eglMakeCurrent(self.display, None, None, self.context):
            raise NoDriver(f"the driver gives no context of {api}: EGL's error {self.egl.eglGetError():#x}")

    def function(self, name: str, arguments: Iterable[Any], gives: Any) -> Callable[..., Any] | None:
        """A function of OpenGL by its name, or None. An address is no promise that the call is one of this API."""
        address = self.egl.eglGetProcAddress(name.encode())
        return ctypes.CFUNCTYPE(gives, *arguments)(address) if address else None

    def close(self) -> None:
        self.egl.eglMakeCurrent(self.display, None, None, None)
        self.egl.eglDestroyContext(self.display, self.context)
