"""Whether a pixel shader may discard fragments: from its text, or from its words of SPIR-V."""
import re
import struct
from collections.abc import Iterable

COMMENT = re.compile(rb"//[^\n]*|/\*.*?\*/", re.S)
DISCARD = re.compile(rb"\bdiscard\b")
HEADER = 5  # words
ENDS = {252, 4416, 5380}  # OpKill, OpTerminateInvocation, OpDemoteToHelperInvocation


def text_discards(content: bytes) -> bool:
    return bool(DISCARD.search(COMMENT.sub(b" ", content)))


def words_discard(content: bytes) -> bool:
    """Each instruction begins with a word that has its length in words above, and its number below."""
    words = struct.unpack(f"<{len(content) // 4}I", content[: len(content) // 4 * 4])
    at = HEADER
    while at < len(words):
        length, number = words[at] >> 16, words[at] & 0xFFFF
        if number in ENDS:
            return True
        if not length:
            break
        at += length
    return False


READERS = {"GLSL": text_discards, "SPIRV": words_discard, "OpenGLSPIRV": words_discard}


def may_discard(encoding: str, content: Iterable[int]) -> bool:
    """Of a shader in an encoding that isn't known, no."""
    return READERS[encoding](bytes(content)) if encoding in READERS else False
