#!/usr/bin/env python3
"""direct3d_shaders: writes the shaders of play_d3d11.exe as a header of C, put together here so that no compiler of
shaders is wanted.

    build/direct3d_shaders.py > shaders.h

They are DXBC of shader model 4. shader_vertex hands position and colour on; shader_flat and shader_linear give the
colour as it comes, of the first corner or interpolated; shader_rounded rounds an interpolated one to the nearest
byte, the larger on a tie, before it is blended, as framedbg does.
"""
import argparse
import math
import struct

# ---- The checksum: MD5 with an ending of its own
SHIFTS = [7, 12, 17, 22] * 4 + [5, 9, 14, 20] * 4 + [4, 11, 16, 23] * 4 + [6, 10, 15, 21] * 4
SINES = [int(abs(math.sin(number + 1)) * 2**32) & 0xFFFFFFFF for number in range(64)]
FIRST = [0x67452301, 0xEFCDAB89, 0x98BADCFE, 0x10325476]
BLOCK = 64


def words(*values):
    return struct.pack(f"<{len(values)}I", *values)


def mixed(number, b, c, d):
    """The function of a step and the word that it takes."""
    if number < 16:
        return (b & c) | (~b & d), number
    if number < 32:
        return (d & b) | (~d & c), (5 * number + 1) % 16
    if number < 48:
        return b ^ c ^ d, (3 * number + 5) % 16
    return c ^ (b | (~d & 0xFFFFFFFF)), 7 * number % 16


def transformed(state, block):
    a, b, c, d = state
    message = struct.unpack("<16I", block)
    for number in range(64):
        value, at = mixed(number, b, c, d)
        value = (value + a + SINES[number] + message[at]) & 0xFFFFFFFF
        a, d, c = d, c, b
        b = (b + ((value << SHIFTS[number]) | (value >> (32 - SHIFTS[number])))) & 0xFFFFFFFF
    return [(old + new) & 0xFFFFFFFF for old, new in zip(state, (a, b, c, d))]


def checksum(data):
    state, bits, last = FIRST, len(data) * 8, (len(data) * 2) | 1
    whole = len(data) // BLOCK * BLOCK
    for at in range(0, whole, BLOCK):
        state = transformed(state, data[at : at + BLOCK])
    rest = data[whole:]
    if len(rest) >= BLOCK - 8:
        state = transformed(state, (rest + b"\x80").ljust(BLOCK, b"\0"))
        state = transformed(state, words(bits) + bytes(BLOCK - 8) + words(last))
    else:
        state = transformed(state, (words(bits) + rest + b"\x80").ljust(BLOCK - 4, b"\0") + words(last))
    return words(*state)


# ---- A container: signatures and code
POSITION = 1  # a value that the system takes
VERTEX_4_0, PIXEL_4_0 = 0x00010040, 0x00000040
CONSTANT, LINEAR_NOPERSPECTIVE = 1, 4
MAD, MOV, MUL, RET, ROUND_NI = 50, 54, 56, 62, 65
DCL_INPUT, DCL_INPUT_PS, DCL_OUTPUT, DCL_OUTPUT_SIV, DCL_TEMPS = 95, 98, 101, 103, 104


def signature(elements, is_output):
    """Of (name, what the system takes it for, register). The pixel shaders read no position."""
    head, names, at = [len(elements), 8], b"", 8 + 24 * len(elements)
    for name, system, register in elements:
        read = 0 if is_output or name == "SV_Position" else 0x0F00
        head += [at + len(names), 0, system, 3, register, 0x0F | read]
        names += name.encode() + b"\0"
    return words(*head) + names.ljust((len(names) + 3) // 4 * 4, b"\xab")


def container(inputs, outputs, version, code):
    chunks = [
        (b"ISGN", signature(inputs, False)),
        (b"OSGN", signature(outputs, True)),
        (b"SHDR", words(version, len(code) + 2, *code)),
    ]
    start = 32 + 4 * len(chunks)
    offsets, parts = [], b""
    for name, data in chunks:
        offsets.append(start + len(parts))
        parts += name + words(len(data)) + data
    tail = words(1, start + len(parts), len(chunks), *offsets) + parts
    return b"DXBC" + checksum(tail) + tail


def operation(code, *operands, controls=0):
    return [code | controls << 11 | (1 + len(operands)) << 24, *operands]


def declared(register):
    return [0x001010F2, register]


def output(register):
    return [0x001020F2, register]


def input_of(register):
    return [0x00101E46, register]


def constant(value):
    return [0x00004002] + [struct.unpack("<I", struct.pack("<f", value))[0]] * 4


TEMPORARY, OF_TEMPORARY = [0x001000F2, 0], [0x00100E46, 0]


def vertex_shader():
    code = [
        *operation(DCL_INPUT, *declared(0)),
        *operation(DCL_INPUT, *declared(1)),
        *operation(DCL_OUTPUT_SIV, *output(0), POSITION),
        *operation(DCL_OUTPUT, *output(1)),
        *operation(MOV, *output(0), *input_of(0)),
        *operation(MOV, *output(1), *input_of(1)),
        *operation(RET),
    ]
    return container(
        [("POSITION", 0, 0), ("COLOR", 0, 1)], [("SV_Position", POSITION, 0), ("COLOR", 0, 1)], VERTEX_4_0, code
    )


def pixel_shader(mode, is_rounded):
    code = operation(DCL_INPUT_PS, *declared(1), controls=mode) + operation(DCL_OUTPUT, *output(0))
    if is_rounded:
        code += operation(DCL_TEMPS, 1) + operation(MAD, *TEMPORARY, *input_of(1), *constant(255), *constant(0.5))
        code += operation(ROUND_NI, *TEMPORARY, *OF_TEMPORARY) + operation(
            MUL, *output(0), *OF_TEMPORARY, *constant(1 / 255)
        )
    else:
        code += operation(MOV, *output(0), *input_of(1))
    return container(
        [("SV_Position", POSITION, 0), ("COLOR", 0, 1)], [("SV_Target", 0, 0)], PIXEL_4_0, code + operation(RET)
    )


SHADERS = {
    "shader_vertex": vertex_shader(),
    "shader_flat": pixel_shader(CONSTANT, False),
    "shader_linear": pixel_shader(LINEAR_NOPERSPECTIVE, False),
    "shader_rounded": pixel_shader(LINEAR_NOPERSPECTIVE, True),
}


def text_of(name, data):
    lines = [", ".join(f"0x{byte:02x}" for byte in data[at : at + 16]) for at in range(0, len(data), 16)]
    return f"static const unsigned char {name}[] = {{\n    " + ",\n    ".join(lines) + "\n};\n"


def main():
    argparse.ArgumentParser(description=__doc__, formatter_class=argparse.RawDescriptionHelpFormatter).parse_args()
    print("/* Written by build/direct3d_shaders.py. */")
    for name, data in SHADERS.items():
        print(text_of(name, data))


if __name__ == "__main__":
    main()
