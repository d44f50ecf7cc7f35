"""The program framedbg as a module of a web page: what rattle proves and lowers for x86-64, compiled for WebAssembly
with 64-bit memory.

The toolchain has no road from a program to WebAssembly. So each step leans on how the kit does its work, and one
that no longer works with another kit is told by its name.
"""
import hashlib
import pathlib
import re
import sys
import tempfile

from framedbg_client.program import tried_program

from . import kit
from .kit import step

HERE = pathlib.Path(__file__).resolve().parent
PROGRAM = pathlib.Path(tried_program()).resolve()
# Layout, flags and attributes as rattle itself has them for wasm64
LAYOUT = "e-m:e-p:64:64-p10:8:8-p20:8:8-i64:64-i128:128-n32:64-S128-ni:1:10:20"
TARGET = [
    "--target=wasm64-unknown-unknown",
    "-mcpu=lime1",
    "-msimd128",
    "--no-default-config",
    "-no-canonical-prefixes",
    "-ffunction-sections",
    "-fdata-sections",
    "-Werror",
]
NO_CALLS = '"no-builtin-bcmp" "no-builtin-memcmp" "no-builtin-strlen"'
AS_RATTLE = [
    word
    for it in (
        "-expand-div-rem-bits=64",
        "-expand-fp-convert-bits=64",
        "-trap-unreachable",
        "-no-x86-call-frame-opt",
        "-disable-machine-licm",
        "-disable-postra-machine-licm",
        "-sink-common-insts=false",
    )
    for word in ("-mllvm", it)
]
OF_X86 = r"@llvm\.x86\.\S*|@__x86\S*|x86_fp80|\bmodule asm\b.*|asm (?!sideeffect \"\", \"~\{memory\}\").*"
HELPERS = (
    b"// The functions that compiled code calls by name on wasm64",
    b"helpers.c-O2",
)  # where they begin and end in rattle-link
STACK = 8 << 20  # bytes


def for_wasm(text):
    """The same functions for the other machine, which has the same sizes and the same order of bytes. What names the
    first one is refused."""
    for pattern, new in (
        (r'(?m)^target datalayout = ".*"$', f'target datalayout = "{LAYOUT}"'),
        (r'(?m)^target triple = ".*"$', 'target triple = "wasm64-unknown-unknown"'),
        (r"(?m)^define i32 @main\(\)", "define i32 @framedbg_main()"),
    ):
        text, count = re.subn(pattern, new, text)
        if count != 1:
            raise ValueError(f"{pattern} stands {count} times in the module")
    text = re.sub(r' ?"(?:probe-stack|stack-probe-size)"="[^"]*"', "", text).replace('"target-cpu"="x86-64"', NO_CALLS)
    named = re.findall(OF_X86, text)
    if named:
        raise ValueError(f"the module names x86-64: {named[:5]}")
    return text


def helpers():
    """The functions that code compiled for wasm64 calls by name (products and shifts of 128 bits), as rattle-link
    has them within."""
    program = (kit.folder() / "bin/rattle-link").read_bytes()
    start = program.index(HELPERS[0])
    return program[start : program.index(HELPERS[1], start)]


def compile_c(source, to):
    kit.run(
        kit.tool("clang"), *TARGET, "-O2", "-fwrapv", "-ffreestanding", "-nostdinc", "-c", "-x", "c", source, "-o", to
    )


def stamp():
    """What the compiled program depends on: the kit, the proved program as it was built, and how it is compiled."""
    parts = [
        kit.name().encode(),
        PROGRAM.read_bytes(),
        *((HERE / name).read_bytes() for name in ("lower.py", "module.py")),
    ]
    return hashlib.sha256(b"".join(hashlib.sha256(part).digest() for part in parts)).hexdigest()


def compile_program(folder):
    """The program and the helpers as objects in a folder, made anew where the program or the kit is another."""
    with step("find the built program and the kit"):
        wanted, stamped = stamp(), folder / "stamp"
    if stamped.exists() and stamped.read_text() == wanted:
        return
    folder.mkdir(parents=True, exist_ok=True)
    stamped.unlink(missing_ok=True)
    with tempfile.TemporaryDirectory() as name:
        own, log = pathlib.Path(name), folder / "lower.log"
        with step(f"prove and lower the program (see {log})"), open(log, "wb") as told:
            kit.run(sys.executable, HERE / "lower.py", own, stdout=told, stderr=told)
        with step("write it for WebAssembly"):
            (own / "wasm.ll").write_text(for_wasm((own / "framedbg.ll").read_text()))
        with step("compile it for WebAssembly"):
            kit.run(
                kit.tool("clang"),
                *TARGET,
                *AS_RATTLE,
                "-O3",
                "-c",
                "-x",
                "ir",
                own / "wasm.ll",
                "-o",
                folder / "program.o",
            )
        with step("compile the helpers of rattle-link"):
            (own / "helpers.c").write_bytes(helpers())
            compile_c(own / "helpers.c", folder / "helpers.o")
    stamped.write_text(wanted)


def link(folder, to, host=HERE / "host.c", most_memory=None):
    """The module, with host.c in the place of the C library. A name that host.c lacks stops it."""
    with tempfile.TemporaryDirectory() as name:
        own = pathlib.Path(name) / "host.o"
        with step("compile host.c"):
            compile_c(host, own)
        with step("link them"):
            limit = [f"--max-memory={most_memory}"] if most_memory else []
            kit.run(
                kit.tool("ld.lld"),
                "-flavor",
                "wasm",
                "-mwasm64",
                "--no-entry",
                "--stack-first",
                "-z",
                f"stack-size={STACK}",
                "--gc-sections",
                "--strip-all",
                "--threads=1",
                *limit,
                folder / "program.o",
                folder / "helpers.o",
                own,
                "-o",
                to,
            )


def build(folder, **how):
    """The module's bytes."""
    compile_program(folder)
    link(folder, folder / "framedbg.wasm", **how)
    return (folder / "framedbg.wasm").read_bytes()
