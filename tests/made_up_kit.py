"""A toolchain that is none: what build/kit.py asks of rt, for made-up crates of a few lines. It lies as bin/rt in a
folder whose crates/ it reads.

A function of a crate answers a number, which its contract says and its body works out from the answers of others:
`ensures value { result ≡ 3 }` .. `two() + 1`. One without a contract answers what its body does. A file
proofs/NAME/Answers.antt is a word that the body of NAME has to hold. The word `killed` in a body has the check
killed, and `endless` meets a limit.
"""
import concurrent.futures as futures
import os
import pathlib
import re
import shutil
import signal
import tempfile
import time
import types

HERE = pathlib.Path(__file__).resolve().parent.parent
FUNCTION = re.compile(
    r"^(?:#\[cycle\(\w+\)\]\n)?fn (\w+)\(\) -> u32\n?(?:    ensures value \{ result ≡ (\d+) \}\n)? ?\{\n    (.*)\n\}$",
    re.M,
)
CONST = re.compile(r"^const (\w+): u32 = (\d+);$", re.M)
CALL = re.compile(r"(\w+)\(\)")
rtlib = types.SimpleNamespace()


class Crate:
    def __init__(self, name, below):
        self.name, self.low, self.folder = name, below, str(HERE / "crates" / name)
        self.rlib = f"{self.folder}/out/rlib/{name}.rlib"

    def below(self):
        return list(dict.fromkeys(it for low in self.low for it in [*low.below(), low]))

    def count(self, pattern):
        return sum(len(re.findall(pattern, pathlib.Path(file).read_bytes())) for file in files_of(self.folder))

    def stamp(self):
        return repr(
            [pathlib.Path(file).read_text() for file in files_of(self.folder)] + [it.stamp() for it in self.low]
        )

    def is_built(self):
        stamp = pathlib.Path(self.rlib).parent / "stamp"
        return stamp.exists() and stamp.read_text() == self.stamp()

    def build_rlib(self, flags, anew):
        if self.is_built():
            return 0
        note(f"begins {self.name}")
        print("builds", self.name, *flags, file=self.out)
        time.sleep(0.3)
        is_bad = any("bad" in pathlib.Path(file).read_text() for file in files_of(self.folder))
        if not is_bad:
            pathlib.Path(self.rlib).mkdir(parents=True, exist_ok=True)
            (pathlib.Path(self.rlib) / "format").write_text("")
            (pathlib.Path(self.rlib).parent / "stamp").write_text(self.stamp())
        note(f"ends {self.name}")
        return int(is_bad)


def note(line):
    with open(HERE / "log", "a") as log:
        log.write(f"{line}\n")


def files_of(folder):
    return sorted(str(file) for part in ("src", "specs", "proofs") for file in pathlib.Path(folder, part).rglob("*.*t"))


def crates_below(top):
    found = {}
    for line in (HERE / "crates.txt").read_text().splitlines():
        name, _, low = line.partition(":")
        found[name] = Crate(name, [found[it] for it in low.split()])
    return [*found.values()]


rtlib.files_of, rtlib.crates_below, rtlib.guarded = files_of, crates_below, lambda: []
rtlib.lock, rtlib.stop_on_links = lambda crates: [], lambda folder: None


def edited(text, folder):
    """As rt: the texts that an edit makes, or why it can't be applied."""
    file, old = (re.search(rf"^{word}: (.*)$", text, re.M)[1] for word in ("file", "old"))
    count = pathlib.Path(folder, file).read_text().count(old)
    return ({}, None) if count == 1 else (None, f"an 'old:' text is in {file} {count} times, and not once")


def unread(line, changed):
    return line.startswith("unread: ")


def answers(functions, constants):
    """What each body works out, from what the contracts of those that it calls say."""
    known = {}
    for name, said, body in functions:
        value = eval(CALL.sub(r"\1", body), {}, known | constants)  # the test's own texts
        known[name] = int(said) if said else value
        yield name, said, body, value


def told(functions, constants, only, texts):
    """The lines on the functions, and whether all are proved."""
    unproved = set()
    for name, said, body, value in answers(functions, constants):
        if only and name not in only:
            continue
        why, word = [], texts.get(f"proofs/{name}/Answers.antt")
        if word and word not in body:
            unproved.add(name)
            yield f"./proofs/{name}/Answers.antt:1:1: error: `{word}` is not in scope"
            yield f"fn made_up::{name}: not proved"
            continue
        if "endless" in body:
            yield f"fn made_up::{name}: could not tell"
            continue
        if said and value != int(said):
            line = texts["src/lib.rt"][: texts["src/lib.rt"].index(f"fn {name}(")].count("\n") + 1
            yield f"note: src/lib.rt:{line}:5: it is not proved (`returns-clause-{name}`)"
            why = [f"`search` did not prove `returns-clause-{name}`"]
        why += [f"it calls `made_up::{it}`, which is not proved" for it in CALL.findall(body) if it in unproved]
        unproved |= {name} if why else set()
        yield f"fn made_up::{name}: " + (f"no proof: {'; '.join(why)}" if why else "proved")


def status_of(lines):
    states = [line for line in lines if line.startswith("fn ")]
    if any("could not tell" in line for line in states):
        return 3
    return int(not all(line.endswith(": proved") for line in states))


def checked(crate, texts, flags, kept):
    only = [flags[at + 1] for at, word in enumerate(flags) if word == "--only"]
    now = {
        os.path.relpath(file, crate.folder): pathlib.Path(file).read_text() for file in files_of(crate.folder)
    } | texts
    source = now["src/lib.rt"]
    functions, constants = FUNCTION.findall(source), {name: int(value) for name, value in CONST.findall(source)}
    note(f"checks {len(texts)} {' '.join(only)}")
    if "killed" in source:
        return types.SimpleNamespace(returncode=-signal.SIGKILL, stdout="")
    try:
        lines = [*told(functions, constants, only, now)]
    except NameError as fault:
        return types.SimpleNamespace(returncode=1, stdout=f"src/lib.rt:1:1: error[unresolved]: {fault}\n")
    return types.SimpleNamespace(returncode=status_of(lines), stdout="".join(f"{line}\n" for line in lines))


def seeded(crate, flags, start):
    room = tempfile.mkdtemp(dir=HERE)
    os.mkdir(f"{room}/seed")
    return room if checked(crate, {}, flags, f"{room}/seed").returncode == 0 else None


def in_lanes(tasks):
    """Each once those that it waits for have ended, several at once."""
    given, left, running = {}, dict(tasks), {}
    with futures.ThreadPoolExecutor(4) as pool:
        while left or running:
            for key in [key for key, task in left.items() if all(it in given for it in task[0])]:
                running[pool.submit(left.pop(key)[3], given, 1)] = key
            for it in futures.wait(running, return_when=futures.FIRST_COMPLETED).done:
                given[running.pop(it)] = it.result()
    return given


def need(crate):
    return 1


def work_for(crate):
    return None


def linked(folder, to):
    shutil.copytree(folder, to)


def share_work(is_alone):
    note("shares its work")
