"""Tries edits of a crate, many in one check of a copy of it."""
import itertools
import re
import shutil
import signal
from typing import NamedTuple

import kit
import libraries
from editing import edits, verdicts
from editing.verdicts import Kind, Verdict

OVER = 0.7  # what a check takes of the memory of one from nothing, once its crate was checked


class Said(NamedTuple):
    status: int
    text: str
    unread: str  # a line on an edited text that can't be read, or nothing

    def is_checked(self):
        """Whether the check came as far as the functions."""
        return self.status in (0, 1, 3) and not self.unread and re.search(r"^fn ", self.text, re.M) is not None


class Trial:
    """The edits of a crate, which are tried over what a check of their functions as they stand left; or from nothing
    where the gate has proved the crate, as it keeps none of its work, and a batch needs little of it."""

    def __init__(self, crate, todo, texts, most):
        self.crate, self.texts = crate, texts
        self.batches = edits.batches(todo, most, texts)
        self.number = itertools.count()

    def tasks(self, tell):
        """For the lanes of rt: what each waits for, its work, its memory, and its call."""
        seed, needs = (self.crate.name, "seed", 0), libraries.memory(self.crate)
        yield seed, ([], 0, needs, lambda given, jobs: self.seeded(jobs))
        for number, batch in enumerate(self.batches):

            def call(given, jobs, batch=batch):
                tell(self.tried(batch, given[seed]))

            yield (self.crate.name, "edits", number), ([seed], len(batch) * len(self.texts), OVER * needs, call)

    def seeded(self, jobs):
        """A folder with what such a check left, no name where none is wanted, or None where the check failed."""
        if kit.is_of_gate(self.crate):
            return ""
        rt, flags, start = kit.rt(), ["--jobs", str(jobs)], kit.rt().work_for(self.crate)
        only = only_of([edit for batch in self.batches for edit in batch])
        return rt.seeded(self.crate, [*flags, *only], start) or rt.seeded(self.crate, flags, start)

    def check(self, batch, seed, flags):
        """What the prover says of the crate with these edits made."""
        rt, made = kit.rt(), edits.can_be_made(batch, self.texts)
        over = f"{seed}/{next(self.number)}" if seed else None
        try:
            if over:
                rt.linked(f"{seed}/seed", over)
            ran = rt.checked(self.crate, made, ["--jobs", "1", *flags], over)
            if ran.returncode == -signal.SIGKILL:  # most likely for memory
                ran = rt.checked(self.crate, made, ["--jobs", "1", *flags], over)
        finally:
            shutil.rmtree(over or "", ignore_errors=True)
        unread = next((line for line in ran.stdout.split("\n") if rt.unread(line, made)), "")
        return Said(ran.returncode, ran.stdout, unread)

    def tried(self, batch, seed):
        """The verdicts on a batch."""
        if seed is None:
            return [(edit, Verdict(Kind.UNSURE, "the crate is not proved as it stands")) for edit in batch]
        if not batch[0].is_of_functions():
            return [(batch[0], self.alone(batch[0], seed))]
        said = self.check(batch, seed, only_of(batch))
        half = len(batch) // 2
        if half and not said.is_checked():
            return self.tried(batch[:half], seed) + self.tried(batch[half:], seed)
        now = self.texts | edits.can_be_made(batch, self.texts)
        told = [said.is_checked() and verdicts.of_batch(edit, said.status, said.text, now) for edit in batch]
        return [(edit, it or self.alone(edit, seed)) for edit, it in zip(batch, told)]

    def alone(self, edit, seed):
        """The verdict of a check of the whole crate."""
        said = self.check([edit], seed, [])
        if said.is_checked():
            return verdicts.of_whole(edit, said.status, said.text, self.texts | edits.can_be_made([edit], self.texts))
        why = said.unread or next((line for line in said.text.split("\n") if "error" in line), said.text[-200:])
        if said.unread or re.search(r"\berror\[[\w-]+\]", said.text):
            return Verdict(Kind.NOTHING, f"it can't be compiled or read: {why}")
        return Verdict(Kind.UNSURE, f"its check ended with status {said.status}: {why}")


def only_of(batch):
    """The flags that have only those functions checked whose bodies these edits change."""
    changed = sorted({function.end() for edit in batch for function in edit.functions if function})
    return [word for name in changed for word in ("--only", name)]
