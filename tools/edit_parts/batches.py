"""Plants edits of a crate together, has their functions checked, and tells which of them the prover refused."""
import re
import signal
import time

from tools.edit_parts import refusals
from tools.toolchain import check_crate

PLACE = re.compile(r"(?:note: )?(?:\./)?(\S+?):(\d+):\d+: ")
# How a check ends that came to a verdict, with --only and without.
ENDED = re.compile(r"only=\d+ proved=\d+$|logic=(not-)?proved")
NO_FUNCTION = re.compile(r"(?:has no function|several functions are named) `([^`]*)`")


class Batch:
    """Edits that are planted together in a copy of their crate, and harmless edits."""

    def __init__(self, crate):
        self.crate, self.edits, self.harmless, self.texts = crate, [], [], {}

    def plant(self, edit):
        """Plants an edit too, if no other of the batch changes its functions, and returns whether it did."""
        others = [*self.edits, *self.harmless]
        is_free = all(it.is_within and edit.is_within and not it.functions.keys() & edit.functions.keys() for it in others)
        texts = edit.planted(self.crate.folder, self.texts) if is_free else None
        if texts:
            self.texts = texts
            (self.harmless if edit.is_harmless else self.edits).append(edit)
        return texts is not None

    def label(self):
        return f"{self.crate.name}: {len(self.edits)} together" if self.edits[1:] else f"{self.crate.name}/{self.edits[0].name}"

    def check(self, kept):
        """Checks the functions that are changed, over the results that a folder keeps of earlier checks, and notes the prover's answer."""
        planted, began = [*self.edits, *self.harmless], time.monotonic()
        paths = {function.prover_path(): function.module_path() for edit in planted for function in edit.functions.values()}
        paths = paths if all(edit.functions for edit in planted) else {}
        while True:
            # (a path that is empty names nothing, so all is checked then)
            only = [word for path in sorted(paths) for word in ("--only", path)] if all(paths) else []
            ran = check_crate(self.crate, kept, self.texts, only)
            unknown = NO_FUNCTION.search(ran.stdout) if ran.returncode == 2 else None
            if not unknown or unknown[1] not in paths:
                break
            module = paths.pop(unknown[1])
            paths[module] = ""
        if ran.returncode == -signal.SIGKILL:
            # most likely for memory
            ran = check_crate(self.crate, kept, self.texts, only)
        self.status, self.lines, self.seconds = ran.returncode, ran.stdout.rstrip("\n").split("\n"), time.monotonic() - began
        self.is_judged = self.status in (0, 1) and bool(ENDED.match(self.lines[-1]))
        self.values = list(self.refused_values()) if self.is_judged else []

    def refused_values(self):
        """What the check refused at a value: the file, the line in it, and the words."""
        for line in self.lines:
            at = PLACE.match(line)
            if at and (": error" in line or line.startswith("note: ")) and refusals.why_no_value(f": {line}") is None:
                yield at[1], int(at[2]), line[:200]

    def refused(self, edit):
        """What the check says of a value of the functions that an edit changes, or None."""
        messages = (line for path, at, line in self.values if edit.has_place(self.texts, path, at))
        return next(messages, None)

    def is_clear(self):
        """Whether each refusal is at a function that is changed. Then no edit can be refused because of another one."""
        planted = [*self.edits, *self.harmless]
        return all(any(it.has_place(self.texts, path, at) for it in planted) for path, at, _ in self.values)

    def refused_though_harmless(self):
        """A line for each harmless edit that was refused."""
        for edit in self.harmless:
            if message := self.refused(edit):
                yield f"{self.crate.name}/{edit.name} REFUSED: it is a harmless edit, which computes the same: {message}"

    def answers(self):
        """What is said of each edit that was refused, if none can be refused because of another one."""
        is_sound = not [*self.refused_though_harmless()] and (self.is_clear() or not self.edits[1:])
        return {it: self.refused(it) for it in self.edits if is_sound and self.refused(it)}

    def why_not(self):
        """Why the edit of a batch with a single one counts as not refused."""
        if self.status == 0:
            return "NOT REFUSED: what it changes is proved with it"
        first = next((it for it in self.lines if PLACE.match(it) or "error" in it), self.lines[-1])
        is_bad = any("error[" in it for it in self.lines)
        why = "BAD EDIT: it can't be compiled" if is_bad else "NOT TRIED: no verdict"
        why = "refused at no value of its own function" if self.is_judged else why
        return f"{why} (status {self.status}): {first[:200]}"


def batches(crate, edits):
    """The edits in as few batches as their functions allow, with the harmless ones among them in each."""
    fewest = []
    for edit in edits:
        if not edit.is_harmless and not any(it.plant(edit) for it in fewest):
            fewest.append(Batch(crate))
            fewest[-1].plant(edit)
    for batch in fewest:
        batch.has_harmless = any([batch.plant(it) for it in edits if it.is_harmless])
    return fewest
