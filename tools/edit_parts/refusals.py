"""Judges what the prover says of a wrong body: whether it refused it at a value of a function.

The head of tools/edits says what counts. A refusal for an unknown reason doesn't.
"""
import re

from tools.crates import TOP

# How the gate says that it found nothing but missing names, and what the prover says of one.
NAME_ALONE = "only because a proof file names what the edit took away"
# It writes 'record `R`', and on the next line, which the log doesn't have, that R has no such field.
MISSING = re.compile(r"has no field|is not in scope|has no `|is no name|was not admitted|error: `[^`]*`: record `")
NOT_COVERED = re.compile(r"does not cover|is not made yet|has no proof")
# The goal that the bounds of a slice hold, whose line may also say that `search` found no proof; and a law or a definition that cites
# itself.
BOUND = re.compile(r"\(`slice_bounds-[^`]*`\)")
CYCLE = re.compile(r"import cycle|expected a measure")
# A goal that is left open at a place of the code, a law that doesn't hold of its members, and a written proof of a goal that no longer fits
# it.
PLACE = r"(?:\./)?\S+:\d+:\d+: "
GOAL = re.compile(rf"^: note: {PLACE}(?:it is not proved that |the law does not hold|no proof of the law was found)")
PROOF = re.compile(r"^: (?:\./)?(?:proofs|specs|src)/\S+:\d+:\d+: error: `")
# What the log of `rt ci` says of an edit in must-fail, and at its end.
EDIT = re.compile(r"^rt: must-fail (\S+?): (.*)$")
SUMMARY = re.compile(r"^(\d+) passed, (\d+) failed$")
REFUSED = "refused, as it must be"
# The gate counts the first two as failed itself, and the third as nothing: an edit that can't be applied, compiled or read shows nothing.
FAILED, BAD = ("NOT REFUSED", "NOT TRIED"), "BAD EDIT"


def why_no_value(message):
    """Why a refusal says nothing of a contract, or None."""
    if NAME_ALONE in message or PROOF.match(message) and MISSING.search(message):
        return "is refused for a missing name, and not at a value"
    if BOUND.search(message):
        return "is refused at the bound of a slice, and not at a value"
    if CYCLE.search(message):
        return "is refused since a law or a definition cites itself, and not at a value"
    if not message or NOT_COVERED.search(message):
        return "is refused at no value, as where the prover does not cover the edited function"
    if not (GOAL.match(message) or PROOF.match(message)):
        return "is refused for an unknown reason"
    return None


def faults_of_log(lines, edits):
    """The edits in must-fail that a log doesn't show to be refused at a value, and whether the gate counted each as passed. An edit that
    the log doesn't name is a fault too, since then the toolchain has changed its words."""
    verdicts = {found[1]: found[2] for found in map(EDIT.match, lines) if found}
    if edits and not verdicts:
        yield "every edit has no line in the log", False
        return
    for edit, text in verdicts.items():
        why = why_no_value(text.removeprefix(REFUSED)) if text.startswith(REFUSED) else None
        if why:
            yield f"{edit} {why}: {text}", True
        elif text.startswith(BAD):
            yield f"{edit} can't be tried: {text}", False
        elif not text.startswith((REFUSED, *FAILED)):
            yield f"{edit} has an unknown verdict in the log: {text}", False
    # Of a crate that isn't proved no edit is tried, and the gate fails.
    tried = {edit.split("/")[0] for edit in verdicts}
    yield from ((f"{edit} has no line in the log", False) for edit in sorted(edits - verdicts.keys()) if edit.split("/")[0] in tried)


def judged_log(lines):
    """The faults of the gate's log of the edits in must-fail, how many passed, and how many failed."""
    faults = list(faults_of_log(lines, {f"{it.parent.parent.name}/{it.name}" for it in TOP.glob("crates/*/must-fail/*.edit")}))
    texts, counts = [text for text, _ in faults], SUMMARY.match(lines[-1] if lines else "")
    if not counts:
        return [*texts, "the log doesn't end with 'N passed, M failed'"], 0, len(faults) + 1
    return texts, int(counts[1]) - sum(is_passed for _, is_passed in faults), int(counts[2]) + len(faults)
