"""What an edit's refusal rests on: contracts, definitions and the edits themselves. One sum for each crate, with those of the crates below."""
import re

from tools.crates import DEPENDENCIES, TOP, sum_of

# For each crate the sum with which all its edits were refused. Only `tools/edits --all` writes this file.
REFUSED = TOP / "tools/edit_parts/refused.tsv"
FUNCTION = re.compile(r"( *)(?:pub(?:\([a-z]+\))? )?(?:(?:final|const|unsafe) )*fn ")


def without_bodies(text):
    """The lines of a source, in the layout of `rt fmt`, without comments and without the bodies of functions. A function's body begins
    in a line with nothing but a brace if there are clauses, and else with the brace at the end of the signature."""
    header = body = None
    for line in text.splitlines():
        if body is not None:
            body = None if line == body else body
            continue
        if not line.strip() or line.lstrip().startswith("//"):
            continue
        found = FUNCTION.match(line)
        header = found[1] if found else header
        yield line
        if header is not None and (line == header + "{" or line.endswith(" {") and (found or line.startswith(header + ")"))):
            body, header = header + "}", None


def own_sum(crate):
    folder = TOP / "crates" / crate
    sources = ["\n".join(without_bodies(it.read_text(encoding="utf-8"))) for it in sorted(folder.glob("src/**/*.rt"))]
    whole = [*sorted(folder.glob("specs/**/*.antt")), folder / "edits", *sorted((TOP / "tools").glob("edit_parts/*.py")), TOP / "tools/edits"]
    return sum_of(repr([sources, [it.read_text(encoding="utf-8") for it in whole if it.exists()]]).encode())


def sums(crates):
    """The sum of each of these crates."""
    known = {}

    def of(crate):
        if crate not in known:
            known[crate] = sum_of(" ".join([own_sum(crate), *map(of, DEPENDENCIES[crate])]).encode())
        return known[crate]

    return {crate: of(crate) for crate in crates}


def changed(crates):
    """Those of these crates whose sum isn't the one with which all their edits were refused."""
    recorded = dict(line.split("\t") for line in REFUSED.read_text(encoding="utf-8").splitlines()) if REFUSED.exists() else {}
    return [crate for crate, its_sum in sums(crates).items() if recorded.get(crate) != its_sum]


def record(crates):
    """Notes that all edits of these crates, which are all that have some, were refused."""
    REFUSED.write_text("".join(f"{crate}\t{its_sum}\n" for crate, its_sum in sums(sorted(crates)).items()), encoding="utf-8")
