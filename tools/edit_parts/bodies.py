"""Reads edits, and finds the functions whose bodies they change, in files as `rt fmt` lays them out."""
import os
import re

FUNCTION = re.compile(r"^( *)(?:pub(?:\([^)]*\))? )?(const )?(?:unsafe )?(?:extern \"C\" )?fn (\w+)")
BLOCK = re.compile(r"^( *)(?:pub(?:\([^)]*\))? )?(?:unsafe )?(impl|trait|mod)\b")
USE = re.compile(r"(?:(?:pub |ghost )?use [^;]*; ?)+$")


class Function:
    """A function with a body: where it is, and what the prover calls it. Lines are counted from 1."""

    def __init__(self, path, lines, head, start, end):
        indent, self.is_const, self.name = FUNCTION.match(lines[head]).groups()
        self.path, self.start, self.end = path, start + 1, end + 1
        self.trait, self.type = owner(lines, head, len(indent))
        self.key = path, self.trait, self.type, self.name
        # What the prover calls the impl, if its type is a plain name: as U64Word for the trait Word at u64.
        is_plain = re.fullmatch(r"\w+", self.type)
        self.folder = self.type[0].upper() + self.type[1:] + self.trait if is_plain else ""
        while head and re.match(r"\s*(#\[|//)", lines[head - 1]):
            head -= 1
        self.first = head + 1
        module = path[len("src/") : -len(".rt")].split("/")
        self.module = module[:-1] if module[-1] in ("mod", "lib", "main") else module

    def prover_path(self):
        """Its path as the prover accepts it, if the text shows it, or else the path of its module. A method's path is in the module of its
        type, wherever the impl is. So a method is named by the end of its path."""
        if self.type:
            return f"{self.folder}::{self.name}" if self.folder else self.module_path()
        return "::".join([*self.module, self.name])

    def module_path(self):
        return "::".join(self.module)

    def has_place(self, path, line):
        """Whether a line of a file of src/, or a file of proofs/, is this function's own."""
        if path == self.path:
            return self.first <= line <= self.end
        parts = path.split("/")
        if parts[0] != "proofs" or len(parts) < 3 or parts[-2] != self.name:
            return False
        if not self.type:
            return parts[1:-2] == self.module
        # A method's proof is below the module of its type, wherever the impl is. If a trait has several impls, the name is longer.
        of = parts[-3]
        return bool(self.folder) and (of.startswith(self.folder) if self.trait else of == self.folder)


def owner(lines, head, indent):
    """The trait and the type of the impl that a line is in. A trait's own block has only its name, and outside of both there is nothing."""
    blocks = [at for at in range(head) for found in [BLOCK.match(lines[at])] if found and len(found[1]) < indent]
    if not blocks or BLOCK.match(lines[blocks[-1]])[2] == "mod":
        return "", ""
    text, word = " ".join(lines[blocks[-1] : head]).split("{")[0].replace("->", ""), BLOCK.match(lines[blocks[-1]])[2]
    while re.search(r"<[^<>]*>", text):
        text = re.sub(r"<[^<>]*>", "", text)
    text = re.split(r"\bwhere\b|:(?!:)", text.partition(word)[2])[0]
    trait, _, of = text.rpartition(" for ")
    return [it.strip().split("::")[-1] for it in (trait, of)]


def body(lines, head, indent):
    """The first and the last line of the body of the function whose head is a line, or None if it has none."""
    for start in range(head, len(lines)):
        line = lines[start]
        if line == indent + "{}" or start == head and line.endswith("}") and "{" in line:
            return start, start
        if start > head and (not line or FUNCTION.match(line) or not line.startswith(indent)):
            return None
        if line.endswith("{") and not line.startswith(indent + " "):
            return start, next(end for end in range(start + 1, len(lines)) if lines[end] == indent + "}")
    return None


def functions(path, text):
    """The functions of a file that have bodies. One within another's body is that one's."""
    lines, found = text.split("\n"), []
    for at, line in enumerate(lines):
        head = FUNCTION.match(line)
        if head and not (found and at < found[-1].end):
            ends = body(lines, at, head[1])
            found += [Function(path, lines, at, *ends)] if ends else []
    return found


def edits_in(file):
    """The edits of a file, if there is one: each begins with a line 'edit: NAME', and an empty line ends it. Two of one name are a fault of
    the second."""
    texts = file.read_text(encoding="utf-8").rstrip("\n").split("\n\n") if file.exists() else []
    edits = [Edit(*re.fullmatch(r"(?:edit: (\S+)\n)?(.*)", it, re.S).groups()) for it in texts]
    for at, edit in enumerate(edits):
        if not edit.name or edit.name in [it.name for it in edits[:at]]:
            edit.fault = "it has no line 'edit: NAME', or another edit's name"
    return edits


class Edit:
    """What a crate's file of edits says of one bug, and pairs of old and new code. Each 'old:' is in its file exactly once. A harmless edit
    has a line 'same:' in place of 'bug:': both of each pair compute the same, so that no prover may refuse it. If an edit changes more than
    bodies, a line 'at: src/FILE FUNCTION' names the function that has to refuse it."""

    def __init__(self, name, text):
        self.name, self.text, self.pairs, self.fault, self.is_harmless = name, text, [], None, False
        fields = [line.partition(":")[::2] for line in self.text.splitlines()]
        if not re.fullmatch(r"(bug|same)( at)?( file( old new)+)+", " ".join(key for key, _ in fields)):
            self.fault = "its lines aren't 'bug:' or 'same:', 'at:' or none, 'file:' and pairs of 'old:' and 'new:'"
            return
        self.is_harmless = fields[0][0] == "same"
        self.at = fields[1][1].split() if fields[1][0] == "at" else None
        for key, text in fields:
            if key == "file":
                path = text.strip()
            elif key == "old":
                old = text.removeprefix(" ")
            elif key == "new":
                self.pairs.append((path, old, text.removeprefix(" ")))

    def planted(self, folder, texts, changes=None):
        """The given texts of files of a crate's folder with this edit made too, or None if an 'old:' isn't in its file exactly once. What
        it changes is added to `changes`: a file, its text, and the pair."""
        changed = dict(texts)
        for path, old, new in self.pairs:
            if path not in changed:
                with open(f"{folder}/{path}", encoding="utf-8") as it:
                    changed[path] = it.read()
            if changed[path].count(old) != 1 or old == new:
                return None
            if changes is not None:
                changes.append((path, changed[path], old, new))
            changed[path] = changed[path].replace(old, new)
        return changed

    def place(self, folder):
        """Notes the functions that have to refuse it in a crate's folder, and whether it changes nothing but their bodies, or why it can't
        be made. Where no function is known, each of the crate may refuse it."""
        self.functions, self.is_within, changes = {}, True, []
        try:
            is_made = self.planted(folder, {}, changes)
            changed = [changed_by(*it) for it in changes]
            self.functions = {it.key: it for it in changed if it}
            # An import that is added changes no other function.
            self.is_within = all(it or new.startswith(old) and USE.match(new) for it, (_, _, old, new) in zip(changed, changes))
            if not self.is_within:
                self.functions = named(folder, *self.at) if self.at else {}
        except OSError as error:
            self.fault = f"{error.filename} can't be read"
        else:
            self.fault = None if is_made else "an 'old:' isn't in its file exactly once, or is its 'new:'"
            if self.at and (self.is_within or not self.functions):
                self.fault = "'at:' names no function, or the edit changes only bodies and needs no 'at:'"

    def has_place(self, texts, path, line):
        """Whether a line of a file, where the crate has these texts, belongs to one of the functions that have to refuse it."""
        own = []
        for key, function in self.functions.items():
            own += [it for it in functions(key[0], texts[key[0]]) if it.key == key] if key[0] in texts else [function]
        return not own or any(it.has_place(path, line) for it in own)


def named(folder, path, name):
    """The functions of that name in a file of a crate's folder, by their keys."""
    with open(f"{folder}/{path}", encoding="utf-8") as it:
        return {found.key: found for found in functions(path, it.read()) if found.name == name}


def changed_by(path, text, old, new):
    """The function whose body a pair changes, or None where it changes something else."""
    at = text.index(old) + len(os.path.commonprefix([old, new]))
    line, column = text.count("\n", 0, at) + 1, at - text.rfind("\n", 0, at) - 1
    head = text.split("\n")[line - 1].find("{")
    # A const fn is computed in other functions' types, and the functions of a cycle share one proof.
    if not path.startswith("src/") or "#[cycle" in text:
        return None
    of = [it for it in functions(path, text) if it.start <= line <= it.end and not it.is_const]
    return of[0] if of and (line > of[0].start or column > head >= 0) else None
