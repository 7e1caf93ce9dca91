"""Changes a module for pointers of 64 bits for a machine whose pointers have 32.

The changes, each checked or refused:
 - An export gets a front with C's types there: a size_t is extended to the 64 bits that the code computes with, one that is returned is
   cut, and one that is written through a pointer is passed through a variable. The header says which they are.
 - The sizes of memcpy, memmove and memset have 32 bits.
 - A struct that is read as one value is read field by field, each at its place with pointers of 64 bits.
 - An address as a number, which is only compared, is extended by zeros.
 - The wipe's atomics of 64 bits become volatile accesses, since such a processor has none. (They only hide the writes from the compiler.)
In memory a pointer occupies the first 4 of its 8 bytes: each offset in the module is a number that is counted for 64 bits. The module makes
no pointer of a number, and has no constant with a pointer in it. Lengths stay 64 bits wide within the code.
"""
import itertools
import re
import sys

# How many bytes a value takes in memory with pointers of 64 bits. Its address is a multiple of that.
SIZES = {"i8": 1, "i16": 2, "i32": 4, "i64": 8, "ptr": 8}
WIDE = "wide_"
# What the changes don't cover.
REFUSED = {
    r"\b(?:ptrtoint|inttoptr|cmpxchg)\b": "makes numbers of pointers, or pointers of numbers",
    r"^@.*= .*\bptr @": "has a constant with a pointer in it",
}
LEFT = {
    r"\bptrtoaddr\b": "makes a number of an address in another way",
    r"\b(?:load|store) [{\[<](?!\d+ x i)|\bstore \{": "reads or writes another struct as one value",
    r"^.*= (?:load atomic|atomicrmw)|^ *(?:store atomic|fence)": "has other atomics than those of the wipe",
    r"@llvm\.mem(?:set|cpy|move)[\w.]*i64": "copies in a way that isn't known",
}


def refuse(text, patterns):
    for pattern, why in patterns.items():
        if found := re.search(pattern, text, re.M):
            sys.exit(f"dist: for pointers of 32 bits, the module {why}: {found[0]}")


def parameter(at, text):
    """A parameter of the header: how the front declares it, the lines before the call, what is passed on, and the lines after it."""
    here, wide = f"%p{at}", f"%w{at}"
    if re.fullmatch(r"size_t \w+", text):
        return f"i32 noundef {here}", [f"{wide} = zext i32 {here} to i64"], f"i64 noundef {wide}", []
    if re.fullmatch(r"size_t \*\w+", text):
        after = [f"%v{at} = load i64, ptr {wide}, align 8", f"%t{at} = trunc i64 %v{at} to i32", f"store i32 %t{at}, ptr {here}, align 4"]
        return f"ptr noundef {here}", [f"{wide} = alloca i64, align 8"], f"ptr noundef {wide}", after
    kind = "ptr" if re.search(r"[*\[]", text) else {"uint32_t": "i32", "uint64_t": "i64"}[text.split()[0]]
    return f"{kind} noundef {here}", [], f"{kind} noundef {here}", []


def front(result, name, parameters):
    """The function with C's types there, which calls the one of the module."""
    parts = [parameter(at, it) for at, it in enumerate(parameters)]
    declared, before, passed, after = ([it[part] for it in parts] for part in range(4))
    kind = {"void": "void", "size_t": "i64"}.get(result, "i32")
    call = f"call {kind} @{WIDE}{name}({', '.join(passed)})"
    lines = [*itertools.chain(*before), call if kind == "void" else f"%r = {call}", *itertools.chain(*after)]
    lines += {"void": ["ret void"], "i64": ["%n = trunc i64 %r to i32", "ret i32 %n"], "i32": ["ret i32 %r"]}[kind]
    head = f"define {'void' if kind == 'void' else 'i32'} @{name}({', '.join(declared)}) nounwind {{"
    return "\n".join([head, *(f"  {it}" for it in lines), "}"])


def with_fronts(text, calls):
    """The module with a front for each export; `calls` are those that the header declares: result, name and parameters of each."""
    fronts = []
    for result, name, parameters in calls:
        if re.search(rf"^define (?!internal).*@{name}\(", text, re.M):
            text = re.sub(rf"@{name}\b", f"@{WIDE}{name}", text)
            text = re.sub(rf"^define (?!internal)(.*@{WIDE}{name}\()", r"define internal \1", text, flags=re.M)
            fronts.append(front(result, name, parameters))
    if left := re.findall(r"^define (?!internal).*?@([\w\":<>]+)\(", text, re.M):
        sys.exit(f"dist: the header doesn't declare {', '.join(left)}")
    return "\n".join([text, *fronts, ""])


def by_fields(found):
    """The lines that read a struct field by field."""
    space, name, kind, place = found.groups()
    lines, at, so_far = [], 0, "poison"
    fields = kind.strip("{} ").split(", ")
    for i, field in enumerate(fields):
        at = -(-at // SIZES[field]) * SIZES[field]
        to = name if i == len(fields) - 1 else f"{name}.to.{i}"
        lines += [f"{name}.at.{i} = getelementptr i8, ptr {place}, i64 {at}", f"{name}.is.{i} = load {field}, ptr {name}.at.{i}, align 1",
                  f"{to} = insertvalue {kind} {so_far}, {field} {name}.is.{i}, {i}"]
        so_far, at = to, at + SIZES[field]
    return "\n".join(space + it for it in lines)


def with_sizes(text):
    """The module with sizes of 32 bits for memcpy, memmove and memset."""
    count = itertools.count()

    def cut(found):
        """The lines of a call whose size is cut to 32 bits."""
        head, size, tail = found[1].replace("p0.i64", "p0.i32"), found[2], found[3]
        if size.isdigit():
            return f"{head}i32 {size}{tail}"
        name = f"%size.{next(count)}"
        return f"  {name} = trunc i64 {size} to i32\n{head}i32 {name}{tail}"

    text = re.sub(r"^( *(?:tail )?call void @llvm\.mem(?:set|cpy|move)\.[\w.]*i64\(.*?, )i64 (%[\w.]+|\d+)(, i1.*)$", cut, text, flags=re.M)
    return re.sub(r"^(declare void @llvm\.mem(?:set|cpy|move)[\w.]*)i64(\(.*), i64(?: immarg)?, i1", r"\1i32\2, i32, i1", text, flags=re.M)


def without_atomics(text):
    """The module with volatile accesses instead of the wipe's atomics."""
    text = re.sub(r"load atomic i64, ptr (%\w+)(?: \w*)* seq_cst, align 8", r"load volatile i64, ptr \1, align 8", text)
    return re.sub(r"^( *%\w+) = atomicrmw xchg ptr (%\w+), i64 (%?\w+) seq_cst, align 8$",
                  r"\1 = load volatile i64, ptr \2, align 8\n  store volatile i64 \3, ptr \2, align 8", text, flags=re.M)


def for_32(text, calls):
    """A module for pointers of 32 bits, whose exports are the calls of a header."""
    refuse(text, REFUSED)
    text = with_sizes(with_fronts(text, calls))
    text = re.sub(r"\bptrtoaddr (ptr %[\w.]+ to i64)$", r"ptrtoint \1", text, flags=re.M)
    text = re.sub(r"^( *)(%[\w.]+) = load (\{[^}]*\}), ptr (%[\w.]+), align \d+$", by_fields, text, flags=re.M)
    text = without_atomics(text)
    refuse(text, LEFT)
    return text
