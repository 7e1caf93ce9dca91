"""Refuses lines that an assembly file may not have. It may have instructions, labels and constants, and what every assembler reads alike.
So there is no other section, name, file or condition, and no macro but the one that exports."""
import re

from symbols.bits import Unproved

NAME, STRING = r"[\w.$]+", r'"(?:[^"\\]|\\(?:[bfnrt"\\]|[0-7]{3}))*"'
EXPORT = r"(?:%s\.)?\\name(?:\\\(\)_\w+)?" % NAME  # in the macro
DIRECTIVES = [
    r"macro\texport_\w+ name", "endm", r"(?:globl|hidden)\t" + EXPORT, r"set\t%s, %s" % (EXPORT, EXPORT),
    r"ifdef\t(?:in_rust|chosen)", r"ifndef\tin_rust", "else", "endif",
    r"(?:file|ident|ascii|asciz)\t" + STRING, r"(?:byte|hword|short|word|long|quad|xword)\t{0}(?:, {0})*".format(r"[-\w.]+"),
    r"zero\t\d+(?:,\d+)?", r"p2align\t\d+(?:, 0x0)?", r"type\t%s,@(?:function|object)" % NAME, r"size\t{0}, {0}(?:-{0})?".format(NAME),
    r'section\t\.text\.%s,"ax",@progbits' % NAME, r'section\t\.rodata\.%s,"a",@progbits' % NAME,
    r'section\t\.rodata\.cst(\d+),"aM",@progbits,\1', r'section\t"?\.note\.(?:gnu\.property|fotsgure)"?,"a?",[@%]note',
    r'section\t"\.note\.GNU-stack","",@progbits',
    # For Windows:
    "text", r'section\t\.rdata,"dr"', r"def\t%s; \.scl\t2; \.type\t32; \.endef" % EXPORT, r"def\t%s;" % NAME, r"scl\t3;", r"type\t32;",
    "endef", r"seh_\w+(?:[\t ][\w.%, ]+)?",
]
INSTRUCTION = r"\t(?:notrack )?[a-z]\w*(?:\.\w+)*(?:\t[\w.$%@:!,+*()<>\[\]{} \t#-]*)?"
LINE = r"(?:%s:|\t?\.(?:%s)|%s|/\*(?:(?!\*/).)*\*/)?" % (NAME, "|".join(DIRECTIVES), INSTRUCTION)
WIDTHS = {"byte": 1, "hword": 2, "short": 2, "word": 4, "long": 4, "quad": 8, "xword": 8}


def refuse_lines(path, machine):
    """Refuses a file with another line than these, or with constants that a linker may part."""
    allowed = re.compile(r"%s\s*(?:%s.*)?" % (LINE, machine.comment))
    entry, held = 0, 0
    before = ""
    with open(path, newline="\n") as file:  # (another end of a line is a blank for some assemblers)
        for number, line in enumerate(file, 1):
            place = "%s:%d" % (path, number)
            if not allowed.fullmatch(line.rstrip("\n")) or not re.fullmatch(r"[\t -~]*\n", line):
                raise Unproved("%s is no line that an assembly file may have: %s" % (place, line.strip()))
            if ".note.gnu.property" in before and not line.startswith("\t.p2align\t3"):
                raise Unproved("%s: a note on branches that isn't aligned to 8 bytes may be passed over" % place)
            before = line
            if entry and (re.match(r"\t[a-z]", line) or line.startswith("\t.p2align") and held not in (0, entry)):
                raise Unproved("%s: instructions or padding among constants that a linker may part" % place)
            section = re.match(r'\t\.section\t[^,]*(?:,"aM",@progbits,(\d+))?', line)
            if section or re.match(NAME + ":", line):
                if entry and held not in (0, entry):
                    raise Unproved("%s: before it a label has %d bytes, of which a linker may part those after %d" % (place, held, entry))
                entry, held = int(section[1] or 0) if section else entry, 0
            held += size_of(line)


def size_of(line):
    """Counts the bytes that a line defines, if it isn't an instruction."""
    directive, rest = (line.strip() + "\t").split("\t")[:2]
    if directive == ".zero":
        return int(re.match(r"\d+", rest)[0])
    if directive in (".ascii", ".asciz"):
        return len(re.findall(r"\\[0-7]{3}|\\.|[^\\]", rest[1:rest.rindex('"')])) + (directive == ".asciz")
    return WIDTHS.get(directive[1:], 0) * len(re.match(r"(?:, |[-\w.]+)*", rest)[0].split(", "))
