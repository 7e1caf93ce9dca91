"""Makes the sources of the library of exports out of its templates, src/*.rt.txt.

A line `// each CRATE, SIZE:` repeats the item or the statement after it for each row of the table CRATE and, for each of these, of the
table SIZE. In `${..}` is the name of a column, and the row gives its value. `export fn` is a function for C.
"""
import pathlib
import re

TEMPLATES = pathlib.Path(__file__).resolve().parent / "src"
EXPORT = '#[unsafe(no_mangle)]\npub extern "C" fn'


def table(columns, *rows):
    return [dict(zip(columns.split(), row, strict=True)) for row in rows]


# The type arguments of calls after which the stack is searched: a form and directions, or the forms before and after a conversion.
OVER_BOTH, OVER_ENC, OVER_DEC = "${FORM_BOTH}<K>, BothWays", "${FORM_ENC}<K>, Encrypt", "${FORM_DEC}<K>, Decrypt"
OVER_TWO = "${FORM_ENC}<K>, ${FORM_DEC}<K>"
TABLES = {
    # Bytes of a key, stored words of planes, round keys.
    "SIZE": table("SIZE KEY LENGTH COUNT", (128, 16, 88, 11), (192, 24, 104, 13), (256, 32, 120, 15)),
    # The forms in which types of both directions, or of one, keep round keys.
    "CRATE": table("CRATE FORM_BOTH FORM_ENC FORM_DEC", ("aes", *["aes::Fixsliced"] * 3),
                   ("aes_hybrid", "aes_hybrid::BothWaysKeys", "aes_hybrid::EncryptionKeys", "aes_hybrid::BothWaysKeys")),
    "DIRECTION": table("VERB DONE NAME END IN FORM", ("encrypt", "encrypted", "Encrypt", "Enc", "enc", "${FORM_ENC}"),
                       ("decrypt", "decrypted", "Decrypt", "Dec", "dec", "${FORM_DEC}")),
    # The directions of a type, and how its name ends.
    "KIND": table("KIND WAYS TYPE_END FORM", ("both", "BothWays", "", "${FORM_BOTH}"), ("enc", "Encrypt", "Enc", "${FORM_ENC}"),
                  ("dec", "Decrypt", "Dec", "${FORM_DEC}")),
    # How many blocks the planes of a word hold.
    "WORD": table("WORD NUMBER BLOCKS", ("u16", 0, 1), ("u32", 1, 2), ("u64", 2, 4), ("u128", 3, 8)),
    # The modes that make a tag, those that have a type with one call for a whole message, and what is unwrapped again.
    "MODE": table("MODE", ["ccm"], ["cmac"], ["gcm"], ["gcm_siv"], ["pieces"]),
    "WHOLE": table("MODE TYPE", ("gcm", "Gcm"), ("gcm_siv", "GcmSiv")),
    "WRAP": table("WRAP GIVEN", ("wrap", "wrapped"), ("wrap_padded", "cut(wrapped)")),
    "ANSWER": table("ANSWER CHANGE RIGHT", ("opened", 0, "true"), ("refused", 1, "false")),
    # Calls after which the stack is searched: what they use and how that ends, for those that are alike; then all, with the blocks or bytes
    # that they are given, and the forms that they are over.
    "USED": table("USED GIVEN CALL", ("value", "block: &mut Block", "encrypt_block(block)"),
                  ("slice", "blocks: &mut [Block]", "encrypt_blocks(blocks)")),
    "ENDED": table("ENDED MUT WIPE", ("dropped", "", ""), ("zeroized", "mut ", "cipher.zeroize();")),
    "LEFT": table("WHAT BLOCKS OVER", ("value_dropped", "Block", OVER_BOTH), ("value_zeroized", "Block", OVER_BOTH),
                  ("clone_dropped", "Block", OVER_BOTH), ("clone_zeroized", "Block", OVER_BOTH), ("slice_dropped", "[Block]", OVER_ENC),
                  ("slice_zeroized", "[Block]", OVER_ENC), ("slice_decrypted", "[Block]", OVER_DEC), ("stream_dropped", "[u8]", OVER_ENC),
                  ("lent_converted", "Block", OVER_TWO), ("given_converted", "Block", OVER_TWO)),
}
TABLES |= {"ENCRYPT": TABLES["DIRECTION"][:1], "WIDE": TABLES["WORD"][1:], "WIPED": TABLES["WORD"][:3]}
# All types of a crate. Those of one direction have numbers: first three of both directions, then three of this one.
TABLES["TYPE"] = [kind | size | {"OF": at if kind["KIND"] == "both" else 3 + at}
                  for kind in TABLES["KIND"] for at, size in enumerate(TABLES["SIZE"])]


def rows(name, filled):
    """The rows of a table. Within a direction these are of its own types, and of those of both directions."""
    return [it for it in TABLES[name] if "END" not in filled or it.get("TYPE_END", "") in ("", filled["END"])]


def length_of_item(lines):
    """How many lines the item or statement at the head of the lines has."""
    inner = len(lines[0]) - len(lines[0].lstrip())
    for count, line in enumerate(lines, 1):
        at = len(line) - len(line.lstrip())
        if line.strip() and at == inner and line.rstrip().endswith(("}", ";")):
            return count
    raise ValueError(lines[0])


def fill(text, filled):
    """A text with its `${..}` filled in, and those that this brings."""
    text = re.sub(r"\$\{(\w+)\}", lambda it: str(filled[it[1]]), re.sub("^export fn", EXPORT, text))
    return fill(text, filled) if "${" in text else text


def expand(lines, filled):
    """The lines with each `${..}` filled in, and with each item or statement after a mark `// each ..` repeated, once for each choice of
    rows. `filled` has the columns of the rows that were chosen around the lines."""
    result, at = [], 0
    while at < len(lines):
        mark = re.fullmatch(r"\s*// each (.*):", lines[at])
        if not mark:
            result.append(fill(lines[at], filled))
            at += 1
            continue
        end, choices = at + 1 + length_of_item(lines[at + 1:]), [filled]
        for name in mark[1].split(", "):
            choices = [choice | row for choice in choices for row in rows(name, choice)]
        for choice in choices:
            result += [*expand(lines[at + 1:end], choice), *([""] if end - at > 2 else [])]
        at = end
    return result


def sources():
    """The sources by the names of their files."""
    texts = {it.name.removesuffix(".txt"): it.read_text() for it in sorted(TEMPLATES.iterdir())}
    return {name: "\n".join(expand(text.splitlines(), {})) + "\n" for name, text in texts.items()}
