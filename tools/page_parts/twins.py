"""Fails if a call that decrypts has another description or other clauses in the sources than the call that encrypts."""
import re

from tools.crates import TOP

from .reports import Report

SOURCES = TOP / "crates/aes_cipher/src"
# Each file of calls that encrypt, with that of the calls that decrypt.
TWINS = {"cipher/encrypt.rt": "cipher/decrypt.rt", "aes/counted.rt": "aes/counted.rt"}
# The comment, the name and the head of a function, which ends with a line.
CALL = re.compile(r"((?:^ *///.*\n)+)(?:^ *#\[.*\n)*^ *((?:pub |final )*fn (\w+)(?:.|\n)*?)[;{]$", re.M)


def calls_of(path):
    """Each public function of a file by its name: its description, and its signature with its clauses."""
    content, calls = (SOURCES / path).read_text(encoding="utf-8"), {}
    for call in CALL.finditer(content):
        about, head, name = call.groups()
        owner = re.findall(r"^(?:pub trait|impl).*", content[:call.start()], re.M)[-1]
        if head.startswith("pub ") or not ("StoredKeys" in owner or owner.startswith("impl")):
            calls[name] = (" ".join(re.sub(r"^ *///", "", about, flags=re.M).split()), " ".join(head.split()))
    return calls


def mirrored(words):
    """What is said of encryption, said of decryption."""
    words = words.replace("Cipher, FIPS 197, 5.1", "InvCipher, FIPS 197, 5.3").replace("fips.cipher", "fips.inv_cipher")
    return words.replace("encrypt", "decrypt").replace("Encrypt", "Decrypt").replace("Enc", "Dec")


def faults_of(path, calls):
    """Calls that decrypt and say something else than those that encrypt."""
    others = {name: call for name, call in calls_of(TWINS[path]).items() if name.startswith("decrypt")}
    for name, words in calls.items():
        if name.startswith("encrypt") and others.pop(mirrored(name), ()) != tuple(map(mirrored, words)):
            yield f"{TWINS[path]}: {mirrored(name)} doesn't say of decryption what {name} says of encryption"
    yield from (f"{TWINS[path]} has a call that nothing mirrors: {name}" for name in others)


def report():
    """Compares the calls of each two files."""
    by_file = {path: calls_of(path) for path in TWINS}
    count = sum(name.startswith("encrypt") for calls in by_file.values() for name in calls)
    return Report(f"{count} pairs of calls", {}, [fault for path, calls in by_file.items() for fault in faults_of(path, calls)])
