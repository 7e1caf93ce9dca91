"""A message is sealed by AES-GCM-SIV under a key that a file has, and a nonce that is drawn at random, and opened again.

    message.py FILE    FILE has the key, 32 bytes: (umask 077; set -C; head -c 32 /dev/urandom > FILE)
"""
import pathlib
import sys

from fotsgure.gcm import GcmSiv, Refused


def main(file: str) -> None:
    with GcmSiv(pathlib.Path(file).read_bytes()) as siv:
        nonce, sealed = siv.seal_random(b"a message", b"its name")
        # Send name, nonce and what is sealed. Anyone who has the key opens it:
        text = siv.open(nonce, sealed, b"its name")  # raises Refused if anything was changed
    print(text.decode(), flush=True)


if len(sys.argv) != 2:
    print("usage: message.py FILE    (FILE has a key of 32 bytes)", file=sys.stderr)
    sys.exit(2)
try:
    main(sys.argv[1])
except (OSError, ValueError, Refused) as error:
    sys.exit(f"message.py: {error}")
