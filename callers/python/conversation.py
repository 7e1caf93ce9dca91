"""Two programs send each other messages over two streams, here pipes with a name; this one speaks with conversation.c too.

    mkfifo there back
    conversation.py answer KEY there back &         answers each text with that text
    conversation.py ask KEY there back TEXT ..      sends each text, and prints the answers

callers/c/conversation.c says what a message has in its additional data, and so what is refused.
"""
import os
import pathlib
import sys
from typing import IO, List

from fotsgure.gcm import GcmSiv, Refused

HELLO, MOST, NONCE, TAG = 16, 4096, 12, 16
ASKS, ANSWERS = 0, 1


class Side:
    """One of the two: as a sender it is ASKS or ANSWERS."""

    def __init__(self, siv: GcmSiv, role: int, incoming: IO[bytes], outgoing: IO[bytes]) -> None:
        self._siv, self._role, self._in, self._out = siv, role, incoming, outgoing
        mine = os.urandom(HELLO)
        self._send(mine)
        hellos = (mine, self._read(HELLO))
        # Random bytes of both sides, so that no other conversation has these: first those of the side that asks.
        self._hellos = b"".join(hellos if role == ASKS else reversed(hellos))
        self._numbers = [0, 0]

    def _send(self, data: bytes) -> None:
        self._out.write(data)
        self._out.flush()

    def _read(self, count: int) -> bytes:
        data = self._in.read(count)
        if len(data) != count:
            raise EOFError("the other side: its stream was cut")
        return data

    def _about_next(self, sender: int) -> bytes:
        """The additional data of the next message of a sender. It isn't sent: the receiver knows what has to come next."""
        number = self._numbers[sender]
        self._numbers[sender] += 1
        return self._hellos + bytes([sender]) + number.to_bytes(8, "big")

    def say(self, text: bytes) -> None:
        if len(text) > MOST:
            raise ValueError("a text: it is too long")
        nonce, sealed = self._siv.seal_random(text, self._about_next(self._role))
        self._send(len(text).to_bytes(4, "big") + nonce + sealed[-TAG:] + sealed[:-TAG])

    def hear(self) -> bytes:
        length, nonce, tag = int.from_bytes(self._read(4), "big"), self._read(NONCE), self._read(TAG)
        if length > MOST:
            raise ValueError("the other side: its message is too long")
        return self._siv.open(nonce, self._read(length) + tag, self._about_next(1 - self._role))


def ask(side: Side, texts: List[str]) -> None:
    for text in texts:
        side.say(text.encode())
        print(side.hear().decode())
    side.say(b"")
    if side.hear():
        raise ValueError("the other side: it sent more after the end")


def answer(side: Side) -> None:
    text = b"any"
    while text:
        text = side.hear()
        side.say(text)


def main(word: str, key: str, there: str, back: str, *texts: str) -> None:
    asks = word == "ask"
    # Both sides open `there` first, since each waits for the other.
    with GcmSiv(pathlib.Path(key).read_bytes()) as siv, open(there, "wb" if asks else "rb") as first, \
            open(back, "rb" if asks else "wb") as second:
        if asks:
            ask(Side(siv, ASKS, second, first), list(texts))
        else:
            answer(Side(siv, ANSWERS, first, second))
    sys.stdout.flush()


if len(sys.argv) < 5 or sys.argv[1] not in ("ask", "answer") or (len(sys.argv) > 5) != (sys.argv[1] == "ask"):
    print("usage: conversation.py ask KEY THERE BACK TEXT .., or conversation.py answer KEY THERE BACK", file=sys.stderr)
    sys.exit(2)
try:
    main(*sys.argv[1:])
except (OSError, EOFError, ValueError, Refused) as error:
    sys.exit(f"conversation.py: {error}")
