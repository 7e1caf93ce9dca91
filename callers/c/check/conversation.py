"""Runs the programs of conversation.c and conversation.py with somebody in between who changes, repeats, sends back, lengthens or cuts what
is sent, or plays an earlier conversation again. Each of these has to end with status 1 and words, and nothing but the right answers may be
printed. (If a message is left out, both sides wait.) The last line is `N passed, M failed`.

    conversation.py FOLDER KEY COMMAND ..    FOLDER is empty; each COMMAND is one word
"""
import itertools
import os
import pathlib
import subprocess
import sys
import threading

TEXTS = ["one", "two", "three"]
HEAD, HELLO = 4 + 12 + 16, 16
REFUSED, CUT = "the message was changed, or sealed under another key", "its stream was cut"


def frames(stream):
    """The greeting, and then each message."""
    yield stream.read(HELLO)
    while head := stream.read(HEAD):
        yield head + stream.read(int.from_bytes(head[:4], "big"))


def passes_on(source, target, fault, seen):
    """Reads one pipe and writes another. `fault` returns for a number and its message what is sent instead, or None to end."""
    with open(source, "rb") as incoming, open(target, "wb", buffering=0) as outgoing:
        for number, frame in enumerate(frames(incoming)):
            seen.append(frame)
            sent = fault(number, frame)
            if sent is None:
                return
            try:
                outgoing.write(sent)
            except BrokenPipeError:
                return


def run(folder, key, asks, answers, there, back):
    """Runs both programs with faults in both directions: (status, output, error) of each, and what was sent."""
    pipes = [str(folder / name) for name in ("there", "back", "there2", "back2")]
    for pipe in pipes:
        pathlib.Path(pipe).unlink(missing_ok=True)
        os.mkfifo(pipe)
    seen = [], []
    for each in ((pipes[0], pipes[2], there, seen[0]), (pipes[3], pipes[1], lambda n, it: back(n, it, seen[0]), seen[1])):
        threading.Thread(target=passes_on, args=each, daemon=True).start()
    return together([asks, "ask", key, *pipes[:2], *TEXTS], [answers, "answer", key, *pipes[2:]]), seen[0]


def together(*commands):
    programs = [subprocess.Popen(command, stdout=subprocess.PIPE, stderr=subprocess.PIPE, text=True) for command in commands]
    came = []
    for program in programs:
        try:
            output, error = program.communicate(timeout=30)
        except subprocess.TimeoutExpired:
            program.kill()
            output, error = program.communicate()
        came.append((program.returncode, output, error))
    return came


def unchanged(number, frame, *_):
    return frame


# Faults of what is sent to the one who answers: messages are counted from 1 on, after the greeting.
THERE = {
    "a bit is changed": (lambda n, it: it[:-1] + bytes([it[-1] ^ 1]) if n == 2 else it, REFUSED),
    "a message is repeated": (lambda n, it: it * 2 if n == 1 else it, REFUSED),
    "a message is longer than any": (lambda n, it: b"\xff" + it[1:] if n == 2 else it, "too long"),
    "the stream is cut between messages": (lambda n, it: None if n == 2 else it, CUT),
    "the greeting is changed": (lambda n, it: bytes(HELLO) if n == 0 else it, REFUSED),
}
# And of what comes back.
BACK = {
    "a bit of an answer is changed": (lambda n, it, _: it[:-1] + bytes([it[-1] ^ 1]) if n == 2 else it, REFUSED),
    "a message is sent back": (lambda n, it, seen: seen[n] if n == 2 else it, REFUSED),
    "an answer is cut": (lambda n, it, _: None if n == 2 else it, CUT),
}


def main(folder, key, *commands):
    folder, checks = pathlib.Path(folder), []

    def expect(holds, what):
        checks.append(holds)
        if not holds:
            print("failed:", what)

    answer = "".join(f"{text}\n" for text in TEXTS)
    for asks, answers in itertools.product(commands, repeat=2):
        pair = f"{asks} with {answers}"
        came, before = run(folder, key, asks, answers, unchanged, unchanged)
        expect(came == [(0, answer, ""), (0, "", "")], f"{pair}: {came}")
        again = dict(THERE, **{"an earlier conversation is played again": (lambda n, it: before[n], REFUSED)})
        for side, faults in ((1, again), (0, BACK)):
            for what, (fault, words) in faults.items():
                came, _ = run(folder, key, asks, answers, *((fault, unchanged) if side else (unchanged, fault)))
                expect(came[side][0] == 1 and words in came[side][2] and answer.startswith(came[0][1]) and came[0][1] != answer,
                       f"{pair}, {what}: {came}")
    print(f"{sum(checks)} passed, {len(checks) - sum(checks)} failed")
    return not all(checks)


sys.exit(main(*sys.argv[1:]))
