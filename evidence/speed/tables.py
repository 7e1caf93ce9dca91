"""Writes and reads the times of a run, and makes tables of docs/MEASUREMENTS.md from them."""
import csv
import re
import subprocess

from evidence import shared

# The peers: the package of each, and the flags to link it. Its file is compiled with those that begin with -I.
PEERS = {
    "OpenSSL": ("libssl-dev", "-lcrypto"),
    "BearSSL": ("libbearssl-dev", "-lbearssl"),
    "Libgcrypt": ("libgcrypt20-dev", "-lgcrypt"),
    "Botan": ("libbotan-2-dev", "-lbotan-2", "-I/usr/include/botan-2"),
}
# The engine that all ratios are relative to. Each run has it.
BASE = "C library, by LLVM"
# Its build for processors with AVX2, in the run without AES instructions.
AVX2 = "C library for AVX2, by LLVM"
# The amount is of blocks, or of bytes for counter mode and GCM.
HEAD = ["peer", "how", "kind", "run", "key_bytes", "call", "amount", "ticks", "nanoseconds"]
DIGITS = {"ticks": 1, "nanoseconds": 1}
CONSTANT_TIME, WITH_INSTRUCTIONS = "no AES instructions", "all instructions"
OURS, FOR_AVX2, BOTH_KEYS = "this library", "for AVX2", "both keys"
# The tables of docs/MEASUREMENTS.md, by a word of their heading: the columns beside this library, and the rows. A row has a call, its
# amount, and the number of blocks by which its time is divided.
BLOCKS = {"a key, for both directions": (BOTH_KEYS, 1, 1)}
BLOCKS |= {f"{n:,} block{'s' * (n > 1)} {direction}ed": (direction, n, 1)
           for n in (1, 2, 8, 64, 4096) for direction in ("encrypt", "decrypt")}
BLOCKS |= {f"counter mode, {it}": ("counter mode", n, 1) for it, n in (("64 bytes", 64), ("1,500 bytes", 1500), ("1 MiB", 1 << 20))}
GCM = {
    "a key": ("GCM key", 1, 1),
    "a message of 64 bytes": ("GCM, text", 64, 1),
    "a message of 1,500 bytes": ("GCM, text", 1500, 1),
    "16 KiB, a block": ("GCM, text", 16384, 1024),
    "16 KiB of additional data, a block": ("GCM, additional data", 16384, 1024),
}
TABLES = {"it": ((FOR_AVX2, "OpenSSL", "Botan", "Libgcrypt"), BLOCKS), "GCM": ((FOR_AVX2, *PEERS), GCM)}
# The panels of the picture: the call of each, and its number of blocks.
PANELS = {"4,096 blocks in one call": ("encrypt", 4096), "one block, the key at hand": ("encrypt", 1),
          "a key and one block": ("key and block", 1)}


def summary(rows):
    """The rows that are published: those that a table or the picture shows."""
    calls = {call[:2] for _, titles in TABLES.values() for call in titles.values()}
    calls |= {(f"key for {it}", 1) for it in ("encryption", "decryption")}

    def is_shown(row):
        call, is_in_table = (row["call"], row["amount"]), row["run"] == CONSTANT_TIME or row["peer"] in (OURS, "OpenSSL")
        return call in PANELS.values() or is_in_table and call in calls

    return [r for r in rows if r["key_bytes"] == 16 and r["kind"] != "planted" and is_shown(r)]


def place(row):
    """What a row is about, apart from the engine."""
    return row["run"], row["key_bytes"], row["call"], row["amount"]


def write(path, where, rows):
    """Writes the rows of a run, and where it was made."""
    with open(path, "w", newline="") as file:
        file.write(f"# {where}\n")
        writer = csv.DictWriter(file, HEAD, lineterminator="\n")
        writer.writeheader()
        for row in rows:
            writer.writerow({**row, **{k: f"{row[k]:.{n}f}" for k, n in DIGITS.items()}})


def read(path):
    """Where a run was made, and its rows."""
    with open(path) as file:
        where = file.readline().removeprefix("# ").rstrip("\n")
        rows = list(csv.DictReader(file))
    for row in rows:
        row.update({k: int(row[k]) for k in ("key_bytes", "amount")}, **{k: float(row[k]) for k in DIGITS})
    return where, rows


def drift(rows):
    """How much this library's own time differs between the runs."""
    bulk = [r for r in rows if r["how"] == BASE and (r["call"], r["amount"]) == ("encrypt", 4096)]
    ticks = [[r["ticks"] for r in bulk if r["key_bytes"] == key] for key in (16, 24, 32)]
    return max(max(ticks_of_key) / min(ticks_of_key) for ticks_of_key in ticks)


def ratio(number):
    return f"{number:.2f}" if number < 10 else f"{number:.1f}"


def versions():
    """The peers with their versions, as Debian's packages name them."""
    names = {package: peer for peer, (package, *_) in PEERS.items()}
    query = ["dpkg-query", "-W", "-f", "${Package} ${source:Upstream-Version}\\n", *names]
    lines = subprocess.run(query, capture_output=True, text=True).stdout.splitlines()
    versions_of_peers = [f"{names[package]} {version.split('+')[0]}" for package, version in map(str.split, lines)]
    return " and ".join(filter(None, [", ".join(versions_of_peers[:-1]), *versions_of_peers[-1:]]))


def span(nanoseconds):
    """A time with the unit that suits it."""
    for least, unit in ((1e6, "ms"), (1e3, "µs"), (0, "ns")):
        if nanoseconds >= least:
            break
    number = nanoseconds / (least or 1)
    return f"{number:.1f} {unit}" if number < 10 else f"{number:,.0f} {unit}"


def table(rows, names, titles):
    """A table: this library's time, and the others' divided by it."""
    ticks_of_row = {(r["run"], FOR_AVX2 if r["how"] == AVX2 else r["peer"], r["call"], r["amount"]): r["ticks"] for r in summary(rows)}
    rate = sum(r["nanoseconds"] for r in rows) / sum(r["ticks"] for r in rows)

    def ticks(run, name, call, amount):
        """The ticks of a call, or None."""
        # (A key of this library is one for both directions. Others set them one by one.)
        if call == BOTH_KEYS:
            ends = [ticks(run, name, f"key for {it}", 1) for it in ("encryption", "decryption")]
            return ends[0] if name in (OURS, FOR_AVX2) else ends[0] and sum(ends)
        return ticks_of_row.get((run, name, call, amount))

    lines = []
    for title, (*call, blocks) in titles.items():
        columns = [*((CONSTANT_TIME, it) for it in names), (WITH_INSTRUCTIONS, "OpenSSL")]
        times = [(ticks(run, it, *call), ticks(run, OURS, *call)) for run, it in columns]
        cells = [ratio(theirs / ours) if theirs else "–" for theirs, ours in times]
        lines.append([title, span(rate * ticks(CONSTANT_TIME, OURS, *call) / blocks), *cells])
    return shared.table(["", OURS, *names, "OpenSSL with AES instructions"], *lines)


def page(rows):
    """docs/MEASUREMENTS.md with these tables instead of the first ones of their sections."""
    text = shared.MEASUREMENTS.read_text()
    for what, columns_and_rows in TABLES.items():
        heading, lines = rf"## How fast is {what} compared with what I use now\?\n", "\n".join(table(rows, *columns_and_rows)) + "\n"
        text, count = re.subn(rf"^({heading}(?:(?!#|\|).*\n)*)(?:\|.*\n)+", lambda it: it[1] + lines, text, flags=re.M)
        if count != 1:
            shared.stop(f"{shared.MEASUREMENTS} has no table below {heading}")
    return text
