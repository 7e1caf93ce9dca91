"""Draws the picture of a run, as SVG: bars of time, one row per engine, in groups by the kind of software. The colours follow the reader's
theme. A time is a length, of at most 1, and the text beside it."""
from html import escape
from pathlib import Path

from evidence import shared
from evidence.speed import tables
from tools.page_parts.reports import Report

HERE = Path(__file__).resolve().parent
# Each kind of engine: its title, and the colour of its bars on light ground and on dark.
KINDS = {
    "hybrid": ("Permutations and bit planes", "#0b7a75", "#2fb8ad"),
    "permutations": ("Software by vector permutations (SSSE3)", "#8c9a4e", "#a3b25c"),
    "bitsliced": ("Software on bit planes, without tables", "#6f9fce", "#6f9fce"),
    "instructions": ("AES instructions of the processor, and in brackets the part of this library's time", "#9a8fbf", "#a79ccb"),
}
OURS = {tables.BASE: "this library, no AVX2", tables.AVX2: "this library, for AVX2"}
INK, SOFT = ("#1f2328", "#e6edf3"), ("#59636e", "#9198a1")
ROW, GAP, BESIDE, NAMES, BAR = 20, 8, 90, 220, 170


def rules(ground):
    kinds = " ".join(f".{kind} {{ fill: {colours[ground]} }}" for kind, (_, *colours) in KINDS.items())
    return f"text {{ fill: {INK[ground]} }} .soft {{ fill: {SOFT[ground]} }} {kinds}"


def row(name, kind, times, y):
    """The name of a library, and its bar in each panel."""
    weight = ' class="bold"' if kind == "hybrid" else ""
    yield f'<text x="{NAMES - 8}" y="{y}" text-anchor="end"{weight}>{escape(name)}</text>'
    for at, (length, text) in enumerate(times):
        x, long = NAMES + (BAR + BESIDE) * at, max(1, BAR * length)
        if length:
            yield f'<rect x="{x}" y="{y - 12}" width="{long:.1f}" height="15" class="{kind}"/>'
        yield f'<text x="{x + (long + 5 if length else 0):.1f}" y="{y}"{weight}>{escape(text)}</text>'


def times_of(rows):
    """The least nanoseconds a block of each engine, in each panel: {(kind, peer, how): times}. This library's are of the process that also
    has its build for AVX2."""
    times = {}
    for r in rows:
        call = r["call"], r["amount"]
        if call in tables.PANELS.values() and (r["peer"] != tables.OURS or r["run"] == tables.CONSTANT_TIME):
            best_so_far = times.setdefault((r["kind"], r["peer"], r["how"]), {})
            best_so_far[call] = min(r["nanoseconds"] / r["amount"], best_so_far.get(call, 1e30))
    return {engine: [best.get(call) for call in tables.PANELS.values()] for engine, best in times.items()}


def cell(kind, time, most, ours):
    """A bar's length on the scale of its panel, and the text beside it."""
    if time is None:
        return 0, "no such call"
    part = f" ({100 * time / ours:.0f} %)" if kind == "instructions" else ""
    return time / most, (f"{time:,.0f}" if time >= 10 else f"{time:.1f}") + part


def svg_of(rows):
    """The picture of the rows that are published, as text."""
    title, times = "AES encryption with a key of 16 bytes, by this library and those of Debian", times_of(rows)
    most = [max(filter(None, times_of_panel)) for times_of_panel in zip(*times.values())]
    ours = next(times_of_engine for engine, times_of_engine in times.items() if engine[2] == tables.BASE)
    parts, y = [f'<text x="0" y="14" class="title">{escape(title)}</text>'], 62
    for at, (head, (_, n)) in enumerate(tables.PANELS.items()):
        x = NAMES + (BAR + BESIDE) * at
        parts.append(f'<text x="{x}" y="42" class="bold">{escape(head)}</text>')
        parts.append(f'<text x="{x}" y="58" class="soft">nanoseconds{" a block" if n > 1 else ""}, less is faster</text>')
    for kind, (head, *_) in KINDS.items():
        engines = sorted((it for it in times if it[0] == kind), key=lambda it: times[it][0] or 1e30)
        y += ROW + GAP if engines else 0
        parts += [f'<text x="0" y="{y}" class="soft">{escape(head)}</text>'] if engines else []
        for engine in engines:
            y += ROW
            cells = [cell(kind, *scale) for scale in zip(times[engine], most, ours)]
            parts += row(OURS.get(engine[2], f"{engine[1]}, {engine[2]}"), kind, cells, y)
    width, height = NAMES + (BAR + BESIDE) * len(tables.PANELS), y + 10
    return "\n".join([
        f'<svg xmlns="http://www.w3.org/2000/svg" viewBox="0 0 {width} {height}" width="{width}" height="{height}" role="img">',
        f"<title>{escape(title)}</title>",
        f"<style>text {{ font: 12px 'DejaVu Sans', Verdana, Arial, sans-serif }} .bold {{ font-weight: bold }} "
        f".title {{ font: bold 14px 'DejaVu Sans', Verdana, Arial, sans-serif }} {rules(0)}",
        f"@media (prefers-color-scheme: dark) {{ {rules(1)} }}</style>",
        *parts, "</svg>", ""])


def report():
    """The files that are made from summary.csv, for tools/pages: the tables of docs/MEASUREMENTS.md, and the picture."""
    _, rows = tables.read(HERE / "summary.csv")
    return Report(f"{len(rows)} times", {shared.MEASUREMENTS: tables.page(rows), HERE / "results.svg": svg_of(rows)}, [])
