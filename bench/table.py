#!/usr/bin/env python3
"""table.py BEFORE [AFTER] DOCUMENT: puts the table of the whole library into a document, between its two marks, from the figures that
`bench/run --figures` wrote of the library before and, once there are any, of that after."""
import math
import re
import sys

FIRST, LAST = "<!-- table of bench/table.py -->", "<!-- end of table -->"

# call, its cases, a pattern for their names, and how they are told: by the time, or by millions of units a second
ROWS = [
    ("read", "2,016 easy nodes", r"easy", "time"),
    ("read", "random clauses, pairs and threes", r"random", "time"),
    ("record", "the same tables", r"", "time"),
    ("evaluate", "2,016 easy nodes", r"easy", "time"),
    ("evaluate", "random clauses, pairs and threes", r"random", "time"),
    ("add", "every record of a table", r"", "time"),
    ("dimacs", "texts of 0.8 to 6 KB", r"", "time"),
    ("decide", "pigeonhole 4 to 8", r"^pigeonhole", "moves"),
    ("decide", "equivalences 8 to 16", r"^equiv", "moves"),
    ("decide", "random clauses, 50 to 90 points", r"^random \d+/\d+$", "moves"),
    ("decide", "the same as 8 and as 64 goals", r" in \d+$", "moves"),
    ("decide", "de Bruijn 50 to 200", r"^de Bruijn", "moves"),
    ("decide", "Franzen 125 to 500", r"^Franzen", "moves"),
    ("decide", "Schwichtenberg 125 to 500", r"^Schwich", "moves"),
    ("decide", "easy goals, 2,016 nodes", r"^easy", "time"),
    ("decide", "pigeons in threes", r"^pigeons", "moves"),
    ("decide", "random clauses in threes", r"^random.*3s$", "moves"),
    ("decide", "early splits jumped over", r"^(free|two)", "time"),
    ("decide", "stretches of met clauses", r"^stretches", "time"),
    ("decide", "a node with 2,013 parents", r"^deepest", "time"),
    ("listing", "2,016 easy nodes", r"^easy", "time"),
    ("listing", "Schwichtenberg 500", r"^Schwich", "time"),
    ("clash", "64 goals, any literals", r"^any", "time"),
    ("clash", "64 goals, all needed", r"^all", "time"),
    ("clash", "random clauses as 8 goals", r"^random", "time"),
    ("overview", "256 easy goals", r"^easy", "time"),
    ("overview", "256 goals of random clauses", r"^random", "time"),
    ("wishes", "points both ways, 1,000 and 1,873 questions", r"both ways", "time"),
    ("wishes", "three opposite, 138 questions", r"3 opposite", "time"),
    ("wishes", "all met, or random clauses", r"0 opposite|^random", "time"),
    ("rooms", "all turns at once", r"at once$", "turns"),
    ("rooms", "50 calls of 100 turns", r"by 100$", "time"),
    ("rooms", "50 calls of one turn", r"by 1$", "time"),
    ("derive", "version one", r"", "steps"),
    ("derive two", "version two", r"", "steps"),
    ("check", "version one", r"", "steps"),
    ("check two", "version two", r"", "steps"),
    ("open", "derivations of 2,000 to 195,000 steps", r"", "steps"),
    ("step", "every step, one at a time", r"", "steps"),
]


def read(path):
    """The figures: call -> rows of case, units, library and plain in microseconds, aim."""
    calls = {}
    with open(path, encoding="utf-8") as lines:
        for line in lines:
            if not line.startswith("#"):
                call, case, _nodes, units, _unit, lib, plain, _ratio, aim = line.rstrip("\n").split("\t")
                calls.setdefault(call, []).append((case, float(units), float(lib), float(plain), float(aim)))
    return calls


def spread(values, show):
    low, high = show(min(values)), show(max(values))
    return low if low == high else f"{low} to {high}"


def three(v):
    return f"{v:,.0f}" if v >= 100 else f"{v:.1f}" if v >= 10 else f"{v:.2f}"


def told(rows, side, how):
    """The times, or the rates, of one side."""
    if how == "time":
        times = [r[side] for r in rows]
        unit, size = ("ms", 1000) if max(times) >= 2000 else ("µs", 1)
        return spread([t / size for t in times], three) + " " + unit
    return spread([r[1] / r[side] for r in rows], three) + f" M {how}/s"


def ratios(rows):
    values = [r[2] / r[3] for r in rows]
    mean = math.exp(sum(math.log(v) for v in values) / len(values))
    text = spread(values, lambda v: f"{v:.0f}" if v >= 20 else f"{v:.2f}")
    return text if len(values) == 1 else f"{text}, mean {mean:.0f}" if mean >= 20 else f"{text}, mean {mean:.2f}"


def line(before, after, call, what, pattern, how):
    olds, news = ([r for r in side.get(call, []) if re.search(pattern, r[0])] for side in (before, after))
    if not olds:
        sys.exit(f"table.py: no figures of {call}, {what}")
    aim = olds[0][4]
    now = ratios(news) if news else ""
    if news and any(r[2] / r[3] > aim for r in news):
        now += " *"
    cells = [call, what, told(news or olds, 3, how), told(olds, 2, how), told(news, 2, how) if news else "", ratios(olds), now, f"{aim:.1f}"]
    return "| " + " | ".join(cells) + " |"


def table(before, after):
    out = ["| Call | Cases | plain | library before | library after | ratio before | ratio after | aim |", "|---|---|---|---|---|---|---|---|"]
    for call, what, pattern, how in ROWS:
        out.append(line(before, after, call, what, pattern, how))
    return "\n".join(out)


def main():
    if len(sys.argv) not in (3, 4):
        sys.exit(__doc__)
    before, after = read(sys.argv[1]), read(sys.argv[2]) if len(sys.argv) == 4 else {}
    with open(sys.argv[-1], encoding="utf-8") as f:
        text = f.read()
    start, end = text.index(FIRST) + len(FIRST), text.index(LAST)
    with open(sys.argv[-1], "w", encoding="utf-8") as f:
        f.write(text[:start] + "\n\n" + table(before, after) + "\n\n" + text[end:])


main()
