#!/usr/bin/env python3
"""best.py A B OUT: of two runs' figures, for each case the better time of each side. A virtual machine is slow for a second now and then, which
no number of rounds within a case evens out."""
import sys

a, b, out = sys.argv[1:]
rows = [[line.rstrip("\n").split("\t") for line in open(name)] for name in (a, b)]
if [r[:5] for r in rows[0]] != [r[:5] for r in rows[1]]:
    sys.exit("best.py: not the same cases")
with open(out, "w") as f:
    for x, y in zip(*rows):
        if not x[0].startswith("#"):
            x[5], x[6] = (min(p, q, key=float) for p, q in zip(x[5:7], y[5:7]))
            x[7] = f"{float(x[5]) / float(x[6]):.3f}"
        f.write("\t".join(x) + "\n")
