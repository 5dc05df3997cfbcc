#!/usr/bin/env python3
"""Writes the sample tables beside this file, by the format of docs/FORMAT.md."""
import os

def table(records):
    out = b""
    for j in range(0, len(records), 63):
        body = b"".join(bytes([k, 0]) + a.to_bytes(2, "little") + b.to_bytes(2, "little") + bytes(2) for k, a, b in records[j:j + 63])
        block = bytes([70, len(records[j:j + 63])]) + (j // 63).to_bytes(2, "little") + body
        block += bytes(510 - len(block))
        total, weight = 0, 1
        for byte in block:
            total, weight = (total + byte * weight) % 65521, 3 * weight % 65521
        out += block + total.to_bytes(2, "little")
    return out

TRUE, ATOM, AND, OR, IMP, IFF = range(1, 7)
tables = {
    "true.tbl": [(TRUE, 0, 0)],
    # table A of the scope paper
    "a.tbl": [(ATOM, 0, 0), (ATOM, 1, 0), (AND, 0, 2), (OR, 0, 2), (IMP, 0, 2), (IFF, 0, 2), (TRUE, 0, 0), (AND, 4, 7), (IFF, 0, 3), (AND, 10, 16)],
}
for name, records in tables.items():
    with open(os.path.join(os.path.dirname(os.path.abspath(__file__)), name), "wb") as f:
        f.write(table(records))
