#!/usr/bin/env python3
"""What crates/draft_cases must print, worked out from the scope paper by an independent reading. Its output is crates/draft_cases/stdout."""
from tables import ATOM, TRUE, table

class Draft:
    def __init__(self, room):
        self.nodes, self.room = [], room

    def add(self, *record):
        if record not in self.nodes:
            if len(self.nodes) == self.room:
                return "refused 52\nat %d" % len(self.nodes)
            self.nodes.append(record)
        return "literal %d" % (2 * self.nodes.index(record))

    def points(self, count):
        said = "literal 0"
        for p in range(count):
            said = self.add(ATOM, p, 0)
            if said.startswith("refused"):
                break
        print(said)

    def put(self, length):
        blocks = table(self.nodes)
        if len(blocks) <= length:
            print("used", len(blocks))
        else:
            blocks = b""
        s = 0
        for byte in blocks + bytes([238]) * (length - len(blocks)):
            s = 31 * (s % 65521) + byte
        print("sum", s)

for room, count, length in (2016, 0, 512), (2016, 62, 600), (2016, 63, 1023), (2016, 63, 1100), (10, 9, 512), (10, 10, 512), (0, 0, 512):
    draft = Draft(room)
    draft.points(count)
    print(draft.add(TRUE, 0, 0))
    draft.put(length)
for count, length in (0, 511), (63, 512), (64, 512), (126, 1100), (127, 1100):
    draft = Draft(63 * (length // 512))
    draft.points(count)
    draft.put(length)
