"""bev rooms and bev decide --seconds: verdicts and turns of each goal against a search that counts its turns, in plain Python, and the
round of an allowance worked out from these counts."""
import os
import random
import time

from command import ANSWERED, get, put
from goals import decision
from tables import A, AND, ATOM, OR, expansion, some_table, table

def takes(records, goal):
    """Whether a goal is possible, and how many turns its search takes."""
    count = 0
    def branch(held, clauses):
        nonlocal count
        while True:
            count += 1
            states = [(any(l in held for l in c), [l for l in c if l ^ 1 not in held]) for c in clauses]
            free = [f for met, f in states if not met]
            if any(not f for f in free):
                return False
            units = [f[0] for f in free if len(f) == 1]
            if units:
                held, clauses = held + [units[0]], clauses + expansion(records, units[0])
            elif not free:
                return True
            else:
                l = free[0][0]
                if branch(held + [l], clauses + expansion(records, l)):
                    return True
                held, clauses = held + [l ^ 1], clauses + expansion(records, l ^ 1)
    possible = branch([], [[goal]])
    return possible, count

def lines(goals, found, most):
    """What bev rooms prints of goals whose searches take so many turns, with so many in all."""
    made, spent, at = [0] * len(goals), 0, 0
    while spent < most and any(m < f[1] for m, f in zip(made, found)):
        if made[at] < found[at][1]:
            made[at] += 1
            spent += 1
        at = (at + 1) % len(goals)
    words = ["unfinished" if m < n else "possible" if p else "impossible" for m, (p, n) in zip(made, found)]
    return "".join(f"{g} {w}, {m} turn{'' if m == 1 else 's'}\n" for g, w, m in zip(goals, words, made))

def rooms(bev, folder, rounds):
    name, rng = os.path.join(folder, "t"), random.Random(13)
    for records in [A] + [some_table(rng, 2 + i % 6, 10 + 2 * i) for i in range(rounds)]:
        put(name, table(records))
        for _ in range(6):
            goals = [rng.randrange(2 * len(records)) for _ in range(rng.randint(1, 8))]
            found = [takes(records, g) for g in goals]
            total = sum(n for _, n in found)
            bev.answers(ANSWERED, lines(goals, found, total), "rooms", name, *goals)
            most = rng.randint(0, total + 2)
            bev.answers(ANSWERED, lines(goals, found, most), "rooms", name, *goals, "--allowance", most)
    bev.answers(ANSWERED, "18 unfinished, 2 turns\n13 impossible, 2 turns\n6 unfinished, 1 turn\n", "rooms", "-", 18, 13, 6, "--allowance", 5, stdin=table(A))
    put(name, table(A))
    bev.refuses(69, 0, "rooms", name, *[0] * 9, about="the goals")
    bev.refuses(20, 1, "rooms", name, 0, 20, 99, about="20, goal 1")
    bev.refuses(20, 2, "rooms", name, 0, 1, 70000, about="70000, goal 2")
    put(name, table(A)[:511])
    bev.refuses(69, 0, "rooms", name, *[0] * 9, about="the goals")
    bev.refuses(10, 0, "rooms", name, 99, about=name)
    bev.fails("rooms", "missing", "rooms", name)
    bev.fails("--allowance", "without its file or value", "rooms", name, 0, "--allowance")
    bev.fails("--seconds", "is no option here", "rooms", name, 0, "--seconds", 1)
    bev.fails("x", "is no number of turns", "rooms", name, 0, "--allowance", "x")
    bev.fails("x", "is no literal", "rooms", name, "x")

def in_time(bev, folder, rounds):
    name, out, rng = os.path.join(folder, "t"), os.path.join(folder, "s"), random.Random(14)
    for records in [A] + [some_table(rng, 2 + i % 6, 10 + i) for i in range(rounds)]:
        put(name, table(records))
        for goal in rng.sample(range(2 * len(records)), 4):
            status, text, settings = decision(records, [goal])
            text = text[: text.index("splits ")]  # the plain order, a turn at a time, counts no splits
            put(out, b"old")
            bev.answers(status, text, "decide", name, goal, "--seconds", 60, "--out", out)
            if get(out) != (settings or b"old"):
                bev.wrong(("decide --seconds", goal), "wrong settings", settings)
            bev.answers(ANSWERED, "unknown\n", "decide", name, goal, "--seconds", 0)
    put(name, table(hard(8)))
    start = time.time()
    bev.answers(ANSWERED, "unknown\n", "decide", name, 2 * len(hard(8)) - 2, "--seconds", "0.3")
    if not 0.3 <= time.time() - start < 20:
        bev.wrong(("decide --seconds 0.3",), time.time() - start, "0.3 seconds")
    bev.fails("--seconds", "is for one goal", "decide", name, 0, 1, "--seconds", 1)
    for bad in ("x", "", "-1", "1e99", "nan"):
        bev.fails(bad, "is no number of seconds", "decide", name, 0, "--seconds", bad)
    bev.refuses(20, 0, "decide", name, 4032, "--seconds", 1, about="4032")

def hard(holes):
    """A pigeonhole of holes + 1 in holes, as one goal: the last node. No setting makes it true, and the search takes long."""
    records, at = [], {}
    def add(*record):
        records.append(record)
        return 2 * (len(records) - 1)
    for p in range(holes + 1):
        for h in range(holes):
            at[p, h] = add(ATOM, p * holes + h, 0)
    def fold(kind, literals):
        whole = literals[0]
        for l in literals[1:]:
            whole = add(kind, *sorted((whole, l)))
        return whole
    clauses = [fold(OR, [at[p, h] for h in range(holes)]) for p in range(holes + 1)]
    clauses += [add(OR, at[p, h] + 1, at[q, h] + 1) for h in range(holes) for p in range(holes + 1) for q in range(p + 1, holes + 1)]
    fold(AND, clauses)
    return records
