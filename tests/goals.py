"""bev decide, clash, wishes, overview, derive, check and steps on made tables, with single goals and lists: the answers against truth tables by brute force, the
solver's order and the derivation rules in plain Python, and every refusal that a file or a list of goals can meet."""
import itertools
import os
import pty
import random
import re
import subprocess

from command import ANSWERED, IMPOSSIBLE, POSSIBLE, REFUSED, get, put
from tables import A, AND, AND3, ATOM, IFF, IMP, OR, OR3, TRUE, checked, derivation, edited, expansion, full_table, jump, parity, points_of, possible_together, search, setting_of, some_goals, some_table, table, truths

def triples():
    """The eight clauses of three points, all of them, which is impossible, and the same with every sign turned: removals at each position."""
    records = [(ATOM, p, 0) for p in range(3)]
    for each, all_of, pair in ((OR3, AND3, AND), (AND3, OR3, OR)):
        l = 2 * len(records)
        records += [(each, w & 1, 2 + (w >> 1 & 1), 4 + (w >> 2)) for w in range(8)]
        records += [(all_of, l, l + 2, l + 4), (all_of, l + 6, l + 8, l + 10), (pair, l + 12, l + 14), (all_of, l + 16, l + 18, l + 20)]
    return records

def goal_lists(rng, records, count):
    """Each literal by itself, and so many lists."""
    return [[l] for l in range(2 * len(records))] + [some_goals(rng, records) for _ in range(count)]

def decision(records, goals, brute=False):
    """Status, output and settings that decide gives."""
    model, steps = search(records, goals)
    jumped, made = jump(records, goals)
    assert jumped == model and (steps is None or made <= sum(s[0] == "S" for s in steps)), "the jumps change the answer"
    if brute:
        assert (model is not None) == possible_together(records, goals), "the order differs from the truth table"
    if model is None:
        return IMPOSSIBLE, f"impossible\nsplits {made}\n", None
    setting = setting_of(records, model)
    v = truths(records, {p for p in range(1024) if setting[p] == 1})
    assert all(v[g // 2] != (g % 2 == 1) for g in goals)
    return POSSIBLE, "possible\n" + set_lines(records, setting) + f"splits {made}\n", setting

def set_lines(records, setting):
    """A line for each point that the table names."""
    return "".join(f"{('no', 'yes', 'either')[setting[p]]} {p}\n" for p in points_of(records))

def deciding(bev, folder, rounds):
    name, out = os.path.join(folder, "t"), os.path.join(folder, "s")
    rng = random.Random(2)
    for records in [A, [(TRUE, 0, 0)], [(ATOM, 1023, 0)], triples()] + [some_table(rng, 2 + i % 6, 10 + i) for i in range(rounds)]:
        put(name, table(records))
        for goals in goal_lists(rng, records, 10):
            status, text, settings = decision(records, goals, brute=True)
            put(out, b"old")
            bev.answers(status, text, "decide", name, *goals, "--out", out)
            if get(out) != (settings or b"old"):
                bev.wrong(("decide", *goals), "wrong settings", settings)
            for goal in {goals[0], goals[-1]} if settings else []:
                bev.answers(ANSWERED, "yes\n", "eval", name, goal, out)
                bev.answers(ANSWERED, "no\n", "eval", name, goal ^ 1, out)
    records, _ = full_table()
    put(name, table(records))
    for goals in ([0], [1], [7], [8], [4030], [4031], [4030, 0, 4031], list(range(0, 128, 2))):
        bev.answers(*decision(records, goals)[:2], "decide", name, *goals)
    bev.answers(*decision(records, [7])[:2], "decide", name, "007")
    bev.answers(*decision(records, [7])[:2], "decide", "-", "7", stdin=table(records))
    bev.answers(*decision(records, [7, 8])[:2], "decide", "-", "7", "8", stdin=table(records))
    for data in (b"", table(A)[:511], table(records) + bytes(512), bytes(100000)):
        put(name, data)
        bev.refuses(10, 0, "decide", name, 0, about=name)
    put(name, table(A + [A[3]]))
    bev.refuses(17, 10, "decide", name, 99, about=f"{name}, node 10")

def few(records, goals):
    """The indices of the goals that the walk from last to first keeps, its questions put to truth tables; None where they are possible."""
    if possible_together(records, goals):
        return None
    kept = list(range(len(goals)))
    for i in reversed(range(len(goals))):
        rest = [j for j in kept if j != i]
        if not possible_together(records, [goals[j] for j in rest]):
            kept = rest
    return kept

def said(records, literal):
    """A literal in words."""
    def operand(l):
        kind, a, *_ = records[l // 2]
        return ("not " if l % 2 else "") + (f"point {a}" if kind == ATOM else f"node {l // 2}")
    kind, *operands = records[literal // 2]
    if kind == ATOM:
        return operand(literal)
    between = {AND: " and ", OR: " or ", IMP: " then ", IFF: " if and only if ", AND3: " and ", OR3: " or "}
    words = "always yes" if kind == TRUE else ("if " if kind == IMP else "") + between[kind].join(map(operand, operands))
    return f"not ({words})" if literal % 2 else words

def clashing(bev, folder, rounds):
    name, rng, sizes = os.path.join(folder, "t"), random.Random(8), set()
    for records in [A, [(TRUE, 0, 0)], [(ATOM, 1023, 0)]] + [some_table(rng, 2 + i % 4, 10 + i) for i in range(rounds)]:
        put(name, table(records))
        for goals in [[0, 1], [1, 0, 1]] + [some_goals(rng, records) for _ in range(8)]:
            kept = few(records, goals)
            if kept is None:
                bev.refuses(63, 0, "clash", name, *goals, about=goals[0] if len(goals) == 1 else "the goals")
            else:
                sizes.add(len(kept))
                bev.answers(ANSWERED, "".join(f"{i} {goals[i]}: {said(records, goals[i])}\n" for i in kept), "clash", name, *goals)
    assert {1, 2} <= sizes, sizes
    put(name, table(A))
    bev.answers(ANSWERED, "1 0: point 0\n2 1: not point 0\n", "clash", name, 6, 0, 1, 2)
    bev.answers(ANSWERED, "1 13: not (always yes)\n", "clash", "-", 0, 13, stdin=table(A))

def granted(records, goals, wishes, allowance):
    """Met, bound, questions put and the list whose setting stands, the questions put to truth tables; None where the goals are impossible."""
    if not possible_together(records, goals):
        return None
    subsets = [s for size in range(len(wishes), 0, -1) for s in itertools.combinations(range(len(wishes)), size)]
    for put_, subset in enumerate(subsets):
        if put_ == allowance:
            return 0, len(subset), put_, goals
        together = goals + [wishes[i] for i in subset]
        if possible_together(records, together):
            return len(subset), len(subset), put_ + 1, together
    return 0, 0, len(subsets), goals

def wishing(bev, folder, rounds):
    name, out, rng, seen = os.path.join(folder, "t"), os.path.join(folder, "s"), random.Random(11), set()
    for records in [A, [(TRUE, 0, 0)], [(ATOM, 1023, 0)]] + [some_table(rng, 2 + i % 4, 10 + i) for i in range(rounds)]:
        put(name, table(records))
        for _ in range(8):
            goals, wishes = some_goals(rng, records)[:2], [rng.randrange(2 * len(records)) for _ in range(rng.randrange(5))]
            for allowance in (None, 0, 1, rng.randrange(16)):
                words = ("wishes", name, *goals, ":", *wishes, "--out", out) + (() if allowance is None else ("--questions", allowance))
                right = granted(records, goals, wishes, allowance)
                put(out, b"old")
                if right is None:
                    bev.refuses(67, 0, *words, about=goals[0] if len(goals) == 1 else "the goals")
                else:
                    met, bound, questions, stands = right
                    bev.answers(ANSWERED, f"met {met}\nbound {bound}\nquestions {questions}\n" + set_lines(records, decision(records, stands)[2]), *words)
                    seen.add((met, bound))
                if get(out) != (decision(records, right[3])[2] if right else b"old"):
                    bev.wrong(words, "wrong settings", right)
    assert {(0, 0), (0, 1), (1, 1), (2, 2)} <= seen, seen
    put(name, table(A))
    bev.answers(ANSWERED, "met 2\nbound 2\nquestions 7\nyes 0\nyes 1\n", "wishes", name, 6, ":", 0, 1, 2, 3)
    bev.answers(ANSWERED, "met 0\nbound 0\nquestions 65535\nyes 0\neither 1\n", "wishes", "-", 6, ":", *[13] * 16, stdin=table(A))
    for wishes, shows in (([13] * 16, True), ([13] * 7, False)):
        leader, follower = pty.openpty()
        bev.run("wishes", name, 6, ":", *wishes, capture_output=False, stdout=subprocess.DEVNULL, stderr=follower)
        os.write(follower, b"end\n")
        shown = b""
        while not shown.endswith(b"end\r\n"):
            shown += os.read(leader, 4096)
        if (b"questions put, at most" in shown) != shows or not shown.endswith(b"\x1b[Kend\r\n" if shows else b"end\r\n"):
            bev.wrong(("wishes", *wishes), shown, "a progress line, taken back" if shows else "none")
        os.close(leader)
        os.close(follower)
    bev.refuses(66, 0, "wishes", name, 6, ":", *[99] * 17, about="the wishes")
    bev.refuses(62, 0, "wishes", name, ":", *[99] * 17, about="the goals")
    bev.refuses(20, 2, "wishes", name, 6, 0, ":", 99, 1, about="99, goal 2)")

def overviewing(bev, folder, rounds):
    """Each goal by itself against truth tables; all literals of a table; row 68, and row 20 by index."""
    name, rng = os.path.join(folder, "t"), random.Random(9)
    def lines(records, goals):
        return "".join(f"{g} {'possible' if possible_together(records, [g]) else 'impossible'}\n" for g in goals)
    for records in [A, [(TRUE, 0, 0)], [(ATOM, 1023, 0)]] + [some_table(rng, 2 + i % 6, 10 + i) for i in range(rounds)]:
        put(name, table(records))
        bev.answers(ANSWERED, lines(records, range(2 * len(records))), "overview", name)
        for count in (1, 2, 40, 256):
            goals = [rng.randrange(2 * len(records)) for _ in range(count)]
            bev.answers(ANSWERED, lines(records, goals), "overview", name, *goals)
    records, _ = full_table()
    put(name, table(records))
    found = bev.run("overview", name)
    right = "".join(f"{l} {'impossible' if search(records, [l])[0] is None else 'possible'}\n" for l in range(300))
    if found[0] != ANSWERED or found[2] or len(found[1].splitlines()) != 4032 or not found[1].startswith(right):
        bev.wrong(("overview", "a full table"), found, right)
    bev.answers(ANSWERED, "6 possible\n6 possible\n", "overview", "-", 6, 6, stdin=table(A))
    put(name, table(A))
    for goal in (20, 4032, 65535, 65536, 2 ** 64 - 1):
        bev.refuses(20, 0, "overview", name, goal, about=f"{goal})")
        bev.refuses(20, 255, "overview", name, *[18] * 255, goal, about=f"{goal}, goal 255)")
        bev.refuses(68, 0, "overview", name, *[18] * 256, goal, about="the goals)")
    bev.refuses(68, 0, "overview", name, *[18] * 1000, about="the goals)")
    bev.fails("x", "is no literal", "overview", name, *[18] * 300, "x")

def list_rows(bev, folder):
    """Rows 62 and 20, in each command: the table first, then the length of the list, then the first goal that is none."""
    t, d, bad = (os.path.join(folder, n) for n in "tdb")
    put(t, table(A))
    put(d, derivation(search(A, [18])[1]))
    put(bad, table(A)[:511])
    commands = [lambda t, *g: ("decide", t, *g), lambda t, *g: ("clash", t, *g), lambda t, *g: ("wishes", t, *g), lambda t, *g: ("derive", t, *g, "-o", d + "x"), lambda t, *g: ("check", t, *g, d), lambda t, *g: ("steps", d, t, *g)]
    for words in commands:
        for goal in (20, 4032, 65535, 65536, 2 ** 32 + 18, 2 ** 64 - 1):
            bev.refuses(20, 0, *words(t, goal), about=f"{goal})")
            bev.refuses(20, 2, *words(t, 18, 0, goal, 99), about=f"{goal}, goal 2)")
            bev.refuses(20, 63, *words(t, *[18] * 63, goal), about=f"{goal}, goal 63)")
            bev.refuses(62, 0, *words(t, *[18] * 64, goal), about="the goals)")
            bev.refuses(10, 0, *words(bad, *[goal] * 65), about=bad)
        for count in (65, 66, 1000):
            bev.refuses(62, 0, *words(t, *[18] * count), about="the goals)")
        bev.fails("x", "is no literal", *words(t, *[18] * 70, "x"))
    if os.path.exists(d + "x"):
        bev.wrong(("derive",), "a file", "none from refused goals")
    bev.answers(IMPOSSIBLE, "impossible\nsplits 1\n", "decide", t, *[18] * 64)

def evaluating(bev, folder):
    name, out = os.path.join(folder, "t"), os.path.join(folder, "s")
    put(name, table(A))
    for word in range(4):
        yes = {p for p in range(2) if word >> p & 1}
        settings = bytes(p in yes for p in range(1024))
        for data in (settings, settings + b"\x07more"):
            put(out, data)
            for literal in range(2 * len(A)):
                truth = truths(A, yes)[literal // 2] != (literal % 2 == 1)
                bev.answers(ANSWERED, "yes\n" if truth else "no\n", "eval", name, literal, out)
    bev.answers(ANSWERED, "no\n", "eval", name, 0, "-", stdin=bytes(1024))
    bev.refuses(20, 0, "eval", name, 20, out, about=20)
    for data, number, place in ((b"", 21, 0), (bytes(1023), 21, 0), (bytes(500) + b"\xff" + bytes(523), 22, 500), (bytes(1023) + b"\xff", 22, 1023)):
        put(out, data)
        bev.refuses(number, place, "eval", name, 0, out, about=out)

def text(step):
    rule, position, value = step
    return f"{rule}{value}" + (f".{position}" if rule == "R" else "")

def explained(records, goals, steps, letter=68):
    """What stands before the colon in each line of the steps explained: the indent, the step, and its clause."""
    held, struck, waiting, lines = [], set(), [], []
    for rule, p, k in steps:
        clauses = [([g], "a goal") for g in goals] + [(c, f"of {l}") for l in held for c in expansion(records, l)]
        start = "  " * len(waiting) + text((rule, p, k))
        if rule == "G":
            lines.append(f"{start} {k} is a goal")
            continue
        if rule == "S":
            lines.append(f"{start} {k} is undecided")
            waiting.append((held + [k ^ 1], set(struck)))
            held = held + [k]
            continue
        clause, source = clauses[k]
        if letter == 86:
            struck = struck | {(k, q) for q, l in enumerate(clause) if l ^ 1 in held}
        lines.append(start + " {" + ", ".join(f"[{l}]" if (k, q) in struck else str(l) for q, l in enumerate(clause)) + "}, " + source)
        if rule == "U":
            held = held + [next(l for q, l in enumerate(clause) if (k, q) not in struck)]
        elif rule == "R":
            struck = struck | {(k, p)}
        elif rule == "C" and waiting:
            held, struck = waiting.pop()
    return lines

def spoiled(rng, steps, nodes):
    """Steps with one left out, doubled, exchanged, or changed."""
    steps, i = list(steps), rng.randrange(len(steps) if rng.randrange(2) else min(3, len(steps)))
    way = rng.randrange(5)
    if way == 0:
        del steps[i]
    elif way == 1:
        steps.insert(i, steps[i])
    elif way == 2:
        j = rng.randrange(len(steps))
        steps[i], steps[j] = steps[j], steps[i]
    elif way == 3:
        rule = rng.choice("URECSG")
        steps[i] = (rule, rng.randrange(3) if rule == "R" else 0, rng.choice([steps[i][2], rng.randrange(2 * nodes), 65535]))
    else:
        steps.append(rng.choice(steps))
    return steps

def says(bev, verdict, *words, about):
    if verdict:
        bev.refuses(*verdict, *words, about=about)
    else:
        bev.answers(ANSWERED, "accepted\n", *words)

def explains(bev, records, goals, steps, t, d, letter=68):
    """Both forms of bev steps, for steps that check accepts up to some place."""
    verdict = checked(records, goals, steps, letter)
    if verdict and verdict[0] == 65:
        bev.refuses(*verdict, "steps", d, about=f"{d}, step ")
        return bev.refuses(*verdict, "steps", d, t, *goals, about=f"{d}, step ")
    bev.answers(ANSWERED, " ".join(map(text, steps)) + "\n", "steps", d)
    status, out, err = bev.run("steps", d, t, *goals)
    good = explained(records, goals, steps[:verdict[1]] if verdict else steps, letter)
    lines = out.split("\n")[:-1]
    if verdict:
        last = lines.pop()
        shown = lines.pop() if verdict[1] < len(steps) else "may not stand here"
        if status != REFUSED or not last.startswith("refused %d at %d: " % verdict) or not shown.endswith("may not stand here"):
            bev.wrong(("steps", *goals), (status, out), verdict)
    elif status != ANSWERED:
        bev.wrong(("steps", *goals), status, ANSWERED)
    if err or [line.split(":")[0] for line in lines] != good:
        bev.wrong(("steps", *goals), out + err, good)

def checking(bev, folder, rounds):
    t, d = os.path.join(folder, "t"), os.path.join(folder, "d")
    rng, positions = random.Random(3), set()
    for records in [A, triples()] + [some_table(rng, 3 + i % 4, 20 + i) for i in range(rounds)]:
        put(t, table(records))
        for i, goals in enumerate(goal_lists(rng, records, 10)):
            letter = 86 if i % 2 else 68
            steps = search(records, goals, letter)[1]
            if not steps:
                continue
            assert checked(records, goals, steps, letter) is None
            positions |= {p for rule, p, _ in steps if rule == "R"}
            unnamed, converted = steps[len(goals):], [s for s in search(records, goals)[1] if s[0] != "R"]
            assert letter == 68 or converted == steps
            for tried in [steps, unnamed] + [spoiled(rng, steps, len(records)) for _ in range(4)]:
                if tried:
                    put(d, derivation(tried, letter))
                    says(bev, checked(records, goals, tried, letter), "check", t, *goals, d, about=f"{d}, step ")
                    explains(bev, records, goals, tried, t, d, letter)
    assert positions == {0, 1, 2}, positions
    wording(bev, t, d)
    versions(bev, t, d)
    forms(bev, t, d)

WORDS_18 = """G18 18 is a goal: the list has it at this place
U0 {18}, a goal: 18 is the one literal left, so it is held
U1 {10}, of 18: 10 is the one literal left, so it is held
U2 {16}, of 18: 16 is the one literal left, so it is held
S1 1 is undecided: it is held, and 0 once its branch has closed
  E3 {1, 2}, of 10: 1 is held, so the clause is struck
  R4.0 {0, 3}, of 10: 0 is false, since 1 is held, and is struck
  U4 {[0], 3}, of 10: 3 is the one literal left, so it is held
  R6.0 {0, 2}, of 16: 0 is false, since 1 is held, and is struck
  R6.1 {[0], 2}, of 16: 2 is false, since 3 is held, and is struck
  C6 {[0], [2]}, of 16: every literal is struck, so the branch closes; now 0 is held
R3.0 {1, 2}, of 10: 1 is false, since 0 is held, and is struck
U3 {[1], 2}, of 10: 2 is the one literal left, so it is held
R5.0 {1, 3}, of 16: 1 is false, since 0 is held, and is struck
R5.1 {[1], 3}, of 16: 3 is false, since 2 is held, and is struck
C5 {[1], [3]}, of 16: every literal is struck, so the branch closes, the last one
"""
WORDS_13 = """G13 13 is a goal: the list has it at this place
U0 {13}, a goal: 13 is the one literal left, so it is held
C1 {}, of 13: it is empty, so the branch closes, the last one
"""
WORDS_LIST = """U0 {0}, a goal: 0 is the one literal left, so it is held
E1 {0}, a goal: 0 is held, so the clause is struck
R2.0 {1}, a goal: 1 is false, since 0 is held, and is struck
C2 {[1]}, a goal: every literal is struck, so the branch closes, the last one
"""

def wording(bev, t, d):
    """Every rule in full, with an erasure, which the solver's order never has."""
    put(t, table(A))
    steps = search(A, [18])[1]
    for goals, steps, words in (([18], steps[:5] + [("E", 0, 3)] + steps[5:], WORDS_18), ([0, 0, 1], [("U", 0, 0), ("E", 0, 1), ("R", 0, 2), ("C", 0, 2)], WORDS_LIST),
                                ([13], search(A, [13])[1], WORDS_13)):
        put(d, derivation(steps))
        bev.answers(ANSWERED, "accepted\n", "check", t, *goals, d)
        bev.answers(ANSWERED, words, "steps", d, t, *goals)
    put(d, derivation(steps + steps[-1:]))
    bev.refuses(46, 3, "steps", d, t, 13, about=f"{d}, step 3", before=WORDS_13 + "C1 {}, of 13: may not stand here\n")
    put(d, derivation(steps[:2]))
    bev.refuses(47, 2, "steps", d, t, 13, about=f"{d}, step count 2", before="".join(WORDS_13.splitlines(True)[:2]))
    named(bev, t, d, steps)

WORDS_18_TWO = """G18 18 is a goal: the list has it at this place
U0 {18}, a goal: 18 is the one literal left, so it is held
U1 {10}, of 18: 10 is the one literal left, so it is held
U2 {16}, of 18: 16 is the one literal left, so it is held
S1 1 is undecided: it is held, and 0 once its branch has closed
  U4 {[0], 3}, of 10: 3 is the one literal left, so it is held
  C6 {[0], [2]}, of 16: every literal is false, so the branch closes; now 0 is held
U3 {[1], 2}, of 10: 2 is the one literal left, so it is held
C5 {[1], [3]}, of 16: every literal is false, so the branch closes, the last one
"""

def versions(bev, t, d):
    """Version two in full, what it refuses, and a file of mixed letters."""
    put(t, table(A))
    bev.answers(ANSWERED, "9 steps\n", "derive", t, 18, "--version-two", "-o", d)
    bev.answers(ANSWERED, "accepted\n", "check", t, 18, d)
    bev.answers(ANSWERED, WORDS_18_TWO, "steps", d, t, 18)
    one, two = search(A, [18])[1], search(A, [18], 86)[1]
    if get(d) != derivation(two, 86):
        bev.wrong(("derive", "--version-two"), "another file", "the derivation")
    for steps, want in ((one, (65, 5)), (two[1:], (64, 0)), (two[:1] + [("E", 0, 0)] + two[1:], (65, 1)), (two[:4], (47, 4)), (two[:5] + [("C", 0, 3)], (45, 5))):
        put(d, derivation(steps, 86))
        bev.refuses(*want, "check", t, 18, d, about=f"{d}, step ")
    long = [derivation([("S", 0, 0)] * 300, letter) for letter in (68, 86)]
    for j in range(1, 3):
        put(d, long[0][:512 * j] + long[1][512 * j:])
        bev.refuses(42, j, "check", t, 18, d, about=f"{d}, block {j}")
    bev.fails("--version-two", "is no option here", "check", t, 18, d, "--version-two")

def named(bev, t, d, steps):
    """A derivation for the wrong goals, a name too many, a late one, and a file that ends before its goals are named."""
    first = "G13 13 is a goal: the list has it at this place\n"
    for goals, tried, place, before in (([12], steps, 0, "G13: may not stand here\n"), ([13, 13], steps, 1, first + "U0 {13}, a goal: may not stand here\n"),
                                        ([13], steps[:1] + steps, 1, first + "G13: may not stand here\n"), ([13, 13], steps[:1], 1, first),
                                        ([13], steps[1:2] + steps[:1], 1, WORDS_13.splitlines(True)[1] + "G13: may not stand here\n")):
        put(d, derivation(tried))
        bev.refuses(64, place, "check", t, *goals, d, about=f"{d}, step ")
        bev.refuses(64, place, "steps", d, t, *goals, about=f"{d}, step ", before=before)

def forms(bev, t, d):
    """Rows 40 to 44, and the longest derivations."""
    put(t, table(A))
    good = derivation(search(A, [18])[1])
    long = derivation([("S", 0, 0)] * 300)
    for data, want in [(good + bytes(512), (42, 0)), (good[:100] + b"\1" + good[101:], (41, 0)), (long[:-2] + b"xx", (41, 2)), (b"", (40, 0)), (good[:511], (40, 0)),
                       (good + b"x", (40, 0)), (edited(good, 0, 70), (42, 0)), (edited(good, 1, 127), (42, 0)), (edited(good, 300, 1), (43, 0)),
                       (edited(good, 4, 84), (44, 0)), (edited(good, 5, 1), (44, 0)), (edited(good, 4 + 4 * 5 + 1, 3), (44, 5)), (edited(long, 512 * 2 + 2, 1), (42, 2)),
                       (bytes(33554432), (42, 0)), (bytes(33554433), (40, 0)), (bytes(33554944), (40, 0))]:
        put(d, data)
        bev.refuses(*want, "check", t, 18, d, about=d)
        bev.refuses(*want, "steps", d, about=d)
        bev.refuses(*want, "steps", d, t, 18, about=d)
    put(d, edited(good, 4 + 4 * 5 + 1, 2)) # a third position, of a clause of two
    bev.refuses(45, 5, "check", t, 18, d, about=f"{d}, step 5")
    for data in (long[:512], long):
        put(d, data)
        bev.refuses(45, 1, "check", t, 18, d, about=f"{d}, step 1")
    put(d, good)
    bev.answers(ANSWERED, "accepted\n", "check", t, 18, "-", stdin=good)
    bev.answers(ANSWERED, "accepted\n", "check", "-", 18, d, stdin=table(A))

def deriving(bev, folder, rounds, points):
    t, d = os.path.join(folder, "t"), os.path.join(folder, "d")
    rng = random.Random(4)
    for records in [A, triples(), parity(6)] + [some_table(rng, 3 + i % 4, 20 + i) for i in range(rounds)]:
        put(t, table(records))
        for i, goals in enumerate(goal_lists(rng, records, 10)):
            letter, option = (86, ["--version-two"]) if i % 2 else (68, [])
            steps = search(records, goals, letter)[1]
            put(d, b"old" * 1000)
            if steps:
                bev.answers(ANSWERED, f"{len(steps)} steps\n", "derive", t, *goals, *option, "-o", d)
                bev.answers(ANSWERED, "accepted\n", "check", t, *goals, d)
            else:
                bev.refuses(30, 0, "derive", t, *goals, *option, "-o", d, about=f"{goals[0]})" if len(goals) == 1 else "the goals)")
            if get(d) != (derivation(steps, letter) if steps else b"old" * 1000):
                bev.wrong(("derive", *goals), "a wrong file", "the derivation")
    longest(bev, t, d, points)

def longest(bev, t, d, points):
    """The most points whose parity has a derivation of at most 65,536 blocks, and one more."""
    for n, fits in ((points, True), (18, False)):
        records = parity(n)
        goal = 2 * len(records) - 2
        put(t, table(records))
        os.remove(d)
        if not fits:
            bev.refuses(31, 0, "derive", t, goal, "-o", d, about=goal)
            if os.path.exists(d):
                bev.wrong(("derive", goal), "a file", "none")
            put(d, b"")
            continue
        status, out, _ = bev.run("derive", t, goal, "-o", d)
        steps = int(re.fullmatch(r"(\d+) steps\n", out)[1])
        if status != ANSWERED or os.path.getsize(d) != (steps + 125) // 126 * 512:
            bev.wrong(("derive", goal), os.path.getsize(d), steps)
        bev.answers(ANSWERED, "accepted\n", "check", t, goal, d)

def test(bev, folder, rounds, points):
    deciding(bev, folder, rounds)
    clashing(bev, folder, rounds)
    wishing(bev, folder, rounds)
    overviewing(bev, folder, rounds)
    list_rows(bev, folder)
    evaluating(bev, folder)
    checking(bev, folder, rounds)
    deriving(bev, folder, rounds, points)
