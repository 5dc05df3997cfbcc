"""Tables, their truths by brute force, and the solver's order and derivations, an independent reading of the scope paper in plain Python:
for the tests of the command and the programs. It shares nothing with the library."""
import sys

sys.setrecursionlimit(10000)
TRUE, ATOM, AND, OR, IMP, IFF, AND3, OR3 = range(1, 9) # a record is its kind and two fields, of the last two kinds three
A = [(ATOM, 0, 0), (ATOM, 1, 0), (AND, 0, 2), (OR, 0, 2), (IMP, 0, 2), (IFF, 0, 2), (TRUE, 0, 0), (AND, 4, 7), (IFF, 0, 3), (AND, 10, 16)]

def seal(block):
    total, weight = 0, 1
    for byte in block[:510]:
        total, weight = (total + byte * weight) % 65521, 3 * weight % 65521
    return block[:510] + total.to_bytes(2, "little")

def blocks(letter, capacity, records):
    out = b""
    for j in range(0, len(records), capacity):
        part = records[j:j + capacity]
        out += seal((bytes([letter, len(part)]) + (j // capacity).to_bytes(2, "little") + b"".join(part)).ljust(510, b"\0"))
    return out

def table(records):
    """A record is a kind and two fields, or three for the kinds of three operands."""
    return blocks(70, 63, [(bytes([kind, 0]) + b"".join(f.to_bytes(2, "little") for f in fields)).ljust(8, b"\0") for kind, *fields in records])

def derivation(steps, letter=68):
    return blocks(letter, 126, [bytes([ord(rule), position]) + value.to_bytes(2, "little") for rule, position, value in steps])

def edited(data, at, value):
    """One byte changed, and its block sealed anew."""
    d, j = bytearray(data), at // 512 * 512
    d[at] = value
    d[j:j + 512] = seal(bytes(d[j:j + 512]))
    return bytes(d)

def truths(records, yes):
    v = []
    def lit(l):
        return v[l // 2] != (l % 2 == 1)
    for kind, *fields in records:
        if kind == TRUE:
            v.append(True)
        elif kind == ATOM:
            v.append(fields[0] in yes)
        elif kind in (IMP, IFF):
            x, y = map(lit, fields)
            v.append(not x or y if kind == IMP else x == y)
        else:
            v.append((all if kind in (AND, AND3) else any)(map(lit, fields)))
    return v

def points_of(records):
    return sorted({fields[0] for kind, *fields in records if kind == ATOM})

def by_truth_table(records):
    """For each node, whether some setting makes it true, and whether some makes it false."""
    points = points_of(records)
    yes, no = [False] * len(records), [False] * len(records)
    for w in range(1 << len(points)):
        for n, x in enumerate(truths(records, {p for i, p in enumerate(points) if w >> i & 1})):
            yes[n] |= x
            no[n] |= not x
    return list(zip(yes, no))

def possible_together(records, goals):
    """Whether one setting makes every goal true."""
    points = points_of(records)
    def makes_true(v):
        return all(v[g // 2] != (g % 2 == 1) for g in goals)
    return any(makes_true(truths(records, {p for i, p in enumerate(points) if w >> i & 1})) for w in range(1 << len(points)))

def some_goals(rng, records):
    """1 to 64 goals: any literals, or such that one setting makes true, or those with one turned."""
    count = rng.randrange(1, 6) if rng.random() < 0.7 else rng.randrange(1, 65)
    goals = [rng.randrange(2 * len(records)) for _ in range(count)]
    sort = rng.randrange(3)
    if sort:
        v = truths(records, {p for p in points_of(records) if rng.random() < 0.5})
        goals = [g - g % 2 + (not v[g // 2]) for g in goals]
    if sort == 2:
        goals[rng.randrange(count)] ^= 1
    return goals

def some_table(rng, points, count):
    """Points, then records of all kinds on earlier nodes."""
    records = [(ATOM, p, 0) for p in rng.sample(range(1024), points)]
    while len(records) < count:
        kind = rng.choice([TRUE, AND, OR, IMP, IFF, AND, OR, IMP, IFF] + [AND3, OR3] * (2 if len(records) > 2 else 0))
        nodes = rng.sample(range(len(records)), 3 if kind > IFF else 2)
        if kind != IMP:
            nodes.sort()
        record = (kind, 0, 0) if kind == TRUE else (kind, *(2 * n + rng.randrange(2) for n in nodes))
        if record not in records:
            records.append(record)
    return records

def full_table():
    """2,016 nodes, and their answers: a point, an AND with it, what follows from the AND, and what contradicts it."""
    records, answers = [(ATOM, 1000, 0)], [(True, True)]
    for g in range(503):
        a = len(records)
        records += [(ATOM, g, 0), (AND, 0, 2 * a), (IMP, 2 * a + 2, 2 * a), (AND, 2 * a + 1, 2 * a + 2)]
        answers += [(True, True), (True, True), (True, False), (False, True)]
    return records + [(ATOM, 1001, 0), (ATOM, 1002, 0), (TRUE, 0, 0)], answers + [(True, True), (True, True), (True, False)]

def expansion(records, l):
    kind, *operands = records[l // 2]
    if kind > IFF:
        turned = [x ^ l % 2 for x in operands]
        return [[x] for x in turned] if (kind == AND3) == (l % 2 == 0) else [turned]
    a, b = operands
    if l % 2 == 0:
        return {TRUE: [], ATOM: [], AND: [[a], [b]], OR: [[a, b]], IMP: [[a ^ 1, b]], IFF: [[a ^ 1, b], [a, b ^ 1]]}[kind]
    return {TRUE: [[]], ATOM: [], AND: [[a ^ 1, b ^ 1]], OR: [[a ^ 1], [b ^ 1]], IMP: [[a], [b ^ 1]], IFF: [[a, b], [a ^ 1, b ^ 1]]}[kind]

def search(records, goals, letter=68):
    """Of a list of goals: the final list and None, or None and the derivation's steps, the goals' names first; with letter 86 without R."""
    steps = [("G", 0, g) for g in goals]
    def removals(held, clause, k):
        steps.extend(("R", p, k) for p, l in enumerate(clause) if l ^ 1 in held and letter == 68)
    def branch(held, clauses):
        while True:
            unit = fork = None
            for k, clause in enumerate(clauses):
                if any(l in held for l in clause):
                    continue
                free = [l for l in clause if l ^ 1 not in held]
                if not free:
                    removals(held, clause, k)
                    steps.append(("C", 0, k))
                    return None
                if len(free) == 1 and unit is None:
                    unit = (k, clause, free[0])
                if fork is None:
                    fork = free[0]
            if unit:
                k, clause, l = unit
                removals(held, clause, k)
                steps.append(("U", 0, k))
                held, clauses = held + [l], clauses + expansion(records, l)
            elif fork is None:
                return held
            else:
                steps.append(("S", 0, fork))
                left = branch(held + [fork], clauses + expansion(records, fork))
                if left is not None:
                    return left
                held, clauses = held + [fork ^ 1], clauses + expansion(records, fork ^ 1)
    model = branch([], [[g] for g in goals])
    return (model, None) if model is not None else (None, steps)

def jump(records, goals, counting=128):
    """The search that jumps over splits: the final list or None, and the splits made. Each literal held has the set of the splits that it
    rests on, by how many splits stand before them; only the first `counting` of a branch count."""
    made = 0
    def branch(held, clauses, depth):
        nonlocal made
        while True:
            unit = fork = None
            for clause, origin in clauses:
                if any(l in held for l in clause):
                    continue
                free = [l for l in clause if l ^ 1 not in held]
                rests = set().union(origin, *(held[l ^ 1] for l in clause if l ^ 1 in held))
                if not free:
                    return None, rests
                if len(free) == 1 and unit is None:
                    unit = free[0], rests
                if fork is None:
                    fork = free[0]
            def joined(l, rests):
                return {**held, l: rests}, clauses + [(c, rests) for c in expansion(records, l)]
            if unit:
                held, clauses = joined(*unit)
            elif fork is None:
                return list(held), None
            else:
                made += 1
                model, rests = branch(*joined(fork, {depth} if depth < counting else set()), depth + 1)
                if model is not None or depth < counting and depth not in rests:
                    return model, rests
                held, clauses = joined(fork ^ 1, rests - {depth})
                depth += 1
    model, _ = branch({}, [([g], set()) for g in goals], 0)
    return model, made

def setting_of(records, model):
    """The settings bytes of a model: 1 and 0 for the held signs of points, 2 for the others."""
    setting = bytearray([2] * 1024)
    for l in model:
        if records[l // 2][0] == ATOM:
            setting[records[l // 2][1]] = 1 - l % 2
    return bytes(setting)

def checked(records, goals, steps, letter=68):
    """What check says of a list of goals and steps: None, or a refusal's number and place."""
    for i, (rule, p, k) in enumerate(steps):
        if letter == 86 and rule in "RE":
            return 65, i
    must_name = letter == 86 or steps[0][0] == "G"
    held, struck, waiting, complete = [], set(), [], False
    for i, (rule, p, k) in enumerate(steps):
        if complete:
            return 46, i
        if must_name and i < len(goals):
            if (rule, k) != ("G", goals[i]):
                return 64, i
            continue
        if rule == "G":
            return 64, i
        clauses = [[g] for g in goals]
        for l in held:
            clauses += expansion(records, l)
        if rule == "S":
            if k >= 2 * len(records) or k in held or k ^ 1 in held:
                return 45, i
            waiting.append((held + [k ^ 1], set(struck)))
            held = held + [k]
            continue
        if k >= len(clauses) or letter == 68 and k in struck:
            return 45, i
        gone = (lambda q, l: l ^ 1 in held) if letter == 86 else (lambda q, l: (k, q) in struck)
        left = [(q, l) for q, l in enumerate(clauses[k]) if not gone(q, l)]
        if rule == "U" and len(left) == 1 and left[0][1] not in held and left[0][1] ^ 1 not in held:
            held, struck = held + [left[0][1]], struck | {k}
        elif rule == "R" and any(q == p and l ^ 1 in held for q, l in left):
            struck = struck | {(k, p)}
        elif rule == "E" and any(l in held for _, l in left):
            struck = struck | {k}
        elif rule == "C" and not left:
            complete = not waiting
            held, struck = waiting.pop() if waiting else ([], set())
        else:
            return 45, i
    ends_named = must_name and len(steps) < len(goals)
    return None if complete else (64 if ends_named else 47, len(steps))

def parity(n):
    """The parity of n points in two orders, and that they differ: an impossible goal, the last node, whose derivation doubles with n."""
    records = [(ATOM, i, 0) for i in range(n)]
    def chain(x, rest):
        for p in rest:
            records.append((IFF, 2 * min(x, p), 2 * max(x, p)))
            x = len(records) - 1
        return x
    x, y = chain(0, range(1, n)), chain(n - 1, range(n - 2, -1, -1))
    return records + [(AND, 2 * x, 2 * y + 1)]
