#!/usr/bin/env python3
"""What crates/table_cases must print, worked out from the scope paper by an independent reading. Its output is crates/table_cases/stdout."""
import itertools

def check(b):
    total, weight = 0, 1
    for byte in b[:510]:
        total, weight = (total + byte * weight) % 65521, 3 * weight % 65521
    return total

def seal(t, j=0):
    t[512 * j + 510:512 * j + 512] = check(t[512 * j:]).to_bytes(2, "little")

def word(b, i):
    return b[i] + 256 * b[i + 1]

def place(n):
    return 512 * (n // 63) + 4 + 8 * (n % 63)

class No(Exception):
    pass

def no(number, at=0):
    raise No(f"refused {number} at {at}")

def operands(kind, a, b, c):
    return [] if kind <= 2 else [a, b] if kind <= 6 else [a, b, c]

def record(r, n):
    kind, a, b, c = r[0], word(r, 2), word(r, 4), word(r, 6)
    if r[1] or not 1 <= kind <= 8 or (kind == 1 and a) or (kind <= 2 and b) or (kind <= 6 and c):
        no(14, n)
    nodes = [l // 2 for l in operands(kind, a, b, c)]
    if kind == 2 and a > 1023 or any(m >= n for m in nodes):
        no(15, n)
    if len(set(nodes)) < len(nodes) or kind != 5 and nodes != sorted(nodes):
        no(16, n)
    return kind, a, b, c

def read(t):
    if len(t) == 0 or len(t) % 512 or len(t) > 16384:
        no(10)
    nodes, blocks = [], len(t) // 512
    for j in range(blocks):
        b = t[512 * j:512 * j + 512]
        if check(b) != word(b, 510):
            no(11, j)
        if b[0] != 70 or word(b, 2) != j or not 1 <= b[1] <= 63 or j + 1 < blocks and b[1] != 63:
            no(12, j)
        if any(b[4 + 8 * b[1]:510]):
            no(13, j)
        for k in range(b[1]):
            x = record(b[4 + 8 * k:12 + 8 * k], len(nodes))
            if x in nodes:
                no(17, len(nodes))
            nodes.append(x)
    return nodes

def truths(nodes, s, l):
    """The truths that a literal may have, as strong Kleene tables join them: a point's 2 has both, and operands go their ways apart."""
    kind, a, *rest = nodes[l // 2]
    if kind <= 2:
        v = {True} if kind == 1 else {True, False} if s[a] == 2 else {s[a] == 1}
    else:
        join = {3: all, 4: any, 5: lambda x: not x[0] or x[1], 6: lambda x: x[0] == x[1], 7: all, 8: any}[kind]
        v = {join(x) for x in itertools.product(*(truths(nodes, s, k) for k in operands(kind, a, *rest)))}
    return {x != (l % 2 == 1) for x in v}

def add(t, used, r):
    if used > len(t):
        no(9)
    nodes = read(t[:used]) if used else []
    n, r = len(nodes), bytearray(r)
    if r[0] == 5: # the refusals are those of the record given
        record(r, n)
        r[0], r[2] = 4, r[2] ^ 1
    fields = operands(r[0], word(r, 2), word(r, 4), word(r, 6))
    for i, l in enumerate(sorted(fields, key=lambda l: l // 2)):
        r[2 + 2 * i:4 + 2 * i] = l.to_bytes(2, "little")
    x = record(r, n)
    if x in nodes:
        return 2 * nodes.index(x), used
    if n == 2016:
        no(51, n)
    if n % 63 == 0:
        if len(t) - used < 512:
            no(52, n)
        t[used:used + 512] = bytes([70, 0, n // 63, 0]) + bytes(508)
        used += 512
    t[used - 511] += 1
    t[place(n):place(n) + 8] = r
    seal(t, used // 512 - 1)
    return 2 * n, used

def node(kind, a, b, c=0):
    return bytes([kind, 0, a % 256, a // 256, b % 256, b // 256, c % 256, c // 256])

def say(make):
    try:
        print(make())
    except No as e:
        print(e)

def show_add(t, used, r):
    say(lambda: "literal %d used %d" % add(t, used, r))

def show_count(t):
    say(lambda: f"{len(read(t))} nodes")

A = [(2, 0, 0), (2, 1, 0), (3, 0, 2), (4, 0, 2), (5, 0, 2), (6, 0, 2), (1, 0, 0), (3, 4, 7), (6, 0, 3), (3, 10, 16)]

def table_a(other):
    t, used = bytearray([other] * 600), 0
    for x in A:
        used = add(t, used, node(*x))[1]
    t[place(4):place(4) + 8] = node(*A[4]) # as it was before IMP was retired
    seal(t)
    return t

def evaluate(t, l, s):
    nodes = read(t)
    if l >= 2 * len(nodes):
        no(20)
    if len(s) < 1024:
        no(21)
    for p in range(1024):
        if s[p] > 2:
            no(22, p)
    may = truths(nodes, s, l)
    return "unknown" if len(may) == 2 else "yes" if True in may else "no"

def record_of(t, l):
    nodes = read(t)
    if l >= 2 * len(nodes):
        no(20)
    return "%d %d %d %d" % nodes[l // 2]

print("samples")
for kind in (1, 2):
    t = bytearray([238] * 600)
    show_add(t, 0, node(kind, 0, 0))
    print(t[510], t[511], t[509], t[512])
print("damaged")
for at, value, sealed in [(4, 2, 1), (100, 1, 0), (0, 68, 1), (2, 1, 1), (1, 0, 1), (1, 64, 1), (1, 9, 1), (509, 1, 1), (4, 0, 1), (4, 7, 1), (5, 1, 1),
                          (8, 1, 1), (11, 1, 1), (54, 1, 1), (7, 4, 1), (22, 4, 1), (24, 1, 1), (14, 0, 1)]:
    t = table_a(0)
    t[at] = value
    if sealed:
        seal(t)
    show_count(t[:512])
print("reads")
t = table_a(0)
for l in range(21):
    say(lambda: record_of(t[:512], l))
show_count(t[:0])
show_count(t[:511])
for first, second in [(0, 0), (1, 0), (0, 1), (1, 1), (2, 1), (1, 255)]:
    print("points", first, second)
    s = bytes([first, second]) + bytes(1022)
    for l in range(21):
        say(lambda: evaluate(t[:512], l, s))
    say(lambda: evaluate(t[:512], 0, s[:1023]))
print("adds")
t = table_a(238)
for x in [(4, 2, 0), (5, 2, 0), (5, 0, 2), (5, 0, 2), (4, 2, 1), (5, 3, 1), (5, 4, 5), (5, 99, 0),
          (8, 5, 2, 0), (8, 0, 5, 2), (7, 0, 2, 5), (7, 4, 0, 5), (8, 0, 2, 98), (6, 0, 2, 5)]:
    show_add(t, 512, node(*x))
for l in (*range(21), 24):
    say(lambda: record_of(t[:512], l))
for used, x in [(601, (1, 0, 0)), (600, (1, 0, 0)), (512, (7, 0, 0)), (512, (9, 0, 0)), (512, (2, 1024, 0)), (512, (2, 1023, 0)),
                (512, (3, 99, 0)), (512, (6, 4, 5))]:
    show_add(t, used, node(*x))
t[9] = 1
show_add(t, 512, node(1, 0, 0))
print("full")
t, used = bytearray([238] * 1023), 0
for i in range(63):
    used = add(t, used, node(2, i, 0))[1]
show_add(t, used, node(1, 0, 0))
show_add(t, used, node(2, 62, 0))
records = [node(2, i, 0) for i in range(1024)] + [node(3, 2 * i, 2 * i + 2) for i in range(992)]
t = bytearray(b"".join(bytes([70, 63, j, 0]) + b"".join(records[63 * j:63 * j + 63]) + bytes(4) for j in range(32))) + bytearray([238] * 512)
for j in range(32):
    seal(t, j)
print(16384, "used")
show_add(t, 16384, node(4, 0, 2))
show_add(t, 16384, node(3, 1982, 1984))
show_count(t[:16384])
show_count(t)
show_count(t[:15872])
