"""bev dimacs on DIMACS texts: every edge of the grammar with the line and the cause named, mending, tables that are too large, random
files against truth tables by brute force and the SAT solvers that are installed."""
import os
import random
import re
import shutil
import subprocess

from command import ANSWERED, IMPOSSIBLE, POSSIBLE, REFUSED, get, put, sample

SOLVERS = [p for p in (shutil.which(s) for s in ("minisat", "picosat", "cadical")) if p]

def true_under(clauses, values):
    return all(any(values[abs(l)] == (l > 0) for l in c) for c in clauses)

def satisfiable(variables, clauses):
    return any(true_under(clauses, {v: bool(w >> (v - 1) & 1) for v in range(1, variables + 1)}) for w in range(1 << variables))

def values_of(bev, out, variables):
    """The values of the v lines, after c lines and one s line: each variable once, in order, then 0."""
    lines = [line for line in out.removesuffix("\n").split("\n") if not line.startswith("c ")]
    numbers = [int(w) for line in lines[1:] for w in line.removeprefix("v ").split(" ")]
    if lines[0] != "s SATISFIABLE" or any(not line.startswith("v ") or len(line) > 78 for line in lines[1:]) \
            or [abs(n) for n in numbers] != list(range(1, variables + 1)) + [0]:
        bev.wrong(("dimacs",), out, "a value of every variable")
    return {abs(n): n > 0 for n in numbers[:-1]}

def solved(bev, text, variables, clauses, known=None, words=()):
    """The verdict, the values, and the lines of the goal."""
    status, out, err = bev.run("dimacs", "-", *words, stdin=text.encode())
    known = satisfiable(variables, clauses) if known is None else known
    if status != (POSSIBLE if known else IMPOSSIBLE) or err or not re.search(rf"^c {variables} variables, \d+ nodes\nc goal \d+\n", out, re.M):
        bev.wrong(("dimacs", text[:200]), (status, out, err), known)
    if known and not true_under(clauses, values_of(bev, out, variables)):
        bev.wrong(("dimacs", text[:200]), out, "values that make the clauses true")
    if not known and not out.endswith("\ns UNSATISFIABLE\n"):
        bev.wrong(("dimacs", text[:200]), out, "s UNSATISFIABLE")

def turned(bev, number, cases):
    """Each case: the text, the line, and a part of the cause."""
    for text, line, cause in cases:
        status, out, err = bev.run("dimacs", "-", stdin=text if isinstance(text, bytes) else text.encode())
        first, _, rest = out.partition("\n")
        if status != REFUSED or err or not first.startswith(f"c line {line}: ") or cause not in first or not re.fullmatch(rf"refused {number} at 0: [^\n]*\(standard input\)\n", rest):
            bev.wrong(("dimacs", text[:200]), (status, out, err), (number, line, cause))

HEADINGS = [
    ("", 1, "ends before the heading"),
    ("c p cnf 1 0\n", 2, "ends before the heading"),
    ("c p cnf 1 0", 1, "ends before the heading"),
    ("p cnf 1 0", 1, "the end of the text behind C"),
    ("p  cnf 1 0\n", 1, "a space where the heading"),
    ("p cnf 1  0\n", 1, "a space where the heading p cnf V C needs a number"),
    ("p cnf 1 0 \n", 1, "a space behind C"),
    (" p cnf 1 0\n", 1, "a space where the heading"),
    ("\np cnf 1 0\n", 1, "a line feed where the heading"),
    ("c\nc\nx\n", 3, "the character x where the heading"),
    ("p cnf 1 0\r\n", 1, "a carriage return behind C"),
    ("p\tcnf 1 0\n", 1, "a tab where the heading"),
    ("p dnf 1 0\n", 1, "the character d where the heading"),
    ("p cnf 1\n", 1, "a line feed behind V"),
    ("p cnf \n", 1, "a line feed where the heading p cnf V C needs a number"),
    ("p cnf +1 0\n", 1, "the character + where"),
    ("p cnf -1 0\n", 1, "the character - where"),
    ("p cnf 1025 0\n", 1, "V is 1025"),
    ("p cnf 999999999 0\n", 1, "V is 999999999"),
    ("p cnf 0000000001 0\n", 1, "a number of 10 digits"),
    ("p cnf 1 0000000000\n", 1, "a number of 10 digits"),
    ("p cnf 1025 1\nx", 1, "V is 1025"),
    (b"\xffp cnf 1 0\n", 1, "the byte 255"),
]

BODIES = [
    ("p cnf 1 1\nc\n1 0\n", 2, "a comment behind the heading"),
    ("p cnf 1 1\n1 0\nc end\n", 3, "behind the last"),
    ("p cnf 1 2\n1 0\nc end\n", 3, "a comment behind the heading"),
    ("p cnf 1 1\n1\n", 3, "does not end in 0"),
    ("p cnf 1 1\n1 0\n1 0\n", 3, "behind the last of the heading's C clauses"),
    ("p cnf 1 2\n1 0\n", 3, "ends after 1 clauses"),
    ("p cnf 1 0\n0\n", 2, "behind the last"),
    ("p cnf 1 1\n", 2, "ends after 0 clauses"),
    ("c\np cnf 2 1\n\n3 0\n", 4, "variable 3 is over V"),
    ("p cnf 2 1\n-3 0\n", 2, "variable 3 is over V"),
    ("p cnf 0 1\n1 0\n", 2, "variable 1 is over V"),
    ("p cnf 1 1\n-0\n", 2, "-0"),
    ("p cnf 1 1\n1 -00\n", 2, "-0"),
    ("p cnf 1 1\n+1 0\n", 2, "the character + where a number is due"),
    ("p cnf 1 1\n- 1 0\n", 2, "a space where a number is due"),
    ("p cnf 1 1\n--1 0\n", 2, "the character - where a number is due"),
    ("p cnf 1 1\n1x 0\n", 2, "the character x behind a number"),
    ("p cnf 1 1\n1-1 0\n", 2, "the character - behind a number"),
    ("p cnf 1 1\n0000000001 0\n", 2, "a number of 10 digits"),
    ("p cnf 1 1\n-0000000001 0\n", 2, "a number of 10 digits"),
    ("p cnf 1 1\n1 0000000000\n", 2, "a number of 10 digits"),
    ("p cnf 1 1\n1\t0\n", 2, "a tab behind a number"),
    ("p cnf 1 1\n1 0\r\n", 2, "a carriage return behind a number"),
    ("p cnf 1 2\n1 0\n%\n0\n", 3, "the character % where a number is due"),
    ("p cnf 1024 1000\n" + "1 2 0\n" * 999, 1001, "ends after 999 clauses"),
    (b"p cnf 1 1\n1 \xff 0\n", 2, "the byte 255 where a number is due"),
    (b"p cnf 1 1\n1 \0 0\n", 2, "the byte 0 where a number is due"),
]

def in_order(bev):
    for text, variables, clauses in [
        ("p cnf 0 0\n", 0, []), ("p cnf 0 1\n0\n", 0, [[]]), ("p cnf 3 0\n", 3, []), ("p cnf 3 0\n \n\n  ", 3, []),
        ("p cnf 2 2\n1 0 0\n", 2, [[1], []]), ("p cnf 2 1\n1 2 -1 0\n", 2, [[1, 2, -1]]), ("p cnf 2 2\n-2 1 2 0\n-1 0\n", 2, [[-2, 1, 2], [-1]]),
        ("p cnf 2 2\n1 1 1 0 -2 -2 -1 -2 0\n", 2, [[1, 1, 1], [-2, -2, -1, -2]]), ("p cnf 1 3\n1 0 1 0 1 0", 1, [[1], [1], [1]]),
        ("p cnf 1 2\n1 0 -1 0", 1, [[1], [-1]]), ("p cnf 002 000000001\n-02 000000001 00\n", 2, [[-2, 1]]),
        ("c\ncc\nc p cnf 9 9\np cnf 3 2\n\n  1\n\n-2 0 3\n 0", 3, [[1, -2], [3]]), ("p cnf 1 1\n-1 0", 1, [[-1]]), ("p cnf 1 1\n000000001 0\n", 1, [[1]]),
    ]:
        solved(bev, text, variables, clauses)
        solved(bev, text, variables, clauses, words=("--clean",))
    solved(bev, "p cnf 1024 0\n", 1024, [], True)
    solved(bev, "p cnf 1024 2\n1024 0\n-1 0\n", 1024, [[1024], [-1]], True)
    bev.answers(POSSIBLE, "c 3 variables, 7 nodes\nc goal 12\ns SATISFIABLE\nv -1 -2 3 0\n", "dimacs", sample("small.cnf"))
    bev.answers(IMPOSSIBLE, "c 2 variables, 9 nodes\nc goal 16\ns UNSATISFIABLE\n", "dimacs", sample("unsat.cnf"))

def large(bev):
    """2,016 nodes are the most: the points, an OR for each clause, and the ANDs between them."""
    def pairs(variables, n):
        return f"p cnf {variables} {n}\n" + "".join(f"{i} {i + 1} 0\n" for i in range(1, n + 1)), [[i, i + 1] for i in range(1, n + 1)]
    text, clauses = pairs(1023, 497)
    solved(bev, text, 1023, clauses, True)
    bev.refuses(51, 2016, "dimacs", "-", stdin=pairs(1024, 497)[0].encode(), about="standard input")
    both = "".join(" ".join(str(s * v) for v in range(1, 1025)) + " 0\n" for s in (1, -1))
    bev.refuses(51, 2016, "dimacs", "-", stdin=f"p cnf 1024 2\n{both}".encode(), about="standard input")
    solved(bev, "p cnf 900 1\n" + " ".join(str(-v) for v in range(1, 901)) + " 0\n", 900, [[-v for v in range(1, 901)]], True)
    solved(bev, "p cnf 3 2\n1 2 0\n-3 0" + " " * 3000000, 3, [[1, 2], [-3]])
    solved(bev, "p cnf 2 1\n" + "1 -2 1 " * 300000 + "0", 2, [[1, -2]])

def some_clauses(rng):
    variables = rng.randrange(1, 9)
    def width():
        return rng.choice((0, 1, 2, 2, 3, 3, 3, 4, 5)) if rng.random() < 0.2 else rng.randrange(2, 4)
    return variables, [[rng.choice((1, -1)) * rng.randrange(1, variables + 1) for _ in range(width())] for _ in range(rng.randrange(0, 5 * variables + 2))]

def random_files(bev, count):
    rng = random.Random(1)
    for _ in range(count):
        variables, clauses = some_clauses(rng)
        words = [str(w) for c in clauses for w in c + [0]]
        body = "".join(w + rng.choice((" ", "\n", "  ", " \n")) for w in words)
        solved(bev, "c made\n" * rng.randrange(3) + f"p cnf {variables} {len(clauses)}\n" + body, variables, clauses)

def against_solvers(bev, folder, count):
    """Random 3-SAT near the threshold, against each solver by its exit status."""
    rng, name = random.Random(5), os.path.join(folder, "f.cnf")
    for _ in range(count if SOLVERS else 0):
        variables = rng.randrange(10, 41)
        clauses = [[rng.choice((1, -1)) * v for v in rng.sample(range(1, variables + 1), 3)] for _ in range(int(4.2 * variables))]
        text = f"p cnf {variables} {len(clauses)}\n" + "".join(" ".join(map(str, c)) + " 0\n" for c in clauses)
        put(name, text.encode())
        statuses = {subprocess.run([s, name], capture_output=True, timeout=60).returncode for s in SOLVERS}
        if len(statuses) != 1:
            bev.wrong(("dimacs", text), statuses, "solvers that agree")
        solved(bev, text, variables, clauses, statuses == {POSSIBLE})

def damaged_files(bev, count):
    """Bytes exchanged at random: an answer, or 60 or 61 with a line and a cause; and what --clean makes of them."""
    rng = random.Random(2)
    text = b"c a\np cnf 4 3\n1 -2 0\n3 4 -1 0\n-4 0\n"
    for _ in range(count):
        data = bytearray(text)
        for _ in range(rng.randrange(1, 4)):
            data[rng.randrange(len(data))] = rng.choice(b"0123456789-  \n\npcnf%\r\t\0\xff")
        answered = []
        for words in ((), ("--clean",)):
            status, out, err = bev.run("dimacs", "-", *words, stdin=bytes(data))
            answered.append(status)
            refused = re.search(r"^c line (\d+): (.+)\nrefused 6([01]) at 0: [^\n]*\n\Z", out, re.M)
            if err or status not in (REFUSED, POSSIBLE, IMPOSSIBLE) or (status == REFUSED) != bool(refused):
                bev.wrong(("dimacs", bytes(data)), (status, out, err), "an answer, or a refusal with its line")
            if refused and (int(refused[1]) < 1 or (refused[3] == "0") != bool(re.search("the heading p cnf V C|in the heading|^V is ", refused[2]))):
                bev.wrong(("dimacs", bytes(data)), out, "a cause of the number's kind")
        if answered[0] != REFUSED and answered[1] != answered[0]:
            bev.wrong(("dimacs --clean", bytes(data)), answered, "the same answer")

def mended(bev):
    """What other schools' files have, each turned away without --clean and named with it."""
    body = [[1, -2], [3]]
    for text, notes in [
        ("c a\r\np cnf 3 2\r\n1 -2 0\r\n3 0\r\n", ["4 carriage returns"]),
        ("p cnf 3 2\r1 -2 0\r3 0\r", ["3 carriage returns"]),
        ("p\tcnf 3 2\n1\t-2 0\n3 0\n", ["2 tabs"]),
        ("p cnf 3 2\nc one\n1 -2 0\n  c two\n3 0\nc end", ["3 comments in the body"]),
        ("p cnf 3 2\n1 -2 0\n3 0\n%\n0\n\n", ["1 % end"]),
        ("p cnf 3 2\n1 -2 0\n3 0\n % \n", ["1 % end"]),
        ("\nc a\n  \np cnf 3 2\n1 -2 0\n3 0\n", ["2 blank lines before the heading"]),
        ("p  cnf 3  2 \n1  -2 0\n3 0\n", ["3 spare spaces before the body"]),
        (" c a\np cnf 3 2\n1 -2 0\n3 0\n", ["1 spare space before the body"]),
        ("\r\np cnf\t 3 2\t\r\n\tc x\r\n1 -2 0\r\n3 0\r\n%\r\n0\r\n", ["7 carriage returns", "1 tab", "1 comment in the body", "1 % end", "1 blank line before the heading", "2 spare spaces before the body"]),
    ]:
        if bev.run("dimacs", "-", stdin=text.encode())[0] != REFUSED:
            bev.wrong(("dimacs", text), "an answer", "a refusal without --clean")
        solved(bev, text, 3, body, words=("--clean",))
        out = bev.run("dimacs", "--clean", "-", stdin=text.encode())[1]
        if re.findall(r"^c mended: (.*)$", out, re.M) != notes:
            bev.wrong(("dimacs --clean", text), out, notes)
    # what is no such thing stays, and its line is the file's own
    bev.refuses(61, 0, "dimacs", "--clean", "-", stdin=b"\r\n\np cnf 3 2\r\nc a\r\n1 x 0\n3 0\n", about="standard input",
                before="c mended: 3 carriage returns\nc mended: 1 comment in the body\nc mended: 2 blank lines before the heading\nc line 5: the character x where a number is due\n")
    bev.refuses(60, 0, "dimacs", "--clean", "-", stdin=b"p cnf 1 0", about="standard input", before="c line 1: the end of the text behind C in the heading, where a line feed is due\n")

def tables(bev, folder):
    """The table and the goal that are named do for derive and check."""
    t, d = os.path.join(folder, "u.tbl"), os.path.join(folder, "u.drv")
    bev.answers(IMPOSSIBLE, f"c 2 variables, 9 nodes\nc goal 16\nc table {t}\ns UNSATISFIABLE\n", "dimacs", sample("unsat.cnf"), "-o", t)
    bev.answers(IMPOSSIBLE, "impossible\nsplits 1\n", "decide", t, 16)
    if bev.run("derive", t, 16, "-o", d)[0] != ANSWERED:
        bev.wrong(("derive", t), "no derivation", "one")
    bev.answers(ANSWERED, "accepted\n", "check", t, 16, d)
    old = get(t)
    bev.refuses(61, 0, "dimacs", "-", "-o", t, stdin=b"p cnf 1 1\n", before="c line 2: the text ends after 0 clauses, fewer than the heading's C\n")
    bev.refuses(51, 2016, "dimacs", "-", "-o", t, stdin=b"p cnf 1024 2\n" + b"".join(b" ".join(b"%d" % (s * v) for v in range(1, 1025)) + b" 0\n" for s in (1, -1)))
    if get(t) != old:
        bev.wrong(("dimacs", "-o", t), "a file changed by a refusal", "none")

def test(bev, folder, rounds):
    turned(bev, 60, HEADINGS)
    turned(bev, 61, BODIES)
    in_order(bev)
    large(bev)
    mended(bev)
    tables(bev, folder)
    random_files(bev, 20 * rounds)
    against_solvers(bev, folder, 4 * rounds)
    damaged_files(bev, 20 * rounds)
