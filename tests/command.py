"""The command bev as a test runs it: status, output, messages, and the meanings of refusals from docs/REFUSALS.md."""
import os
import re
import subprocess
import sys

ROOT = os.path.dirname(os.path.dirname(os.path.abspath(__file__)))
ANSWERED, REFUSED, FAILED, POSSIBLE, IMPOSSIBLE = 0, 1, 2, 10, 20

with open(os.path.join(ROOT, "docs", "REFUSALS.md"), encoding="utf-8") as f:
    MEANINGS = {int(n): meaning for n, meaning in re.findall(r"^\| (\d+) \| ([^|]*?) \|", f.read(), re.M)}

def sample(name):
    return os.path.join(ROOT, "samples", name)

def put(path, data):
    with open(path, "wb") as f:
        f.write(data)

def get(path):
    with open(path, "rb") as f:
        return f.read()

class Bev:
    """A build of the command; every run is counted, and the first that is not as expected ends the test."""
    def __init__(self, path):
        self.path, self.runs = path, 0

    def run(self, *words, stdin=b"", **options):
        self.runs += 1
        options = {"input" if isinstance(stdin, bytes) else "stdin": stdin, "capture_output": True, "timeout": 300} | options
        got = subprocess.run([self.path, *map(str, words)], **options)
        return got.returncode, (got.stdout or b"").decode("utf-8", "replace"), (got.stderr or b"").decode("utf-8", "replace")

    def wrong(self, words, got, want):
        sys.exit(f"bev {' '.join(map(str, words))[:300]}: answered {str(got)[:400]}, expected {str(want)[:400]}")

    def answers(self, status, out, *words, err="", **options):
        """The status, the output and the messages, all of them."""
        got = self.run(*words, **options)
        if got != (status, out, err):
            self.wrong(words, got, (status, out, err))

    def refuses(self, number, place, *words, about=None, before="", **options):
        """A refusal with its meaning, of the argument `about`, behind the lines `before`."""
        got = self.run(*words, **options)
        start = f"{before}refused {number} at {place}: {MEANINGS[number]} ({about or ''}"
        if got[0] != REFUSED or got[2] or not got[1].startswith(start) or not got[1].endswith(")\n") or got[1].count("\n") != 1 + before.count("\n"):
            self.wrong(words, got, start)

    def fails(self, name, cause, *words, **options):
        """Wrong use, or a file that cannot be read or written: nothing on the output, the name and the cause as a message."""
        got = self.run(*words, **options)
        if got[0] != FAILED or got[1] or not got[2].startswith(f"bev: {name}: ") or cause not in got[2]:
            self.wrong(words, got, (FAILED, "", f"bev: {name}: .. {cause}"))
