#!/usr/bin/env python3
"""Times the built program crates/front_bench/out/front_bench, which cuts and parses, on made texts of 0.25, 0.5 and 1 MB, and
tells the memory at its most. Run at the top of the repository; it is skipped where the program is not built. Time that doubles
with the size is linear. Words behind it name the shapes to take, by their beginnings."""
import os
import pathlib
import subprocess
import sys
import tempfile
import time

program = pathlib.Path(__file__).resolve().parent.parent / "crates" / "front_bench" / "out" / "front_bench"
if not program.exists():
    print(f"skipped: {program} is not built")
    sys.exit(0)

SIZES = (1 << 18, 1 << 19, 1 << 20)

MIXED = """\
import m{0}
class Stack{0}(Base):
    def __init__(self, first, limit=10):
        self.items = [first, (1, 'a'), {{1: 2}}]
        self.limit = limit
    def push(self, x):
        if len(self.items) >= self.limit or not x:
            raise Full('no room for %d' % x)
        elif x is not None and 0 < x <= 2 ** 10:
            self.items.append(-x)
        else:
            pass
        return self.items[-1]
def walk{0}(n):
    total = 0
    for i in range(n):
        while total < 100:
            total += i * 2 + 1
            if total % 7 == 3: break
        yield total
try:
    s = Stack{0}(1)
    a, b = s.items[0], [x * x for x in walk{0}(5) if x]
    print(a, b, sep=', ')
except Full as e:
    del s.items[0]
"""


def filled(line, size):
    return line * (size // len(line))


def numbered(part, size):
    parts, length, i = [], 0, 0
    while length < size:
        parts.append(part(i))
        length += len(parts[-1])
        i += 1
    return "".join(parts)


def blocks(size):
    """`if 1:` heads, each one column further in than the one before."""
    lines, length, depth = [], 0, 0
    while length < size:
        lines.append(" " * depth + "if 1:\n")
        length += len(lines[-1])
        depth += 1
    return "".join(lines)


LEXED = (
    ("assignments", lambda size: filled("total = total + 12 * item\n", size)),
    ("deep brackets", lambda size: "(" * (size // 2) + "1" + ")" * (size // 2)),
    ("one long comment", lambda size: "#" + "c" * size),
    ("one long text", lambda size: "'" + "t" * size + "'\n"),
    ("many distinct names", lambda size: numbered(lambda i: f"name_{i:x} = {i}\n", size)),
    ("many short lines", lambda size: filled("x\n", size)),
)

PARSED = (
    ("mixed source", lambda size: numbered(MIXED.format, size)),
    ("assignments", lambda size: filled("total = total + 12 * item\n", size)),
    ("round brackets", lambda size: "(" * (size // 2) + ")" * (size // 2)),
    ("round brackets round 1", lambda size: "(" * (size // 2) + "1" + ")" * (size // 2)),
    ("square brackets", lambda size: "[" * (size // 2) + "]" * (size // 2)),
    ("open square brackets", lambda size: "[" * size),
    ("not", lambda size: filled("not ", size) + "x"),
    ("minus", lambda size: "-" * size + "x"),
    ("attributes", lambda size: filled("x.", size) + "x"),
    ("calls", lambda size: filled("f(", size * 2 // 3) + ")" * (size // 3)),
    ("deeper blocks", blocks),
    ("targets", lambda size: filled("x = ", size) + "1"),
    ("sums", lambda size: "x = " + filled("1 + ", size) + "1"),
    ("powers", lambda size: "x = " + filled("1**", size) + "1"),
    ("lambda behind assignments", lambda size: filled("total = total + 12 * item\n", size) + "f = lambda x: x\n"),
    ("lambdas in one another", lambda size: "x = " + filled("lambda: ", size) + "1\n"),
    ("walrus in brackets", lambda size: "(" * (size // 2) + "x := 1" + ")" * (size // 2) + "\n"),
    ("starred target in brackets", lambda size: "[" * (size // 2) + "*a" + "]" * (size // 2) + "\n"),
    ("class attribute", lambda size: "class A:\n  x" + filled(", x", size) + " = 1\n"),
)


def measured(command, text):
    """The best of three runs on a text: seconds, megabytes at the most, and what is said."""
    best = None
    with tempfile.TemporaryDirectory() as folder:
        (pathlib.Path(folder) / "sample.py").write_text(text)
        for _ in range(3):
            begun = time.perf_counter()
            process = subprocess.Popen([program, command, "sample.py"], cwd=folder, stdout=subprocess.PIPE)
            said = process.stdout.read().decode().strip()
            _, status, usage = os.wait4(process.pid, 0)
            process.returncode = os.waitstatus_to_exitcode(status)
            taken = time.perf_counter() - begun
            if process.returncode != 0:
                sys.exit(f"status {process.returncode}")
            if best is None or taken < best[0]:
                best = (taken, usage.ru_maxrss // 1024, said)
    return best


for command, shapes in (("lex", LEXED), ("parse", PARSED)):
    for title, made in shapes:
        if sys.argv[1:] and not any(title.startswith(word) for word in sys.argv[1:]):
            continue
        before = None
        for size in SIZES:
            taken, memory, said = measured(command, made(size))
            growth = "" if before is None else f", growth {taken / before:.2f}"
            print(f"{command} {title}: {size} bytes: {taken:.3f} s, {memory} MB, {said}{growth}")
            before = taken
