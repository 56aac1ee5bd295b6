#!/usr/bin/env python3
"""Times the built program on made modules of 1,000, 10,000 and 50,000 lines with many names, on modules of 10,000, 20,000
and 40,000 lines of blocks that stand 20 deep in one another, and on 1 MB of source.

Run at the top of the repository; it is skipped where there is no built program (crates/shed/out/shed). It prints lines a
second and the growth of the time for each doubling of the size, which is 2 where time is linear."""
import math
import os
import pathlib
import subprocess
import sys
import tempfile
import time

program = pathlib.Path(__file__).resolve().parent.parent / "crates" / "shed" / "out" / "shed"
if not program.exists():
    print(f"skipped: {program} is not built")
    sys.exit(0)


def module(lines):
    """Each fourth line prints, and the others bind a name of their own from one that was bound before."""
    text = ["n0 = 1\n"]
    last = "n0"
    for i in range(1, lines):
        if i % 4 == 0:
            text.append(f"print({last} * -3)\n")
        else:
            text.append(f"n{i:x} = {last} + {i % 10}\n")
            last = f"n{i:x}"
    return "".join(text)


def nested(lines):
    """Many blocks, 20 deep in one another; the innermost two of each have an `else`."""
    group = []
    for level in range(20):
        group.append(" " * level + f"{'while' if level % 3 == 2 else 'if'} n < {level + 3}:\n")
    group.append(" " * 20 + "n = n + 1\n")
    for level in (19, 18):
        group.append(" " * level + "else:\n")
        group.append(" " * (level + 1) + "print(n * 2)\n")
    return "n = 0\n" + "".join(group) * (lines // len(group))


def seconds(text):
    """The best of three translations of a module, in a folder of its own."""
    best = math.inf
    for _ in range(3):
        with tempfile.TemporaryDirectory() as folder:
            (pathlib.Path(folder) / "main.py").write_text(text)
            begun = time.perf_counter()
            done = subprocess.run([program, "translate", "main"], cwd=folder, capture_output=True)
            best = min(best, time.perf_counter() - begun)
            if done.returncode != 0:
                sys.exit(f"status {done.returncode}: {done.stderr.decode()}")
    return best


def report(title, texts):
    """A line for each text, with the growth from one to the next."""
    before = None
    for text in texts:
        taken = seconds(text)
        count = text.count("\n")
        growth = ""
        if before is not None:
            growth = f", growth a doubling {2 ** (math.log2(taken / before[1]) / math.log2(len(text) / before[0])):.2f}"
        print(f"{title}: {count} lines, {len(text)} bytes: {taken:.3f} s, {count / taken:,.0f} lines a second{growth}")
        before = (len(text), taken)


report("names", [module(lines) for lines in (1_000, 10_000, 50_000)])
report("blocks", [nested(lines) for lines in (10_000, 20_000, 40_000)])

whole = module(60_000)
whole = whole[: whole.rfind("\n", 0, 1_048_576) + 1]
print(f"1 MB of source ({len(whole)} bytes): {seconds(whole):.3f} s")

refused = (
    ("minus signs", "x = " + "-" * 1_048_000 + "1\n"),
    ("open parentheses", "(" * 1_048_000 + "\n"),
    ("assignments with a float behind them", module(60_000)[:1_048_000].rpartition("\n")[0] + "\nx = 1.5\n"),
    ("blocks in one another", "".join(" " * level + "if 1 < 2:\n" for level in range(1_400)) + " " * 1_400 + "x = 1\n"),
)
for name, text in refused:
    with tempfile.TemporaryDirectory() as folder:
        (pathlib.Path(folder) / "main.py").write_text(text)
        begun = time.perf_counter()
        process = subprocess.Popen([program, "translate", "main"], cwd=folder, stderr=subprocess.PIPE, stdout=subprocess.DEVNULL)
        said = process.stderr.read().decode().strip()
        _, status, usage = os.wait4(process.pid, 0)
        process.returncode = os.waitstatus_to_exitcode(status)
        taken = time.perf_counter() - begun
        print(f"1 MB of {name}: status {process.returncode} in {taken:.3f} s, {usage.ru_maxrss // 1024} MB of memory, {said}")
