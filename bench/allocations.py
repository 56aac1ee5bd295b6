#!/usr/bin/env python3
"""Makes each allocation of `shed translate main` on a small module fail in turn, and reports how each run ends.

Run at the top of the repository, outside the gate: every run builds the program for the kit's interpreter anew, which takes
some 20 seconds. Each run is to end with status 8 and say `shed: no memory`, or with status 0: where the allocation that fails can
be done without, or comes after all is done. Some runs in a row with status 0 end the search. Any other ending is printed,
and makes this script fail. A first word is the number to begin with."""
import pathlib
import re
import subprocess
import sys

crate = pathlib.Path(__file__).resolve().parent.parent / "crates" / "shed"
# so many runs without a failure end the search
ENOUGH = 6


def run(number):
    """The status of a run whose allocation of this number fails, and what it says."""
    command = ["rt", "try", "--fail-alloc", str(number), "--data", "main.py=data/main.py", "--", "translate", "main"]
    done = subprocess.run(command, cwd=crate, capture_output=True, text=True)
    said = done.stdout + done.stderr
    found = re.search(r"ended status=(\d+)", said)
    return (int(found[1]) if found else None), said


def main():
    endings = {0: 0, 8: 0}
    wrong, number, passed = 0, int(sys.argv[1]) - 1 if len(sys.argv) > 1 else 0, 0
    begun = number
    while passed < ENOUGH:
        number += 1
        status, said = run(number)
        passed = passed + 1 if status == 0 else 0
        if status in endings and (status == 0 or "shed: no memory" in said):
            endings[status] += 1
        else:
            wrong += 1
            print(f"allocation {number}: status {status}\n{said}")
        print(f"{number}: {status}", flush=True)
    print(f"{number - begun} runs: {endings[8]} with status 8, {endings[0]} with status 0, {wrong} otherwise")
    return 1 if wrong else 0


sys.exit(main())
