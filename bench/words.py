#!/usr/bin/env python3
"""Counts the words that a node executes for an original instruction, with batches and without.

    bench/words.py PROGRAM [EXECUTABLE..]      PROGRAM is the shasta that was built

Of each executable, of examples/ where none is named, on one node: the least budget by which it ends
is found by halving, for `one` (instructions), `run` and `run --no-batch` (words). These numbers
don't vary, whatever else the machine does. One that doesn't end within the default budget is passed
over."""
import pathlib, subprocess, sys

MOST = 100_000_000


def ends(program, command, file, budget, options):
    words = [program, command, file, "--budget", str(budget), *options]
    printed = subprocess.run(words, capture_output=True).stdout
    return b"\nprocessor 0 " in printed and b"\nprocessor 0 stopped" not in printed


def least_budget(program, command, file, options, most=MOST):
    """The least budget by which the executable ends, or None."""
    if not ends(program, command, file, most, options):
        return None
    low, high = 0, most
    while high - low > 1:
        middle = (low + high) // 2
        if ends(program, command, file, middle, options):
            high = middle
        else:
            low = middle
    return high


def main():
    program = sys.argv[1]
    here = pathlib.Path(__file__).resolve().parent
    files = sys.argv[2:] or sorted(str(p) for p in (here.parent / "examples").glob("*.elf"))
    print("| Program | instructions | words for one, with batches | without |\n|---|---|---|---|")
    for file in files:
        steps = least_budget(program, "one", file, [])
        batches = least_budget(program, "run", file, ["--brief"])
        single = least_budget(program, "run", file, ["--brief", "--no-batch"])
        if None in (steps, batches, single):
            continue
        name = pathlib.Path(file).stem
        print(f"| `{name}` | {steps:,} | {batches / steps:.2f} | {single / steps:.2f} |", flush=True)


if __name__ == "__main__":
    main()
