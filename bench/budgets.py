#!/usr/bin/env python3
"""Stops programs that numbers make inside their sequences, and compares two builds.

    bench/budgets.py PROGRAM OTHER [--programs N] [--first N]

PROGRAM and OTHER are two builds of shasta: this one, and an earlier one. `gen` makes an
executable of each number, 5,000 of them from 0 on, which executes some 166,000 words. A budget that
the number gives ends two runs of three somewhere among them. PROGRAM's `run` and its `sim` on one
node, and OTHER's `run`, must print the same bytes with the same status, with batches and with
`--no-batch` in turn. Runs that differ are told; the last line says how many there were, and how
many ended by their budgets."""
import argparse, concurrent.futures, os, pathlib, random, subprocess, sys, tempfile


def options():
    parser = argparse.ArgumentParser(prog="bench/budgets.py")
    parser.add_argument("program", type=pathlib.Path)
    parser.add_argument("other", type=pathlib.Path)
    parser.add_argument("--programs", type=int, default=5000)
    parser.add_argument("--first", type=int, default=0)
    asked = parser.parse_args()
    asked.program, asked.other = asked.program.resolve(), asked.other.resolve()
    return asked


def called(program, *words):
    """What a call prints, and its status."""
    made = subprocess.run([program, *words], capture_output=True)
    return made.stdout, made.stderr, made.returncode


def compared(asked, number, folder):
    """Whether the three runs of a number are alike, and whether the budget ended them."""
    numbers = random.Random(number)
    budget = str(int(2 ** numbers.uniform(0, 17)) if number % 3 else 1_000_000)
    file = f"{folder}/{number}.elf"
    made = called(asked.program, "gen", str(number), file)
    batches = ("--no-batch",) if number % 2 else ()
    words = (file, "--budget", budget, *batches)
    ran = called(asked.program, "run", *words)
    same = made[2] == 0 and ran == called(asked.program, "sim", *words)
    same = same and ran == called(asked.other, "run", *words)
    os.unlink(file)
    if not same:
        print(f"gen {number}, budget {budget}: the runs differ", flush=True)
    return same, b"stopped" in ran[0]


def main():
    asked = options()
    numbers = range(asked.first, asked.first + asked.programs)
    with tempfile.TemporaryDirectory() as folder:
        with concurrent.futures.ThreadPoolExecutor(os.cpu_count()) as workers:
            all_ = list(workers.map(lambda number: compared(asked, number, folder), numbers))
    differ = sum(not same for same, _ in all_)
    print(f"{len(all_)} programs, {sum(stopped for _, stopped in all_)} ended by their budgets: "
          f"{differ} differ")
    return 1 if differ else 0


if __name__ == "__main__":
    sys.exit(main())
