#!/usr/bin/env python3
"""Measures `sim` on four nodes beside `run` on one, for as many words.

    programs/build
    ./ordered.py PROGRAM [ROUNDS]

PROGRAM is the built program (crates/shasta/out/shasta). Of the loops of this folder a run has
WORDS words in all, which four nodes share. Of programs/ it has those of the whole program: one
processor does the work, and the others end at once. A row has the processor's time for a word of
`run` in nanoseconds, and that of `sim` as a multiple of it. The start is taken off, rounds
alternate, and the best of so many (9) is given."""
import pathlib, resource, subprocess, sys
from words import least_budget

here = pathlib.Path(__file__).resolve().parent
program = sys.argv[1]
ROUNDS = int(sys.argv[2]) if len(sys.argv) > 2 else 9
LOOPS = ("count", "loop", "apart", "readonly", "call")
PROGRAMS = ("sort", "matrix", "pack", "strings", "crc", "structs")
NODES = 4
WORDS = 100_000_000
SENDING = 4_000_000  # of `loop`, whose nodes send for one another's stores


def used():
    """The processor time of all calls so far."""
    usage = resource.getrusage(resource.RUSAGE_CHILDREN)
    return usage.ru_utime + usage.ru_stime


def seconds(words):
    """The processor time of a call."""
    before = used()
    subprocess.run([program, *words, "--brief"], stdout=subprocess.DEVNULL, check=False)
    return used() - before


def least(words, budget):
    """The best time of so many rounds for what the budget allows, less the start."""
    short = min(seconds([*words, "--budget", "1000"]) for _ in range(3))
    return min(seconds([*words, "--budget", str(budget)]) for _ in range(ROUNDS)) - short


def row(name, file, count, each):
    run = least(["run", file], count)
    sim = least(["sim", file, "--nodes", str(NODES)], each)
    print(f"{name:9}{run / count * 1e9:8.2f}{sim / run:8.2f}", flush=True)


print(f"{'':9}{'run, ns':>8}{'sim/run':>8}")
for name in LOOPS:
    count = SENDING if name == "loop" else WORDS
    row(name, str(here / f"{name}.elf"), count, count // NODES)
for name in PROGRAMS:
    file = str(here / "programs" / f"{name}.elf")
    count = least_budget(program, "run", file, ("--brief",), 2**32 - 1)
    row(name, file, count, count)
