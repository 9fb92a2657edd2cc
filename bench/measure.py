#!/usr/bin/env python3
"""Measures the speed of the program on the executables of this folder, beside the rod's.

    cc -O2 -o rod rod.c
    ./measure.py PROGRAM [ROUNDS]

PROGRAM is the built program (crates/shasta/out/shasta). Each row has the rod's rate in million
instructions a second, then `run`'s in rewritten words and `one`'s in instructions, each with its
ratio to the rod; then `sim`'s in words of all nodes together, on 1, 4 and 16 nodes, each with its
ratio to `run`. A run is stopped by its budget, so its count is known. Rounds alternate and the
medians are given: nothing else should run meanwhile."""
import pathlib, re, resource, statistics, subprocess, sys

WORDS = 200_000_000
ROUNDS = int(sys.argv[2]) if len(sys.argv) > 2 else 7
here = pathlib.Path(__file__).resolve().parent

def used():
    """The processor time of all calls so far."""
    usage = resource.getrusage(resource.RUSAGE_CHILDREN)
    return usage.ru_utime + usage.ru_stime

def seconds(words):
    """The processor time of a call."""
    before = used()
    subprocess.run(words, stdout=subprocess.DEVNULL, check=False)
    return used() - before

def rate(command, file, nodes=1):
    words = [program, *command.split(), file] + (["--nodes", str(nodes)] if nodes > 1 else [])
    short = seconds([*words, "--budget", "1000"])
    return WORDS / 1e6 / (seconds([*words, "--budget", str(WORDS // nodes)]) - short)

def rod_rate(file):
    text = subprocess.run([str(here / "rod"), file, str(WORDS)], capture_output=True, text=True).stdout
    return float(re.search(r"(\d+) million", text).group(1))

program = sys.argv[1]
heads = ("run", "one", "sim", "sim 4", "sim 16")
print(f"{'':10}{'rod':>8}" + "".join(f"{head:>8}{'ratio':>7}" for head in heads))
for name in ("count", "loop", "apart", "readonly", "call", "bigcall"):
    file = str(here / f"{name}.elf")
    rounds = []
    for _ in range(ROUNDS):
        rod = rod_rate(file)
        run, one = rate("run", file), rate("one", file)
        sims = [rate("sim", file, nodes) for nodes in (1, 4, 16)]
        rounds.append([rod, run, run / rod, one, one / rod] + [x for sim in sims for x in (sim, sim / run)])
    row = [statistics.median(column) for column in zip(*rounds)]
    print(f"{name:10}{row[0]:8.0f}" + "".join(f"{row[k]:8.0f}{row[k + 1]:7.2f}" for k in range(1, 11, 2)))
