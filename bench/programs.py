#!/usr/bin/env python3
"""Measures one node on the C programs of programs/, beside the rod, which runs the original.

    cc -O2 -o rod rod.c
    programs/build
    ./programs.py PROGRAM [ROUNDS] [FOLDER]

PROGRAM is the built program (crates/shasta/out/shasta), and FOLDER has the executables (programs/).
A row has how many instructions the original executes, how many rewritten words stand for one of them,
by default and with `--no-batch`, and the rod's time for an instruction in nanoseconds. Then it has the
time of an original instruction as a multiple of the rod's, in `run`, both ways, and in `one`. Times are
of the processor; rounds alternate, and the best of so many (5) is given, less the best start."""
import pathlib, re, resource, subprocess, sys

here = pathlib.Path(__file__).resolve().parent
program = sys.argv[1]
ROUNDS = int(sys.argv[2]) if len(sys.argv) > 2 else 5
folder = pathlib.Path(sys.argv[3]) if len(sys.argv) > 3 else here / "programs"
BUDGET = str(2**32 - 1)
NAMES = ("sort", "matrix", "pack", "strings", "crc", "structs")


def used():
    """The processor time of all calls so far."""
    usage = resource.getrusage(resource.RUSAGE_CHILDREN)
    return usage.ru_utime + usage.ru_stime


def called(words):
    """The processor time of a call, and what it said."""
    before = used()
    said = subprocess.run(words, capture_output=True, text=True, check=False).stdout
    return used() - before, said


def run(file, option, budget=BUDGET, command="run"):
    return called([program, command, file, "--budget", budget, *option])


def words_of(file, option, count):
    """The least budget with which the program ends by itself, to a part in five hundred; at most 40
    words stand for an instruction."""
    low, high = count, 40 * count
    while high - low > low // 500:
        middle = (low + high) // 2
        if "exit 0" in run(file, [*option, "--brief"], str(middle))[1]:
            high = middle
        else:
            low = middle
    return high


print("| Program | instructions | words for one | with `--no-batch` | the rod, ns | `run` / rod"
      " | with `--no-batch` | `one` / rod |")
print("|---|---|---|---|---|---|---|---|")
for name in NAMES:
    file = str(folder / f"{name}.elf")
    said = called([str(here / "rod"), file])[1]
    wanted, count = said.splitlines()[0], int(re.search(r"^(\d+) instructions", said, re.M).group(1))
    best = [1e9] * 7
    for _ in range(ROUNDS):
        times, starts = [called([str(here / "rod"), file])[0]], []
        for command, option in (("run", []), ("run", ["--no-batch"]), ("one", [])):
            took, text = run(file, option, command=command)
            assert wanted in text, f"{name}: {text}"
            times.append(took)
            starts.append(run(file, option, "1000", command)[0])
        best = [min(pair) for pair in zip(best, times + starts)]
    words = [words_of(file, option, count) / count for option in ([], ["--no-batch"])]
    rod, batches, single, one = best[0], *(took - start for took, start in zip(best[1:4], best[4:]))
    print(f"| `{name}` | {count:,} | {words[0]:.2f} | {words[1]:.2f} | {rod / count * 1e9:.2f}"
          f" | {batches / rod:.2f} | {single / rod:.2f} | {one / rod:.2f} |", flush=True)
