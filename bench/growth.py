#!/usr/bin/env python3
"""What phase 1 of the kernels gains, how it grows from 2 to 16 nodes, and what fitted curves say of
64 and 256.

    bench/growth.py SHASTA_VIEW [NAME[=SIZE]..]

SHASTA_VIEW is the program that was built; NAME is a kernel of SIZES below (all). It prints tables
of docs/EVALUATION.md ('Beyond sixteen nodes'), by the model of time of `shasta_view time` with its
default costs. Nothing is drawn, so the same programs give the same tables.

First, what one line costs that others have: until processor 0 has written a word of it and all
others have read it; and what a barrier costs. Then the kernels, each with the layout of
programs/layouts for the number of nodes. What phase 1 takes is the difference of two runs: in one
each processor ends at the mark 1, in the other at the mark 2.

A time is fitted by `alone + work / n + depth * log2 n + each * (n - 1)`, of n nodes from 1 to 16,
and a number of messages, from 2 nodes on, by `once + each * (n - 1) + depth * n * log2 n + pairs *
n * (n - 1)`. A curve has at least two terms less than there are numbers: those by which the sum of
the squares of the relative errors is least, and none of them is negative. `worst` is its largest
error. To tell how far a curve of times may be trusted, one is fitted to those of up to 8 nodes: `16
by 8` says how far off it is on 16."""
import itertools, math, pathlib, re, shutil, subprocess, sys, tempfile

root = pathlib.Path(__file__).resolve().parent.parent
BUILD = ["riscv64-unknown-elf-gcc", f"--specs={root}/runtime/shasta.specs", "-DINTEGER_PRINTF",
         "-O2", "-Wl,--defsym=__heap_size=0x10000"]
SIZES = {"barnes": 256, "fft": 256, "gradient": 4096, "hash": 131072, "lu": 256, "ocean": 512,
         "radix": 262144, "salesman": 11, "sample": 65536, "steal": 1048576, "water": 512}
NODES, BEYOND = (2, 4, 8, 16), (64, 256)
TIME = (lambda n: 1, lambda n: 1 / n, math.log2, lambda n: n - 1)
MESSAGES = (lambda n: 1, lambda n: n - 1, lambda n: n * math.log2(n), lambda n: n * (n - 1))
# in place of the marks of kernel.h: each processor ends at one of them
ENDS = """#include <stdio.h>
#undef phase
static const volatile unsigned last_mark = LAST;
#define phase(K) if (last_mark == (K)) __asm__ volatile("li a0, 0; li a7, 93; ecall")
"""
FEWER, MORE = 20, 60
BUDGET = ["--budget", "4294967296"]
PACKAGES = "gcc-riscv64-unknown-elf binutils-riscv64-unknown-elf picolibc-riscv64-unknown-elf"


def called(*words):
    """The output of a call that ends with 0."""
    return subprocess.run([str(word) for word in words], capture_output=True, text=True,
                          check=True).stdout


class Run:
    """What `time` tells of a run, or of what one run has more than another."""

    COUNTS = ("steps", "words", "messages", "read", "exclusive", "upgrade")

    def __init__(self, text):
        self.time = int(re.findall(r"^time (\d+)$", text, re.M)[-1])
        self.counts = {name: sum(map(int, re.findall(rf"(?:^|\s){name} (\d+)", text)))
                       for name in self.COUNTS}

    def after(self, before):
        """What this run has more than one that ended earlier."""
        more = Run("time 0")
        more.time = self.time - before.time
        more.counts = {name: self.counts[name] - before.counts[name] for name in self.COUNTS}
        return more

    def misses(self):
        return sum(self.counts[kind] for kind in ("read", "exclusive", "upgrade"))


def solved(rows, values):
    """The least squares of a system, by its normal equations; None where these have no answer."""
    size = len(rows[0])
    left = [[sum(row[i] * row[k] for row in rows) for k in range(size)]
            + [sum(row[i] * value for row, value in zip(rows, values))] for i in range(size)]
    for i in range(size):
        pivot = max(range(i, size), key=lambda k: abs(left[k][i]))
        left[i], left[pivot] = left[pivot], left[i]
        if abs(left[i][i]) < 1e-15:
            return None
        for k in range(size):
            if k != i:
                part = left[k][i] / left[i][i]
                left[k] = [a - part * b for a, b in zip(left[k], left[i])]
    return [left[i][size] / left[i][i] for i in range(size)]


class Curve:
    """The sum of terms, none of them negative, whose relative errors have the least squares."""

    def __init__(self, terms, points):
        best = None
        for count in range(1, min(len(terms), len(points) - 2) + 1):
            for chosen in itertools.combinations(range(len(terms)), count):
                rows = [[terms[k](n) / value for k in chosen] for n, value in points]
                found = solved(rows, [1] * len(points))
                if found is None or min(found) < 0:
                    continue
                error = sum((sum(a * b for a, b in zip(row, found)) - 1) ** 2 for row in rows)
                if best is None or error < best[0]:
                    best = error, dict(zip(chosen, found))
        self.terms, self.parts = terms, [best[1].get(k, 0) for k in range(len(terms))]

    def at(self, n):
        return sum(part * term(n) for part, term in zip(self.parts, self.terms))

    def worst(self, points):
        """The largest error, in hundredths of what was found."""
        return max(100 * abs(self.at(n) / value - 1) for n, value in points)


def table(head, rows):
    lines = ["| " + " | ".join(head) + " |", "|---|" + "---:|" * (len(head) - 1)]
    return "\n".join(lines + ["| " + " | ".join(map(shown, row)) + " |" for row in rows]) + "\n"


def shown(cell):
    return cell if isinstance(cell, str) else f"{cell:,.0f}"


def turn_costs(view, folder, nodes):
    """What it takes to write a line that all others have and to read it there, and a barrier."""
    times = {}
    for what, turns in itertools.product(("meets", "shares"), (FEWER, MORE)):
        file = f"{folder}/{what}{turns}.elf"
        subprocess.run([*BUILD, f"-DWHAT={what}", f"-DTURNS={turns}", root / "bench/growth.c",
                        "-o", file], check=True)
        times[what, turns] = Run(called(view, "time", file, "--nodes", nodes)).time
    meets, shares = ((times[what, MORE] - times[what, FEWER]) / (MORE - FEWER)
                     for what in ("meets", "shares"))
    return shares - meets, meets / 2


def line_table(view, folder):
    """The table of one line that others have."""
    costs = {n: turn_costs(view, folder, n) for n in NODES}
    rows = []
    for place, name in enumerate(("one writes a line that all others have, then they read it",
                                  "a barrier")):
        points = [(n, costs[n][place]) for n in NODES]
        curve = Curve((TIME[0], TIME[2], lambda n: n - 1), points)
        rows.append([name, *(costs[n][place] for n in NODES),
                     " + ".join(f"{part:,.0f}{what}" for part, what
                                in zip(curve.parts, ("", " log2 n", " (n - 1)")) if round(part)),
                     *(curve.at(n) for n in BEYOND)])
    return table(["", *map(str, NODES), "fitted", *map(str, BEYOND)], rows)


def kernel_phases(view, folder, name, size):
    """What phase 1 of a kernel takes, by the number of nodes."""
    programs, layout = pathlib.Path(folder) / f"{name}-{size}", pathlib.Path(folder) / "layout"
    shutil.copytree(root / "programs", programs)
    header = programs / "kernel.h"
    header.write_text(header.read_text().replace("#include <stdio.h>\n", ENDS))
    runs = {}
    for last in (1, 2):
        file = programs / f"{last}.elf"
        subprocess.run([*BUILD, f"-DSIZE={size}", f"-DLAST={last}", programs / f"{name}.c", "-o",
                        file], check=True)
        for n in (1, *NODES):
            layout.write_text(called(root / "programs/layouts", name, file, n))
            words = ["--nodes", n, "--layout", layout] if n > 1 else []
            runs[last, n] = Run(called(view, "time", file, *words, *BUDGET))
    return {n: runs[2, n].after(runs[1, n]) for n in (1, *NODES)}


def curve_row(name, points, terms):
    """A kernel's numbers, its curve, and how well it fits."""
    curve = Curve(terms, points)
    before = Curve(terms, [point for point in points if point[0] <= 8])
    numbers = dict(points)
    ahead = 100 * (before.at(16) / numbers[16] - 1)
    return [name, *numbers.values(), *curve.parts, f"{curve.worst(points):.0f} %",
            f"{ahead:+.0f} %", *(curve.at(n) for n in BEYOND)], curve


def kernel_rows(name, size, phases):
    """The rows of a kernel: gains, times, messages."""
    alone, counts = phases[1].time, {n: phases[n].counts["messages"] for n in NODES}
    steps = phases[1].counts["steps"]
    times, curve = curve_row(name, [(n, phases[n].time) for n in (1, *NODES)], TIME)
    least = min(range(1, 1025), key=curve.at)
    gains = [name, str(size), steps, f"{alone / steps:.2f}",
             *(f"{steps / phases[n].time:.2f}" for n in (1, *NODES)),
             *(f"{alone / phases[n].time:.1f}" for n in NODES),
             *(f"{alone / curve.at(n):.1f}" for n in BEYOND),
             "more than 1,000" if least == 1024 else str(least)]
    messages = curve_row(name, list(counts.items()), MESSAGES)[0]
    # three numbers are too few to foretell a fourth by
    del messages[1 + len(NODES) + len(MESSAGES) + 1]
    return gains, times, messages + [phases[n].misses() / n for n in NODES]


def main():
    if len(sys.argv) < 2:
        print(__doc__, file=sys.stderr)
        return 2
    if shutil.which(BUILD[0]) is None:
        print(f"growth: the packages are lacking: apt-get install -y {PACKAGES}", file=sys.stderr)
        return 1
    view, sizes = pathlib.Path(sys.argv[1]).resolve(), {}
    for word in sys.argv[2:] or SIZES:
        name, _, size = word.partition("=")
        sizes[name] = int(size or SIZES[name])
    nodes, beyond = [*map(str, NODES)], [*map(str, BEYOND)]
    with tempfile.TemporaryDirectory() as folder:
        print("### One line that others have\n\n" + line_table(view, folder), flush=True)
        rows = []
        for name, size in sizes.items():
            rows.append(kernel_rows(name, size, kernel_phases(view, folder, name, size)))
            print(f"{name}: measured", file=sys.stderr, flush=True)
    gains, times, messages = zip(*rows)
    print("### Against the original; then against the rewritten program alone\n\n" + table(
        ["", "size", "steps", "words a step", "1", *nodes, *nodes, *beyond, "best"], gains))
    print("### Times\n\n" + table(["", "1", *nodes, "alone", "work", "depth", "each", "worst",
                                   "16 by 8", *beyond], times))
    print("### Messages; then misses of a node\n\n" + table(
        ["", *nodes, "once", "each", "depth", "pairs", "worst", *beyond, *nodes], messages))
    return 0


if __name__ == "__main__":
    sys.exit(main())
