#!/usr/bin/env python3
"""Runs the bare C programs of examples/ on nodes of several processors.

    ./lanes.py PROGRAM [ORDERS [NAME..]]

PROGRAM is the built program (crates/shasta/out/shasta). Each program that is named, or every one but for
the greeting, whose lines come in any order, runs by `sim` on N nodes of M processors for each N and M with at most 16 processors in
all, by so many orders (4); it must print what `one` prints for N * M processors, and end as it does. The
script says what differs, and how many runs there were. Then it counts, for 8 nodes of one processor, 4 of
two and 2 of four, the misses, the invalidations and the messages of each program, by order 0: what the
processors of a node save by sharing its copy."""
import pathlib, re, subprocess, sys

bench = pathlib.Path(__file__).resolve().parent
NAMES = sys.argv[3:] or ("sum", "sort", "lock", "tally", "queue")
SHAPES = [(nodes, lanes) for lanes in (1, 2, 3, 4) for nodes in range(1, 16 // lanes + 1)]


def said(*words):
    """What a call prints, and its status."""
    call = subprocess.run([sys.argv[1], *words], capture_output=True, text=True)
    return call.stdout + call.stderr, call.returncode


def sim(name, nodes, lanes, *options):
    """The same of a program on so many nodes of so many processors each."""
    each = ["--per-node", str(lanes)] if lanes > 1 else []
    return said("sim", bench.parent / f"examples/{name}.elf", "--nodes", str(nodes), *each, *options)


def differing(orders):
    """The runs that print or end otherwise than the original, and how many there were."""
    runs, differ = 0, []
    for name in NAMES:
        for nodes, lanes in SHAPES:
            one = said("one", bench.parent / f"examples/{name}.elf", "--nodes", str(nodes * lanes))
            for order in range(orders):
                runs += 1
                if sim(name, nodes, lanes, "--brief", "--order", str(order)) != one:
                    differ.append(f"{name} on {nodes} nodes of {lanes}, by order {order}")
    return differ, runs


def counts(text):
    """What all nodes count together: misses, invalidations, messages."""
    of = {}
    for line in re.findall(r"^node \d+ (.*)$", text, re.M):
        words = line.split()
        for what, number in zip(words[::2], words[1::2]):
            of[what] = of.get(what, 0) + int(number)
    return of["read"] + of["exclusive"] + of["upgrade"], of["invalidations"], of["messages"]


def main():
    differ, runs = differing(int(sys.argv[2]) if len(sys.argv) > 2 else 4)
    for run in differ:
        print(f"{run}: prints or ends otherwise than one")
    print(f"{runs} runs, {len(differ)} differ\n")
    print(f"{'misses, invalidations, messages':<12}{'8 x 1':>23}{'4 x 2':>23}{'2 x 4':>23}")
    for name in NAMES:
        row = [counts(sim(name, *shape)[0]) for shape in ((8, 1), (4, 2), (2, 4))]
        print(f"{name:<31}" + "".join("{:>9,}{:>6,}{:>8,}".format(*cell) for cell in row))
    return 1 if differ else 0


sys.exit(main())
