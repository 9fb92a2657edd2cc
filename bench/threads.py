#!/usr/bin/env python3
"""Measures nodes in threads, on the programs of threads/.

    threads/build
    ./threads.py PROGRAM [ROUNDS] [NAME..]

PROGRAM is the built program (crates/shasta/out/shasta). Each figure is the best of so many rounds (5),
in which the runs that are compared alternate. Where nodes work apart, each does as much as a node
alone: a row has the wall time on one node, and then, for 2 and 4 nodes, how many times the work of one
node was done in its time; how that compares with as many runs of one node at once, which share
nothing; and the processor time beside that of as many nodes alone, which depends least on what else
runs on the machine. Where nodes wait for one another, a row has wall and processor times. A run that
doesn't end with every processor's exit 0 is marked by !: then its time says nothing."""
import pathlib, re, resource, subprocess, sys, tempfile, time

here = pathlib.Path(__file__).resolve().parent / "threads"
arguments = sys.argv[1:]
program = arguments.pop(0)
ROUNDS = int(arguments.pop(0)) if arguments and arguments[0].isdigit() else 5
BUDGET = str(2**32 - 1)
LIMIT = 300
folder = tempfile.mkdtemp()

def command(name, nodes, record):
    words = [program, "run", str(here / f"{name}.elf"), "--budget", BUDGET, "--brief"]
    return words + (["--nodes", str(nodes), "--record", record] if nodes > 1 else [])

def run(name, nodes, runs=1):
    """Wall and processor time of so many runs at once, and whether all ended well."""
    used = resource.getrusage(resource.RUSAGE_CHILDREN)
    start = time.monotonic()
    calls = [subprocess.Popen(command(name, nodes, f"{folder}/{k}"), stdout=subprocess.PIPE, stderr=subprocess.PIPE, text=True)
             for k in range(runs)]
    good = True
    for call in calls:
        try:
            said = call.communicate(timeout=LIMIT)[0]
        except subprocess.TimeoutExpired:
            call.kill()
            said = call.communicate()[0]
        ends = re.findall(r"^processor \d+ (.*)$", said, re.M)
        good &= call.returncode == 0 and all(end == "exit 0" for end in ends)
    wall = time.monotonic() - start
    now = resource.getrusage(resource.RUSAGE_CHILDREN)
    return wall, now.ru_utime + now.ru_stime - used.ru_utime - used.ru_stime, good

def best(kinds, name):
    """The best wall time of each kind, with its processor time, in rounds that alternate."""
    found = {}
    for _ in range(ROUNDS):
        for nodes, runs in kinds:
            wall, used, good = run(name, nodes, runs)
            old = found.get((nodes, runs), (wall, used, True))
            found[nodes, runs] = (min(old[0], wall), min(old[1], used), old[2] and good)
    return found

def mark(good):
    return "" if good else " !"

def apart(name):
    kinds = [(1, 1), (2, 1), (1, 2), (4, 1), (1, 4)]
    times = best(kinds, name)
    one = times[1, 1]
    row = f"{name:8}{one[0]:8.3f}{mark(one[2])}"
    for nodes in (2, 4):
        wall, used, good = times[nodes, 1]
        row += f"{nodes * one[0] / wall:8.2f}{times[1, nodes][0] / wall:8.2f}{used / (nodes * one[1]):8.2f}{mark(good)}"
    print(row, flush=True)

def waits(name, nodes, count):
    times = best([(n, 1) for n in nodes], name)
    row = f"{name:8}"
    for n in nodes:
        wall, used, good = times[n, 1]
        each = f" {wall / count * 1e6:7.1f} us" if count else ""
        row += f"  {n:2}: {wall:7.3f} s{each}, used {used:7.3f}{mark(good)}"
    print(row, flush=True)

APART = ("apart", "psum", "rsum", "table")
WAITS = {"ping": ((2, 4, 16), 20000), "queue": ((2, 4), 20000), "lock": ((2, 4, 16), 0), "idle": ((1, 2, 4), 0),
         "ring": ((2, 4, 16), 2000), "stack": ((2, 4, 16), 0), "jacobi": ((2, 4, 16), 0)}
names = arguments or [*APART, *WAITS]
if any(name in APART for name in names):
    print(f"{'':8}{'1 node':>8}" + "".join(f"{n:>6}/1{'at once':>8}{'used':>8}" for n in (2, 4)))
for name in names:
    if name in APART:
        apart(name)
    else:
        waits(name, *WAITS[name])
for file in pathlib.Path(folder).iterdir():
    file.unlink()
pathlib.Path(folder).rmdir()
