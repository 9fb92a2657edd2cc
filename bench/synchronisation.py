#!/usr/bin/env python3
"""What the synchronisation of runtime/ costs, in the words of the model of time (`shasta_view time`),
and how many messages it takes.

    bench/synchronisation.py VIEWER [--threads]

VIEWER is the shasta_view that was built. Each row is the difference of two runs of
synchronisation.c, of which one makes 40 turns more than the other, for one turn, on 2, 3, 4, 8 and 16
nodes of one processor. `barrier`: all come at once. `parallel`: of an empty function, until all have
come back. `lock, free`: nobody waits, and another node had it last; with its leaving, after a barrier
whose own time is taken off. `lock, wanted`: all want it all the time, and write a word under it; from
one holder to the next. With --threads the rows are those of synchronisation_threads.c, on 1, 4 and 16
nodes, with as many threads, each below the runtime's own call where there is one: a region, a barrier,
a part of a dynamic loop, a task, and a mutex of <pthread.h> as the wanted lock; of the last three the
time is from one to the next of all threads. It prints tables of docs/C.md."""
import pathlib, re, subprocess, sys, tempfile

here = pathlib.Path(__file__).resolve().parent
BUILD = ["riscv64-unknown-elf-gcc", f"--specs={here.parent}/runtime/shasta.specs", "-O2"]
NODES, THREAD_NODES = (2, 3, 4, 8, 16), (1, 4, 16)
# each row: its name, its function, what is built with it, and whether the turns are all threads'
CALLS, OPENMP = ("-DCALLS",), ("-fopenmp",)
THREAD_ROWS = (("`parallel` of an empty function", "nothing", CALLS, False),
               ("a parallel region", "regions", OPENMP, False),
               ("`meet` of all processors", "meets", (), False),
               ("a barrier of OpenMP", "barriers", OPENMP, False),
               ("`enter` and `leave`, all want the lock", "wants", (), True),
               ("a mutex of `<pthread.h>`, all want it", "mutexes", OPENMP, True),
               ("a part of a dynamic loop", "parts", OPENMP, True),
               ("a task, made by one thread", "tasks", OPENMP, True))
FEWER, MORE = 20, 60


def built(folder, function, turns, *options):
    """A program that makes so many turns of a function."""
    file = f"{folder}/{function}{turns}.elf"
    source = here / ("synchronisation_threads.c" if "-fopenmp" in options else "synchronisation.c")
    words = [f"-DWHAT={function}", f"-DTURNS={turns}", *options]
    subprocess.run([*BUILD, *words, source, "-o", file], check=True)
    return file


def time_and_messages(viewer, file, nodes):
    call = subprocess.run([viewer, "time", file, "--nodes", str(nodes)], capture_output=True,
                          text=True, check=True)
    messages = sum(map(int, re.findall(r"messages (\d+)$", call.stdout, re.M)))
    return int(re.search(r"^time (\d+)$", call.stdout, re.M)[1]), messages


def turn(viewer, folder, function, nodes, *options):
    """The time and the messages of one turn."""
    fewer, more = (time_and_messages(viewer, built(folder, function, turns, *options), nodes)
                   for turns in (FEWER, MORE))
    return [(after - before) / (MORE - FEWER) for before, after in zip(fewer, more)]


def rows(viewer, folder):
    """Each row's name, and for each number of nodes its time and its messages."""
    meets = [turn(viewer, folder, "meets", n) for n in NODES]
    yield "barrier", meets
    yield "parallel", [turn(viewer, folder, "nothing", n, "-DCALLS") for n in NODES]
    takes = [turn(viewer, folder, "takes", n) for n in NODES]
    yield "lock, free", [[a - b for a, b in zip(*both)] for both in zip(takes, meets)]
    wants = [turn(viewer, folder, "wants", n) for n in NODES]
    yield "lock, wanted", [[part / n for part in both] for n, both in zip(NODES, wants)]


def thread_rows(viewer, folder):
    """The same of threads."""
    for name, function, options, is_shared in THREAD_ROWS:
        costs = [turn(viewer, folder, function, n, *options) for n in THREAD_NODES]
        yield name, [[part / (n if is_shared else 1) for part in both]
                     for n, both in zip(THREAD_NODES, costs)]


def main():
    threads = sys.argv[2:] == ["--threads"]
    if len(sys.argv) != 2 + threads:
        print(__doc__.split("\n\n")[1], file=sys.stderr)
        return 2
    nodes = THREAD_NODES if threads else NODES
    print("| |" + "".join(f" {n} |" for n in nodes))
    print("|---|" + "---:|" * len(nodes))
    with tempfile.TemporaryDirectory() as folder:
        for name, costs in (thread_rows if threads else rows)(sys.argv[1], folder):
            cells = "".join(f" {time:,.0f} ({messages:.0f}) |" for time, messages in costs)
            print(f"| {name} |{cells}", flush=True)
    return 0


sys.exit(main())
