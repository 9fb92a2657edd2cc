#!/usr/bin/env python3
"""Records runs in threads, and makes each once more by its record.

    bench/sceptic_runs.py PROGRAM [--runs N] [--first N] [--way WAY] [--budget B]

PROGRAM is the built program (crates/shasta/out/shasta). So many runs (720) are made, numbered from
the first (0) on: of all executables of examples/, runtime/examples/, bench/, bench/programs/ and
bench/threads/ in turn, on 2 nodes, then on 3, and so on to 16, where it begins anew; so 720 runs
have each program on each number of nodes once. A run has a budget of so many words a node
(300,000). `replay` takes its record, and must print the same bytes, with the same status.

WAY is `idle` (one run at a time), `load` (one for each processor at a time, beside as many loops
that only count), or `one` (all threads on processor 0, by taskset). Runs that differ are told; the
last line says how many runs there were, on how many nodes together, and how many messages they
took."""
import argparse, concurrent.futures, os, pathlib, re, subprocess, sys, tempfile

bench = pathlib.Path(__file__).resolve().parent
FOLDERS = (bench.parent / "examples", bench.parent / "runtime/examples", bench, bench / "programs",
           bench / "threads")
PROGRAMS = [file for folder in FOLDERS for file in sorted(folder.glob("*.elf"))]
NODES = range(2, 17)


def options():
    parser = argparse.ArgumentParser(prog="bench/sceptic_runs.py")
    parser.add_argument("program", type=pathlib.Path)
    parser.add_argument("--runs", type=int, default=len(PROGRAMS) * len(NODES))
    parser.add_argument("--first", type=int, default=0)
    parser.add_argument("--way", choices=("idle", "load", "one"), default="idle")
    parser.add_argument("--budget", default="300000")
    asked = parser.parse_args()
    asked.program = asked.program.resolve()
    return asked


def called(asked, *words):
    """What a call prints, and its status."""
    bound = ("taskset", "-c", "0") if asked.way == "one" else ()
    made = subprocess.run([*bound, asked.program, *words], capture_output=True)
    return made.stdout, made.stderr, made.returncode


def is_repeated(asked, number, folder):
    """Whether the replay of a run prints what the run has printed; its nodes; its takes."""
    file, nodes = PROGRAMS[number % len(PROGRAMS)], NODES[number // len(PROGRAMS) % len(NODES)]
    record = pathlib.Path(folder) / str(number)
    ran = called(asked, "run", file, "--nodes", str(nodes), "--record", record, "--budget",
                 asked.budget)
    again = called(asked, "replay", file, record)
    takes = len(re.findall(rb"^take", record.read_bytes(), re.M))
    record.unlink()
    is_same = ran == again and ran[2] in (0, 1) and not ran[1]
    if not is_same:
        print(f"run {number}: {file.name} on {nodes} nodes: its replay differs", flush=True)
    return is_same, nodes, takes


def main():
    asked = options()
    count = len(os.sched_getaffinity(0)) if asked.way == "load" else 1
    loops = [subprocess.Popen([sys.executable, "-c", "while True: pass"])
             for _ in range(count if asked.way == "load" else 0)]
    numbers = range(asked.first, asked.first + asked.runs)
    try:
        with (tempfile.TemporaryDirectory() as folder,
              concurrent.futures.ThreadPoolExecutor(count) as pool):
            results = list(pool.map(lambda number: is_repeated(asked, number, folder), numbers))
    finally:
        for loop in loops:
            loop.kill()
            loop.wait()
    differ = sum(1 for is_same, _, _ in results if not is_same)
    nodes, takes = (sum(result[k] for result in results) for k in (1, 2))
    print(f"{len(results):,} runs ({asked.way}) of {len(PROGRAMS)} programs, {nodes:,} nodes, "
          f"{takes:,} messages taken: {differ} differ")
    return 1 if differ else 0


sys.exit(main())
