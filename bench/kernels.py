#!/usr/bin/env python3
"""Builds the kernels of programs/ and runs each in every way there is, and so the programs of
runtime/examples that print the same for every number of processors.

    bench/kernels.py PROGRAM [ORDERS [NAME..]]

PROGRAM is the shasta that was built; NAME is a kernel or one of SMALL below (all), ORDERS how many
orders of `sim` are tried (10). Each runs by `one`; by `sim` under the orders; by `sim` with losses on
4 nodes; by `sim` on nodes of two processors; by `sim` on 16 nodes with the layout of
programs/NAME.layout where there is one; and by `run`, each time with a replay of its record, on 1, 2,
4, 8 and 16 nodes. Each run must print what `one` prints on one processor, and end with 0 everywhere;
a replay what its run printed. The script tells what differs, then how many messages `sim` on 16 nodes
takes by order 0, with lines of 64 bytes and with the layout."""
import pathlib, re, shutil, subprocess, sys, tempfile

root = pathlib.Path(__file__).resolve().parent.parent
BUILD = ["riscv64-unknown-elf-gcc", f"--specs={root}/runtime/shasta.specs", "-DINTEGER_PRINTF", "-O2"]
HEAP, OPENMP = ["-Wl,--defsym=__heap_size=0x10000"], ["-fopenmp", "-Wl,--defsym=__heap_size=0x200000"]
SMALL = ("all", "file", "formats", "heap", "hello", "numbers", "posix", "sizes", "threads", "words")
NODES = ("1", "2", "4", "8", "16")
LOSSES = ("0", "5", "77")
BUDGET = ["--budget", "4294967295"]
PACKAGES = "gcc-riscv64-unknown-elf binutils-riscv64-unknown-elf picolibc-riscv64-unknown-elf"


def said(program, *words):
    """The output of a call, without the ends; None where some processor didn't end with 0."""
    call = subprocess.run([program, *words, *BUDGET], capture_output=True)
    if call.returncode != 0:
        return None
    head, _, rest = call.stdout.partition(b"\n")
    return rest[: int(head.split()[1])]


def differing(program, file, orders, layout):
    """The ways in which a kernel prints otherwise than alone, and how many runs there were."""
    alone = said(program, "one", file)
    ways = [["one", file, "--nodes", n] for n in NODES]
    ways += [["sim", file, "--nodes", n, "--order", str(k)] for n in NODES for k in range(orders)]
    ways += [["sim", file, "--nodes", "4", "--loss", loss] for loss in LOSSES]
    ways += [["sim", file, "--nodes", n, "--per-node", "2"] for n in NODES[:4]]
    ways += [["sim", file, "--nodes", "16", *layout, "--order", "1"]] if layout else []
    differ = [way for way in ways if said(program, *way) != alone or alone is None]
    for n in NODES:
        way = ["run", file, "--nodes", n, "--record", f"{file}.run", "--brief", *BUDGET]
        run = subprocess.run([program, *way], capture_output=True)
        again = subprocess.run([program, "replay", file, f"{file}.run", "--brief"], capture_output=True)
        if run.returncode != 0 or alone not in run.stdout or again.stdout != run.stdout:
            differ.append(way)
    return differ, len(ways) + 2 * len(NODES)


def messages(program, file, *layout):
    """How many messages sixteen nodes send."""
    call = subprocess.run([program, "sim", file, "--nodes", "16", *layout, *BUDGET],
                          capture_output=True, text=True)
    return sum(map(int, re.findall(r"messages (\d+)$", call.stdout, re.M)))


def main():
    if shutil.which(BUILD[0]) is None:
        print(f"kernels: the packages are lacking: apt-get install -y {PACKAGES}", file=sys.stderr)
        return 1
    program = str(pathlib.Path(sys.argv[1]).resolve())
    orders = int(sys.argv[2]) if len(sys.argv) > 2 else 10
    names = sys.argv[3:] or [*sorted(path.stem for path in (root / "programs").glob("*.c")), *SMALL]
    failed = 0
    for name in names:
        with tempfile.TemporaryDirectory() as folder:
            file = f"{folder}/{name}.elf"
            if name in SMALL:
                shutil.copy(root / f"runtime/examples/{name}.elf", file)
            else:
                own = OPENMP if name.endswith("_openmp") else HEAP
                subprocess.run([*BUILD, *own, root / f"programs/{name}.c", "-o", file], check=True)
            path = root / f"programs/{name}.layout"
            layout = ["--layout", str(path)] if path.is_file() else []
            differ, runs = differing(program, file, orders, layout)
            failed += len(differ)
            for way in differ:
                print(f"{name}: {' '.join(way)} prints otherwise")
            print(f"{name}: {runs} runs, {len(differ)} differ; messages {messages(program, file)}", end="")
            if layout:
                print(f", with its layout {messages(program, file, *layout)}", end="")
            print(flush=True)
    return 1 if failed else 0


sys.exit(main())
