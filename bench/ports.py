#!/usr/bin/env python3
"""Fetches programs of other people, builds them over the runtime as they are, and runs them.

    bench/ports.py PROGRAM FOLDER [NAME..]

PROGRAM is the shasta that was built; FOLDER takes the sources and what is built, and sources that
are there aren't fetched again; NAME is one of PORTS below (all). The sources come by `apt-get
source` from Debian 12, and stay unchanged. Each program is built by `--specs=runtime/shasta.specs`
with the flags of PORTS, and by `cc` for this machine. It runs by `one`, by `sim` on one and on four
nodes, and by `run` on one and on four nodes with a replay of the record. It has to print each time
what the build for this machine prints, and to end with the same code. The script says what differs,
and for each program the bytes of code and constants, and how many seconds of a processor `one`
took."""
import pathlib, re, resource, shutil, subprocess, sys

root = pathlib.Path(__file__).resolve().parent.parent
ours = root / "bench" / "ports"
GCC = ["riscv64-unknown-elf-gcc", f"--specs={root}/runtime/shasta.specs"]
SOURCES = "deb-src http://deb.debian.org/debian bookworm main\n"
BUDGET = ["--budget", "4294967295"]

# name: the package, its sources without those behind `!`, flags, more flags for shasta alone, the
# words by which it is called, and the files that it reads: of this folder, or of its sources
PORTS = {
    "lua": ("lua5.4", "src/*.c !src/luac.c", "", "", "sorts.lua", ["sorts.lua"]),
    "mujs": ("mujs", "one.c main.c", "", "", "objects.js", ["objects.js"]),
    "bzip2": ("bzip2", "blocksort.c huffman.c crctable.c randtable.c compress.c decompress.c "
              "bzlib.c bzip2.c", "", "-Wl,--defsym=__heap_size=0x800000", "-tvv sample1.bz2",
              ["sample1.bz2"]),
    "cjson": ("cjson", "cJSON.c test.c", "", "", "", []),
    "cjson-tests": ("cjson", "tests/misc_tests.c tests/unity/src/unity.c", "-I.",
                    "-Wl,--defsym=__stack_size=0x200000", "", []),
}
PACKAGES = ("gcc-riscv64-unknown-elf binutils-riscv64-unknown-elf picolibc-riscv64-unknown-elf "
            "gcc dpkg-dev")
WAYS = (["one"], ["sim"], ["sim", "--nodes", "4"], ["run"], ["run", "--nodes", "4"])


def fetched(package, folder):
    """The folder of a package's sources, and its version."""
    into = folder / "sources" / package
    if not into.is_dir():
        (folder / "lists/partial").mkdir(parents=True, exist_ok=True)
        (folder / "sources.list").write_text(SOURCES)
        apt = ["apt-get", "-qq", "-o", f"Dir::Etc::SourceList={folder}/sources.list",
               "-o", "Dir::Etc::SourceParts=/dev/null", "-o", f"Dir::State::Lists={folder}/lists",
               "-o", "APT::Sandbox::User=root"]
        subprocess.run([*apt, "update"], check=True)
        subprocess.run([*apt, "source", "--download-only", package], cwd=folder, check=True)
        [archive] = folder.glob(f"{package}_*.orig.tar.*[z2]")
        into.mkdir(parents=True)
        subprocess.run(["tar", "-xf", archive, "-C", into, "--strip-components=1"], check=True)
    [description] = folder.glob(f"{package}_*.dsc")
    return into, description.stem.split("_")[1]


def sources(names, folder):
    """The files that the names of a port mean."""
    chosen = set()
    for name in names.split():
        found = set(folder.glob(name.lstrip("!")))
        chosen = chosen - found if name.startswith("!") else chosen | found
    return sorted(chosen)


def build(name, port, source, folder):
    """Builds a port for shasta and for this machine; gives both files."""
    package, names, flags, own_flags, words, files = port
    work = folder / name
    work.mkdir(exist_ok=True)
    for file in files:
        shutil.copy((ours if (ours / file).is_file() else source) / file, work)
    embedded = subprocess.run([root / "runtime/embed", *files], cwd=work, capture_output=True,
                              check=True).stdout if files else b""
    (work / "files.s").write_bytes(embedded)
    listed = "".join(f'"{word}", ' for word in [name, *words.split()])
    (work / "words.c").write_text(f"char *program_arguments[] = {{{listed}0}};\n")
    common = ["-O2", "-w", *flags.split(), *sources(names, source)]
    subprocess.run([*GCC, *own_flags.split(), *common, work / "words.c", f"-Wa,-I{work}",
                    work / "files.s", "-lm", "-o", work / f"{name}.elf"], cwd=source, check=True)
    subprocess.run(["cc", *common, "-lm", "-o", work / name], cwd=source, check=True)
    return work / f"{name}.elf", work / name


def awaited(native, words):
    """What the build for this machine prints, and its code."""
    call = subprocess.run([native.name, *words.split()], executable=native, cwd=native.parent,
                          stdin=subprocess.DEVNULL, stdout=subprocess.PIPE,
                          stderr=subprocess.STDOUT)
    return call.stdout, call.returncode


def told(program, words):
    """What a run of shasta prints, and the code of processor 0."""
    call = subprocess.run([program, *words], capture_output=True)
    head, _, rest = call.stdout.partition(b"\n")
    length = int(head.split()[1]) if head.startswith(b"output ") else 0
    end = re.match(rb"\nprocessor 0 exit (\d+)\n", rest[length:])
    return rest[:length], int(end[1]) if end else None, call.stdout


def differing(program, file, right):
    """The ways in which a port prints or ends otherwise."""
    record = file.with_suffix(".run")
    for command, *nodes in WAYS:
        words = [command, file, *nodes, *BUDGET, "--brief"]
        if command == "one":
            words.pop()
        if command == "run":
            words[2 + len(nodes):2 + len(nodes)] = ["--record", record]
        printed = told(program, words)
        if printed[:2] != right:
            yield f"{command} {' '.join(nodes)}"
        if command == "run" and told(program, ["replay", file, record, "--brief"]) != printed:
            yield f"replay of {command} {' '.join(nodes)}"


def main():
    if len(sys.argv) < 3:
        print("usage: bench/ports.py PROGRAM FOLDER [NAME..]", file=sys.stderr)
        return 2
    if shutil.which(GCC[0]) is None or shutil.which("cc") is None:
        print(f"ports: the packages are lacking: apt-get install -y {PACKAGES}", file=sys.stderr)
        return 1
    program, folder = pathlib.Path(sys.argv[1]).resolve(), pathlib.Path(sys.argv[2]).resolve()
    folder.mkdir(parents=True, exist_ok=True)
    failed = 0
    for name in sys.argv[3:] or PORTS:
        port = PORTS[name]
        source, version = fetched(port[0], folder)
        file, native = build(name, port, source, folder)
        size = subprocess.run(["riscv64-unknown-elf-size", file], capture_output=True, text=True)
        right = awaited(native, port[4])
        start = resource.getrusage(resource.RUSAGE_CHILDREN).ru_utime
        told(program, ["one", file, *BUDGET])
        seconds = resource.getrusage(resource.RUSAGE_CHILDREN).ru_utime - start
        differ = list(differing(program, file, right))
        failed += len(differ)
        print(f"{name}: {port[0]} {version}, {size.stdout.split()[6]} bytes, prints "
              f"{len(right[0])} bytes, code {right[1]}; one {seconds:.1f} s; "
              f"differ: {', '.join(differ) or 'none'}", flush=True)
    return 1 if failed else 0


sys.exit(main())
