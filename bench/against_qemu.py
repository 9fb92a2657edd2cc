#!/usr/bin/env python3
"""Compares what instructions do with what qemu-riscv32 makes of them.

    bench/against_qemu.py PROGRAM [--programs N] [--first N] [--alone N] [--file N] [--seed N]
                          [--plant A=B]

PROGRAM is the built program (crates/shasta/out/shasta); qemu-riscv32 is of Debian's qemu-user.
Straight-line programs are made from numbers (outside/programs.py), so many (33,000) from the first
(0) on. Those with the numbers below so many (10,000) stand alone, each in a file that ends by an
ebreak. The others stand in files of so many (100), which end by an exit, an ebreak, an illegal
word, or an access to memory that isn't there. Each program sets its registers to edge values and
random ones, executes 20 to 200 instructions of RV32IMA, with jumps forward, and prints its 32
registers and a buffer of 256 bytes. `one`, `run` and qemu-riscv32 must print the same for each
file, and the same as outside/rows.py computes, and end alike. For each program that differs the
script says what does.

Then it prints how often each kind of instruction was executed, with the corner cases of its
operands, and names those that never came; and last, which kind came least often. What is left out,
since qemu has no such rule: an access that isn't aligned, and a store by the processor itself to
the word that it has reserved.

With --plant A=B qemu is given a file in which each instruction A is a B with the same fields: so
the two disagree by a wrong row, and the script stops at the first program in which that shows."""
import argparse, pathlib, re, resource, shutil, struct, subprocess, sys, tempfile

here = pathlib.Path(__file__).resolve().parent
sys.path.insert(0, str(here / "outside"))
sys.dont_write_bytecode = True
import programs, rows
from rows import word_of

ENDS = ("exit", "ebreak", "illegal", "access")
# The signals by which Linux tells of them.
SIGNALS = {"ebreak": 5, "illegal": 4, "access": 11}


def options():
    parser = argparse.ArgumentParser(prog="bench/against_qemu.py")
    parser.add_argument("program", type=pathlib.Path)
    parser.add_argument("--programs", type=int, default=33000)
    parser.add_argument("--first", type=int, default=0)
    parser.add_argument("--alone", type=int, default=10000)
    parser.add_argument("--file", type=int, default=100)
    parser.add_argument("--seed", type=int, default=0)
    parser.add_argument("--plant")
    asked = parser.parse_args()
    asked.program = asked.program.resolve()
    if shutil.which("qemu-riscv32") is None:
        raise SystemExit("against_qemu: the package is lacking: apt-get install -y qemu-user")
    return asked


def files(asked):
    """The numbers of each file's programs, and how the file ends."""
    first, last = asked.first, asked.first + asked.programs
    while first < last:
        if first < asked.alone:
            numbers, end = range(first, first + 1), "ebreak"
        else:
            numbers = range(first, min(first + asked.file, last))
            end = ENDS[first // asked.file % len(ENDS)]
        yield numbers, end
        first = numbers.stop


def end_words(end, status):
    """The words that end a file."""
    if end == "ebreak":
        return [word_of("ebreak")]
    if end == "illegal":
        return [0xc0001073]
    if end == "access":
        return [word_of("lw", 5, 0, imm=16)]
    return [word_of("addi", 10, 0, imm=status), word_of("addi", 17, 0, imm=93), word_of("ecall")]


def executable(words):
    """The file of the words at CODE, with a writable page at DATA."""
    code = struct.pack(f"<{len(words)}I", *words)
    head = b"\x7fELF\1\1\1" + bytes(9)
    head += struct.pack("<HHIIIIIHHHHHH", 2, 243, 1, programs.CODE, 52, 0, 0, 52, 32, 2, 0, 0, 0)
    head += struct.pack("<8I", 1, 4096, programs.CODE, programs.CODE, len(code), len(code), 5, 4096)
    head += struct.pack("<8I", 1, 0, programs.DATA, programs.DATA, 0, 4096, 6, 4096)
    return head.ljust(4096, b"\0") + code


class File:
    """Some programs behind one another, and how they end."""

    def __init__(self, asked, numbers, end, machine):
        self.first, self.words, self.printed, self.places = numbers.start, [], [], []
        self.programs = [programs.Program(asked.seed, number) for number in numbers]
        machine.begin()
        for program in self.programs:
            self.places.append(len(self.words))
            self.printed.append(machine.run(program, programs.CODE + 4 * len(self.words)))
            self.words += program.words()
        self.end, self.status = end, numbers.start // asked.file % 256
        machine.counts["ebreak"] += end == "ebreak"
        self.last = programs.CODE + 4 * len(self.words)
        self.words += end_words(self.end, self.status)

    def planted(self, plant):
        """The words, where each instruction of one kind is of another."""
        old, new = plant.split("=")
        if rows.ROWS[old][0] != rows.ROWS[new][0]:
            raise SystemExit(f"{old} and {new} have other fields")
        change, words = word_of(old) ^ word_of(new), list(self.words)
        for place, program in zip(self.places, self.programs):
            for number, each in enumerate(program.body):
                if each[0] == old:
                    words[place + 62 + number] ^= change
        return words

    def differing(self, printed):
        """The numbers of the programs that printed otherwise than the rows say."""
        size = programs.PRINTED
        for number, wanted in enumerate(self.printed):
            if printed[number * size:(number + 1) * size] != wanted:
                yield self.first + number

    def shasta_end(self):
        """The line of the processor's end."""
        if self.end == "exit":
            return f"processor 0 exit {self.status}\n".encode()
        return f"processor 0 {self.end} 0x{self.last:08x}\n".encode()


def called(*words):
    limit = lambda: resource.setrlimit(resource.RLIMIT_CORE, (0, 0))
    made = subprocess.run(words, capture_output=True, preexec_fn=limit)
    return made.stdout, made.returncode


def by_shasta(asked, command, path, file):
    """The bytes printed, and whether the end is the one awaited."""
    text, _ = called(asked.program, command, path, *(["--brief"] if command == "run" else []))
    head, _, rest = text.partition(b"\n")
    count = int(head.removeprefix(b"output "))
    return rest[:count], rest[count:] == b"\n" + file.shasta_end()


def by_qemu(path, file):
    printed, status = called("qemu-riscv32", path)
    wanted = file.status if file.end == "exit" else -SIGNALS[file.end]
    return printed, status == wanted


def judged(asked, file, folder):
    """What each of the three does otherwise than the rows say."""
    ours, theirs = folder / "ours.elf", folder / "theirs.elf"
    ours.write_bytes(executable(file.words))
    theirs.write_bytes(executable(file.planted(asked.plant) if asked.plant else file.words))
    for path in (ours, theirs):
        path.chmod(0o700)
    answers = {name: by_shasta(asked, name, ours, file) for name in ("one", "run")}
    answers["qemu"] = by_qemu(theirs, file)
    for name, (printed, is_ended) in answers.items():
        for number in file.differing(printed):
            yield number, f"program {number}: {name} prints otherwise than the rows say"
        if not is_ended or len(printed) != programs.PRINTED * len(file.programs):
            yield file.first, f"the file from program {file.first} on: {name} ends otherwise"


def table(machine):
    """How often each kind was executed, and its corner cases."""
    for kind in rows.ROWS:
        cases = {label: machine.corners[kind, label] for label in programs.awaited(kind)}
        told = "  ".join(f"{label}: {often:,}" for label, often in cases.items())
        print(f"{kind:10}{machine.counts[kind]:9,}  {told}".rstrip())
        never = [label for label, often in cases.items() if not often]
        if never:
            print(f"{kind} never met: {', '.join(never)}")


def main():
    asked, machine, wrong = options(), programs.Machine(), 0
    with tempfile.TemporaryDirectory() as folder:
        for numbers, end in files(asked):
            file = File(asked, numbers, end, machine)
            found = sorted(judged(asked, file, pathlib.Path(folder)))
            wrong += len(found)
            for _, text in found[:1 if asked.plant else None]:
                print(text, flush=True)
            if found and asked.plant:
                return 1
    table(machine)
    said = called("qemu-riscv32", "--version")[0].decode()
    version = re.search(r"version (\S+)", said).group(1)
    executed, rarest = sum(machine.counts.values()), min(rows.ROWS, key=machine.counts.__getitem__)
    print(f"{asked.programs:,} programs, {executed:,} instructions, by one, run and qemu-riscv32 "
          f"{version}: {wrong} differ; {rarest} came least often, {machine.counts[rarest]:,} times")
    return 1 if wrong else 0


sys.exit(main())
