#!/usr/bin/env python3
"""Compares the listing and the files of the program with what the GNU tools make of them.

    bench/against_binutils.py PROGRAM [--words N] [--seed N]

PROGRAM is the built program (crates/shasta/out/shasta); the tools are of Debian's package
binutils-riscv64-unknown-elf, and qemu-riscv32 of qemu-user.

Words of all 59 instructions of RV32IMA with random fields, so many (200,000), are listed by `list`
and by `objdump -d -M no-aliases,numeric`. Their lines must say the same, but for the spelling that
`spelled` states: objdump puts a tab behind the name and no space behind a comma, leaves out the
zeros before a target, names a place behind it, has shift amounts in hexadecimal, and shows the
fields of a fence. A fence whose reserved fields aren't 0 may be no instruction, or another one, for
objdump, and is a fence for `list`.

Then `readelf -hlW` reads the files that `gen` and `asm` write: the header and the segments must be
those that are stated, without a warning. qemu-riscv32 runs them where they may be run: `hello` of
docs/REFERENCE.md, and `gen`'s behind a start that says that there is one processor; it must print what
`one` prints."""
import argparse, pathlib, random, re, shutil, struct, subprocess, sys, tempfile

here = pathlib.Path(__file__).resolve().parent
sys.path.insert(0, str(here / "outside"))
sys.dont_write_bytecode = True
import rows
from rows import word_of

TOOLS, PACKAGES = "riscv64-unknown-elf-", "binutils-riscv64-unknown-elf qemu-user"
CODE, DATA = 0x10000, 0x200000
HELLO = """.segment rx 0x10000
lui x11, 0x20
addi x10, x0, 1
addi x12, x0, 6
addi x17, x0, 64
ecall
addi x10, x0, 0
addi x17, x0, 93
ecall
.segment rw 0x20000
.bytes 68656c6c6f0a
"""


def called(*words):
    """What a call prints; it must end well, and print no errors."""
    made = subprocess.run(words, capture_output=True)
    if made.returncode or made.stderr:
        raise SystemExit(f"{words} answers {made.returncode}: {made.stderr.decode()}")
    return made.stdout


def executable(words):
    """The file of the words at CODE, and a byte of data, with a section for objdump."""
    code, names = struct.pack(f"<{len(words)}I", *words), b"\0.text\0.shstrtab\0"
    table = 4096 + len(code)
    sections = table + len(names) + -(table + len(names)) % 4
    head = b"\x7fELF\1\1\1" + bytes(9)
    head += struct.pack("<HHIIIIIHHHHHH", 2, 243, 1, CODE, 52, sections, 0, 52, 32, 1, 40, 3, 2)
    head += struct.pack("<8I", 1, 4096, CODE, CODE, len(code), len(code), 5, 4096)
    rest = (code + names).ljust(sections - 4096, b"\0") + bytes(40)
    rest += struct.pack("<10I", 1, 1, 6, CODE, 4096, len(code), 0, 0, 4, 0)
    rest += struct.pack("<10I", 7, 3, 0, 0, table, len(names), 0, 0, 1, 0)
    return head.ljust(4096, b"\0") + rest


def random_word(chance, kind):
    """A word of a kind with random fields."""
    form = rows.ROWS[kind][0]
    width = {"U": 20, "J": 21, "B": 13, "H": 5, "A": 2}.get(form, 12)
    imm = chance.getrandbits(width) & (-2 if form in "JB" else -1)
    registers = [chance.randrange(32) for _ in range(3)]
    if kind == "lr.w":
        registers[2] = 0
    return word_of(kind, *registers, imm)


def spelled(line):
    """A line of objdump as `list` spells it: a word, its name and its operands."""
    address, word, name, *rest = line.split("\t")
    operands = re.sub(r"\s*(#|<).*", "", rest[0]).split(",") if rest else []
    if name in ("jal", "beq", "bne", "blt", "bge", "bltu", "bgeu"):
        operands[-1] = f"0x{int(operands[-1], 16) % 2**32:08x}"
    if name in ("slli", "srli", "srai"):
        operands[-1] = str(int(operands[-1], 16))
    if name.startswith("fence"):
        name, operands = "fence", []
    text = f"{name} {', '.join(operands)}".strip()
    return f"{int(address.strip(' :'), 16):08x}: {word.strip()} {text}"


def is_reserved_fence(word):
    """Whether a word is a fence whose rd, rs1 or fm isn't 0."""
    return word & 0x707f == 0xf and (word >> 28 or word >> 7 & 31 or word >> 15 & 31)


def listing(program, count, seed, folder):
    """The words, and those whose lines differ."""
    chance, kinds = random.Random(seed), list(rows.ROWS)
    words = [random_word(chance, kinds[number % len(kinds)]) for number in range(count)]
    path = folder / "words.elf"
    path.write_bytes(executable(words))
    ours = called(program, "list", path).decode().splitlines()
    theirs = called(f"{TOOLS}objdump", "-d", "-z", "-M", "no-aliases,numeric", path).decode()
    theirs = re.findall(r"^ +[0-9a-f]+:\t.*$", theirs, re.M)
    if len(ours) != count or len(theirs) != count:
        raise SystemExit(f"{count} words, {len(ours)} lines of list, {len(theirs)} of objdump")
    for word, our, their in zip(words, ours, theirs):
        if our != spelled(their) and not (is_reserved_fence(word) and our.endswith(" fence")):
            yield f"list says {our!r}, objdump {their!r}"


def read_by_readelf(path, segments):
    """What readelf says otherwise of a file than it should: type, machine, entry, segments."""
    text = called(f"{TOOLS}readelf", "-hlW", path).decode()
    for wanted in (r"Class: +ELF32", r"Data: +2's complement, little endian",
                   r"Type: +EXEC \(Executable file\)", r"Machine: +RISC-V",
                   rf"Entry point address: +0x{CODE:x}\n", r"Flags: +0x0\n",
                   r"Number of section headers: +0\n"):
        if not re.search(wanted, text):
            yield f"readelf {path.name}: not {wanted}"
    found = [(int(where, 16), int(size, 16), kind.replace(" ", "")) for where, size, kind in
             re.findall(r"LOAD +\w+ 0x(\w+) 0x\w+ 0x\w+ 0x(\w+) ([RWE ]+?) 0x1000", text)]
    if found != segments:
        yield f"readelf {path.name}: segments {found} and not {segments}"


def with_start(file):
    """The file of `gen` with a segment more, where it starts: one processor, numbered 0."""
    start = [word_of("addi", 10), word_of("addi", 11, imm=1), word_of("lui", 5, imm=CODE >> 12),
             word_of("jalr", 0, 5)]
    code = struct.pack("<4I", *start)
    file = bytearray(file.ljust(len(file) + -len(file) % 4096, b"\0"))
    offset, address = len(file), 0x400000
    struct.pack_into("<I", file, 24, address)
    struct.pack_into("<H", file, 44, 3)
    struct.pack_into("<8I", file, 52 + 64, 1, offset, address, address, 16, 16, 5, 4096)
    return bytes(file) + code


def files(program, folder):
    """What is wrong with the files of `gen` and `asm`."""
    generated, text, hello = folder / "gen.elf", folder / "hello.text", folder / "hello.elf"
    called(program, "gen", "0", generated)
    code = struct.unpack_from("<I", generated.read_bytes(), 52 + 20)[0]
    yield from read_by_readelf(generated, [(CODE, code, "RE"), (DATA, 0x4080, "RW")])
    text.write_text(HELLO)
    called(program, "asm", text, hello)
    yield from read_by_readelf(hello, [(CODE, 32, "RE"), (0x20000, 6, "RW")])
    started = folder / "started.elf"
    started.write_bytes(with_start(generated.read_bytes()))
    for path, by_qemu in ((hello, hello), (generated, started)):
        by_qemu.chmod(0o700)
        printed = called("qemu-riscv32", by_qemu)
        text = b"output %d\n%s\nprocessor 0 exit 0\n" % (len(printed), printed)
        if text != called(program, "one", path):
            yield f"qemu-riscv32 prints {printed} of {path.name}"


def main():
    parser = argparse.ArgumentParser(prog="bench/against_binutils.py")
    parser.add_argument("program", type=pathlib.Path)
    parser.add_argument("--words", type=int, default=200000)
    parser.add_argument("--seed", type=int, default=0)
    asked = parser.parse_args()
    program = asked.program.resolve()
    if None in map(shutil.which, (f"{TOOLS}objdump", "qemu-riscv32")):
        raise SystemExit(f"against_binutils: the packages are lacking: apt-get install -y {PACKAGES}")
    with tempfile.TemporaryDirectory() as folder:
        wrong = [*listing(program, asked.words, asked.seed, pathlib.Path(folder)),
                 *files(program, pathlib.Path(folder))]
    print("\n".join(wrong[:20]), end="\n" if wrong else "")
    version = called(f"{TOOLS}objdump", "--version").decode().splitlines()[0]
    print(f"{asked.words:,} words by list and {version}, files by readelf: {len(wrong)} differ")
    return 1 if wrong else 0


sys.exit(main())
