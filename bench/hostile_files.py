#!/usr/bin/env python3
"""Calls the built program on files that were changed by chance, and judges each answer.

    bench/hostile_files.py PROGRAM KIND FIRST COUNT

KIND is `executable`, `layout`, `code` or `record`, the file that is changed, or `run`. The cases
are numbered, and each number makes the same case again. hostile/judge.py says without the program
which refusal is right: the line must be just that one, with nothing printed. What isn't refused
must be run: the status must fit the ends that are printed, and the text must be that of the
unchanged file where only its code or its record was changed; a changed executable must print the
same bytes and ends by `run` as by `one`. Of the kind `run` a changed program runs on two to four
nodes in threads, and a replay of its record must print the same text. No file may change, and none
may be there afterwards that wasn't before. The last line counts the answers, each refusal by its
number; a case that doesn't fit is told, and makes the status 1."""
import collections, pathlib, random, re, struct, subprocess, sys, tempfile

here = pathlib.Path(__file__).resolve().parent
sys.path.insert(0, str(here / "hostile"))
import judge

EXAMPLES = here.parent / "examples"
NAMES = ("hi", "counter", "exits", "greeting", "lock", "queue", "divisors", "sort", "sum", "tally")
STEPS = 2000
# A processor that is stopped has made a step for each 40 words.
WORDS = 40 * STEPS + 1000
SECONDS = 60


class Shasta:
    """The program, in a folder that is empty but for the files of a case."""

    def __init__(self, program, folder):
        self.program, self.folder = program, folder

    def call(self, words, files):
        """The answer, as status, output and errors, and whether the files are as before."""
        for path in self.folder.iterdir():
            path.unlink()
        for name, data in files.items():
            (self.folder / name).write_bytes(data)
        made = subprocess.run([self.program, *words.split()], cwd=self.folder, capture_output=True,
                              timeout=SECONDS, close_fds=False)
        return made.returncode, made.stdout, made.stderr

    def held(self):
        return {path.name: path.read_bytes() for path in self.folder.iterdir()}


class Misfit(Exception):
    """An answer that doesn't fit."""


def ends_of(text, nodes):
    """The bytes that a text says were printed, and the lines of the ends."""
    head, _, rest = text.partition(b"\n")
    if not re.fullmatch(rb"output (0|[1-9][0-9]*)", head):
        raise Misfit(f"prints {text[:80]!r}")
    count = int(head[7:])
    lines = rest[count + 1:]
    end = rb"(exit [0-9]+|stopped [0-9]+|(ebreak|illegal|misaligned|access|fetch) 0x[0-9a-f]{8})"
    wanted = b"".join(rb"processor %d " % n + end + rb"\n" for n in range(nodes))
    if rest[count:count + 1] != b"\n" or not re.fullmatch(wanted, lines):
        raise Misfit(f"prints {text[:200]!r}")
    return rest[:count], lines


def expect_run(answer, nodes):
    """The bytes and ends of a run that was done."""
    status, out, err = answer
    if err or status not in (0, 1):
        raise Misfit(f"answers {status} {err!r}")
    printed, ends = ends_of(out, nodes)
    if (status == 0) != (ends.count(b" exit 0\n") == nodes):
        raise Misfit(f"answers {status} with {ends!r}")
    return printed, ends


def expect_refusal(answer, status, line):
    if answer != (status, b"", f"shasta: {line}\n".encode()):
        status_told, out, err = answer
        raise Misfit(f"answers {status_told} {out[:80]!r} {err!r} and not {status} {line!r}")


NUMBERS = (0, 1, 2, 3, 4, 5, 6, 7, 8, 31, 32, 33, 40, 51, 52, 63, 64, 65, 999, 1000, 0x1000, 0xffff,
           0x10000, 0x20000, 0xfffffff, 0x1000000, 0x1000001, 0x7ffeffff, 0x7fff0000, 0x80000000,
           0x9fffffff, 0xa0000000, 0xfffffff0, 0xfffffffc, 0xffffffff)


def number_near(chance, old):
    """A number that may be at an edge, or near the one that stands there."""
    kind = chance.randrange(4)
    if kind == 0:
        return chance.choice(NUMBERS)
    if kind == 1:
        return (old + chance.choice((-4096, -64, -4, -1, 1, 4, 64, 4096))) % 2**32
    return old ^ 1 << chance.randrange(32) if kind == 2 else chance.getrandbits(32)


def fields_of(file):
    """The offset and the size of each field of the headers of a file."""
    fields = [(16, 2), (18, 2), (24, 4), (28, 4), (32, 4), (36, 4), (42, 2), (44, 2), (46, 2),
              (48, 2), (50, 2)]
    if len(file) < 52:
        return fields[:1]
    programs, sections = struct.unpack_from("<2I", file, 28)
    count, section_count = struct.unpack_from("<H2xH", file, 44)
    for n in range(min(count, 8)):
        fields += [(programs + 32 * n + 4 * k, 4) for k in range(8)] * 3
    for n in range(min(section_count, 16)):
        fields += [(sections + 40 * n + 4 * k, 4) for k in range(10)]
    return fields


def change_field(chance, file):
    offset, size = chance.choice(fields_of(file))
    if offset + size <= len(file):
        old = int.from_bytes(file[offset:offset + size], "little")
        new = number_near(chance, old) % 256**size
        file[offset:offset + size] = new.to_bytes(size, "little")


def change_word(chance, file):
    """Changes a word of the code, or of what stands where code often does."""
    refusal, found = judge.read(bytes(file))
    if refusal or not found.segments:
        return change_byte(chance, file)
    code = max(found.segments, key=lambda segment: segment[0] & 1)[3]
    start = bytes(file).find(code)
    if len(code) < 4 or start < 0:
        return change_byte(chance, file)
    place = start + 4 * chance.randrange(len(code) // 4)
    old = int.from_bytes(file[place:place + 4], "little")
    other = start + 4 * chance.randrange(len(code) // 4)
    kind = chance.randrange(8)
    new = old ^ 1 << chance.randrange(32)
    if kind == 0:
        new = chance.getrandbits(32)
    elif kind < 3:
        new = int.from_bytes(file[other:other + 4], "little")
    file[place:place + 4] = new.to_bytes(4, "little")


def change_byte(chance, file):
    if file:
        file[chance.randrange(len(file))] = chance.choice((0, 1, 0x7f, 0xff, chance.getrandbits(8)))


def cut(chance, file):
    length = chance.randrange(len(file) + 1)
    if chance.randrange(2):
        del file[chance.choice((51, 52, 115, 116, length)):]
    else:
        file.extend(bytes(chance.randrange(1, 100)))


def changed_file(chance, old):
    """A file with one change or a few."""
    file = bytearray(old)
    for _ in range(chance.choice((1, 1, 1, 2, 3, 6))):
        change = chance.choices((change_field, change_word, change_byte, cut), (6, 8, 2, 1))[0]
        change(chance, file)
    return bytes(file)


class Kind:
    """What is changed, and what is right then. A case has the words and the files of its call."""

    def __init__(self, shasta):
        self.shasta = shasta
        self.programs = {name: (EXAMPLES / f"{name}.elf").read_bytes() for name in NAMES}

    def made(self, words, files, name):
        """A file that the program writes."""
        self.shasta.call(words, files)
        return self.shasta.held()[name]

    def call(self, words, files):
        """The answer, where every file is as before."""
        answer = self.shasta.call(words, files)
        if self.shasta.held() != files:
            raise Misfit("changes a file")
        return answer


class Executables(Kind):
    def case(self, chance):
        """Tells what the answer was."""
        file = changed_file(chance, chance.choice(list(self.programs.values())))
        files = {"IN": file}
        refusal, _ = judge.executable(file)
        run = self.call(f"run IN --brief --budget {WORDS}", files)
        if refusal:
            expect_refusal(run, 4, f"executable refused {refusal}")
            return refusal.split()[0]
        printed, ends = expect_run(run, 1)
        by_one, ends_by_one = expect_run(self.call(f"one IN --budget {STEPS}", files), 1)
        if b"stopped" in ends_by_one:
            if not printed.startswith(by_one) and not by_one.startswith(printed):
                raise Misfit("run and one print other bytes")
            return "stopped"
        if (printed, ends) != (by_one, ends_by_one):
            raise Misfit(f"run ends by {ends!r} and one by {ends_by_one!r}")
        return "run"


class Runs(Kind):
    """Executables of which only code is changed, on several nodes in threads."""

    def case(self, chance):
        file = bytearray(chance.choice(list(self.programs.values())))
        for _ in range(chance.choice((1, 1, 2, 3))):
            change_word(chance, file)
        files, nodes = {"IN": bytes(file)}, chance.randrange(2, 5)
        refusal, _ = judge.executable(files["IN"])
        words = f"run IN --nodes {nodes} --record R --budget 20000 --brief"
        answer = self.shasta.call(words, files)
        held = self.shasta.held()
        record = held.pop("R", None)
        if held != files or (record is None) != bool(refusal):
            raise Misfit("changes a file, or leaves no record")
        if refusal:
            expect_refusal(answer, 4, f"executable refused {refusal}")
            return refusal.split()[0]
        _, ends = expect_run(answer, nodes)
        again = self.call("replay IN R --brief", {**files, "R": record})
        if again != answer:
            raise Misfit(f"answers {answer}, and a replay of it {again}")
        return "stopped" if b" stopped " in ends else "run"


class Layouts(Kind):
    def line(self, chance, shared, nodes):
        """A line that may be right, near a shared range."""
        low, high = chance.choice(shared)
        size = chance.choice(judge.SIZES)
        start = chance.randrange(low * 64, high * 64) // size * size
        length = size * chance.randrange(1, 4)
        home = chance.choice(("*", "*", str(chance.randrange(nodes)),
                              f"{chance.randrange(nodes):02}"))
        if chance.randrange(8) == 0:
            home = str(chance.randrange(100))
        if chance.randrange(6) == 0:
            start, length = chance.choice(((start + 32, length), (start, length - 1), (start, 0),
                                           (number_near(chance, start), length),
                                           (start, 2**32 - size)))
        if chance.randrange(8) == 0:
            size = chance.randrange(100_000)
        return f"0x{start % 2**32:x} 0x{length % 2**32:x} {size} {home}"

    def text(self, chance, shared, nodes):
        lines = [self.line(chance, shared, nodes) if chance.randrange(6)
                 else chance.choice(("", "  ", "# x")) for _ in range(chance.randrange(6))]
        text = bytearray("\n".join(lines).encode() + b"\n" * chance.randrange(2))
        for _ in range(chance.choice((0, 0, 0, 1, 2))):
            if text:
                other = b" #0x9*\t\n\r" + bytes([chance.getrandbits(8)])
                text[chance.randrange(len(text))] = chance.choice(other)
        return bytes(text)

    def case(self, chance):
        program = chance.choice([self.programs[name] for name in ("hi", "tally", "queue", "sort")])
        files = {"IN": self.wide(chance, program)}
        shared = judge.shared_ranges(judge.executable(files["IN"])[1])
        nodes = chance.randrange(1, 17)
        files["L"] = self.text(chance, shared, nodes)
        refusal = judge.layout(files["L"], shared, nodes)
        answer = self.call(f"one IN --layout L --nodes {nodes} --budget 20", files)
        if refusal:
            expect_refusal(answer, 6, f"layout refused {refusal}")
            return refusal.split()[0]
        expect_run(answer, nodes)
        return "run"

    def wide(self, chance, program):
        """The program with more shared memory."""
        file = bytearray(program)
        count = struct.unpack_from("<H", file, 44)[0]
        for n in range(count):
            kind, flags = struct.unpack_from("<I20xI", file, 52 + 32 * n)
            if kind == judge.LOAD and flags & judge.WRITES:
                struct.pack_into("<I", file, 52 + 32 * n + 20, chance.randrange(0x1000, 0x8000))
        return bytes(file)


class Codes(Kind):
    def __init__(self, shasta):
        super().__init__(shasta)
        self.bases = []
        for file in self.programs.values():
            code = self.made("rewrite IN OUT", {"IN": file}, "OUT")
            text = self.call("run IN --brief --budget 20000", {"IN": file})
            self.bases.append((file, code, judge.read(code)[1], text))

    def case(self, chance):
        file, code, wanted, text = chance.choice(self.bases)
        files = {"IN": file, "C": changed_file(chance, code)}
        answer = self.call("run IN --code C --brief --budget 20000", files)
        refusal = judge.code(wanted, files["C"])
        if refusal:
            expect_refusal(answer, 4, f"code refused {refusal}")
            return refusal.split()[0] + ("" if refusal[:2] != "21" else refusal.split()[2])
        if answer != text:
            raise Misfit(f"answers {answer} and not {text}")
        return "run"


class Records(Kind):
    def __init__(self, shasta):
        super().__init__(shasta)
        self.bases = []
        for name in ("hi", "exits", "counter", "tally", "sum", "queue"):
            file = self.programs[name]
            alone = [self.made(f"run IN --brief {batch} --record R", {"IN": file}, "R")
                     for batch in ("--no-batch", "")]
            words = [int(re.search(rb"\ncode (\d+)\n", record)[1]) for record in alone]
            for nodes in (1, 2, 3):
                record = self.made(f"run IN --nodes {nodes} --record R", {"IN": file}, "R")
                text = self.call("replay IN R --brief", {"IN": file, "R": record})
                if len(record) < 20_000:
                    self.bases += [(file, version, words, text)
                                   for version in (record, stamped(record))]

    def case(self, chance):
        file, record, words, text = chance.choice(self.bases)
        files = {"IN": file, "R": changed_record(chance, record)}
        answer = self.call("replay IN R --brief", files)
        refusal, found = judge.record(files["R"])
        batch = b"\nbatch 1\n" in files["R"]
        if not refusal and found.words not in (None, words[batch]):
            refusal = "47 at line 5"
        if refusal:
            expect_refusal(answer, 7, f"record refused {refusal}")
            return refusal.split()[0]
        shared = judge.shared_ranges(judge.executable(file)[1])
        refusal = judge.blocks(found.blocks, shared, found.nodes)
        if refusal:
            expect_refusal(answer, 6, f"layout refused {refusal}")
            return refusal.split()[0]
        return self.replayed(answer, found, text)

    def replayed(self, answer, record, text):
        """What became of a record that is refused for its events alone."""
        status, out, err = answer
        if status == 7:
            told = re.fullmatch(
                rb"shasta: record refused (44|45|46) at node (\d+) entry (\d+)\n", err)
            if not told or out:
                raise Misfit(f"answers {answer}")
            rule, node, entry = map(int, told.groups())
            if node >= record.nodes or not 1 <= entry <= record.takes[node] + (rule == 45):
                raise Misfit(f"answers {err!r}")
            return str(rule)
        _, ends = expect_run(answer, record.nodes)
        as_many = text[1].count(b"processor") == record.nodes
        if b"stopped" not in ends and as_many and answer != text:
            raise Misfit(f"answers {answer} and not {text}")
        return "run"


def stamped(record):
    """The first version of a record of the second one: each take with its stamp."""
    lines, stamp = [b"shasta-record 1"], 0
    for line in record.split(b"\n")[1:]:
        if line.startswith(b"code "):
            continue
        if line.startswith(b"node "):
            stamp = 0
        if line.startswith(b"take "):
            gap, sender, words = map(int, line.split()[1:])
            stamp += words + 1 + gap
            line = b"take %d %d %d" % (stamp, sender, words)
        lines.append(line)
    return b"\n".join(lines)


def changed_line(chance, line):
    """A line with another number, or another byte."""
    fields = line.split(b" ")
    numbers = [place for place, field in enumerate(fields) if field.isdigit()]
    if numbers and chance.randrange(10):
        place = chance.choice(numbers)
        old = int(fields[place])
        new = chance.choice((old + 1, old + 1, old + 2, max(old - 1, 0), max(old - 1, 0), 0, 1, 2,
                             chance.getrandbits(5), 17, 2**32, 2**63 - 1, 2**63))
        fields[place] = b"%d" % new
        return b" ".join(fields)
    text = bytearray(line)
    if text:
        other = b" 0123456789x*abd\r" + bytes([chance.getrandbits(8)])
        text[chance.randrange(len(text))] = chance.choice(other)
    return bytes(text)


def block_line(chance):
    """A range of a layout that may be shared."""
    size = chance.choice(judge.SIZES)
    start = chance.choice((0x11000, 0x12000, 0x20000)) + 64 * chance.randrange(64)
    home = chance.choice((b"*", b"0", b"1", b"20"))
    return b"block 0x%08x 0x%08x %d %s" % (start, chance.choice((size, 64)), size, home)


def changed_record(chance, record):
    lines = record.split(b"\n")
    for _ in range(chance.choice((1, 1, 1, 2, 3))):
        place, kind = chance.randrange(len(lines)), chance.randrange(20)
        other = chance.randrange(len(lines))
        if kind == 0:
            del lines[place]
        elif kind == 1:
            lines.insert(place, lines[other])
        elif kind == 2:
            lines[place], lines[other] = lines[other], lines[place]
        elif kind == 3:
            lines.insert(4 + (lines[0][-1:] == b"2"), block_line(chance))
        else:
            lines[place] = changed_line(chance, lines[place])
        if not lines:
            lines = [b""]
    return b"\n".join(lines)


KINDS = {"executable": Executables, "run": Runs, "layout": Layouts, "code": Codes,
         "record": Records}


def main():
    program, name, first, count = sys.argv[1], sys.argv[2], int(sys.argv[3]), int(sys.argv[4])
    answers, wrong = collections.Counter(), 0
    with tempfile.TemporaryDirectory() as folder:
        kind = KINDS[name](Shasta(pathlib.Path(program).resolve(), pathlib.Path(folder)))
        for number in range(first, first + count):
            try:
                answers[kind.case(random.Random(f"{name} {number}"))] += 1
            except (Misfit, subprocess.TimeoutExpired) as misfit:
                wrong += 1
                print(f"{name} {number}: {misfit}", flush=True)
    told = ", ".join(f"{answer} {often}" for answer, often in sorted(answers.items()))
    print(f"{name}: {count} cases, {wrong} don't fit; {told}")
    return 1 if wrong else 0


sys.exit(main())
