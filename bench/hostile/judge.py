"""Why a file is refused, judged anew from the rules that docs/REFERENCE.md states, without the program.

`executable` and `record` give the refusal as the program tells it, or None, and what was read;
`layout`, `blocks` and `code` the refusal alone."""
import re, struct

LOAD, NOBITS, WRITES, EXECUTES, CODE_FLAGS = 1, 8, 2, 1, 6
LINES_OF_A_CLASS = 262_144
SIZES = (64, 128, 256, 512, 1024, 2048, 4096)
NUMBER = rb"(0|[1-9][0-9]*)"


class Executable:
    """What stands in a file: entry, flags, segments (flags, address, size, bytes) and sections
    (name, kind, flags, address, size, bytes)."""

    def __init__(self, entry, flags, segments, sections):
        self.entry, self.flags, self.segments, self.sections = entry, flags, segments, sections

    def parts(self):
        return self.entry, self.flags, self.segments, self.sections


def header_refusal(file):
    """The first of the rules on the file's header that a file breaks."""
    if len(file) < 52:
        return "1 Short"
    if file[:4] != b"\x7fELF":
        return "2 NotElf"
    if file[4:7] != b"\1\1\1":
        return "3 NotElf32"
    kind, machine = struct.unpack_from("<HH", file, 16)
    programs, sections, flags = struct.unpack_from("<3I", file, 28)
    _, size, count, section_size, section_count, _ = struct.unpack_from("<6H", file, 40)
    if kind != 2:
        return f"4 NotExec type {kind}"
    if machine != 243:
        return f"5 NotRiscv machine {machine}"
    if flags & ~0x10:
        return f"6 Flags 0x{flags:08x}"
    if count == 0 or size != 32 or programs + 32 * count > len(file):
        return "7 ProgramTable"
    if section_count and (section_size != 40 or sections + 40 * section_count > len(file)):
        return "8 SectionTable"
    return None


def program_refusal(headers, length):
    """The first of the rules on program headers that one of them breaks."""
    for number, header in enumerate(headers):
        if header[0] in (2, 3):
            return f"9 Dynamic header {number}"
    for number, (kind, offset, _, _, in_file, *_) in enumerate(headers):
        if kind == LOAD and offset + in_file > length:
            return f"10 SegmentOutside header {number}"
    for number, (kind, _, address, _, in_file, size, *_) in enumerate(headers):
        if kind == LOAD and (in_file > size or address + size > 2**32):
            return f"11 SegmentSizes header {number}"
    return None


def bytes_of(file, header):
    """The bytes of a section; none where it has none in the file."""
    _, kind, _, _, offset, size, *_ = header
    return b"" if kind == NOBITS or offset + size > len(file) else file[offset:offset + size]


def sections_of(file, place, count, names_number):
    """The sections, but for the first and that of the names."""
    headers = [struct.unpack_from("<10I", file, place + 40 * n) for n in range(count)]
    names = bytes_of(file, headers[names_number]) if names_number < count else b""
    sections = []
    for number, header in enumerate(headers):
        if number in (0, names_number):
            continue
        name, kind, flags, address, _, size, *_ = header
        end = names.find(0, name) if name < len(names) else -1
        text = names[name:end] if end >= 0 else b""
        sections.append((text, kind, flags, address, size, bytes_of(file, header)))
    return sections


def read(file):
    """The refusal of a file that can't be read as an executable, and the executable."""
    refusal = header_refusal(file)
    if refusal:
        return refusal, None
    entry, programs, table, flags = struct.unpack_from("<4I", file, 24)
    _, _, count, _, section_count, names = struct.unpack_from("<6H", file, 40)
    headers = [struct.unpack_from("<8I", file, programs + 32 * n) for n in range(count)]
    refusal = program_refusal(headers, len(file))
    if refusal:
        return refusal, None
    segments = [(flag, address, size, file[offset:offset + in_file])
                for kind, offset, address, _, in_file, size, flag, _ in headers if kind == LOAD]
    sections = sections_of(file, table, section_count, names)
    return None, Executable(entry, flags, segments, sections)


def is_instruction(word):
    """Whether a word is an instruction of RV32IMA, or an illegal word that is accepted."""
    if word in (0, 0xffffffff, 0xc0001073, 0x00000073, 0x00100073):
        return True
    major, third, seventh = word & 0x7f, word >> 12 & 7, word >> 25
    if major in (0x37, 0x17, 0x6f):
        return True
    if major == 0x2f:
        fifth, second = word >> 27, word >> 20 & 31
        if third != 2 or (fifth == 2 and second):
            return False
        return fifth in (0, 1, 2, 3, 4, 8, 12, 16, 20, 24, 28)
    if major == 0x33:
        return seventh in (0, 1) or (seventh == 0x20 and third in (0, 5))
    if major == 0x13 and third in (1, 5):
        return seventh == 0 or (seventh == 0x20 and third == 5)
    thirds = {0x67: (0,), 0x63: (0, 1, 4, 5, 6, 7), 0x03: (0, 1, 2, 4, 5), 0x23: (0, 1, 2),
              0x13: range(8), 0x0f: (0,)}
    return third in thirds.get(major, ())


def lines_of(address, size):
    """The first line of 64 bytes of a range, and the one behind its last."""
    return address // 64, (address + size - 1) // 64 + 1


def place_refusal(segments):
    """The first of the rules on where segments lie. Segments that are empty are passed over."""
    placed = [(number, flags, address, size, *lines_of(address, size))
              for number, (flags, address, size, _) in enumerate(segments) if size]
    for number, _, address, size, *_ in placed:
        if address + size > 0x7fff0000:
            return f"12 TooHigh segment {number}"
    for place, (number, _, _, _, first, end) in enumerate(placed):
        for other, _, _, _, other_first, other_end in placed[place + 1:]:
            if first < other_end and other_first < end:
                return f"13 Overlap segments {number} {other}"
    for number, flags, *_ in placed:
        if flags & WRITES and flags & EXECUTES:
            return f"14 WritableCode segment {number}"
    return None


def code_of(executable):
    """The code words by their addresses, and the sections of code by their numbers."""
    bodies = [(address, data) for flags, address, size, data in executable.segments
              if size and flags & EXECUTES]
    marked = [(number, section[3], section[4]) for number, section in enumerate(executable.sections)
              if section[2] & CODE_FLAGS == CODE_FLAGS and section[1] != NOBITS and section[4]]
    ranges = [(address, size) for _, address, size in marked]
    if not executable.sections:
        ranges = [(address, len(data)) for address, data in bodies]
    words = {}
    for start, size in ranges:
        for address, data in bodies:
            low = -(-max(start, address) // 4) * 4
            high = min(start + size, address + len(data))
            for place in range(low, high - 3, 4):
                words[place] = struct.unpack_from("<I", data, place - address)[0]
    return words, marked, bodies


def executable(file):
    """The refusal of a file by 1 to 19 or 22, and the executable."""
    refusal, read_one = read(file)
    refusal = refusal or place_refusal(read_one.segments)
    if refusal:
        return refusal, None
    words, marked, bodies = code_of(read_one)
    if not words:
        return "15 NoCode", None
    for name, writes in (("shared", WRITES), ("read-only", 0)):
        lines = sum(end - first for first, end in
                    (lines_of(a, size) for flags, a, size, _ in read_one.segments
                     if size and flags & WRITES == writes))
        if lines > LINES_OF_A_CLASS:
            return f"16 TooMuch {name}", None
    if read_one.entry not in words:
        return f"17 EntryNotCode 0x{read_one.entry:08x}", None
    for address in sorted(words):
        if not is_instruction(words[address]):
            return f"18 Unsupported 0x{address:08x} word 0x{words[address]:08x}", None
    for number, start, size in marked:
        within = any(at <= start and start + size <= at + len(data) for at, data in bodies)
        if start % 4 or size % 4 or not within:
            return f"19 CodeAlign section {number}", None
    if len(read_one.segments) > 999:
        return f"22 TooManySegments {len(read_one.segments)} segments", None
    return None, read_one


def code(wanted, file):
    """The refusal of a file of rewritten code, where the program's is the wanted one."""
    refusal, found = read(file)
    if refusal:
        return refusal
    if found.sections[:1] != wanted.sections[:1]:
        return "21 PlanRefused Plan"
    if found.sections[1:2] != wanted.sections[1:2]:
        return "21 PlanRefused Map"
    return None if found.parts() == wanted.parts() else "21 PlanRefused Code"


def shared_ranges(executable):
    """The ranges of shared lines, each as long as it can be."""
    joined = []
    for first, end in sorted(lines_of(address, size) for flags, address, size, _
                             in executable.segments if size and flags & WRITES):
        if joined and joined[-1][1] == first:
            joined[-1] = (joined[-1][0], end)
        else:
            joined.append((first, end))
    return joined


def range_refusal(block, earlier, shared, nodes):
    """The lowest rule that a range of a layout breaks, of those behind its syntax."""
    start, length, size, home = block
    if size not in SIZES:
        return 31
    if start % size or length % size or length == 0:
        return 32
    first, end = lines_of(start, length)
    if not any(low <= first and end <= high for low, high in shared):
        return 33
    if any(first < other_end and other_first < end
           for other_first, other_end in (lines_of(*other[:2]) for other in earlier)):
        return 34
    if home is not None and home >= nodes:
        return 35
    return None


def blocks(ranges, shared, nodes):
    """The refusal of ranges, by their numbers from 1."""
    for number, block in enumerate(ranges):
        rule = range_refusal(block, ranges[:number], shared, nodes)
        if rule:
            return f"{rule} at line {number + 1}"
    return None


def layout(text, shared, nodes):
    """The refusal of a layout's text."""
    pattern = rb"0x([0-9a-fA-F]{1,8}) +0x([0-9a-fA-F]{1,8}) +([0-9]{1,5}) +([0-9]{1,2}|\*)"
    earlier = []
    for number, line in enumerate(text.split(b"\n"), 1):
        if not line.strip(b" ") or line.startswith(b"#"):
            continue
        found = re.fullmatch(pattern, line)
        if not found:
            return f"30 at line {number}"
        start, length, size, home = found.groups()
        block = (int(start, 16), int(length, 16), int(size), None if home == b"*" else int(home))
        rule = range_refusal(block, earlier, shared, nodes)
        if rule:
            return f"{rule} at line {number}"
        earlier.append(block)
    return None


class Record:
    """What a record says, as far as it was read."""

    def __init__(self):
        self.nodes, self.words, self.blocks, self.takes = 0, None, [], []


class Broken(Exception):
    """A line breaks a rule."""


class Lines:
    """The lines of a text, one after another; each ends with a line feed."""

    def __init__(self, text):
        self.rest, self.number = text, 0

    def next(self):
        """The next line, which is nothing where none is left."""
        self.number += 1
        line, feed, self.rest = self.rest.partition(b"\n")
        return line if feed else None

    def broken(self, rule):
        return Broken(f"{rule} at line {self.number}")

    def fields(self, pattern, line=None):
        """The parts of the next line, or of this one."""
        line = self.next() if line is None else line
        found = line is not None and re.fullmatch(pattern, line)
        if not found:
            raise self.broken(40)
        return found.groups()

    def numbers(self, pattern, line=None):
        values = [int(field) for field in self.fields(pattern, line)]
        if any(value >= 2**63 for value in values):
            raise self.broken(40)
        return values


def read_takes(lines, nodes, version):
    """How many takes the next node has."""
    stamp, takes = 0, 0
    while True:
        line = lines.next()
        if line == b"end":
            return takes
        first, sender, words = lines.numbers(
            rb"take %b %b %b" % (NUMBER, NUMBER, NUMBER), line or b"")
        least = stamp + words + 1
        stamp = first if version == 1 else least + first
        if stamp < least or stamp >= 2**63:
            raise lines.broken(41)
        if sender >= nodes:
            raise lines.broken(42)
        takes += 1


def read_record(text, into):
    lines = Lines(text)
    [version] = lines.numbers(rb"shasta-record " + NUMBER)
    if version not in (1, 2):
        raise lines.broken(43)
    [into.nodes] = lines.numbers(rb"nodes " + NUMBER)
    if not 1 <= into.nodes <= 16:
        raise lines.broken(42)
    [budget] = lines.numbers(rb"budget " + NUMBER)
    if not 1 <= budget <= 2**32:
        raise lines.broken(40)
    lines.fields(rb"batch ([01])")
    if version == 2:
        [into.words] = lines.numbers(rb"code " + NUMBER)
        if not 1 <= into.words <= 4_194_303:
            raise lines.broken(40)
    line = lines.next()
    while line is not None and line.startswith(b"block "):
        start, length, size, home = lines.fields(
            rb"block 0x([0-9a-f]{8}) 0x([0-9a-f]{8}) (0|[1-9][0-9]{0,4}) (0|[1-9][0-9]?|\*)", line)
        into.blocks.append((int(start, 16), int(length, 16), int(size),
                            None if home == b"*" else int(home)))
        line = lines.next()
    for node in range(into.nodes):
        [number] = lines.numbers(rb"node " + NUMBER, line or b"")
        if number != node:
            raise lines.broken(42)
        into.takes.append(read_takes(lines, into.nodes, version))
        if node + 1 < into.nodes:
            line = lines.next()
    if lines.rest:
        lines.next()
        raise lines.broken(40)


def record(text):
    """The refusal of a record's text by 40 to 43, and the record."""
    read_one = Record()
    try:
        read_record(text, read_one)
    except Broken as broken:
        return str(broken), read_one
    return None, read_one
