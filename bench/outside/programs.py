"""Makes straight-line programs from numbers, and runs them by rows.py.

A program sets every register, executes 20 to 200 instructions with jumps forward, and prints its
32 registers and its buffer of 256 bytes. The instructions stand in units: an address is put into
a register just before the access that needs it, and jumps lead to the beginning of a unit."""
import collections, random
import rows
from rows import LOADS, OPERATIONS, CONDITIONS, ROWS, STORES, WORD, signed, word_of

CODE, DATA = 0x10000, 0x1000000
BUFFER, BUFFER_SIZE = DATA + 128, 256
PRINTED = 128 + BUFFER_SIZE
FLAG_WORD = 0xffffff03
EDGES = (0, 1, 2, 3, WORD - 1, WORD - 2, 1 << 31, (1 << 31) + 1, (1 << 31) - 1, 31, 32, 33, 0x7f,
         0x80, 0xff, 0x7fff, 0x8000, 0xffff, 0x10000, 0x55555555, 0xaaaaaaaa, FLAG_WORD)
# Pairs that a sum, a product or a quotient overflows by, or just doesn't.
PAIRS = ((1 << 31, WORD - 1), (1 << 31, 1 << 31), ((1 << 31) - 1, 1), (1 << 31, 1), (1 << 31, 0),
         ((1 << 31) - 1, (1 << 31) - 1), (WORD - 1, WORD - 1), (WORD - 1, 1 << 31))
IMMEDIATES = (0, 1, -1, 2, 31, 32, 2047, -2048, -253)

OPS = [kind for kind, row in ROWS.items() if row[0] == "R"]
IMMS = [kind for kind, row in ROWS.items() if row[:2] == ("I", 0x13)]
SHIFTS = [kind for kind, row in ROWS.items() if row[0] == "H"]
AMOS = [kind for kind in ROWS if kind.startswith("amo")]
UNITS = [kind for kind in ROWS if kind not in ("ebreak", "lr.w")] + ["lone sc.w", "other sc.w"]


class Program:
    """The program of a number: its units, each a list of (kind, rd, rs1, rs2, imm)."""

    def __init__(self, seed, number):
        self.random = random.Random(f"{seed}.{number}")
        self.bases = self.random.sample([r for r in range(1, 32) if r not in (10, 11, 12, 17)], 2)
        self.free = [r for r in range(32) if r not in self.bases]
        self.at = {self.bases[0]: BUFFER + 4 * self.random.randrange(64),
                   self.bases[1]: BUFFER + self.random.randrange(256)}
        self.start = [self.at.get(r, self.value()) for r in range(32)]
        self.units, self.jumps, length, wanted = [], [], 0, self.random.randint(20, 200)
        while length < wanted:
            unit = self.unit(self.random.choice(UNITS))
            self.units.append(unit)
            length += len(unit)
        self.link()

    def value(self):
        if self.random.random() < 0.5:
            return self.random.choice(EDGES)
        return self.random.getrandbits(32)

    def immediate(self):
        return (self.random.choice(IMMEDIATES) if self.random.random() < 0.4
                else self.random.randint(-2048, 2047))

    def source(self):
        return self.random.randrange(32)

    def target(self):
        return self.random.choice(self.free)

    def scratch(self):
        """A register that may hold an address."""
        return self.random.choice([r for r in self.free if r])

    def place(self, width):
        """A base and a distance that lead to an aligned place of the buffer."""
        base = self.random.choice(self.bases)
        return base, BUFFER + width * self.random.randrange(256 // width) - self.at[base]

    def address(self, rd):
        """The instruction that puts the address of a word of the buffer into a register."""
        base, distance = self.place(4)
        return ("addi", rd, base, 0, distance)

    def unit(self, kind):
        """One or more instructions, the last (or the one before an SC) of the kind."""
        form = ROWS[kind.split()[-1]][0]
        if kind in OPS:
            return self.operation(kind)
        if kind in IMMS:
            return [(kind, self.target(), self.source(), 0, self.immediate())]
        if kind in SHIFTS:
            amount = self.random.choice((0, 1, 31, self.random.randrange(32)))
            return [(kind, self.target(), self.source(), 0, amount)]
        if form == "U":
            return [(kind, self.target(), 0, 0, self.random.choice((0, 0xfffff, 0x80000,
                                                                   self.random.getrandbits(20))))]
        if kind in LOADS:
            base, distance = self.place(LOADS[kind][0])
            return [(kind, self.target(), base, 0, distance)]
        if kind in STORES:
            base, distance = self.place(STORES[kind])
            return [(kind, 0, base, self.source(), distance)]
        if form == "A":
            return self.atomic(kind)
        return self.other(kind)

    def operation(self, kind):
        """An operation of two registers, sometimes behind what puts a pair of values there."""
        if self.random.random() < 0.8:
            return [(kind, self.target(), self.source(), self.source(), 0)]
        first, second = self.random.sample([r for r in self.free if r], 2)
        unit = []
        for register, value in zip((first, second), self.random.choice(PAIRS)):
            unit += [("lui", register, 0, 0, (value + 0x800 >> 12) & 0xfffff),
                     ("addi", register, register, 0, signed(value << 20 & 0xfff00000) >> 20)]
        return [*unit, (kind, self.target(), first, second, 0)]

    def atomic(self, kind):
        """An AMO, or an SC: behind an LR of the same word, of another, or of none."""
        held, order = self.scratch(), self.random.randrange(4)
        last = (kind.split()[-1], self.target(), held, self.source(), order)
        if kind in AMOS or kind == "lone sc.w":
            if self.random.random() < 0.2:
                return [last[:2] + (self.bases[0],) + last[3:]]
            return [self.address(held), last]
        first = held
        if kind == "other sc.w":
            first = self.random.choice([r for r in self.free if r not in (0, held)])
        unit = [self.address(first), ("lr.w", self.between(held), first, 0, order)]
        if first != held:
            unit.append(self.address(held))
        for _ in range(self.random.randrange(4)):
            unit.append((self.random.choice(OPS), self.between(held), self.source(), self.source(),
                         0))
        return [*unit, last]

    def between(self, held):
        """A register that may change while another holds an address."""
        return self.random.choice([r for r in self.free if r != held])

    def other(self, kind):
        """A jump, whose distance comes when all units stand; a fence; a call."""
        if kind == "fence":
            return [(kind, self.source(), self.source(), 0, self.random.getrandbits(12))]
        if kind == "ecall":
            return self.call()
        if kind == "jal":
            return [(kind, self.target(), 0, 0, None)]
        if kind == "jalr":
            held = self.scratch()
            return [("auipc", held, 0, 0, 0), (kind, self.target(), held, 0, None)]
        return [(kind, 0, self.source(), self.source(), None)]

    def call(self):
        """A call that there isn't, or a write to a file that isn't open."""
        if self.random.random() < 0.8:
            return [("addi", 17, 0, 0, self.random.randint(2000, 2047)), ("ecall", 0, 0, 0, 0)]
        return [("addi", 17, 0, 0, 64), ("addi", 10, 0, 0, self.random.randint(1000, 1009)),
                self.address(11), ("addi", 12, 0, 0, self.random.randrange(16)),
                ("ecall", 0, 0, 0, 0)]

    def link(self):
        """Sets the jumps, each over one to four of the units behind it."""
        heads = [0]
        for unit in self.units:
            heads.append(heads[-1] + len(unit))
        self.body = []
        for number, unit in enumerate(self.units):
            to = heads[min(number + 1 + self.random.randint(0, 4), len(self.units))]
            for kind, rd, rs1, rs2, imm in unit:
                if imm is None:
                    imm = 4 * (to - len(self.body))
                    if kind == "jalr":
                        # From the auipc before it; the lowest bit is cleared.
                        imm += 4 + self.random.randrange(2)
                self.body.append((kind, rd, rs1, rs2, imm))

    def words(self):
        """The words of the whole program."""
        words = []
        for register in range(1, 32):
            words += constant(register, self.start[register])
        words += [word_of(*each) for each in self.body]
        base = self.bases[0]
        words += [word_of("sw", 0, base, r, DATA + 4 * r - self.at[base]) for r in range(32)]
        return words + printing(DATA, PRINTED)


def constant(register, value):
    """Two words that put a value into a register."""
    upper = (value + 0x800 >> 12) & 0xfffff
    return [word_of("lui", register, imm=upper),
            word_of("addi", register, register, imm=value & 0xfff)]


def printing(address, count):
    """The words that write so many bytes."""
    return [*constant(11, address), word_of("addi", 12, 0, imm=count),
            word_of("addi", 10, 0, imm=1), word_of("addi", 17, 0, imm=64), word_of("ecall")]


class Machine:
    """What a program does by the rows, with a count of each kind and of its corner cases."""

    def __init__(self):
        self.counts, self.corners = collections.Counter(), collections.Counter()

    def begin(self):
        """Begins a file: its buffer is of zeros."""
        self.buffer = bytearray(BUFFER_SIZE)

    def run(self, program, address):
        """Runs a program that stands at an address, and gives what it prints."""
        self.registers, self.held, self.pc = list(program.start), None, 0
        self.registers[0] = 0
        self.first = address + 4 * 62
        while self.pc < len(program.body):
            kind, rd, rs1, rs2, imm = program.body[self.pc]
            self.counts[kind] += 1
            self.pc += 1
            value = self.value(kind, rd, self.registers[rs1], self.registers[rs2], imm)
            if value is not None and rd:
                self.registers[rd] = value % WORD
        return b"".join(each.to_bytes(4, "little") for each in self.registers) + self.buffer

    def meet(self, kind, *labels):
        for label in labels:
            self.corners[kind, label] += 1

    def value(self, kind, rd, a, b, imm):
        """What an instruction puts into rd; None where it puts nothing."""
        form = ROWS[kind][0]
        if form == "R":
            self.meet(kind, *corners(kind, a, b))
            return OPERATIONS[kind](a, b)
        if form == "H" or form == "I" and kind in IMMS:
            b = imm % WORD
            self.meet(kind, *corners(kind, a, b))
            return OPERATIONS["sltu" if kind == "sltiu" else kind.removesuffix("i")](a, b)
        if form == "U":
            return (imm << 12) + (self.first + 4 * (self.pc - 1) if kind == "auipc" else 0)
        if kind in LOADS:
            return self.load(kind, a + imm - BUFFER)
        if kind in STORES:
            return self.store(kind, a + imm - BUFFER, b)
        if form == "A":
            return self.atomic(kind, (a - BUFFER) % WORD, b)
        return self.other(kind, a, b, imm)

    def load(self, kind, place):
        width, is_signed = LOADS[kind]
        value = int.from_bytes(self.buffer[place:place + width], "little", signed=is_signed)
        top = self.buffer[place + width - 1] >> 7
        self.meet(kind, f"at {place % 4}", "top bit" if top else "no top bit")
        return value

    def store(self, kind, place, value):
        width = STORES[kind]
        self.meet(kind, f"at {place % 4}")
        self.buffer[place:place + width] = (value % 256**width).to_bytes(width, "little")

    def atomic(self, kind, place, b):
        old = int.from_bytes(self.buffer[place:place + 4], "little")
        if kind == "lr.w":
            self.held = place
            return old
        if kind == "sc.w":
            is_held = self.held == place
            fails = "without LR" if self.held is None else "another word"
            self.held = None
            self.meet(kind, "stores" if is_held else fails)
            if is_held:
                self.buffer[place:place + 4] = b.to_bytes(4, "little")
            return 0 if is_held else 1
        self.meet(kind, *corners(kind, old, b))
        new = OPERATIONS[kind[3:-2]](old, b)
        self.buffer[place:place + 4] = (new % WORD).to_bytes(4, "little")
        return old

    def other(self, kind, a, b, imm):
        """A jump, a branch, a fence or a call."""
        here, after = self.pc - 1, self.first + 4 * self.pc
        if kind == "jal":
            self.pc = here + imm // 4
            return after
        if kind == "jalr":
            self.meet(kind, "odd" if imm % 2 else "even")
            self.pc = ((a + imm) // 2 * 2 - self.first) // 4
            return after
        if kind in CONDITIONS:
            is_taken = CONDITIONS[kind](a, b)
            self.meet(kind, "taken" if is_taken else "not taken", *corners(kind, a, b))
            if is_taken:
                self.pc = here + imm // 4
        if kind == "ecall":
            self.registers[10] = (-9 if self.registers[17] == 64 else -38) % WORD
        return None


def sign(value):
    return "0" if value == 0 else "-" if value >> 31 else "+"


def corners(kind, a, b):
    """The corner cases that two operands are."""
    name = kind.removeprefix("amo").removesuffix(".w")
    if name[:3] in ("sll", "srl", "sra"):
        yield f"by {b & 31 if b & 31 in (0, 1, 31) else '2 to 30'}"
        if b > 31 and not kind.endswith("i"):
            yield "by more than 31"
        yield f"of {sign(a)}"
        return
    yield f"{sign(a)} {sign(b)}"
    if a == b:
        yield "equal"
    if name in ("add", "addi", "sub"):
        exact = signed(a) + signed(b) if name != "sub" else signed(a) - signed(b)
        if exact != signed(exact % WORD):
            yield "overflows"
    if name in ("div", "rem", "divu", "remu"):
        if b == 0:
            yield "by 0"
        elif name in ("div", "rem") and a == 1 << 31 and b == WORD - 1:
            yield "overflows"


def awaited(kind):
    """The corner cases that a kind can have."""
    name, form = kind.removeprefix("amo").removesuffix(".w"), ROWS[kind][0]
    pairs = [f"{a} {b}" for a in "-0+" for b in "-0+"] + ["equal"]
    if kind in LOADS or kind in STORES:
        width = LOADS[kind][0] if kind in LOADS else STORES[kind]
        ends = ["top bit", "no top bit"] if kind in LOADS else []
        return [f"at {place}" for place in range(0, 4, width)] + ends
    if name[:3] in ("sll", "srl", "sra"):
        more = [] if kind.endswith("i") else ["by more than 31"]
        return [f"by {each}" for each in (0, 1, "2 to 30", 31)] + more + [f"of {s}" for s in "-0+"]
    if kind == "sc.w":
        return ["stores", "without LR", "another word"]
    if kind == "jalr":
        return ["odd", "even"]
    if kind in CONDITIONS:
        return ["taken", "not taken", *pairs]
    if form == "R" or kind in IMMS or kind in AMOS:
        more = {"add": ["overflows"], "addi": ["overflows"], "sub": ["overflows"],
                "div": ["by 0", "overflows"], "rem": ["by 0", "overflows"], "divu": ["by 0"],
                "remu": ["by 0"]}
        return pairs + more.get(name, [])
    return []
