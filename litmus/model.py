"""Reads a litmus test, and finds its outcomes by trying every interleaving of its accesses.

A test is an assembly text with a part for each processor, `p0:` to `p3:`, and one that is run
behind them, `final:`. Its comment lines name the outcome (`# outcome: p0.x8 end.x9`, the registers
of processors and of `final` that make it), the one that is asked for (`# asks: 0 0`), and whether
the models x86-TSO and RVWMO allow that one. All else is read from the instructions."""
import re

LINE = 64
# What the frame hands to a part: three variables on lines of their own, and two cleared registers.
START = {0: 0, 5: 0x10000, 6: 0x11040, 7: 0x12080, 8: 0, 9: 0}
WIDTHS = {"b": 1, "h": 2, "w": 4}
LOADS = {"lb": (1, True), "lh": (2, True), "lw": (4, False), "lbu": (1, False), "lhu": (2, False)}
STORES = {"sb": 1, "sh": 2, "sw": 4}
WORDS = {"add": lambda a, b: a + b, "sub": lambda a, b: a - b, "and": lambda a, b: a & b,
         "or": lambda a, b: a | b, "xor": lambda a, b: a ^ b, "sll": lambda a, b: a << (b & 31),
         "srl": lambda a, b: a >> (b & 31), "swap": lambda a, b: b}


class Unsaid(Exception):
    """An access of which a model says nothing."""


class Test:
    """A litmus test: its text, its parts, and what its comments name."""

    def __init__(self, path):
        self.name, self.text = path.stem, path.read_text()
        self.title = re.match(r"# (.*?)\.(?: |$)", self.text).group(1)
        self.outcome = tuple(self.comment("outcome").split())
        self.asked = tuple(int(value) for value in self.comment("asks").split())
        self.parts = parts_of(self.text)
        self.count = max(number for number in range(4) if self.parts[f"p{number}"]) + 1
        if len(self.outcome) != len(self.asked):
            raise ValueError(f"{self.name}: asks for another outcome than it names")

    def comment(self, name):
        return re.search(rf"^# {name}: (.*)$", self.text, re.M).group(1)

    def uses(self, start):
        """Whether an instruction begins so."""
        return re.search(rf"^{re.escape(start)}", self.text, re.M) is not None

    def told(self, digits):
        """The outcome in a row of the frame: two digits of each processor, and two of `final`."""
        places = {}
        for number in range(len(digits) // 2):
            owner = "end" if number == len(digits) // 2 - 1 else f"p{number}"
            places |= {f"{owner}.x8": digits[2 * number], f"{owner}.x9": digits[2 * number + 1]}
        return tuple(places[name] for name in self.outcome)


def parts_of(text):
    """The instructions of each part, up to its return: a name and the words behind it."""
    parts, lines = {}, [line.strip() for line in text.splitlines()]
    for label in ("p0", "p1", "p2", "p3", "final"):
        part = []
        for line in lines[lines.index(f"{label}:") + 1:]:
            if line == "jalr x0, 0(x1)":
                break
            if line and line[0] != "#" and not line.endswith(":"):
                name, _, operands = line.partition(" ")
                part.append((name, re.findall(r"-?\w+", operands)))
        parts[label] = tuple(part)
    return parts


def number_of(word, registers):
    """The value of a register, or a number as it stands."""
    return registers[int(word[1:])] if word[0] == "x" else int(word, 0) % 2**32


def is_access(instruction):
    name = instruction[0]
    return name in LOADS or name in STORES or name[:3] in ("lr.", "sc.", "amo") or name == "fence"


def put(registers, word, value):
    """The registers with one changed."""
    return {**registers, int(word[1:]): value % 2**32} if word != "x0" else registers


def computed(registers, instruction):
    """The registers behind an instruction that accesses no memory."""
    name, (rd, first, second) = instruction
    work = WORDS[name if name in WORDS else name.removesuffix("i")]
    return put(registers, rd, work(number_of(first, registers), number_of(second, registers)))


def read(memory, address, width):
    return sum(memory.get(address + k, 0) << 8 * k for k in range(width))


def written(memory, address, width, value):
    return {**memory, **{address + k: value >> 8 * k & 255 for k in range(width)}}


class State:
    """Where the processors are, with their registers, buffers and reservations, and the memory."""

    def __init__(self, parts, memory):
        self.parts, self.memory = parts, memory
        self.places = [0] * len(parts)
        self.registers = [dict(START) for _ in parts]
        self.reserved, self.buffers = [None] * len(parts), [()] * len(parts)
        for p in range(len(parts)):
            self.compute(p)

    def copy(self):
        other = object.__new__(State)
        other.parts, other.memory = self.parts, self.memory
        other.places, other.registers = list(self.places), list(self.registers)
        other.reserved, other.buffers = list(self.reserved), list(self.buffers)
        return other

    def key(self):
        return (tuple(self.places), tuple(tuple(sorted(each.items())) for each in self.registers),
                tuple(self.reserved), tuple(self.buffers), tuple(sorted(self.memory.items())))

    def compute(self, p):
        """Takes a processor to its next access, or to its end."""
        part = self.parts[p]
        while self.places[p] < len(part) and not is_access(part[self.places[p]]):
            self.registers[p] = computed(self.registers[p], part[self.places[p]])
            self.places[p] += 1

    def store(self, p, address, width, value):
        """Stores in the memory; other processors' reservations of the line end."""
        self.memory = written(self.memory, address, width, value)
        for q, held in enumerate(self.reserved):
            if q != p and held is not None and held // LINE == address // LINE:
                self.reserved[q] = None

    def load(self, p, address, width):
        """What a load sees: the newest store of its own buffer to its place, or the memory."""
        for place, size, value in reversed(self.buffers[p]):
            if (place, size) == (address, width):
                return value
            if place < address + width and address < place + size:
                raise Unsaid
        return read(self.memory, address, width)

    def access(self, p, buffered, fails):
        """Makes the next access of a processor, and goes on to the one behind it."""
        name, words = self.parts[p][self.places[p]]
        registers = self.registers[p]
        if name in LOADS:
            width, is_signed = LOADS[name]
            value = self.load(p, number_of(words[2], registers) + int(words[1]), width)
            low = value - 256**width if is_signed and value >> (8 * width - 1) else value
            self.registers[p] = put(registers, words[0], low)
        elif name in STORES:
            width = STORES[name]
            address = number_of(words[2], registers) + int(words[1])
            value = registers[int(words[0][1:])] % 256**width
            if buffered:
                self.buffers[p] += ((address, width, value),)
            else:
                self.store(p, address, width, value)
        elif name != "fence":
            self.atomic(p, name.split("."), words, fails)
        self.places[p] += 1
        self.compute(p)

    def atomic(self, p, name, words, fails):
        """An LR, an SC or an AMO."""
        registers = self.registers[p]
        address = number_of(words[-1], registers)
        if name[0] == "lr":
            self.reserved[p] = address
            self.registers[p] = put(registers, words[0], read(self.memory, address, 4))
        elif name[0] == "sc":
            stores = self.reserved[p] == address and not fails
            self.reserved[p] = None
            if stores:
                self.store(p, address, 4, number_of(words[1], registers))
            self.registers[p] = put(registers, words[0], 0 if stores else 1)
        else:
            old = read(self.memory, address, 4)
            new = WORDS[name[0].removeprefix("amo")](old, number_of(words[1], registers))
            self.store(p, address, 4, new % 2**32)
            self.registers[p] = put(registers, words[0], old)


def next_states(state, buffered, failing):
    """The states one event further: an access, or the oldest store of a buffer."""
    for p, part in enumerate(state.parts):
        if state.buffers[p]:
            after = state.copy()
            address, width, value = after.buffers[p][0]
            after.buffers[p] = after.buffers[p][1:]
            after.store(p, address, width, value)
            yield after
        if state.places[p] == len(part):
            continue
        name = part[state.places[p]][0]
        if state.buffers[p] and name not in LOADS and name not in STORES:
            continue
        for fails in (False, True) if failing and name.startswith("sc.") else (False,):
            after = state.copy()
            after.access(p, buffered, fails)
            yield after


def outcomes(test, buffered=False, failing=False):
    """Every outcome of a test: on one memory, or with a buffer of stores before it (x86-TSO); where
    it is asked for, also those in which an SC fails without a reason."""
    parts = [test.parts[f"p{number}"] for number in range(test.count)]
    found, seen, left = set(), set(), [State(parts, {})]
    while left:
        state = left.pop()
        if state.key() in seen:
            continue
        seen.add(state.key())
        after = list(next_states(state, buffered, failing))
        left += after
        if not after:
            found.add(outcome_of(test, state))
    return found


def outcome_of(test, state):
    """The outcome at the end of all parts: the registers, and those that `final` has then."""
    last = State([test.parts["final"]], state.memory)
    while last.places[0] < len(last.parts[0]):
        last.access(0, False, False)
    owners = {f"p{number}": registers for number, registers in enumerate(state.registers)}
    owners["end"] = last.registers[0]
    names = (name.split(".x") for name in test.outcome)
    return tuple(owners[owner][int(register)] for owner, register in names)
