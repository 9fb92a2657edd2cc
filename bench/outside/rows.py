"""The 59 instructions of RV32IMA: their words, and what they do to registers.

A kind is named as the manual names it. ROWS has its format and its fixed fields; word_of makes its
word. These rows are written from the manual by themselves, and no row of the crates is read."""

SIGN = 1 << 31
WORD = 1 << 32


def signed(value):
    return value - WORD if value & SIGN else value


def quotient(a, b):
    """A quotient, rounded towards 0."""
    return abs(a) // abs(b) * (1 if (a < 0) == (b < 0) else -1)


def div(a, b):
    return quotient(signed(a), signed(b)) if b else -1


def rem(a, b):
    return signed(a) - signed(b) * quotient(signed(a), signed(b)) if b else a


# An operation by its name: of two words, a whole number that the word is taken from.
OPERATIONS = {
    "add": lambda a, b: a + b, "sub": lambda a, b: a - b, "sll": lambda a, b: a << (b & 31),
    "slt": lambda a, b: signed(a) < signed(b), "sltu": lambda a, b: a < b,
    "xor": lambda a, b: a ^ b, "srl": lambda a, b: a >> (b & 31),
    "sra": lambda a, b: signed(a) >> (b & 31), "or": lambda a, b: a | b, "and": lambda a, b: a & b,
    "mul": lambda a, b: a * b, "mulh": lambda a, b: signed(a) * signed(b) >> 32,
    "mulhsu": lambda a, b: signed(a) * b >> 32, "mulhu": lambda a, b: a * b >> 32,
    "div": div, "divu": lambda a, b: a // b if b else -1, "rem": rem,
    "remu": lambda a, b: a % b if b else a, "swap": lambda a, b: b,
    "min": lambda a, b: min(a, b, key=signed), "max": lambda a, b: max(a, b, key=signed),
    "minu": min, "maxu": max,
}
CONDITIONS = {
    "beq": lambda a, b: a == b, "bne": lambda a, b: a != b,
    "blt": lambda a, b: signed(a) < signed(b), "bge": lambda a, b: signed(a) >= signed(b),
    "bltu": lambda a, b: a < b, "bgeu": lambda a, b: a >= b,
}
# A load by its width, and whether it extends the sign.
LOADS = {"lb": (1, True), "lh": (2, True), "lw": (4, False), "lbu": (1, False), "lhu": (2, False)}
STORES = {"sb": 1, "sh": 2, "sw": 4}

# A kind by its format and fixed fields: opcode, funct3, and funct7 or funct5.
ROWS = {"lui": ("U", 0x37, 0, 0), "auipc": ("U", 0x17, 0, 0), "jal": ("J", 0x6f, 0, 0),
        "jalr": ("I", 0x67, 0, 0), "fence": ("F", 0x0f, 0, 0), "ecall": ("E", 0x73, 0, 0),
        "ebreak": ("E", 0x73, 0, 1), "lr.w": ("A", 0x2f, 2, 2), "sc.w": ("A", 0x2f, 2, 3)}
ROWS |= {kind: ("B", 0x63, funct3, 0)
         for kind, funct3 in zip(("beq", "bne", "blt", "bge", "bltu", "bgeu"), (0, 1, 4, 5, 6, 7))}
ROWS |= {kind: ("I", 0x03, funct3, 0)
         for kind, funct3 in zip(("lb", "lh", "lw", "lbu", "lhu"), (0, 1, 2, 4, 5))}
ROWS |= {kind: ("S", 0x23, funct3, 0) for funct3, kind in enumerate(("sb", "sh", "sw"))}
ROWS |= {kind: ("I", 0x13, funct3, 0)
         for kind, funct3 in zip(("addi", "slti", "sltiu", "xori", "ori", "andi"),
                                 (0, 2, 3, 4, 6, 7))}
ROWS |= {"slli": ("H", 0x13, 1, 0), "srli": ("H", 0x13, 5, 0), "srai": ("H", 0x13, 5, 0x20)}
ROWS |= {kind: ("R", 0x33, funct3, 0)
         for funct3, kind in enumerate(("add", "sll", "slt", "sltu", "xor", "srl", "or", "and"))}
ROWS |= {"sub": ("R", 0x33, 0, 0x20), "sra": ("R", 0x33, 5, 0x20)}
ROWS |= {kind: ("R", 0x33, funct3, 1)
         for funct3, kind in enumerate(("mul", "mulh", "mulhsu", "mulhu", "div", "divu", "rem",
                                        "remu"))}
ROWS |= {f"amo{name}.w": ("A", 0x2f, 2, funct5)
         for name, funct5 in (("swap", 1), ("add", 0), ("xor", 4), ("and", 12), ("or", 8),
                              ("min", 16), ("max", 20), ("minu", 24), ("maxu", 28))}


def placed(value, *places):
    """Bits of a value, each run (first, count) put where it says."""
    return sum((value >> first & (1 << count) - 1) << place for first, count, place in places)


def word_of(kind, rd=0, rs1=0, rs2=0, imm=0):
    """The word of an instruction; of an atomic one imm has aq (2) and rl (1), of a fence all but
    its opcode and funct3, of a shift the amount, of lui and auipc the upper 20 bits."""
    form, opcode, funct3, more = ROWS[kind]
    word = opcode | funct3 << 12
    if form == "U":
        return word | rd << 7 | imm << 12
    if form == "J":
        return word | rd << 7 | placed(imm, (12, 8, 12), (11, 1, 20), (1, 10, 21), (20, 1, 31))
    if form == "B":
        return (word | rs1 << 15 | rs2 << 20
                | placed(imm, (11, 1, 7), (1, 4, 8), (5, 6, 25), (12, 1, 31)))
    if form == "S":
        return word | rs1 << 15 | rs2 << 20 | placed(imm, (0, 5, 7), (5, 7, 25))
    if form == "I":
        return word | rd << 7 | rs1 << 15 | (imm & 0xfff) << 20
    if form == "H":
        return word | rd << 7 | rs1 << 15 | imm << 20 | more << 25
    if form == "R":
        return word | rd << 7 | rs1 << 15 | rs2 << 20 | more << 25
    if form == "A":
        return word | rd << 7 | rs1 << 15 | rs2 << 20 | imm << 25 | more << 27
    return word | (more << 20 if form == "E" else rd << 7 | rs1 << 15 | imm << 20)
