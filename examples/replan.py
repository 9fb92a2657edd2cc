#!/usr/bin/env python3
"""Makes other files of a rewritten one, for `--verify`: one by a better plan, and four broken ones.

    examples/replan.py REWRITTEN FOLDER

`better` is without each batch that executes no fewer words than the checks that it stands for. The
others are like it but for one thing: `unpolled` has a jump that takes no messages, `unmapped` the
map of the old plan, `unchecked` a store that doesn't wait for its line, and `late` begins at the
second place. REWRITTEN is a file that `rewrite` wrote, with less than 1 MiB of code, so that each
jump in it is a JAL."""
from bisect import bisect_left
import pathlib, struct, sys

BASE = 0xA0000000  # where the rewritten code stands
PLAIN, VALUE_LOAD, STATE_LOAD, STORE = 0, 10, 11, 12  # the templates of a run's places
EXECUTED = {PLAIN: 1, VALUE_LOAD: 5, STATE_LOAD: 8, STORE: 7}  # words of the single sequence
POLLS = SPILLED = 0x80
NOTHING = 0x00000013  # addi x0, x0, 0


class Rewritten:
    """What a rewritten file holds; of each place eight bytes of the plan, and the two addresses,
    in the original and in the rewritten code, that are its part of the map."""

    def __init__(self, data):
        self.header = 20 + 32 * struct.unpack_from("<H", data, 44)[0]  # the last segment's
        code, _, _, size = struct.unpack_from("<4I", data, self.header + 4)
        table = struct.unpack_from("<I", data, 32)[0]
        self.sections = [list(struct.unpack_from("<10I", data, table + 40 * k)) for k in range(4)]
        plan, places, self.names = [data[s[4]:s[4] + s[5]] for s in self.sections[1:]]
        self.front = bytearray(data[:code])
        self.code = [word for word, in struct.iter_unpack("<I", data[code:code + size])]
        self.plan = [bytearray(entry) for entry, in struct.iter_unpack("8s", plan)]
        self.places = list(struct.iter_unpack("<2I", places))

    def data(self):
        """The bytes of the file."""
        code = struct.pack(f"<{len(self.code)}I", *self.code)
        places = b"".join(struct.pack("<2I", *place) for place in self.places)
        struct.pack_into("<2I", self.front, self.header + 16, len(code), len(code))
        out = self.front + code
        for section, part in zip(self.sections[1:], [b"".join(self.plan), places, self.names]):
            section[4:6] = len(out), len(part)
            out += part
        struct.pack_into("<I", out, 32, len(out))
        return out + b"".join(struct.pack("<10I", *section) for section in self.sections)

    def entry(self):
        return struct.unpack_from("<I", self.front, 24)[0]

    def begin(self, address):
        """Makes a rewritten address the entry."""
        struct.pack_into("<I", self.front, 24, address)

    def runs(self):
        """The numbers of the places at which a run starts."""
        return [k for k, entry in enumerate(self.plan) if entry[4]]

    def batch(self, k):
        """How many words the batch of a run has, how many of them are executed where its lines are
        there, and how many the single sequences of its places execute then."""
        run = self.plan[k:k + self.plan[k][4]]
        spilled, loads = spills(self.plan[k][5:]), all(entry[0] != STORE for entry in run)
        single = sum(EXECUTED[entry[0]] + 2 * spills(entry[1:4]) for entry in run)
        return 16 + loads + len(run) + 3 * spilled, 12 + loads + len(run) + 2 * spilled, single

    def leave_out(self, runs):
        """Leaves runs out. The batch of each stands before the single sequence of its first place:
        what led to the batch then leads there."""
        stay = set(range(len(self.code)))
        for k in runs:
            single = number_of(self.places[k][1])
            stay -= set(range(single - self.batch(k)[0], single))
            self.plan[k][4:] = bytes(4)
        stay = sorted(stay)
        now = lambda address: BASE + 4 * bisect_left(stay, number_of(address))
        self.code = [moved(self.code[number], BASE + 4 * number, now) for number in stay]
        self.places = [(old, now(new)) for old, new in self.places]
        self.begin(now(self.entry()))


def spills(scratch_registers):
    return sum(register >= SPILLED for register in scratch_registers)


def number_of(address):
    return (address - BASE) // 4


def moved(word, address, now):
    """A word of an address where it now stands: a `jal x0` leads to where its target now stands."""
    high, low = word >> 20, word & 0xFFF
    distance = (high & 0x7FE) + (high & 1) * 0x800 + (word & 0xFF000) - (word >> 31) * 0x100000
    if low != 0x6F or distance % 4:
        return word
    distance = now(address + distance) - now(address)
    high = (distance & 0x7FE) + (distance >> 11 & 1) + (distance >> 20 & 1) * 0x800
    return high << 20 | distance & 0xFF000 | low


def broken(better, old):
    """The broken files, each with its name."""
    file = Rewritten(better)
    next(entry for entry in file.plan if entry[0] & POLLS)[0] ^= POLLS
    yield "unpolled", file
    file = Rewritten(better)
    file.places = Rewritten(old).places
    yield "unmapped", file
    file = Rewritten(better)
    waits = [k for k, word in enumerate(file.code) if word & 0x707F == 0x100B]  # miss.w
    file.code[waits[0]] = NOTHING
    yield "unchecked", file
    file = Rewritten(better)
    file.begin(file.places[1][1])
    yield "late", file


def main():
    old, folder = pathlib.Path(sys.argv[1]).read_bytes(), pathlib.Path(sys.argv[2])
    file = Rewritten(old)
    runs, words = file.runs(), len(file.code)
    idle = [k for k in runs if file.batch(k)[1] >= file.batch(k)[2]]
    file.leave_out(idle)
    print(f"{len(idle)} of {len(runs)} batches left out: {words} words are {len(file.code)} now")
    better = file.data()
    folder.mkdir(exist_ok=True)
    (folder / "better").write_bytes(better)
    for name, file in broken(better, old):
        (folder / name).write_bytes(file.data())


if __name__ == "__main__":
    main()
