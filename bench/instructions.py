#!/usr/bin/env python3
"""Counts the instructions of the machine that builds of shasta execute for a word of rewritten code
and for an instruction of the original, and guards what they were.

    bench/instructions.py [PROGRAM VIEWER [FOLDER]]     prints a table
    bench/instructions.py --check [PROGRAM VIEWER]      compares it with that of bench/README.md

PROGRAM and VIEWER are crates/shasta/out/shasta and crates/shasta_view/out/shasta_view where they
aren't named. Of bench/'s loops, and of the C programs in FOLDER (bench/programs/), a row has the
numbers of `run` on one node, for a word and for an instruction, and that of `one` for an
instruction: of the words from the 300,000th to the 1,300,000th, by callgrind (Debian's
`valgrind`). They don't vary, whatever else the machine does. How many words stand for an
instruction the viewer counts over the whole run; a loop of bench/ doesn't end, so it has no such
number.

README has a table for each kit. The check fails where a number is more than 3 % above that of
the table of this kit, and says where one is more than 3 % below. Of a program that ends it
compares instructions, since fewer words may take more each. Where there is no such table it
prints the one to put there."""
import pathlib, re, shutil, subprocess, sys

bench = pathlib.Path(__file__).resolve().parent
LOOPS = ("count", "loop", "call", "readonly")
PROGRAMS = ("sort", "matrix", "pack", "strings", "crc", "structs")
FIRST, WORDS = 300_000, 1_000_000
HEAD = ("| Program | `run`: a word | `run`: an instruction | `one`: an instruction |",
        "|---|---|---|---|")
COLUMNS = ("a word of `run`", "an instruction of `run`", "an instruction of `one`")
LIMIT = 0.03


def executed(program, command, file, budget):
    """The instructions of the machine that a run with a budget executes."""
    words = ["valgrind", "--tool=callgrind", "--callgrind-out-file=/dev/null", program, command,
             file, "--budget", str(budget)]
    made = subprocess.run(words, capture_output=True, text=True, timeout=3600)
    return int(re.search(r"Collected : (\d+)", made.stderr)[1])


def for_one(program, command, file):
    """What one of the words or instructions that the command executes takes."""
    whole = executed(program, command, file, FIRST + WORDS)
    return (whole - executed(program, command, file, FIRST)) / WORDS


def words_for_one(viewer, file):
    """The words that stand for an original instruction, over the whole run on one node."""
    told = subprocess.run([viewer, "time", file, "--budget", str(2**32)], capture_output=True,
                          text=True, check=True, timeout=3600).stdout
    words = int(re.search(r"^node 0 time \d+ words (\d+) ", told, flags=re.M)[1])
    return words / int(re.search(r"^steps (\d+)$", told, flags=re.M)[1])


def measured(program, viewer, folder):
    """Each program's name and numbers; None where it has none."""
    loops = [bench / f"{name}.elf" for name in LOOPS]
    for file in loops + [folder / f"{name}.elf" for name in PROGRAMS]:
        word = for_one(program, "run", file)
        instruction = None if file in loops else word * words_for_one(viewer, file)
        yield file.stem, (word, instruction, for_one(program, "one", file))


def row_of(name, numbers):
    cells = ["" if it is None else f"{it:.2f}" for it in numbers]
    return f"| `{name}` | {' | '.join(cells)} |"


def kit():
    """The kit's name, or None where there is none."""
    if shutil.which("rt") is None:
        return None
    return subprocess.run(["rt", "--version"], capture_output=True, text=True).stdout.strip()


def table_of(kit_name):
    """The numbers that README has for a kit, by name; None where it has no table."""
    text = (bench / "README.md").read_text()
    _, found, after = text.partition(f"By `{kit_name}`:\n\n{HEAD[0]}\n{HEAD[1]}\n")
    if not found:
        return None
    rows = {}
    for line in after.partition("\n\n")[0].split("\n"):
        name, *cells = (cell.strip() for cell in line.strip("|").split("|"))
        rows[name.strip("`")] = [float(cell) if cell else None for cell in cells]
    return rows


def compared(rows, table):
    """What is above the table, and what is below it, as lines."""
    above, below = [], []
    for name, numbers in rows.items():
        for now, kept, column in zip(numbers, table.get(name, ()), COLUMNS):
            if now is None or kept is None or (column == COLUMNS[0] and numbers[1] is not None):
                continue
            line = f"{name}: {column} takes {now:.2f} of the machine's, {kept:.2f} before"
            if now > kept * (1 + LIMIT):
                above.append(line)
            elif now < kept * (1 - LIMIT):
                below.append(line)
    return above, below


def check(program, viewer):
    if shutil.which("valgrind") is None:
        print("instructions: valgrind isn't here, so no speed was compared; "
              "apt-get install -y valgrind")
        return 0
    name = kit()
    rows = dict(measured(program, viewer, bench / "programs"))
    table = table_of(name)
    if table is None:
        print(f"instructions: bench/README.md has no table by {name}; this is it:")
        print("\n".join([*HEAD, *(row_of(*row) for row in rows.items())]))
        return 0
    above, below = compared(rows, table)
    missing = sorted(set(rows) - set(table))
    for line in above + [f"{it}: bench/README.md has no row of it" for it in missing]:
        print(f"instructions: {line}")
    for line in below:
        print(f"instructions: less than the table says, which may be lowered: {line}")
    if above or missing:
        return 1
    print(f"instructions: `run` and `one` of {len(rows)} programs, none more than {LIMIT:.0%} "
          f"above the table by {name}")
    return 0


def main():
    words = [word for word in sys.argv[1:] if word != "--check"]
    crates = bench.parent / "crates"
    built = [crates / "shasta" / "out" / "shasta", crates / "shasta_view" / "out" / "shasta_view"]
    program, viewer = words[:2] if words else built
    if "--check" in sys.argv:
        return check(program, viewer)
    folder = pathlib.Path(words[2]) if len(words) > 2 else bench / "programs"
    print("\n".join(HEAD))
    for row in measured(program, viewer, folder):
        print(row_of(*row), flush=True)
    return 0


if __name__ == "__main__":
    sys.exit(main())
