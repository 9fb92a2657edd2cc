#!/usr/bin/env python3
"""Refuses the built program each of its allocations in turn, and judges each answer.

    bench/refused_memory.py PROGRAM [VIEWER]

Each command is called once for each number, where the allocation of that number is refused
(refuse.c, which stands in for malloc and realloc), until none is refused any more. An answer is
whole where the status and the text are those of the call without a refusal, with no line of errors,
and the file that the command writes is whole; or else the status is 5 with its line, what was
printed is the beginning of the text, and that file holds what it held or is whole. Every other file
is as before. A record is whole where a replay of it prints the text. Each command has a line of
counts; an answer that doesn't fit is told, and makes the status 1. Then each command must answer
the same where no thread can be started. VIEWER is the built shasta_view, whose `page` is tried
likewise. It needs cc."""
import collections, os, pathlib, struct, subprocess, sys, tempfile

here = pathlib.Path(__file__).resolve().parent
OLD = b"what was there before"
LINE = b"shasta: out of memory\n"
SECONDS = 60

# Processor 1 reads a word that processor 0 has; and a program that writes its three bytes of data.
READS = "000202b7 00050463 0002a303 00000513 05d00893 00000073"
HI = "000205b7 00100513 00300613 04000893 00000073 00000513 05d00893 00000073"

TEXT = b""".segment rx 0x10000
addi x10, x0, 0
addi x17, x0, 93
last:
ecall
jal x0, last
"""

# A command, and the file that it writes; `page` is the viewer's.
COMMANDS = (("run READS --nodes 2 --record OUT", "OUT"), ("rewrite HI OUT", "OUT"),
            ("run READS --nodes 5 --record OUT", "OUT"), ("run HI --code CODE", None),
            ("run HI --record OUT", "OUT"),
            ("sim READS --nodes 2 --layout LAYOUT", None), ("replay READS RECORD", None),
            ("one READS --nodes 2", None), ("list HI", None), ("gen 0 OUT", "OUT"),
            ("run READS --nodes 4 --record OUT", "OUT"), ("asm TEXT OUT", "OUT"),
            ("page READS RECORD OUT", "OUT"))


def executable(words, data, size):
    """The file of code and data."""
    code = b"".join(struct.pack("<I", int(word, 16)) for word in words.split())
    head = b"\x7fELF\1\1\1" + bytes(9)
    head += struct.pack("<HHIIIIIHHHHHH", 2, 243, 1, 0x10000, 52, 0, 0, 52, 32, 2, 0, 0, 0)
    for offset, address, in_file, in_memory, flags in ((4096, 0x10000, len(code), len(code), 5),
                                                       (8192, 0x20000, len(data), size, 6)):
        head += struct.pack("<8I", 1, offset, address, address, in_file, in_memory, flags, 4096)
    return (head.ljust(4096, b"\0") + code).ljust(8192, b"\0") + data


class Tries:
    """The program and the viewer, in a folder of their own."""

    def __init__(self, program, viewer, folder):
        self.program, self.viewer = program, viewer
        self.folder, self.library = folder / "files", folder / "refuse.so"
        self.told = folder / "told"
        self.folder.mkdir()
        subprocess.run(["cc", "-shared", "-fPIC", "-o", self.library, here / "refuse.c", "-ldl"],
                       check=True)
        self.files = {"READS": executable(READS, b"\7\0\0\0", 64), "HI": executable(HI, b"hi\n", 3),
                      "LAYOUT": b"0x20000 0x40 64 0\n", "TEXT": TEXT, "OUT": OLD}
        self.files["CODE"] = self.call("rewrite HI OUT", 0)[1]["OUT"]
        self.files["RECORD"] = self.call("run READS --nodes 2 --record OUT", 0)[1]["OUT"]

    def call(self, words, number, **more):
        """The answer, and the files behind it, where the allocation of a number is refused."""
        for path in self.folder.iterdir():
            path.unlink()
        for name, data in self.files.items():
            (self.folder / name).write_bytes(data)
        self.told.unlink(missing_ok=True)
        environment = {**os.environ, "REFUSE": str(number), "REFUSED": str(self.told),
                       "LD_PRELOAD": str(self.library), **more}
        program = self.viewer if words.startswith("page") else self.program
        made = subprocess.run([program, *words.split()], cwd=self.folder, env=environment,
                              capture_output=True, timeout=SECONDS)
        held = {path.name: path.read_bytes() for path in self.folder.iterdir()}
        return (made.returncode, made.stdout, made.stderr), held

    def is_whole(self, written, wanted, words, text):
        """Whether a file holds what the command writes."""
        if "--record" not in words:
            return written == wanted
        files, self.files = self.files, {**self.files, "OUT": written}
        again, _ = self.call(f"replay {words.split()[1]} OUT", 0)
        self.files = files
        return again == (0, text, b"")

    def judge(self, words, name, number, whole, wanted):
        """Whether an allocation was refused, and what the answer was, or why it is wrong."""
        try:
            (status, out, err), held = self.call(words, number)
        except subprocess.TimeoutExpired:
            return True, f"wrong: no answer within {SECONDS} seconds"
        refused = self.told.exists()
        written = held.pop(name, None) if name else None
        others = {file: data for file, data in self.files.items() if file != name}
        if held != others:
            return refused, "wrong: another file is changed"
        kept = name is None or written == OLD
        done = name is None or not kept and self.is_whole(written, wanted, words, whole[1])
        if (status, out, err) == whole:
            return refused, "whole" if done else f"wrong: the file is {written[:60]}"
        if status != 5 or err != LINE or not whole[1].startswith(out):
            return refused, f"wrong: {status} {out[:60]} {err[:60]}"
        if not kept and not done:
            return refused, f"wrong: the file is {written[:60]}"
        return refused, "5" + (", some text" if out else "") + ("" if kept else ", file whole")


def main():
    program, viewer, *_ = [pathlib.Path(name).resolve() for name in sys.argv[1:]] + [None]
    wrong = 0
    with tempfile.TemporaryDirectory() as folder:
        tries = Tries(program, viewer, pathlib.Path(folder))
        for words, name in COMMANDS:
            if words.startswith("page") and viewer is None:
                continue
            whole, held = tries.call(words, 0)
            if whole[0] not in (0, 1) or whole[2]:
                sys.exit(f"{words}: {whole}")
            answers, number, free = collections.Counter(), 0, 0
            # How many allocations a run in threads makes varies a little.
            while free < (20 if "--nodes" in words else 1):
                number += 1
                refused, answer = tries.judge(words, name, number, whole, held.get(name))
                free = 0 if refused else free + 1
                answers[answer] += refused
                if answer.startswith("wrong"):
                    wrong += 1
                    print(f"{words}, allocation {number}: {answer}", flush=True)
            told = "; ".join(f"{answer}: {often}" for answer, often in answers.items() if often)
            print(f"{words}: {number - free} allocations, {told}", flush=True)
            if tries.call(words, 0, THREADS="0")[0] != whole:
                wrong += 1
                print(f"{words}: answers otherwise without threads", flush=True)
    return 1 if wrong else 0


if __name__ == "__main__":
    sys.exit(main())
