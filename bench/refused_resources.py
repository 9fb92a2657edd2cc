#!/usr/bin/env python3
"""Takes the disk, the output and the threads from the built programs, and judges each answer.

    bench/refused_resources.py PROGRAM VIEWER

PROGRAM and VIEWER are the built shasta and shasta_view. The script must be root's, since it makes a
small tmpfs for the disk, and calls as another user, of whom `ulimit -u` holds.

A full disk: each command that writes a file does so on a disk with 0, 1, 2 .. pages left. Where the
file has no room the status is 3, with its line; else the answer is whole. A lost output: standard
output is a pipe that nobody reads, a pipe whose reader leaves behind 100 bytes of a long text, and
/dev/full. The status is 3, with its line, where there is a text to put, and else the answer is
whole; and where the errors' pipe is closed, too, the status is the same. Refused threads: `run` on
4 nodes as a user who may have 1, 2 .. processes, so that no thread can be started, or only some:
the answer is whole. A replay of each record that was written prints the text. No other file may
change. Each command has a line of counts; an answer that doesn't fit is told, and makes the
status 1."""
import collections, os, pathlib, resource, subprocess, sys, tempfile

sys.dont_write_bytecode = True
from refused_memory import HI, OLD, READS, TEXT, executable

VIEWS = ("code", "trace", "blocks", "page")
WRITES = ("run READS --nodes 4 --record OUT", "run HI --record OUT", "rewrite HI OUT",
          "gen 0 OUT", "asm TEXT OUT", "page READS RECORD OUT")
PRINTS = ("run READS --nodes 4 --record OUT", "one READS --nodes 2", "sim READS --nodes 2",
          "replay READS RECORD", "list HI", "code HI", "trace READS RECORD",
          "blocks READS RECORD", "rewrite HI OUT", "asm TEXT OUT", "page READS RECORD OUT")
LONG = ("list GEN", "code GEN")
PAGE = 4096
DISK = 256 * PAGE
USER = 54321
NO_OUTPUT = b"shasta: cannot write output\n"


class Tries:
    """The programs, in a folder of their own, and what fits of their answers."""

    def __init__(self, programs, folder):
        self.programs, self.folder, self.wrong = programs, folder, 0
        folder.chmod(0o777)
        self.files = {"READS": executable(READS, b"\7\0\0\0", 64), "TEXT": TEXT,
                      "HI": executable(HI, b"hi\n", 3)}
        self.counts = collections.Counter()
        self.call("run READS --nodes 2 --record RECORD")
        self.files["RECORD"] = (folder / "RECORD").read_bytes()
        self.call("gen 0 GEN")
        self.files["GEN"] = (folder / "GEN").read_bytes()

    def call(self, words, out=subprocess.PIPE, err=subprocess.PIPE, **more):
        """The answer of a call, in a folder that holds the files."""
        for name, data in self.files.items():
            (self.folder / name).write_bytes(data)
        program = self.programs[words.split()[0] in VIEWS]
        made = subprocess.run([program, *words.split()], cwd=self.folder, stdout=out, stderr=err,
                              timeout=60, **more)
        return made.returncode, made.stdout, made.stderr

    def judge(self, words, what, fits):
        """Counts an answer; one that doesn't fit is told."""
        if any((self.folder / name).read_bytes() != data for name, data in self.files.items()):
            fits, what = False, f"{what}, another file is changed"
        self.counts[what] += 1
        if not fits:
            self.wrong += 1
            print(f"{words}: {what}: doesn't fit", flush=True)

    def tell(self, words):
        told = "; ".join(f"{what}: {often}" for what, often in self.counts.items())
        print(f"{words}: {told}", flush=True)
        self.counts.clear()

    def is_whole(self, words, path, wanted, text):
        """Whether a file holds what the command writes."""
        if "--record" not in words:
            return path.read_bytes() == wanted
        return self.call(f"replay {words.split()[1]} {path}") == (0, text, b"")


def fill(disk, pages):
    """Leaves so many pages of the disk free."""
    (disk / "filler").write_bytes(b"")
    room = os.statvfs(disk)
    (disk / "filler").write_bytes(bytes(room.f_bavail * room.f_frsize - pages * PAGE))


def full_disk(tries, disk):
    """Each command that writes, with more and more pages left."""
    for words in WRITES:
        out, said = disk / "OUT", words.replace("OUT", str(disk / "OUT"))
        for path in disk.iterdir():
            path.unlink()
        whole = tries.call(said)
        wanted = out.read_bytes()
        need = -(-len(wanted) // PAGE)
        for old in (None, OLD):
            for pages in sorted({*range(min(need, 4) + 2), need // 2, need - 1, need}):
                out.unlink(missing_ok=True)
                fill(disk, pages + 1)
                if old:
                    out.write_bytes(old)
                fill(disk, pages)
                answer = tries.call(said)
                if pages + bool(old) >= need and answer == whole:
                    tries.judge(words, "whole", tries.is_whole(words, out, wanted, whole[1]))
                else:
                    line = f"shasta: cannot write {out}\n".encode()
                    fits = answer[0] == 3 and answer[2] == line and whole[1].startswith(answer[1])
                    tries.judge(words, "disk full, 3", fits and pages < need)
        tries.tell(words)


def closed_pipe():
    """The end of a pipe that nobody reads."""
    reader, writer = os.pipe()
    os.close(reader)
    return writer


def lost_output(tries):
    """Each command, with an output that takes nothing."""
    for words in PRINTS:
        whole = tries.call(words)
        status = 3 if whole[1] else whole[0]
        for name in ("pipe", "/dev/full"):
            out = closed_pipe() if name == "pipe" else os.open(name, os.O_WRONLY)
            answer = tries.call(words, out=out)
            line = NO_OUTPUT if whole[1] else b""
            tries.judge(words, f"{name}, {answer[0]}", (answer[0], answer[2]) == (status, line))
            errors = closed_pipe()
            answer = tries.call(words, out=out, err=errors)
            tries.judge(words, f"{name} and no errors, {answer[0]}", answer[0] == status)
            os.close(errors)
            os.close(out)
        tries.tell(words)


def left_reader(tries):
    """A long text, whose reader leaves."""
    for words in LONG:
        program = tries.programs[words.split()[0] in VIEWS]
        made = subprocess.Popen([program, *words.split()], cwd=tries.folder,
                                stdout=subprocess.PIPE, stderr=subprocess.PIPE)
        made.stdout.read(100)
        made.stdout.close()
        line = made.stderr.read()
        made.stderr.close()
        status = made.wait()
        tries.judge(words, f"reader left, {status}", (status, line) == (3, NO_OUTPUT))
        tries.tell(words)


def refused_threads(tries):
    """A run whose user may have few processes."""
    words = "run READS --nodes 4 --record OUT"
    out = tries.folder / "OUT"
    whole = tries.call(words)
    for count in range(1, 7):
        limit = lambda: resource.setrlimit(resource.RLIMIT_NPROC, (count, count))
        out.unlink(missing_ok=True)
        answer = tries.call(words, user=USER, preexec_fn=limit)
        fits = answer == whole and tries.is_whole(words, out, b"", whole[1])
        tries.judge(words, f"{count} processes, {answer[0]}", fits)
    tries.tell(words)


def main():
    programs = [pathlib.Path(name).resolve() for name in sys.argv[1:3]]
    with tempfile.TemporaryDirectory() as folder:
        pathlib.Path(folder).chmod(0o755)
        work, disk = pathlib.Path(folder) / "files", pathlib.Path(folder) / "disk"
        work.mkdir()
        disk.mkdir()
        tries = Tries(programs, work)
        subprocess.run(["mount", "-t", "tmpfs", "-o", f"size={DISK}", "none", disk], check=True)
        try:
            full_disk(tries, disk)
        finally:
            subprocess.run(["umount", disk], check=True)
        lost_output(tries)
        left_reader(tries)
        refused_threads(tries)
    return 1 if tries.wrong else 0


sys.exit(main())
