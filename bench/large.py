#!/usr/bin/env python3
"""Lists, rewrites and verifies large executables, and says the time and the memory of each.

    bench/large.py PROGRAM      PROGRAM is the shasta that was built

Each executable has one segment of code: additions alone, which are a word each, for 16 MiB, and for
a rewritten file that is as long as one that is read may be; loads of words, which are eleven each,
and runs of stores, for about as many rewritten words as there may be; and jumps that go so far that
no JAL of rewritten code reaches. The rewritten file is verified where it isn't too long to be read:
`run` takes it, and executes one word. The times are the processor's, the memory is the most that
was resident."""
import os, pathlib, struct, subprocess, sys, tempfile

MOST_WORDS = 4_194_303
MOST_BYTES = 33_554_432  # of a file that is read
EXIT = [0x05D00893, 0x00000073]  # addi x17, x0, 93; ecall
ADD = 0x00128293  # addi x5, x5, 1
LOAD = 0x0002A283  # lw x5, 0(x5)
STORE = 0x00532023  # sw x5, 0(x6)


def jump(distance):
    """jal x0, distance."""
    low = distance & 0x1FFFFF
    return (low >> 20 << 31) | (low >> 1 & 0x3FF) << 21 | (low >> 11 & 1) << 20 | (low >> 12 & 0xFF) << 12 | 0x6F


def executable(code):
    """One segment, readable and executable, at 0x10000."""
    size = 4 * len(code)
    header = b"\x7fELF\x01\x01\x01" + bytes(9)
    header += struct.pack("<HHIIIIIHHHHHH", 2, 243, 1, 0x10000, 52, 0, 0, 52, 32, 1, 40, 0, 0)
    header += struct.pack("<IIIIIIII", 1, 4096, 0x10000, 0x10000, size, size, 5, 4096)
    return header + bytes(4096 - len(header)) + struct.pack(f"<{len(code)}I", *code)


def cases():
    yield "additions", [ADD] * (MOST_WORDS - 16) + EXIT
    yield "fewer", [ADD] * (MOST_BYTES // 24 - 600) + EXIT
    yield "loads", [LOAD] * (MOST_WORDS // 11 - 4) + EXIT
    yield "runs of stores", [STORE] * (MOST_WORDS // 13) + EXIT
    many = 100_000
    leaps = [jump(4 * many)] * many + [LOAD] * many + EXIT
    yield "jumps", leaps


def measured(words):
    """The status of a call, the seconds of the processor, and the most MiB that were resident."""
    child = subprocess.Popen(words, stdout=subprocess.DEVNULL)
    _, status, usage = os.wait4(child.pid, 0)
    child.returncode = os.waitstatus_to_exitcode(status)
    return child.returncode, usage.ru_utime + usage.ru_stime, usage.ru_maxrss / 1024


def row(program, folder, name, code):
    """The row of an executable in the table."""
    file, out = folder / "in.elf", folder / "out.elf"
    file.write_bytes(executable(code))
    listed = measured([program, "list", file])
    written = measured([program, "rewrite", file, out])
    if (listed[0], written[0]) != (0, 0):
        sys.exit(f"{name}: status {listed[0]}, {written[0]}")
    row = [name, f"{4 * len(code) / 2**20:.1f} MiB", f"{listed[1]:.2f} s"]
    row += [f"{written[1]:.2f} s", f"{written[2]:.0f}"]
    if out.stat().st_size > MOST_BYTES:
        return row + ["", ""]
    verified = measured([program, "run", file, "--verify", out, "--budget", "1"])
    if verified[0] != 1:
        sys.exit(f"{name}: verified with status {verified[0]}")
    return row + [f"{verified[1]:.2f} s", f"{verified[2]:.0f}"]


def main():
    print("| Executable | code | `list` | `rewrite` | MiB | `--verify` | MiB |")
    print("|---|---|---|---|---|---|---|")
    with tempfile.TemporaryDirectory() as folder:
        for name, code in cases():
            print("|", " | ".join(row(sys.argv[1], pathlib.Path(folder), name, code)), "|")


main()
