#!/usr/bin/env python3
"""Builds each .s file of this folder to an executable of two segments: code at 0x10000, 4,096 bytes
of zeros at 0x20000. It needs llvm-mc and llvm-objcopy (or objcopy of riscv64-unknown-elf)."""
import pathlib, shutil, struct, subprocess

def code_of(source, folder):
    object_file = folder / "code.o"
    raw = folder / "code.bin"
    subprocess.run(["llvm-mc", "-triple=riscv32", "-mattr=-relax", "-filetype=obj", "-o",
                    str(object_file), str(source)], check=True)
    copy = next(tool for tool in ("llvm-objcopy", "riscv64-unknown-elf-objcopy") if shutil.which(tool))
    subprocess.run([copy, "-O", "binary", "-j", ".text", str(object_file), str(raw)], check=True)
    code = raw.read_bytes()
    object_file.unlink()
    raw.unlink()
    return code

def executable(code, data_size):
    def header(offset, address, file_size, size, flags):
        return struct.pack("<8I", 1, offset, address, address, file_size, size, flags, 4096)
    data_offset = 4096 + (len(code) + 4095) // 4096 * 4096
    head = b"\x7fELF\x01\x01\x01" + bytes(9)
    head += struct.pack("<HHIIIIIHHHHHH", 2, 243, 1, 0x10000, 52, 0, 0, 52, 32, 2, 0, 0, 0)
    head += header(4096, 0x10000, len(code), len(code), 5)
    head += header(data_offset, 0x20000, 0, data_size, 6)
    body = head + bytes(4096 - len(head)) + code
    return body + bytes(data_offset - len(body))

here = pathlib.Path(__file__).resolve().parent
for source in sorted(here.glob("*.s")):
    source.with_suffix(".elf").write_bytes(executable(code_of(source, here), 4096))
