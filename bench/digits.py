#!/usr/bin/env python3
"""Compares what printf of the runtime makes of doubles with exact arithmetic.

    bench/digits.py PROGRAM [COUNT]

PROGRAM is the shasta that was built. digits.c, built over the runtime, prints COUNT doubles (3000)
in each of FORMS. A number in the form `f` has to be the double, rounded once: to its places, or to
17 digits where these are fewer; in the forms `e` and `g` what Python prints, which is exact. The
script tells the first that differ, and how many do."""
import decimal, pathlib, re, shutil, struct, subprocess, sys, tempfile

root = pathlib.Path(__file__).resolve().parent.parent
BUILD = ["riscv64-unknown-elf-gcc", f"--specs={root}/runtime/shasta.specs", "-O2"]
PACKAGES = "gcc-riscv64-unknown-elf binutils-riscv64-unknown-elf picolibc-riscv64-unknown-elf"
FORMS = ("%.0f %f %.3f %.10f %10.2f %010.3f %.0e %e %.16e %-12.1e "
         "%g %.17g %.14g %.0g %#g %.3g %+g %G %.15g").split()
EXACT = decimal.Context(prec=1200, rounding=decimal.ROUND_HALF_EVEN)


def fixed(form, number):
    """A number in a form `f`, of 17 digits at most."""
    zeros, width, places = re.fullmatch(r"%(0?)(\d*)(?:\.(\d+))?f", form).groups()
    places = int(places or 6)
    exact = decimal.Decimal(number)
    kept = min(places, 16 - exact.adjusted()) if exact else places
    text = format(exact.quantize(decimal.Decimal(1).scaleb(-kept), context=EXACT), f".{places}f")
    if number < 0 and not text.startswith("-"):
        text = f"-{text}"
    return text.zfill(int(width or 0)) if zeros else text.rjust(int(width or 0))


def awaited(bits):
    """The line of a number."""
    [number] = struct.unpack(">d", bytes.fromhex(bits))
    return " ".join([bits, *(fixed(form, number) if form[-1] == "f" else form % number
                             for form in FORMS)])


def main():
    if shutil.which(BUILD[0]) is None:
        print(f"digits: the packages are lacking: apt-get install -y {PACKAGES}", file=sys.stderr)
        return 1
    count = sys.argv[2] if len(sys.argv) > 2 else "3000"
    with tempfile.TemporaryDirectory() as folder:
        file = f"{folder}/digits.elf"
        subprocess.run([*BUILD, f"-DCOUNT={count}", root / "bench/digits.c", "-o", file],
                       check=True)
        call = subprocess.run([sys.argv[1], "one", file, "--budget", "4294967295"],
                              capture_output=True, text=True)
    lines = [line for line in call.stdout.split("\n") if re.match("[0-9a-f]{16} ", line)]
    differ = [line for line in lines if line != awaited(line[:16])]
    for line in differ[:5]:
        print(f"{line}\nand not\n{awaited(line[:16])}")
    print(f"digits: {len(lines)} doubles, {len(FORMS)} forms each; {len(differ)} differ")
    return 1 if differ or not lines else 0


sys.exit(main())
