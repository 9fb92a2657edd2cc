"""Pages whose commands are run and compared; for examples/check, examples/debug, runtime/check and
`install`'s check.

A command of a page is a line `$ ..` in a block marked `console`; what it prints, on either
output, stands below it, and `..` is any number there. Its status is 0, or 1 where the last text
that it prints has a processor that ended otherwise than by `exit 0`; a command that ends
otherwise says so by `; echo status $?`. Each call may take LIMIT seconds."""
import pathlib, re, shutil, subprocess

LIMIT = 600
GCC = "riscv64-unknown-elf-gcc"
# each tool, how it tells its version, the version that wrote the pages, and Debian's package
TOOLS = {
    GCC: (["-dumpversion"], "12.2.0", "gcc-riscv64-unknown-elf"),
    "riscv64-unknown-elf-ld": (["--version"], "2.40", "binutils-riscv64-unknown-elf"),
    "gdb-multiarch": (["--version"], "13", "gdb-multiarch"),
}
PICOLIBC = pathlib.Path("/usr/lib/picolibc/riscv64-unknown-elf/include/picolibc.h")
# a command of a page, and what it prints
COMMAND = r"^\$ (.*)\n((?:(?!\$ ).*\n)*)"
PICOLIBC_VERSION, PICOLIBC_PACKAGE = "1.8", "picolibc-riscv64-unknown-elf"


def call(words, folder, path=None):
    """A call's status, its output, and its errors; the status is None where it took too long."""
    try:
        run = subprocess.run(words, cwd=folder, env=path, stdin=subprocess.DEVNULL,
                             capture_output=True, timeout=LIMIT)
    except subprocess.TimeoutExpired as late:
        return None, late.stdout or b"", late.stderr or b""
    return run.returncode, run.stdout, run.stderr


def version_of(tool):
    """What a tool says of its version, or None where it isn't there."""
    if tool == "picolibc":
        text = PICOLIBC.read_text() if PICOLIBC.is_file() else ""
        found = re.search(r'_PICOLIBC_VERSION__? "(\S+)"', text)
        return found and found[1]
    if shutil.which(tool) is None:
        return None
    told = subprocess.run([tool, *TOOLS[tool][0]], capture_output=True, text=True).stdout
    found = re.search(r"(\d+(\.\d+)*)\s*$", told.partition("\n")[0])
    return found and found[1]


def lacking(*tools):
    """What to say of tools that aren't here in the version that wrote the pages: a line each."""
    for tool in tools:
        wanted, package = ((PICOLIBC_VERSION, PICOLIBC_PACKAGE) if tool == "picolibc"
                           else TOOLS[tool][1:])
        found = version_of(tool)
        if found is None or not (found + ".").startswith(wanted + "."):
            yield (f"{tool} {wanted} isn't here ({found or 'none'}): what needs it wasn't run; "
                   f"apt-get install -y {package}")


def blocks(text, mark):
    """The blocks of a page that are marked so."""
    return re.findall(rf"^```{mark}\n(.*?)^```$", text, flags=re.M | re.S)


def commands(page):
    """The commands of a page, each with what it prints."""
    for block in blocks(page.read_text(), "console"):
        yield from re.findall(COMMAND, block, flags=re.M)


def status_of(printed):
    """The status of a command that printed this."""
    last = printed.rpartition("\noutput ")[2]
    return int(bool(re.search(r"^processor \d+ (?!exit 0$)", last, flags=re.M)))


def fits(awaited, printed):
    """Whether a text is the one that a page shows."""
    return re.fullmatch(re.escape(awaited).replace(re.escape(".."), "[0-9]+"), printed) is not None


class Room:
    """A folder with copies of files, in which commands run, and its own folder of programs."""

    def __init__(self, folder, programs):
        self.folder = pathlib.Path(folder)
        self.programs = self.folder / "bin"
        self.programs.mkdir()
        for name, path in programs.items():
            (self.programs / name).symlink_to(path)

    def run(self, command, inside):
        """The status of a command of a page, and what it printed on both outputs."""
        line = f'PATH="{self.programs}:$PATH"; exec 2>&1; {command}'
        status, printed, _ = call(["bash", "-c", line], self.folder / inside)
        return status, printed.decode(errors="replace")

    def faults(self, page, inside, skip_tools):
        """Runs the commands of a page; a text for each that prints, or ends, otherwise. Where tools
        are lacking, the commands that name one or what it made are passed over."""
        name, made = page.name, set()
        for command, awaited in commands(page):
            uses = "riscv64-unknown-elf-" in command or made & set(re.split(r"[\s|;]+", command))
            if skip_tools and uses:
                made |= set(re.findall(r"(?:>|-o) (\S+)", command))
                made |= set(re.findall(r"--record (\S+)", command))
                continue
            status, printed = self.run(command, inside)
            if not fits(awaited, printed):
                yield f"docs/{name}: {command}\nprints\n{printed}and not\n{awaited}"
            elif "|" not in command and "$?" not in command and status != status_of(printed):
                yield f"docs/{name}: {command}\nends with status {status}"

    def write(self, page, inside):
        """Runs the commands of a page, and puts what they print below; what still fits stays."""
        def walked(block):
            shown = []
            for command, awaited in re.findall(COMMAND, block[1], flags=re.M):
                printed = self.run(command, inside)[1]
                shown.append(f"$ {command}\n{awaited if fits(awaited, printed) else printed}")
            return f"```console\n{''.join(shown)}```"

        text = re.sub(r"^```console\n(.*?)^```$", walked, page.read_text(), flags=re.M | re.S)
        page.write_text(text)


def programs_of(words, root, names=("shasta", "shasta_view")):
    """The programs that a command line names, or those that were built; and what is lacking."""
    built = [root / "crates" / name / "out" / name for name in names]
    paths = [pathlib.Path(word).resolve() for word in words] + built[len(words):]
    absent = [f"{path} isn't built" for path in paths if not path.is_file()]
    return dict(zip(names, paths)), absent


def told(name, faults, notes, ran):
    """Prints what a check found, and what it ran where all is well; gives its status."""
    for note in notes:
        print(f"{name}: {note}")
    for fault in faults:
        print(f"{name}: {fault}")
    if not faults:
        print(f"{name}: {ran}")
    return int(bool(faults))
