#!/usr/bin/env python3
"""Builds other people's OpenMP and POSIX programs and runs them: those of a folder of GCC's libgomp tests
(Debian's package gcc-12-source has them: libgomp/testsuite in its archive).

    bench/openmp.py PROGRAM FOLDER [--nodes N] [--by one|sim|run] [--seconds S] [--jobs J] [NAME..]

PROGRAM is the shasta that was built, FOLDER has libgomp.c and libgomp.c-c++-common; NAME is a part of a
file's name (all files). A file is fit where it is to be run, and not for a device, for x86 or by what
the environment says. Each fit one is built by `-O2 -fopenmp` and its own options, with a stack of 1 MiB
and a heap of 9 MiB, and runs on so many nodes (4) by a command (sim), for at most so many seconds of
processor time (60). It is right where each processor ends with 0, or with another number where the test
says that it fails. So many run at a time (2). The script tells what isn't right, and how many are."""
import argparse, collections, concurrent.futures, pathlib, re, resource, signal, subprocess, sys
import tempfile

root = pathlib.Path(__file__).resolve().parent.parent
BUILD = ["riscv64-unknown-elf-gcc", f"--specs={root}/runtime/shasta.specs", "-O2", "-fopenmp", "-w",
         "-Wl,--defsym=__stack_size=0x100000", "-Wl,--defsym=__heap_size=0x900000"]
UNFIT = (
    ("for a device", r"#\s*pragma\s+omp\b[^\n]*\btarget\b|omp_target_|offload|declare\s+target|"
                     r"_OPENACC|GOMP_target|omp\s+begin\s+declare|libgomp_plugin"),
    ("by the environment", r"dg-set-target-env-var"),
    ("not to be run", r"dg-do\s+(compile|link|assemble|preprocess)"),
    ("for x86", r"dg-do\s+run\s*\{\s*target\s+(\{\s*)?(i\?86|x86)|effective-target\s+avx_runtime"),
)


def options():
    parser = argparse.ArgumentParser(usage=__doc__.split("\n\n")[1])
    parser.add_argument("program")
    parser.add_argument("folder")
    parser.add_argument("names", nargs="*")
    parser.add_argument("--nodes", default="4")
    parser.add_argument("--by", default="sim")
    parser.add_argument("--seconds", type=int, default=60)
    parser.add_argument("--jobs", type=int, default=2)
    return parser.parse_intermixed_args()


def why_unfit(text):
    """Why a test isn't fit, or None."""
    return next((why for why, pattern in UNFIT if re.search(pattern, text)), None)


def own_options(text):
    """The options that a test asks for on every machine."""
    found = re.findall(r"dg-(?:additional-)?options\s+[\"{]([^\"}]*)[\"}](.*)", text)
    return [word for words, rest in found if "target" not in rest for word in words.split()]


def built(asked, path, text, folder):
    """The program that is built of a test, or why none is."""
    program = f"{folder}/{path.parent.name}-{path.stem}.elf"
    others = re.findall(r"dg-additional-sources\s+\"?([\w. -]+)", text)
    sources = [path, *(path.parent / name for names in others for name in names.split())]
    headers = [f"-I{folder}", f"-I{asked.folder}/.."]
    call = subprocess.run([*BUILD, *headers, *own_options(text), *sources, "-lm", "-o", program],
                          capture_output=True, text=True)
    if call.returncode == 0:
        return program, None
    lines = [line for line in call.stderr.splitlines() if "error" in line or "undefined" in line]
    return None, "not built: " + (lines or [call.stderr])[0].split(": ", 1)[-1][-90:]


def run_of(asked, program):
    """A run of a program, within its processor time."""
    words = [asked.program, asked.by, program, "--nodes", asked.nodes, "--budget", "4000000000"]
    limit = (asked.seconds, asked.seconds + 5)
    return subprocess.run(words, capture_output=True, text=True, errors="replace",
                          preexec_fn=lambda: resource.setrlimit(resource.RLIMIT_CPU, limit))


def judge(asked, path, text, folder):
    """What became of a test: `right`, or why it isn't."""
    program, why = built(asked, path, text, folder)
    if why:
        return why
    run = run_of(asked, program)
    pathlib.Path(program).unlink()
    if run.returncode == -signal.SIGXCPU:
        return "not over in time"
    ends = re.findall(r"^processor \d+ (.*)$", run.stdout, re.M)
    fails = "dg-shouldfail" in text
    if ends and all((end != "exit 0") if fails else (end == "exit 0") for end in ends):
        return "right"
    said = re.search(r"^shasta: .*$", run.stdout, re.M)
    return "not right: " + (said[0] if said else collections.Counter(ends).most_common(1)[0][0]
                            if ends else run.stderr.strip()[:80])


def fit_files(asked, counts):
    """The tests that are to be run, and their texts; of the others it counts why they aren't."""
    base = pathlib.Path(asked.folder)
    for path in sorted(path for part in ("libgomp.c", "libgomp.c-c++-common")
                       for path in (base / part).rglob("*.c")):
        text = path.read_text(errors="replace")
        if asked.names and not any(name in path.name for name in asked.names):
            continue
        unfit = why_unfit(text)
        if unfit:
            counts[f"unfit, {unfit}"] += 1
        else:
            yield path, text


def main():
    asked = options()
    counts = collections.Counter()
    tests = list(fit_files(asked, counts))
    with tempfile.TemporaryDirectory() as folder:
        pathlib.Path(f"{folder}/gstdint.h").write_text("#include <stdint.h>\n")
        with concurrent.futures.ThreadPoolExecutor(asked.jobs) as pool:
            verdicts = pool.map(lambda test: judge(asked, *test, folder), tests)
            for (path, _), verdict in zip(tests, verdicts):
                counts["fit"] += 1
                counts[verdict.split(":")[0]] += 1
                if verdict != "right":
                    print(f"{path.relative_to(asked.folder)}: {verdict}", flush=True)
    for name, count in sorted(counts.items()):
        print(f"{count:5} {name}")
    return 0


sys.exit(main())
