#!/usr/bin/env python3
"""A rewriter of one's own, by one rule: a batch goes where it executes no fewer instructions than
the checks that it stands for.

    fewer_batches.py IN OUT

IN is an executable. OUT becomes its rewriting by the new plan. `shasta_view` judges the file,
runs it, and counts what a node executes by either plan; where it refuses the file, so does this
script. What any rewriter has to do, with the format of the file and the jumps in it, stands in
replan.py."""
import pathlib, re, subprocess, sys

sys.dont_write_bytecode = True
from replan import Rewritten


def pays(file, place):
    """The rule: whether the batch at a place executes fewer instructions than single checks."""
    _, in_batch, single = file.batch(place)
    return in_batch < single


def executed(*words):
    """How many instructions of rewritten code the nodes execute."""
    told = subprocess.run(["shasta_view", "time", *words], check=True, capture_output=True,
                          text=True)
    return sum(map(int, re.findall(r"^node .* words (\d+) ", told.stdout, flags=re.M)))


def main():
    program, out = sys.argv[1:]
    subprocess.run(["shasta", "rewrite", program, out], check=True)
    file = Rewritten(pathlib.Path(out).read_bytes())
    batches = file.runs()
    idle = [place for place in batches if not pays(file, place)]
    file.leave_out(idle)
    pathlib.Path(out).write_bytes(file.data())
    before, now = executed(program), executed(program, "--verify", out)
    print(f"{len(idle)} of {len(batches)} batches left out: {now:,} instructions in place of "
          f"{before:,}, {1 - now / before:.1%} fewer")


main()
