#!/usr/bin/env python3
"""Times provers on the theories that they make of a number, 1, 10, 100 and 500; see README.md beside it."""

import math
import os
import sys
import tempfile

from timed import timed

SIZES = [1, 10, 100, 500]


def is_right(size, written):
    """Whether the five lines tell of three lemmas for each number, of which two hold, with none left open."""
    wanted = [f"lemmas: {3 * size}", f"verified: {2 * size}", f"falsified: {size}", "incomplete: 0"]
    return written.split("\n")[:4] == wanted


def power(after, before, by):
    """The power of N by which what is measured grew."""
    return math.log(after / before) / math.log(by)


def main(provers):
    if not provers:
        sys.exit("usage: gen.py PROVER..")
    with tempfile.TemporaryDirectory() as folder:
        for prover in provers:
            print(prover)
            print(f"{'N':>8} {'seconds':>10} {'MiB':>8} {'time grows as':>14} {'memory grows as':>16}")
            before = None
            for size in SIZES:
                seconds, mib, written = timed(prover, "gen", str(size), os.path.join(folder, "answer"))
                growth = ["", ""]
                if before:
                    by = size / before[0]
                    growth = [f"N^{power(seconds, before[1], by):.2f}", f"N^{power(mib, before[2], by):.2f}"]
                note = "" if is_right(size, written) else "  other counts"
                print(f"{size:>8} {seconds:>10.4f} {mib:>8.1f} {growth[0]:>14} {growth[1]:>16}{note}")
                before = (size, seconds, mib)


if __name__ == "__main__":
    main(sys.argv[1:])
