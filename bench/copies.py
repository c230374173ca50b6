#!/usr/bin/env python3
"""Times provers on theories with N copies of one rule and one lemma; see README.md beside it."""

import os
import subprocess
import sys
import tempfile
import time

SIZES = [1, 10, 100, 500]
RUNS = 9

RULE = "rule Make_{n}: [ Fr(~k) ] --[ A_{n}(~k) ]-> [ ]\n"
LEMMA = 'lemma once_{n}: "All x #i #j. A_{n}(x)@i & A_{n}(x)@j ==> #i = #j"\n'


def theory(copies):
    """The theory with this many rules and lemmas."""
    numbers = range(1, copies + 1)
    rules = "".join(RULE.format(n=n) for n in numbers)
    lemmas = "".join(LEMMA.format(n=n) for n in numbers)
    return "theory Copies begin\n" + rules + lemmas + "end\n"


def run_once(prover, path, answer):
    """Seconds of one run that writes to `answer`, and its status."""
    with open(answer, "wb") as out:
        start = time.perf_counter()
        status = subprocess.run([prover, "prove", path], stdout=out, check=False).returncode
        return time.perf_counter() - start, status


def peak_memory(prover, path):
    """The peak memory of one run in KiB, as GNU time tells it."""
    told = subprocess.run(
        ["time", "-f", "%M", prover, "prove", path], stdout=subprocess.DEVNULL, stderr=subprocess.PIPE, check=False
    )
    return int(told.stderr.split()[-1])


def measured(prover, path, copies, answer):
    """The least time of some runs, the peak memory, and whether each lemma was printed verified."""
    runs = [run_once(prover, path, answer) for _ in range(RUNS)]
    with open(answer, encoding="utf-8") as text:
        verified = text.read().count("(all-traces): verified (4 steps)")
    right = verified == copies and all(status == 0 for _, status in runs)
    return min(seconds for seconds, _ in runs), peak_memory(prover, path), right


def main(provers):
    if not provers:
        sys.exit("usage: copies.py PROVER..")
    with tempfile.TemporaryDirectory() as folder:
        answer = os.path.join(folder, "answer")
        for prover in provers:
            print(prover)
            print(f"{'copies':>8} {'seconds':>10} {'MiB':>8} {'growth of time':>16} {'growth of memory':>18}")
            before = None
            for copies in SIZES:
                path = os.path.join(folder, f"copies{copies}.spthy")
                with open(path, "w", encoding="utf-8") as text:
                    text.write(theory(copies))
                seconds, kib, right = measured(prover, path, copies, answer)
                growth = ["", ""]
                if before:
                    by = copies / before[0]
                    growth = [f"{seconds / before[1] / by:.2f} x linear", f"{kib / before[2] / by:.2f} x linear"]
                note = "" if right else "  not all verified"
                print(f"{copies:>8} {seconds:>10.4f} {kib / 1024:>8.1f} {growth[0]:>16} {growth[1]:>18}{note}")
                before = (copies, seconds, kib)


if __name__ == "__main__":
    main(sys.argv[1:])
