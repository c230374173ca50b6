"""The time and the memory of a command of a prover."""

import os
import subprocess
import sys
import tempfile
import time

RUNS = 5


def timed(prover, command, argument, answer):
    """The least time of some runs that write to the file `answer`, the peak memory in MiB, and what is written. The peak memory is told by GNU `time`."""
    seconds = []
    for _ in range(RUNS):
        with open(answer, "wb") as out:
            start = time.perf_counter()
            subprocess.run([prover, command, argument], stdout=out, check=False)
            seconds.append(time.perf_counter() - start)
    told = subprocess.run(
        ["time", "-f", "%M", prover, command, argument], stdout=subprocess.DEVNULL, stderr=subprocess.PIPE, check=False
    )
    with open(answer, encoding="utf-8") as text:
        written = text.read()
    os.remove(answer)
    return min(seconds), int(told.stderr.split()[-1]) / 1024, written


def row_that_begins(written, start):
    """The first line that begins so."""
    return next((row for row in written.split("\n") if row.startswith(start)), written[:60])


def each_size(script, provers, command, sizes, text_of):
    """Writes each prover's name, and gives each size with the time, the memory and the answer of the command on the text of that size."""
    if not provers:
        sys.exit(f"usage: {script} PROVER..")
    with tempfile.TemporaryDirectory() as folder:
        path = os.path.join(folder, "theory.spthy")
        for prover in provers:
            print(prover)
            for size in sizes:
                with open(path, "w", encoding="utf-8") as text:
                    text.write(text_of(size))
                yield size, *timed(prover, command, path, f"{path}.answer")
