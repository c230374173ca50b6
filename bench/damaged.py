"""Damaged texts of one theory that has each form of the language, put to `variants` of two provers."""

import collections
import os
import random
import resource
import subprocess
import sys
import tempfile

SECONDS = 10
MEBIBYTES = 512
TEXTS = 10_000


def bounded():
    """Bounds what a call may take."""
    resource.setrlimit(resource.RLIMIT_AS, (MEBIBYTES << 20, MEBIBYTES << 20))
    resource.setrlimit(resource.RLIMIT_CPU, (SECONDS, SECONDS))


def answer(prover, path):
    """The status and what is written, without the lines of warnings; nothing where the bounds were passed."""
    try:
        done = subprocess.run(
            [prover, "variants", path], capture_output=True, check=False, timeout=SECONDS, preexec_fn=bounded
        )
    except subprocess.TimeoutExpired:
        return None
    if done.returncode < 0:
        return None
    lines = [line for line in done.stdout.split(b"\n") if not line.startswith(b"warning: ")]
    return done.returncode, b"\n".join(lines)


def damaged(draw, text):
    """The text with one to three stretches of up to twelve bytes deleted, doubled or exchanged with the next."""
    made = bytearray(text)
    for _ in range(draw.randint(1, 3)):
        start = draw.randrange(len(made))
        end = min(len(made), start + draw.randint(1, 12))
        stretch = bytes(made[start:end])
        kind = draw.randrange(3)
        if kind == 0:
            del made[start:end]
        elif kind == 1:
            made[start:start] = stretch
        else:
            behind = bytes(made[end : end + len(stretch)])
            made[start : end + len(behind)] = behind + stretch
    return bytes(made)


def main(provers, seed):
    here = os.path.dirname(os.path.abspath(__file__))
    with open(os.path.join(here, "whole.spthy"), "rb") as file:
        text = file.read()
    draw = random.Random(seed)
    kinds = collections.Counter()
    with tempfile.TemporaryDirectory() as folder:
        path = os.path.join(folder, "damaged.spthy")
        for number in range(TEXTS):
            made = damaged(draw, text)
            with open(path, "wb") as file:
                file.write(made)
            answers = [answer(prover, path) for prover in provers]
            first = answers[0]
            kinds["bounds passed" if first is None else first[1].split(b" ")[0].split(b"\n")[0].decode(errors="replace")] += 1
            if any(other != first for other in answers):
                kinds["differ"] += 1
                kept = f"differ-{number}.spthy"
                with open(kept, "wb") as file:
                    file.write(made)
                print(kept, *[None if it is None else (it[0], it[1][:80]) for it in answers])
    print(", ".join(f"{word}: {count}" for word, count in kinds.most_common()))


if __name__ == "__main__":
    if len(sys.argv) < 3:
        sys.exit("usage: damaged.py SEED PROVER..")
    main(sys.argv[2:], sys.argv[1])
