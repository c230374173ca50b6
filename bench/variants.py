#!/usr/bin/env python3
"""Compares how many forms a rule has with how many variants Maude finds of its term; see README.md beside it."""

import re
import shutil
import subprocess
import sys
import tempfile

from maude import EQUATIONS, SYMBOLS, THEORY

# terms whose destructors stand at one place, or one inside the other, with how often their variables are to be taken
TERMS = [
    "fst(X)", "snd(X)", "sdec(X, Y)", "adec(X, Y)", "verify(X, Y, Z)", "revealVerify(X, Y, Z)", "getMessage(X)", "fst(fst(X))", "fst(sdec(X, Y))",
    "sdec(fst(X), Y)", "h(fst(X))", "senc(snd(X), Y)", "adec(getMessage(X), Y)", "pair(fst(X), Y)", "sdec(X, pk(Y))", "verify(X, Y, pk(Z))",
]


def forms(prover, term, folder):
    """How many forms the rule has that takes the term's variables and leaves it."""
    names = ", ".join(sorted(set(re.findall(r"\b[XYZ]\b", term))))
    path = f"{folder}/theory"
    with open(path, "w", encoding="utf-8") as text:
        text.write(THEORY.replace(' end\n', '\n') + f"rule R: [ M({names}) ] --> [ N({term}) ] end\n")
    told = subprocess.run([prover, "variants", path], capture_output=True, text=True, check=False).stdout
    found = re.search(r"^rule R: (\d+) forms$", told, re.M)
    return int(found.group(1)) if found else told


def variants(folder):
    """How many variants Maude finds of each term."""
    symbols = "\n".join(f"  op {f} : {' '.join(['Msg'] * n)} -> Msg ." for f, n in SYMBOLS.items())
    equations = re.sub(r"eq (.*?) \.", r"eq \1 [variant] .", EQUATIONS)
    lines = "\n".join(f"get variants in T : {term} ." for term in TERMS)
    module = f"fmod T is\n  sort Msg .\n{symbols}\n  vars X Y Z : Msg .{equations}endfm\n{lines}\nquit\n"
    path = f"{folder}/terms.maude"
    with open(path, "w", encoding="utf-8") as text:
        text.write("set show command off .\nset show timing off .\n" + re.sub(r"\btrue\b", "truth", module))
    told = subprocess.run(["maude", "-no-banner", "-no-wrap", path], capture_output=True, text=True, check=True).stdout
    return [len(re.findall(r"^Variant ", part, re.M)) for part in told.split("No more variants.")[: len(TERMS)]]


def main(prover):
    if not shutil.which("maude"):
        sys.exit("skipped: there is no maude here")
    with tempfile.TemporaryDirectory() as folder:
        wanted = variants(folder)
        differ = 0
        for term, want in zip(TERMS, wanted, strict=True):
            found = forms(prover, term, folder)
            differ += found != want
            print(f"{term:<28} {found} forms, {want} variants")
        print(f"{len(TERMS)} terms: {differ} differ")
    return 1 if differ else 0


if __name__ == "__main__":
    if len(sys.argv) != 2:
        sys.exit("usage: variants.py PROVER")
    sys.exit(main(sys.argv[1]))
