#!/usr/bin/env python3
"""Compares normal forms of random ground terms over the builtins with those that Maude computes; see README.md beside it."""

import random
import re
import shutil
import subprocess
import sys
import tempfile

TERMS = 200
DEPTH = 5
CONSTANTS = ["a", "b", "c"]
SYMBOLS = {
    "pair": 2, "fst": 1, "snd": 1, "h": 1, "senc": 2, "sdec": 2, "aenc": 2, "adec": 2, "pk": 1, "sign": 2, "verify": 3,
    "true": 0, "revealSign": 2, "revealVerify": 3, "getMessage": 1,
}
EQUATIONS = """
  eq fst(pair(X, Y)) = X .  eq snd(pair(X, Y)) = Y .
  eq sdec(senc(X, Y), Y) = X .  eq adec(aenc(X, pk(Y)), Y) = X .
  eq verify(sign(X, Y), X, pk(Y)) = true .
  eq revealVerify(revealSign(X, Y), X, pk(Y)) = true .  eq getMessage(revealSign(X, Y)) = X .
"""
THEORY = "theory T begin builtins: hashing, symmetric-encryption, asymmetric-encryption, signing, revealing-signing end\n"

# Of terms that are drawn at random few are redexes, so that some arguments are made to fit.
REDEXES = [
    lambda x, y: ("fst", ("pair", x, y)),
    lambda x, y: ("sdec", ("senc", x, y), y),
    lambda x, y: ("adec", ("aenc", x, ("pk", y)), y),
    lambda x, y: ("verify", ("sign", x, y), x, ("pk", y)),
    lambda x, y: ("revealVerify", ("revealSign", x, y), x, ("pk", y)),
    lambda x, y: ("getMessage", ("revealSign", x, y)),
]


def drawn(dice, depth):
    """A ground term: a public name is a text, an application a tuple that begins with its symbol."""
    if depth == 0 or dice.random() < 0.2:
        return dice.choice(CONSTANTS)
    if dice.random() < 0.4:
        return dice.choice(REDEXES)(drawn(dice, depth - 1), drawn(dice, depth - 1))
    symbol = dice.choice(sorted(SYMBOLS))
    return (symbol, *(drawn(dice, depth - 1) for _ in range(SYMBOLS[symbol])))


def prefix(term):
    """The term as `f(t, u)`, pairs too, with public names bare."""
    if isinstance(term, str):
        return term
    args = ", ".join(prefix(arg) for arg in term[1:])
    return f"{term[0]}({args})" if args else term[0]


def quoted(name):
    """The public name as a step line has it."""
    return f"'{name}'"


def printed(term, leaf=quoted):
    """The term as a step line has it: pairs nested on the right are one tuple."""
    if isinstance(term, str):
        return leaf(term)
    if term[0] != "pair":
        args = ", ".join(printed(arg, leaf) for arg in term[1:])
        return f"{term[0]}({args})" if args else term[0]
    parts, rest = [printed(term[1], leaf)], term[2]
    while not isinstance(rest, str) and rest[0] == "pair":
        parts.append(printed(rest[1], leaf))
        rest = rest[2]
    return "<" + ", ".join([*parts, printed(rest, leaf)]) + ">"


def steps(term):
    """The lines by which the adversary makes the term, its parts first, and sends it."""
    lines = []

    def made(part):
        if isinstance(part, str):
            line = f"pub '{part}'"
        else:
            for arg in part[1:]:
                made(arg)
            line = f"make {printed(part)}"
        if line not in lines:
            lines.append(line)

    made(term)
    return [*lines, f"in {printed(term)}"]


def parsed(text):
    """The term of a printed one."""
    tokens = re.findall(r"'[^']*'|\w+|[(),<>]", text)

    def row(close):
        terms = [one()]
        while tokens.pop(0) != close:
            terms.append(one())
        return terms

    def one():
        token = tokens.pop(0)
        if token == "<":
            parts = row(">")
            term = parts.pop()
            while parts:
                term = ("pair", parts.pop(), term)
            return term
        if token.startswith("'"):
            return token[1:-1]
        if tokens and tokens[0] == "(":
            tokens.pop(0)
            return (token, *row(")"))
        return (token,)

    return one()


def replayed(prover, term, folder):
    """The normal form that the prover sends for the term, as its trace prints it."""
    path = f"{folder}/theory"
    with open(path, "w", encoding="utf-8") as text:
        text.write(THEORY + "\n".join(steps(term)) + "\n")
    told = subprocess.run([prover, "replay", path], capture_output=True, text=True, check=False).stdout
    sent = re.search(r"^K\((.*)\)$", told, re.M)
    return prefix(parsed(sent.group(1))) if sent else told


def reduced(terms, folder):
    """The normal forms that Maude computes."""
    constants = " ".join([*CONSTANTS, *(f for f, n in SYMBOLS.items() if n == 0)])
    symbols = "\n".join(f"  op {f} : {' '.join(['Msg'] * n)} -> Msg ." for f, n in SYMBOLS.items() if n)
    lines = "\n".join(f"reduce {prefix(term)} ." for term in terms)
    module = f"fmod T is\n  sort Msg .\n  ops {constants} : -> Msg .\n{symbols}\n  vars X Y : Msg .{EQUATIONS}endfm\n{lines}\nquit\n"
    # (`true` is a name of Maude's own)
    module = re.sub(r"\btrue\b", "truth", module)
    path = f"{folder}/terms.maude"
    with open(path, "w", encoding="utf-8") as text:
        text.write("set show command off .\nset show timing off .\nset show stats off .\n" + module)
    told = subprocess.run(["maude", "-no-banner", "-no-wrap", path], capture_output=True, text=True, check=True).stdout
    return [re.sub(r"\btruth\b", "true", found) for found in re.findall(r"^result Msg: (.*)$", told, re.M)]


def main(prover):
    if not shutil.which("maude"):
        sys.exit("skipped: there is no maude here")
    dice = random.Random(1)
    terms = [drawn(dice, DEPTH) for _ in range(TERMS)]
    with tempfile.TemporaryDirectory() as folder:
        wanted = reduced(terms, folder)
        differ = 0
        for term, want in zip(terms, wanted, strict=True):
            found = replayed(prover, term, folder)
            if found != want:
                differ += 1
                print(f"{prefix(term)}\n  maude {want}\n  here  {found}")
        changed = sum(prefix(term) != want for term, want in zip(terms, wanted))
        print(f"{len(terms)} terms, of which {changed} weren't in normal form: {differ} differ")
    return 1 if differ else 0


if __name__ == "__main__":
    if len(sys.argv) != 2:
        sys.exit("usage: maude.py PROVER")
    sys.exit(main(sys.argv[1]))
