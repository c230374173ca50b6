#!/usr/bin/env python3
"""Draws random executions over the builtins, and has a test of a scratch copy of the repository make and check the log of each; see README.md beside it."""

import json
import os
import random
import re
import shutil
import subprocess
import sys
import tempfile

from maude import SYMBOLS, THEORY, printed

EXECUTIONS = 200
MOVES = (25, 45)
SIZE = 30
CONSTANTS = ["'a'", "'b'"]
CONSTANT_SYMBOLS = [("c", 0), ("true", 0)]
FUNCTIONS = "functions: hide/1 [private], s/0 [private], c/0\n"
REPOSITORY = os.path.dirname(os.path.dirname(os.path.abspath(__file__)))

# What rules put out, over what may stand in it; the last two destruct what came in.
MADE = [
    lambda x, y: ("pair", x, y),
    lambda x, y: ("pair", y, x),
    lambda x, y: ("senc", x, y),
    lambda x, y: ("senc", x, y),
    lambda x, y: ("aenc", x, ("pk", y)),
    lambda x, y: ("aenc", x, ("pk", y)),
    lambda x, y: ("sign", x, y),
    lambda x, y: ("revealSign", x, y),
    lambda x, y: ("h", x),
    lambda x, y: ("pk", y),
    lambda x, y: ("hide", x),
]
DESTRUCTED = [lambda key: ("fst", "x"), lambda key: ("sdec", "x", key), lambda key: ("adec", "x", key)]

LIB = "// What is drawn.\n#![tactic(auto)]\n\n#[cfg(test)]\nmod drawn;\n#[cfg(test)]\nmod logs;\n"
TESTS = """use crate::logs::told_of;
use std::alloc::Global;
use std::process::Abort;
use std::test::Fail;

fn assert_log(rt: &impl Abort, alloc: Global, drawn: &(&str, &str, &str)) -> Result<(), Fail> {
    let told = told_of(alloc, drawn.0, drawn.1)?.ok_or("log")?;
    assert_eq!(rt; told.trace.as_str(), drawn.2);
    Ok(())
}
"""


def shown(term):
    """The term as it is printed; its leaves, which are texts, stand for themselves."""
    return printed(term, leaf=str)


def size(term):
    """How many symbols and leaves it has."""
    return 1 if isinstance(term, str) else 1 + sum(map(size, term[1:]))


def valued(term, values):
    """The term with these values of its variables."""
    if isinstance(term, str):
        return values.get(term, term)
    return (term[0], *(valued(arg, values) for arg in term[1:]))


def rewritten(term):
    """What a term whose arguments are in normal form is by an equation, if one matches it."""
    match term:
        case ("fst", ("pair", x, _)) | ("snd", ("pair", _, x)) | ("getMessage", ("revealSign", x, _)):
            return x
        case ("sdec", ("senc", x, k), other) | ("adec", ("aenc", x, ("pk", k)), other) if k == other:
            return x
        case ("verify", ("sign", x, k), y, ("pk", l)) | ("revealVerify", ("revealSign", x, k), y, ("pk", l)) if (x, k) == (y, l):
            return ("true",)
    return None


def normal(term):
    """The normal form of the term."""
    if isinstance(term, str):
        return term
    term = (term[0], *map(normal, term[1:]))
    found = rewritten(term)
    return term if found is None else found


def drawn(dice, leaves, depth):
    """A term over these leaves, whose keys are mostly leaves."""
    if depth == 0 or dice.random() < 0.2:
        return dice.choice(leaves)
    key = drawn(dice, leaves, 0 if dice.random() < 0.8 else depth - 1)
    return dice.choice(MADE)(drawn(dice, leaves, depth - 1), key)


class Rule:
    """A rule that takes fresh names, and maybe what comes in, shows a term and puts terms out."""

    def __init__(self, dice, name):
        self.name = name
        self.fresh = ["~k", "~l", "~m"][: dice.randint(1, 3)]
        self.takes = dice.random() < 0.4
        leaves = [*self.fresh * 3, *["x"] * 3 * self.takes, "'a'", ("c",), ("s",)]
        self.action = drawn(dice, leaves, 2)
        self.outs = [drawn(dice, leaves, 3) for _ in range(dice.randint(1, 3))]
        self.outs += [name for name in self.fresh if dice.random() < 0.5]
        if self.takes and dice.random() < 0.4:
            self.outs.append(dice.choice(DESTRUCTED)(self.fresh[0]))

    def text(self):
        """The rule as a theory has it."""
        premises = ", ".join([*(f"Fr({name})" for name in self.fresh), *["In(x)"][: self.takes]])
        outs = ", ".join(f"Out({shown(out)})" for out in self.outs)
        return f"rule {self.name}: [ {premises} ] --[ Act({shown(self.action)}) ]-> [ {outs} ]\n"


class Execution:
    """Steps that can be done, what they show, and what the adversary has."""

    def __init__(self, dice):
        self.dice = dice
        self.rules = [Rule(dice, f"R{number}") for number in range(dice.randint(1, 3))]
        self.lines, self.trace, self.known, self.out, self.sent, self.names = [], [], [], [], [], 0
        for _ in range(dice.randint(*MOVES)):
            dice.choices([self.use, self.take_out, self.public, self.own, self.make, self.put_in], [3, 12, 1, 1, 10, 2])[0]()

    def theory(self):
        """The text of the theory."""
        return THEORY.replace(" end\n", "\n") + FUNCTIONS + "".join(rule.text() for rule in self.rules) + "end\n"

    def printed_trace(self):
        """The trace, as it is to be printed."""
        return "".join(f"{line}\n" for line in ["trace:", *self.trace, "end of trace"])

    def written(self, term):
        """The term as a step has it, which needn't be in normal form."""
        return shown(("fst", ("pair", term, "'b'")) if self.dice.random() < 0.1 else term)

    def learn(self, term):
        """The adversary knows the term."""
        if normal(term) not in self.known:
            self.known.append(normal(term))

    def fresh(self):
        """A name that is made."""
        self.names += 1
        self.lines.append(f"fresh ~n{self.names}")
        return f"~n{self.names}"

    def use(self):
        """A rule is used, unless it wants what isn't there."""
        rule = self.dice.choice(self.rules)
        if rule.takes and not self.sent:
            return
        values = {name: self.fresh() for name in rule.fresh}
        if rule.takes:
            values["x"] = self.sent.pop(self.dice.randrange(len(self.sent)))
        given = ", ".join(f"{name.lstrip('~')} = {self.written(value)}" for name, value in values.items())
        self.lines.append(f"rule {rule.name}: {given}")
        self.trace.append(f"Act({shown(normal(valued(rule.action, values)))})")
        self.out += [normal(valued(out, values)) for out in rule.outs]

    def take_out(self):
        """What a rule put out is taken."""
        if self.out:
            term = self.out.pop(self.dice.randrange(len(self.out)))
            self.lines.append(f"out {self.written(term)}")
            self.learn(term)

    def public(self):
        """A public name is known."""
        name = self.dice.choice(CONSTANTS)
        self.lines.append(f"pub {name}")
        self.learn(name)

    def own(self):
        """The adversary has a name of its own."""
        name = self.fresh()
        self.lines.append(f"own {name}")
        self.learn(name)

    def put_in(self):
        """A known message is sent."""
        if self.known:
            term = self.dice.choice(self.known)
            self.lines.append(f"in {self.written(term)}")
            self.trace.append(f"K({shown(term)})")
            self.sent.append(term)

    def reducible(self):
        """Destructors over known terms that an equation rewrites."""
        for term in self.known:
            match term:
                case ("pair", _, _):
                    yield from [("fst", term), ("snd", term)]
                case ("senc", _, key):
                    yield ("sdec", term, key)
                case ("aenc", _, ("pk", key)):
                    yield ("adec", term, key)
                case ("sign", message, key):
                    yield ("verify", term, message, ("pk", key))
                case ("revealSign", message, key):
                    yield from [("getMessage", term), ("revealVerify", term, message, ("pk", key))]

    def choice(self):
        """A symbol over known terms, by preference one by which something new is known."""
        found = [term for term in self.reducible() if all(arg in self.known for arg in term[1:])]
        newer = [term for term in found if normal(term) not in self.known]
        if newer and self.dice.random() < 0.9:
            return self.dice.choice(newer)
        if found and self.dice.random() < 0.3:
            return self.dice.choice(found)
        symbol, arity = self.dice.choice(sorted(SYMBOLS.items()) if self.known else CONSTANT_SYMBOLS)
        return (symbol, *(self.dice.choice(self.known) for _ in range(arity)))

    def make(self):
        """A public symbol is applied to known terms, unless that is large."""
        term = self.choice()
        if size(term) <= SIZE:
            self.lines.append(f"make {shown(term)}")
            self.learn(term)


def tests_of(executions):
    """The test module of these executions."""
    parts = [TESTS]
    for number, execution in enumerate(executions):
        row = ", ".join(json.dumps(text) for text in [execution.theory(), "\n".join(execution.lines), execution.printed_trace()])
        parts.append(f"const DRAWN_{number}: (&str, &str, &str) = ({row});\n")
        parts.append(f"#[test]\nfn drawn_{number}(rt: HostRuntime) -> Result<(), Fail> {{\n    assert_log(&rt, rt.alloc(), &DRAWN_{number})\n}}\n")
    return "\n".join(parts)


def copied(folder):
    """The folder of the test crate in a copy of the repository, with none of its tests but how logs are told."""
    shutil.copytree(f"{REPOSITORY}/crates", f"{folder}/crates", ignore=shutil.ignore_patterns("out"))
    for name in ["crates.txt", "HANDLES"]:
        shutil.copy(f"{REPOSITORY}/{name}", folder)
    crate = f"{folder}/crates/sp_test_logs"
    shutil.rmtree(f"{crate}/proofs", ignore_errors=True)
    for name in os.listdir(f"{crate}/src"):
        if name != "logs.rt":
            os.remove(f"{crate}/src/{name}")
    with open(f"{crate}/src/lib.rt", "w", encoding="utf-8") as text:
        text.write(LIB)
    return crate


def main(seed):
    dice = random.Random(seed)
    executions = [Execution(dice) for _ in range(EXECUTIONS)]
    with tempfile.TemporaryDirectory() as folder:
        crate = copied(folder)
        with open(f"{crate}/src/drawn.rt", "w", encoding="utf-8") as text:
            text.write(tests_of(executions))
        ran = subprocess.run(["rt", "try", "--test"], cwd=crate, capture_output=True, text=True, check=False)
    told = ran.stdout + ran.stderr
    passed = {int(number) for number in re.findall(r"^test drawn::drawn_(\d+) \.\.\. ok$", told, re.M)}
    if len(passed) < EXECUTIONS:
        print(told)
    for number in range(EXECUTIONS) if passed else []:
        if number not in passed:
            print(f"execution {number}\n{executions[number].theory()}" + "\n".join(executions[number].lines))
    steps = sum(len(execution.lines) for execution in executions)
    print(f"{EXECUTIONS} executions with {steps} steps: {len(passed)} passed")
    return 0 if len(passed) == EXECUTIONS else 1


if __name__ == "__main__":
    if len(sys.argv) != 2:
        sys.exit("usage: logs.py SEED")
    sys.exit(main(int(sys.argv[1])))
