#!/usr/bin/env python3
"""Times provers on N lemmas, each of which is taken for those below it; see README.md beside it."""

import itertools
import re
import sys

from timed import each_size

COUNTS = [10, 30, 100]

RULE = "rule Make_{n}: [ Fr(~k) ] --[ A_{n}(~k) ]-> [ ]\n"
LEMMA = 'lemma once_{n}{mark}: "All x #i #j. A_{n}(x)@i & A_{n}(x)@j ==> #i = #j"\n'

SHARED_RULE = "rule Make: [ Fr(~k) ] --[ A(~k), {actions} ]-> [ ]\n"
SHARED_LEMMA = 'lemma with_{n}{mark}: "All x #i #j. A(x)@i & B_{n}(x)@j ==> #i = #j"\n'


def apart(count, mark):
    """Each lemma is about a rule of its own, so that no lemma that is taken says anything of the steps of another one's proof."""
    numbers = range(1, count + 1)
    rules = "".join(RULE.format(n=n) for n in numbers)
    return rules + "".join(LEMMA.format(n=n, mark=mark) for n in numbers)


def alike(count, mark):
    """All lemmas are about the actions of one rule, so that each lemma that is taken says something of each step of the rule."""
    numbers = range(1, count + 1)
    rule = SHARED_RULE.format(actions=", ".join(f"B_{n}(~k)" for n in numbers))
    return rule + "".join(SHARED_LEMMA.format(n=n, mark=mark) for n in numbers)


ITEMS = {"apart": apart, "alike": alike}
MARKS = {"alone": "", "taken": " [reuse]"}
SIZES = list(itertools.product(ITEMS, COUNTS, MARKS))


def theory(size):
    """The theory with so many lemmas of the shape, which are taken for those below them, or aren't."""
    shape, count, taking = size
    return "theory Reuse begin\n" + ITEMS[shape](count, MARKS[taking]) + "end\n"


def step_counts(written):
    """How many steps the proof of each lemma has that is verified."""
    return [int(found) for found in re.findall(r"\(all-traces\): verified \((\d+) steps\)\n", written)]


def main(provers):
    alone = 0
    before = {}
    for size, seconds, mib, written in each_size("reuse.py", provers, "prove", SIZES, theory):
        shape, count, taking = size
        steps = step_counts(written)
        share = seconds / max(1, sum(steps)) * 1000
        growth = "" if count == COUNTS[0] else f"{share / before[shape, taking]:.1f} x"
        before[shape, taking] = share
        note = f"  {seconds / alone:.1f} x alone" if taking == "taken" else ""
        alone = seconds
        wrong = "" if len(steps) == count else f"  {len(steps)} verified"
        print(f"{shape} {count:>4} lemmas {taking} {seconds:>9.4f} s {mib:>7.1f} MiB {share:>8.4f} ms a step {growth:>7}{note}{wrong}")


if __name__ == "__main__":
    main(sys.argv[1:])
