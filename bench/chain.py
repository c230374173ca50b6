#!/usr/bin/env python3
"""Times provers on theories with N stages in a chain; see README.md beside it."""

import sys

from timed import each_size, row_that_begins

SIZES = [5, 10, 20, 40, 160]

FIRST = "rule First: [ Fr(~x) ] --[ First(~x) ]-> [ T_0(~x) ]\n"
STAGE = "rule Stage_{n}: [ T_{n}(x) ] --> [ T_{next}(x) ]\n"
LAST = "rule Last: [ T_{n}(x) ] --[ Last(x) ]-> [ ]\n"
LEMMA = 'lemma follows: "All x #i. Last(x)@i ==> Ex #j. First(x)@j & #j < #i"\n'


def theory(stages):
    """The theory with this many stages between the first and the last rule."""
    middle = "".join(STAGE.format(n=n, next=n + 1) for n in range(stages))
    return "theory Chain begin\n" + FIRST + middle + LAST.format(n=stages) + LEMMA + "end\n"


def main(provers):
    before = 0
    for stages, seconds, mib, written in each_size("chain.py", provers, "prove", SIZES, theory):
        growth = "" if stages == SIZES[0] else f"{seconds / before:.1f} x"
        print(f"{stages:>4} stages {seconds:>9.4f} s {growth:>8} {mib:>7.1f} MiB  {row_that_begins(written, 'follows (')}")
        before = seconds


if __name__ == "__main__":
    main(sys.argv[1:])
