#!/usr/bin/env python3
"""Times provers on the forms of a rule with N destructors; see README.md beside it."""

import sys

from timed import each_size, row_that_begins

SIZES = range(1, 9)


def theory(count):
    """A rule that shows the first parts of so many variables."""
    names = [f"x{n}" for n in range(count)]
    shown = ", ".join(f"fst({name})" for name in names)
    return f"theory Forms begin rule R: [ M({', '.join(names)}) ] --> [ N({shown}) ] end\n"


def main(provers):
    for count, seconds, mib, written in each_size("forms.py", provers, "variants", SIZES, theory):
        print(f"{count:>4} destructors {seconds:>9.4f} s {mib:>7.1f} MiB  {row_that_begins(written, 'rule R: ')}")


if __name__ == "__main__":
    main(sys.argv[1:])
