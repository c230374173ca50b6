#!/usr/bin/env python3
"""Times provers on normal forms of towers of nested decryptions; see README.md beside it."""

import sys

from timed import each_size, row_that_begins

SIZES = [10, 100, 1_000]

THEORY = "theory Tower begin builtins: symmetric-encryption end\n"


def tower(height):
    """sdec(senc(.., 'k'), 'k') as often, round 'a'."""
    return "sdec(senc(" * height + "'a'" + ", 'k'), 'k')" * height


def steps(height):
    """The adversary knows the names, makes the tower's parts, which are 'a' in normal form, and then the tower."""
    below = f"senc({tower(height - 1)}, 'k')"
    return f"pub 'a'\npub 'k'\nmake senc('a', 'k')\nmake sdec({below}, 'k')\nin {tower(height)}\n"


def main(provers):
    for height, seconds, mib, written in each_size("tower.py", provers, "replay", SIZES, lambda height: THEORY + steps(height)):
        print(f"{height:>6} high {seconds:>9.4f} s {mib:>7.1f} MiB  {row_that_begins(written, 'K(')}")


if __name__ == "__main__":
    main(sys.argv[1:])
