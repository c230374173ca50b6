#!/usr/bin/env python3
"""Times provers on a nonce under N encryptions, each under a long-term key of its own; see README.md beside it."""

import re
import sys

from timed import each_size, row_that_begins

SIZES = range(1, 9)

SHARE = "rule Share_{n}: [ Fr(~k) ] --> [ !Shared_{n}(~k) ]\n"
SEND = "rule Send: [ Fr(~n), {keys} ] --[ Sent(~n) ]-> [ Out({message}) ]\n"
LEMMA = 'lemma secrecy: "All n #i. Sent(n)@i ==> not (Ex #j. K(n)@j)"\n'


def theory(count):
    """A rule that sends a nonce under so many keys, which no rule puts out, so that nobody opens even the outermost encryption."""
    numbers = range(1, count + 1)
    message = "~n"
    for n in numbers:
        message = f"senc({message}, k{n})"
    keys = ", ".join(f"!Shared_{n}(k{n})" for n in numbers)
    rules = "".join(SHARE.format(n=n) for n in numbers) + SEND.format(keys=keys, message=message)
    return "theory Encryptions begin\nbuiltins: symmetric-encryption\n" + rules + LEMMA + "end\n"


def main(provers):
    for count, seconds, mib, written in each_size("encryptions.py", provers, "prove", SIZES, theory):
        row = row_that_begins(written, "secrecy (")
        steps = re.search(r"verified \((\d+) steps\)$", row)
        share = f"{seconds / int(steps[1]) * 1000:.3f} ms a step" if steps else "not verified"
        print(f"{count:>4} encryptions {seconds:>9.4f} s {mib:>7.1f} MiB  {share:>18}  {row}")


if __name__ == "__main__":
    main(sys.argv[1:])
