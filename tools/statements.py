"""Lists the lemmas that are stated more than once, up to the names of what they bind, each with its places; the last line counts the copies.

    python3 tools/statements.py

Read are the lemma files crates/*/proofs/*.antt. A statement stands on one line or goes on in deeper lines. Names that a file imports are told by
the module that they come from, so that two lemmas on definitions of one name are not taken for one. Run by hand: it changes nothing.
"""

import collections
import glob
import os
import re

ROOT = os.path.dirname(os.path.dirname(os.path.abspath(__file__)))
TOKEN = re.compile(r"[A-Za-z_][\w'\-]*(?:\.[A-Za-z_][\w'\-]*)*|\d+|[^\sA-Za-z0-9_]")
HEAD = re.compile(r"^(\s*)((?:pub )?)([^\s:(){}.]+)\s*:\s+(.*)$")
BOUND = re.compile(r"[({]\s*((?:[^\s(){}:λ→]+\s+)*[^\s(){}:λ→]+)\s*:(?=\s)")
LAMBDA = re.compile(r"λ((?:\s+[^\s(){}.:]+)+)\.")


def imports(lines):
    """The names that a file imports, each with where it comes from."""
    found = {}
    for line in lines:
        match = re.match(r"(?:pub )?use (\S+?)(?:\.\{(.*)\})?(?: as (\S+))?$", line)
        if match and match.group(2):
            for name in match.group(2).split(","):
                there, _, here = name.strip().partition(" as ")
                found[here or there] = f"{match.group(1)}.{there}"
        elif match and match.group(3):
            found[match.group(3)] = match.group(1)
    return found


def statements(lines):
    """Each name with its statement, and the line where it begins, from 1; a name that no clause follows is bound inside of another."""
    seen = set()
    number = 0
    while number < len(lines):
        match = HEAD.match(lines[number])
        begins = number + 1
        number += 1
        if not match or match.group(3) in seen:
            continue
        text, indent = match.group(4), len(match.group(1))
        while number < len(lines) and lines[number].strip() and len(lines[number]) - len(lines[number].lstrip()) > indent:
            text += " " + lines[number].strip()
            number += 1
        clause = next((line for line in lines[number:] if line.strip() and not line.lstrip().startswith("unfolding ")), "")
        if clause.split()[:1] == [match.group(3)]:
            seen.add(match.group(3))
            yield match.group(3), text, begins


def plain(text, imported, module):
    """The statement with what it binds numbered, and with what is imported told by where it comes from."""
    bound = set()
    for match in list(BOUND.finditer(text)) + list(LAMBDA.finditer(text)):
        bound.update(match.group(1).split())
    numbers, words = {}, []
    for word in TOKEN.findall(text):
        first, _, rest = word.partition(".")
        if first in bound:
            words.append(f"v{numbers.setdefault(first, len(numbers))}.{rest}")
        elif first in imported:
            words.append(f"{imported[first]}.{rest}".rstrip("."))
        elif re.match(r"[A-Za-z_]", word) and word not in ("Type", "λ", "let", "in", "if", "then", "else"):
            words.append(f"{module}.{word}")
        else:
            words.append(word)
    return " ".join(words)


def main():
    places = collections.defaultdict(list)
    for path in sorted(glob.glob(os.path.join(ROOT, "crates", "*", "proofs", "*.antt"))):
        with open(path, encoding="utf-8") as file:
            lines = file.read().split("\n")
        imported = imports(lines)
        where = os.path.relpath(path, os.path.join(ROOT, "crates"))
        for name, text, number in statements(lines):
            places[plain(text, imported, where)].append((f"{where}:{number} {name}", text))
    copied = sorted((found for found in places.values() if len(found) > 1), key=lambda found: -len(found))
    for found in copied:
        print(f"{len(found)}  {found[0][1][:120]}")
        for place, _ in found:
            print(f"     {place}")
    print(f"{sum(len(found) - 1 for found in copied)} copies of {len(copied)} statements")


if __name__ == "__main__":
    main()
