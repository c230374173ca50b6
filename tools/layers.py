"""Checks what docs/MAP.md says of the crates against crates.txt: each crate stands in one box, and only on crates of its own box, of the
boxes that this box stands on, and on crates that are named. It also checks that the map prints the clause `headline` as it stands.

    python3 tools/layers.py           says what is wrong, and ends with 1; says nothing where all is right
    python3 tools/layers.py --draw    prints the rows that crates.txt gives, each crate as low as it can stand, and a longest chain
"""

import os
import re
import sys

ROOT = os.path.dirname(os.path.dirname(os.path.abspath(__file__)))
CLAUSE = os.path.join("crates", "sp_top", "specs", "Headline.antt")


def read(*path):
    with open(os.path.join(ROOT, *path), encoding="utf-8") as file:
        return file.read()


def dependencies():
    """The crates of crates.txt, each with those of them that it stands on."""
    named = {}
    for line in read("crates.txt").splitlines():
        line = line.split("#")[0].strip()
        if line:
            head, _, below = line.partition(":")
            named[head.split()[0]] = below.split()
    return {crate: [name for name in below if name in named] for crate, below in named.items()}


def in_quotes(cell):
    return re.findall(r"`(\w+)`", cell)


def tables_under(heading, text):
    """The tables under a heading of the map, each as its rows of cells, the names of the columns first."""
    part = re.search(rf"^## {heading}$(.*?)(?=^## |\Z)", text, flags=re.M | re.S)
    tables, inside = [], False
    for line in (part[1] if part else "").splitlines():
        if line.startswith("|") and not inside:
            tables.append([])
        inside = line.startswith("|")
        if inside and not line.startswith("|--"):
            tables[-1].append([cell.strip() for cell in line.strip("| ").split("|")])
    return tables


class Drawing:
    """What the map draws under "Boxes": the crates of each box, what each may stand on, the lowest first, and the exceptions."""

    def __init__(self, text):
        self.boxes, self.may, self.exceptions = {}, {}, set()
        for head, *rows in tables_under("Boxes", text):
            for row in rows:
                if head[:2] == ["box", "crates"]:
                    self.boxes[row[0]] = in_quotes(row[1])
                elif head[:2] == ["box", "stands on"]:
                    self.may[row[0]] = [] if row[1] == "nothing" else [name.strip("` ") for name in row[1].split(",")]
                elif head[:2] == ["crate", "stands on"]:
                    self.exceptions |= {(crate, name) for crate in in_quotes(row[0]) for name in in_quotes(row[1])}

    def places(self):
        """The box of each crate."""
        return {crate: box for box, crates in self.boxes.items() for crate in crates}


def faults_of_drawing(below, drawing):
    """What the drawing says wrongly by itself, a line each."""
    crates = [crate for names in drawing.boxes.values() for crate in names]
    for crate in sorted(set(below) | set(crates)):
        if crate not in crates:
            yield f"{crate} is in no box"
        elif crate not in below:
            yield f"{crate} is in a box, and no crate"
        elif crates.count(crate) > 1:
            yield f"{crate} is in two boxes"
    lower = set()
    for box, names in drawing.may.items():
        for name in names:
            if name not in lower:
                yield f"the box {box} stands on {name}, which is no box above it in the table, nor a crate of one"
        lower |= {box, *drawing.boxes.get(box, [])}
    for box in sorted(set(drawing.boxes) - set(drawing.may)):
        yield f"it isn't said what the box {box} stands on"


def faults_of_crates(below, drawing):
    """Which crates stand on what their boxes don't, and what is allowed that no crate needs."""
    places, needed = drawing.places(), set()
    for crate, names in sorted(below.items()):
        box = places.get(crate)
        for name in names:
            other = places.get(name)
            if None in (box, other) or box == other or other in drawing.may.get(box, []):
                continue
            if name in drawing.may.get(box, []):
                needed.add((box, name))
            elif (crate, name) in drawing.exceptions:
                needed.add((crate, name))
            else:
                yield f"{crate} stands on {name}, and the box {box} doesn't stand on the box {other}"
    for crate, name in sorted(drawing.exceptions - needed):
        yield f"{crate} on {name} is no exception"
    for box, names in drawing.may.items():
        for name in names:
            if name in places and (box, name) not in needed:
                yield f"no crate of the box {box} needs {name}"


def faults_of_order(below):
    """Which crates stand on themselves, by way of others."""

    def reached(crate):
        found, left = set(), list(below[crate])
        while left:
            name = left.pop()
            if name not in found:
                found.add(name)
                left += below[name]
        return found

    crates = [crate for crate in sorted(below) if crate in reached(crate)]
    if crates:
        yield f"crates.txt: these stand on themselves, by way of others: {' '.join(crates)}"


def lowest_rows(below):
    """The rows of the crates, each crate in the lowest that is above all that it stands on; the highest row first."""
    heights = {}

    def height(crate):
        if crate not in heights:
            heights[crate] = 1 + max((height(name) for name in below[crate]), default=0)
        return heights[crate]

    rows = {}
    for crate in sorted(below):
        rows.setdefault(height(crate), []).append(crate)
    return [rows[number] for number in sorted(rows, reverse=True)]


def longest_chain(below):
    """Crates each of which stands on the next one, as many as there are rows."""
    rows = lowest_rows(below)
    chain = [rows[0][0]]
    for row in rows[1:]:
        chain.append(next(crate for crate in row if crate in below[chain[-1]]))
    return chain


def draw(below):
    for number, crates in enumerate(lowest_rows(below)):
        print(f"| {number + 1} | {', '.join(f'`{crate}`' for crate in crates)} |")
    chain = longest_chain(below)
    print(f"\n{len(chain)} crates, each on the next: {' '.join(chain)}")


def main():
    below = dependencies()
    if sys.argv[1:] == ["--draw"]:
        draw(below)
        return 0
    text = read("docs", "MAP.md")
    drawing = Drawing(text)
    faults = list(faults_of_drawing(below, drawing)) or faults_of_crates(below, drawing)
    wrong = [f"docs/MAP.md: {fault}" for fault in faults] + list(faults_of_order(below))
    if f"```\n{read(CLAUSE)}```\n" not in text:
        wrong.append(f"docs/MAP.md: the clause isn't printed as it stands in {CLAUSE}")
    for fault in wrong:
        print(fault, file=sys.stderr)
    return 1 if wrong else 0


if __name__ == "__main__":
    sys.exit(main())
