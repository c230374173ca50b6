"""Lists the public functions whose contract leaves a choice and that no must-fail edit reaches: a line each, with the clauses.

    python3 tools/clauses.py

A contract leaves no choice where one clause is an equation for what the function returns or changes (`result ≡ ..`, also behind `IfOk` and
its kin, or `IsTrue result ↔ ..`), or names a relation of which a law says that it is one. A function without parameters is a law: it has no
body that could be wrong. An edit reaches a function if it changes a line of it, or of a function of the crate that it calls. Calls are found
by name, so that a row is a place to look. Run by hand: it changes nothing.
"""

import collections
import glob
import os
import re

ROOT = os.path.dirname(os.path.dirname(os.path.abspath(__file__)))

# Relations that are functions of what is given: those that say an equation in other words, and those of which a law says that they are one.
EQUATIONS = ("Reduced", "HasCases")
LAWS = {
    "AreTokens": "texts_are_cut_one_way",
    "IsClosed": "closed_formulas_are_one",
    "SpellsProof": "proofs_are_one",
    "IsTextOf": "texts_say_one_theory",
    "IsRefusedAt": "refusals_are_one",
    "AreStepLines": "steps_are_one",
    "IsReplay": "replays_are_one",
    "IsReplyTo": "replies_are_one",
    "IsMostGeneral": "most_general_is_one",
}

HEAD = re.compile(r"(?m)^\s*((?:pub )?)(?:final )?fn (\w+)")
CLAUSE = re.compile(r"(?:\s|//[^\n]*\n)*(requires|ensures|ghost)\*?\s*\w*\s*:?\s*\{")
ON_RESULT = re.compile(r"(?:IfOk|OnOk|IfSome|OnErr|MatchOption) \S+ \((?:λ [\w ]+\. )?(.*)\)")

Function = collections.namedtuple("Function", "crate file name public lines head clauses body")


def closing(text, at):
    """The place behind the brace that closes what was opened before this place."""
    depth = 1
    while depth and at < len(text):
        depth += {"{": 1, "}": -1}.get(text[at], 0)
        at += 1
    return at


def functions(crate, path):
    """The functions of a file, each with its clauses."""
    with open(path, encoding="utf-8") as file:
        text = file.read()
    for match in HEAD.finditer(text):
        at, depth = match.end(), 0
        while at < len(text) and not (depth == 0 and (text[at] in "{;" or CLAUSE.match(text, at))):
            depth += {"(": 1, ")": -1, "[": 1, "]": -1}.get(text[at], 0)
            at += 1
        head, clauses = text[match.start() : at], []
        while clause := CLAUSE.match(text, at):
            at = closing(text, clause.end())
            if clause.group(1) == "ensures":
                clauses.append(" ".join(text[clause.end() : at - 1].split()))
        opened = re.compile(r"\s*\{").match(text, at)
        end = closing(text, opened.end()) if opened else at
        body = text[opened.end() : end - 1] if opened else ""
        yield Function(crate, os.path.basename(path), match.group(2), bool(match.group(1)), text[match.start() : end], head, clauses, body)


def is_equation(clause):
    """Whether the clause is an equation whose right side doesn't speak of what comes of the call."""
    while match := ON_RESULT.fullmatch(clause.strip()):
        clause = match.group(1)
    depth = 0
    for at, sign in enumerate(clause):
        depth += {"(": 1, ")": -1, "[": 1, "]": -1}.get(sign, 0)
        if depth == 0 and sign in "≡↔":
            return not re.search(r"\bresult\b|\.new\b|\.exit\b", clause[at + 1 :])
    return False


def leaves_choice(function, laws):
    """Whether no clause of the function fixes what comes of it."""
    words = set(re.findall(r"\w+", " ".join(function.clauses)))
    fixed = words & ({*EQUATIONS} | {relation for relation, law in LAWS.items() if law in laws})
    return not fixed and not any(is_equation(clause) for clause in function.clauses)


def is_law(function):
    return re.search(r"\(\)\s*$", function.head) is not None


def edited_lines(crate):
    """The old texts of the crate's edits, each with the file in which it stands."""
    for path in sorted(glob.glob(f"{ROOT}/crates/{crate}/must-fail/*.edit")):
        file = ""
        with open(path, encoding="utf-8") as lines:
            for line in lines:
                if line.startswith("file:"):
                    file = os.path.basename(line[5:].strip())
                elif line.startswith("old:"):
                    yield file, line[4:].strip()


def reached(function, by_name, seen):
    """Adds the function and those of its crate that it calls."""
    if function not in seen:
        seen.add(function)
        for word in set(re.findall(r"\b(\w+)(?:::<[^>]*>)?\(", function.body)):
            for called in by_name.get(word, []):
                reached(called, by_name, seen)


def main():
    crates = sorted(os.path.basename(path) for path in glob.glob(f"{ROOT}/crates/*"))
    found = {
        crate: [one._replace(clauses=tuple(one.clauses)) for path in sorted(glob.glob(f"{ROOT}/crates/{crate}/src/**/*.rt", recursive=True)) for one in functions(crate, path)]
        for crate in crates
        if not crate.startswith("sp_test_")
    }
    laws = {one.name for functions_of in found.values() for one in functions_of if is_law(one)}
    missing = sorted(law for law in LAWS.values() if law not in laws)
    counts = collections.Counter()
    for crate, own in found.items():
        by_name = collections.defaultdict(list)
        for one in own:
            by_name[one.name].append(one)
        edits = list(edited_lines(crate))
        for one in own:
            if not one.public or not one.clauses or is_law(one):
                continue
            counts["public"] += 1
            if not leaves_choice(one, laws):
                continue
            counts["choice"] += 1
            seen = set()
            reached(one, by_name, seen)
            if any(file == other.file and old in other.lines for file, old in edits for other in seen):
                counts["reached"] += 1
                continue
            print(f"{crate}/{one.file} {one.name}: {'; '.join(clause[:120] for clause in one.clauses)}")
    for law in missing:
        print(f"the law {law} is gone")
    print(f"of {counts['public']} public functions with clauses {counts['choice']} leave a choice, {counts['reached']} of which an edit reaches")


if __name__ == "__main__":
    main()
