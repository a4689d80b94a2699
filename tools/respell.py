#!/usr/bin/env python3
"""Respells the repository's own definitions and lemmas: words in snake case, types in camel case.

usage: python3 tools/respell.py [--list]      at the top of a checkout, once, after the kit's own respelling

A name that a file of specs/ or proofs/ declares is respelled where it begins with a small letter and has a dash or a
capital inside (`step-first` becomes `step_first`, `costOf` becomes `cost_of`), and where it is a type of two words
(`By-line` becomes `ByLine`). The names of goals and what the library declares keep their spelling; strings, comments,
names of modules and the code of src/ are not touched. Where two names would fall together it says which, and writes
nothing. With --list it prints what it would respell.
"""

import os
import re
import sys

# Where the plain respelling would fall together with another name of the repository, or reads badly.
CHOSEN = {
    "endingOf": "ending_of_fault",
    "grammarOf": "grammar_of_rows",
    "rule-of": "rule_of_lem",
    "getD-member": "get_or_member",
    # Lemmas that are spelled like a step of a proof, and types with arguments.
    "in-at": "in_at",
    "in-bit": "in_bit",
    "in-from": "in_from",
    "in-none": "in_none",
    "in-union": "in_union",
    "Bad-load": "BadLoad",
    "First-spelled": "FirstSpelled",
    "Good-load": "GoodLoad",
    "Is-mark": "IsMark",
    "Is-number": "IsNumber",
    "Is-text": "IsText",
    "Is-word": "IsWord",
    "Load-ends": "LoadEnds",
    "Script-set": "ScriptSet",
}
# Names of one crate alone, where a name of another crate comes to the same.
IN_CRATE = {"lines": {"no_place": "no_place_lem"}}

TOKEN = re.compile(r"[^\s(){}\[\],;.«»|\"`]+")
# A declaration: its words, its name, its arguments and its type.
DECLARATION = re.compile(r"^\s*(?:(?:abbrev|unfoldable|pub|data|record|ruleset|axiom) )*(\S+)(?: [({].*)? :(?: (.*))?$")
LIBRARY = re.compile(r"\s*(?:pub )?use (?:Rattle\.std\.|mathlib\.|Prim\.|Rattle\.\w+\.(?:proofs\.\S+\.(?:Goals|Given)|specs\.declared))\S*\{(.*)\}")
# How the name of a goal, an invariant or a measure begins, which is made from the code.
GOAL = re.compile(r"(loop|returns|invariant|decreases|overflow|bounds|slice_bounds|nonzero|if|then|else|in)-")
ANSWERS = ("Answers.antt", "Invariants.antt", "Proof.antt")


def texts(ends):
    for folder, dirs, files in os.walk("crates"):
        dirs[:] = sorted(d for d in dirs if d != "out")
        for f in sorted(files):
            if f.endswith(ends):
                yield os.path.join(folder, f)


def read(path):
    with open(path, encoding="utf-8") as f:
        return f.read()


def snake(name):
    name = re.sub(r"(?<=[a-z0-9])([A-Z])(?=[a-z]|$|-|_)", lambda m: "_" + m.group(1).lower(), name)
    return name.replace("-", "_")


def camel(name):
    return re.sub(r"[-_](\w)", lambda m: m.group(1).upper(), name)


def declared():
    """The names that the repository declares with their types, those of goals, and those of the library."""
    found, goals, library = {}, set(), set()
    for path in texts(".antt"):
        for line in read(path).split("\n"):
            used = LIBRARY.match(line)
            if used:
                library |= {word.split(" as ")[0].strip() for word in used.group(1).split(",")}
            it = DECLARATION.match(line)
            if not it or line.lstrip().startswith("--"):
                continue
            name, of = it.group(1), it.group(2) or ""
            if os.path.basename(path) in ANSWERS and ("goal." in of or GOAL.match(name)):
                goals.add(name)
            else:
                found.setdefault(name, set()).add(of)
    return found, goals, library


def respelled(name, types):
    if name[0].islower() and ("-" in name or re.search(r"[a-z0-9][A-Z]", name)):
        return snake(name)
    is_type = any(of.rstrip().endswith("Type 0") for of in types)
    if name[0].isupper() and is_type and re.search(r"[-_][a-z]", name):
        return camel(name)
    return name


def plan():
    found, goals, library = declared()
    to = {}
    for name, types in sorted(found.items()):
        if name not in goals and name not in library and not GOAL.match(name) and respelled(name, types) != name:
            to[name] = respelled(name, types)
    to |= CHOSEN
    gone = set(to).union(*IN_CRATE.values())
    taken = (set(found) - gone) | library | goals
    new = list(to.values())
    met = [f"{old} -> {name}" for old, name in to.items() if name in taken or new.count(name) > 1]
    if met:
        sys.exit("respell: these would fall together with another name: " + ", ".join(met))
    return to


def turn(text, to, mark):
    """The text with its names respelled, outside the comments, which begin with the mark."""
    lines = []
    for line in text.split("\n"):
        head, dash, comment = line.partition(mark)
        lines.append(TOKEN.sub(lambda m: to.get(m.group(0), m.group(0)), head) + dash + comment)
    return "\n".join(lines)


def main():
    to = plan()
    if "--list" in sys.argv:
        for old, new in sorted(to.items()):
            print(old, new)
        return
    n = 0
    for path in texts((".antt", ".rt")):
        text = read(path)
        of_crate = IN_CRATE.get(path.split(os.sep)[1], {})
        new = turn(text, to | of_crate, "-- " if path.endswith(".antt") else "//")
        if new != text:
            n += 1
            with open(path, "w", encoding="utf-8") as f:
                f.write(new)
    print(f"respell: {len(to)} names, {n} files")


main()
