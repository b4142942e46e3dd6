#!/usr/bin/env python3
"""Spells this repository's own definitions and lemmas in snake case.

usage: python3 tools/snake_names.py       at the top of the repository, once, after the kit's own script

It renames what a file of specs/ or proofs/ declares in camel case or with a dash (types and modules keep upper camel case), in
every .antt and .rt file, in the must-fail edits, and, of the names in camel case, in README.md and docs/. A name that a file
imports from a library stays. It stops, and writes nothing, where two names of one file would become one.
"""

import collections
import os
import re
import sys

# Lemmas that would fall together with the definition that they are about.
CHOSEN = {
    "element-of": "element_of_holds",
    "rounded-of": "rounded_of_holds",
    "resource-of": "resource_of_holds",
    "of-result": "of_result_holds",
    "is-of": "is_of_holds",
    "colour-typed": "colour_type_is",
    "first-from": "first_from_any",
    "inside-store": "inside_store_stays",
    "and-then": "and_then_holds",
}
# Names that the kit's script had spelled in snake case already, and that would fall together now: by file.
SPELLED = {
    "crates/run/proofs/Stored.antt": {"layer_fits": "layer_fits_stays"},
    "crates/run/proofs/Whole.antt": {"after_run": "after_run_is"},
    "crates/run/proofs/runs/run/Answers.antt": {"after_run": "after_run_is"},
}
DECLARED = re.compile(r"^\s*(?:(?:abbrev|unfoldable|opaque|private)\s+)?(?:pub\s+)?([^\s(){}:;,.=]+) : (.*)$")
LIBRARY = re.compile(r"^\s*(?:ghost )?use (?:Rattle\.std\.|lib\.|borrow\.|mathlib\.|Prim\.|native\.)[^{\n]*\{([^}]*)\}", re.M)
WORD = re.compile(r"[A-Za-z0-9_'\-\u2261\u2262\u25cc]+")


def snake(name):
    if name in CHOSEN:
        return CHOSEN[name]
    name = name.replace("getD", "get_or").replace("-", "_")
    return re.sub(r"([a-z0-9])([A-Z])", lambda m: m.group(1) + "_" + m.group(2).lower(), name)


def files(kinds):
    for folder, dirs, names in os.walk("crates"):
        dirs[:] = sorted(d for d in dirs if d != "out")
        for n in sorted(names):
            if n.endswith(kinds):
                yield os.path.join(folder, n)


def pages():
    return ["README.md"] + sorted(os.path.join("docs", n) for n in os.listdir("docs") if n.endswith(".md"))


def read(path):
    with open(path, encoding="utf-8") as f:
        return f.read()


def declared():
    found = set()
    for path in files((".antt",)):
        for line in read(path).splitlines():
            m = DECLARED.match(line)
            if m and "goal." not in m.group(2) and m.group(1)[0].islower() and ("-" in m.group(1) or re.search("[a-z0-9][A-Z]", m.group(1))):
                found.add(m.group(1))
    return found


def main():
    names = {n: snake(n) for n in declared()}
    turned, together = {}, []
    for path in files((".antt", ".rt", ".edit")):
        text = read(path)
        lent = set(WORD.findall(" ".join(LIBRARY.findall(text))))
        own = {n: to for n, to in (names | SPELLED.get(path, {})).items() if n not in lent}
        came = collections.defaultdict(set)

        def turn(m):
            word = m.group(0)
            to = own.get(word, word)
            if path.endswith(".antt") and text[m.start() - 1 : m.start()] != ".":
                came[to].add(word)
            return to

        new = WORD.sub(turn, text)
        together += [f"{path}: {to} from {sorted(words)}" for to, words in came.items() if len(words) > 1]
        if new != text:
            turned[path] = new
    for path in pages():
        text = read(path)
        new = WORD.sub(lambda m: names.get(m.group(0), m.group(0)) if "-" not in m.group(0) else m.group(0), text)
        if new != text:
            turned[path] = new
    if together:
        sys.exit("names that fall together:\n" + "\n".join(together))
    for path, text in turned.items():
        with open(path, "w", encoding="utf-8") as f:
            f.write(text)
    print(f"{len(names)} names in {len(turned)} files")


main()
