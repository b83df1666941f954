#!/usr/bin/env python3
"""Brings the repository's own definitions and lemmas to snake case, and its own types to camel case.

    python3 tools/respell.py      run once, at the repository's root, after the language's own upgrade script

A name is ours where a file of specs/ or proofs/ states it with a type and no function's goal has that name. Names of the library, of goals
and of functions of src/ stay as they are. A name that would fall together with another one gets the name that `APART` says.
"""
import os
import re

TOKEN = re.compile(r"(?<![\w'′₀-₉\-])([A-Za-z][\w'′₀-₉]*(?:-[\w'′₀-₉]+)+)(?![\w'-])")
STATED = re.compile(
    r"^\s*(?:(?:abbrev|unfoldable|pub|data|record|let)\s+)*([A-Za-z][\w'′₀-₉\-]*(?:\s+[A-Za-z][\w'-]*)*)\s*"
    r"(?:\([^()]*\)\s*|\{[^{}]*\}\s*)*:\s"
)
# names of types, and names bound in a statement or by a let
BOUND = re.compile(r"(?:\b(?:record|data|let)\s+|[({](?:[\w']+\s+)*)([A-Za-z][\w'₀-₉\-]*(?:\s+[A-Za-z][\w'\-]*)*)\s+[:=(]")
OWN_PATH = re.compile(r"Rattle\.(reading|shape|log|strip|bake|panel|console|deck|shift|masks|playback|bench)\.")
# names that would meet a function, a type or a module of the same name
APART = {
    "One-to-one": "IsOneToOne",
    "cells-are-paths": "cells_show_paths",
    "kept-count": "clearance_count",
    "is-blank": "is_blank_number",
    "with-digit": "extended",
    "Only-set": "only_set",
    "only-window": "only_window",
}


def files():
    for root, folders, names in os.walk("crates"):
        folders[:] = [f for f in folders if f not in ("out", "must-fail")]
        for name in names:
            if name.endswith((".antt", ".rt")):
                yield os.path.join(root, name)


def stated(text):
    """The hyphenated names that a file states, and those of them that are goals of functions."""
    own, goals = set(), set()
    for line in text.split("\n"):
        if line.lstrip().startswith("--"):
            continue
        m = STATED.match(line)
        for name in m[1].split() if m else ():
            if "-" in name:
                (goals if re.search(r":\s*goal\.", line) else own).add(name)
        own |= {name for b in BOUND.finditer(line) for name in b[1].split() if "-" in name}
    return own, goals


def foreign(text):
    """The hyphenated names that a file imports from elsewhere, or from what is generated for a function."""
    names = set()
    for m in re.finditer(r"^\s*(?:pub )?use ([\w.]+)\.\{([^}]*)\}", text, re.M):
        generated = re.search(r"\.proofs\..+\.(Goals|Given)$", m[1])
        if generated or not OWN_PATH.match(m[1] + "."):
            names |= {n.strip().split(" as ")[0] for n in m[2].split(",") if "-" in n}
    return names


def respelled(name):
    if name in APART:
        return APART[name]
    name = name.replace("getD", "get_or")
    if name[0].isupper():
        return "".join(part[0].upper() + part[1:] for part in name.split("-"))
    return name.replace("-", "_")


def main():
    texts = {path: open(path, encoding="utf-8").read() for path in files()}
    own, goals, others = set(), set(), set()
    for path, text in texts.items():
        if path.endswith(".antt"):
            a, b = stated(text)
            own, goals, others = own | a, goals | b, others | foreign(text)
    names = {name: respelled(name) for name in (own | set(APART)) - goals - others}
    assert len(set(names.values())) == len(names), "two names fall together"
    for path, text in texts.items():
        def put(m):
            before = text[: m.start()]
            return m[1] if before.endswith("goal.") else names.get(m[1], m[1])

        new = TOKEN.sub(put, text)
        if new != text:
            open(path, "w", encoding="utf-8").write(new)
    print(f"{len(names)} names")


if __name__ == "__main__":
    main()
