#!/usr/bin/env python3
"""Counts places in src/ where a form of the language may be plainer than the one that stands there.

    python3 tools/places.py          a line for each kind of place: the point, the count, what is counted
    python3 tools/places.py --list   each place too

It reads text and judges nothing: docs/DESIGN-PASS.md says what became of each place. The mask table of deck is left out, and so are bodies of one or two lines
where bodies are compared.
"""
import collections
import glob
import re
import sys

NUMBER = r"(?:u8|u16|u32|u64|usize|i32|char)"
LINES = {
    "1 enums": r"^\s*(?:pub(?:\([a-z]+\))? )?enum ",
    "1 flags and counts that say which state": r"^\s*(?:pub(?:\([a-z]+\))? )?(?:held|minus|digits): ",
    "1 numbers for refusals: cases that hold one": r"Refused\(u8\)",
    "3 loops over a range, while, loop": r"^\s*(?:'[a-z]+: )?(?:for [a-z_]+ in [^{]*\.\.|while |loop \{)",
    "4 casts by as": rf"^(?!use|.*//).*\bas {NUMBER}\b",
    "4 Display, From, TryFrom, FromStr by hand": r"^impl.*(?:Display|From<|FromStr) ?.*for ",
    "4 comparisons and conversions by hand": r"is_colder\(self|/ 256|% 256|256 \*|b'0' \+|- b'[a0A]'|fn keep\b|fn code\b",
    "6 buffers with a length beside": r"^\s*(?:pub(?:\([a-z]+\))? )?(?:len|height|before): usize,?$",
    "6 parallel arrays": r"^\s*(?:pub(?:\([a-z]+\))? )?(?:shapes|entries): (?:&'a mut )?\[|^const (?:LEASTS|LASTS)\b|\blet mut (?:shapes|entries) =|^\s*shapes: &mut \[0",
    "7 function pointers and dyn": r"\bfn\(|\bdyn ",
}
FN = re.compile(r"^ *(?:pub(?:\([a-z]+\))? )?(extern \"C\" )?fn (\w+)(?:<[^(]*>)?\(", re.M)


def closing(text, at, pair):
    depth = 0
    for end in range(at, len(text)):
        depth += (text[end] == pair[0]) - (text[end] == pair[1])
        if depth == 0:
            return end
    return len(text)


def functions(path):
    """Name, whether it is exported to C, parameters, contract, body and place of each function of a file."""
    text = re.sub(r"//.*", "", open(path).read())
    for m in FN.finditer(text):
        end = closing(text, m.end() - 1, "()")
        head = re.sub(r"\[[^]\n]*;[^]\n]*\]", lambda m: m[0].replace(";", ","), text[end : end + 4000])
        open_body = re.compile(r"(?:^|(?<=[^ }]) )\s*\{\s*\n|\{\}|;", re.M).search(head)
        if not open_body or head[open_body.end() - 1] == ";":
            continue
        start = text.index("{", end + open_body.start())
        body = text[start : closing(text, start, "{}") + 1]
        yield m[2], bool(m[1]), text[m.end() : end], text[end:start], body, f"{path}:{text.count(chr(10), 0, m.start()) + 1} {m[2]}"


def shape(body):
    """The body with its names and numbers taken out, so that twins are equal."""
    names = {}
    def one(m):
        word = m[0]
        if word in KEYWORDS:
            return word
        return names.setdefault(word, f"x{len(names)}")
    return re.sub(r"\s+", " ", re.sub(r"\b\w+\b", one, body))


KEYWORDS = set("let mut if else match for in while loop return self Self Ok Err Some None true false as u8 u16 u32 usize i32".split())


def main():
    listed = "--list" in sys.argv
    files = [p for p in sorted(glob.glob("crates/*/src/**/*.rt", recursive=True)) if p != "crates/deck/src/masks.rt"]
    found = collections.defaultdict(list)
    bodies = collections.defaultdict(list)
    for path in files:
        for number, line in enumerate(open(path), 1):
            for kind, pattern in LINES.items():
                if re.search(pattern, line):
                    found[kind].append(f"{path}:{number}: {line.strip()}")
    for crate in sorted({p.split("/")[1] for p in files}):
        facts, together = collections.defaultdict(set), collections.defaultdict(set)
        for path in (p for p in files if p.split("/")[1] == crate):
            for name, exported, params, contract, body, place in functions(path):
                if re.match(r"\)\s*-> (?:u32|Result<[^>]*, \(?u8)", contract):
                    found["1 numbers for refusals: " + ("exports to C" if exported else "other functions")].append(place)
                if name == "code" and "match" in body:
                    found["1 numbers of refusals by a match"].append(place)
                if body.count("\n") > 3:
                    bodies[shape(body)].append(place)
                if exported:
                    continue
                for fact in re.findall(r"requires \w* ?\{ (.*) \}$", contract, re.M):
                    facts[re.sub(r"\.(?:now|old|new)\b", "", fact)].add(name + path)
                names = re.findall(r"(\w+):", params)
                names = (["self"] if "self" in params else []) + [n for n in names if n != "self"]
                for i, a in enumerate(names):
                    for j, b in enumerate(names[i + 1 :], i + 1):
                        for c in names[j + 1 :]:
                            together[a, b, c].add(name + path)
        found["5 facts required by three functions or more"] += [f"{crate}: {f} ({len(s)})" for f, s in facts.items() if len(s) > 2]
        found["5 parameters that go together in three functions or more"] += [
            f"{crate}: {' '.join(t)} ({len(s)})" for t, s in together.items() if len(s) > 2
        ]
    found["2 bodies equal but for names and numbers"] = [" = ".join(b) for b in bodies.values() if len(b) > 1]
    answers = glob.glob("crates/*/proofs/**/Answers.antt", recursive=True)
    proofs = glob.glob("crates/*/proofs/**/*.antt", recursive=True)
    found["8 lines of proofs"] = [line for p in proofs for line in open(p)]
    found["8 answers"] = [line.strip() for p in answers for line in open(p) if re.match(r"^[a-z]\S* (?:\S+ )*c = ", line)]
    for kind in sorted(found):
        print(f"{len(found[kind]):6}  {kind}")
        if listed and not kind.startswith("8"):
            for place in found[kind]:
                print("        " + place)


if __name__ == "__main__":
    main()
