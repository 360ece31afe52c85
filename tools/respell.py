#!/usr/bin/env python3
"""Respells the repository's own names, once, after the kit's port.py: definitions, lemmas, fields and constructors of
specs/ and proofs/ in snake case, in .antt and .rt files, must-fail edits and pages. Functions of src/, exported names,
strings, inputs and outputs are in snake case already and stay.

usage: python3 tools/respell.py     at the top of the repository

Where two names fall together, the lemma gets an ending: LEMMAS names them with the files that cite them.
"""

import os
import re

WORD = re.compile(r"(?<![\w'·-])[a-z][\w']*(?:[-→][\w'ℕℤ]+)*")
CAMEL = re.compile(r"(?:^|[-→_])[a-z][a-z0-9]*[A-Z]")
STRING = re.compile(r'b?"(?:[^"\\\n]|\\.)*"')

# A lemma that now would have the name of a definition in its file.
LEMMAS = {
    "hold_at": [
        "crates/list_format/proofs/NeedsLaws.antt",
        "crates/list_format/proofs/ReadBack.antt",
        "crates/list_format/proofs/WriteBack.antt",
        "crates/delay_list/proofs/hold_at/Proof.antt",
    ],
    "flag_at": ["crates/propagate/proofs/StoreLaws.antt"],
    "pair_line": [
        "crates/scan/proofs/CaseLaws.antt",
        "crates/scan/proofs/line_fault/Proof.antt",
        "crates/list_text/proofs/RoundTrip.antt",
    ],
    "is_one": ["crates/read_list/proofs/store/Proof.antt"],
}

# Old spellings in must-fail edits, which port.py does not turn.
SPELLINGS = [
    ("′", "'"),
    ("getD ", "get_or "),
    ("the-variants", "TheVariants"),
]
OPERATOR = re.compile(r"(?<![\w◌])_(\+\+|\+|-|\*|/|%|\^|<|≤|≡|∷|&&|\|\||⊎|∙)_(?!\w)")
FIELD = re.compile(r"(?<=[\w')]) \.(?=[a-z])")


def snake(word):
    parts = re.split(r"([-→])", word)
    return "".join(re.sub(r"(?<=[a-z0-9'])([A-Z])", lambda m: "_" + m[1].lower(), p) if p[:1].islower() else p for p in parts)


def respelled(text):
    return WORD.sub(lambda m: snake(m[0]) if CAMEL.search(m[0]) else m[0], text)


def but_strings(text, turn):
    out, at = [], 0
    for m in STRING.finditer(text):
        out += [turn(text[at : m.start()]), m[0]]
        at = m.end()
    return "".join(out + [turn(text[at:])])


def lemma(text, name):
    return re.sub(r"(?<![\w'.-])" + name + r"(?![\w'-])", name + "_lem", text)


def edit(text):
    lines = []
    for line in text.split("\n"):
        if line.startswith(("old:", "new:")):
            for a, b in SPELLINGS:
                line = line.replace(a, b)
            line = OPERATOR.sub(r"◌\1◌", line)
            line = FIELD.sub(".", line)
            line = respelled(line)
        lines.append(line)
    return "\n".join(lines)


def files():
    for top in ("crates", "docs", "rust", "README.md"):
        if os.path.isfile(top):
            yield top
        for folder, dirs, names in os.walk(top):
            dirs[:] = sorted(d for d in dirs if d not in ("out", "target", "data"))
            for n in sorted(names):
                yield os.path.join(folder, n)


def spans(text):
    return re.sub(r"`[^`\n]+`", lambda m: respelled(m[0]), text)


def main():
    for path in files():
        if not path.endswith((".antt", ".rt", ".edit", ".md")) or path == "docs/PORT.md":
            continue
        with open(path, encoding="utf-8") as f:
            old = f.read()
        new = old
        if path.endswith(".edit"):
            new = edit(new)
        elif path.endswith(".md"):
            new = spans(new)
        else:
            for name, where in LEMMAS.items():
                if path in where:
                    new = lemma(new, name)
            new = but_strings(new, respelled)
        if new != old:
            with open(path, "w", encoding="utf-8") as f:
                f.write(new)


if __name__ == "__main__":
    main()
