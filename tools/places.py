#!/usr/bin/env python3
"""Lists places of crates/*/src that a grep does not find, for docs/DESIGN-PASS.md.

    tools/places.py repeats     runs of six lines that stand twice
    tools/places.py long        functions with seven parameters or more
    tools/places.py counted     functions with a slice and a count beside it
    tools/places.py clauses     first words of what three functions or more require
"""
import collections
import glob
import re
import sys

RUN = 6
COUNT = r"\b(n|m|k|count|needs|height|size|len|moves): (usize|u32)"
FUNCTION = re.compile(r"^[ \t]*(?:pub )?(?:extern \"C\" )?fn (\w+)(?:<[^>(]*>)?\(([^()]*(?:\([^()]*\)[^()]*)*)\)([^{;]*)", re.M)


def sources():
    return sorted(glob.glob("crates/*/src/**/*.rt", recursive=True))


def functions():
    for path in sources():
        text = open(path).read()
        for found in FUNCTION.finditer(text):
            name, parameters = found.group(1), " ".join(found.group(2).split())
            clauses = re.findall(r"\n[ \t]*requires (?:\w+ )?\{(.*?)\}\n", text[found.start():text.find("\n{", found.start()) + 1] + "\n", re.S)
            yield path, name, parameters, clauses


def repeats():
    runs = collections.defaultdict(list)
    for path in sources():
        lines = [(i, " ".join(line.split())) for i, line in enumerate(open(path), 1)]
        lines = [(i, line) for i, line in lines if line and not line.startswith(("//", "use ", "ghost use "))]
        for k in range(len(lines) - RUN + 1):
            run = "\n".join(line for _, line in lines[k:k + RUN])
            if len(re.sub("[^a-z]", "", run)) >= 40:
                runs[run].append((path, lines[k][0]))
    pairs = collections.Counter()
    for places in runs.values():
        for i, one in enumerate(places):
            pairs.update((one[0], other[0]) for other in places[i + 1:])
    for (one, other), count in pairs.most_common():
        print(count + RUN - 1, one, other)
    print(len(pairs), "pairs of files")


def long():
    found = [(path, name) for path, name, parameters, _ in functions() if len(re.findall(r"\w+: ", parameters)) >= 7]
    for place in found:
        print(*place)
    print(len(found), "functions")


def counted():
    found = [(path, name) for path, name, parameters, _ in functions() if re.search(r"&(mut )?\[", parameters) and re.search(COUNT, parameters)]
    for place in found:
        print(*place)
    print(len(found), "functions")


def clauses():
    words = collections.Counter()
    for _, _, _, required in functions():
        for clause in required:
            words.update(part.strip(" ()").split(" ")[0] for part in " ".join(clause.split()).split(" × "))
    for word, count in words.most_common():
        if count >= 3:
            print(count, word)


if __name__ == "__main__":
    {"repeats": repeats, "long": long, "counted": counted, "clauses": clauses}[sys.argv[1]]()
