#!/usr/bin/env python3
"""Brings the repository's own words of contracts and proofs to today's spelling, once, after the kit's port.py.

usage: python3 tools/respell.py [--list]      at the top of the repository; --list only prints the new names

Functions, lemmas and fields that specs/ and proofs/ define are written in snake case: keyBytes is key_bytes, and
put-rising is put_rising. Types, modules and names that the checker makes (goals, steps) stay, and so does all code. A
lemma that would fall together with another name has _lem behind it.
"""

import os
import re
import sys

# A word of a clause or a proof: no space, bracket or mark in it.
WORD = re.compile(r"[^\s(){}\[\],;.:\"@|`∥×→λ]+")
# The definition of a word, a local one or a field too, at the head of a line.
DEFINED = re.compile(r"^\s*(?:\|\s*)?(?:let\s+)?(?:(?:abbrev|unfoldable)\s+)?(?:pub\s+)?([^\s(){}:;,|\"]+)\s+:\s(.*)")
CAMEL = re.compile(r"^[a-z][a-z0-9]*([A-Z][a-z0-9]*)+'*$")
DASHED = re.compile(r"^[A-Za-z0-9_']+(-[A-Za-z0-9_']+)+$")
# A word of std's under another name, which the file needs.
KEPT = {"isOk"}
# A comment, and a word of a definition that it names.
COMMENT = re.compile(r"(^|\s)--.*")
NAMED = re.compile(r"`[^`]+`")
# In the answers to goals, a step of the code: its name is the checker's.
STEP = re.compile(r"(?:^|[\s(,])[clw](?:\.[^\s(){}\[\],;:\"]+)+")
# A clause, a ghost item or an import in code.
CLAUSE = re.compile(r"^\s*(ghost|requires|ensures)\b|^\s*pub ghost\b")


def files(ending):
    for folder, below, names in os.walk("crates"):
        below[:] = sorted(d for d in below if d != "out")
        for name in sorted(names):
            if name.endswith(ending):
                yield os.path.join(folder, name)


def read(path):
    with open(path, encoding="utf-8") as f:
        return f.read()


def snake(word):
    word = word.replace("-", "_")
    return re.sub(r"([a-z0-9])([A-Z])", lambda m: m[1] + "_" + m[2].lower(), word)


def new_names():
    """The own words that change, old to new."""
    own, all_words = set(), set()
    for path in files(".antt"):
        for line in read(path).splitlines():
            code = COMMENT.sub("", line)
            all_words.update(WORD.findall(code))
            own.update(w for w in WORD.findall(code) if CAMEL.match(w))
            found = DEFINED.match(code)
            if found and not found[2].startswith("goal.") and DASHED.match(found[1]) and found[1][0].islower():
                own.add(found[1])
    for path in files(".rt"):
        for line in clauses(read(path)):
            own.update(w for w in WORD.findall(line) if CAMEL.match(w))
    own -= KEPT
    names, taken = {}, set(all_words)
    for word in sorted(own, key=lambda w: ("-" in w, w)):
        new = snake(word)
        if new in taken and new != word:
            new += "_lem" if "-" in word else ""
        names[word] = new
        taken.add(new)
    return names


def clauses(text):
    """The lines of code that hold clauses."""
    return [l for l in text.splitlines() if CLAUSE.match(l)]


def respelled(line, names, answers):
    kept = [m.span() for m in STEP.finditer(line)] if answers else []

    def one(m):
        word = m[0]
        if "-" in word and any(a <= m.start() < b for a, b in kept):
            return word
        return names.get(word, word)

    comment = COMMENT.search(line)
    at = comment.start() if comment else len(line)
    return WORD.sub(one, line[:at]) + NAMED.sub(lambda m: WORD.sub(one, m[0]), line[at:])


def main(argv):
    names = new_names()
    if "--list" in argv:
        for old, new in sorted(names.items()):
            print(old, new)
        return 0
    for path in [*files(".antt"), *files(".rt"), *files(".edit")]:
        text = read(path)
        answers = path.endswith(("Answers.antt", "Invariants.antt"))
        lines = []
        for line in text.split("\n"):
            if path.endswith(".rt") and not CLAUSE.match(line):
                lines.append(line)
            else:
                lines.append(respelled(line, names, answers))
        new = "\n".join(lines)
        if new != text:
            with open(path, "w", encoding="utf-8") as f:
                f.write(new)
    return 0


if __name__ == "__main__":
    raise SystemExit(main(sys.argv[1:]))
