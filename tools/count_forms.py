#!/usr/bin/env python3
"""Lists places in src/ and proofs/ that have an older form, for docs/DESIGN-PASS.md.

    python3 tools/count_forms.py [FOLDER]

It goes by text, so it finds candidates; which of them are meant is read. FOLDER is a checkout, here by default.
Tests and what the kit writes (out/, target/) are left out.
"""
import itertools
import pathlib
import re
import sys

TOP = pathlib.Path(sys.argv[1] if len(sys.argv) > 1 else ".")
KEYWORDS = set("fn let mut if else match for in while loop return break pub impl struct enum self Self Ok Err Some None "
               "true false as ref move const use where type trait".split())


def files(pattern):
    for path in sorted(TOP.glob(pattern)):
        parts = path.relative_to(TOP).parts
        if "out" not in parts and "target" not in parts and not path.name.startswith("tests"):
            yield path


def functions(text):
    """Each function: its name, its signature up to the body, its body."""
    for found in re.finditer(r"\bfn (\w+)", text):
        depth, at = 0, found.end()
        opened = None
        # A body opens in a line of its own, or behind the result; clauses have their braces behind a word.
        for body in re.finditer(r"^\s*\{\s*$|(?<=[>\w)\]']) \{$", text[found.end():], re.M):
            opened = found.end() + body.end() - 1
            break
        ends = text.find(";", found.end())
        if opened is None:
            continue
        if 0 <= ends < opened and "{" not in text[found.end():ends] and ")" in text[found.end():ends]:
            continue
        opened = text.rfind("{", 0, opened + 1)
        for at in range(opened, len(text)):
            depth += (text[at] == "{") - (text[at] == "}")
            if depth == 0:
                break
        yield found.group(1), text[found.start():opened], text[opened:at + 1]


def shape(body):
    """A body with its names and numbers taken out."""
    tokens = re.findall(r"\w+|[^\w\s]", re.sub(r"//.*", "", body))
    return tuple(t if t in KEYWORDS or not re.match(r"\w", t) else ("0" if t[0].isdigit() else "x") for t in tokens)


def say(point, rows):
    rows = list(rows)
    print(f"{point}: {len(rows)}")
    for row in rows:
        print(f"    {row}")


def lines(regex, pattern="crates/*/src/**/*.rt"):
    for path in files(pattern):
        for number, line in enumerate(path.read_text().splitlines(), 1):
            if re.search(regex, line) and not line.lstrip().startswith(("//", "ghost", "requires", "ensures")):
                yield f"{path.relative_to(TOP)}:{number}: {line.strip()}"


SOURCES = [(path.relative_to(TOP), path.read_text()) for path in files("crates/*/src/**/*.rt")]

say("1a own enums", lines(r"^\s*(pub(\(crate\))? )?enum \w+"))
say("1b a yes or no as a parameter", lines(r"\b\w+: bool\b"))
say("1c numbers for kinds", lines(r"\b(registry|replaceable|status|kind|number|tag|wanted|code): u(8|16|32|64|size)\b|Opaque\(u8\)"))
groups = {}
for path, text in SOURCES:
    for name, _, body in functions(text):
        key = shape(body)
        if len(key) >= 14:
            groups.setdefault(key, []).append(f"{path} {name}")
say("2a groups of functions with bodies of one shape", (", ".join(g) for g in groups.values() if len(g) > 1))
records = {}
for path, text in SOURCES:
    for found in re.finditer(r"struct (\w+)[^{;]*\{([^}]*)\}", text):
        fields = re.sub(r"ghost[^\n]*|pub(\(crate\))? |//[^\n]*", "", found.group(2))
        names = tuple(re.findall(r"(\w+):", fields))
        if names:
            records.setdefault(names, []).append(f"{path} {found.group(1)}")
say("2b groups of structs with the same fields", (", ".join(g) for g in records.values() if len(g) > 1))
say("3a loops over an index or a count", lines(r"\bfor \w+ in 0\.\.|\bwhile [\w.]+ < |^\s*loop \{|\bi \+= 1|count \+= 1"))
say("3b other loops", lines(r"^\s*(for (?!\w+ in 0\.\.)|while (?![\w.]+ < ))"))
say("4a comparisons and conversions by hand", lines(
    r"impl.* (PartialEq|Eq|PartialOrd|Ord|Clone|Default|From<.*>|TryFrom<.*>) for|"
    r"fn (same\w*|compare\w*|number|of|class_of|two_at|bytewise)\b|\bas (u8|usize|u32|u64|u128)\b"))
say("4b printing by hand", lines(r"fn (\w+_text|print_\w+|push_\w+|\w+_name|words_of)\b"))
together = []
for path, text in SOURCES:
    for name, signature, _ in functions(text):
        given = signature[:signature.find(")")]
        if re.search(r"file: &", given) and re.search(r"\b(at|from|place|i): usize|list: Span|places: &|field: Option<Span>", given):
            together.append(f"{path} {name}")
say("5a functions that take a file and a place in it", together)
facts = {}
for path, text in SOURCES:
    for fact in re.findall(r"^\s*(?:requires|ensures)(?: \w+)? \{ (.*) \}$", text, re.M):
        facts.setdefault(re.sub(r"\b(result|\w+\.(now|entry|old|new))\b", "_", fact), []).append(str(path))
say("5b facts in three or more contracts", (f"{len(where)} times: {fact}" for fact, where in facts.items() if len(where) > 2))
say("6 arrays with a length beside them, spaces to fill, searches by hand", lines(
    r"\[\w[\w<>:() ]*; \w+\]|\bspace\b|\b(len|count): usize"))
say("7 function pointers, boxed steps, switches of steps", lines(r"\bfn\(|Box<dyn|&dyn|impl Fn|F: Fn"))
answers, only, trivial = 0, [], 0
for path in files("crates/*/proofs/**/Answers.antt"):
    bodies = re.findall(r"^(?:pub )?\S+(?: [a-z ]+)? =\s*(.*(?:\n(?=[ \t]).*)*)", path.read_text(), re.M)
    plain = [b for b in bodies if re.fullmatch(r"\(?\s*search rules\s*\)?", b.strip())]
    answers += len(bodies)
    trivial += len(plain)
    if bodies and len(plain) == len(bodies):
        only.append(str(path.relative_to(TOP)))
print(f"8a answers: {answers}, of which only `search rules`: {trivial}")
say("8b files of answers that only say `search rules`", only)
lemmas = sum(len(re.findall(r"^(?:pub )?[a-z]\w* :", path.read_text(), re.M)) for path in files("crates/*/proofs/*.antt"))
print(f"8c lemmas: {lemmas}")
