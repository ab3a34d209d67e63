#!/usr/bin/env python3
"""Makes the examples that the gate runs the program on, and what it must print.

    tools/make_examples.py crates/rosuklam

It writes data/NAME.report, data/commands (for `rosuklam batch`) and stdout. The element tree is OpenSSL's, reports and
their answers are those of make_reports.py, and the words of a refusal are written here by hand.
"""
import os
import sys

from make_reports import damaged, good, read, report
from tree_by_openssl import tree

REGISTRIES = {1: "tcg", 2: "dmtf", 3: "pcie", 4: "storage"}
PLAIN = b"ABCDEFGHIJKLMNOPQRSTUVWXYZabcdefghijklmnopqrstuvwxyz0123456789._-"


def text(xs):
    return "".join(chr(x) if x in PLAIN else f"%{x:02X}" for x in xs)


def key(k):
    registry, cls, *texts = k
    return ":".join([REGISTRIES[registry], cls.hex().upper(), *map(text, texts)])


def details(d):
    if d is None:
        return "none"
    revision, replaceable = d
    return f"revision={text(revision)} replaceable={'-' if replaceable == 0 else ['no', 'yes'][replaceable - 1]}"


def listed(data):
    return [f"{key(k)} {details(d)}" for k, d in read(data)] + ["end"]


def compared(a, b):
    left, right = dict(read(a)), dict(read(b))
    keys = [k for k in sorted(set(left) | set(right)) if left.get(k) != right.get(k)]
    return [f"{key(k)} | {details(left.get(k))} | {details(right.get(k))}" for k in keys] + ["end"]


def element(data, place):
    """An element with a length of two bytes behind 82."""
    size = data[place + 2] * 256 + data[place + 3]
    return [f"tag {data[place]:02X}, content {place + 4} to {place + 4 + size}"]


def main():
    if len(sys.argv) != 2:
        sys.exit("usage: make_examples.py FOLDER")
    folder = os.path.join(sys.argv[1], "data")
    files = {name: report(parts) for name, parts in good()}
    files.update(damaged())
    cabinet = read(files["orders"])
    opened = [(k, (b"R/2", 2)) if k[0] == 2 else (k, d) for k, d in cabinet if k[0] != 3]
    used = {
        "cabinet": report(cabinet),
        "opened": report(opened),
        "longest": files["longest"],
        "empty": files["empty"],
        "falling": files["falling"],
        "cut": files["cut7"],
    }
    for name, data in used.items():
        with open(os.path.join(folder, f"{name}.report"), "wb") as handle:
            handle.write(data)
    certificate = os.path.join(folder, "issuer.der")
    with open(certificate, "rb") as handle:
        der = handle.read()
    rises = "an identifier or key stands there twice, or the keys do not rise"
    cut = "cut short: bytes are missing, or the content goes past the end of what holds it"
    tag = "another tag than wanted, or nothing there"
    answers = [
        ("elements issuer.der", tree(certificate)),
        ("element issuer.der 4", element(der, 4)),
        (f"element issuer.der {len(der)}", [f"refused 4 at {len(der)}: {tag}", "status 1"]),
        ("report cabinet.report", listed(used["cabinet"])),
        ("report longest.report", listed(used["longest"])),
        ("report empty.report", listed(used["empty"])),
        ("report cut.report", [f"refused 2 at 7: {cut}", "status 1"]),
        ("report falling.report", [f"refused 9 at 206: {rises}", "status 1"]),
        ("audit cabinet.report opened.report", compared(used["cabinet"], used["opened"])),
        ("audit opened.report cabinet.report", compared(used["opened"], used["cabinet"])),
        ("audit cabinet.report cabinet.report", ["end"]),
        ("audit cabinet.report falling.report", [f"falling.report: refused 9 at 206: {rises}", "status 1"]),
    ]
    with open(os.path.join(folder, "commands"), "w") as handle:
        handle.write("".join(f"{command}\n" for command, _ in answers))
    with open(os.path.join(sys.argv[1], "stdout"), "w") as handle:
        for command, lines in answers:
            handle.write("".join(f"{line}\n" for line in [f"> {command}", *lines]))


if __name__ == "__main__":
    main()
