#!/usr/bin/env python3
"""Makes the probe reports of the conformance run, and what each of them should be answered.

The bytes are written, and the answers worked out, by the reader and writer below, which follow docs/FORMAT.md and
docs/REFUSALS.md and share nothing with the Rattle code:

    tools/make_reports.py crates/conformance

It writes data/NAME.report, data/cases (a line for each case) and stdout (what the run must print).
"""
import os
import random
import sys

KEY, DETAILS, MOST = 200, 66, 240


def text(xs, pad=b""):
    return bytes([len(xs)]) + xs + pad + bytes(64 - len(xs) - len(pad))


def key(k):
    registry, cls, maker, model, serial = k
    return bytes([registry]) + cls + text(maker) + text(model) + text(serial)


def details(d):
    revision, replaceable = d
    return text(revision) + bytes([replaceable])


def two(n):
    return bytes([n >> 8, n & 255])


def report(parts, sizes=(None, KEY, DETAILS)):
    n = len(parts) if sizes[0] is None else sizes[0]
    body = b"".join(key(k) for k, _ in parts) + b"".join(details(d) for _, d in parts)
    return two(n) + two(sizes[1]) + two(sizes[2]) + body


class Refused(Exception):
    pass


def read_text(data, at, least):
    size = data[at]
    if not least <= size <= 64:
        raise Refused(7, at)
    if any(data[at + 1 + size : at + 65]):
        raise Refused(6, at)
    return data[at + 1 : at + 1 + size]


def read(data):
    """The parts of a report, or Refused with number and place."""
    for index, wanted in enumerate((None, KEY, DETAILS)):
        at = 2 * index
        if len(data) < at + 2:
            raise Refused(2, at)
        value = data[at] * 256 + data[at + 1]
        if wanted is None:
            if value > MOST:
                raise Refused(8, at)
            n = value
        elif value != wanted:
            raise Refused(6, at)
    size = 6 + (KEY + DETAILS) * n
    if len(data) < size:
        raise Refused(2, len(data))
    if len(data) > size:
        raise Refused(5, size)
    keys = []
    for i in range(n):
        at = 6 + KEY * i
        if not 1 <= data[at] <= 4:
            raise Refused(6, at)
        fields = [read_text(data, at + offset, 1) for offset in (5, 70, 135)]
        keys.append((data[at], data[at + 1 : at + 5], *fields))
        if i > 0 and not keys[i - 1] < keys[i]:
            raise Refused(9, at)
    parts = []
    for i in range(n):
        at = 6 + KEY * n + DETAILS * i
        revision = read_text(data, at, 0)
        if data[at + 65] > 2:
            raise Refused(6, at + 65)
        parts.append((keys[i], (revision, data[at + 65])))
    return parts


def shown(part):
    (registry, cls, maker, model, serial), (revision, replaceable) = part
    known = ["-", "no", "yes"][replaceable]
    return f"  {registry} {cls.hex()} {maker.hex()} {model.hex()} {serial.hex()} {revision.hex() or '-'} {known}"


def answer(name, data):
    try:
        parts = read(data)
    except Refused as refusal:
        return [f"{name}: refused {refusal.args[0]} at {refusal.args[1]}"]
    return [f"{name}: accepted, {len(parts)} parts"] + [shown(p) for p in parts]


def differences(a, b):
    left, right = dict(read(a)), dict(read(b))
    return [shown((k, (b"", 0)))[: -len(" - -")] for k in sorted(set(left) | set(right)) if left.get(k) != right.get(k)]


def some_key(i, registry=1, cls=b"\0\1\0\2", maker=b"Acme", model=b"Reader", serial=None):
    return (registry, cls, maker, model, serial if serial is not None else b"SN-%04d" % i)


def good():
    """Reports that are accepted."""
    yield "empty", []
    yield "one", [(some_key(1), (b"", 0))]
    yield "longest", [((4, b"\xff" * 4, b"M" * 64, b"\0" * 64, b"\xff" * 64), (b"r" * 64, 2))]
    yield "shortest", [((1, bytes(4), b"a", b"b", b"c"), (b"r", 1))]
    yield "orders", sorted(
        [
            ((1, b"\0\0\1\0", b"Z", b"Z", b"Z"), (b"", 0)),
            ((1, b"\0\1\0\0", b"A", b"A", b"A"), (b"1", 1)),
            ((1, b"\0\1\0\0", b"A", b"A", b"A\0"), (b"2", 2)),
            ((1, b"\0\1\0\0", b"A", b"A", b"AB"), (b"3", 2)),
            ((1, b"\0\1\0\0", b"A", b"AA", b"A"), (b"4", 0)),
            ((1, b"\0\1\0\0", b"AA", b"A", b"A"), (b"5", 0)),
            ((2, bytes(4), b"A", b"A", b"A"), (b"6", 1)),
            ((3, bytes(4), b"A", b"A", b"A"), (b"7", 1)),
        ]
    )
    yield "most", [(some_key(i), (b"r%d" % (i % 7), i % 3)) for i in range(MOST)]
    yield "opened", [(some_key(i), (b"r%d" % (i % 7), i % 3)) for i in range(5, 100) if i != 50]


def damaged():
    """A good report with one thing changed."""
    base = report([(some_key(1), (b"ab", 1)), (some_key(2), (b"", 2)), (some_key(3), (b"xyz", 0))])

    def at(place, *values):
        data = bytearray(base)
        for i, value in enumerate(values):
            data[place + i] = value
        return bytes(data)

    for size in (0, 1, 2, 3, 4, 5, 6, 7, len(base) - 1):
        yield f"cut{size}", base[:size]
    yield "longer", base + b"\0"
    yield "many", at(0, 0, 241)
    yield "very_many", at(0, 255, 255)
    yield "more", at(0, 0, 4)
    yield "fewer", at(0, 0, 2)
    yield "key_size", at(2, 0, 199)
    yield "key_size_high", at(2, 1, 200)
    yield "details_size", at(4, 0, 67)
    yield "sizes_turned", at(0, 3, 0)
    for i in range(3):
        place = 6 + KEY * i
        yield f"registry0_{i}", at(place, 0)
        yield f"registry5_{i}", at(place, 5)
        for name, offset in (("maker", 5), ("model", 70), ("serial", 135)):
            yield f"{name}_empty_{i}", at(place + offset, 0)
            yield f"{name}_long_{i}", at(place + offset, 65)
            yield f"{name}_byte_{i}", at(place + offset, 255)
            yield f"{name}_padding_{i}", at(place + offset + 64, 1)
        place = 6 + KEY * 3 + DETAILS * i
        yield f"revision_long_{i}", at(place, 65)
        yield f"revision_padding_{i}", at(place + 64, 9)
        yield f"replaceable_{i}", at(place + 65, 3)
    yield "same_key", base[:206] + base[6:206] + base[406:]
    yield "falling", base[:6] + base[206:406] + base[6:206] + base[406:]
    yield "key_before_details", at(6 + KEY * 3 + 65, 3)[:206] + at(6 + KEY * 3 + 65, 3)[6:206] + at(6 + KEY * 3 + 65, 3)[406:]
    yield "size_before_padding", at(6 + 5, 70)[:75] + b"\1" + at(6 + 5, 70)[76:]
    random.seed(2026)
    for i in range(60):
        data = bytearray(base)
        for _ in range(random.choice((1, 1, 2))):
            data[random.randrange(len(data))] = random.choice((0, 1, 2, 3, 64, 65, 255))
        yield f"random{i}", bytes(data)


def main():
    if len(sys.argv) != 2:
        sys.exit("usage: make_reports.py FOLDER")
    folder = sys.argv[1]
    files = {name: report(parts) for name, parts in good()}
    files.update(damaged())
    cases, lines = [], []
    for name, data in files.items():
        with open(os.path.join(folder, "data", f"{name}.report"), "wb") as handle:
            handle.write(data)
        cases.append(f"report {name}")
        lines += answer(name, data)
    for a, b in (("empty", "empty"), ("empty", "orders"), ("orders", "one"), ("most", "most"), ("most", "opened"), ("opened", "one")):
        cases.append(f"audit {a} {b}")
        lines += [f"{a} {b}: differences"] + differences(files[a], files[b]) + ["  end"]
    with open(os.path.join(folder, "data", "cases"), "w") as handle:
        handle.write("\n".join(cases) + "\n")
    with open(os.path.join(folder, "stdout"), "w") as handle:
        handle.write("\n".join(lines) + "\n")


if __name__ == "__main__":
    main()
