#!/usr/bin/env python3
"""Prints the tree of a DER file's elements as OpenSSL sees it, in the format of `rosuklam elements`.

    tools/tree_by_openssl.py crates/rosuklam/data/issuer.der

Offsets, depths and lengths are OpenSSL's; the tag byte is the byte of the file at the offset.
"""
import re
import subprocess
import sys

ROW = re.compile(r"\s*(\d+):d=(\d+)\s+hl=(\d+)\s+l=\s*(\d+)\s")


def tree(path):
    """The lines of the tree."""
    with open(path, "rb") as handle:
        data = handle.read()
    parsed = subprocess.run(
        ["openssl", "asn1parse", "-inform", "DER", "-in", path], check=True, capture_output=True, text=True
    )
    for line in parsed.stdout.splitlines():
        row = ROW.match(line)
        if not row:
            sys.exit(f"a line that is not understood: {line}")
        offset, depth, _, length = map(int, row.groups())
        yield f"{'  ' * depth}{offset} {data[offset]:02X} {length}"


def main():
    if len(sys.argv) != 2:
        sys.exit("usage: tree_by_openssl.py FILE")
    for line in tree(sys.argv[1]):
        print(line)


if __name__ == "__main__":
    main()
