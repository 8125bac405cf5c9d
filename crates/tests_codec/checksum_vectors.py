#!/usr/bin/env python3
"""Looks at the tables of src/checksum.rt: both sums term by term (ISO 8473 6.11), each pair of check octets tried in turn.

It reads the rows from the tests, says what it finds of each, and ends with 1 where one differs. It shares nothing with
iso_checksum.
"""

import pathlib
import re
import sys


def octets(text):
    return b"" if text == "-" else bytes.fromhex(text)


def table(tests, name):
    return re.search(rf'const {name}: &str = "\\\n(.*?)";', tests, re.DOTALL)[1].splitlines()


def holds(row):
    plain = sum(row) % 255
    weighted = sum((len(row) - place) * octet for place, octet in enumerate(row)) % 255
    return plain == 0 and weighted == 0


def pairs(row, at):
    for first in range(1, 256):
        for second in range(1, 256):
            if holds(row[:at] + bytes([first, second]) + row[at + 2 :]):
                yield first, second


def main():
    tests = (pathlib.Path(__file__).parent / "src" / "checksum.rt").read_text()
    good = True
    for line in table(tests, "SUMS"):
        text, want = line.split()
        good &= holds(octets(text)) == (want == "true")
    for text in table(tests, "BODIES"):
        row = octets(text)
        found = list(pairs(row, 12))
        print(text, [f"{a:02x}{b:02x}" for a, b in found])
        good &= found == [(row[12], row[13])]
    return 0 if good else 1


if __name__ == "__main__":
    sys.exit(main())
