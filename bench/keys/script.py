#!/usr/bin/env python3
"""Writes a keys script of nearly 16,777,216 octets: 1,024 routers in a ring, then issues and passes.

usage: script.py ascending|random
"""
import random
import sys

LIMIT = 16_777_216
ROUTERS = 1_024


def lines(order):
    generator = random.Random(1)
    yield "isis-keys 1"
    for router in range(ROUTERS):
        yield f"router r{router}"
    for router in range(ROUTERS):
        yield f"link r{router} r{(router + 1) % ROUTERS}"
    copy = 0
    while True:
        copy += 1
        number = copy if order == "ascending" else generator.getrandbits(48)
        octets = f"{number:012x}"
        system = f"{octets[:4]}.{octets[4:8]}.{octets[8:]}"
        router = copy % ROUTERS
        yield f"issue r{router} {system}.00-00 {copy} live"
        yield f"pass {copy} r{router} r{(router + 1) % ROUTERS}"


def main():
    size = 0
    for line in lines(sys.argv[1]):
        size += len(line) + 1
        if size > LIMIT:
            break
        print(line)


main()
