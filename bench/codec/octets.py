#!/usr/bin/env python3
"""Writes 1,492 octets to time the codec with.

usage: octets.py plain|tlvs|lsp     any octets; TLVs of neighbours (22) and prefixes (135); an LSP of such TLVs
"""
import sys

SIZE = 1492


def tlvs(size):
    octets = b""
    serial = 0
    while len(octets) + 257 <= size - 2:
        code = 22 if serial % 2 == 0 else 135
        if code == 22:
            items = [bytes([0, 0, 0, 0, 1, i, 0]) + (10 + i).to_bytes(3, "big") + b"\0" for i in range(23)]
        else:
            items = [(10 + i).to_bytes(4, "big") + bytes([24, 10, serial, i]) for i in range(31)]
        value = b"".join(items)
        octets += bytes([code, len(value)]) + value
        serial += 1
    rest = size - len(octets) - 2
    return octets + bytes([8, rest]) + bytes(rest)


def lsp():
    common = bytes([0x83, 27, 1, 0, 18, 1, 0, 0])
    fields = SIZE.to_bytes(2, "big") + (1200).to_bytes(2, "big") + bytes([0, 0, 0, 0, 0, 1, 0, 0]) + bytes([0, 0, 1, 0, 0x12, 0x34, 1])
    return common + fields + tlvs(SIZE - 27)


def plain():
    return bytes(at % 251 for at in range(SIZE))


kinds = {"plain": plain, "tlvs": lambda: tlvs(SIZE), "lsp": lsp}
sys.stdout.buffer.write(kinds[sys.argv[1]]())
