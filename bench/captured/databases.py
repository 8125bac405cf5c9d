#!/usr/bin/env python3
"""Writes a captured database as lines of hex, always the same for the same words.

usage: databases.py systems COUNT    a made level 1 of COUNT systems, each on some eight links, a sixth of them on LANs of eight, 20 IPv6 prefixes each
       databases.py lsps COUNT       COUNT LSPs without TLVs, of 255 LSP numbers a system
"""
import random
import sys
from pathlib import Path

sys.dont_write_bytecode = True
sys.path.insert(0, str(Path(__file__).resolve().parents[2] / "tools"))
import isis_pdus as pdus  # noqa: E402

LINKS, LAN, PREFIXES = 8, 8, 20


def lsp(name, body=b""):
    """The level 1 LSP of an LSP ID, sequence number 1, with its checksum."""
    lead = pdus.header(18) + bytes(2) + bytes.fromhex("04b0") + name + bytes.fromhex("00000001000001")
    return pdus.sealed(lead + body).hex()


def in_tlvs(code, items):
    """Items in TLVs of at most 255 octets."""
    values = [b""]
    for item in items:
        if len(values[-1]) + len(item) > 255:
            values.append(b"")
        values[-1] += item
    return b"".join(pdus.tlv(code, value) for value in values if value)


def system(number):
    return number.to_bytes(6, "big")


def node(number, lan=0):
    return system(number) + bytes([lan])


def neighbour(to, metric):
    return to + metric.to_bytes(3, "big") + b"\0"


def prefix6(made, number):
    """A prefix of 64 bits; each tenth is also told by the next system, each seventh came down from level 2."""
    shared = number % 10 == 9
    address = bytes.fromhex("20010db8") + (made // 2 * 2 if shared else made).to_bytes(2, "big") + number.to_bytes(2, "big")
    return (10 + number).to_bytes(4, "big") + bytes([0x80 if number % 7 == 6 else 0, 64]) + address


def systems(count):
    chance = random.Random(count)
    rows = {node(made): [] for made in range(1, count + 1)}

    def join(one, other, metric, back):
        rows[one].append(neighbour(other, metric))
        rows[other].append(neighbour(one, back))

    for made in range(2, count + 1):
        join(node(made), node(chance.randrange(max(1, made - 50), made)), chance.randint(1, 64), chance.randint(1, 64))
    for _ in range(count * (LINKS // 2 - 1)):
        one, other = chance.sample(range(1, count + 1), 2)
        join(node(one), node(other), chance.randint(1, 64), chance.randint(1, 64))
    for first in range(1, count, 6 * LAN):
        lan = rows.setdefault(node(first, 1), [])
        assert not lan
        for made in range(first, min(first + LAN, count + 1)):
            join(node(made), node(first, 1), 10, 0)
    for name, told in rows.items():
        made = int.from_bytes(name[:6], "big")
        body = in_tlvs(22, told) + (in_tlvs(236, [prefix6(made, number) for number in range(PREFIXES)]) if name[6] == 0 else b"")
        print(lsp(name + b"\0", body))


def lsps(count):
    for made in range(count):
        print(lsp(system(1 + made // 256) + bytes([0, made % 256])))


if __name__ == "__main__":
    {"systems": systems, "lsps": lsps}[sys.argv[1]](int(sys.argv[2]))
