#!/usr/bin/env python3
"""Writes a lab script.

usage: script.py grid N          N x N routers of level 1, each with a prefix, `run 60`
       script.py datagrams N     two routers; one acknowledges a purge that it doesn't hold again and again, so that N datagrams are sent
       script.py seconds N       two routers, N seconds by lines `run`
       script.py hellos N        two routers; one takes the same hello N times
       script.py wide N         1,024 routers and 4,089 links; one takes the same hello N times
       script.py lan N          one LAN of N routers of level 1, `run 60`
       script.py ring N         16 LANs of N routers in a ring: the last router of each is the first of the next, `run 60`
       script.py levels N       N areas of 8 routers on a LAN, two of them of both levels, one of which leaks; a ring of links and a LAN join the areas; `run 60`
       script.py agreed N       the 1,024 routers and 4,089 links, N seconds of level 1
       script.py prefixes N     a grid of 4 x 4 that came up, then N lines `prefix` at one router
       script.py stored N       two routers; one takes N LSPs of 1,000 systems, which stand in a ring and tell a prefix in each
       script.py refused N       the text of `hellos`, but its first event line is refused, so that it is read and nothing is played
"""
import sys

PAIR = """router A 0000.0000.0001 49.0001 L1
router B 0000.0000.0002 49.0001 L1
link X A B 10
"""
# A live LSP of system 9 with one second left. A purges it in its next second and sends the purge, datagram 15, to B.
SHORT = "4953553200000000000200000001831b010012010000001b0001000000000009000000000005ae4201"


def grid(n):
    for row in range(1, n + 1):
        for column in range(1, n + 1):
            yield f"router g{row}x{column} 0000.{row:04x}.{column:04x} 49.0001 L1\n"
    for row in range(1, n + 1):
        for column in range(1, n):
            yield f"link h{row}x{column} g{row}x{column} g{row}x{column + 1} 10\n"
    for row in range(1, n):
        for column in range(1, n + 1):
            yield f"link v{row}x{column} g{row}x{column} g{row + 1}x{column} 10\n"
    for row in range(1, n + 1):
        for column in range(1, n + 1):
            yield f"prefix g{row}x{column} 10.{row}.{column}.0/24 10\n"
    yield "run 60\n"


def datagrams(n):
    yield PAIR + f"run 7\ninject A X {SHORT}\ntick A\npull A X\n"
    # 14 were sent by the seconds, one by the pull
    yield f"deliver 15 B\n" * (n - 15)


def seconds(n):
    yield PAIR
    yield "run 86400\n" * (n // 86400)
    if n % 86400:
        yield f"run {n % 86400}\n"


def hellos(n):
    yield PAIR + "run 7\n"
    yield "deliver 3 B\n" * n


def router_lines(n):
    for router in range(n):
        yield f"router r{router} 0000.0000.{router + 1:04x} 49.0001 L1\n"


def lan(n):
    yield from router_lines(n)
    yield "lan N 10 " + " ".join(f"r{router}" for router in range(n)) + "\nrun 60\n"


def ring(n):
    count = 16 * (n - 1)
    yield from router_lines(count)
    for place in range(16):
        yield f"lan N{place} 10 " + " ".join(f"r{(place * (n - 1) + member) % count}" for member in range(n)) + "\n"
    yield "run 60\n"


def levels(n):
    areas = range(1, n + 1)
    for area in areas:
        for router in range(8):
            kind = ["L1L2 leak", "L1L2"][router] if router < 2 else "L1"
            yield f"router r{area}x{router} 0000.{area:04x}.{router + 1:04x} 49.{area:04x} {kind}\n"
    for area in areas:
        yield f"lan n{area} 10 " + " ".join(f"r{area}x{router}" for router in range(8)) + "\n"
    for area in areas:
        yield f"link l{area} r{area}x0 r{area % n + 1}x0 20\n"
    yield "lan backbone 10 " + " ".join(f"r{area}x1" for area in areas) + "\n"
    for area in areas:
        for router in range(8):
            yield f"prefix r{area}x{router} 10.{area}.{router}.0/24 10\n"
    yield "run 60\n"


def wide_links():
    yield from router_lines(1024)
    for step in range(1, 5):
        for router in range(1022):
            yield f"link l{step}x{router} r{router} r{(router + step) % 1022} 10\n"
    yield "link X r1022 r1023 10\n"


def agreed(n):
    yield from wide_links()
    yield f"run {n}\n"


def wide(n):
    yield from wide_links()
    yield "pull r1022 X\ndeliver 1 r1023\npull r1023 X\ndeliver 2 r1022\npull r1022 X\n"
    yield "deliver 3 r1023\n" * n


def prefixes(n):
    yield from grid(4)
    yield from (f"prefix g1x1 11.{at >> 8}.{at & 255}.0/24 10\n" for at in range(n))


def lsp(system, fragment, tlvs):
    """An LSP of level 1 that A hands to B in its first boot."""
    octets = bytearray.fromhex(f"831b010012010000{27 + len(tlvs) // 2:04x}04b0{system:012x}00{fragment:02x}00000009000001{tlvs}")
    first = second = 0
    for octet in octets[12:]:
        first += octet
        second += first
    # the checksum is octet 12 of those from the LSP ID on
    high = ((len(octets) - 25) * first - second) % 255 or 255
    octets[24:26] = high, (-first - high) % 255 or 255
    return f"inject B X 4953553200000000000100000001{octets.hex()}\n"


def neighbours(*systems):
    return f"16{11 * len(systems):02x}" + "".join(f"{system:012x}0000000a00" for system in systems)


def stored(n):
    yield PAIR + "run 7\n" + lsp(1, 0, "010403490001" + "8101cc" + neighbours(2, 256))
    for at in range(n):
        fragment, place = divmod(at, 1000)
        ends = [256 + (place - 1) % 1000, 256 + (place + 1) % 1000] + [1] * (place == 0)
        told = "010403490001" + "8101cc" + neighbours(*ends) if fragment == 0 else ""
        yield lsp(256 + place, fragment, told + f"87080000000a18{11 << 16 | at:06x}")


def refused(n):
    yield PAIR + "deliver 0 B\n"
    yield "deliver 3 B\n" * n


def main():
    kind, count = sys.argv[1:]
    made = {"grid": grid, "datagrams": datagrams, "seconds": seconds, "hellos": hellos, "wide": wide, "lan": lan, "ring": ring, "levels": levels, "agreed": agreed, "prefixes": prefixes, "stored": stored, "refused": refused}[kind]
    sys.stdout.write("isis-lab 1\n")
    sys.stdout.writelines(made(int(count)))


main()
