"""A router in small, to stand opposite a daemon: it says hello, comes Up, floods LSPs that it is given and acknowledges what it hears.

It has no routes, and lets nothing age. One circuit, point to point or of a LAN, of one level or of both. Where it has keys it signs with them,
and doesn't look at what it hears.
"""
import select
import socket
import sys
import time
from pathlib import Path

sys.dont_write_bytecode = True
sys.path.insert(0, str(Path(__file__).resolve().parents[2] / "tools"))
import isis_pdus as pdus  # noqa: E402

UP, INITIALIZING, DOWN = 0, 1, 2
LEVELS = {"L1": (1,), "L2": (2,), "L1L2": (1, 2)}
HELLO_SECONDS, AGAIN_SECONDS, HOLDING = 3, 5, 30
FIRST, LAST = bytes(8), b"\xff" * 8


class Keys:
    """The keys of a speaker, each None or octets."""

    def __init__(self, circuit=None, area=None, domain=None):
        self.circuit, self.of_level = circuit, {1: area, 2: domain}


class Speaker:
    """One such router. `seconds` of it are spent in `run`."""

    def __init__(self, system, bind, peer, levels="L1", area="49.0001", boot=1, circuit=1, address=None, keys=None, is_lan=False):
        self.system, self.levels, self.area, self.boot, self.circuit = pdus.undotted(system), LEVELS[levels], pdus.undotted(area), boot, circuit
        self.address, self.keys, self.is_lan = address, keys or Keys(), is_lan
        self.port = socket.socket(socket.AF_INET, socket.SOCK_DGRAM)
        self.port.setsockopt(socket.SOL_SOCKET, socket.SO_RCVBUF, 1 << 22)
        self.port.bind(bind)
        self.peer = peer
        self.state, self.neighbour, self.heard_snpas = DOWN, None, {level: set() for level in self.levels}
        self.lan_ids = {level: bytes(7) for level in self.levels}
        # Of each level: the LSPs by ID, and when each was last sent that isn't acknowledged yet.
        self.lsps = {level: {} for level in self.levels}
        self.unacknowledged = {level: {} for level in self.levels}
        self.owed = {level: {} for level in self.levels}
        self.hello_due = 0
        self.sent = self.taken = 0
        self.drops = 0

    # What it says.

    def send(self, pdu):
        self.port.sendto(pdus.framed(self.system, self.boot, pdu), self.peer)
        self.sent += 1

    def circuit_type(self):
        return sum(self.levels)

    def common_parts(self):
        parts = pdus.room_for_digest(self.keys.circuit) + pdus.tlv(pdus.AREAS, bytes((len(self.area),)) + self.area) + pdus.tlv(pdus.PROTOCOLS, b"\xcc")
        return parts + (pdus.tlv(pdus.ADDRESSES, self.address) if self.address else b"")

    def extended(self):
        return (256 * self.boot + self.circuit).to_bytes(4, "big")

    def point_hello(self):
        fields = bytes((self.circuit_type(),)) + self.system + HOLDING.to_bytes(2, "big") + bytes(2) + bytes((self.circuit,))
        named = b"".join(self.neighbour) if self.neighbour else b""
        three_way = pdus.tlv(pdus.THREE_WAY, bytes((self.state,)) + self.extended() + named)
        return pdus.sealed(pdus.header(pdus.POINT_HELLO) + fields + self.common_parts() + three_way, self.keys.circuit)

    def lan_hello(self, level):
        fields = bytes((self.circuit_type(),)) + self.system + HOLDING.to_bytes(2, "big") + bytes(2) + bytes((0,)) + self.lan_ids[level]
        heard = sorted(self.heard_snpas[level])
        listed = pdus.tlv(pdus.SNPAS, b"".join(heard)) if heard else b""
        return pdus.sealed(pdus.header(pdus.LAN_HELLOS[level]) + fields + self.common_parts() + listed, self.keys.circuit)

    def say_hello(self):
        for pdu in [self.lan_hello(level) for level in self.levels] if self.is_lan else [self.point_hello()]:
            self.send(pdu)
        self.hello_due = time.monotonic() + HELLO_SECONDS

    def lsp(self, level, number, parts=b"", lsp_id=None, lifetime=1200):
        """An LSP with these TLVs; its own unless another LSP ID is told."""
        key = self.keys.of_level[level]
        lsp_id = lsp_id or self.system + bytes(2)
        fields = bytes(2) + lifetime.to_bytes(2, "big") + lsp_id + number.to_bytes(4, "big") + bytes(2) + bytes((3 if level == 2 else 1,))
        return pdus.sealed(pdus.header(pdus.LSPS[level]) + fields + pdus.room_for_digest(key) + parts, key)

    def own_parts(self, neighbours=(), prefixes=()):
        """The TLVs of an own LSP: its area, and these neighbours (node IDs) and prefixes (address, length), all of metric 10."""
        parts = pdus.tlv(pdus.AREAS, bytes((len(self.area),)) + self.area) + pdus.tlv(pdus.PROTOCOLS, b"\xcc")
        parts += pdus.tlv(pdus.ADDRESSES, self.address) if self.address else b""
        for node in neighbours:
            parts += pdus.tlv(pdus.NEIGHBOURS, node + bytes((0, 0, 10, 0)))
        for address, length in prefixes:
            parts += pdus.tlv(pdus.PREFIXES, bytes((0, 0, 0, 10, length)) + address[: (length + 7) // 8])
        return parts

    def give(self, level, lsp):
        """An LSP that it floods from now on."""
        self.lsps[level][lsp[12:20]] = lsp
        self.unacknowledged[level][lsp[12:20]] = 0

    def say_lsps(self, at_once=50):
        """Sends what isn't acknowledged, at most so many: on a LAN once, else again after 5 seconds."""
        now = time.monotonic()
        for level in self.levels:
            waiting = self.unacknowledged[level]
            for lsp_id in [it for it, since in waiting.items() if now - since >= AGAIN_SECONDS][:at_once]:
                self.send(self.lsps[level][lsp_id])
                waiting[lsp_id] = now
                if self.is_lan:
                    del waiting[lsp_id]

    def say_psnps(self):
        for level in self.levels:
            owed = sorted(self.owed[level].items())
            self.owed[level].clear()
            for first in range(0, len(owed), 75):
                self.send(self.list_pdu(pdus.PSNPS[level], level, [entry for _, entry in owed[first : first + 75]], b""))

    def list_pdu(self, kind, level, listed, span):
        key = self.keys.of_level[level]
        parts = b"".join(pdus.tlv(pdus.ENTRIES, b"".join(listed[place : place + 15])) for place in range(0, len(listed), 15))
        return pdus.sealed(pdus.header(kind) + bytes(2) + self.system + bytes(1) + span + pdus.room_for_digest(key) + parts, key)

    # What it hears.

    def hear(self, datagram):
        pdu = pdus.pdu_of(datagram)
        kind = pdus.type_of(pdu)
        if not kind or kind not in pdus.HELLOS and pdus.level_of(kind) not in self.levels:
            self.drops += 1
            return
        self.taken += 1
        pdu = pdus.without_tail(pdu)
        if kind in pdus.HELLOS:
            self.hear_hello(kind, pdu)
        elif kind in pdus.LSPS.values():
            self.hear_lsp(pdus.level_of(kind), pdu)
        else:
            self.hear_list(kind, pdus.level_of(kind), pdu)

    def hear_hello(self, kind, pdu):
        if not self.is_lan and kind == pdus.POINT_HELLO:
            self.hear_point_hello(pdu)
        elif self.is_lan and pdus.level_of(kind) in self.levels and kind != pdus.POINT_HELLO:
            self.hear_lan_hello(pdus.level_of(kind), pdu)

    def hear_point_hello(self, pdu):
        told = pdus.values(pdu, pdus.THREE_WAY)
        if not told:
            return
        before, theirs = self.state, told[0][0]
        neighbour = (pdu[9:15], told[0][1:5])
        known = neighbour == self.neighbour
        self.neighbour = neighbour
        names_me = told[0][5:15] == self.system + self.extended()
        if theirs == DOWN:
            self.state = INITIALIZING
        elif names_me:
            self.state = UP
        if self.state != before or not known:
            self.say_hello()
        if self.state == UP and (before != UP or not known):
            self.opened()

    def opened(self):
        for level in self.levels:
            self.unacknowledged[level] = {lsp_id: 0 for lsp_id in self.lsps[level]}
            self.send(self.list_pdu(pdus.CSNPS[level], level, [pdus.entry_of(it) for _, it in sorted(self.lsps[level].items())][:75], FIRST + LAST))

    def hear_lan_hello(self, level, pdu):
        source = bytes(pdu[9:15])
        is_new = source not in self.heard_snpas[level]
        self.heard_snpas[level].add(source)
        self.lan_ids[level] = bytes(pdu[20:27])
        listed = any(self.system in [value[place : place + 6] for place in range(0, len(value), 6)] for value in pdus.values(pdu, pdus.SNPAS))
        if listed and self.state != UP:
            self.opened()
        self.state = UP if listed else INITIALIZING
        if is_new:
            self.say_hello()

    def hear_lsp(self, level, pdu):
        lsp_id, held = bytes(pdu[12:20]), self.lsps[level].get(bytes(pdu[12:20]))
        if held is None or held[20:24] < pdu[20:24] or not any(pdu[10:12]):
            if lsp_id[:6] != self.system:
                self.lsps[level][lsp_id] = bytes(pdu)
        if not self.is_lan:
            self.owed[level][lsp_id] = pdus.entry_of(bytes(pdu))
        self.unacknowledged[level].pop(lsp_id, None)

    def hear_list(self, kind, level, pdu):
        told = {lsp_id: number for _, lsp_id, number, _ in pdus.entries(pdu)}
        for lifetime, lsp_id, number, checksum in pdus.entries(pdu):
            held = self.lsps[level].get(lsp_id)
            ours = int.from_bytes(held[20:24], "big") if held else 0
            if ours == number:
                self.unacknowledged[level].pop(lsp_id, None)
            elif ours > number:
                self.unacknowledged[level][lsp_id] = 0
            elif number and any(checksum):
                self.owed[level][lsp_id] = lifetime.to_bytes(2, "big") + lsp_id + ours.to_bytes(4, "big") + (held[24:26] if held else checksum)
        if kind in pdus.CSNPS.values():
            first, last = bytes(pdu[17:25]), bytes(pdu[25:33])
            for lsp_id in [it for it in self.lsps[level] if first <= it <= last and it not in told]:
                self.unacknowledged[level].setdefault(lsp_id, 0)

    # Its time.

    def turn(self, wait=0.05):
        """Hears what came, after at most so many seconds, and says what is due."""
        ready, _, _ = select.select([self.port], [], [], wait)
        while ready:
            self.hear(self.port.recv(65536))
            ready, _, _ = select.select([self.port], [], [], 0)
        if time.monotonic() >= self.hello_due:
            self.say_hello()
        if self.state == UP:
            self.say_lsps()
            self.say_psnps()

    def run(self, seconds, until=lambda: False):
        """Goes on for so many seconds, or until this holds; says whether it did."""
        end = time.monotonic() + seconds
        while time.monotonic() < end:
            self.turn()
            if until():
                return True
        return False
