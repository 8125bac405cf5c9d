#!/usr/bin/env python3
"""What tools/ethernet_circuit passes, drops and outlives: its parts, with errors that are made up, then the script itself on a pair of interfaces.

`tests/bridged.py` alone prints what differs; it needs no program that lies built. The pair of interfaces is in a network namespace of its own, which goes
away with the test. Where none can be had (`unshare -n`, by root, or `unshare -rn`) that part is skipped, and a line says so.
"""
import errno
import os
import signal
import socket
import struct
import subprocess
import sys
import tempfile
import time
from importlib.machinery import SourceFileLoader
from importlib.util import module_from_spec, spec_from_loader
from pathlib import Path

sys.dont_write_bytecode = True
TOP = Path(__file__).resolve().parent.parent
TOOL = TOP / "tools" / "ethernet_circuit"
sys.path.insert(0, str(TOP / "tools"))
import isis_pdus as pdus  # noqa: E402

loader = SourceFileLoader("ethernet_circuit", str(TOOL))
bridge = module_from_spec(spec_from_loader("ethernet_circuit", loader))
loader.exec_module(bridge)

OURS, STATION, SYSTEM = (bytes((0, 0, 0, 0, 0, number)) for number in (1, 2, 3))
KEY = b"key"
HEARD = bytes.fromhex("a1b2")
SENT_LOST = ("ENOBUFS", "EAGAIN", "ENETDOWN", "ENXIO", "EMSGSIZE", "ENODEV", "EPERM")


class Hands:
    """A clock that stands until it is set."""

    def __init__(self):
        self.seconds = 1000

    def __call__(self):
        return self.seconds


class Faulty:
    """A wire that has one error for all that is asked of it."""

    def __init__(self, name):
        self.number = getattr(errno, name)

    def send(self, _):
        raise OSError(self.number, os.strerror(self.number))

    def recvfrom(self, _):
        raise OSError(self.number, os.strerror(self.number))


class Giving:
    """A wire that gives one frame again and again."""

    def __init__(self, octets, kind=socket.PACKET_MULTICAST):
        self.octets, self.kind = octets, kind

    def recvfrom(self, _):
        return self.octets, ("w", 4, self.kind, 1, STATION)


def hello(system):
    return pdus.sealed(pdus.header(17) + b"\x03" + system + struct.pack(">HH", 30, 0) + b"\x01" + pdus.tlv(pdus.THREE_WAY, b"\x02"))


def lsp(kind, number, lifetime, checksum=bytes(2), key=None):
    """An LSP of SYSTEM; a purge where its lifetime is 0."""
    head = pdus.header(kind) + bytes(2) + struct.pack(">H", lifetime) + SYSTEM + bytes(2) + struct.pack(">I", number) + checksum + b"\x03"
    return pdus.sealed(head + pdus.room_for_digest(key), key)


def snp(kind, listed, key=None):
    spread = bytes(8) + bytes((255,) * 8) if kind in pdus.CSNPS.values() else b""
    entries = b"".join(pdus.entry_of(it) for it in listed)
    return pdus.sealed(pdus.header(kind) + bytes(2) + OURS + b"\0" + spread + pdus.room_for_digest(key) + pdus.tlv(pdus.ENTRIES, entries), key)


def frame(pdu, station=STATION):
    return bridge.ALL_ROUTERS + station + struct.pack(">H", 3 + len(pdu)) + bridge.LLC + pdu


def translator(is_lan=False):
    made = bridge.Translator(is_lan, OURS, lambda line: None)
    made.purges = bridge.Purges(Hands())
    made.datagram_of(frame(hello(SYSTEM)))
    return made


def sent(made, pdu):
    """The PDU that goes out where the daemon sends this one."""
    return bridge.payload_of(made.frame_of(pdus.framed(OURS, 1, pdu)))


def told(got, wanted):
    return None if got == wanted else f"{got!r}, wanted {wanted!r}"


def checksums():
    """What goes out of a purge that was heard has the checksum that it had; all else is as the daemon sent it."""
    made = translator()
    heard, ours = (lsp(18, 5, 0, checksum) for checksum in (HEARD, bytes(2)))
    yield "nothing was heard", told(sent(made, snp(26, [ours])), snp(26, [ours]))
    made.datagram_of(frame(heard))
    live, newer, held = lsp(18, 5, 9), lsp(18, 6, 0), lsp(18, 5, 0, b"\1\2")
    for kind in (24, 26):
        yield f"type {kind} lists a purge", told(sent(made, snp(kind, [live, ours, newer, held])), snp(kind, [live, heard, newer, held]))
        yield f"type {kind} with a digest", told(sent(made, snp(kind, [ours], KEY)), snp(kind, [ours], KEY))
    yield "another level", told(sent(made, snp(27, [ours])), snp(27, [ours]))
    for key in (None, KEY):
        yield f"our copy of the purge, key {key}", told(sent(made, lsp(18, 5, 0, key=key)), lsp(18, 5, 0, HEARD, key))
    for name, pdu in (("a live LSP", live), ("a newer purge", newer), ("a purge of another level", lsp(20, 5, 0)), ("a hello", hello(OURS))):
        yield f"{name} goes out as it is", told(sent(made, pdu), pdu)
    made.datagram_of(frame(lsp(18, 5, 0, b"\3\4")))
    yield "the last checksum counts", told(sent(made, snp(26, [ours])), snp(26, [held[:24] + b"\3\4" + held[26:]]))
    made.purges.clock.seconds += bridge.KEPT
    made.purges.forget()
    yield "it is forgotten", told((sent(made, snp(26, [ours])), len(made.purges.checksums)), (snp(26, [ours]), 0))


def repeats():
    """The same purge goes to the daemon once a second; other PDUs go each time."""
    daemon, port = (socket.socket(socket.AF_INET, socket.SOCK_DGRAM) for _ in range(2))
    daemon.bind(("127.0.0.1", 0))
    purge, passed, dropped = lsp(18, 5, 0, HEARD), bridge.TO_DAEMON, "repeated purges"

    def take(pdu, station=STATION):
        return bridge.from_wire(Giving(frame(pdu, station)), port, daemon.getsockname(), made)

    for is_lan in (False, True):
        made = translator(is_lan)
        yield f"a purge three times, lan {is_lan}", told([take(purge) for _ in range(3)], [passed, dropped, dropped])
        yield "another purge", told([take(lsp(20, 5, 0, HEARD)), take(lsp(18, 6, 0)), take(lsp(18, 5, 0, b"\1\1"))], [passed] * 3)
        yield "a live LSP twice", told([take(lsp(18, 7, 9)) for _ in range(2)], [passed] * 2)
        made.datagram_of(frame(hello(OURS), OURS))
        yield "the purge of another station", told([take(purge, OURS) for _ in range(2)], [passed, dropped])
        made.purges.clock.seconds += bridge.REPEAT
        yield "the purge a second later", told([take(purge) for _ in range(2)], [passed, dropped])
        made.purges.clock.seconds += bridge.REPEAT
        made.purges.forget()
        yield "repeats are forgotten", told(made.purges.passed, {})
    yield "a purge that the daemon's port didn't take", told(*twice_lost(port, daemon.getsockname()))
    for number in range(bridge.MOST + 9):
        made.purges.hear(lsp(18, number, 0, HEARD))
        made.learn(number.to_bytes(6, "big"), number.to_bytes(6, "big"))
    yield "at most so many are kept", told((len(made.purges.checksums), len(made.systems)), (bridge.MOST,) * 2)
    daemon.close()
    port.close()


def twice_lost(port, address):
    """A purge that was lost on its way goes once more."""
    class Full:
        def sendto(self, *_):
            raise OSError(errno.EAGAIN, "full")
    made, wire = translator(), Giving(frame(lsp(18, 5, 0, HEARD)))
    return [bridge.from_wire(wire, it, address, made) for it in (Full(), port)], ["PDUs lost on the way to the daemon (full)", bridge.TO_DAEMON]


def losses():
    """Each error of the interface is counted by its cause, and ends nothing."""
    daemon, port = (socket.socket(socket.AF_INET, socket.SOCK_DGRAM) for _ in range(2))
    for it in (daemon, port):
        it.bind(("127.0.0.1", 0))
        it.settimeout(5)
    made, counts = translator(), bridge.Counts()

    def sends(wire, octets=pdus.framed(OURS, 1, hello(OURS)), sender=daemon):
        sender.sendto(octets, port.getsockname())
        counts.add(bridge.from_port(wire, port, daemon.getsockname(), made))
        return counts.drops()

    for name in SENT_LOST:
        cause = os.strerror(getattr(errno, name))
        yield f"{name} at a send", told(sends(Faulty(name)), f"1 PDUs lost at the interface ({cause})")
        counts.add(bridge.from_wire(Faulty(name), port, daemon.getsockname(), made))
        yield f"{name} at a receipt", told(counts.drops(), f"1 faults of the interface ({cause})")
    yield "no interface", told(sends(None), "1 PDUs lost while there was no interface")
    for octets, sender in ((b"none", daemon), (pdus.framed(OURS, 1, hello(OURS)), port)):
        yield "no PDU of the daemon's", told(sends(None, octets, sender), "1 datagrams that are no PDU of the daemon's")
    for wire in (Giving(b"none"), Giving(frame(hello(OURS)), socket.PACKET_OTHERHOST)):
        counts.add(bridge.from_wire(wire, port, daemon.getsockname(), made))
        yield "no PDU for us", told(counts.drops(), "1 frames for others, or without a PDU")
    counts.add(bridge.from_wire(Giving(frame(snp(26, []), b"nobody")), port, daemon.getsockname(), made))
    yield "no hello before", told(counts.drops(), "1 PDUs before their station's first hello")
    counts.add(bridge.from_wire(Giving(frame(hello(OURS))), port, daemon.getsockname(), made))
    yield "what is passed is no drop", told((counts.drops(), counts.all[bridge.TO_DAEMON]), ("", 1))
    daemon.close()
    port.close()


# The script itself, in a namespace.


def ip(*words):
    subprocess.run(["ip", *words], check=True)


class Pair:
    """The script on one interface of a pair, a daemon's stand-in behind it, and a router's at the other interface."""

    def __init__(self, room):
        ip("link", "set", "lo", "up")
        self.lines = Path(room) / "lines"
        self.connect("02:00:00:00:00:01")
        self.daemon = socket.socket(socket.AF_INET, socket.SOCK_DGRAM)
        self.daemon.bind(("127.0.0.1", 7001))
        self.start()

    def start(self):
        with self.lines.open("wb") as lines:
            self.script = subprocess.Popen([sys.executable, TOOL, "w", "127.0.0.1:7101", "127.0.0.1:7001"], stderr=lines)
        self.saw("is joined to")

    def end(self, number):
        """Its exit code after this signal, and its last line."""
        self.script.send_signal(number)
        return self.script.wait(10), self.lines.read_text(encoding="utf-8").splitlines()[-1]

    def connect(self, address):
        ip("link", "add", "w", "address", address, "type", "veth", "peer", "name", "far")
        for name in ("w", "far"):
            ip("link", "set", name, "up")
        self.far = bridge.open_wire("far")

    def saw(self, words):
        """Whether a line with these words comes within some seconds."""
        end = time.monotonic() + 10
        while words not in self.lines.read_text(encoding="utf-8") and time.monotonic() < end:
            time.sleep(0.02)
        return words in self.lines.read_text(encoding="utf-8")

    def give(self, pdu):
        self.far.send(frame(pdu))

    def send(self, pdu):
        self.daemon.sendto(pdus.framed(OURS, 1, pdu), ("127.0.0.1", 7101))

    def taken(self, end, last, seconds=10):
        """What comes at an end, up to this PDU, or until nothing comes for so long."""
        end.settimeout(seconds)
        found = []
        while last not in found:
            try:
                octets, address = end.recvfrom(65536)
            except OSError:
                break
            if end is self.daemon or address[2] in bridge.MEANT:
                found.append(pdus.pdu_of(octets) if end is self.daemon else bridge.payload_of(octets))
        return found

    def passes(self):
        """Whether PDUs go both ways, at the latest after some seconds."""
        end = time.monotonic() + 10
        while time.monotonic() < end and self.script.poll() is None:
            self.send(hello(OURS))
            try:
                self.give(hello(SYSTEM))
            except OSError:
                pass
            if hello(OURS) in self.taken(self.far, hello(OURS), 0.1) and hello(SYSTEM) in self.taken(self.daemon, hello(SYSTEM), 0.1):
                return None
        return f"they don't pass; the script ended with {self.script.poll()}: {self.lines.read_text(encoding='utf-8')}"


def flaps(pair):
    """The far end falls and comes up again, then our own, while the daemon sends."""
    for name in ("far", "w"):
        for _ in range(4):
            for state in ("down", "up"):
                ip("link", "set", name, state)
                for _ in range(20):
                    pair.send(hello(OURS))
                    time.sleep(0.002)
        yield f"after {name} fell four times", pair.passes()
    ip("link", "set", "w", "mtu", "100")
    pair.send(snp(26, [lsp(18, number, 9) for number in range(15)]))
    yield "after a PDU that the interface has no room for", pair.passes()


def storm(pair):
    """A purge that comes 100 times goes to the daemon once a second; its acknowledgement goes out with its checksum."""
    purge, last, began = lsp(18, 5, 0, HEARD), lsp(18, 6, 9), time.monotonic()
    for it in [purge] * 100 + [last]:
        pair.give(it)
    found = pair.taken(pair.daemon, last)
    is_well = last in found and 1 <= found.count(purge) <= 2 + time.monotonic() - began
    yield "100 purges", None if is_well else f"{found.count(purge)} of {len(found)} came"
    for it in (snp(26, [lsp(18, 5, 0)]), last):
        pair.send(it)
    found = [it for it in pair.taken(pair.far, last) if pdus.type_of(it) == 26]
    yield "the acknowledgement", told(found, [snp(26, [purge])])


def removals(pair):
    """The interface is removed, and one of its name is made, with another address."""
    pair.far.close()
    ip("link", "del", "w")
    yield "it says that the interface went away", None if pair.saw("w went away") else "no line"
    pair.send(hello(OURS))
    pair.connect("02:00:00:00:00:02")
    yield "it says that the interface is back", None if pair.saw("w is joined again") else "no line"
    yield "after another interface of the name", pair.passes()
    pair.send(hello(OURS))
    pair.far.settimeout(10)
    yield "frames leave with its address", told(pair.far.recvfrom(65536)[0][6:12], bytes((2, 0, 0, 0, 0, 2)))


def ends(pair):
    """Both signals end it with 0, and it prints what it passed and dropped."""
    code, line = pair.end(signal.SIGTERM)
    wanted = (bridge.TO_DAEMON, bridge.FROM_DAEMON, "repeated purges", "PDUs lost at the interface (", "PDUs lost while there was no interface")
    yield "SIGTERM ends it", None if code == 0 and all(f" {it}" in line for it in wanted) else f"{code} {line}"
    pair.start()
    yield "SIGINT ends it", told(pair.end(signal.SIGINT), (0, "ethernet_circuit: nothing came"))


def inside():
    """Prints what differs on a pair of interfaces, in the namespace where this runs."""
    with tempfile.TemporaryDirectory() as room:
        pair = Pair(room)
        try:
            for part in (flaps, storm, removals, ends):
                for name, fault in part(pair):
                    print(f"{name}\t{fault or ''}".replace("\n", " "))
        finally:
            pair.script.kill()
            pair.script.wait()


def namespace():
    """The words before a command that runs it in a network namespace of its own, or None where none can be had."""
    for words in (["unshare", "-n"], ["unshare", "-rn"]):
        try:
            tried = subprocess.run([*words, "ip", "link", "add", "w", "type", "veth", "peer", "name", "far"], capture_output=True, check=False)
        except OSError:
            return None
        if tried.returncode == 0:
            return words
    return None


def whole():
    words = namespace()
    if not words:
        print("bridged: no network namespace can be had here, so the script isn't tried on interfaces", file=sys.stderr)
        return
    ran = subprocess.run([*words, sys.executable, __file__, "inside"], capture_output=True, text=True, check=False)
    for line in ran.stdout.splitlines():
        name, _, fault = line.partition("\t")
        yield name, fault or None
    yield "the test ends", told((ran.returncode, ran.stderr), (0, ""))


def faults(_=None):
    """Each of these runs by name, and what comes out otherwise than it should, if anything does."""
    for part in (checksums, repeats, losses, whole):
        for name, fault in part():
            yield f"bridge: {name}", fault


if __name__ == "__main__":
    if sys.argv[1:] == ["inside"]:
        inside()
        sys.exit(0)
    found = list(faults())
    for name, fault in found:
        if fault:
            print(f"{name}: {fault}", file=sys.stderr)
    print(f"bridged: {len(found)} cases, {sum(fault is not None for _, fault in found)} differ")
    sys.exit(any(fault for _, fault in found))
