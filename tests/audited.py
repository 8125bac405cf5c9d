#!/usr/bin/env python3
"""What tools/audit finds: nothing in the journals of three daemons, and each kind of finding in a capture of two routers where it was planted.

`tests/audited.py` alone prints what differs; it needs no program that lies built.
"""
import re
import struct
import subprocess
import sys
from pathlib import Path

TOP = Path(__file__).resolve().parent.parent
sys.path.insert(0, str(TOP / "tools"))
import isis_pdus as pdus  # noqa: E402

A, B = (bytes((0, 0, 0, 0, 0, number)) for number in (1, 2))
EVERY = bytes(8), bytes((255,) * 8)


def capture(frames):
    """A pcap file of frames, each as its time, its sender's address and a PDU."""
    octets = struct.pack("<IHHiIII", 0xA1B2C3D4, 2, 4, 0, 0, 65535, 1)
    for time, sender, pdu in sorted(frames, key=lambda it: it[0]):
        payload = b"\xfe\xfe\x03" + pdu
        frame = bytes.fromhex("09002b000005") + sender + struct.pack(">H", len(payload)) + payload
        octets += struct.pack("<IIII", int(time), round(time % 1 * 10**6), len(frame), len(frame)) + frame
    return octets


def hello(sender, state):
    return pdus.sealed(pdus.header(17) + b"\x01" + sender + struct.pack(">HH", 30, 0) + b"\x01" + pdus.tlv(pdus.THREE_WAY, bytes((state,))))


def lsp(owner, number, lifetime=1200, area=b"\x49"):
    body = pdus.tlv(pdus.AREAS, bytes((len(area),)) + area) if lifetime else b""
    return pdus.sealed(pdus.header(18) + bytes(2) + struct.pack(">H", lifetime) + owner + bytes(2) + struct.pack(">IH", number, 0) + b"\x01" + body)


def snp(kind, sender, listed, tail=b""):
    spread = EVERY[0] + EVERY[1] if kind == 24 else b""
    value = b"".join(map(pdus.entry_of, listed)) + tail
    return pdus.sealed(pdus.header(kind) + bytes(2) + sender + b"\x00" + spread + pdus.tlv(pdus.ENTRIES, value))


def hellos(state_at=lambda time: 0):
    return [(time + part, sender, hello(sender, state_at(time) if sender == A else 0)) for time in range(0, 90, 3) for part, sender in ((0, A), (0.1, B))]


# Two routers that keep to the rules: each sends its LSP, gets it acknowledged, and lists both.
LSP_A, LSP_B = lsp(A, 5), lsp(B, 7)
CLEAN = [(4, A, LSP_A), (4.2, B, snp(26, B, [LSP_A])), (4.5, B, LSP_B), (4.7, A, snp(26, A, [LSP_B])),
         (10, A, snp(24, A, [LSP_A, LSP_B])), (10.1, B, snp(24, B, [LSP_A, LSP_B]))]
LATE = 40
# What is added to them, or taken from them, and the one kind that is found then.
PLANTED = {
    "an older number": (CLEAN + [(20, A, lsp(A, 4)), (20.1, B, snp(26, B, [LSP_A]))], "broken rank-falls"),
    "an older entry": (CLEAN + [(20, B, snp(24, B, [lsp(A, 4), LSP_B]))], "broken rank-falls"),
    "a CSNP without an LSP": (CLEAN + [(20, B, snp(24, B, [LSP_B]))], "broken csnp-lacks"),
    "an LSP that isn't sent again": (CLEAN + [(20, A, lsp(A, 6))], "broken gave-up"),
    "an LSP of number 0": (CLEAN + [(20, A, lsp(A, 0))], "broken zero-number"),
    "an entry that is cut": (CLEAN + [(20, B, snp(26, B, [LSP_A], b"\x00"))], "broken value"),
    "other contents": (CLEAN + [(20, A, lsp(A, 5, area=b"\x48"))], "premise doubled"),
    "a purge by the other": (CLEAN + [(20, B, lsp(A, 5, 0)), (20.1, A, snp(26, A, [lsp(A, 5, 0)]))], "premise purged"),
    "a number that is skipped": (CLEAN + [(20, A, lsp(A, 9)), (20.1, B, snp(26, B, [lsp(A, 9)]))], "premise number-jumps"),
    "an older number after a purge": (
        CLEAN + [(20, A, lsp(A, 5, 0)), (20.1, B, snp(26, B, [lsp(A, 5, 0)])), (21, A, lsp(A, 3)), (21.1, B, snp(26, B, [lsp(A, 3)]))], "premise let-go"),
    "a checksum": (CLEAN + [(20, A, LSP_A[:-1] + b"\x48")], "premise checksum"),
    "an LSP that waits": (CLEAN + [(time, A, lsp(A, 6)) for time in range(20, 90, 5)], "stands unacknowledged"),
}
# What is no finding: the same after a restart, which the hellos show, and an LSP that is sent again.
FINE = {
    "nothing": (CLEAN, hellos()),
    "a restart, and a LAN's CSNP before its first hello": (
        CLEAN + [(29, A, lsp(A, 2)), (29.1, B, snp(26, B, [LSP_A])), (29.5, A, snp(24, A, [lsp(A, 2)]))], hellos(lambda time: 2 if time == 30 else 0)),
    "a restart": (
        CLEAN + [(LATE, A, lsp(A, 2)), (LATE + 0.1, B, snp(26, B, [LSP_A])), (LATE + 1, A, snp(24, A, [lsp(A, 2)]))],
        hellos(lambda time: 2 if time == 30 else 0)),
    "an LSP that is sent until it is acknowledged": (CLEAN + [(20, A, lsp(A, 6)), (25, A, lsp(A, 6)), (25.1, B, snp(26, B, [lsp(A, 6)]))], hellos()),
    "a PDU that is none": (CLEAN + [(20, A, b"\x83\x1b\x01")], hellos()),
}


def audited(octets):
    """How tools/audit ends on a capture, and the kinds that it counts."""
    ran = subprocess.run([TOP / "tools" / "audit"], input=octets, capture_output=True, check=False)
    return ran.returncode, re.findall(r"(?m)^sum (\w+ [\w-]+) \d+$", ran.stdout.decode()), ran.stderr.decode()


def journal_frames(path, offset):
    """What a daemon sent by its journal, each with the second and the circuit."""
    seconds = offset
    for line in path.read_text(encoding="ascii").splitlines()[1:]:
        words = line.split(" ")
        seconds += words[2] == "second"
        if words[2] == "pull" and "send" in words:
            yield from ((seconds, int(words[3]), bytes.fromhex(it)) for it in words[words.index("send") + 1 :])


def journals(circuits):
    """The capture of one link of the daemons of examples/daemons, by the journals and circuits of its ends."""
    frames = []
    for place, (name, circuit) in enumerate(circuits):
        for seconds, number, datagram in journal_frames(TOP / "examples" / "daemons" / f"{name}.journal", place / 10):
            if number == circuit:
                frames.append((seconds + len(frames) / 10**5, datagram[4:10], pdus.pdu_of(datagram)))
    return capture(frames)


def faults(_=None):
    """Each of these runs by name, and what comes out otherwise than it should, if anything does."""
    for name, (frames, kind) in PLANTED.items():
        got = audited(capture(frames + hellos()))
        wanted = 3 if kind.startswith("broken") else 0
        # what isn't sent again waits too
        kinds = [kind] + ["stands unacknowledged"] * (kind == "broken gave-up")
        yield f"audit: {name}", None if got == (wanted, kinds, "") else f"found {got}"
    for name, (frames, said) in FINE.items():
        got = audited(capture(frames + said))
        yield f"audit: {name}", None if got[0] == 0 and not [it for it in got[1] if not it.startswith("premise")] else f"found {got}"
    for circuits in ((("one", 1), ("two", 1)), (("two", 2), ("three", 1))):
        got = audited(journals(circuits))
        yield f"audit: journals {circuits}", None if got[0] == 0 and not [it for it in got[1] if it.startswith("broken")] else f"found {got}"
    yield "audit: no capture", None if audited(b"none") == (1, [], "audit: this is neither pcap nor pcapng\n") else f"found {audited(b'none')}"


if __name__ == "__main__":
    found = list(faults())
    for name, fault in found:
        if fault:
            print(f"{name}: {fault}", file=sys.stderr)
    print(f"audited: {len(found)} cases, {sum(fault is not None for _, fault in found)} differ")
    sys.exit(any(fault for _, fault in found))
