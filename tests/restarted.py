#!/usr/bin/env python3
"""What examples/daemons/weave makes of the journals of daemons that were killed and started again: the text, and where it says that a fault is. Then how
examples/daemons/replay compares several copies of an own LSP.

`tests/restarted.py` alone prints what differs. A stand-in is asked in place of the program, so that none has to lie built.
"""
import subprocess
import sys
import tempfile
from importlib.machinery import SourceFileLoader
from importlib.util import module_from_spec, spec_from_loader
from pathlib import Path

sys.dont_write_bytecode = True
TOP = Path(__file__).resolve().parent.parent
sys.path.insert(0, str(TOP / "tools"))
import isis_pdus as pdus  # noqa: E402

HEAD = "isis-journal 1\n"
CONFIG = """system = "0000.0000.000{0}"
areas = ["49.0001"]
level = "L1"
[[circuit]]
kind = "p2p"
bind = "127.0.0.1:700{0}"
peers = ["127.0.0.1:700{1}"]
[[prefix]]
prefix = "10.0.{0}.0/24"
"""
SETUP = """router A 0000.0000.0001 49.0001 L1
router B 0000.0000.0002 49.0001 L1
link n1 A B 10
prefix A 10.0.1.0/24 10
prefix B 10.0.2.0/24 10
"""
# It keeps what it reads by its word and how often it was asked, and answers what it is told to.
PROGRAM = """#!/bin/sh
cat > "$0.$1.$(ls "$0.$1".* | wc -l)"
cat "$0.says.$1.line" >&2
cat "$0.says.$1.text"
exit "$(cat "$0.says.$1.code")"
"""


def hello(system, boot):
    """A hello in a datagram of this boot, as a journal has it."""
    own = bytes(5) + bytes((system,))
    return pdus.framed(own, boot, pdus.sealed(pdus.header(17) + b"\1" + own + bytes((0, 30)) + b"\0\0\1")).hex()


def sends(system, boot, number=1):
    return f"{number} 1 pull 1 -> send {hello(system, boot)}\n"


def takes(system, boot, number):
    return f"{number} 1 take 1 {hello(system, boot)} -> done\n"


# Of A, boot by boot; what B had is the same in all.
FIRST, LATER = HEAD + sends(1, 1) + "2 0 second -> done\n", HEAD + sends(1, 2)
B = HEAD + takes(1, 1, 1) + takes(1, 2, 2)
SECOND_LINE = "isis: line {} form\nweave: {}\n"


class Room:
    """A folder with files and a stand-in."""

    def __init__(self, folder, files):
        self.folder, self.program = Path(folder), Path(folder) / "program"
        for number, name in enumerate("AB", 1):
            (self.folder / f"{name}.toml").write_text(CONFIG.format(number, 3 - number), encoding="ascii")
        for name, text in {"B.journal": B, **files}.items():
            (self.folder / name).write_bytes(text if isinstance(text, bytes) else text.encode("ascii"))
        self.program.write_text(PROGRAM, encoding="ascii")
        self.program.chmod(0o755)
        for word in ("weave", "lab"):
            self.answers(word, "", "", 0)

    def answers(self, word, text, line, code):
        for kind, said in (("text", text), ("line", line and line + "\n"), ("code", str(code))):
            Path(f"{self.program}.says.{word}.{kind}").write_text(said, encoding="ascii")
        Path(f"{self.program}.{word}.").touch()

    def asked(self, word, number):
        """What the stand-in read when it was asked so often with a word."""
        return Path(f"{self.program}.{word}.{number}").read_bytes().decode("latin-1")

    def call(self, *words):
        ran = subprocess.run([TOP / "examples" / "daemons" / "weave", "--program", self.program, *words], cwd=self.folder, capture_output=True, check=False)
        return ran.returncode, ran.stdout.decode("latin-1"), ran.stderr.decode()


def told(got, wanted):
    return None if got == wanted else f"{got!r}, wanted {wanted!r}"


def text(*journals):
    """The text of these journals of A, and the one of B."""
    blocks = [("A", it) for it in journals] + [("B", B)]
    return "isis-weave 1\n" + SETUP + "".join(f"journal {name}\n{it}end\n" for name, it in blocks)


TEXTS = {
    "one boot": ([FIRST], [FIRST]),
    "two boots": ([FIRST, LATER], [FIRST, LATER]),
    "a last line in part": ([FIRST + "3 1 pull 1 -> se", LATER + "2"], [FIRST, LATER]),
    "a boot that isn't there": ([FIRST, HEAD + sends(1, 4)], [FIRST, HEAD, HEAD, HEAD + sends(1, 4)]),
    "the last boot alone": ([LATER], [HEAD, LATER]),
    "killed before it wrote": (["", LATER], [HEAD, LATER]),
    "killed in its first line": ([FIRST, HEAD[:9], HEAD + sends(1, 3)], [FIRST, HEAD, HEAD + sends(1, 3)]),
    "killed before it sent": ([FIRST, HEAD + "1 0 second -> done\n"], [FIRST, HEAD + "1 0 second -> done\n"]),
    "lines that end with CR LF": ([FIRST.replace("\n", "\r\n")], [FIRST]),
    "octets that no journal has": ([FIRST.encode() + b"3 1 second -> \xff\n"], [FIRST + "3 1 second -> \xff\n"]),
}
# Journals of A, and what is said of them, with code 1.
REFUSED = {
    "boots in another order": ([LATER, FIRST], "A2 is of boot 1, and A1 before it of boot 2: the journals stand in the order of their boots"),
    "a boot twice": ([FIRST, FIRST], "A2 is of boot 1, and A1 before it of boot 1: the journals stand in the order of their boots"),
    "a line that is no entry": ([FIRST, LATER + "3 1 second -> done\n"], "A2: the journal's line 3 is no entry 2: 3 1 second -> done"),
    "a datagram that is no hex text": ([FIRST, HEAD + "1 1 pull 1 -> send 4x\n"], "A2: the first datagram that it sent is no hex text"),
    "another head": ([FIRST, "isis-journal 2\n"], "A2 doesn't begin with a line isis-journal 1"),
}
# What the program answers where A has two journals, the code, and the second line.
PLACES = {
    "isis: journal 1 entry 2 reply": (11, "A1 entry 2: 2 0 second -> done"),
    "isis: journal 2 entry 1 stuck": (11, f"A2 entry 1: {sends(1, 2)[:80]} .."),
    "isis: journal 3 entry 2 stuck": (11, f"B.journal entry 2: {takes(1, 2, 2)[:80]} .."),
    "isis: line 10 form": (3, "A1 entry 2: 2 0 second -> done"),
    "isis: line 14 form": (3, f"A2 entry 1: {sends(1, 2)[:80]} .."),
    "isis: line 18 form": (3, f"B.journal entry 1: {takes(1, 1, 1)[:80]} .."),
    "isis: line 4 again": (3, "link n1 A B 10"),
    "isis: limit boots": (10, None),
}


def texts():
    for name, (journals, blocks) in TEXTS.items():
        names = [f"A{number}" for number in range(1, len(journals) + 1)]
        with tempfile.TemporaryDirectory() as folder:
            room = Room(folder, dict(zip(names, journals)))
            yield name, told(room.call("--text", *names, "A.toml", "B.journal", "B.toml"), (0, text(*blocks), ""))
    for name, (journals, line) in REFUSED.items():
        with tempfile.TemporaryDirectory() as folder:
            got = Room(folder, dict(zip(("A1", "A2"), journals))).call("--text", "A1", "A2", "A.toml", "B.journal", "B.toml")
        yield name, told(got, (1, "", f"weave: {line}\n"))


def places():
    with tempfile.TemporaryDirectory() as folder:
        room = Room(folder, {"A1": FIRST, "A2": LATER})
        for line, (code, place) in PLACES.items():
            room.answers("weave", "", line, code)
            wanted = line + "\n" + (f"weave: {place}\n" if place else "")
            yield line, told(room.call("A1", "A2", "A.toml", "B.journal", "B.toml"), (code, "", wanted))
        yield "no configuration", told(room.call("A1", "A.toml", "B.journal"), (1, "", "weave: B.journal has no configuration behind it\n"))
        yield "no journal", told(room.call("A.toml", "B.journal", "B.toml"), (1, "", "weave: A.toml has no journal before it\n"))


def played():
    """What is asked of the lab, and what is written."""
    with tempfile.TemporaryDirectory() as folder:
        room = Room(folder, {"A1": FIRST + "3 0 sec", "A2": LATER})
        room.answers("weave", "isis-lab 1\nthe schedule\n", "", 0)
        room.answers("lab", "isis-report 1\nrouter A 0000.0000.0001 boot 2\nrouter B 0000.0000.0002 boot 1\n", "", 0)
        holds = "router A 0000.0000.0001 boot 2\nrouter B 0000.0000.0002 boot 1\neach router holds what it held by its journal alone\n"
        got = room.call("A1", "A2", "A.toml", "B.journal", "B.toml")
        yield "what is written", told(got, (0, "woven 5 entries of 3 journals\n" + holds, ""))
        asked = [room.asked("lab", number) for number in (1, 2)]
        events = "".join(f"{line}\n" for line in ("prefix A 10.0.1.0/24 10", "pull A c1", "tick A", "restart A", "pull A c1"))
        yield "the schedule is played", told(asked[0], "isis-lab 1\nthe schedule\n")
        yield "a router's journals are played", told(asked[1][-len(events) :], events)


def copies():
    """Of an own LSP that was sent several times, each copy is compared with its own lifetime, where the circuit's address is left out."""
    loader = SourceFileLoader("replay", str(TOP / "examples" / "daemons" / "replay"))
    replay = module_from_spec(spec_from_loader("replay", loader))
    loader.exec_module(replay)
    own, address = bytes(5) + b"\1", pdus.tlv(pdus.ADDRESSES, bytes((10, 0, 0, 1)))

    def lsp(lifetime, parts):
        head = pdus.header(18) + bytes(2) + lifetime.to_bytes(2, "big") + own + bytes(2) + bytes((0, 0, 0, 5)) + bytes(2) + b"\1"
        return pdus.framed(own, 1, pdus.sealed(head + parts))

    with tempfile.TemporaryDirectory() as folder:
        config = Path(folder, "A.toml")
        config.write_text(CONFIG.format(1, 2).replace("[[prefix]]", 'address = "10.0.0.1"\n[[prefix]]'), encoding="ascii")
        journal = [replay.Entry(number, ["pull", "1"], ["send", lsp(lifetime, address).hex()]) for number, lifetime in ((1, 1200), (2, 1190))]
        plain = replay.Plain(replay.Config(config), journal)
    for lifetime in (1200, 1190, 7):
        yield f"a copy with {lifetime} seconds left", told(plain.sent(lsp(lifetime, address), 1), lsp(lifetime, b""))


def faults(_=None):
    """Each of these runs by name, and what comes out otherwise than it should, if anything does."""
    for part in (texts, places, played, copies):
        for name, fault in part():
            yield f"weave: {name}", fault


if __name__ == "__main__":
    found = list(faults())
    for name, fault in found:
        if fault:
            print(f"{name}: {fault}", file=sys.stderr)
    print(f"restarted: {len(found)} cases, {sum(fault is not None for _, fault in found)} differ")
    sys.exit(any(fault for _, fault in found))
