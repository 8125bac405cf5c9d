"""Words, and an outside that fails: each exit code that a user can meet, with its line, of the program and of the launcher."""
import fcntl
import os
import pty
import resource
import signal
import socket
import struct
import tempfile
import termios
import threading
import time
from pathlib import Path

from limits import INPUT_LIMIT, TWO, headed, told

LAUNCHER = Path(__file__).resolve().parent.parent / "isis"
NO_WORDS = [[], [""], ["Lab"], ["lab", "lab"], ["lab "], ["--help"], ["grid"], ["grid", "0"], ["grid", "9"], ["grid", "01"], [b"\xff"]]
NO_WORDS += [["weave", ""], ["weave "]]
NO_WORDS += [["walk", name, prefix] for name, prefix in (("", "10.0.0.0/8"), ("A ", "10.0.0.0/8"), (b"\xff", "10.0.0.0/8"), ("A", ""), ("A", "10.0.0.0/8\n"))]
SCRIPT = "isis-keys 1\nrouter A\nissue A 0000.0000.0001.00-00 2 live\n"
REPORT = "isis-report 1\nkey A 0000.0000.0001.00-00 2 live\n"
# Lines of which much more is shown than a pipe holds, and what is shown.
LINES = "8\n" * 20_000
SHOWN = "".join(f"pdu {number} fault Hex 1\n" for number in range(1, 20_001))
# What the program writes at once, at most.
PAGE = 8192


def words(run):
    for these in NO_WORDS:
        yield f"the words {these}", told(run(these, SCRIPT), 2, "usage", "")


def inputs(run):
    """An input that is a folder, one that is closed, and one that fails behind its first octets."""
    folder = os.open(tempfile.gettempdir(), os.O_RDONLY)
    yield "a folder as input", told(run(["lab"], "", stdin=folder), 4, "read fault", "")
    os.close(folder)
    yield "no input", told(run(["lab"], "", stdin=None, preexec_fn=lambda: os.closerange(0, 1)), 4, "read fault", "")
    near, far = pty.openpty()
    os.write(far, SCRIPT.encode())
    os.close(far)
    yield "an input that fails on its way", told(run(["lab"], "", stdin=near), 4, "read fault", "")
    os.close(near)


def outputs(run, code=5, line="write fault"):
    """An output without room, one that is closed, and a reader that goes away, with the code and the line that it ends with."""
    with open("/dev/full", "wb") as full:
        yield "an output without room", told(run(["lab"], SCRIPT, stdout=full), 5, "write fault")
    yield "no output", told(run(["lab"], SCRIPT, preexec_fn=lambda: os.closerange(1, 2)), 5, "write fault")
    near, far = os.pipe()
    taken = []
    reader = threading.Thread(target=lambda: (taken.append(os.read(near, 100)), os.close(near)))
    reader.start()
    ended = run(["show"], LINES, stdout=far)
    reader.join()
    os.close(far)
    yield "a reader that goes away", told(ended, code, line)


def fed(end, pieces, whole):
    """Hands a socket's pieces over, each when the one before was read; at the end either closes it for good, or has the next read fail."""
    for piece in pieces:
        end.send(piece)
        while struct.unpack("i", fcntl.ioctl(end, termios.TIOCOUTQ, b"\0\0\0\0"))[0]:
            time.sleep(0.0005)
    if whole:
        end.shutdown(socket.SHUT_WR)
    else:
        # what its other end sent was never read, so that end is told of a reset
        end.close()


def reads(run):
    """The first, the second, to the twentieth read fails: of a script that is read seven octets at a time, the last read finds its end."""
    script = (TWO + "link X A B 10\nrun 7\n").encode()
    report = run(["lab"], script).output
    pieces = [script[place : place + 7] for place in range(0, len(script), 7)]
    for count in range(1, 21):
        near, far = socket.socketpair()
        near.send(b"unread")
        is_whole = count > len(pieces) + 1
        feeder = threading.Thread(target=fed, args=(far, pieces[: count - 1], is_whole))
        feeder.start()
        ended = run(["lab"], "", stdin=near)
        feeder.join()
        near.close()
        far.close()
        yield f"read {count} fails", told(ended, 0, "", report) if is_whole else told(ended, 4, "read fault", "")


def limited(size, handler):
    """Before the program starts: no file is to pass a size, and what the signal of that does."""

    def set_limit():
        signal.signal(signal.SIGXFSZ, handler)
        resource.setrlimit(resource.RLIMIT_FSIZE, (size, size))

    return set_limit


def limited_fault(run, words, text, whole, size):
    """What is wrong where the output is a file of at most so many octets, which then holds that much of the whole text."""
    with tempfile.TemporaryFile() as file:
        ended = run(words, text, stdout=file, preexec_fn=limited(size, signal.SIG_IGN))
        file.seek(0)
        written = file.read().decode()
    return told(ended, 5, "write fault") or (None if written == whole[:size] else f"{len(written)} octets stand there")


def writes(run):
    """The first, the second, to the twentieth write fails, and each at its start or on its way; what was written is a prefix."""
    keys = "isis-keys 1\nrouter A\n" + "".join(f"issue A 0000.0000.{n:04x}.00-00 2 live\n" for n in range(5000))
    report = run(["lab"], keys).output
    for words, text, whole in ((["show"], LINES, SHOWN), (["lab"], keys, report)):
        for size in sorted([PAGE * count for count in range(20)] + [1, 100, PAGE - 1, PAGE + 1, 12_345]):
            yield f"{words[0]}: a file of at most {size} octets", limited_fault(run, words, text, whole, size)


def killed(run):
    """At the limit of a file's size the system stops the program, unless that signal is ignored."""
    with tempfile.TemporaryFile() as file:
        ended = run(["show"], LINES, stdout=file, preexec_fn=limited(100, signal.SIG_DFL))
        file.seek(0)
        written = file.read().decode()
    right = (ended.code, ended.line, written) == (-signal.SIGXFSZ, "", SHOWN[:100])
    yield "the signal of a file's limit", None if right else f"ended with {ended.code} {ended.line!r}, {len(written)} octets stand there"


def readers(run):
    """A reader that goes away after so many octets, of a pipe that holds a page at most."""
    for size in (1, 100, PAGE, 20 * PAGE, 200_001):
        near, far = os.pipe()
        fcntl.fcntl(far, fcntl.F_SETPIPE_SZ, 4096)
        taken = []
        reader = threading.Thread(target=lambda: (taken.append(read_whole(near, size)), os.close(near)))
        reader.start()
        ended = run(["show"], LINES, stdout=far)
        reader.join()
        os.close(far)
        fault = told(ended, 5, "write fault") or (None if taken[0] == SHOWN[:size] else "it read what isn't the output's beginning")
        yield f"a reader that goes away after {size} octets", fault


def read_whole(end, size):
    """So many octets of a pipe, as text."""
    octets = b""
    while len(octets) < size:
        octets += os.read(end, size - len(octets))
    return octets.decode()


def memory(run):
    """Memory for the program, and none for what it asks for."""
    limit = 16 << 20
    ended = run(["lab"], "\n" * INPUT_LIMIT, preexec_fn=lambda: resource.setrlimit(resource.RLIMIT_AS, (limit, limit)))
    yield "no memory", told(ended, 7, "out of memory", "")


WALK = ["walk", "A", "10.0.2.0/24"]
WALKED = TWO + "link X A B 10\nprefix B 10.0.2.0/24 10\nrun 60\n"
WALK_TEXT = "isis-walk 1\nwalk A 10.0.2.0/24 cost 20\nvia B\n"


def walks(run):
    """A walk is written, or a prefix of it; where there is none, no output is touched."""
    closed = {"preexec_fn": lambda: os.closerange(1, 2)}
    yield "a walk", told(run(WALK, WALKED), 0, "", WALK_TEXT)
    yield "a walk, and no output", told(run(WALK, WALKED, **closed), 5, "write fault")
    yield "no walk, and no output", told(run(WALK, TWO, **closed), 12, "no walk owners")
    for size in (0, 1, len(WALK_TEXT) - 1):
        yield f"a walk: a file of at most {size} octets", limited_fault(run, WALK, WALKED, WALK_TEXT, size)
    folder = os.open(tempfile.gettempdir(), os.O_RDONLY)
    yield "a walk, and a folder as input", told(run(WALK, "", stdin=folder), 4, "read fault", "")
    os.close(folder)


# A system of the second level that the captured LSPs don't have, and what is written of it.
CAPTURED = "0000.0000.0001"


def summaries(run):
    """A grid's summary, the routes and the alternates of a system at each level: an output that is closed is a write fault."""
    closed = {"preexec_fn": lambda: os.closerange(1, 2)}
    for words in (["grid", "1"], *([word, level, CAPTURED] for word in ("routes", "routes6", "alternates") for level in ("L1", "L2"))):
        name = " ".join(words)
        yield name, told(run(words, ""), 0, "" if words[0] == "grid" else "no LSPs of this level")
        yield f"{name}, and no output", told(run(words, "", **closed), 5, "write fault")


WOVEN = TWO + "link X A B 10\n"
HELLO = "4953553200000000000100000001831401001101000001000000000001001e0024010104034900018101ccf0050200000101"
TAKEN = f"journal B\nisis-journal 1\n1 1 take 1 {HELLO} -> done\nend\n"
JOURNALS = WOVEN.replace("isis-lab", "isis-weave") + TAKEN
WEAVE_TEXT = WOVEN + "pull A X\ndeliver 1 B\n"


def weaves(run):
    """A weaving is written, or a prefix of it; where there is none, no output is touched."""
    closed = {"preexec_fn": lambda: os.closerange(1, 2)}
    both = JOURNALS + f"journal A\nisis-journal 1\n1 1 pull 1 -> send {HELLO}\nend\n"
    yield "a weaving", told(run(["weave"], both), 0, "", WEAVE_TEXT)
    yield "a weaving, and no output", told(run(["weave"], both, **closed), 5, "write fault")
    yield "no weaving, and no output", told(run(["weave"], JOURNALS, **closed), 11, "journal 1 entry 1 stuck")
    for size in (0, 1, len(WEAVE_TEXT) - 1):
        yield f"a weaving: a file of at most {size} octets", limited_fault(run, ["weave"], both, WEAVE_TEXT, size)
    folder = os.open(tempfile.gettempdir(), os.O_RDONLY)
    yield "a weaving, and a folder as input", told(run(["weave"], "", stdin=folder), 4, "read fault", "")
    os.close(folder)


def launcher(run):
    """The launcher hands on words, input and output, exit code and line; alone it prints help. With a reader that goes away it ends as others do."""
    start = lambda these, text, **how: headed(run(these, text, program=LAUNCHER, **how))
    many = "isis-keys 1\n" + "".join(f"router r{n}\n" for n in range(1025))
    yield "launcher: a script", told(start(["lab"], SCRIPT), 0, "", REPORT)
    yield "launcher: a walk", told(start(WALK, WALKED), 0, "", WALK_TEXT)
    yield "launcher: no walk", told(start(WALK, TWO), 12, "no walk owners", "")
    yield "launcher: no weaving", told(start(["weave"], JOURNALS), 11, "journal 1 entry 1 stuck", "")
    yield "launcher: other words", told(start(["grid", "9"], ""), 2, "usage", "")
    yield "launcher: a refused script", told(start(["lab"], "isis-lab 2\n"), 3, "line 1 head", "")
    yield "launcher: an input too long", told(start(["lab"], "\n" * (INPUT_LIMIT + 1)), 6, "input too long", "")
    yield "launcher: a limit", told(start(["lab"], many), 10, "limit routers", "")
    for name, fault in (*inputs(start), *outputs(start, -signal.SIGPIPE, ""), *memory(start)):
        yield f"launcher: {name}", fault
    for these in ([], ["--help"], ["-h"]):
        ended = start(these, "")
        yield f"launcher: {these}", told(ended, 0) or (None if ended.output.startswith("usage: isis COMMAND") else "no help")


def faults(run):
    """Each of these runs by name, and what comes out otherwise than it should, if anything does."""
    for cases in (words, inputs, reads, outputs, writes, killed, readers, memory, walks, weaves, summaries, launcher):
        yield from cases(run)
