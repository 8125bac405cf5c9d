"""The launcher where nothing is built: in a folder of its own, with a stand-in for `rt` that lays a program there."""
import os
import pty
import re
import shutil
import signal
import subprocess
import tempfile
import time
from pathlib import Path

from limits import headed, told

LAUNCHER = Path(__file__).resolve().parent.parent / "isis"
BUILDER = LAUNCHER.parent / "tools" / "lab_program.py"
CRATES = "# below: low, middle\nlow:\nbeside: low\nmiddle: kit low\nisis_daemon: middle\n"
# It tells of proofs as rt does: `low` was proved before, so it isn't told of. Files beside the launcher say what goes otherwise.
RT = """#!/usr/bin/env bash
case $1 in
version) echo "rattle-kit-0 logic 0" ;;
try)
    [ "$*" = "try -- lab" ] || exit 9
    [ ! -e ../../broken ] || { echo "rt: refused" >&2 && exit 1; }
    echo build >> ../../builds && mkdir "$TMPDIR/rt-try" && cp ../../unproved "$TMPDIR/rt-try/program" && exec sleep 60 ;;
run)
    echo "rt: chose --jobs 2 for middle" && echo "fn middle::f: proved" && touch ../../begun
    [ ! -e ../../slow ] || exec sleep "$(cat ../../slow)"
    [ ! -e ../../broken ] || { echo "fn middle::g: not proved" && exit 1; }
    echo "crate middle: modules loaded=1 checked=1" && echo "logic=proved functions=1"
    mkdir -p out && printf '#!/bin/sh\\necho "$@" && cat\\n' > out/isis_daemon && chmod +x out/isis_daemon
    echo "isis: line 1 head" && exit 3 ;;
esac
"""
# What the stand-in builds without a proof.
PROGRAM = """#!/usr/bin/env bash
read -r line || { echo "isis: line 1 head" >&2 && exit 3; }
echo "$*" && echo "$line"
[ "$line" != wrong ] || { echo "isis: line 1 form" >&2 && exit 3; }
"""
BUILDS = "isis: building the program without a proof, once for these sources; this takes two to four minutes\n"
UNPROVED = "isis: nothing is proved of this run; it is checked as it goes, which is slow\n"
NO_RT = "rt isn't installed, the command of Rattle's kit, which builds the program; docs/pages has runs to look at without it"
# A name is a letter and up to 15 letters or digits; behind a prefix's length no bit is set.
NO_WALKS = [["walk", *words] for words in (
    [], ["A"], ["A", "10.0.0.0/8", "B"], ["", "10.0.0.0/8"], ["1A", "10.0.0.0/8"], ["A-B", "10.0.0.0/8"], ["\u00e9", "10.0.0.0/8"],
    ["A\n", "10.0.0.0/8"], ["abcdefghijklmnopq", "10.0.0.0/8"], ["A", ""], ["A", "10.0.0.0"], ["A", "10.0.0.0/"], ["A", "10.0.0/8"],
    ["A", "10.0.0.0/33"], ["A", "10.0.0.0/08"], ["A", "010.0.0.0/8"], ["A", "10.0.0.256/32"], ["A", "10.0.0.0/6"], ["A", "10.0.0.0/8 "],
    ["10.0.0.0/8", "A"],
)]
WALKS = [["a", "0.0.0.0/0"], ["Z9", "10.0.0.0/7"], ["abcdefghijklmnop", "255.255.255.255/32"], ["lab", "128.0.0.0/1"]]
BEGUN = "isis: proving and building the program; the first time this takes an hour and a half on four processors\n"


class Clone:
    """A folder with the launcher, without a program, and the stand-in."""

    def __init__(self, folder):
        self.folder = Path(folder)
        (self.folder / "bin").mkdir()
        (self.folder / "crates" / "isis_daemon" / "src").mkdir(parents=True)
        (self.folder / "crates.txt").write_text(CRATES)
        self.program = shutil.copy(LAUNCHER, self.folder / "isis")
        (self.folder / "bin" / "rt").write_text(RT)
        (self.folder / "bin" / "rt").chmod(0o755)
        (self.folder / "tools").mkdir()
        shutil.copy(BUILDER, self.folder / "tools")
        self.put("unproved", PROGRAM)
        (self.folder / "unproved").chmod(0o755)
        self.environment = {**os.environ, "PATH": f"{self.folder}/bin:{os.environ['PATH']}", "XDG_CACHE_HOME": str(self.folder / "cache")}

    def put(self, name, text):
        (self.folder / name).write_text(text)

    def is_built(self):
        return (self.folder / "crates" / "isis_daemon" / "out").exists()


def answered(run, clone):
    """What is answered without a build."""
    start = lambda words, text="": headed(run(words, text, program=clone.program, env=clone.environment))
    for words in (["foo"], ["grid"], ["grid", "9"], ["lab", "lab"], ["weave", "weave"], [""], [b"\xff"], ["--version", "lab"], ["--unproved"], ["--unproved", "foo"]):
        yield f"unbuilt: {words}", told(start(words), 2, "usage", "")
    for words in NO_WALKS:
        for before in ([], ["--unproved"]):
            yield f"unbuilt: {before + words}", told(start(before + words), 2, "usage", "")
    yield "unbuilt: --version", told(start(["--version"]), 0, "", "isis unknown, rattle-kit-0 logic 0\n")
    none = Path(clone.folder, "without")
    none.mkdir()
    for name in ("bash", "python3", "dirname", "readlink", "find", "setpriv", "mktemp", "rm", "tee", "cat"):
        (none / name).symlink_to(shutil.which(name))
    for words in (["lab"], ["--unproved", "lab"]):
        without = run(words, "a script\n", program=clone.program, env={**clone.environment, "PATH": str(none)})
        yield f"unbuilt: {words} without rt", told(without, 1, NO_RT, "")
    yield "unbuilt: nothing was built", "something was" if clone.is_built() else None


def unproved(run, clone):
    """Runs without a proof: the first one builds the program, the others take it, until a source changes."""
    start = lambda words, text="": run(["--unproved", *words], text, program=clone.program, env=clone.environment)

    def fault(name, words, code, lines, output, text="a script\n"):
        ended = start(words, text)
        right = (ended.code, ended.line, ended.output) == (code, lines, output)
        return f"unproved: {name}", None if right else f"ended with {ended.code} {ended.line!r} {ended.output!r}"

    clone.put("broken", "")
    yield fault("a build that fails", ["lab"], 1, BUILDS + "rt: refused\nisis: the program can't be built\n", "")
    (clone.folder / "broken").unlink()
    yield fault("the first run", ["lab"], 0, BUILDS + UNPROVED, "lab\na script\n")
    began = time.monotonic()
    for words in (["lab"], ["walk", "A", "10.0.0.0/8"], ["weave"], ["grid", "8"]):
        yield fault(words[0], words, 0, UNPROVED, " ".join(words) + "\na script\n")
    yield "unproved: four more runs are quick", None if time.monotonic() - began < 10 else "they take long"
    yield fault("a script that is refused", ["lab"], 3, UNPROVED + "isis: line 1 form\n", "lab\nwrong\n", "wrong\n")
    kept = list((clone.folder / "cache" / "isis").iterdir())
    yield "unproved: one program is kept", None if len(kept) == 1 else f"{kept}"
    (clone.folder / "crates" / "isis_daemon" / "src" / "main.rt").write_text("changed")
    yield fault("a changed source", ["lab"], 0, BUILDS + UNPROVED, "lab\na script\n")
    (clone.folder / "crates" / "beside" / "src").mkdir(parents=True)
    (clone.folder / "crates" / "beside" / "src" / "lib.rt").write_text("unused")
    yield fault("a source that it doesn't use", ["lab"], 0, UNPROVED, "lab\na script\n")
    yield "unproved: nothing was built for the launcher", "something was" if clone.is_built() else None


def helped(run, clone):
    """Each command's help, also below `isis: usage` where its words are wrong; no line is wider than a terminal."""
    start = lambda *words: run(words, "", program=clone.program, env=clone.environment)
    every = start("--help").output
    for command in re.findall(r"(?m)^  ([a-z-]+[0-9a-z]*) ", every):
        if command in ("--version", "--help"):
            continue
        ended = start(command, "--help")
        is_own = ended.output.startswith("usage: isis ") and f"isis {command} " in ended.output and ended.output.splitlines()[0] not in every
        wide = [line for line in ended.output.splitlines() if len(line) > 80]
        yield f"{command} --help", told(ended, 0) or (None if is_own and not wide else f"wrote {ended.output!r}")
        wrong = start(command, "--", "--")
        below = start("--").line if command == "--unproved" else "isis: usage\n" + ended.output
        right = (wrong.code, wrong.line, wrong.output) == (2, below, "")
        yield f"{command} with wrong words", None if right else f"ended with {wrong.code} {wrong.line!r}"
    yield "--help", None if max(map(len, every.splitlines())) <= 80 else "a line is wider than a terminal"


def built(run, clone):
    """A build that fails, one that is stopped, and one that passes, each told of."""
    start = lambda **how: run(["grid", "2"], "text\n", program=clone.program, env=clone.environment, **how)
    clone.put("broken", "")
    wanted = BEGUN + "rt: chose --jobs 2 for middle\nfn middle::f: proved\nfn middle::g: not proved\nisis: the program can't be built\n"
    ended = start()
    yield "a build that fails", None if (ended.code, ended.line, ended.output) == (1, wanted, "") else f"wrote {ended.line!r}"
    (clone.folder / "broken").unlink()
    clone.put("slow", "60")
    for number, code in ((signal.SIGTERM, 143), (signal.SIGINT, 130)):
        yield f"a build that {number.name} stops", stopped(clone, number, code)
    clone.put("slow", "2")
    yield "a build on a terminal", seen(clone)
    (clone.folder / "slow").unlink()
    ended = start()
    yield "a build", None if (ended.code, ended.line, ended.output) == (0, BEGUN + "isis: built\n", "grid 2\ntext\n") else f"wrote {ended.line!r}"
    yield "a program that is built", told(start(), 0, "", "grid 2\ntext\n")


def walked(run, clone):
    """The words of `walk` that are handed on."""
    for words in WALKS:
        ended = run(["walk", *words], "text\n", program=clone.program, env=clone.environment)
        yield f"walk: {words}", told(ended, 0, "", f"walk {' '.join(words)}\ntext\n")


def numbered(run, clone):
    """The words of `daemon`, and boot numbers that are kept in a file."""
    start = lambda *words: headed(run(words, "text\n", program=clone.program, env=clone.environment))
    for words in (["--boot", "7", "--turns", "5"], ["--turns=86400", "--boot=16777215"], ["--boot", "7"], ["--boot=7"]):
        yield f"daemon: {words}", told(start("daemon", *words), 0, "", f"daemon {' '.join(words)}\ntext\n")
    for words in ([], ["--boot"], ["--turns", "5"], ["--boot", "0", "--turns", "5"], ["--boot=1", "--boot=1"], ["--boot", "16777216", "--turns", "5"], ["--turns"]):
        yield f"daemon: {words}", told(start("daemon", *words), 2, "usage", "")
    state = clone.folder / "state"
    turns, journals = ["--turns", "5"], ["--journals", clone.folder]
    for words in ([], [state, "--boot", "5", *turns], [state, *turns, *turns], ["", *turns], [state, *turns, "--journals"],
                  [state, *turns, "--journals="], [state, *turns, *journals, *journals], [state, "--", "5"]):
        yield f"daemon-next: {words}", told(start("daemon-next", *words), 2, "usage", "")
    for before, boot in ((None, 1), ("1\n", 2), ("16777214", 16777215)):
        if before:
            clone.put("state", before)
        fault = told(start("daemon-next", state, "--turns", "5"), 0, "", f"daemon --boot {boot} --turns 5\ntext\n")
        yield f"daemon-next behind {before}", fault or (None if state.read_text() == f"{boot}\n" else f"kept {state.read_text()!r}")
    line = f"{state} isn't a boot number from 1 to 16777214, after which there is a next one"
    for before in ("", "0", "01", "5\n6\n", "16777215", "five", "5\0"):
        clone.put("state", before)
        fault = told(start("daemon-next", state, "--turns", "5"), 1, line, "")
        yield f"daemon-next behind {before!r}", fault or (None if state.read_text() == before else "kept another number")
    for file, what in ((clone.folder, "read"), (clone.folder / "none" / "state", "written")):
        yield f"daemon-next where it can't be {what}", told(start("daemon-next", file, "--turns", "5"), 1, f"{file} can't be {what}", "")
    clone.put("state", "6\n")
    for boot, words, said in ((7, [*turns, *journals], " --turns 5"), (8, [f"--journals={clone.folder}", *turns], " --turns 5"), (9, journals, "")):
        fault, journal = told(start("daemon-next", state, *words), 0, "", ""), clone.folder / f"{boot}.journal"
        yield f"daemon-next names journal {boot}", fault or (None if journal.read_text() == f"daemon --boot {boot}{said}\ntext\n" else "another journal")
    clone.put("state", "6\n")
    line = f"{clone.folder}/7.journal is there, or can't be written"
    yield "daemon-next where the journal is there", told(start("daemon-next", state, *turns, *journals), 1, line, "")
    none = clone.folder / "none"
    line = f"{none} isn't a folder in which journals can be written"
    fault = told(start("daemon-next", state, *turns, "--journals", none), 1, line, "")
    yield "daemon-next without a folder of journals", fault or (None if state.read_text() == "7\n" else "took a number")
    yield "daemon-next leaves no file", None if {"state"} == {it.name for it in clone.folder.glob("state*")} else "it left one"


def stopped(clone, number, code):
    """What is other than it should be where a signal stops a build. SIGINT comes as from a terminal, to all of the group; where these tests were
    begun without a terminal it may have been ignored, which what they start would inherit."""
    signal.signal(signal.SIGINT, signal.default_int_handler)
    how = {"stdin": subprocess.DEVNULL, "stderr": subprocess.PIPE, "env": clone.environment, "start_new_session": True}
    begun = clone.folder / "begun"
    begun.unlink()
    with subprocess.Popen([clone.program, "lab"], **how) as ran:
        while not begun.exists():
            time.sleep(0.1)
        time.sleep(0.5)
        (os.killpg if number == signal.SIGINT else os.kill)(ran.pid, number)
        line = ran.stderr.read().decode()
    wanted = BEGUN + "isis: stopped; 1 of 3 crates stay proved, and the next call goes on from there\n"
    return None if (ran.returncode, line) == (code, wanted) else f"ended with {ran.returncode}, wrote {line!r}"


def seen(clone):
    """What is other than it should be on a terminal: the line that is written over."""
    near, far = pty.openpty()
    subprocess.run([clone.program, "lab"], stdin=subprocess.DEVNULL, stderr=far, env=clone.environment, timeout=60, check=False)
    os.close(far)
    text = os.read(near, 65536).decode()
    os.close(near)
    line = r"\r\x1b\[Kisis: 1 of 3 crates proved in \d+:\d\d; middle in work for \d+:\d\d"
    return None if re.search(line, text) else f"wrote {text!r}"


def faults(run):
    """Each of these runs by name, and what comes out otherwise than it should, if anything does."""
    with tempfile.TemporaryDirectory() as folder:
        clone = Clone(folder)
        yield from answered(run, clone)
        yield from unproved(run, clone)
        yield from helped(run, clone)
        yield from built(run, clone)
        yield from walked(run, clone)
        yield from numbered(run, clone)
