"""The program that the tools of this folder call: the one that lies built, or one that is built without a proof.

`rt try` builds the program without a proof, with checks at run time, runs it and takes it away. Here it is given a script that plays for
long; meanwhile the program gets a second name, and `rt try` is stopped. The program is kept in the user's folder for caches, by the sum of its
sources and the kit. Called as a command, this file prints where the program is, and builds it first where none is kept.
"""
import contextlib
import hashlib
import os
import shutil
import signal
import subprocess
import sys
import tempfile
import time
from pathlib import Path

TOP = Path(__file__).resolve().parent.parent
CRATE = TOP / "crates" / "isis_daemon"
PROGRAM = CRATE / "out" / "isis_daemon"
UNPROVED = "nothing is proved of this run"
NO_RT = "rt isn't installed, the command of Rattle's kit, which builds the program; docs/pages has runs to look at without it"
LONG = "isis-lab 1\nrouter A 0000.0000.0001 49.0001 L1\nrouter B 0000.0000.0002 49.0001 L1\nlink X A B 10\n" + 9 * "run 86400\n"
# How many programs are kept, and how long each is kept at least, in seconds.
KEPT, DAY = 3, 86400


class Told(Exception):
    """What a tool says on standard error, and the exit code that it ends with."""

    def __init__(self, line, code=1):
        super().__init__(line)
        self.code = code


class Program:
    """The program where it lies built."""

    note = ""

    def __enter__(self):
        return self

    def __exit__(self, *_):
        pass

    def path(self):
        if not PROGRAM.is_file():
            raise Told("the program isn't built: ./isis lab < examples/two_come_up.lab builds it; --unproved does without")
        return PROGRAM

    def call(self, words, text):
        """What it writes of a text; where it refuses it, its own line and exit code."""
        ran = subprocess.run([self.path(), *words], input=text.encode("utf-8", "surrogateescape"), capture_output=True, check=False)
        if ran.returncode:
            line = ran.stderr.decode("utf-8", "replace").rstrip("\n")
            raise Told(line, ran.returncode if ran.returncode > 0 else 128 - ran.returncode)
        return ran.stdout.decode()


class UnprovedProgram(Program):
    """One that is built without a proof at the first call, unless it is kept."""

    note = UNPROVED

    def __init__(self, tool):
        self.tool = tool
        self.found = None

    def __enter__(self):
        for number in (signal.SIGTERM, signal.SIGHUP):
            signal.signal(number, lambda number, _: sys.exit(128 + number))
        return self

    def path(self):
        if self.found is None:
            self.found = self.kept()
            print(f"{self.tool}: {UNPROVED}; it is checked as it goes, which is slow", file=sys.stderr, flush=True)
        return self.found

    def kept(self):
        """The program that is kept for these sources; where there is none it is built first."""
        folder = Path(os.environ.get("XDG_CACHE_HOME") or Path.home() / ".cache") / "isis"
        kept = folder / f"unproved-{source_sum()}"
        try:
            if not kept.is_file():
                folder.mkdir(parents=True, exist_ok=True)
                with tempfile.TemporaryDirectory(prefix="build-", dir=folder) as room:
                    os.replace(Build(self.tool, Path(room)).run(), kept)
            os.utime(kept)
            forget(folder)
        except OSError as problem:
            raise Told(f"the program can't be kept: {problem}") from problem
        return kept


def used_crates():
    """The program's crate and those that it uses."""
    below = {}
    for line in (TOP / "crates.txt").read_text(encoding="utf-8").splitlines():
        left, _, right = line.partition(":")
        below[(left.split() or [""])[0]] = right.split()
    found = [CRATE.name]
    for name in found:
        found += [it for it in below.get(name, []) if it in below and it not in found]
    return sorted(found)


def source_sum():
    """A sum of all that the program is built of; the kit's part is where its command is, how long it is and how old, since it takes long to answer."""
    rt = shutil.which("rt")
    if rt is None:
        raise Told(NO_RT)
    kit = os.stat(rt)
    total = hashlib.sha256(f"{os.path.realpath(rt)} {kit.st_size} {kit.st_mtime_ns}\n".encode())
    for crate in used_crates():
        for path in sorted(it for part in ("src", "specs") for it in (TOP / "crates" / crate / part).rglob("*") if it.is_file()):
            total.update(f"{path.relative_to(TOP)}\n".encode() + hashlib.sha256(path.read_bytes()).digest())
    return total.hexdigest()[:16]


def forget(folder):
    """Removes programs that were not used for a day, but for the last few, and what a killed build left."""
    with contextlib.suppress(OSError):
        places = sorted(folder.iterdir(), key=lambda it: it.stat().st_mtime, reverse=True)
        for place in places[KEPT:]:
            if place.stat().st_mtime + DAY < time.time():
                shutil.rmtree(place) if place.is_dir() else place.unlink()


class Build:
    """A build without a proof, in a folder of its own."""

    def __init__(self, tool, folder):
        self.tool, self.folder, self.room = tool, folder, folder / "room"

    def run(self):
        """Where the program is, once it is built."""
        script, log = self.folder / "script", self.folder / "log"
        self.room.mkdir()
        script.write_text(LONG, encoding="ascii")
        how = {"cwd": CRATE, "env": {**os.environ, "TMPDIR": str(self.room)}, "stdout": subprocess.DEVNULL}
        print(f"{self.tool}: building the program without a proof, once for these sources; this takes two to four minutes", file=sys.stderr, flush=True)
        with script.open("rb") as stdin, log.open("wb") as stderr:
            rt = subprocess.Popen(["rt", "try", "--", "lab"], stdin=stdin, stderr=stderr, **how)
        try:
            return self.waited(rt, log)
        finally:
            rt.terminate()
            rt.wait()

    def waited(self, rt, log):
        progress = Progress(self.tool)
        with progress:
            while (built := self.taken()) is None:
                if rt.poll() is not None:
                    progress.clear()
                    sys.stderr.write(log.read_text(encoding="utf-8", errors="replace"))
                    raise Told("the program can't be built")
                progress.report("compiling" if any(self.room.glob("*/*/")) else "reading the sources")
                time.sleep(0.05)
            return built

    def taken(self):
        """The program by its second name, as soon as it answers as it should."""
        own = self.folder / "isis"
        with contextlib.suppress(OSError):
            for path in self.room.rglob("program"):
                own.unlink(missing_ok=True)
                own.hardlink_to(path)
                ran = subprocess.run([own, "lab"], stdin=subprocess.DEVNULL, capture_output=True, check=False)
                if ran.stderr == b"isis: line 1 head\n":
                    return own
        return None


class Progress:
    """How long a build takes so far: on a terminal in one line that is written over, elsewhere by a line each 30 seconds."""

    def __init__(self, tool):
        self.tool, self.begun, self.reported = tool, time.monotonic(), 0
        self.is_terminal = sys.stderr.isatty()

    def __enter__(self):
        return self

    def __exit__(self, *_):
        self.clear()

    def report(self, what):
        seconds = int(time.monotonic() - self.begun)
        if seconds < self.reported + (1 if self.is_terminal else 30):
            return
        self.reported = seconds
        line = f"{self.tool}: {what}, {seconds // 60}:{seconds % 60:02} so far"
        print(f"\r\x1b[K{line}" if self.is_terminal else line, end="" if self.is_terminal else "\n", file=sys.stderr, flush=True)

    def clear(self):
        if self.is_terminal:
            print("\r\x1b[K", end="", file=sys.stderr, flush=True)


def main():
    """Prints where the program without a proof is, for the launcher."""
    try:
        with UnprovedProgram("isis") as program:
            print(program.kept())
    except Told as told:
        print(f"isis: {told}", file=sys.stderr)
        return told.code
    except KeyboardInterrupt:
        return 130
    return 0


if __name__ == "__main__":
    sys.exit(main())
