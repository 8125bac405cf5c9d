#!/usr/bin/env python3
"""What the launcher prints below the program's line where a script or a configuration is refused: the texts are in `explained.txt`.

`tests/explained.py` alone prints those that differ, with a stand-in for the program; so it needs no program that lies built.
"""
import os
import re
import shutil
import socket
import subprocess
import sys
import tempfile
from importlib.machinery import SourceFileLoader
from importlib.util import module_from_spec, spec_from_loader
from pathlib import Path

sys.dont_write_bytecode = True

FOLDER = Path(__file__).resolve().parent
TOP = FOLDER.parent
SIGNS = {"\\r": "\r", "\\t": "\t", "\\s": " ", "\\ufeff": "\ufeff"}
DAEMON = ["--boot", "1", "--turns", "1"]
# It reads its input, and answers the line of a case.
PROGRAM = '#!/bin/sh\ncat > "$0.input"\ncat "$0.line" >&2\nexit "$(cat "$0.code")"\n'


def cases():
    """The title, command, input and program's line of each case, and what is printed below that."""
    for block in re.split(r"(?m)^=== ", (FOLDER / "explained.txt").read_text(encoding="utf-8"))[1:]:
        title, rest = block.split("\n", 1)
        (command, text), (line, below) = [part.split("\n", 1) for part in re.split(r"(?m)^--- ", rest)[1:]]
        for sign, octet in SIGNS.items():
            text = text.replace(sign, octet)
        yield title, command, text, line, below.rstrip("\n") + "\n"


class Stand:
    """A folder with the launcher, its tools, and a program that answers as it is told."""

    def __init__(self, folder):
        self.launcher = Path(shutil.copy(TOP / "isis", folder))
        shutil.copytree(TOP / "tools", Path(folder) / "tools", ignore=shutil.ignore_patterns("__pycache__"))
        self.program = Path(folder) / "crates" / "isis_daemon" / "out" / "isis_daemon"
        self.program.parent.mkdir(parents=True)
        self.program.write_text(PROGRAM, encoding="ascii")
        self.program.chmod(0o755)

    def answers(self, line, code):
        self.program.with_name("isis_daemon.line").write_text(line + "\n", encoding="utf-8")
        self.program.with_name("isis_daemon.code").write_text(str(code), encoding="ascii")

    def call(self, words, octets, is_pipe):
        """How the launcher ends on these octets, from a file or from a pipe, and what the program read."""
        with tempfile.TemporaryFile() as file:
            file.write(octets)
            file.seek(0)
            how = {"input": octets} if is_pipe else {"stdin": file}
            ran = subprocess.run([self.launcher, *words], capture_output=True, check=False, env={**os.environ, "LC_ALL": "C.UTF-8"}, **how)
        return ran.returncode, ran.stdout, ran.stderr.decode(), self.program.with_name("isis_daemon.input").read_bytes()


def explained(stand, command, text, line, below):
    """What is other than it should be where the program refuses a text with a line."""
    code = 3 if command == "lab" else 8
    stand.answers(line, code)
    words, octets = [command] + DAEMON * (command == "daemon"), text.encode()
    for is_pipe in (False, True):
        # of a daemon only a file is read again
        wanted = f"{line}\n{'' if is_pipe and code == 8 else below}"
        got = stand.call(words, octets, is_pipe)
        if got != (code, b"", wanted, octets):
            yield f"from a {'pipe' if is_pipe else 'file'}: {got[0]} {got[2]}"


def held_port(stand):
    """What is other than it should be where a daemon isn't started, since somebody has the port of its second circuit."""
    text = (TOP / "examples" / "daemons" / "two.toml").read_text(encoding="utf-8")
    with socket.socket(socket.AF_INET, socket.SOCK_DGRAM) as end, socket.socket(socket.AF_INET, socket.SOCK_DGRAM) as free:
        for each in (end, free):
            each.bind(("127.0.0.1", 0))
        ports = [each.getsockname()[1] for each in (free, end)]
        free.close()
        text = text.replace("127.0.0.1:7021", f"127.0.0.1:{ports[0]}").replace("127.0.0.1:7022", f"127.0.0.1:{ports[1]}")
        stand.answers("isis: not started", 9)
        code, _, line, _ = stand.call(["daemon", *DAEMON], text.encode(), is_pipe=False)
    wanted = rf"isis: not started\nline \d+, column 8: circuit 2: `127.0.0.1:{ports[1]}` can't be opened: Address already in use\n    bind = .*\n +\^+\n"
    return None if code == 9 and re.fullmatch(wanted, line) else f"{code} {line!r}"


def module(path):
    """A script as a module."""
    loader = SourceFileLoader(path.name, str(path))
    made = module_from_spec(spec_from_loader(path.name, loader))
    loader.exec_module(made)
    return made


def lines_of(text):
    return (text[:-1] if text.endswith("\n") else text).split("\n")


def of_case(explain, words, text, code, line):
    """What is wrong with what is found in the text of a case that is refused, or that isn't. What only a run shows isn't found."""
    if words[0] == "daemon":
        found = explain.of_configuration(text, line)[1] if code == "8" else list(explain.document_faults(text)) if code in ("0", "9") else []
        return "nothing is found" if code == "8" and "the program says" in found[0].text else found[0].text if code != "8" and found else None
    if code != "3":
        found = list(explain.script_faults(lines_of(text), words[0])) if words[0] in ("lab", "walk") and code != "10" else []
        return f"{found[0].number}: {found[0].text}" if found else None
    first = explain.of_script(text, words[0], line)[1][0]
    is_general = first.text in explain.REASONS.values() and line.split(" ")[-1] not in ("not-sent", "not-on")
    return f"{first.number}: {first.text}" if is_general or first.number != int(line.split(" ")[2]) else None


def of_cases():
    """Of the other files of cases: each refused line is found where the program finds it, and none in what isn't refused."""
    explain, play = module(TOP / "tools" / "explain"), module(FOLDER / "play")
    for path in sorted(FOLDER.glob("*.cases")):
        for title, words, text, head, _ in play.cases_of(path):
            code, _, line = head.partition(" ")
            if words.split()[0] in ("lab", "walk", "daemon") and code != "2":
                yield f"explained, {path.name}: {title[-60:]}", of_case(explain, words.split(), text, code, f"isis: {line}")


def faults(run=None):
    """Each of these runs by name, and what comes out otherwise than it should, if anything does; the program's lines too, where it lies built."""
    with tempfile.TemporaryDirectory() as folder:
        stand = Stand(folder)
        for title, command, text, line, below in cases():
            yield f"explained: {title}", "; ".join(explained(stand, command, text, line, below)) or None
            if run:
                ended = run([command] + DAEMON * (command == "daemon"), text)
                yield f"refused: {title}", None if ended.line == f"{line}\n" else f"wrote {ended.line!r}"
        yield "explained: a port that is held", held_port(stand)
    yield from of_cases()


if __name__ == "__main__":
    found = list(faults())
    for name, fault in found:
        if fault:
            print(f"{name}: {fault}", file=sys.stderr)
    print(f"explained: {len(found)} cases, {sum(fault is not None for _, fault in found)} differ")
    sys.exit(any(fault for _, fault in found))
