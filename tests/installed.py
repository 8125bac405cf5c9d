"""What tools/install puts below a folder: the program, the manual page, and completions."""
import re
import shutil
import subprocess
import tempfile
from pathlib import Path

from limits import headed, told

TOP = Path(__file__).resolve().parent.parent
FILES = ["lib/isis", "bin/isis", "share/man/man1/isis.1", "share/bash-completion/completions/isis", "share/zsh/site-functions/_isis"]
SHORT, LAUNCHERS = ["lab", "walk", "trace", "timeline", "losses", "merge", "weave", "grid", "show", "routes", "routes6", "alternates", "state"], ["daemon-next", "--help", "--version", "--unproved"]
COMMANDS, SIZES = SHORT + ["daemon"], [str(size) for size in range(1, 9)]
# Lines of words, of which the last one is to be completed, and what may stand there.
COMPLETIONS = {
    "isis ": COMMANDS + LAUNCHERS, "isis s": ["show", "state"], "isis state ": ["--boot", "--entry"], "isis --u": ["--unproved"], "isis lab ": [], "isis walk ": [], "isis walk A ": [],
    "isis routes ": ["L1", "L2"], "isis routes6 ": ["L1", "L2"], "isis ro": ["routes", "routes6"],
    "isis grid ": SIZES, "isis grid 3 ": [], "isis w": ["walk", "weave"], "isis weave ": [],
    f"{TOP}/isis ": COMMANDS + LAUNCHERS, f"{TOP}/isis --u": ["--unproved"], f"{TOP}/isis --unproved ": SHORT,
    f"{TOP}/isis --unproved grid ": SIZES, f"{TOP}/isis --unproved lab ": [], f"{TOP}/isis --unproved walk ": [],
    f"{TOP}/isis --unproved daemon ": [],
    f"{TOP}/isis --unproved daemon-next ": [], f"{TOP}/isis lab -": ["--help"], "isis daemon-next state ": ["--turns", "--journals"], "isis daemon ": ["--boot", "--turns"],
    "isis daemon --boot 1 --t": ["--turns"],
}
COMPLETE = """source "$1"
read -ra COMP_WORDS <<< "$2" && [[ $2 != *" " ]] || COMP_WORDS+=("")
COMP_CWORD=$((${#COMP_WORDS[@]} - 1))
_isis "${COMP_WORDS[0]}"
echo "${COMPREPLY[@]}"
"""
# zsh's functions, which print what is offered; it is zsh that leaves out what doesn't begin with the last word.
COMPLETE_ZSH = """_describe() { local -a list=("${(@P)@[-1]}"); print -rl -- "${(@)list%%:*}" }
compadd() { [[ $1 == -- ]] && shift; print -rl -- "$@" }
_files() { : }
words=("${(@s: :)2}") CURRENT=${#words}
source "$1"
"""


def completed_by_zsh(prefix, line):
    """What zsh offers for a line's last word."""
    words = ["zsh", "-f", "-c", COMPLETE_ZSH, "zsh", prefix / FILES[4], line]
    environment = {"PATH": f"{prefix}/bin:/usr/bin:/bin"}
    offered = subprocess.run(words, capture_output=True, text=True, env=environment, check=False).stdout.split()
    return sorted(word for word in offered if word.startswith(line.split(" ")[-1]))


def completed(prefix, line):
    """What bash offers for a line's last word."""
    words = ["bash", "-c", COMPLETE, "bash", prefix / FILES[3], line]
    environment = {"PATH": f"{prefix}/bin:/usr/bin:/bin"}
    return subprocess.run(words, capture_output=True, text=True, env=environment, check=False).stdout.split()


def page_faults(page):
    """What the manual page lacks of what TEXTS.md has, and what groff says of it where there is one."""
    text, texts = page.read_text(), (TOP / "docs" / "TEXTS.md").read_text()
    plain = re.sub(r"\\f.|^\.\w+ |[\" ]", "", text, flags=re.M)
    ends = texts[texts.index("## How a run ends") : texts.index("## The launcher")]
    for code, line in re.findall(r"^\| (\d+) \| (?:`(.*?)`|none)", ends, re.M):
        if f"\n{code}\n" not in plain or line.replace(" ", "") not in plain:
            yield f"the page lacks {code} {line}"
    for word in re.findall(r"^\| `([a-z-]+)` \|", ends, re.M):
        if not re.search(rf"^\.(?:B|BR|RB) .*{word}", text, re.M):
            yield f"the page lacks {word}"
    if shutil.which("groff"):
        ran = subprocess.run(["groff", "-Tutf8", "-man", "-ww", page], capture_output=True, text=True, check=False)
        if ran.returncode or ran.stderr:
            yield f"groff says {ran.stderr!r}"


def placed(run, tool, prefix):
    """What is installed: with and without a checksum of what was proved; the launcher, its help, what it explains, and a tool there."""
    stamp = TOP / "crates" / "isis_daemon" / "out" / "isis_daemon.proved"
    kept = stamp.read_bytes() if stamp.is_file() else None
    summed = subprocess.run(["sha256sum"], stdin=stamp.with_suffix("").open("rb"), capture_output=True, check=True).stdout
    wanted = "".join(f"install: {prefix}/{name}\n" for name in FILES)
    try:
        for octets, end in ((b"none\n", ", not proved\n"), (summed, "\n")):
            stamp.write_bytes(octets)
            ended = run([f"{prefix}/"], "", program=tool)
            is_told = ended.line.startswith("install: nothing here says") if octets != summed else not ended.line
            yield f"install, {end!r}", None if (ended.code, ended.output) == (0, wanted) and is_told else f"wrote {ended.output!r} {ended.line!r}"
            ended = run(["--version"], "", program=prefix / FILES[1])
            yield f"the installed version, {end!r}", None if ended.output.endswith(end) and ("not" in ended.output) == ("not" in end) else ended.output
    finally:
        stamp.unlink() if kept is None else stamp.write_bytes(kept)
    launcher = prefix / FILES[1]
    ended = run(["lab"], "isis-lab 2\n", program=launcher)
    yield "the installed launcher explains", None if "did you mean `isis-lab 1`?" in ended.line else f"wrote {ended.line!r}"
    yield "the installed launcher", told(headed(ended), 3, "line 1 head", "")
    yield "its help", told(run(["lab", "--help"], "", program=launcher), 0)
    yield "an installed tool", told(run([TOP / "examples" / "two_areas.lab"], "", program=prefix / "lib" / "isis" / "tools" / "picture"), 0)


def faults(run):
    """Each of these runs by name, and what comes out otherwise than it should, if anything does."""
    tool = TOP / "tools" / "install"
    for words in ([], [""], ["--there"], ["a", "b"]):
        ended = run(words, "", program=tool)
        wanted = (2, "", "install: one word is wanted: tools/install PREFIX\n")
        yield f"install {words}", None if (ended.code, ended.output, ended.line) == wanted else f"wrote {ended.line!r}"
    with tempfile.TemporaryDirectory() as folder:
        prefix = Path(folder) / "new" / "there"
        yield from placed(run, tool, prefix)
        yield "the manual page", "; ".join(page_faults(prefix / FILES[2])) or None
        for line, wanted in COMPLETIONS.items():
            got = completed(prefix, line)
            yield f"completion of {line!r}", None if got == wanted else f"offers {got}, wanted {wanted}"
            if shutil.which("zsh"):
                got = completed_by_zsh(prefix, line)
                yield f"completion of {line!r} by zsh", None if got == sorted(wanted) else f"offers {got}, wanted {wanted}"
