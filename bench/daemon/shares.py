"""Where a daemon's processor time goes, by samples that perf took with the calls above each (`--call-graph dwarf`).

The program has no tables for unwinding, so of its own functions each sample has one name, the innermost that isn't inlined; above it are those of the C
library and of the system. By that name and by the system call each sample is of one kind.
"""
import subprocess
from collections import Counter

# Calls of the C library, by the ends of their names.
CALLS = {"recvfrom": "recvfrom", "setsockopt": "setsockopt", "sendto": "sendto", "write": "the journal's write", "syscall": "waiting for the lock"}
# Crates and files whose functions run before or behind a submit, in a worker; all others run within one.
BESIDE = ("circuit_serve::working", "circuit_serve::ticking", "daemon_edge", "router_desk::desk", "isis_pdu", "hmac_auth")
IN_SUBMIT = ("the journal's write", "waiting for the lock", "submit's own code")
KINDS = ("recvfrom", "setsockopt", "sendto", "a worker's own code", *IN_SUBMIT, "else")


def record(process, file, seconds):
    """Begins to take samples of a process; gives perf, which ends by itself."""
    words = ["perf", "record", "-e", "cpu-clock", "-F", "10000", "--call-graph", "dwarf,2048", "-o", file, "-p", str(process)]
    return subprocess.Popen([*words, "--", "sleep", str(seconds)], stdout=subprocess.DEVNULL, stderr=subprocess.DEVNULL)


def kind_of(frames, program):
    """The kind of a sample: frames are a symbol and a file each, the innermost first."""
    for symbol in (symbol for symbol, file in frames if "/libc" in file):
        for call, kind in CALLS.items():
            if symbol.endswith(call):
                return kind
    own = next((symbol for symbol, file in frames if file == str(program)), None)
    if own is None:
        return "else"
    return "a worker's own code" if own.startswith(BESIDE) else "submit's own code"


def shares(file, program):
    """The share of each kind, in percent, and how many samples there were."""
    text = subprocess.run(["perf", "script", "-i", file, "-F", "ip,sym,dso"], capture_output=True, text=True, check=True).stdout
    counts = Counter()
    for block in text.split("\n\n"):
        lines = [line.split(None, 1)[1] for line in block.splitlines() if len(line.split(None, 1)) == 2]
        if lines:
            counts[kind_of([(line.rpartition(" (")[0], line.rpartition(" (")[2].rstrip(")")) for line in lines], program)] += 1
    total = sum(counts.values())
    return {kind: 100 * counts[kind] / max(total, 1) for kind in KINDS}, total
