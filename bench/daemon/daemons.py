"""Daemons that are started, watched and ended by their ids, with their journals as far as they came."""
import os
import socket
import subprocess
import time
from pathlib import Path

HEAD = "isis-journal 1"
TICKS = os.sysconf("SC_CLK_TCK")


def free_ports(count):
    """So many UDP ports of 127.0.0.1 that nobody has now."""
    held = [socket.socket(socket.AF_INET, socket.SOCK_DGRAM) for _ in range(count)]
    for it in held:
        it.bind(("127.0.0.1", 0))
    ports = [it.getsockname()[1] for it in held]
    for it in held:
        it.close()
    return ports


def config(system, circuits, level="L1", area="49.0001", prefixes=()):
    """A configuration; circuits are pairs of ports, the own one and the peer's, point to point."""
    lines = [f'system = "{system}"', f'areas = ["{area}"]', f'level = "{level}"']
    for bind, peer in circuits:
        lines += ["", "[[circuit]]", 'kind = "p2p"', f'bind = "127.0.0.1:{bind}"', f'peers = ["127.0.0.1:{peer}"]']
    for prefix in prefixes:
        lines += ["", "[[prefix]]", f'prefix = "{prefix}"']
    return "\n".join(lines) + "\n"


class Daemon:
    """One that runs; its configuration and its journal are files of a folder."""

    def __init__(self, program, room, name, text, boot=1, turns=86400):
        self.config, self.journal = Path(room) / f"{name}.toml", Path(room) / f"{name}.journal.{boot}"
        self.config.write_text(text, encoding="ascii")
        self.place, self.rest = 0, b""
        with self.config.open("rb") as stdin, self.journal.open("wb") as stdout:
            words = [program, "daemon", "--boot", str(boot), "--turns", str(turns)]
            self.process = subprocess.Popen(words, stdin=stdin, stdout=stdout, start_new_session=True)

    def lines(self):
        """The whole lines that the journal got since the last call."""
        with self.journal.open("rb") as journal:
            journal.seek(self.place)
            octets = journal.read()
        self.place += len(octets)
        whole, _, self.rest = (self.rest + octets).rpartition(b"\n")
        return whole.decode("ascii", "replace").split("\n") if whole else []

    def starts(self, seconds=10):
        """Waits for the journal's head; says whether it came."""
        end = time.monotonic() + seconds
        while time.monotonic() < end and self.process.poll() is None:
            if self.journal.stat().st_size > len(HEAD):
                return True
            time.sleep(0.01)
        return False

    def memory(self):
        """The greatest memory so far, in KiB."""
        status = Path(f"/proc/{self.process.pid}/status").read_text(encoding="ascii")
        return int(status.split("VmHWM:")[1].split()[0])

    def processor(self):
        """Seconds of a processor so far."""
        fields = Path(f"/proc/{self.process.pid}/stat").read_text(encoding="ascii").rpartition(")")[2].split()
        return (int(fields[11]) + int(fields[12])) / TICKS

    def kill(self):
        """Ends it by SIGKILL, where it still runs."""
        self.process.kill()
        self.process.wait()
