"""FRR's isisd in a network namespace, joined by a veth pair to one for the daemon. All that is made here is taken away by `close`.

Namespaces have the process's id in their names; processes are ended by their own ids.
"""
import functools
import os
import shutil
import subprocess
import tempfile
import threading
from pathlib import Path

SYSTEM, AREA = "0000.0000.0002", "49.0001"
WIRE = "wire"
# The subnet of the wire, FRR's address there and on its loopback.
ADDRESS, LOOPBACK = "10.99.0.2/24", "10.0.2.1/32"


class Missing(Exception):
    """What this machine lacks."""


class Stopped(Exception):
    """A signal came."""


STOP = threading.Event()


def rest(seconds):
    """Waits, but not past a signal."""
    if STOP.wait(seconds):
        raise Stopped


@functools.cache
def program(name):
    """A program of the package frr, some of which lie beside the search path."""
    for path in (shutil.which(name), f"/usr/lib/frr/{name}"):
        if path and os.access(path, os.X_OK):
            return path
    raise Missing(f"{name} isn't there: apt-get install frr")


def called(*words):
    """What a command writes; it must end with 0."""
    ran = subprocess.run(words, capture_output=True, text=True, check=False)
    if ran.returncode:
        raise Missing(f"{' '.join(words)}: {ran.stderr.strip()}")
    return ran.stdout


def look_about():
    """Raises Missing where something isn't there."""
    if os.geteuid() != 0:
        raise Missing("network namespaces and raw sockets want root")
    if not shutil.which("ip"):
        raise Missing("ip isn't there: apt-get install iproute2")
    for name in ("zebra", "isisd", "vtysh"):
        program(name)
    name = f"isis-{os.getpid()}-try"
    called("ip", "netns", "add", name)
    called("ip", "netns", "del", name)


def end(process):
    """Ends a process that was started here."""
    if process.poll() is None:
        process.terminate()
        try:
            process.wait(5)
        except subprocess.TimeoutExpired:
            process.kill()
            process.wait()


class Wire:
    """Two namespaces, one for the daemon and one for FRR, and a veth pair whose ends both have the same name."""

    def __init__(self, name, frr_mac):
        self.ours, self.theirs = f"isis-{os.getpid()}-{name}-a", f"isis-{os.getpid()}-{name}-b"
        self.made = []
        self.processes = []
        try:
            for space in (self.ours, self.theirs):
                called("ip", "netns", "add", space)
                self.made.append(space)
                called("ip", "-n", space, "link", "set", "lo", "up")
            called("ip", "link", "add", WIRE, "netns", self.ours, "type", "veth", "peer", "name", WIRE, "netns", self.theirs)
            called("ip", "-n", self.theirs, "link", "set", WIRE, "address", frr_mac)
            called("ip", "-n", self.theirs, "addr", "add", ADDRESS, "dev", WIRE)
            called("ip", "-n", self.theirs, "addr", "add", LOOPBACK, "dev", "lo")
            for space in (self.ours, self.theirs):
                called("ip", "-n", space, "link", "set", WIRE, "up")
        except BaseException:
            self.close()
            raise

    def start(self, space, words, **streams):
        """Starts a program in a namespace; `ip netns exec` becomes it, so the id is its own."""
        process = subprocess.Popen(["ip", "netns", "exec", space, *map(str, words)], start_new_session=True, **streams)
        self.processes.append(process)
        return process

    def close(self):
        for process in reversed(self.processes):
            end(process)
        for space in self.made:
            subprocess.run(["ip", "netns", "del", space], capture_output=True, check=False)


class Isisd:
    """zebra and isisd in the namespace of a wire's FRR."""

    def __init__(self, wire, config):
        self.wire = wire
        self.folder = Path(tempfile.mkdtemp(prefix="isis-frr-"))
        self.processes = []
        (self.folder / "isisd.conf").write_text(config)
        (self.folder / "zebra.conf").write_text("frr defaults traditional\nhostname frr\n")
        for path in (self.folder, *self.folder.iterdir()):
            shutil.chown(path, "frr", "frr")
        self.folder.chmod(0o755)

    def start(self):
        for name in ("zebra", "isisd"):
            self.start_one(name)

    def start_one(self, name):
        words = [program(name), "--vty_socket", self.folder, "-z", self.folder / "zserv.api", "-i", self.folder / f"{name}.pid"]
        words += ["-f", self.folder / f"{name}.conf", "-P", "0", "--log", f"file:{self.folder / name}.log", "--log-level", "info"]
        nothing = subprocess.DEVNULL
        self.processes.append(self.wire.start(self.wire.theirs, words, stdin=nothing, stdout=nothing, stderr=nothing))
        for _ in range(1000):
            if (self.folder / f"{name}.vty").exists():
                return
            rest(0.01)
        raise Missing(f"{name} doesn't start: {self.folder}/{name}.log")

    def restart_isisd(self):
        end(self.processes.pop())
        (self.folder / "isisd.vty").unlink(missing_ok=True)
        self.start_one("isisd")

    def show(self, command):
        words = [program("vtysh"), "--vty_socket", self.folder, "-c", command]
        return subprocess.run(words, capture_output=True, text=True, check=False).stdout

    def configure(self, *lines):
        words = [program("vtysh"), "--vty_socket", self.folder, "-c", "configure terminal"]
        subprocess.run([*words, *(word for line in lines for word in ("-c", line))], capture_output=True, check=False)

    def neighbours(self):
        """Each neighbour on the wire as its levels, 1, 2 or 3, and its state."""
        rows = [line.split() for line in self.show("show isis neighbor").splitlines()]
        return [(int(row[2]), row[3]) for row in rows if len(row) > 3 and row[1] == WIRE and row[2] in ("1", "2", "3")]

    def is_up(self, level):
        return any(levels & level and state == "Up" for levels, state in self.neighbours())

    def holds(self, level, lsp_id):
        """Whether its database of a level has an LSP of this ID."""
        of_level = self.show("show isis database").partition(f"IS-IS Level-{level} ")[2]
        return lsp_id in of_level.partition("IS-IS Level-")[0]

    def routes(self):
        """The kernel's routes that isisd made, by prefix."""
        lines = called("ip", "-n", self.wire.theirs, "route", "show", "proto", "isis").splitlines()
        return {line.split()[0] for line in lines}

    def close(self):
        for process in reversed(self.processes):
            end(process)
        shutil.rmtree(self.folder, ignore_errors=True)


def config(levels, is_lan, is_keyed, more=(), more_of_wire=(), area=AREA):
    """isisd's configuration. Each line is carried out as it is read, so the line `net`, which starts it, comes last of the router's."""
    of_levels = {"L1": "level-1", "L2": "level-2-only", "L1L2": "level-1-2"}[levels]
    lines = ["frr defaults traditional", "hostname frr", "router isis X", f" is-type {of_levels}", " metric-style wide"]
    lines += [" lsp-gen-interval 1", " spf-interval 1"]
    if is_keyed:
        lines += [" area-password md5 AreaKey1 authenticate snp validate", " domain-password md5 DomainKey1 authenticate snp validate"]
    lines += [f" {line}" for line in more] + [f" net {area}.{SYSTEM}.00", "interface lo", " ip router isis X", " isis passive"]
    lines += [f"interface {WIRE}", " ip router isis X", " isis metric 10", " isis hello-interval 3", " isis hello-multiplier 10"]
    lines += [] if is_lan else [" isis network point-to-point"]
    lines += [" isis password md5 LinkKey1"] if is_keyed else []
    return "\n".join(lines + [f" {line}" for line in more_of_wire] + ["end", ""])
