"""What stands in a trial: a daemon and FRR's isisd, joined by tools/ethernet_circuit; and what the daemon's journal says of it."""
import subprocess
import sys
import time
from collections import Counter
from pathlib import Path

sys.dont_write_bytecode = True
TOP = Path(__file__).resolve().parents[2]
sys.path[:0] = [str(Path(__file__).resolve().parent), str(TOP / "tools")]
import frr  # noqa: E402
import isis_pdus as pdus  # noqa: E402

SYSTEM, PREFIX, ADDRESS = "0000.0000.0001", "10.0.1.0/24", "10.99.0.1"
BIND, PEER = "127.0.0.1:7001", "127.0.0.1:7101"
LINK_KEY, AREA_KEY, DOMAIN_KEY = (word.encode().hex() for word in ("LinkKey1", "AreaKey1", "DomainKey1"))


class Case:
    """What is tried: the kind of circuit, the levels, keys, and on a LAN our priority, FRR's being 64; more lines for FRR; and our address."""

    def __init__(
        self, name, kind="p2p", levels="L1L2", is_keyed=False, priority=64, more=(), more_of_wire=(), address=ADDRESS, area=frr.AREA, frr_is_keyed=None
    ):
        self.name, self.kind, self.levels, self.is_keyed, self.priority = name, kind, levels, is_keyed, priority
        self.more, self.more_of_wire, self.address, self.area = more, more_of_wire, address, area
        self.frr_is_keyed = is_keyed if frr_is_keyed is None else frr_is_keyed

    def each_level(self):
        return [level for level in (1, 2) if f"L{level}" in self.levels]

    def config(self):
        """The daemon's configuration."""
        lines = [f'system = "{SYSTEM}"', 'areas = ["49.0001"]', f'level = "{self.levels}"']
        lines += [f'area_key = "{AREA_KEY}"', f'domain_key = "{DOMAIN_KEY}"'] if self.is_keyed else []
        lines += ["", "[[circuit]]", f'kind = "{self.kind}"', f'bind = "{BIND}"', f'peers = ["{PEER}"]']
        lines += [f"priority = {self.priority}"] if self.kind == "lan" else []
        lines += [f'address = "{self.address}"'] if self.address else []
        lines += [f'key = "{LINK_KEY}"'] if self.is_keyed else []
        return "\n".join(lines + ["", "[[prefix]]", f'prefix = "{PREFIX}"', ""])

    def frr_mac(self):
        # On a LAN a station's address is its system ID; point to point it may be any.
        return "00:00:00:00:00:02" if self.kind == "lan" else "02:00:00:00:00:22"


class Journal:
    """What a journal says of when its router was Up, and what it dropped and sent again."""

    def __init__(self, path):
        self.seconds, self.rows = 0, []
        for line in Path(path).read_text(encoding="ascii", errors="replace").split("\n")[1:-1]:
            left, _, right = line.partition(" -> ")
            event, reply = left.split(" ")[2:], right.split(" ")
            self.seconds += event[0] == "second"
            self.rows.append((self.seconds, event, reply))

    def sent(self):
        """Each PDU that was sent, with its second."""
        for second, _, reply in self.rows:
            for word in reply[1:] if reply[0] == "send" else ():
                yield second, pdus.pdu_of(bytes.fromhex(word))

    def taken(self):
        """Each PDU that was taken, with its second and the reply."""
        for second, event, reply in self.rows:
            if event[0] == "take":
                yield second, pdus.pdu_of(bytes.fromhex(event[2])), reply

    def up_at(self, level, since=0):
        """The second, counted from one, at which the first LSP or SNP of a level was sent, or None."""
        for second, pdu in self.sent():
            kind = pdus.type_of(pdu)
            if second >= since and kind not in pdus.HELLOS and pdus.level_of(kind) == level:
                return second - since
        return None

    def anew_at(self, since):
        """The second, from one on, at which a hello shows that its sender restarted: it is in state Down, or on a LAN doesn't list us; or None."""
        for second, pdu, reply in self.taken():
            kind = pdus.type_of(pdu)
            if second < since or kind not in pdus.HELLOS or reply[0] == "drop":
                continue
            listed = b"".join(pdus.values(pdu, pdus.SNPAS))
            if pdus.undotted(SYSTEM) not in listed if kind != pdus.POINT_HELLO else pdus.values(pdu, pdus.THREE_WAY)[0][0] == 2:
                return second
        return None

    def again(self):
        """How often one own LSP was sent a second time."""
        own = Counter(pdu[4:5] + pdu[12:24] for _, pdu in self.sent() if pdus.type_of(pdu) in (18, 20) and pdu[12:18] == pdus.undotted(SYSTEM))
        return sum(count - 1 for count in own.values())

    def drops(self):
        return Counter(reply[1] for _, _, reply in self.rows if reply[0] == "drop")


def until(limit, holds):
    """Seconds until this holds, or None past the limit."""
    begin = time.monotonic()
    while time.monotonic() - begin < limit:
        if holds():
            return time.monotonic() - begin
        frr.rest(0.25)
    return None


class Replayed:
    """What examples/daemons/replay says of a journal."""

    def __init__(self, program, journal, config):
        words = [TOP / "examples" / "daemons" / "replay", "--program", program, journal, config]
        ran = subprocess.run(words, capture_output=True, text=True, check=False)
        self.agrees, self.text = ran.returncode == 0, ran.stdout + ran.stderr
        lines = [line.split(" ") for line in ran.stdout.splitlines()]
        self.levels = {words[2][1] for words in lines if words[0] == "lsp" and words[3] == f"{frr.SYSTEM}.00-00" and words[-1] == "live"}
        self.routes = {words[2]: words[3] for words in lines if words[0] == "route"}


class Trial:
    """A case with its namespaces and processes, which `close` takes away. Its folder gets the configuration and the journals."""

    def __init__(self, case, program, folder):
        self.case, self.program, self.folder = case, program, folder
        folder.mkdir(parents=True)
        (folder / "config.toml").write_text(case.config(), encoding="ascii")
        self.isisd = None
        self.wire = frr.Wire(folder.name, case.frr_mac())

    def __enter__(self):
        case, is_lan = self.case, self.case.kind == "lan"
        try:
            self.isisd = frr.Isisd(self.wire, frr.config(case.levels, is_lan, case.frr_is_keyed, case.more, case.more_of_wire, case.area))
            self.isisd.start()
            words = [sys.executable, TOP / "tools" / "ethernet_circuit", *(["--lan"] if is_lan else []), frr.WIRE, PEER, BIND]
            with (self.folder / "circuit").open("wb") as told:
                self.circuit = self.wire.start(self.wire.ours, words, stderr=told)
        except BaseException:
            self.__exit__()
            raise
        return self

    def __exit__(self, *_):
        if self.isisd:
            shown = "".join(f"# {it}\n{self.isisd.show(it)}\n" for it in ("show isis neighbor detail", "show isis database detail", "show isis route"))
            (self.folder / "frr").write_text(shown)
            self.isisd.close()
        self.wire.close()

    def start(self, boot):
        """Starts the daemon; its journal is a file of that boot."""
        with (self.folder / "config.toml").open("rb") as config, (self.folder / f"journal.{boot}").open("wb") as journal:
            return self.wire.start(self.wire.ours, [self.program, "daemon", "--boot", boot], stdin=config, stdout=journal)

    def journal(self, boot):
        return Journal(self.folder / f"journal.{boot}")

    def replay(self, boot):
        found = Replayed(self.program, self.folder / f"journal.{boot}", self.folder / "config.toml")
        (self.folder / f"replay.{boot}").write_text(found.text)
        return found


def kill(daemon):
    daemon.kill()
    daemon.wait()
