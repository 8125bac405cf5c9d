"""Networks of FRR's isisd and of daemons, each router in a network namespace of its own, joined by veth pairs and bridges.

A daemon joins its interfaces by tools/ethernet_circuit, or it has plain UDP on them. All that is made here is taken away by `close`; processes are ended by their own ids.
"""
import json
import os
import re
import subprocess
import sys
from pathlib import Path

import frr
import isis_pdus as pdus
from trials import AREA_KEY, DOMAIN_KEY, LINK_KEY, TOP

LEVELS = {"L1": "level-1", "L2": "level-2-only", "L1L2": "level-1-2"}
LSP_LINE = re.compile(r"(\S+\.[0-9a-f]{2}-[0-9a-f]{2})\s+\*?\s*\d+\s+0x([0-9a-f]+)\s+0x([0-9a-f]+)\s+(\(?)")


class Node:
    """A router: its name, its number, and what it has other than the others."""

    def __init__(self, net, name, number, levels="L1L2", area="49.0001", keyed=False, prefixes=(), more=()):
        self.net, self.name, self.number, self.levels, self.area, self.keyed = net, name, number, levels, area, keyed
        self.prefixes, self.more = list(prefixes), list(more)
        self.system, self.space = f"0000.0000.{number:04x}", f"isis-{os.getpid()}-{net.name}-{name}"
        self.links = []

    def runs(self, level):
        return f"L{level}" in self.levels


class Frr(Node):
    """zebra and isisd."""

    # What frr.Isisd asks of its wire.
    @property
    def theirs(self):
        return self.space

    def start(self, space, words, **streams):
        return self.net.start(space, words, **streams)

    def prepare(self):
        addresses = [f"10.0.{self.number}.1/32", *self.prefixes]
        self.net.batch(self.space, [f"addr add {it} dev lo" for it in addresses])
        self.isisd = frr.Isisd(self, self.config())

    def begin(self):
        self.isisd.start()

    def config(self):
        lines = ["frr defaults traditional", f"hostname {self.name}", "router isis X", f" is-type {LEVELS[self.levels]}", " metric-style wide"]
        lines += [" no hostname dynamic", " lsp-mtu 1492", " lsp-gen-interval 1", " spf-interval 1"]
        if self.keyed:
            lines += [" area-password md5 AreaKey1 authenticate snp validate", " domain-password md5 DomainKey1 authenticate snp validate"]
        lines += [f" {it}" for it in self.more] + [f" net {self.area}.{self.system}.00", "interface lo", " ip router isis X", " isis passive"]
        for link in self.links:
            lines += [f"interface {link.name}", " ip router isis X", f" isis metric {link.metric}", " isis hello-interval 3", " isis hello-multiplier 10"]
            lines += [" no isis hello padding", " isis priority 64" if link.is_lan else " isis network point-to-point"]
            lines += [" isis password md5 LinkKey1"] if self.keyed else []
        return "\n".join([*lines, "end", ""])

    def database(self, level):
        """Each live LSP of a level, by LSP ID: its sequence number and its checksum."""
        found, now = {}, 0
        for line in self.isisd.show("show isis database").splitlines():
            head, row = re.match(r"IS-IS Level-(\d)", line), LSP_LINE.match(line)
            now = int(head[1]) if head else now
            if row and now == level and not row[4]:
                own = row[1].count(".") == 1
                found[self.system + row[1][row[1].index(".") :] if own else row[1]] = int(row[2], 16), row[3]
        return found

    def routes(self, level):
        """The metric of each route of a level that isisd shows, by prefix."""
        found, now = {}, 0
        for line in self.isisd.show("show isis route").splitlines():
            head, words = re.search(r"IS-IS L(\d)", line), line.split()
            now = int(head[1]) if head else now
            if now == level and len(words) > 3 and "/" in words[0] and words[1].isdigit():
                found[words[0]] = int(words[1])
        return found

    def close(self):
        self.isisd.close()


class Ours(Node):
    """A daemon, with its boot number and the journal of that boot."""

    boot = 0

    def __init__(self, *words, leak=False, priority=64, is_bridged=True, **more):
        """Without a bridge its circuits are plain UDP, for a network of daemons alone."""
        super().__init__(*words, **more)
        self.leak, self.priority, self.is_bridged, self.journals = leak, priority, is_bridged, []
        self.prefixes = self.prefixes or [f"10.0.{self.number}.0/24"]

    def prepare(self):
        for place, link in enumerate(self.links, 1) if self.is_bridged else ():
            words = [sys.executable, TOP / "tools" / "ethernet_circuit", *(["--lan"] if link.is_lan else []), link.name]
            with (self.net.folder / f"{self.name}.{link.name}").open("wb") as told:
                self.net.start(self.space, [*words, f"127.0.0.1:{7100 + place}", f"127.0.0.1:{7000 + place}"], stderr=told)
        self.toml = self.net.folder / f"{self.name}.toml"
        self.toml.write_text(self.config(), encoding="ascii")

    def config(self):
        lines = [f'system = "{self.system}"', f'areas = ["{self.area}"]', f'level = "{self.levels}"', *(["leak = true"] if self.leak else [])]
        lines += [f'area_key = "{AREA_KEY}"', f'domain_key = "{DOMAIN_KEY}"'] if self.keyed else []
        for place, link in enumerate(self.links, 1):
            bind, peers = self.ports(place, link)
            lines += ["[[circuit]]", f'kind = "{"lan" if link.is_lan else "p2p"}"', f'bind = "{bind}"', f"peers = {json.dumps(peers)}", f"metric = {link.metric}"]
            lines += [f'address = "{link.address(self)}"'] if self.is_bridged else []
            lines += [f"priority = {self.priority}"] if link.is_lan else []
            lines += [f'key = "{LINK_KEY}"'] if self.keyed else []
        return "\n".join(lines + [line for it in self.prefixes for line in ("[[prefix]]", f'prefix = "{it}"')] + [""])

    def ports(self, place, link):
        """Where a circuit is bound, and its peers: its bridge's ports, or those of the link's other ends."""
        if self.is_bridged:
            return f"127.0.0.1:{7000 + place}", [f"127.0.0.1:{7100 + place}"]
        others = [self.net.nodes[end] for end in link.ends if end != self.name]
        return f"{link.address(self)}:7000", [f"{link.address(it)}:7000" for it in others]

    def begin(self):
        self.boot += 1
        self.journal = self.net.folder / f"{self.name}.{self.boot}.journal"
        self.journals.append(self.journal)
        words = [self.net.program, "daemon", "--boot", self.boot]
        with self.toml.open("rb") as config, self.journal.open("wb") as journal:
            self.daemon = self.net.start(self.space, words, stdin=config, stdout=journal)

    def kill(self):
        self.daemon.kill()
        self.daemon.wait()

    def restart(self):
        self.kill()
        self.begin()

    def close(self):
        pass


class Link:
    """A link of two, or a LAN."""

    def __init__(self, name, place, ends, metric, is_lan):
        self.name, self.place, self.ends, self.metric, self.is_lan = name, place, ends, metric, is_lan

    def address(self, node):
        return f"10.100.{self.place}.{node.number}"

    def mac(self, node):
        """On a LAN a station's address is its system ID; point to point it may be any."""
        return f"00:00:00:00:00:{node.number:02x}" if self.is_lan else f"02:00:00:{self.place:02x}:00:{node.number:02x}"


class Net:
    """A network, first as it is described, then as it runs."""

    def __init__(self, name, program, folder):
        self.name, self.program, self.folder = name, program, folder
        self.nodes, self.links, self.spaces, self.processes = {}, [], [], []
        folder.mkdir(parents=True)

    def frr(self, name, number, **more):
        self.nodes[name] = Frr(self, name, number, **more)
        return self.nodes[name]

    def ours(self, name, number, **more):
        self.nodes[name] = Ours(self, name, number, **more)
        return self.nodes[name]

    def link(self, name, *ends, metric=10, is_lan=False):
        link = Link(name, len(self.links) + 1, ends, metric, is_lan)
        self.links.append(link)
        for end in ends:
            self.nodes[end].links.append(link)
        return link

    def lan(self, name, *ends, metric=10):
        return self.link(name, *ends, metric=metric, is_lan=True)

    def each(self, kind):
        return [node for node in self.nodes.values() if isinstance(node, kind)]

    def up(self):
        """Makes it, and starts each router."""
        for node in self.nodes.values():
            self.space(node.space)
            frr.called("ip", "netns", "exec", node.space, "sysctl", "-qw", "net.ipv4.ip_forward=1")
        for link in self.links:
            self.join(link)
        for step in ("prepare", "begin"):
            for node in self.nodes.values():
                getattr(node, step)()
        return self

    def space(self, name):
        frr.called("ip", "netns", "add", name)
        self.spaces.append(name)
        self.batch(name, ["link set lo up"])

    def join(self, link):
        nodes = [self.nodes[end] for end in link.ends]
        if link.is_lan:
            hub = f"isis-{os.getpid()}-{self.name}-hub-{link.name}"
            self.space(hub)
            self.batch(hub, ["link add name bridge type bridge stp_state 0 mcast_snooping 0", "link set bridge up"])
            for it in nodes:
                frr.called("ip", "link", "add", link.name, "netns", it.space, "type", "veth", "peer", "name", it.name, "netns", hub)
            self.batch(hub, [line for it in nodes for line in (f"link set {it.name} master bridge", f"link set {it.name} up")])
        else:
            frr.called("ip", "link", "add", link.name, "netns", nodes[0].space, "type", "veth", "peer", "name", link.name, "netns", nodes[1].space)
        for it in nodes:
            lines = [f"link set dev {link.name} address {link.mac(it)}", f"link set dev {link.name} up"]
            self.batch(it.space, [*lines, f"addr add {link.address(it)}/24 dev {link.name}"])

    def batch(self, space, lines):
        ran = subprocess.run(["ip", "-n", space, "-batch", "-"], input="\n".join(lines) + "\n", capture_output=True, text=True, check=False)
        if ran.returncode:
            raise frr.Missing(f"ip -batch in {space}: {ran.stderr.strip()}")

    def start(self, space, words, **streams):
        """Starts a program in a namespace; `ip netns exec` becomes it, so the id is its own."""
        process = subprocess.Popen(["ip", "netns", "exec", space, *map(str, words)], start_new_session=True, **streams)
        self.processes.append(process)
        return process

    def close(self):
        for node in self.each(Frr):
            if hasattr(node, "isisd"):
                node.close()
        for process in reversed(self.processes):
            frr.end(process)
        for space in self.spaces:
            subprocess.run(["ip", "netns", "del", space], capture_output=True, check=False)

    def __enter__(self):
        return self

    def __exit__(self, *_):
        self.close()
