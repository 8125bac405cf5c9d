"""Compares a network of FRR's isisd and of daemons: what each router holds, and each route with a search of its own over the same LSPs.

What a daemon holds is in its journal, and its routes are what examples/daemons/replay says of that. The search is written here once more, from
docs/PROTOCOL.md, so that it shares nothing with the program.
"""
import heapq
import shutil
import subprocess
from collections import Counter, defaultdict

import isis_pdus as pdus
from nets import Frr, Ours
from trials import TOP

UNUSABLE, GREATEST, PURGED_FOR = 16777215, 4261412864, 60


class Held:
    """What the router of a journal holds, by what it took and sent, and what it dropped."""

    def __init__(self, node, journal=None):
        self.own, self.seconds, self.drops = pdus.undotted(node.system), 0, Counter()
        self.lsps = {1: {}, 2: {}}
        for line in (journal or node.journal).read_text(encoding="ascii", errors="replace").split("\n")[1:-1]:
            left, _, right = line.partition(" -> ")
            event, reply = left.split(" ")[2:], right.split(" ")
            self.seconds += event[0] == "second"
            if reply[0] == "drop":
                self.drops[reply[1]] += 1
            elif event[0] == "take":
                self.see(pdus.pdu_of(bytes.fromhex(event[2])), is_sent=False)
            for word in reply[1:] if reply[0] == "send" else ():
                self.see(pdus.pdu_of(bytes.fromhex(word)), is_sent=True)

    def see(self, pdu, is_sent):
        kind = pdus.type_of(pdu)
        if kind not in pdus.LSPS.values() or (pdu[12:18] == self.own) != is_sent:
            return
        held = self.lsps[pdus.level_of(kind)]
        pdu = pdus.without_tail(pdu)
        lifetime, number = int.from_bytes(pdu[10:12], "big"), int.from_bytes(pdu[20:24], "big")
        before = held.get(pdu[12:20])
        is_forgotten = before and not before[1] and self.seconds - before[2] >= PURGED_FOR
        if before is None or is_forgotten or (number, not lifetime) >= (before[0], not before[1]):
            held[pdu[12:20]] = number, lifetime, self.seconds, pdu

    def live(self, level):
        """Each live LSP's PDU, by LSP ID."""
        return {pdus.dotted(key): pdu for key, (_, lifetime, at, pdu) in self.lsps[level].items() if lifetime > self.seconds - at}

    def database(self, level):
        return {key: (int.from_bytes(pdu[20:24], "big"), pdu[24:26].hex()) for key, pdu in self.live(level).items()}


def edges(pdu):
    for value in pdus.values(pdu, pdus.NEIGHBOURS):
        place = 0
        while place + 11 <= len(value):
            yield value[place : place + 7], int.from_bytes(value[place + 7 : place + 10], "big")
            place += 11 + value[place + 10]


def prefixes(pdu):
    """Each prefix with its metric and whether it came down from level 2."""
    for value in pdus.values(pdu, pdus.PREFIXES):
        place = 0
        while place + 5 <= len(value):
            metric, control = int.from_bytes(value[place : place + 4], "big"), value[place + 4]
            length, octets = control & 63, ((control & 63) + 7) // 8
            address = (value[place + 5 : place + 5 + octets] + bytes(4))[:4]
            place += 5 + octets
            place += 1 + value[place] if control & 64 else 0
            if metric <= GREATEST:
                yield ".".join(map(str, address)) + f"/{length}", metric, bool(control & 128)


def search(lsps, system):
    """The least cost of each prefix from a system at one level, with whether it came down, and the systems that it may be handed to."""
    start, out, back, overloaded = pdus.undotted(system) + b"\0", defaultdict(list), defaultdict(set), set()
    for pdu in lsps:
        node = bytes(pdu[12:19])
        overloaded |= {node} if pdu[19] == 0 and pdu[26] & 4 else set()
        for end, metric in edges(pdu):
            back[node].add(end)
            out[node] += [(end, metric)] if metric != UNUSABLE else []
    costs, hops, heap, done = {start: 0}, {start: frozenset()}, [(0, start)], set()
    while heap:
        cost, node = heapq.heappop(heap)
        if node in done:
            continue
        done.add(node)
        for end, metric in out[node] if node == start or node not in overloaded else ():
            if node not in back[end]:
                continue
            first = hops[node] or (frozenset([end[:6]]) if end[6] == 0 else frozenset())
            if cost + metric < costs.get(end, cost + metric + 1):
                costs[end], hops[end] = cost + metric, first
                heapq.heappush(heap, (cost + metric, end))
            elif cost + metric == costs[end]:
                hops[end] |= first
    best = {}
    for pdu in lsps:
        node = bytes(pdu[12:19])
        for prefix, metric, is_down in prefixes(pdu) if node in costs else ():
            key = is_down, costs[node] + metric
            if prefix not in best or key < best[prefix][0]:
                best[prefix] = key, hops[node]
            elif key == best[prefix][0]:
                best[prefix] = key, best[prefix][1] | hops[node]
    return {prefix: (key[1], key[0], {pdus.dotted(hop) for hop in ends}) for prefix, (key, ends) in best.items()}


def databases(net):
    """How many LSPs each group of routers holds that should hold the same, and a line for each LSP that some hold otherwise."""
    held = {node.name: Held(node) for node in net.each(Ours)}
    count, faults = 0, []
    for level in (1, 2):
        groups = defaultdict(dict)
        for node in net.nodes.values():
            if node.runs(level):
                own = held[node.name].database(level) if isinstance(node, Ours) else node.database(level)
                groups[node.area if level == 1 else ""][node.name] = own
        for of_area in groups.values():
            for key in sorted(set().union(*of_area.values())):
                count += 1
                each = {name: own.get(key) for name, own in of_area.items()}
                if len(set(each.values())) > 1:
                    faults.append(f"L{level} {key}: " + ", ".join(f"{name} {it and it[0]}" for name, it in each.items()))
    return count, faults


def replayed(node):
    """The routes of a daemon, by prefix: rank, cost and next hops; what goes wrong in the replay; and what it holds by the same journal."""
    copy = node.journal.with_suffix(".copy")
    shutil.copyfile(node.journal, copy)
    words = [TOP / "examples" / "daemons" / "replay", "--program", node.net.program, copy, node.toml]
    ran = subprocess.run(words, capture_output=True, text=True, check=False)
    routes = {it[2]: (it[3], int(it[4]), set(it[6:])) for it in (line.split(" ") for line in ran.stdout.splitlines()) if it[0] == "route"}
    wrong = [f"{node.name}: replay ends with {ran.returncode}: {ran.stderr.strip()}"] if ran.returncode else []
    return routes, wrong, Held(node, copy)


def wanted(node, held):
    """The routes that a router should have by the LSPs of a journal: rank, cost and next hops."""
    found = {}
    for level in (2, 1):
        for prefix, (cost, is_down, hops) in search(held.live(level).values(), node.system).items() if node.runs(level) else ():
            if level == 2 or not is_down or prefix not in found:
                found[prefix] = ("L1d" if is_down and level == 1 else f"L{level}"), cost, hops
    return found


def our_routes(net):
    """How many routes of daemons were compared, and a line for each that differs."""
    count, faults = 0, []
    for node in net.each(Ours):
        routes, wrong, held = replayed(node)
        faults += wrong
        for prefix, route in wanted(node, held).items():
            if routes.get(prefix, ("",))[0] != "own":
                count += 1
                faults += [] if routes.get(prefix) == route else [f"{node.name}: {prefix}: {routes.get(prefix)}, by the LSPs {route}"]
    return count, faults


def their_routes(net):
    """How many routes of FRR were compared, each with the least cost by the LSPs that a daemon of that area holds, and a line for each that differs."""
    count, faults = 0, []
    for node in net.each(Frr):
        for level in (1, 2):
            beside = [it for it in net.each(Ours) if it.runs(level) and (level == 2 or it.area == node.area)]
            if not node.runs(level) or not beside:
                continue
            shown = node.routes(level)
            for prefix, (cost, _, hops) in search(Held(beside[0]).live(level).values(), node.system).items():
                if hops:
                    count += 1
                    faults += [] if shown.get(prefix) == cost else [f"{node.name} L{level}: {prefix}: {shown.get(prefix)}, by the LSPs {cost}"]
    return count, faults
