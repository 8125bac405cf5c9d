"""Schedules of the lab at random, taken apart into a journal for each boot of each router: woven, they come to what rounds over the routers give here, and the
lab comes to the same as before. Without a router's journals they come as far as rounds do, or to the first entry that waits for that router."""
import random

from limits import told

SEEDS, EVENTS = 10, 70
HEAD = "isis-journal 1\n"
KINDS = ("router", "lsp", "letgo", "route", "drop", "link", "agree", "doubled", "datagrams")
NETWORKS = (
    ["router A 0000.0000.0001 49.0001 L1", "router B 0000.0000.0002 49.0001 L1", "link X A B 10"],
    ["router B 0000.0000.0002 49.0001 L1L2 leak", "router A 0000.0000.0001 49.0001 L1", "router C 0000.0000.0003 49.0003 L2", "link X A B 10", "link Y C B 10"],
    ["router A 0000.0000.0001 49.0001 L1", "router B 0000.0000.0002 49.0001 L1", "router C 0000.0000.0003 49.0001 L1", "lan X 10 A B C", "link Y A C 5"],
)


class Plain:
    """A network's routers and links, and the events so far with what came of each."""

    def __init__(self, setup, seed):
        self.setup, self.chance = setup, random.Random(seed)
        words = [line.split(" ") for line in setup]
        self.routers = [it[1] for it in words if it[0] == "router"]
        self.links = {it[1]: it[3:] if it[0] == "lan" else it[2:4] for it in words if it[0] != "router"}
        self.events, self.journals, self.sent, self.drops = [], [[name, []] for name in self.routers], [], {}

    def circuit(self, name, link):
        return [it for it in self.links if name in self.links[it]].index(link) + 1

    def next_event(self):
        """An event that the lab does: a line's words."""
        name, chance = self.chance.choice(self.routers), self.chance.random()
        number = len(self.sent) - min(int(self.chance.expovariate(0.4)), len(self.sent) - 1) if self.sent else 0
        if number and chance < 0.45:
            sender, link, _ = self.sent[number - 1]
            return ["deliver", str(number), self.chance.choice([it for it in self.links[link] if it != sender])]
        if chance < 0.75:
            return ["pull", name, self.chance.choice([it for it in self.links if name in self.links[it]])]
        if chance < 0.92:
            return ["tick", name]
        if chance < 0.94:
            return ["restart", name]
        link = self.chance.choice([it for it in self.links if name in self.links[it]])
        metric = str(self.chance.randrange(1, 64))
        overload = ["overload", name, self.chance.choice(("on", "off"))]
        return self.chance.choice([["prefix", name, "10.0.1.0/24", metric], ["metric", name, link, metric], overload])

    def script(self, dumps=0):
        lines = ["isis-lab 1", *self.setup, *(" ".join(it) for it in self.events), *(f"dump {number}" for number in range(1, dumps + 1))]
        return "\n".join(lines) + "\n"

    def play(self, run, event):
        """Does an event, and writes what came of it into its router's journal."""
        self.events.append(event)
        name = event[2] if event[0] == "deliver" else event[1]
        if event[0] == "restart":
            self.journals.append([name, []])
            return
        report = run(["lab"], self.script()).output.splitlines()
        count = next(int(line.split(" ")[1]) for line in report if line.startswith("datagrams "))
        drops = {tuple(it[1:3]): int(it[3]) for it in (line.split(" ") for line in report) if it[0] == "drop"}
        fallen = [word for (router, word), times in drops.items() if times > self.drops.get((router, word), 0)]
        made = [line.split(" ") for line in run(["lab"], self.script(count)).output.splitlines() if line.startswith("datagram ")][len(self.sent) :]
        self.sent += [(it[2], it[3], it[4]) for it in made]
        self.drops.update(drops)
        hexes = "".join(f" {it[4]}" for it in made)
        reply = f"drop {fallen[0]}" if fallen else f"send{hexes}" if made or event[0] == "pull" else "done"
        last = [it for it in self.journals if it[0] == name][-1]
        last[1].append((event, reply))

    def entry_words(self, name, event):
        if event[0] == "tick":
            return "second"
        if event[0] == "pull":
            return f"pull {self.circuit(name, event[2])}"
        if event[0] == "deliver":
            _, link, octets = self.sent[int(event[1]) - 1]
            return f"take {self.circuit(name, link)} {octets}"
        rest = [str(self.circuit(name, event[2])), *event[3:]] if event[0] == "metric" else event[2:]
        return " ".join(["change", event[0], *rest])

    def text(self, journals):
        lines = [*self.setup]
        for name, entries in journals:
            lines += [f"journal {name}", HEAD.strip()]
            lines += [f"{number} 0 {self.entry_words(name, event)} -> {reply}" for number, (event, reply) in enumerate(entries, 1)] + ["end"]
        return "isis-weave 1\n" + "\n".join(lines) + "\n"

    def rounds(self, journals):
        """The lines of a schedule in rounds over the routers, each as far as it can; and the first entry that is left, by journal and entry."""
        moves = {name: [] for name in self.routers}
        for place, (name, entries) in enumerate(journals, 1):
            moves[name] += [(None, ["restart", name], "done")] if any(it[0] == name for it in journals[: place - 1]) else []
            moves[name] += [((place, number), event, reply) for number, (event, reply) in enumerate(entries, 1)]
        lines, sent, made = [], [], dict.fromkeys(self.routers, 0)
        goes = True
        while goes:
            goes = False
            for name in self.routers:
                while made[name] < len(moves[name]) and (line := self.line(name, moves[name][made[name]][1], sent)):
                    _, event, reply = moves[name][made[name]]
                    sent += [(name, self.link_of(event), octets) for octets in reply.split(" ")[1:]] if reply.startswith("send") else []
                    lines, made[name], goes = [*lines, line], made[name] + 1, True
        left = [it[0] for name in self.routers for it in moves[name][made[name] :] if it[0]]
        return "".join(f"{line}\n" for line in lines), min(left, default=None)

    def link_of(self, event):
        return self.sent[int(event[1]) - 1][1] if event[0] == "deliver" else event[2]

    def line(self, name, event, sent):
        """The line of an event once these datagrams were sent; None where it waits for one."""
        if event[0] != "deliver":
            return " ".join(event)
        _, link, octets = self.sent[int(event[1]) - 1]
        fits = [number for number, it in enumerate(sent, 1) if it[0] != name and it[1:] == (link, octets)]
        return f"deliver {fits[0]} {name}" if fits else None


def told_by(plain, journals, ended):
    """What is other than rounds over these journals give, if anything is."""
    lines, left = plain.rounds(journals)
    if left:
        return told(ended, 11, f"journal {left[0]} entry {left[1]} stuck", "")
    return told(ended, 0, "", "isis-lab 1\n" + "\n".join(plain.setup) + "\n" + lines)


def lines_of(ended):
    return [line for line in ended.output.splitlines() if line.split(" ")[0] in KINDS]


def faults(run):
    """Each of these texts by name, and what comes out otherwise than it should, if anything does."""
    for seed in range(SEEDS):
        plain = Plain(NETWORKS[seed % len(NETWORKS)], seed)
        for _ in range(EVENTS):
            plain.play(run, plain.next_event())
        ended = run(["weave"], plain.text(plain.journals))
        yield f"woven: schedule {seed}", told_by(plain, plain.journals, ended)
        same = lines_of(run(["lab"], ended.output)) == lines_of(run(["lab"], plain.script()))
        yield f"woven: the report of schedule {seed}", None if same else "another report"
        for name in plain.routers:
            others = [it for it in plain.journals if it[0] != name]
            yield f"woven: schedule {seed} without {name}", told_by(plain, others, run(["weave"], plain.text(others)))
