"""What a picture says of a network at a moment, in words: lines for each router, and a state and lines for each link and each end of a LAN.

A node is a router, by its name, or a LAN, by `/` and its name. An edge is a link, by its name, or an end of a LAN: `LAN/MEMBER`.
"""

GROUP_COLOURS = 8
PREFIXES = 2


def edges_of(script):
    """Each edge with the two nodes that it joins."""
    edges = {}
    for link in script.links.values():
        if link.is_lan:
            edges.update({f"{link.name}/{member}": ("/" + link.name, member) for member in link.members})
        else:
            edges[link.name] = tuple(link.members)
    return edges


def fixed_lines(script):
    """What each node says at all times."""
    nodes = {name: [name, router.system, f"{router.area} {router.extra}".rstrip()] for name, router in script.routers.items()}
    nodes.update({"/" + link.name: [link.name, "LAN", f"metric {link.metric}"] for link in script.links.values() if link.is_lan})
    return nodes


class Look:
    """The network after so many steps of the script, as the report tells it."""

    def __init__(self, script, report, count):
        self.script = script
        self.metrics, self.overloads = settings(script.steps[:count])
        self.nodes = {name: self.chips(name) + notes(report.routers[name]) for name in script.routers}
        self.colour(report)
        self.edges = {}
        for link in script.links.values():
            lines = [line.split(" ") for line in report.links.get(link.name, [])]
            if not link.is_lan:
                self.edges[link.name] = self.link(link, lines)
                continue
            for member in link.members:
                self.edges[f"{link.name}/{member}"] = self.end(link, member, [words[2:] for words in lines if words[3] == member])

    def chips(self, name):
        """A line for each level, and one where its LSPs say that it is overloaded."""
        chips = [("chip plain", level) for level in self.script.routers[name].runs()]
        return chips + [("note", "overloaded")] * (name in self.overloads)

    def colour(self, report):
        """Gives the routers of one group one colour, where the report lets the groups be told."""
        count = 0
        for place, level in (("first", "L1"), ("second", "L2")):
            for number, group in enumerate(report.groups(self.script, level) or [], 1):
                for name in group:
                    chip = 0 if place == "first" or self.nodes[name][0][1] == level else 1
                    self.nodes[name][chip] = (f"chip g{count % GROUP_COLOURS}", f"{level} group {number}")
                count += 1

    def metric(self, link):
        """The metric of each end of a link, where it isn't that of the script's line at both."""
        each = [(self.metrics.get((name, link.name), link.metric), name) for name in link.members]
        if len({metric for metric, _ in each}) == 1:
            return f"{link.name}, metric {each[0][0]}"
        return f"{link.name}, metric " + ", ".join(f"{metric} at {name}" for metric, name in each)

    def can_meet(self, level, one, other):
        """Whether two routers can be neighbours at a level: both run it, and at level 1 they are in one area."""
        one, other = self.script.routers[one], self.script.routers[other]
        return level in one.runs() and level in other.runs() and (level == "L2" or one.area == other.area)

    def link(self, link, lines):
        words = [self.metric(link)]
        states = []
        for _, _, level, *more in lines:
            if more == ["down"] and not self.can_meet(level, *link.members):
                words.append(f"{level} not expected: two areas")
                continue
            if more == ["down"]:
                states.append("down")
                words.append(f"{level} down")
                continue
            flags, ahead, excepted = more[2:4], more[5:7], more[8]
            flagged, newer = at_ends(link.members, flags, "flag"), ahead_in(link.members, ahead)
            states.append("flags" if flags != ["0", "0"] else "up")
            words += [f"{level} up: no flags, none ahead"] if (flagged, newer) == ("no flags", "none ahead") else [f"{level} up: {flagged}", newer]
            words += [f"{excepted} excepted"] if excepted != "0" else []
        return state_of(states), words if lines else [*words, "no level in common"]

    def end(self, link, member, lines):
        """The end of a LAN at a member: whom it sees at each level that it runs."""
        states, words = [], []
        metric = self.metrics.get((member, link.name), link.metric)
        if metric != link.metric:
            words.append(f"{member}, metric {metric}")
        for level, _, _, system, *swept in lines:
            seen = self.script.systems.get(system, system)
            if system == "none" and not any(self.can_meet(level, member, other) for other in link.members if other != member):
                words.append(f"{level} {member} is alone")
            elif system == "none":
                states.append("down")
                words.append(f"{level} {member} sees none")
            elif not swept:
                states.append("up")
                words.append(f"{level} {member} sees itself")
            else:
                states.append("up" if swept[1] == "yes" else "flags")
                words.append(f"{level} {member} sees {seen}, {'swept' if swept[1] == 'yes' else 'not swept'}")
        return state_of(states), words


def settings(steps):
    """The metrics that lines set, by router and link, and the routers that are overloaded."""
    metrics, overloads = {}, set()
    for words in (step.words for step in steps):
        if words[0] == "metric":
            metrics[words[1], words[2]] = words[3]
        elif words[0] == "overload":
            (overloads.add if words[2] == "on" else overloads.discard)(words[1])
    return metrics, overloads


def notes(lines):
    """What a router's lines tell besides: its boot, and its own prefixes."""
    boot = lines[0].split(" ")[4]
    own = [line.split(" ")[2] for line in lines if line.startswith("route ") and line.split(" ")[3] == "own"]
    texts = [f"boot {boot}"] * (boot != "1") + [f"own {prefix}" for prefix in own[:PREFIXES]]
    return [("note", text) for text in texts + [f"and {len(own) - PREFIXES} more own"] * (len(own) > PREFIXES)]


def state_of(states):
    """The state of an edge, of those of its levels."""
    if not states:
        return "none"
    if "down" in states and set(states) != {"down"}:
        return "part"
    return "flags" if "flags" in states else states[0]


def at_ends(names, counts, word):
    said = [f"{count} at {name}" for name, count in zip(names, counts) if count != "0"]
    if not said:
        return f"no {word}s"
    count, rest = said[0].split(" ", 1)
    return ", ".join([f"{count} {word}{'' if count == '1' else 's'} {rest}"] + said[1:])


def ahead_in(names, counts):
    said = [f"{name} ahead in {count}" for name, count in zip(names, counts) if count != "0"]
    return ", ".join(said) or "none ahead"
