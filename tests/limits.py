"""Inputs that are too long to be written down: limits, and one past each; long runs; grids of each size."""

INPUT_LIMIT = 16_777_216
TWO = "isis-lab 1\nrouter A 0000.0000.0001 49.0001 L1\nrouter B 0000.0000.0002 49.0001 L1\n"


def told(ended, code, line="", output=None):
    """What is other than this exit code, this line on standard error and this output, if anything is."""
    if (ended.code, ended.line) != (code, line and f"isis: {line}\n"):
        return f"ended with {ended.code} {ended.line!r}, wanted {code} {line!r}"
    if output is not None and ended.output != output:
        return f"wrote {len(ended.output)} octets, wanted {len(output)}"
    return None


def headed(ended):
    """The same end with only the program's line, where the launcher explains below it what was refused."""
    if ended.code in (2, 3, 8, 9):
        ended.line = ended.line.split("\n")[0] + "\n"
    return ended


def counted(ended, start, count):
    """What is other than a report with so many lines that begin so."""
    found = sum(line.startswith(start) for line in ended.output.splitlines())
    return told(ended, 0) or (None if found == count else f"{found} lines begin with {start!r}, wanted {count}")


def lab_routers(count):
    """A lab script of so many routers, r1000 and further."""
    return "isis-lab 1\n" + "".join(f"router r{n} 0000.0000.{n} 49 L1\n" for n in range(1000, 1000 + count))


def lab_links(routers, pairs):
    """The same, of whom so many pairs are joined by 64 links each."""
    links = (f"link l{n} r{1000 + n // 64 * 2} r{1001 + n // 64 * 2} 10\n" for n in range(64 * pairs))
    return lab_routers(routers) + "".join(links)


def keys(routers, links):
    """A keys script of so many routers, and so many links between the first two."""
    return "isis-keys 1\n" + "".join(f"router r{n}\n" for n in range(1000, 1000 + routers)) + "link r1001 r1000\n" * links


def prefixes(count):
    """A router of so many prefixes."""
    lines = (f"prefix A 10.{n // 256}.{n % 256}.0/24 10\n" for n in range(count))
    return "isis-lab 1\nrouter A 0000.0000.0001 49.0001 L1\n" + "".join(lines)


def lab_grid(size):
    """The grid that `isis grid` plays."""
    ends = [(row, column) for row in range(1, size + 1) for column in range(1, size + 1)]
    lines = [f"router g{r}x{c} 0000.{r:04x}.{c:04x} 49.0001 L1" for r, c in ends]
    lines += [f"link h{r}x{c} g{r}x{c} g{r}x{c + 1} 10" for r, c in ends if c < size]
    lines += [f"link v{r}x{c} g{r}x{c} g{r + 1}x{c} 10" for r, c in ends if r < size]
    lines += [f"prefix g{r}x{c} 10.{r}.{c}.0/24 10" for r, c in ends]
    return "\n".join(["isis-lab 1", *lines, "run 60"])


def walk_text(start, prefix, cost, names):
    return f"isis-walk 1\nwalk {start} {prefix} cost {cost}\n{' '.join(['via', *names])}\n"


def datagrams(count):
    """B acknowledges a purge that it doesn't hold, datagram 15, again and again, so that so many datagrams are sent."""
    purge = "inject A X 4953553200000000000200000001831b010012010000001b0001000000000009000000000005ae4201\n"
    return TWO + "link X A B 10\nrun 7\n" + purge + "tick A\npull A X\n" + "deliver 15 B\n" * (count - 15)


def fragments(run):
    """A fragment's room is 1,465 octets, and 1,446 with a key: entries of 8 and 9 octets that just fit it, and with one octet more."""
    for key, eights, nines in ((False, 176, 4), (True, 177, 1)):
        for more in (0, 1):
            lines = [f"prefix A 10.0.{n}.0/24 1\n" for n in range(eights - more)]
            lines += [f"prefix A 9.0.0.{n}/32 1\n" for n in range(nines + more)]
            text = "isis-lab 1\nrouter A 0000.0000.0001 49.0001 L1\n" + "key A area 00\n" * key + "".join(lines) + "tick A\n"
            ended = run(["lab"], text)
            yield f"{1446 if key else 1465} octets and {more}", counted(ended, "lsp A L1 0000.0000.0001.00-01 1 live", more)


def crowd(count):
    """B hears so many systems on a LAN, none of which names B."""
    hello = "4953553200000000{0}00000001831b01000f0100000100000000{0}001e00214000000000{0}01010403490001"
    return TWO + "lan N 10 A B\n" + "".join(f"inject B N {hello.format(n)}\n" for n in range(1001, 1001 + count))


def passers_by(count):
    """So many systems say hello to B over a link, and then the first of them once more."""
    hello = "4953553200000000{0}0000000183140100110100000100000000{0}001e002101010403490001f0050200000101"
    return TWO + "link X A B 10\n" + "".join(f"inject B X {hello.format(n)}\n" for n in [*range(1001, 1001 + count), 1001])


def script_limits(run):
    """Each limit that a script can meet: just let pass, and then passed by a line more."""
    lab = lambda text: run(["lab"], text)
    yield "1,024 routers", counted(lab(lab_routers(1024)), "router ", 1024)
    yield "1,025 routers", told(lab(lab_routers(1025)), 10, "limit routers", "")
    yield "4,096 links", counted(lab(lab_links(128, 64)), "link ", 4096)
    yield "4,097 links", told(lab(lab_links(128, 64) + "link A r1000 r1001 1"), 10, "limit links", "")
    yield "4,096 links and a LAN", told(lab(lab_links(130, 64) + "lan A 1 r1128 r1129"), 10, "limit links", "")
    yield "65 circuits of a member of a LAN", told(lab(lab_links(130, 1) + "lan A 1 r1000 r1128"), 10, "limit circuits", "")
    yield "a refusal comes first", told(lab(lab_links(128, 64) + "link A r1000 r1000 1"), 3, "line 4226 again", "")
    for ends in ("r1000 r1127", "r1127 r1001"):
        yield "65 circuits of a router", told(lab(lab_links(128, 1) + f"link A {ends} 1"), 10, "limit circuits", "")
    yield "keys at both limits", told(lab(keys(1024, 4096)), 0, "", "isis-report 1\n")
    yield "1,025 routers of keys", told(lab(keys(1024, 4096) + "router A"), 10, "limit routers", "")
    yield "4,097 links of keys", told(lab(keys(1024, 4096) + "link r1000 r1001"), 10, "limit links", "")
    yield "4,096 prefixes", counted(lab(prefixes(4096) + "prefix A 10.0.0.0/24 20\n"), "route A ", 4096)
    yield "4,097 prefixes", told(lab(prefixes(4097)), 10, "limit prefixes", "")
    yield "262,144 datagrams", counted(lab(datagrams(262144)), "datagrams 262144", 1)
    yield "262,145 datagrams", told(lab(datagrams(262145)), 10, "limit datagrams", "")
    yield "200 systems heard on a LAN", counted(lab(crowd(200)), "drop ", 0)
    yield "201 systems heard on a LAN", counted(lab(crowd(201)), "drop B too-many 1", 1)
    yield "256 systems remembered", counted(lab(passers_by(256)), "drop ", 0)
    yield "257 systems, of whom 256 are remembered", counted(lab(passers_by(257)), "drop B too-many 1", 1)


def long_inputs(run):
    yield "a carriage return in the head", told(run(["lab"], "isis-lab 1\r\n"), 3, "line 1 head", "")
    for word, line in (("lab", "line 1 head"), ("show", "")):
        yield f"{word} of 16 MiB", told(run([word], "\n" * INPUT_LIMIT), 3 if line else 0, line, "")
        yield f"{word} of an octet more", told(run([word], "\n" * (INPUT_LIMIT + 1)), 6, "input too long", "")
    shown = "".join(f"pdu {n} fault Hex 1\n" for n in range(1, 1001))
    yield "1,000 lines shown", told(run(["show"], "8\n" * 1000), 0, "", shown)
    many = "isis-keys 1\nrouter A\n" + "issue A 0000.0000.0001.00-00 1 live\n" * 20_000
    yield "20,000 copies of a key", told(run(["lab"], many), 0, "", "isis-report 1\nkey A 0000.0000.0001.00-00 1 live\n")
    long = TWO + "link X A B 10\nrun 7\ninject B X 4953553200000000000900000001831b01001401" + "00000fa1" + "00" * 3991 + "\n"
    yield "4,015 octets injected", counted(run(["lab"], long), "drop B too-long 1", 1)
    alone = "isis-lab 1\nrouter A 0000.0000.0001 49.0001 L1\n" + "overload A on\nrun 6\noverload A off\nrun 6\n" * 5100
    yield "10,200 contents of an LSP", counted(run(["lab"], alone), "lsp A L1 0000.0000.0001.00-00 10200 live", 1)
    lan = TWO + "lan N 10 A B\n"
    yield "1,200 lists on a LAN", counted(run(["lab"], lan + "run 12000\n"), "lan N L1 A sees 0000.0000.0002 swept yes", 1)
    often = lan + "overload A on\nrun 10\noverload A off\nrun 10\n" * 550 + "run 20\n"
    yield "lists at 1,100 moments", counted(run(["lab"], often), "lan N L1 A sees 0000.0000.0002 swept yes", 1)


def summary(size):
    """What `grid` writes: each router has a route to each prefix, of 10 a link and 10 for the prefix."""
    ends = [(row, column) for row in range(size) for column in range(size)]
    costs = [10 + 10 * (abs(a - c) + abs(b - d)) for a, b in ends for c, d in ends]
    links, routes = 2 * size * (size - 1), len(costs)
    return (
        f"grid {size}\nrouters {size * size}\nlinks {links}\ngroups 1\nroutes {routes}\ncost {sum(costs)}\n"
        f"greatest {max(costs)}\n"
    )


def grids(run):
    for size in range(1, 9):
        yield f"grid {size}", told(run(["grid", str(size)], ""), 0, "", summary(size))


def walks(run):
    """Walks from corner to corner of grids, over many prefixes, and where a script meets a limit."""
    for size in range(1, 9):
        last = f"g{size}x{size}"
        there = [f"g1x{c}" for c in range(2, size + 1)] + [f"g{r}x{size}" for r in range(2, size + 1)]
        back = [f"g{r}x{size}" for r in range(size - 1, 0, -1)] + [f"g1x{c}" for c in range(size - 1, 0, -1)]
        for start, prefix, names in (("g1x1", f"10.{size}.{size}.0/24", there), (last, "10.1.1.0/24", back)):
            text = walk_text(start, prefix, 20 * size - 10, names)
            yield f"a walk from {start} in a grid of {size}", told(run(["walk", start, prefix], lab_grid(size)), 0, "", text)
    walk = lambda text, name="A": run(["walk", name, "10.15.255.0/24"], text)
    yield "a walk to the last of 4,096 prefixes", told(walk(prefixes(4096) + "tick A\n"), 0, "", walk_text("A", "10.15.255.0/24", 10, []))
    yield "a walk to one of 4,096 prefixes that no LSP tells", told(walk(prefixes(4096)), 12, "no walk unsettled", "")
    yield "a walk behind 4,097 prefixes", told(walk(prefixes(4097)), 10, "limit prefixes", "")
    yield "a walk from nobody behind 4,097 prefixes", told(walk(prefixes(4097), "B"), 12, "no walk name", "")
    yield "a walk behind 262,145 datagrams", told(walk(datagrams(262145)), 10, "limit datagrams", "")
    yield "a walk over 1,024 routers that hold nothing", told(walk(lab_routers(1024), "r1000"), 12, "no walk owners", "")
    yield "a walk from nobody among 1,025 routers", told(walk(lab_routers(1025)), 10, "limit routers", "")
    yield "a walk over 1,025 routers of keys", told(walk(keys(1025, 0)), 10, "limit routers", "")
    yield "a walk over 16 MiB", told(walk("\n" * INPUT_LIMIT), 3, "line 1 head", "")
    yield "a walk over an octet more", told(walk("\n" * (INPUT_LIMIT + 1)), 6, "input too long", "")


def weaves(run):
    """Journals behind prefixes, and many of one router."""
    weave = lambda text: run(["weave"], text)
    many = lambda count: prefixes(count).replace("isis-lab", "isis-weave")
    block = "journal A\nisis-journal 1\n{}end\n"
    for lines in ("1 0 change prefix 10.15.255.0/24 none -> done\n2 0 change prefix 10.16.0.0/24 10 -> done\n", "1 0 change prefix 10.0.0.0/24 9 -> done\n"):
        written = "".join(f"prefix A {line.split()[4]} {line.split()[5]}\n" for line in lines.splitlines())
        yield f"a change at 4,096 prefixes: {lines[:36]}", told(weave(many(4096) + block.format(lines)), 0, "", prefixes(4096) + written)
    one_more = block.format("1 0 change prefix 10.16.0.0/24 10 -> done\n")
    yield "a prefix more in a journal", told(weave(many(4096) + one_more), 11, "journal 1 entry 1 event", "")
    yield "4,097 prefixes", told(weave(many(4097)), 10, "limit prefixes", "")
    for line in ("prefix A", "router B", "tick A", "journal B"):
        yield f"4,097 prefixes and a line {line}", told(weave(many(4097) + line + "\n"), 10, "limit prefixes", "")
        yield f"4,096 prefixes and a line {line}", told(weave(many(4096) + line + "\n"), 3, f"line 4099 {'name' if line == 'journal B' else 'form'}", "")
    yield "1,025 routers", told(weave(lab_routers(1025).replace("isis-lab", "isis-weave")), 10, "limit routers", "")
    setup = "router A 0000.0000.0001 49.0001 L1\n"
    yield "1,000 journals of a router", told(
        weave("isis-weave 1\n" + setup + block.format("1 0 second -> done\n") * 1000), 0, "",
        "isis-lab 1\n" + setup + "restart A\n".join(["tick A\n"] * 1000))
    yield "a weaving of 16 MiB", told(weave("\n" * INPUT_LIMIT), 3, "line 1 head", "")
    yield "a weaving of comments", told(weave("isis-weave 1\n" + "#" * (INPUT_LIMIT - 13)), 0, "", "isis-lab 1\n")
    yield "a weaving of an octet more", told(weave("\n" * (INPUT_LIMIT + 1)), 6, "input too long", "")


def cut_datagrams(run):
    """What a run sends, each datagram cut to each length, at the other end: dropped for its frame or its PDU, and nothing else changes."""
    text = TWO + "link X A B 10\nrun 7\n"
    plain = run(["lab"], text).output
    shown = run(["lab"], text + "".join(f"dump {n}\n" for n in range(1, 15))).output
    sent = [line.split()[2::2] for line in shown.splitlines() if line.startswith("datagram ")]
    wanted, lines = plain, ""
    for end, other, behind in (("A", "B", "router B "), ("B", "A", "link X ")):
        cuts = [word[: 2 * size] for sender, word in sent if sender == other for size in range(1, len(word) // 2)]
        frames = 13 * sum(sender == other for sender, _ in sent)
        wanted = wanted.replace(behind, f"drop {end} frame {frames}\ndrop {end} pdu {len(cuts) - frames}\n{behind}")
        lines += "".join(f"inject {end} X {cut}\n" for cut in cuts)
    count = lines.count("\n")
    ended = run(["lab"], text + lines)
    fault = told(ended, 0, "", wanted.replace("injected 0", f"injected {count}"))
    yield f"{count} cut datagrams", fault if len(sent) == 14 else "fourteen were sent"


# Two routers that a link joins, three seconds of them, and the first five datagrams, which come again, the last one first.
SECONDS = """tick A,tick B,pull A X,deliver 1 B,pull B X,deliver 2 A,tick A,tick B,pull A X,deliver 3 B,deliver 4 B,deliver 5 B,
pull B X,deliver 6 A,deliver 7 A,deliver 8 A,deliver 9 A,tick A,tick B,pull A X,deliver 10 B,pull B X""".replace("\n", "").split(",")
LATE = ["deliver 5 B", "deliver 4 B", "deliver 3 B", "deliver 2 A", "deliver 1 B"]


def is_within(run, events):
    """Whether after these events no end of the link is ahead in more LSP IDs than it has flags."""
    report = run(["lab"], TWO + "link X A B 10\n" + "".join(line + "\n" for line in events)).output
    found = [line.split() for line in report.splitlines() if line.startswith("link X L1 ")]
    if len(found) != 1:
        return False
    words = found[0]
    return words[3] == "down" or (int(words[8]) <= int(words[5]) and int(words[9]) <= int(words[6]))


def late_datagrams(run):
    """After each event of the seconds, and then of each subset of late datagrams that come twice."""
    for count in range(1, len(SECONDS) + 1):
        yield f"the first {count} events", None if is_within(run, SECONDS[:count]) else "an end is ahead"
    for subset in range(32):
        events = [line for place, line in enumerate(LATE) if subset >> place & 1 for _ in range(2)]
        well = all(is_within(run, SECONDS + events[:count]) for count in range(1, len(events) + 1))
        yield f"late datagrams {subset}", None if well else "an end is ahead"


def restarted_ends(run):
    """An end restarts behind the seconds; one to four seconds later each subset of its earlier datagrams comes, and a second more."""
    for end, other, sent in (("A", "B", (1, 3, 4, 5, 10)), ("B", "A", (2, 6, 7, 8, 9))):
        for seconds in range(1, 5):
            before = SECONDS + [f"restart {end}"] + ["run 1"] * seconds
            for subset in range(32):
                events = before + [f"deliver {number} {other}" for place, number in enumerate(sent) if subset >> place & 1]
                well = is_within(run, events) and is_within(run, events + ["run 1"])
                yield f"{end} restarted {seconds} s before late datagrams {subset}", None if well else "an end is ahead"


def faults(run):
    """Each of these inputs by name, and what comes out otherwise than it should, if anything does."""
    for cases in (script_limits, fragments, long_inputs, grids, walks, weaves, cut_datagrams, late_datagrams, restarted_ends):
        yield from cases(run)
