"""The daemon on 127.0.0.1: each exit code of it that a user can meet, with its line, and what its journal has then."""
import os
import re
import resource
import signal
import socket
import tempfile
import threading

from limits import INPUT_LIMIT, told
from outside import limited

WORDS = ["daemon", "--boot", "3", "--turns", "1"]
HEAD = "isis-journal 1\n"
LINE = re.compile(r"(\d+) [01] (?:pull 1 -> send( [0-9a-f]+)*|second -> done)\n")


def config(*ports):
    """A router of level 1 with a circuit at each of these ports."""
    circuits = "".join(f'[[circuit]]\nkind = "p2p"\nbind = "127.0.0.1:{port}"\npeers = ["127.0.0.1:9"]\n' for port in ports)
    return f'system = "0000.0000.0001"\nareas = ["49.0001"]\nlevel = "L1"\n{circuits}'


def held():
    """A socket that has a port, and the port."""
    end = socket.socket(socket.AF_INET, socket.SOCK_DGRAM)
    end.bind(("127.0.0.1", 0))
    return end, end.getsockname()[1]


def free(count):
    """Ports that nobody has."""
    ends = [held() for _ in range(count)]
    for end, _ in ends:
        end.close()
    return [port for _, port in ends]


def fault_of(journal, is_cut=False):
    """What is other than a journal's head, and entries one after another of a router that nobody speaks to; its last line may be cut."""
    if not journal.startswith(HEAD):
        return None if is_cut and HEAD.startswith(journal) else f"a journal that begins with {journal[:20]!r}"
    lines = journal.removeprefix(HEAD).splitlines(keepends=True)
    whole = lines[:-1] if is_cut and lines and not lines[-1].endswith("\n") else lines
    for number, line in enumerate(whole, 1):
        form = LINE.fullmatch(line)
        if not form or int(form[1]) != number:
            return f"entry {number} is {line[:200]!r}"
    return None


def starts(run):
    """A port that somebody has, of the first circuit, of the second and of the last; and one that nobody has any more."""
    end, port = held()
    others = free(2)
    yield "a port that is held", told(run(WORDS, config(port)), 9, "not started", "")
    yield "the second port is held", told(run(WORDS, config(others[0], port)), 9, "not started", "")
    yield "64 circuits, the last port is held", told(run(WORDS, config(*free(63), port)), 9, "not started", "")
    end.close()
    ended = run(WORDS, config(port))
    yield "a port that is free again", told(ended, 0) or fault_of(ended.output)
    seconds = ended.output.count("second -> done")
    yield "a turn", None if seconds == 1 and re.search(r"(?m)^\d+ 1 pull 1 -> send 4953553200000000000100000003\w+\n", ended.output) else ended.output[:200]


def inputs(run):
    port = free(1)[0]
    folder = os.open(tempfile.gettempdir(), os.O_RDONLY)
    yield "a configuration that can't be read", told(run(WORDS, "", stdin=folder), 4, "read fault", "")
    os.close(folder)
    text = config(port)
    yield "a configuration of 16 MiB", told(run(WORDS, text + "\n" * (INPUT_LIMIT - len(text))), 0)
    yield "a configuration of an octet more", told(run(WORDS, text + "\n" * (INPUT_LIMIT + 1 - len(text))), 6, "input too long", "")
    yield "an empty configuration", told(run(WORDS, ""), 8, "config missing system", "")


def outputs(run):
    """A journal that finds no room, at its head, within it, within its first entry, and within a later one."""
    with open("/dev/full", "wb") as full:
        yield "a journal without room", told(run(WORDS, config(*free(1)), stdout=full), 5, "write fault")
    for size in (1, len(HEAD), len(HEAD) + 1, 150, 200):
        with tempfile.TemporaryFile() as file:
            ended = run(WORDS, config(*free(1)), stdout=file, preexec_fn=limited(size, signal.SIG_IGN))
            file.seek(0)
            journal = file.read().decode()
        yield f"a journal of at most {size} octets", told(ended, 5, "write fault") or fault_of(journal, is_cut=True)


def neighbours(run):
    """Two daemons, each the other's neighbour: both make their turns, and each took what the other's journal has as sent."""
    ports = free(2)
    texts = [config(port).replace(":9\"", f":{other}\"").replace("0000.0001", f"0000.000{n}") for n, (port, other) in enumerate((ports, ports[::-1]), 1)]
    ends = [None, None]

    def serve(place):
        ends[place] = run(WORDS[:-1] + ["10"], texts[place])

    both = [threading.Thread(target=serve, args=(place,)) for place in (0, 1)]
    for each in both:
        each.start()
    for each in both:
        each.join()
    for place, name in enumerate(("the first daemon", "the second daemon")):
        yield f"{name} of two", told(ends[place], 0)
        taken = re.findall(r"(?m)^\d+ 1 take 1 ([0-9a-f]+) -> ", ends[place].output)
        unsent = [octets for octets in taken if octets not in ends[1 - place].output]
        yield f"{name} hears the other", None if taken and not unsent else f"{len(taken)} datagrams taken, {len(unsent)} of them never sent"
    yield from woven(run, [end.output for end in ends])


def woven(run, journals):
    """The journals of two neighbours weave, each behind those of the boots before it, and the lab plays the schedule."""
    setup = "router A 0000.0000.0001 49.0001 L1\nrouter B 0000.0000.0002 49.0001 L1\nlink X A B 10\n"
    before = int(WORDS[2]) - 1
    blocks = "".join(f"journal {name}\n{text}end\n" for name, journal in zip("AB", journals) for text in [HEAD] * before + [journal])
    ended = run(["weave"], f"isis-weave 1\n{setup}{blocks}")
    yield "two journals weave", told(ended, 0)
    lines = ended.output.removeprefix(f"isis-lab 1\n{setup}").splitlines()
    entries = sum(journal.count("\n") - 1 for journal in journals)
    yield "a line for each entry and restart", None if len(lines) == entries + 2 * before else f"{len(lines)} lines, {entries} entries"
    yield "the lab plays what two daemons did", told(run(["lab"], ended.output), 0)


def memory(run):
    limit = 16 << 20
    text = config(*free(1))
    ended = run(WORDS, text + "\n" * (INPUT_LIMIT - len(text)), preexec_fn=lambda: resource.setrlimit(resource.RLIMIT_AS, (limit, limit)))
    yield "no memory for a configuration", told(ended, 7, "out of memory", "")


def faults(run):
    """Each of these runs by name, and what comes out otherwise than it should, if anything does."""
    import serving_lan

    for cases in (starts, inputs, outputs, neighbours, memory, serving_lan.lan):
        for name, fault in cases(run):
            yield f"daemon: {name}", fault
