"""Alternates of captured databases, as another program finds them: FRR's isisd, in `alternates.frr`."""
from pathlib import Path

TOLD = Path(__file__).with_name("alternates.frr")


def told():
    """Of each system: its database's lines, the system, and what isisd finds by target and next hop."""
    lines, found = [], []
    for line in TOLD.read_text(encoding="utf-8").splitlines():
        first, *rest = line.split(" ") if line and line[0] != "#" else [""]
        if first == "database":
            lines = []
        elif first == "at":
            found.append(("".join(lines), rest[0], {}))
        elif rest:
            found[-1][2][first, rest[0]] = rest[1:]
        elif first:
            lines.append(first + "\n")
    return found


def found_by(output):
    """The systems that serve for each target and next hop, of what `isis alternates` writes."""
    found = {}
    for line in output.splitlines()[2:]:
        _, target, _, hop, *more = line.split(" ")
        found.setdefault((target, hop), []).extend(more[1:2])
    return found


def faults(run):
    for lines, system, wanted in told():
        ended = run(["alternates", "L2", system], lines)
        found = found_by(ended.output)
        for (target, hop), via in wanted.items():
            got = found.get((target, hop))
            fault = None if ended.code == 0 and got == via else f"ended with {ended.code}, alternates {got}, wanted {via}"
            yield f"alternates of {system} to {target} past {hop}", fault
