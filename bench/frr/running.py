"""What the scripts of this folder share: their words, signals, and how cases are tried side by side."""
import argparse
import shutil
import signal
import sys
import tempfile
from concurrent.futures import ThreadPoolExecutor
from pathlib import Path

import frr
from trials import TOP, Trial

PROGRAM = TOP / "crates" / "isis_daemon" / "out" / "isis_daemon"


def tried(place, case, work, program, room):
    """What `work` says of a case's trial; where it couldn't be tried, why."""
    try:
        with Trial(case, program, room / str(place)) as trial:
            return case.name, work(trial)
    except (frr.Missing, OSError) as problem:
        return case.name, f"not tried: {problem}"
    except frr.Stopped:
        return case.name, "not tried: stopped"


def tried_all(works, words, room):
    """The name of each case that was asked for, with what its work says, or why it couldn't be tried."""
    chosen = [it for it in works if words.only in it[0].name]
    with ThreadPoolExecutor(max(1, words.jobs)) as pool:
        return list(pool.map(lambda it: tried(it[0], *it[1], words.program.resolve(), room), enumerate(chosen, 1)))


def words_of(name, usage, words):
    parser = argparse.ArgumentParser(prog=f"bench/frr/{name}", usage=usage.split("usage: ")[1].split("\n")[0], add_help=False)
    parser.add_argument("--program", default=PROGRAM, type=Path)
    parser.add_argument("--only", default="")
    parser.add_argument("--jobs", default=3, type=int)
    parser.add_argument("--keep", type=Path)
    parser.add_argument("--list", action="store_true")
    return parser.parse_args(words)


def stop(*_):
    frr.STOP.set()


def stop_on_signals():
    for it in (signal.SIGINT, signal.SIGTERM, signal.SIGHUP):
        signal.signal(it, stop)


def main(name, usage, cases, run):
    """Reads the words, sees that nothing is missing, and runs; the exit code."""
    if sys.argv[1:2] in (["-h"], ["--help"]):
        print(usage.strip())
        return 0
    words = words_of(name, usage, sys.argv[1:])
    if words.list:
        print("\n".join(case.name for case in cases if words.only in case.name))
        return 0
    stop_on_signals()
    room = words.keep or Path(tempfile.mkdtemp(prefix="isis-frr-run-"))
    try:
        frr.look_about()
        if not words.program.is_file():
            raise frr.Missing(f"{words.program} isn't there: ./isis lab < examples/two_come_up.lab builds the program")
        return run(words, room)
    except frr.Missing as missing:
        print(f"bench/frr: {missing}", file=sys.stderr)
        return 3
    finally:
        if not words.keep:
            shutil.rmtree(room, ignore_errors=True)
