#!/usr/bin/env python3
"""Runs the program and `sort` over one script, three times each, and prints the ratios of the best runs, by the
wall clock and by processor time. `sort` runs several threads at once, the program one, so the two differ.

usage: ratios.py NAME PROGRAM SCRIPT
"""
import os
import sys
import time


def measure(words, script):
    """Seconds of the wall clock and of processor time, and the greatest resident memory in kibibytes."""
    start = time.monotonic()
    child = os.fork()
    if child == 0:
        os.dup2(os.open(script, os.O_RDONLY), 0)
        os.dup2(os.open(os.devnull, os.O_WRONLY), 1)
        os.execvpe(words[0], words, dict(os.environ, LC_ALL="C"))
    _, status, usage = os.wait4(child, 0)
    if status != 0:
        sys.exit(f"{words[0]} ended with {os.waitstatus_to_exitcode(status)}")
    return time.monotonic() - start, usage.ru_utime + usage.ru_stime, usage.ru_maxrss


def main():
    name, program, script = sys.argv[1:]
    best = {}
    for words in ([program, "lab"], ["sort"]):
        runs = [measure(words, script) for _ in range(3)]
        best[words[0]] = min(run[0] for run in runs), min(run[1] for run in runs), max(run[2] for run in runs)
    (wall, ours, memory), (base_wall, base, base_memory) = best[program], best["sort"]
    size = os.path.getsize(script)
    print(f"{name}: wall clock {wall:.2f} s, {wall / base_wall:.2f} of sort's {base_wall:.2f} s")
    print(f"{name}: processor {ours:.2f} s, {ours / base:.2f} of sort's {base:.2f} s")
    print(f"{name}: memory {memory} KiB, {memory / base_memory:.2f} of sort, {memory * 1024 / size:.1f} of the input")


main()
