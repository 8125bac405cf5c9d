#!/usr/bin/env python3
"""Runs a program over a script three times and prints its least seconds of the wall clock and of processor time, its greatest
memory in KiB, and the report's line `datagrams`, or `-`.

usage: measure.py SCRIPT PROGRAM [WORD..]

The program has to end with the code that the variable CODE names, else with 0.
"""
import os
import subprocess
import sys
import tempfile
import time


def measure(words, script):
    # a child of Python's own counts Python's memory as its own, so a small program stands between
    with open(script, "rb") as text, tempfile.NamedTemporaryFile("r") as memory:
        words = ["/usr/bin/time", "-o", memory.name, "-f", "%M", *words]
        start = time.monotonic()
        child = subprocess.Popen(words, stdin=text, stdout=subprocess.PIPE, stderr=subprocess.DEVNULL)
        report = child.stdout.read()
        _, status, usage = os.wait4(child.pid, 0)
        code = os.waitstatus_to_exitcode(status)
        if code != int(os.environ.get("CODE", "0")):
            sys.exit(f"{words[-2:]} ended with {code} over {script}")
        wall = time.monotonic() - start
        kibibytes = int(memory.read().split()[-1])
    sent = [line for line in report.decode().splitlines() if line.startswith("datagrams ")]
    return wall, usage.ru_utime + usage.ru_stime, kibibytes, sent[0].split()[1] if sent else "-"


def main():
    script, *words = sys.argv[1:]
    runs = [measure(words, script) for _ in range(3)]
    print(f"{min(run[0] for run in runs):.3f} {min(run[1] for run in runs):.3f} {max(run[2] for run in runs)} {runs[0][3]}")


main()
