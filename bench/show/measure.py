#!/usr/bin/env python3
"""Times `isis show` over the inputs lines.* of a folder, and tshark over its pdus.pcap where there is one.

usage: measure.py PROGRAM FOLDER

Prints PDUs a second of the fastest of three rounds (of two for tshark), by the wall clock, and the ratio.
"""
import glob
import os
import shutil
import subprocess
import sys
import time

FIELDS = [
    "isis.type", "isis.lsp.pdu_length", "isis.lsp.remaining_life", "isis.lsp.lsp_id", "isis.lsp.sequence_number",
    "isis.lsp.checksum", "isis.lsp.clv.type", "isis.lsp.clv.length",
]


def timed(words, source):
    with open(source, "rb") as octets:
        start = time.monotonic()
        subprocess.run(words, stdin=octets, stdout=subprocess.DEVNULL, stderr=subprocess.DEVNULL, check=True)
        return time.monotonic() - start


def main():
    program, folder = sys.argv[1:]
    inputs = sorted(glob.glob(folder + "/lines.*"))
    count = sum(sum(1 for _ in open(name)) for name in inputs)
    ours = min(sum(timed([program, "show"], name) for name in inputs) for _ in range(3))
    print(f"isis show: {count / ours:,.0f} PDUs a second ({ours:.2f} s)")
    if shutil.which("tshark") is None:
        print("tshark: not on this machine")
        return
    words = ["tshark", "-n", "-r", folder + "/pdus.pcap", "-T", "fields"]
    for field in FIELDS:
        words += ["-e", field]
    base = min(timed(words, os.devnull) for _ in range(2))
    print(f"tshark: {count / base:,.0f} PDUs a second ({base:.2f} s); isis show is {base / ours:.1f} times as fast")


main()
