#!/usr/bin/env python3
"""Runs the workloads on the built program, and prints a table of seconds and of the peak memory in MB.

    python3 bench/table.py [PROGRAM]

PROGRAM is ./melon where it isn't given. Each workload is run with 1, 4 and 16 sixteenths of its work; the last two
columns are how the time grew from one to the next.
"""
import os
import subprocess
import sys
import tempfile
import time

HERE = os.path.dirname(os.path.abspath(__file__))
NAMES = ("small-writes", "big-batches", "mixed-writes", "queries", "observers", "watches")


def run(program, name, part):
    with tempfile.TemporaryFile() as script:
        subprocess.run([sys.executable, os.path.join(HERE, "workloads.py"), name, str(part)], stdout=script, check=True)
        script.seek(0)
        started = time.monotonic()
        process = subprocess.Popen([program, "run"], stdin=script, stdout=subprocess.DEVNULL)
        _, status, used = os.wait4(process.pid, 0)
        if status != 0:
            sys.exit("%s at %d ended with %d" % (name, part, status))
        return time.monotonic() - started, used.ru_maxrss / 1024


def main():
    program = sys.argv[1] if len(sys.argv) > 1 else os.path.join(HERE, "..", "melon")
    print("| Workload | 1x s | 4x s | 16x s | 1x MB | 4x MB | 16x MB | 1x to 4x | 4x to 16x |")
    print("|---|---|---|---|---|---|---|---|---|")
    for name in NAMES:
        found = [run(program, name, part) for part in (1, 4, 16)]
        times = [seconds for seconds, _ in found]
        grown = ["%.1f" % (later / max(first, 0.001)) for first, later in zip(times, times[1:])]
        print("| " + " | ".join([name] + ["%.2f" % t for t in times] + ["%.0f" % m for _, m in found] + grown) + " |")


main()
