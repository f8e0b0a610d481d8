#!/usr/bin/env python3
"""Runs the gate from nothing, and prints the processor minutes that each crate took: its proof, its tests, its edits.

    python3 tools/cost.py [CRATE..]

It runs `rt ci --anew` with these crates, looks once a second at the provers that rt has started, and adds up the
processor time of each. What a prover took after the last look, less than a second each, isn't counted. The log of the
gate is written to cost.log in the folder for passing files, whose name is said.
"""
import os
import pathlib
import subprocess
import sys
import tempfile
import time

TOP = pathlib.Path(__file__).resolve().parent.parent
TICKS = os.sysconf("SC_CLK_TCK")
KINDS = ("proof", "tests", "edits")


def stat_of(pid):
    """The parent of a process, when it began, and its own processor seconds."""
    try:
        text = pathlib.Path("/proc/%s/stat" % pid).read_text()
    except OSError:
        return None
    fields = text.rpartition(")")[2].split()
    return int(fields[1]), fields[19], sum(map(int, fields[11:13])) / TICKS


def words_of(pid):
    try:
        return pathlib.Path("/proc/%s/cmdline" % pid).read_bytes().decode(errors="replace").split("\0")
    except OSError:
        return []


def descendants(root):
    stats = {int(name): stat_of(name) for name in os.listdir("/proc") if name.isdigit()}
    below = {root}
    found = True
    while found:
        found = {pid for pid, stat in stats.items() if stat and stat[0] in below and pid not in below}
        below |= found
    return {(pid, stats[pid][1]): stats[pid][2] for pid in below - {root}}


def task_of(words):
    """The crate and the kind of work of a prover: an edit is checked, a crate and its tests are built."""
    if "--crate-name" not in words or not words[0].endswith("rattle"):
        return None
    crate = words[words.index("--crate-name") + 1]
    if words[1] == "check":
        return crate, "edits"
    return crate, "tests" if "--test" in words else "proof"


def watch(run):
    """The processor seconds of each crate and kind of work."""
    seen = {}
    while run.poll() is None:
        for process, seconds in descendants(run.pid).items():
            task = seen[process][0] if process in seen else task_of(words_of(process[0]))
            if task:
                seen[process] = task, seconds
        time.sleep(1)
    spent = {}
    for task, seconds in seen.values():
        spent[task] = spent.get(task, 0) + seconds
    return spent


def table(spent):
    crates = sorted({crate for crate, _ in spent}, key=lambda crate: -sum(spent.get((crate, kind), 0) for kind in KINDS))
    print("| Crate | Proof | Tests | Edits | Whole |")
    print("|---|---|---|---|---|")
    for crate in crates + ["whole"]:
        names = crates if crate == "whole" else [crate]
        minutes = [sum(spent.get((name, kind), 0) for name in names) / 60 for kind in KINDS]
        print("| `%s` | " % crate + " | ".join("%.1f" % part for part in minutes + [sum(minutes)]) + " |")


def main():
    log = os.path.join(tempfile.gettempdir(), "cost.log")
    print("cost: the log of the gate is " + log, file=sys.stderr)
    with open(log, "wb") as said:
        run = subprocess.Popen(["rt", "ci", "--anew"] + sys.argv[1:], cwd=TOP, stdout=said, stderr=said)
        spent = watch(run)
    table(spent)
    last = open(log, errors="replace").read().splitlines()[-1:]
    print("cost: " + "".join(last), file=sys.stderr)
    sys.exit(run.returncode)


if __name__ == "__main__":
    main()
