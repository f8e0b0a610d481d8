#!/usr/bin/env python3
"""Runs each script of tests/ and examples/ with the built program, and compares what it prints, byte by byte.

    python3 .ci/scripts.py [PROGRAM]

Beside NAME.jsonl stands NAME.txt, what is printed. Where the run ends otherwise than well, NAME.err has the line on
standard error, whose number is the exit status. PROGRAM is the command that runs a script, ./melon where none is named.
"""
import pathlib
import re
import shlex
import subprocess
import sys

TOP = pathlib.Path(__file__).resolve().parent.parent


def wanted(script):
    """What a script prints, its line on standard error, and its exit status."""
    printed = script.with_suffix(".txt").read_bytes()
    said = script.with_suffix(".err")
    line = said.read_bytes() if said.exists() else b""
    status = int(re.search(rb"status (\d+)", line).group(1)) if line else 0
    return printed, line, status


def first_difference(got, want):
    got, want = got.split(b"\n"), want.split(b"\n")
    for number, (one, other) in enumerate(zip(got, want), 1):
        if one != other:
            return "line %d is %s in place of %s" % (number, one.decode("utf-8", "replace"), other.decode("utf-8", "replace"))
    return "%d lines in place of %d" % (len(got) - 1, len(want) - 1)


def faults_of(script, program):
    run = subprocess.run(program + ["run"], stdin=script.open("rb"), capture_output=True, cwd=TOP, check=False)
    printed, line, status = wanted(script)
    if run.stdout != printed:
        yield "prints another text: " + first_difference(run.stdout, printed)
    if run.stderr != line:
        yield "says " + repr(run.stderr)
    if run.returncode != status:
        yield "ends with %d in place of %d" % (run.returncode, status)


def main():
    program = shlex.split(sys.argv[1]) if len(sys.argv) > 1 else [str(TOP / "melon")]
    scripts = sorted(TOP.glob("tests/*.jsonl")) + sorted(TOP.glob("examples/*.jsonl"))
    texts = {path.with_suffix("") for folder in ("tests", "examples") for path in TOP.glob(folder + "/*.txt")}
    stray = sorted(texts - {script.with_suffix("") for script in scripts})
    found = ["%s.txt has no script" % path.relative_to(TOP) for path in stray]
    for script in scripts:
        found += ["%s %s" % (script.relative_to(TOP), fault) for fault in faults_of(script, program)]
    for fault in found:
        print("scripts: " + fault, file=sys.stderr)
    print("scripts: %d scripts, %d faults" % (len(scripts), len(found)))
    sys.exit(1 if found or not scripts else 0)


if __name__ == "__main__":
    main()
