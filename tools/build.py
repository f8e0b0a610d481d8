#!/usr/bin/env python3
"""Proves each crate below the program, and builds it: `./melon build`.

    python3 tools/build.py              proves and builds, and tells how far it is on standard error
    python3 tools/build.py --is-built   ends with 0 where the sources are those of which the program was built
    python3 tools/build.py --note       notes the sources, after a run of rt ci that built the program of them
"""
import hashlib
import os
import pathlib
import subprocess
import sys
import time

TOP = pathlib.Path(__file__).resolve().parent.parent
CRATES = TOP / "crates"
OUT = CRATES / "melon" / "out"
PROGRAM = OUT / "melon"
SUM = OUT / "sources.sum"
LOG = OUT / "build.log"
KINDS = (".rt", ".antt")
PAUSE = 2
# how many seconds pass between two lines on the same crate
SILENCE = 60


def sources():
    """The files of which the program is built, by name."""
    found = [TOP / "crates.txt"]
    for folder, below, names in os.walk(CRATES):
        below[:] = [name for name in below if name != "out"]
        found += [pathlib.Path(folder, name) for name in names if name.endswith(KINDS)]
    return sorted(found)


def sum_of_sources():
    total = hashlib.sha256()
    for file in sources():
        total.update(str(file.relative_to(TOP)).encode() + b"\0" + hashlib.sha256(file.read_bytes()).digest())
    return total.hexdigest()


def is_built():
    """Whether the program stands, built of these sources. One that is found so is dated as newer than they are."""
    if not PROGRAM.exists() or not SUM.exists() or SUM.read_text() != sum_of_sources():
        return False
    os.utime(PROGRAM)
    return True


def crates_of_program():
    """The crates here of which the program is made, the program last."""
    for line in (TOP / "crates.txt").read_text().splitlines():
        name, _, below = line.partition(":")
        if name.split()[:1] == ["melon"]:
            return [crate for crate in below.split() if (CRATES / crate).is_dir()] + ["melon"]
    sys.exit("melon: crates.txt names no program")


class Progress:
    """What is told of the crates: rt writes a stamp behind each library that it has proved and built."""

    def __init__(self, crates):
        self.crates = crates
        self.began = time.monotonic()
        self.stamps = {crate: self.stamp(crate) for crate in crates}
        self.proved = []
        self.told = None
        self.at = self.began

    @staticmethod
    def stamp(crate):
        file = CRATES / crate / "out" / "rlib" / "stamp"
        try:
            return file.stat().st_mtime_ns
        except OSError:
            return None

    def spent(self):
        seconds = int(time.monotonic() - self.began)
        return "%d:%02d minutes" % divmod(seconds, 60)

    def say(self, text):
        self.at = time.monotonic()
        print("melon: %s (%s)" % (text, self.spent()), file=sys.stderr, flush=True)

    def start(self):
        kept = sum(stamp is not None for stamp in self.stamps.values())
        print(
            "melon: proving and building %d crates, of which %d have been built before; the log is %s"
            % (len(self.crates), kept, LOG),
            file=sys.stderr,
            flush=True,
        )

    def count_functions(self, crate):
        mark = " %s::" % crate
        with LOG.open(errors="replace") as log:
            return sum(mark in line and line.rstrip().endswith(": proved") for line in log)

    def current(self):
        """The crate whose library is begun and isn't whole."""
        for crate in self.crates:
            folder = CRATES / crate / "out" / "rlib"
            if folder.is_dir() and self.stamp(crate) is None:
                return crate
        return None

    def look(self):
        for crate in self.crates:
            if crate not in self.proved and self.stamp(crate) not in (None, self.stamps[crate]):
                self.proved.append(crate)
                self.say("%s is proved, the %s of %d" % (crate, ordinal(len(self.proved)), len(self.crates)))
        crate = self.current()
        if crate and crate != self.told:
            self.told = crate
            self.say("proving %s" % crate)
        elif crate and time.monotonic() - self.at > SILENCE:
            self.say("proving %s: %d of its items so far" % (crate, self.count_functions(crate)))


def ordinal(number):
    ending = "th" if number % 100 in (11, 12, 13) else {1: "st", 2: "nd", 3: "rd"}.get(number % 10, "th")
    return "%d%s" % (number, ending)


def build():
    if is_built():
        print("melon: built already, and no source has changed", file=sys.stderr)
        return
    OUT.mkdir(exist_ok=True)
    before = sum_of_sources()
    progress = Progress(crates_of_program())
    progress.start()
    # rt runs what it builds; without a word the program ends at once
    with LOG.open("wb") as log:
        run = subprocess.Popen(
            ["rt", "run", "--"], cwd=CRATES / "melon", stdin=subprocess.DEVNULL, stdout=log, stderr=log
        )
        while run.poll() is None:
            progress.look()
            time.sleep(PAUSE)
    progress.look()
    # the program's own line is the last that a good build has
    lines = LOG.read_text(errors="replace").splitlines()
    if not PROGRAM.exists() or lines[-1:] != ["melon: status 2"]:
        print("\n".join(lines[-20:]), file=sys.stderr)
        sys.exit("melon: the build failed after %s; its log is %s" % (progress.spent(), LOG))
    if before != sum_of_sources():
        sys.exit("melon: a source changed while it was built: build again")
    SUM.write_text(before)
    os.utime(PROGRAM)
    progress.say("proved and built: %s" % PROGRAM.relative_to(TOP))


if __name__ == "__main__":
    if sys.argv[1:] == ["--is-built"]:
        sys.exit(0 if is_built() else 1)
    if sys.argv[1:] == ["--note"]:
        SUM.write_text(sum_of_sources())
        sys.exit(0)
    build()
