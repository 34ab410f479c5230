#!/usr/bin/env python3
"""Measures the gates of two trees from nothing, in turns, so that a change of the machine's pace falls on both alike.

    python3 bench/gate_pair.py BEFORE NOW [--share SHARE] [--keep FOLDER]

While one gate runs, all processes of the other are stopped. A turn of BEFORE lasts a minute, and a turn of NOW lasts SHARE of
a minute. If SHARE is near the quotient of the gates' times, both gates end together. Each gate begins with an empty folder for
the results that the kit keeps. With --keep the results of NOW are left in FOLDER. The script prints what bench/gate.py prints
of each tree, the minutes of its turns, and the quotient of the processor minutes. The minutes by the clock in the output of
bench/gate.py include those in which a gate was stopped.

The script needs Linux, and `unshare` with the right to mount. Statuses: 0 however the gates end, whose last words are printed;
1 `rt` or `unshare` isn't on the path, or a gate printed no figure; 2 wrong arguments; 143 stopped by SIGTERM.
"""
import argparse
import contextlib
import os
import re
import shutil
import signal
import subprocess
import sys
import tempfile
import time

import gate

MINUTE = 60
WITH_OWN_FOLDER = 'mkdir -p "$1" && mount --bind "$2" "$1" && shift 2 && exec "$@"'


class GateInTurns:
    """A gate that runs in turns: its tree, the seconds of a turn, the seconds of its turns so far, its output and its process."""

    def __init__(self, tree, seconds, kept, empty):
        self.tree, self.seconds, self.spent = tree, seconds, 0.0
        self.out = tempfile.TemporaryFile("w+", errors="replace")
        unshare = ["unshare", "--mount"] + ([] if os.geteuid() == 0 else ["--map-root-user"])
        measure = [sys.executable, os.path.join(gate.OWN, "bench", "gate.py"), tree]
        self.process = subprocess.Popen([*unshare, "sh", "-c", WITH_OWN_FOLDER, "sh", kept, empty, *measure], stdout=self.out)
        self.send(signal.SIGSTOP)

    def ended(self):
        """Tells whether the gate has ended."""
        return self.process.poll() is not None

    def send(self, number):
        """Sends a signal to the gate's processes, until there are no new ones."""
        sent = set()
        while new := [pid for pid in gate.with_all_below(self.process.pid) if pid not in sent]:
            for pid in new:
                with contextlib.suppress(ProcessLookupError):
                    os.kill(pid, number)
            sent.update(new)

    def turn(self):
        """Lets the gate run for a turn, or until it ends."""
        begun = time.monotonic()
        self.send(signal.SIGCONT)
        with contextlib.suppress(subprocess.TimeoutExpired):
            self.process.wait(self.seconds)
        self.spent += time.monotonic() - begun

    def report(self):
        """Prints the gate's output. Returns its processor minutes, or None if the output has none."""
        self.out.seek(0)
        said = self.out.read()
        print(f"{self.tree}: {self.spent / MINUTE:.1f} minutes of turns\n{said}", flush=True)
        found = re.search(r"^all: ([\d.]+) processor minutes", said, re.MULTILINE)
        return float(found[1]) if found else None


def take_turns(gates):
    """Lets each gate run in its turns, until all have ended. If this is interrupted, ends the gates."""
    try:
        while running := [it for it in gates if not it.ended()]:
            for it in running:
                it.turn()
                if len(running) > 1 and not it.ended():
                    it.send(signal.SIGSTOP)
    finally:
        for it in gates:
            if not it.ended():
                it.send(signal.SIGKILL)


def arguments():
    """Returns what the command line gives: the two trees, the share, and the folder that stays or None."""
    parser = argparse.ArgumentParser(description=__doc__, formatter_class=argparse.RawDescriptionHelpFormatter)
    parser.add_argument("before", metavar="BEFORE", help="a checkout of the repository")
    parser.add_argument("now", metavar="NOW", help="another checkout")
    parser.add_argument("--share", type=float, default=1.0, help="a turn of NOW as a part of a turn of BEFORE (default 1)")
    kept = "an empty or new folder for the results of NOW that the kit keeps (default: they are deleted)"
    parser.add_argument("--keep", metavar="FOLDER", help=kept)
    given = parser.parse_args()
    if not 0 < given.share <= 1:
        parser.error("SHARE must be above 0 and at most 1")
    for tree in (given.before, given.now):
        if not os.path.isdir(f"{tree}/crates"):
            parser.error(f"{tree} has no folder crates")
    if given.keep:
        os.makedirs(given.keep, exist_ok=True)
        if os.listdir(given.keep):
            parser.error(f"{given.keep} must be empty")
    keep = os.path.realpath(given.keep) if given.keep else None
    return os.path.realpath(given.before), os.path.realpath(given.now), given.share, keep


def main():
    signal.signal(signal.SIGTERM, lambda *_: sys.exit(143))
    before, now, share, keep = arguments()
    for program in ("rt", "unshare"):
        if not shutil.which(program):
            sys.exit(f"gate_pair: there is no program {program}")
    kit = os.path.dirname(os.path.dirname(os.path.realpath(shutil.which("rt"))))
    kept = os.path.join(os.path.dirname(kit), "rattle-kept")
    with tempfile.TemporaryDirectory() as first, tempfile.TemporaryDirectory() as second:
        gates = [GateInTurns(before, MINUTE, kept, first), GateInTurns(now, MINUTE * share, kept, keep or second)]
        take_turns(gates)
        figures = [it.report() for it in gates]
    if None in figures:
        sys.exit("gate_pair: a gate printed no figure")
    print(f"quotient of processor minutes: {figures[1] / figures[0]:.3f}")


if __name__ == "__main__":
    main()
