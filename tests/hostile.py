#!/usr/bin/env python3
"""Runs the built program with faults that the machine may have, outside the gate.

Each command runs on the files of the folder examples while one allocation after the other is refused, one write and one read after the
other fails, and all reads and writes take a single byte. What has to come of it:

    allocation refused   status 1 and nothing on standard output, or just the answer that comes without the fault
    write refused        status 9 and a front of the answer; where it is the line on standard error that fails, the status as without
    read refused         status 3 and nothing on standard output
    single bytes         the answer that comes without the fault

    tests/hostile.py [PROGRAM]      (else crates/nfot/out/nfot)

Statuses: 0 all held; 1 a run did not, or the program isn't built.
"""
import os
import pathlib
import shutil
import subprocess
import sys
import tempfile

ROOT = pathlib.Path(__file__).resolve().parent.parent
COMMANDS = [line.split() for line in (ROOT / "tests/hostile.txt").read_text().splitlines() if line and not line.startswith("#")]


class Runs:
    """The program on one list of words."""

    def __init__(self, program, library, folder, words):
        self.program, self.library, self.folder, self.words = program, library, folder, words
        self.status, self.out, self.err, counts = self.run({})
        self.allocations, self.reads, self.writes = (int(word) for word in counts.split())

    def run(self, faults):
        """Status, standard output, standard error, and how many calls of each kind were made."""
        with tempfile.TemporaryFile() as told:
            environment = dict(os.environ, LD_PRELOAD=str(self.library), **faults)
            done = subprocess.run(
                [str(self.program), *self.words], cwd=self.folder, env=environment, capture_output=True, close_fds=False,
                preexec_fn=lambda: os.dup2(told.fileno(), 9))
            told.seek(0)
            return done.returncode, done.stdout, done.stderr, told.read().decode()

    def same(self, found):
        return found[:3] == (self.status, self.out, self.err)

    def allocation(self, number):
        found = self.run({"FAIL_ALLOC": str(number)})
        return self.same(found) or (found[0] == 1 and found[1] == b"" and found[2] in (b"", b"nfot: memory\n"))

    def write(self, number):
        status, out, err, _ = self.run({"FAIL_WRITE": str(number)})
        of_out = self.out.startswith(out) and out != self.out
        return (status == 9 and of_out) or (status == self.status and out == self.out and self.err.startswith(err))

    def read(self, number):
        found = self.run({"FAIL_READ": str(number)})
        return found[0] == 3 and found[1] == b""

    def single_bytes(self):
        return self.same(self.run({"SHORT_IO": "1"}))


def main():
    program = pathlib.Path(sys.argv[1]).resolve() if len(sys.argv) > 1 else ROOT / "crates/nfot/out/nfot"
    if not program.exists():
        sys.exit(f"hostile: {program} isn't built")
    wrong = total = 0
    with tempfile.TemporaryDirectory() as folder:
        library = pathlib.Path(folder) / "faults.so"
        subprocess.run(["cc", "-O1", "-shared", "-fPIC", "-o", library, ROOT / "tests/faults.c", "-ldl"], check=True)
        shutil.copytree(ROOT / "examples", f"{folder}/examples")
        for words in COMMANDS:
            runs = Runs(program, library, f"{folder}/examples", words)
            checks = [("allocation", n, runs.allocation) for n in range(1, runs.allocations + 2)]
            checks += [("write", n, runs.write) for n in range(1, runs.writes + 1)]
            checks += [("read", n, runs.read) for n in range(1, runs.reads + 1)]
            bad = [(kind, n) for kind, n, holds in checks if not holds(n)]
            if not runs.single_bytes():
                bad.append(("single bytes", 0))
            total += len(checks) + 1
            wrong += len(bad)
            print(f"{' '.join(words)}: status {runs.status}, {runs.allocations} allocations, {runs.reads} reads, {runs.writes} writes, {len(bad)} wrong {bad[:5]}")
    print(f"hostile: {total} runs, {wrong} wrong")
    sys.exit(1 if wrong else 0)


if __name__ == "__main__":
    main()
