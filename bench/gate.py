#!/usr/bin/env python3
"""Measures what the gate costs: runs `rt ci`, and prints processor minutes by kind of process, the most expensive crates and edits.

    python3 bench/gate.py [TREE]

TREE is a checkout of the repository; without it, the script's own is measured. To measure it from nothing, first move away what
the kit keeps of earlier runs (the folder rattle-kept beside it). The script reads processor seconds from /proc four times a
second. Other work on the machine makes them grow, so the time of a fixed loop is printed: before, after, and the mean of short
ones, one a minute in between.

Statuses: 0 however the gate ends, whose last words are printed; 1 `rt` isn't on the path; 2 wrong arguments.
"""
import argparse
import collections
import contextlib
import glob
import os
import re
import shutil
import subprocess
import sys
import tempfile
import time

TICKS = os.sysconf("SC_CLK_TCK")
ROUNDS, SHORT = 120, 12
OWN = os.path.dirname(os.path.dirname(os.path.realpath(__file__)))
Seen = collections.namedtuple("Seen", "seconds words folder edit")
LIBRARY, PROGRAM, ALONE = "libraries", "programs", "edits alone"
SEED, OVER, LAST = "first proofs for several edits", "edits over these", "last proofs for several edits"


def loop_seconds(rounds=ROUNDS):
    """Returns the processor seconds of a fixed loop, as a measure of the machine's pace. Those of fewer rounds are scaled up to ROUNDS."""
    table = {key: key * 3 for key in range(200_000)}
    begun = time.process_time()
    total = 0
    for _ in range(rounds):
        for key in range(0, 200_000, 3):
            total += table[key]
    return (time.process_time() - begun) * ROUNDS / rounds


def stat_of(pid):
    """Returns the parent, the start and the processor seconds of a process."""
    with open(f"/proc/{pid}/stat", encoding="utf-8", errors="replace") as it:
        text = it.read()
    fields = text[text.rindex(")") + 2 :].split()
    return int(fields[1]), int(fields[19]), (int(fields[11]) + int(fields[12])) / TICKS


def texts_of(edit):
    """Returns the file that an edit changes, and the texts that it puts there."""
    with open(edit, encoding="utf-8") as it:
        lines = it.read().splitlines()
    file = next((line[6:] for line in lines if line.startswith("file: ")), "")
    return file, [line[5:] for line in lines if line.startswith("new: ")]


def edit_of(root, crate, folder):
    """Returns the name of the edit that made the copy of a crate in a folder, or "" for the crate as it is."""
    for edit in sorted(glob.glob(f"{root}/crates/{crate}/must-fail/*.edit")):
        file, texts = texts_of(edit)
        try:
            with open(f"{folder}/{file}", encoding="utf-8") as it:
                changed = it.read()
            with open(f"{root}/crates/{crate}/{file}", encoding="utf-8") as it:
                whole = it.read()
        except OSError:
            continue
        if changed != whole and all(text in changed for text in texts):
            return f"{crate}/{os.path.basename(edit)[:-5]}"
    return ""


def with_all_below(above):
    """Returns the start and the processor seconds of the process `above` and of all below it, by their numbers, each after its parent."""
    stats, children = {}, collections.defaultdict(list)
    for name in os.listdir("/proc"):
        if name.isdigit():
            with contextlib.suppress(OSError, ValueError):
                parent, *stats[int(name)] = stat_of(name)
                children[parent].append(int(name))
    below = [above]
    for pid in below:
        below.extend(children[pid])
    return {pid: stats[pid] for pid in below if pid in stats}


def sample(above, root, seen):
    """Notes what the process `above` and each process below it has taken so far."""
    for pid, (start, seconds) in with_all_below(above).items():
        note(seen, (pid, start), seconds, root)


def crate_of(words):
    """Returns the crate that a process checks or builds, or ""."""
    return words[words.index("--crate-name") + 1] if "--crate-name" in words else ""


def note(seen, key, seconds, root):
    """Notes what a process has taken. Until it is a check of a crate, notes its words, its folder and the edit tried there."""
    words, folder, edit = seen[key][1:] if key in seen else ([], "", "")
    if not crate_of(words):
        try:
            with open(f"/proc/{key[0]}/cmdline", encoding="utf-8", errors="replace") as it:
                words = it.read().split("\0")
            folder = os.readlink(f"/proc/{key[0]}/cwd")
        except OSError:
            pass
        if crate_of(words) and "/rt-edit-" in folder:
            edit = edit_of(root, crate_of(words), folder)
    seen[key] = Seen(seconds, words, folder, edit)


def kept_of(process):
    """Returns the folder that a check keeps its results in, or ""."""
    words = process.words
    return words[words.index("--incremental") + 1] if "--incremental" in words else ""


def kind_of(process, programs, last):
    """Returns the kind of a process: a kind of check, or the name of its program.

    Of the checks of a crate as it is that share one folder of results, the first begins its edits and the last ends them.
    """
    crate = crate_of(process.words)
    if not crate:
        return os.path.basename(process.words[0]) if process.words and process.words[0] else "other"
    if "/rt-edit-" in process.folder:
        kept = kept_of(process)
        if not kept:
            return ALONE
        if not kept.endswith("/seed"):
            return OVER
        return LAST if last[kept] is process else SEED
    return PROGRAM if crate in programs else LIBRARY


def most(counter, number):
    """Returns the names with the largest counts, each with its seconds."""
    return ", ".join(f"{name} {seconds:.0f}" for name, seconds in counter.most_common(number) if name)


def told(seen, programs):
    """Prints a table of the kinds, the most expensive crates of each, and the most expensive edits."""
    kinds, count, edits = collections.Counter(), collections.Counter(), collections.Counter()
    crates = collections.defaultdict(collections.Counter)
    processes = [process for _, process in sorted(seen.items(), key=lambda it: (it[0][1], it[0][0]))]
    last = {kept_of(process): process for process in processes}
    for process in processes:
        kind = kind_of(process, programs, last)
        kinds[kind] += process.seconds
        count[kind] += 1
        crates[kind][crate_of(process.words)] += process.seconds
        edits[process.edit] += process.seconds
    print(f"all: {sum(kinds.values()) / 60:.1f} processor minutes\n")
    print("| kind | processes | minutes | most expensive, seconds |\n|---|---|---|---|")
    for kind, seconds in kinds.most_common(12):
        print(f"| {kind} | {count[kind]} | {seconds / 60:.1f} | {most(crates[kind], 12)} |")
    print(f"\nedits, seconds: {most(edits, 20)}")


def main():
    parser = argparse.ArgumentParser(description=__doc__, formatter_class=argparse.RawDescriptionHelpFormatter)
    parser.add_argument("tree", metavar="TREE", nargs="?", default=OWN, help="a checkout (default: the one of this script)")
    root = os.path.realpath(parser.parse_args().tree)
    if not os.path.isdir(f"{root}/crates"):
        parser.error(f"{root} has no folder crates")
    if not shutil.which("rt"):
        sys.exit("gate: there is no program rt")
    programs = {it for it in os.listdir(f"{root}/crates") if os.path.isfile(f"{root}/crates/{it}/src/main.rt")}
    print(f"a fixed loop: {loop_seconds():.2f} seconds", flush=True)
    seen, begun, paces = {}, time.time(), []
    with tempfile.TemporaryFile("w+", errors="replace") as out:
        with subprocess.Popen(["rt", "ci"], cwd=root, stdout=out) as gate:
            while gate.poll() is None:
                sample(gate.pid, root, seen)
                if time.time() - begun >= 60 * (len(paces) + 1):
                    paces.append(loop_seconds(SHORT))
                time.sleep(0.25)
        out.seek(0)
        said = out.read()
    lines = [it for it in said.splitlines() if re.search(r"NOT |FAILED|only because|passed, ", it)]
    print("\n".join(lines))
    print(f"{(time.time() - begun) / 60:.0f} minutes; a fixed loop: {loop_seconds():.2f} seconds")
    if paces:
        print(f"the loop in between, {len(paces)} times: {sum(paces) / len(paces):.2f} seconds in the mean")
    told(seen, programs)


if __name__ == "__main__":
    main()
