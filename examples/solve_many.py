#!/usr/bin/env python3
"""solve_many.py HORIZON NET ..: solves many networks, four at a time, and says of each how it ended.

Each report is written beside its network, as NET.report, whole or not at all. A run that stops early leaves the report that it has.
Statuses: 0 all reached the horizon; 1 some did not."""
import concurrent.futures
import sys

import nfot

RUNS = 4  # at a time; each is a process of its own
SECONDS = 600  # of each call of the program


def solved(name, horizon):
    """Solves a network; how it ended, in a line."""
    try:
        run = nfot.solve(name, horizon, timeout=SECONDS)
    except nfot.Stopped as stop:
        if stop.report is not None:
            nfot.write_report(stop.report, f"{name}.report")
        raise
    nfot.write_report(run, f"{name}.report")
    return f"{name}: the driver who leaves at {horizon} takes {float(run.travel_time(horizon)):.2f}"


def main(horizon, names):
    faults = 0
    with concurrent.futures.ThreadPoolExecutor(RUNS) as pool:
        runs = {name: pool.submit(solved, name, horizon) for name in names}
        for name, run in runs.items():
            try:
                print(run.result())
            except nfot.Fault as fault:
                print(fault if fault.file == name else f"{name}: {fault}")
                faults += 1
    return 1 if faults else 0


if __name__ == "__main__":
    if len(sys.argv) < 3:
        sys.exit("usage: solve_many.py HORIZON NET ..")
    sys.exit(main(sys.argv[1], sys.argv[2:]))
