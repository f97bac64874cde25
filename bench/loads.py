#!/usr/bin/env python3
"""Times `load SEED PACKETS W` with the built program for 1 to 16 workers, and prints a table.

    bench/loads.py [PROGRAM [PACKETS]]      PROGRAM is crates/spie/out/spie, and PACKETS 32,768 by default

For each number of workers: seconds by the clock and of processor time, the least of RUNS runs, and the peak. The totals
printed must be the same for all of them; where they aren't, the script fails.
"""
import datetime
import os
import subprocess
import sys
import time

RUNS = 5
SEED = 7
HERE = os.path.dirname(os.path.abspath(__file__))


def run(program, packets, workers):
    """Seconds by the clock and of the processor, peak in MB, and the totals without the number of workers."""
    began = time.monotonic()
    child = subprocess.Popen([program, "load", str(SEED), str(packets), str(workers)], stdout=subprocess.PIPE)
    printed = child.stdout.read().decode().split()
    _, status, usage = os.wait4(child.pid, 0)
    child.returncode = os.waitstatus_to_exitcode(status)
    clock = time.monotonic() - began
    if child.returncode != 0:
        sys.exit("load with %d workers ended with %d" % (workers, child.returncode))
    return clock, usage.ru_utime + usage.ru_stime, usage.ru_maxrss / 1024, printed


def main():
    program = sys.argv[1] if len(sys.argv) > 1 else os.path.join(HERE, "..", "crates", "spie", "out", "spie")
    packets = int(sys.argv[2]) if len(sys.argv) > 2 else 32768
    if not os.access(program, os.X_OK):
        sys.exit("no program at %s: build it first (bench/README.md)" % program)
    before = os.getloadavg()[0]
    rows, totals = [], None
    for workers in (1, 2, 4, 8, 16):
        runs = [run(program, packets, workers) for _ in range(RUNS)]
        for _, _, _, printed in runs:
            totals = totals or printed
            if printed != totals:
                sys.exit("%d workers print %s, and one prints %s" % (workers, " ".join(printed), " ".join(totals)))
        rows.append("| %d | %.2f | %.2f | %.0f MB |" % (
            workers, min(one[0] for one in runs), min(one[1] for one in runs), max(one[2] for one in runs)))
    print("%s, %d processors, load %.1f before and %.1f after; %d packets:\n" % (
        datetime.date.today().isoformat(), os.cpu_count(), before, os.getloadavg()[0], packets))
    print("| Workers | Seconds by the clock | of processor time | Peak |")
    print("|---|---|---|---|")
    print("\n".join(rows))


main()
