#!/usr/bin/env python3
"""Times floods with the built program `flood_bench`, and prints a table.

    bench/floods.py [PROGRAM]      PROGRAM is crates/flood_bench/out/flood_bench by default

64 routers in a ring, in 16 regions, and one pair from which the flood goes. For 16, 8 and 2 links a router and about 10^4,
10^5 and 10^6 asked pairs: nanoseconds of processor time an edge and an asked pair, the least of RUNS runs less those of a run
without floods; the peak; and how many times as long `trace` takes, which asks the regions in turn. Then, at about 10^5
pairs, `trace_joined`, which asks the regions of a round at once, beside `trace`: seconds by the clock and of processor time.
"""
import datetime
import os
import subprocess
import sys
import time

RUNS = 5
ROUTERS = 64
HERE = os.path.dirname(os.path.abspath(__file__))


def run(program, what, reach, signatures, times):
    """Processor time, peak in MB, what is printed, and seconds by the clock."""
    words = [program, what, str(reach), str(signatures), str(times)]
    began = time.monotonic()
    child = subprocess.Popen(words, stdout=subprocess.PIPE)
    printed = child.stdout.read().decode().split()
    _, status, usage = os.wait4(child.pid, 0)
    child.returncode = os.waitstatus_to_exitcode(status)
    if child.returncode != 0:
        sys.exit("%s ended with %d" % (" ".join(words), child.returncode))
    spent = usage.ru_utime + usage.ru_stime
    return spent, usage.ru_maxrss / 1024, [int(word) for word in printed], time.monotonic() - began


def least(program, what, reach, signatures, times):
    runs = [run(program, what, reach, signatures, times) for _ in range(RUNS)]
    links = 2 * reach
    pairs, edges = ROUTERS * signatures, links * (ROUTERS * signatures - 1) + links * signatures
    if any(found != [pairs, edges] for _, _, found, _ in runs):
        sys.exit("%s found %s nodes and edges, and not %d and %d" % (what, runs[0][2], pairs, edges))
    empty = [run(program, what, reach, signatures, 0) for _ in range(RUNS)]
    spent = min(one[0] for one in runs) - min(one[0] for one in empty)
    clock = min(one[3] for one in runs) - min(one[3] for one in empty)
    return spent / times, runs[0][1], pairs, edges, clock / times


def main():
    program = sys.argv[1] if len(sys.argv) > 1 else os.path.join(HERE, "..", "crates", "flood_bench", "out", "flood_bench")
    if not os.access(program, os.X_OK):
        sys.exit("no program at %s: build it first (bench/README.md)" % program)
    before = os.getloadavg()[0]
    rows = []
    for reach in (8, 4, 1):
        for signatures, times in ((1, 2000), (156, 10), (1562, 1), (15625, 1)):
            flood, peak, pairs, edges, _ = least(program, "flood", reach, signatures, times)
            trace = least(program, "trace", reach, signatures, times)[0]
            rows.append("| %d | %d | %d | %.0f | %.0f | %.0f MB | %.1f |" % (
                2 * reach, pairs, edges, flood / edges * 1e9, flood / pairs * 1e9, peak, trace / flood))
    print("%s, %d processors, load %.1f before and %.1f after:\n" % (
        datetime.date.today().isoformat(), os.cpu_count(), before, os.getloadavg()[0]))
    print("| Links | Asked pairs | Edges | ns an edge | ns a pair | Peak | `trace` takes |")
    print("|---|---|---|---|---|---|---|")
    print("\n".join(rows))
    print("\n| Links | Asked pairs | `trace`: clock | processor | `trace_joined`: clock | processor |")
    print("|---|---|---|---|---|---|")
    for reach in (8, 4, 1):
        turned, _, pairs, _, turned_clock = least(program, "trace", reach, 1562, 10)
        joined, _, _, _, joined_clock = least(program, "joined", reach, 1562, 10)
        print("| %d | %d | %.3f | %.3f | %.3f | %.3f |" % (2 * reach, pairs, turned_clock, turned, joined_clock, joined))


main()
