#!/usr/bin/env python3
"""Times records into shared pages, with the built program `plane_bench`, and prints a table.

    bench/plane.py [PROGRAM]      PROGRAM is crates/plane_bench/out/plane_bench by default

For 3 and 8 marks: nanoseconds a record into a plain page, and through passes in 1, 2 and 4 threads, on one plane
and on planes of their own; on one plane also by `record`. Each number is the least of RUNS runs, less that of a loop that only reads the signatures:
by the clock, and by the processor time of all threads. Both are for one record of one thread.
"""
import datetime
import os
import subprocess
import sys
import time

RECORDS = 2_000_000
RUNS = 7
HERE = os.path.dirname(os.path.abspath(__file__))


def run(program, what, marks, threads):
    """Seconds by the clock, and of processor time, of one run."""
    words = [program, what, str(marks), str(threads), str(RECORDS)]
    begin = time.perf_counter()
    child = subprocess.Popen(words, stdout=subprocess.PIPE)
    printed = child.stdout.read()
    _, status, usage = os.wait4(child.pid, 0)
    seconds = time.perf_counter() - begin
    child.returncode = os.waitstatus_to_exitcode(status)
    if child.returncode != 0:
        sys.exit("%s ended with %d" % (" ".join(words), child.returncode))
    if what in ("shared", "record", "own") and int(printed) != threads * RECORDS:
        sys.exit("%s: %s records entered" % (" ".join(words), printed.decode().strip()))
    return seconds, usage.ru_utime + usage.ru_stime


def least(program, what, marks, threads):
    runs = [run(program, what, marks, threads) for _ in range(RUNS)]
    return min(seconds for seconds, _ in runs), min(spent for _, spent in runs)


def main():
    program = sys.argv[1] if len(sys.argv) > 1 else os.path.join(HERE, "..", "crates", "plane_bench", "out", "plane_bench")
    if not os.access(program, os.X_OK):
        sys.exit("no program at %s: build it first (bench/README.md)" % program)
    before = os.getloadavg()[0]
    loop = least(program, "loop", 3, 1)
    cases = [("`Page::insert`", "page", 1)]
    cases += [("`%s`, %d thread%s, %s" % (call, threads, "s" if threads > 1 else "", where), what, threads)
              for call, what, where in (("try_record", "shared", "one plane"), ("record", "record", "one plane"),
                                        ("try_record", "own", "planes of their own")) for threads in (1, 2, 4)]
    rows = []
    for name, what, threads in cases:
        cells = []
        for marks in (3, 8):
            clock, spent = least(program, what, marks, threads)
            cells += [(clock - loop[0]) / RECORDS * 1e9, (spent - loop[1]) / threads / RECORDS * 1e9]
        rows.append((name, cells))
    print("%s, %d processors, load %.1f before and %.1f after:\n" % (
        datetime.date.today().isoformat(), os.cpu_count(), before, os.getloadavg()[0]))
    print("| Nanoseconds a record and thread | k = 3, clock | k = 3, processor | k = 8, clock | k = 8, processor |")
    print("|---|---|---|---|---|")
    for name, cells in rows:
        print("| %s | %s |" % (name, " | ".join("%.0f" % cell for cell in cells)))


if __name__ == "__main__":
    main()
