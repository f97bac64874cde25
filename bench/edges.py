#!/usr/bin/env python3
"""Runs the built program on made traces at the limits, and compares its reports with what the rules say.

    bench/edges.py [PROGRAM]      PROGRAM is crates/spie/out/spie by default

The traces: 4,096 ticks that close a page of each router; 4,096 rotations of one router in one segment, with a record
in each page; and as many with a tick behind them. The reports are worked out here, from the rules on when pages close,
expire and stand in a window.
"""
import os
import subprocess
import sys
import time

HERE = os.path.dirname(os.path.abspath(__file__))
MOST = 4096
KEEP, AGE, WIDTH = 8, 5000, 100
SOURCE = "4500001c00010000401166ce0a0000010a0000020102030405060708"
SIGNATURE = "4500001c00010000001100000a0000010a0000020102030405060708"
NAMES = ["a", "b", "c"]
FRONT = 9


def front(span):
    lines = ["spie-trace 1", "shape 3 16 60000 %d %d %d %d 0123456789abcdef" % (span, KEEP, AGE, WIDTH)]
    lines += ["router a east", "router b east", "router c west", "link a b", "link b c", "begin"]
    return lines + ["packet " + SOURCE]


def pages_line(line, name, closings, clock, expired_at, now):
    """A router's pages in the window of a time, by when its pages closed."""
    count = len(closings)
    window = [p for p in range(count + 1)
              if (0 if p == 0 else closings[p - 1]) <= clock and (p == count or closings[p] >= max(0, clock - WIDTH))]
    gone = [p for p in window if p < expired_at and (p + 1 + KEEP <= expired_at or now - closings[p] >= AGE)]
    used = [p for p in window if p not in gone]
    expired = "%d-%d" % (gone[0], gone[-1]) if gone else "-"
    return "%d pages %s expired %s unreadable - used %s" % (line, name, expired, ",".join(map(str, used)) or "-")


def many_ticks():
    """Each tick closes the open page of each router, since the span is 1."""
    lines, report = front(1), ["spie-report 1"]
    for clock in range(1, MOST + 1):
        lines.append("tick %d" % clock)
        report.append("%d tick %d" % (len(lines), clock))
        report += ["%d closed %s %d 0" % (len(lines), name, clock - 1) for name in NAMES]
    lines.append("query a 0 %d" % MOST)
    here, closings = len(lines), list(range(1, MOST + 1))
    report.append("%d query" % here)
    report += [pages_line(here, name, closings, MOST, MOST, MOST) for name in NAMES]
    report += ["%d unknown a %s" % (here, SIGNATURE), "%d answer nodes 0 edges 0 unknown 1 clear 0" % here]
    lines.append("end")
    report.append("%d end" % len(lines))
    return lines, report


def many_rotations(ticks):
    """A record in each page of one router, and a rotation behind it."""
    lines, report = front(1000), ["spie-report 1"]
    for page in range(MOST):
        lines += ["fwd a 0", "rotate a"]
        report += ["%d in %d" % (len(lines) - 1, page), "%d opened %d" % (len(lines), page + 1)]
    lines.append("watch a 0")
    report.append("%d seen" % len(lines))
    if ticks:
        lines.append("tick 1")
        report.append("%d tick 1" % len(lines))
        lines.append("query a 0 1")
        here = len(lines)
        report.append("%d query" % here)
        report += [pages_line(here, name, [0] * MOST if name == "a" else [], 1, MOST if name == "a" else 0, 1) for name in NAMES]
        report += ["%d node a %s" % (here, SIGNATURE), "%d answer nodes 1 edges 0 unknown 0 clear 1" % here]
    lines.append("end")
    report.append("%d end" % len(lines))
    return lines, report


def main():
    program = sys.argv[1] if len(sys.argv) > 1 else os.path.join(HERE, "../crates/spie/out/spie")
    if not os.access(program, os.X_OK):
        sys.exit("no program at %s: build it first (bench/README.md)" % program)
    failed = 0
    for name, (lines, report) in [("4,096 ticks", many_ticks()), ("4,096 rotations", many_rotations(False)), ("and a tick", many_rotations(True))]:
        begin = time.perf_counter()
        done = subprocess.run([program, "replay", "1"], input="\n".join(lines + [""]).encode(), capture_output=True)
        seconds = time.perf_counter() - begin
        good = done.returncode == 0 and done.stdout.decode() == "\n".join(report + [""])
        failed += not good
        print("%s: %s, %.2f s" % (name, "as the rules say" if good else "NOT as the rules say", seconds))
        if not good:
            for number, (got, want) in enumerate(zip(done.stdout.decode().split("\n"), report)):
                if got != want:
                    print("  line %d: got %s, want %s" % (number + 1, got[:200], want[:200]))
                    break
    sys.exit(1 if failed else 0)


main()
