#!/usr/bin/env python3
"""Replays made traces with several workers, judges each report by the rules of receipts, and times the runs.

    bench/workers.py [PROGRAM]      PROGRAM is crates/spie/out/spie by default

Receipts are legal where, in each segment and for each router: every record's page is from the page that was open at the
segment's start to the last one that its rotations opened; the rotations open the next pages in order; and of two
records of the router that one worker did, the later line's page is not smaller. Record number j of a segment, counted
over all routers from 0, is done by worker j mod W. A watch may answer anything here but `unknown`, since no page of its window has expired.

Then it prints, for a million records in segments of 1,000 and of 100,000 lines and for W = 1, 2, 4: the best of five
runs in seconds by the clock, and the processor time of that run.
"""
import os
import subprocess
import sys
import tempfile
import time

RUNS = 5
HERE = os.path.dirname(os.path.abspath(__file__))


def packet(number):
    """A packet with its checksum left unset, in hex digits."""
    return "4500001c%04x0000401100000a%06x0a000002%016x" % (number % 65536, number, number)


def front(routers, packets):
    """The lines up to the packets: pages that no tick closes, and windows in which none has expired."""
    yield "spie-trace 1"
    yield "shape 3 16 65536 1000000 32 1000000 0 0123456789abcdef"
    for router in range(routers):
        yield "router r%d east" % router
    for router in range(routers - 1):
        yield "link r%d r%d" % (router, router + 1)
    yield "begin"
    for number in range(packets):
        yield "packet " + packet(number)


def judged_trace(routers=64, segments=200, records=500):
    """Segments of records over all routers, with rotations and watches of every router among them."""
    yield from front(routers, 1000)
    for segment in range(segments):
        for number in range(records):
            yield "fwd r%d %d" % (number * 5 % routers, (segment * 13 + number) % 1000)
            if number % 60 == 30:
                yield "rotate r%d" % ((number // 60 + segment) % routers)
            if number % 90 == 45:
                yield "watch r%d %d" % ((number // 90) % routers, number)
        yield "tick %d" % (segment + 1)
    yield "end"


def timed_trace(records, length):
    """Records over 64 routers in segments of this length."""
    yield from front(64, 1000)
    for number in range(records):
        yield "fwd r%d %d" % (number * 7 % 64, number % 1000)
        if number % length == length - 1:
            yield "tick %d" % (number // length + 1)
    yield "end"


def written(folder, name, lines):
    path = os.path.join(folder, name)
    with open(path, "w") as out:
        for line in lines:
            out.write(line + "\n")
    return path


def run(program, path, workers):
    """The report, the seconds by the clock and those of processor time."""
    with open(path, "rb") as stdin, tempfile.TemporaryFile() as stdout:
        begun = time.perf_counter()
        child = subprocess.Popen([program, "replay", str(workers)], stdin=stdin, stdout=stdout)
        _, status, usage = os.wait4(child.pid, 0)
        wall = time.perf_counter() - begun
        child.returncode = os.waitstatus_to_exitcode(status)
        if child.returncode != 0:
            sys.exit("%s replay %d ended with %d" % (program, workers, child.returncode))
        stdout.seek(0)
        return stdout.read().decode(), wall, usage.ru_utime + usage.ru_stime


class Segment:
    """What is known of one segment: records and rotations so far."""

    def __init__(self, open_pages):
        self.first = dict(open_pages)
        self.opened = {}
        self.pages = []
        self.records = 0
        self.last = {}


def fail(number, why):
    sys.exit("line %d: %s" % (number, why))


def judge(path, report, workers):
    """Judges a report line by line; the number of records."""
    with open(path) as text:
        lines = [line.split() for line in text]
    answers = [line.split() for line in report.splitlines()]
    if answers[0] != ["spie-report", "1"]:
        sys.exit("the report's first line is wrong")
    place, total = 1, 0
    open_pages = {}
    segment = Segment(open_pages)
    for number, line in enumerate(lines, 1):
        word = line[0]
        if word not in ("fwd", "rotate", "watch", "tick", "end"):
            continue
        answer = answers[place]
        place += 1
        if int(answer[0]) != number:
            fail(number, "is not answered in its place")
        if word == "fwd":
            router, page, worker = line[1], int(answer[2]), segment.records % workers
            if answer[1] != "in" or page < segment.last.get((worker, router), 0):
                fail(number, "the page falls")
            segment.last[worker, router] = page
            segment.pages.append((number, router, page))
            segment.records += 1
            total += 1
        elif word == "rotate":
            router = line[1]
            segment.opened[router] = segment.opened.get(router, 0) + 1
            if answer[1:] != ["opened", str(segment.first.get(router, 0) + segment.opened[router])]:
                fail(number, "does not open the next page")
        elif word == "watch":
            if answer[1] not in ("seen", "not-seen"):
                fail(number, "is not answered by seen or not-seen")
        else:
            if answer[1:] != line:
                fail(number, "is not printed")
            for at, router, page in segment.pages:
                first = segment.first.get(router, 0)
                if not first <= page <= first + segment.opened.get(router, 0):
                    fail(at, "the page was not open in its segment")
            for router, opened in segment.opened.items():
                open_pages[router] = segment.first.get(router, 0) + opened
            segment = Segment(open_pages)
    if place != len(answers):
        sys.exit("the report has lines too many")
    return total


def main():
    program = os.path.abspath(sys.argv[1]) if len(sys.argv) > 1 else os.path.join(HERE, "../crates/spie/out/spie")
    with tempfile.TemporaryDirectory() as folder:
        path = written(folder, "judged", judged_trace())
        for workers in (1, 2, 4, 16):
            report, _, _ = run(program, path, workers)
            print("replay %-2d: the receipts of %d records are legal" % (workers, judge(path, report, workers)))
        for length in (1000, 100000):
            path = written(folder, "timed", timed_trace(1000000, length))
            for workers in (1, 2, 4):
                best = min((run(program, path, workers)[1:] for _ in range(RUNS)))
                print("segments of %-6d replay %d: %.3f s by the clock, %.3f s of processor time" % (length, workers, *best))


if __name__ == "__main__":
    main()
