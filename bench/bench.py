#!/usr/bin/env python3
"""Times the built program on made traces, beside sha256sum over the same file.

    bench/bench.py [PROGRAM]      PROGRAM is crates/spie/out/spie by default

For each input: its lines and bytes, the best of seven runs of each program in seconds of processor time, their
ratio, the program's peak memory, and that peak less the input and the report, per line. Inputs are made in a
temporary folder and removed.
"""
import os
import subprocess
import sys
import tempfile

ROUTERS = 64
RUNS = 7
HERE = os.path.dirname(os.path.abspath(__file__))


def packet(number):
    """A packet with its checksum left unset, in hex digits."""
    return "4500001c%04x0000401100000a%06x0a000002%016x" % (number % 65536, number, number)


def front(out, routers=ROUTERS, shape="3 16 60000 100 8 5000 100"):
    out.write("spie-trace 1\nshape %s 0123456789abcdef\n" % shape)
    for router in range(routers):
        out.write("router r%d east\n" % router)
    for router in range(routers - 1):
        out.write("link r%d r%d\n" % (router, router + 1))
    out.write("begin\n")


def forwards(out, records):
    """Records of 1,000 packets, spread over the routers, and one query."""
    front(out)
    for number in range(1000):
        out.write("packet %s\n" % packet(number))
    for number in range(records):
        out.write("fwd r%d %d\n" % (number * 7 % ROUTERS, number % 1000))
    out.write("query r0 0 0\nend\n")


def ticks(out, records):
    """The same with a tick each 1,000 records: every 100 ticks each router's page closes."""
    front(out)
    for number in range(1000):
        out.write("packet %s\n" % packet(number))
    for number in range(records):
        out.write("fwd r%d %d\n" % (number * 7 % ROUTERS, number % 1000))
        if number % 1000 == 999:
            out.write("tick %d\n" % (number // 1000 + 1))
    out.write("query r0 0 0\nend\n")


def watches(out, count):
    """As many watches as the other inputs have records, of packets that were recorded and of others."""
    front(out)
    for number in range(1000):
        out.write("packet %s\n" % packet(number))
    for number in range(500):
        out.write("fwd r%d %d\n" % (number * 7 % ROUTERS, number))
    for number in range(count):
        out.write("watch r%d %d\n" % (number * 7 % ROUTERS, number % 1000))
    out.write("query r0 0 0\nend\n")


def rotations(out, count):
    """Rotations of one router, with a record before each, and a query."""
    front(out)
    out.write("packet %s\n" % packet(0))
    for number in range(count):
        out.write("fwd r0 0\nrotate r0\n")
    out.write("query r0 0 0\nend\n")


def archives(out, count):
    """Rotations, each with an archival, over all routers in turn, a tick for each round, and a query of the last pages."""
    front(out, ROUTERS, "3 16 60000 5000 32 100000 10")
    out.write("packet %s\n" % packet(0))
    for round_ in range(count // ROUTERS):
        for router in range(ROUTERS):
            out.write("fwd r%d 0\nrotate r%d\narchive r%d\n" % (router, router, router))
        out.write("tick %d\n" % (round_ + 1))
    out.write("query r0 0 %d\nend\n" % (count // ROUTERS))


def changes(out, records, word="xf"):
    """Transforms of 30,000 packets into as many others at four routers, or the same as records, and 256 queries."""
    front(out, 4)
    for number in range(60000):
        out.write("packet %s\n" % packet(number))
    for number in range(records):
        new = number % 30000
        if word == "xf":
            out.write("xf r%d nat %d %d\n" % (number % 4, 30000 + number * 7 % 30000, new))
        else:
            out.write("fwd r%d %d\n" % (number % 4, new))
    for number in range(256):
        out.write("query r%d %d 0\n" % (number % 4, number))
    out.write("end\n")


def chains(out, queries):
    """Packets that every router of the line forwarded, and a query for each at the last."""
    front(out)
    for number in range(queries):
        out.write("packet %s\n" % packet(number))
    for number in range(queries):
        for router in range(ROUTERS):
            out.write("fwd r%d %d\n" % (router, number))
    for number in range(queries):
        out.write("query r%d %d 0\n" % (ROUTERS - 1, number))
    out.write("end\n")


def many_packets(out, records):
    """Records of 30,000 packets at four routers, 60,000 packets in all, and 256 queries."""
    changes(out, records, "fwd")


def long_packets(out, packets):
    """Packets of 500 bytes, one record, and one query."""
    front(out, 1)
    for number in range(packets):
        out.write("packet 450001f4%s%s\n" % (packet(number)[8:], "%02x" % (number % 256) * 472))
    out.write("fwd r0 0\nquery r0 0 0\nend\n")


def timed(command, source):
    """Seconds of processor time and peak memory in bytes of one run."""
    with open(source, "rb") as stdin, open(os.devnull, "wb") as stdout:
        child = subprocess.Popen(command, stdin=stdin, stdout=stdout)
        _, status, usage = os.wait4(child.pid, 0)
    seconds = usage.ru_utime + usage.ru_stime
    child.returncode = os.waitstatus_to_exitcode(status)
    if child.returncode != 0:
        sys.exit("%s ended with %d" % (command[0], child.returncode))
    return seconds, usage.ru_maxrss * 1024


def measure(name, program, source, shelf=()):
    command = [program, "replay", "1", *shelf]
    size = os.path.getsize(source)
    with open(source, "rb") as text:
        lines = sum(1 for _ in text)
    with open(source, "rb") as stdin:
        report = len(subprocess.run(command, stdin=stdin, capture_output=True).stdout)
    runs = [timed(command, source) for _ in range(RUNS)]
    hashes = [timed(["sha256sum"], source) for _ in range(RUNS)]
    own, other = min(run[0] for run in runs), min(run[0] for run in hashes)
    peak = max(run[1] for run in runs)
    print("%-16s %9d %10d %8.3f %8.3f %6.1f %7.1f MB %6.1f" % (
        name, lines, size, own, other, own / other, peak / 1e6, (peak - size - report) / lines))


def main():
    program = sys.argv[1] if len(sys.argv) > 1 else os.path.join(HERE, "..", "crates", "spie", "out", "spie")
    if not os.access(program, os.X_OK):
        sys.exit("no program at %s: build it first (bench/README.md)" % program)
    print("%-16s %9s %10s %8s %8s %6s %10s %6s" % ("input", "lines", "bytes", "spie", "sha256", "ratio", "peak", "B/line"))
    cases = [("fwd 10^%d" % power, forwards, 10 ** power) for power in (4, 5, 6)]
    cases += [("ticks 10^6", ticks, 10 ** 6), ("watches 10^6", watches, 10 ** 6), ("rotations 4096", rotations, 4096)]
    cases += [("xf 10^%d" % power, changes, 10 ** power) for power in (4, 5, 6)]
    cases += [("queries %d" % count, chains, count) for count in (16, 64, 256)]
    cases += [("60,000 packets", many_packets, 10 ** 6), ("long packets", long_packets, 62000)]
    with tempfile.TemporaryDirectory() as folder:
        for name, make, count in cases:
            source = os.path.join(folder, "trace")
            with open(source, "w") as out:
                make(out, count)
            measure(name, program, source)
        source, pages = os.path.join(folder, "trace"), os.path.join(folder, "pages")
        os.mkdir(pages)
        with open(source, "w") as out:
            archives(out, 4096)
        measure("archives 4096", program, source)
        measure("in a folder", program, source, [pages])


if __name__ == "__main__":
    main()
