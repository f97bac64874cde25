#!/usr/bin/env python3
"""Runs the built program at each limit of docs/FORMATS.md, and tells what each costs.

    bench/limits.py [PROGRAM]      PROGRAM is crates/spie/out/spie by default

For each input: its bytes and those of its report, seconds of processor time, how much of the time `sha256sum` takes for
both, and the peak of memory. A run that doesn't end with status 0 is told, and fails the script. Inputs and reports
stand in a temporary folder, of some 250 MB at most, and are removed. What the reports say is not looked at here.
"""
import os
import subprocess
import sys
import tempfile

HERE = os.path.dirname(os.path.abspath(__file__))
MOST_BYTES = 67108864
SHAPE = "shape 3 16 60000 100 8 5000 100 0123456789abcdef"


def packet(number):
    """A packet with its checksum left unset, in hex digits."""
    return "4500001c%04x0000401100000a%06x0a000002%016x" % (number % 65536, number, number)


def front(out, routers, links):
    out.write("spie-trace 1\n%s\n" % SHAPE)
    for router in range(routers):
        out.write("router r%d g%d\n" % (router, router % 16))
    for one, other in links:
        out.write("link r%d r%d\n" % (one, other))
    out.write("begin\n")


def in_a_line(routers):
    return [(router, router + 1) for router in range(routers - 1)]


def close_by():
    """512 links between 64 routers: each with the eight behind it."""
    return [(one, (one + step) % 64) for step in range(1, 9) for one in range(64)]


def packets(out, count):
    for number in range(count):
        out.write("packet %s\n" % packet(number))


def all_bytes(out):
    front(out, 1, [])
    packets(out, 1)
    out.write("fwd r0 0\n")
    room = MOST_BYTES - out.tell() - len("end\n")
    watch = "watch r0 0\n"
    out.write(watch * (room // len(watch)))
    out.write("end\n")


def long_lines(out):
    """Packets as long as a line takes them, 1,500 bytes, up to the limit on packets or bytes."""
    front(out, 1, [])
    for number in range(22000):
        body = "450005dc%04x0000401100000a%06x0a000002" % (number % 65536, number)
        out.write("packet %s\n" % (body + "%08x" % number * 370))
    out.write("end\n")


def many_packets(out):
    front(out, 1, [])
    packets(out, 65536)
    out.write("end\n")


def many_records(out):
    front(out, 64, in_a_line(64))
    packets(out, 65536)
    for number in range(1000000):
        out.write("fwd r%d %d\n" % (number * 7 % 64, number % 65536))
    out.write("query r0 0 0\nend\n")


def many_rotations(out):
    front(out, 64, in_a_line(64))
    packets(out, 1)
    for number in range(4096):
        out.write("fwd r%d 0\nrotate r%d\n" % (number % 64, number % 64))
    out.write("query r0 0 0\nend\n")


def many_ticks(out):
    """Each tick closes a page of each router."""
    front(out, 64, in_a_line(64))
    packets(out, 1)
    for number in range(4096):
        out.write("fwd r%d 0\ntick %d\n" % (number % 64, (number + 1) * 100))
    out.write("query r0 0 %d\nend\n" % (4096 * 100))


def many_archivals(out):
    """Each tick closes a page of each router, and each is archived."""
    front(out, 64, in_a_line(64))
    packets(out, 1)
    for number in range(4096):
        out.write("archive r%d\ntick %d\n" % (number % 64, (number + 1) * 100))
    out.write("query r0 0 %d\nend\n" % (4096 * 100))


def many_queries(out):
    """Each query finds all routers, over all links."""
    front(out, 64, close_by())
    packets(out, 1)
    for router in range(64):
        out.write("fwd r%d 0\n" % router)
    out.write("query r0 0 0\n" * 256)
    out.write("end\n")


def transforms_of_one(out):
    """All records are transforms into one packet, from as many others as there may be."""
    front(out, 64, close_by())
    packets(out, 65536)
    for number in range(1000000):
        out.write("xf r0 nat %d 0\n" % (1 + number % 65535))
    out.write("query r0 0 0\nend\n")


def chain_of_transforms(out):
    """Each packet becomes the next one, router by router around a ring; 256 queries ask at its end."""
    routers = 16
    front(out, routers, [(router, (router + 1) % routers) for router in range(routers)])
    packets(out, 65536)
    for number in range(65535):
        out.write("xf r%d nat %d %d\n" % (number % routers, number, number + 1))
    out.write("query r%d 65535 0\n" % (65534 % routers) * 256)
    out.write("end\n")


def watches_of_pages(out):
    """As many watches as fit, each over the pages of a window."""
    front(out, 64, [])
    packets(out, 2)
    for page in range(8):
        out.write("fwd r0 0\nrotate r0\n")
    watch = "watch r0 1\n"
    out.write(watch * 1000000)
    out.write("end\n")


LIMITS = [
    ("67,108,864 bytes, a watch for each line", all_bytes),
    ("22,000 packets of 1,500 bytes", long_lines),
    ("65,536 packets", many_packets),
    ("1,000,000 records of 65,536 packets", many_records),
    ("4,096 rotations", many_rotations),
    ("4,096 ticks, 64 pages each", many_ticks),
    ("4,096 ticks and archivals", many_archivals),
    ("256 queries, 512 links", many_queries),
    ("1,000,000 transforms into one packet", transforms_of_one),
    ("chain of 65,535 transforms, 256 queries", chain_of_transforms),
    ("1,000,000 watches over nine pages", watches_of_pages),
]


def timed(command, source, target):
    """Status, seconds of processor time and peak in bytes of one run."""
    with open(source, "rb") as given, open(target, "wb") as written:
        child = subprocess.Popen(command, stdin=given, stdout=written, stderr=subprocess.DEVNULL)
        _, status, used = os.wait4(child.pid, 0)
        child.returncode = os.waitstatus_to_exitcode(status)
    return child.returncode, used.ru_utime + used.ru_stime, used.ru_maxrss * 1024


def main():
    program = sys.argv[1] if len(sys.argv) > 1 else os.path.join(HERE, "../crates/spie/out/spie")
    if not os.access(program, os.X_OK):
        sys.exit("no program at %s: build it first (bench/README.md)" % program)
    failed = 0
    with tempfile.TemporaryDirectory() as folder:
        source, report, none = (os.path.join(folder, name) for name in ("trace", "report", "none"))
        for name, make in LIMITS:
            with open(source, "w") as out:
                make(out)
            status, seconds, peak = timed([program, "replay", "1"], source, report)
            beside = sum(timed(["sha256sum"], path, none)[1] for path in (source, report))
            failed += status != 0
            print("%s: status %d, %d bytes, report of %d, %.2f s, %.1f times sha256sum, peak %d MB"
                  % (name, status, os.path.getsize(source), os.path.getsize(report), seconds, seconds / max(beside, 0.001), peak // 1000000), flush=True)
    sys.exit(1 if failed else 0)


main()
