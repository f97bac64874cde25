#!/usr/bin/env python3
"""Refuses memory to the built program, one growth at a time, and tells how many growths each trace has.

    bench/refused_memory.py [PROGRAM [NAME W]..]      PROGRAM is crates/spie/out/spie by default

The program is run again and again over each trace, and the Nth of its calls of `malloc` and `realloc` gets nothing, for
N = 1, 2, .. until that call never comes. Each run has to end with status 6 and write nothing, or with status 0 and the
report; and with status 6 standard error says why. With several workers the order of growths differs from run to run, and any
legal report counts: what is compared is its last line. Needs Linux with glibc, and `cc`.
"""
import os
import subprocess
import sys
import tempfile

HERE = os.path.dirname(os.path.abspath(__file__))
TRACES = [("three_in_a_line", 1), ("fragments", 1), ("expired_is_unknown", 1), ("expiry_on_the_shelf", 1), ("sixteen_records", 4)]
DONE, NO_MEMORY = 0, 6
ENOUGH = 20

# Stands before the C library: refuses one growth, and at the end writes how many there were.
REFUSING = r"""
#include <stdatomic.h>
#include <stdlib.h>
#include <stdio.h>
#include <unistd.h>
#include <fcntl.h>
void *__libc_malloc(size_t);
void *__libc_realloc(void *, size_t);
static atomic_long calls;
static long refused = -1;
static int is_refused(void) {
    if (refused == -1) {
        const char *word = getenv("REFUSED");
        refused = word ? atol(word) : 0;
    }
    return atomic_fetch_add(&calls, 1) + 1 == refused;
}
void *malloc(size_t size) { return is_refused() ? NULL : __libc_malloc(size); }
void *realloc(void *old, size_t size) { return is_refused() ? NULL : __libc_realloc(old, size); }
static void tell(void) {
    char text[32];
    int length = snprintf(text, sizeof text, "%ld", (long) calls);
    int file = open(getenv("TELL"), O_WRONLY | O_CREAT | O_TRUNC, 0600);
    if (file >= 0) { ssize_t written = write(file, text, length); (void) written; close(file); }
}
void _exit(int status) { tell(); _Exit(status); for (;;) ; }
__attribute__((destructor)) static void at_end(void) { tell(); }
"""


def trace_of(name):
    for folder in ("../examples", "../crates/run_rows/data"):
        path = os.path.join(HERE, folder, name + ".trace")
        if os.path.exists(path):
            return path
    sys.exit("no trace of the name %s" % name)


class Runs:
    """Runs of one program over one trace."""

    def __init__(self, program, library, name, workers):
        self.words = [program, "replay", str(workers)]
        self.path = trace_of(name)
        self.told = os.path.join(os.path.dirname(library), "told")
        self.around = dict(os.environ, LD_PRELOAD=library, TELL=self.told)
        self.workers = workers

    def run(self, refused):
        """Status, output, what standard error says, and how many growths there were; None for a run that didn't end."""
        with open(self.path, "rb") as given:
            try:
                done = subprocess.run(
                    self.words, stdin=given, capture_output=True, timeout=60, env=dict(self.around, REFUSED=str(refused)))
            except subprocess.TimeoutExpired:
                return None
        with open(self.told) as told:
            return done.returncode, done.stdout, done.stderr, int(told.read())

    def is_report(self, output, whole):
        return output == whole if self.workers == 1 else output.splitlines()[-1:] == whole.splitlines()[-1:]

    def tried(self):
        """How many growths the trace has, or what went wrong."""
        status, whole, _, _ = self.run(0)
        if status != DONE:
            return "status %d where no memory is refused" % status
        refused, past = 0, 0
        while past < (1 if self.workers == 1 else ENOUGH):
            refused += 1
            got = self.run(refused)
            if got is None:
                return "growth %d: the run did not end" % refused
            status, output, said, growths = got
            past = past + 1 if growths < refused else 0
            if status == NO_MEMORY and output == b"" and said != b"":
                continue
            if status == DONE and self.is_report(output, whole):
                continue
            return "growth %d: status %d, %d bytes written, standard error %r" % (refused, status, len(output), said)
        return refused - past


def main():
    program = os.path.abspath(sys.argv[1]) if len(sys.argv) > 1 else os.path.join(HERE, "..", "crates", "spie", "out", "spie")
    if not os.access(program, os.X_OK):
        sys.exit("no program at %s: build it first (bench/README.md)" % program)
    given = sys.argv[2:]
    traces = list(zip(given[::2], map(int, given[1::2]))) if given else TRACES
    failed = 0
    with tempfile.TemporaryDirectory() as folder:
        source, library = os.path.join(folder, "refusing.c"), os.path.join(folder, "refusing.so")
        with open(source, "w") as out:
            out.write(REFUSING)
        subprocess.run(["cc", "-O2", "-shared", "-fPIC", "-o", library, source], check=True)
        for name, workers in traces:
            growths = Runs(program, library, name, workers).tried()
            failed += isinstance(growths, str)
            print("%s, W = %d: %s" % (name, workers, growths if isinstance(growths, str) else "%d growths" % growths), flush=True)
    sys.exit(1 if failed else 0)


main()
