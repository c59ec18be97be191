#!/usr/bin/env python3
"""What one read costs, of a reader of `published` with nothing newer, beside others' ways.

usage: python3 bench/readers.py [--program FILE] [--runs N] [--reads N] [--threads N..] [--idle]

It runs the program of bench/readers, in which so many threads each read one entry so often, and nothing newer comes. The ways:

- refresh: `Reader::refresh` and `held`, which copy nothing; read: `Reader::read`, which gives a copy;
- enter: `enter` of `left_right` and leaving, over which `published` stands;
- rwlock, mutex: a counted pointer under such a lock, cloned and dropped; cached: the same mutex, taken only where an atomic number before it has changed
  (as arc-swap's cache does it).

It prints, for each way and each number of threads, the processor's nanoseconds for one read, how many million reads a second all threads made together,
and how many times those of one thread this is. Each is the best of the runs, without what a run takes that reads nothing.

The run ends with status 1 where one thread's refresh takes more than 1.5 times what enter takes, or its read more than 2 times what rwlock takes; with
`--idle`, which says that the machine does nothing else, also where refresh by N threads, for N no greater than the number of processors, makes less than
0.9 N times the reads of one.

The program is no crate of the gate. Without `--program` a copy of the crates and their out/ folders gains it (bench/programs.py), where `rt run`
proves and builds it: a few minutes where the libraries below are built, else as long as that takes.
"""

import argparse
import os
import re
import subprocess
import sys
import tempfile
import time

from programs import build

LIBRARIES = "published left_right crossbeam_utils"
WAYS = ["refresh", "read", "enter", "rwlock", "mutex", "cached"]


def processors():
    """How many there are, and what they call themselves."""
    with open("/proc/cpuinfo", encoding="utf-8") as it:
        name = re.search(r"^model name\s*: (.*)$", it.read(), re.M)
    return len(os.sched_getaffinity(0)), name[1] if name else "unknown"


def times(program, way, threads, reads):
    """The processor's and the clock's seconds of one run, whose line is looked at."""
    how = [program, way, str(threads), str(reads)]
    begun = time.monotonic()
    child = subprocess.Popen(how, stdout=subprocess.PIPE)
    said = child.stdout.read()
    _, status, usage = os.wait4(child.pid, 0)
    passed = time.monotonic() - begun
    child.returncode = 0
    if (status, said) != (0, b"sum %d\n" % (threads * reads)):
        sys.exit(f"{how}: status {status}, {said}")
    return usage.ru_utime + usage.ru_stime, passed


def measured(program, way, threads, asked):
    """Nanoseconds of the processor for one read, and million reads a second."""
    idle = [times(program, way, threads, 0) for _ in range(asked.runs)]
    busy = [times(program, way, threads, asked.reads) for _ in range(asked.runs)]
    worked, passed = (min(it[at] for it in busy) - min(it[at] for it in idle) for at in range(2))
    every = threads * asked.reads
    return worked / every * 1e9, every / passed / 1e6


def wrong(found, asked, count):
    """What is more, or less, than is wanted."""
    cost = {way: found[way, 1][0] for way in WAYS if (way, 1) in found}
    if cost:
        yield cost["refresh"] <= 1.5 * cost["enter"], "refresh takes more than 1.5 times what enter takes"
        yield cost["read"] <= 2 * cost["rwlock"], "read takes more than 2 times what rwlock takes"
    for threads in [it for it in asked.threads if asked.idle and cost and it <= count]:
        whole = threads * found["refresh", 1][1]
        yield found["refresh", threads][1] >= 0.9 * whole, f"refresh by {threads} threads makes less than 0.9 of {threads} times the reads of one"


def main():
    parser = argparse.ArgumentParser(description=__doc__, formatter_class=argparse.RawDescriptionHelpFormatter)
    parser.add_argument("--program", help="the program, built before")
    parser.add_argument("--runs", type=int, default=5, help="runs for each number, of which the best counts")
    parser.add_argument("--reads", type=int, default=4_000_000, help="how often each thread reads")
    parser.add_argument("--threads", type=int, nargs="+", default=[1, 2, 4])
    parser.add_argument("--idle", action="store_true", help="the machine does nothing else")
    asked = parser.parse_args()
    count, name = processors()
    print(f"{count} processors: {name}")
    with tempfile.TemporaryDirectory(prefix="bench-") as folder:
        program = asked.program or build("readers", LIBRARIES, folder)
        found = {(way, threads): measured(program, way, threads, asked) for way in WAYS for threads in asked.threads}
    print(f"{'way':<8} {'threads':>7} {'ns a read':>10} {'million a second':>17} {'times one':>10}")
    for (way, threads), (cost, rate) in found.items():
        base = found.get((way, 1))
        ratio = f"{rate / base[1]:.2f}" if base else "-"
        print(f"{way:<8} {threads:>7} {cost:>10.1f} {rate:>17.2f} {ratio:>10}")
    bad = [said for is_right, said in wrong(found, asked, count) if not is_right]
    if bad:
        sys.exit("\n".join(bad))


if __name__ == "__main__":
    main()
