#!/usr/bin/env python3
"""Time, instructions and peak memory of `zonesync gen N SEED` against the number of hosts, and where the instructions go.

usage: python3 bench/generated.py [--program FILE] [--runs N] [--seed N] [--shares N]

It runs the program that `rt run` built in crates/zonesync on zones of 1,000, 10,000 and 100,000 hosts: each is drawn and opened, signed and sent
whole over a link in memory, checked, put into an empty zone, counted, and compared with what was sent.

It prints

- for each number the processor's time, the least of the runs, instructions, and resident memory at its peak, each also per record, with how many
  times n log n each grew from the number before (1.0 says in proportion to it);
- for one number (10,000) the share of each step in the instructions, and the functions that take most.

Instructions come from valgrind, and are left out where there is none. What is printed holds for one machine and one build: only ratios say
something elsewhere.
"""

import argparse
import collections
import math
import os
import subprocess
import sys
import tempfile

from programs import needs
from transfer import HAS_VALGRIND, TOP, self_counts

SIZES = [1_000, 10_000, 100_000]

# The first whose text is in a chain of functions, innermost first, has its instructions.
STEPS = [
    ("HMAC", ("sha2::", "tsig_port::signature", "tsig_keys::digests")),
    ("giving memory back", ("::destroy", "drop")),
    ("making and opening the zone", ("zone_generated::",)),
    ("inserting", ("zone_sessions::", "zone_versions::tree", "xfr_client::updater")),
    ("composing", ("zone_sync::sync::serve", "zone_sync::sync::send_replies", "xfr_server::", "xfr_replies::", "xfr_services::", "xfr_signing::", "xfr_batch::")),
    ("reading replies", ("zone_sync::sync::take_replies", "xfr_client::", "dns_message::", "dns_wire::")),
    ("comparing and counting", ("zone_report::", "zone_reads::comparing")),
]


def step_of(chain):
    """The step that a chain of functions belongs to."""
    for step, marks in STEPS:
        if any(mark in chain for mark in marks):
            return step
    return "other"


def records(count, seed):
    """How many RRsets and records the zone has: its draws, by a count of their own."""
    hosts, pairs, draw = set(), set(), seed
    for _ in range(count):
        draw = (draw * 6364136223846793005 + 1442695040888963407) % 2**64
        host = (draw >> 33) % count
        hosts.add(host)
        pairs.add((host, draw >> 32))
    return len(hosts) + 2, len(pairs) + 2


class Bench:
    """Runs of the program on zones of one seed."""

    def __init__(self, program, folder, seed, runs):
        self.program = program
        self.folder = folder
        self.seed = seed
        self.runs = runs

    def words(self, count):
        return [self.program, "gen", str(count), str(self.seed)]

    def checked(self, count):
        """The peak of resident memory in KB of one run, whose report is looked at."""
        how = ["/usr/bin/time", "-f", "%M", *self.words(count)]
        done = subprocess.run(how, stdin=subprocess.DEVNULL, capture_output=True)
        sets, all_records = records(count, self.seed)
        if (done.returncode, done.stdout) != (0, b"updated 1\nsets %d\nrecords %d\nsame yes\n" % (sets, all_records)):
            sys.exit(f"gen {count} {self.seed}: status {done.returncode}, {done.stdout}")
        return int(done.stderr.split()[-1]), all_records

    def time(self, count):
        """The least processor time in seconds of the runs."""
        times = []
        for _ in range(self.runs):
            child = subprocess.Popen(self.words(count), stdin=subprocess.DEVNULL, stdout=subprocess.DEVNULL)
            _, _, usage = os.wait4(child.pid, 0)
            child.returncode = 0
            times.append(usage.ru_utime + usage.ru_stime)
        return min(times)

    def counted(self, count, callers):
        """The instructions of a run, by the chain of functions that they were counted in, innermost first."""
        out = f"{self.folder}/counts"
        how = ["valgrind", "--tool=callgrind", f"--callgrind-out-file={out}", f"--separate-callers={callers}", *self.words(count)]
        subprocess.run(how, stdin=subprocess.DEVNULL, stdout=subprocess.DEVNULL, stderr=subprocess.DEVNULL, check=True)
        return self_counts(out)


def growth(now, before):
    """How many times n log n something grew from one number to the next, or a dash."""
    if before is None or not before[1]:
        return "      -"
    (count, value), (old_count, old) = now, before
    return f"{value / old / (count * math.log(count) / (old_count * math.log(old_count))):7.2f}"


def table(bench):
    print(f"{'hosts':>8} {'records':>8} {'ms':>10} {'growth':>7} {'instructions':>15} {'each':>8} {'growth':>7} {'KB':>8} {'octets each':>11}")
    before = None
    for count in SIZES:
        peak, all_records = bench.checked(count)
        taken = bench.time(count)
        instructions = sum(bench.counted(count, 0).values()) if HAS_VALGRIND else 0
        told = [growth((count, taken), before and (before[0], before[1])), growth((count, instructions), before and (before[0], before[2]))]
        each = instructions / all_records
        print(
            f"{count:>8} {all_records:>8} {taken * 1e3:>10.1f} {told[0]} {instructions:>15,} {each:>8,.0f} {told[1]} {peak:>8} {peak * 1024 / all_records:>11.0f}",
            flush=True,
        )
        before = (count, taken, instructions)


def shares(bench, count):
    if not HAS_VALGRIND:
        print("no valgrind: no shares")
        return
    counts = bench.counted(count, 40)
    total = sum(counts.values())
    all_records = records(count, bench.seed)[1]
    steps, functions = collections.Counter(), collections.Counter()
    for chain, cost in counts.items():
        steps[step_of(chain)] += cost
        functions[chain.split("'")[0]] += cost
    print(f"{'step, of ' + str(count) + ' hosts':<32} {'share':>6} {'instructions/record':>20}")
    for step, cost in steps.most_common():
        print(f"{step:<32} {100 * cost / total:>5.1f}% {cost / all_records:>20,.0f}")
    print("the functions that take most")
    for function, cost in functions.most_common(12):
        print(f"{100 * cost / total:>6.1f}%  {function}")


def main():
    parser = argparse.ArgumentParser(description=__doc__, formatter_class=argparse.RawDescriptionHelpFormatter)
    parser.add_argument("--program", default=f"{TOP}/crates/zonesync/out/zonesync")
    parser.add_argument("--runs", type=int, default=5, help="runs for each time, of which the least counts")
    parser.add_argument("--seed", type=int, default=7)
    parser.add_argument("--shares", type=int, default=10_000, help="the number of hosts whose instructions are told by step")
    asked = parser.parse_args()
    needs.file(asked.program, "run rt run in crates/zonesync first")
    needs.programs("/usr/bin/time")
    with tempfile.TemporaryDirectory(prefix="bench-") as folder:
        bench = Bench(os.path.abspath(asked.program), folder, asked.seed, asked.runs)
        table(bench)
        print()
        shares(bench, asked.shares)


if __name__ == "__main__":
    main()
