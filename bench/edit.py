#!/usr/bin/env python3
"""Time and peak memory of one edit and its commit against the number of sets in the zone.

usage: python3 bench/edit.py [--program FILE] [--runs N] [--edits N]

It runs the program of bench/edits on zones of 1,000, 10,000 and 100,000 sets beside the SOA, without edits and with so
many. An edit adds one address, at an old name and at a new one in turn; its commit counts the SOA's serial on and tells the difference.

It prints, for each size of zone:

- the time in which the program makes and opens the zone, and that of one edit with its commit;
- resident memory at its peak without edits and with them, and how much more the edits took;

beside each how many times that of the smallest zone it is. What grows with the zone: the first edit behind a commit copies the list of a
version's pages, a counted pointer for each 256 names or fewer, and a commit that counts the serial on copies it once more; pages, nodes and
records are shared. The difference, and DS sets to leave out, are looked for at the keys that edits touched. Time is the processor's, the least of
the runs; so short a time wants many edits (`--edits 8000`). Only ratios say something on another machine.

The program is no crate of the gate. Without `--program` a copy of the crates and their out/ folders gains it (bench/programs.py), where `rt run`
proves and builds it: a few minutes where the libraries below are built, else as long as that takes.
"""

import argparse
import os
import subprocess
import sys
import tempfile

from programs import build, needs

LIBRARIES = "published zone_sessions zone_reads zone_diffs zone_versions zone_values zone_model dns_rdata dns_name dns_numbers thiserror"
SIZES = [1_000, 10_000, 100_000]


def peak_memory(how, edits):
    """The peak memory in KB of one run, whose line is looked at. A child of this process would count what this one has before it starts."""
    done = subprocess.run(["/usr/bin/time", "-f", "%M", *how], capture_output=True)
    # Each commit adds the address and the new SOA record, and removes the old one.
    if (done.returncode, done.stdout) != (0, b"version %d added %d removed %d\n" % (edits, 2 * edits, edits)):
        sys.exit(f"{how}: status {done.returncode}, {done.stdout}")
    return int(done.stderr.split()[-1])


def processor_time(how):
    """The processor time in seconds of one run."""
    child = subprocess.Popen(how, stdout=subprocess.DEVNULL)
    _, _, usage = os.wait4(child.pid, 0)
    child.returncode = 0
    return usage.ru_utime + usage.ru_stime


def measured(program, sets, edits, runs):
    """The least time of some runs, and the memory of one."""
    how = [program, str(sets), str(edits)]
    peak = peak_memory(how, edits)
    return min(processor_time(how) for _ in range(runs)), peak


def row(program, sets, asked):
    """What a zone of so many sets takes to open, one edit of it, and the memory of both."""
    opened, before = measured(program, sets, 0, asked.runs)
    edited, after = measured(program, sets, asked.edits, asked.runs)
    return opened * 1e3, (edited - opened) / asked.edits * 1e3, before, after, after - before


def main():
    parser = argparse.ArgumentParser(description=__doc__, formatter_class=argparse.RawDescriptionHelpFormatter)
    parser.add_argument("--program", help="the program, built before")
    parser.add_argument("--runs", type=int, default=5, help="runs for each number, of which the least time counts")
    parser.add_argument("--edits", type=int, default=20)
    asked = parser.parse_args()
    needs.programs("/usr/bin/time")
    with tempfile.TemporaryDirectory(prefix="bench-") as folder:
        program = asked.program or build("edits", LIBRARIES, folder)
        rows = [row(program, sets, asked) for sets in SIZES]
    titles = ["open, ms", "one edit, ms", "KB, no edits", f"KB, {asked.edits} edits", "KB more"]
    print(f"{'sets':>8}" + "".join(f"{it:>14} {'ratio':>7}" for it in titles))
    for sets, found in zip(SIZES, rows):
        print(f"{sets:>8}" + "".join(f"{value:>14.3f} {ratio(value, base)}" for value, base in zip(found, rows[0])))


def ratio(value, base):
    return f"{value / base:7.2f}" if base > 0 else "      -"


if __name__ == "__main__":
    main()
