#!/usr/bin/env python3
"""The instructions of a transfer's batcher against the number of records.

usage: python3 bench/batch.py [--program FILE]

It runs the program of bench/batch, which puts records of 30 octets into messages of up to 65,535 octets and takes out each message as soon as it is
ready, on 100,000 and on 1,000,000 records, and prints:

- the instructions of the whole run, by valgrind, and how many that is for one record;
- how many times those of the fewer records the more took, which ends the run with status 1 where it passes 10.5.

The program is no crate of the gate. Without `--program` a copy of the crates and their out/ folders gains it (bench/programs.py), where `rt run`
proves and builds it: a minute or two where the libraries below are built, else as long as that takes.
"""

import argparse
import re
import subprocess
import sys
import tempfile

from programs import build, needs

SIZES = [100_000, 1_000_000]

# How many times the instructions ten times as many records may take.
MOST = 10.5

# The octets of a message beside its records: the header and the question.
BEGINNING = 12 + len(b"\x07example\0") + 4

LIBRARIES = "xfr_batch dns_wire"


def said(records):
    """What the program says of so many records."""
    each = (65535 - BEGINNING) // 30
    return f"records {records} messages {-(-records // each)}\n"


def instructions(program, records):
    """The instructions of one run, whose line is looked at."""
    how = ["valgrind", "--tool=callgrind", "--callgrind-out-file=/dev/null", program, str(records)]
    done = subprocess.run(how, capture_output=True, text=True)
    if (done.returncode, done.stdout) != (0, said(records)):
        sys.exit(f"{how}: status {done.returncode}, {done.stdout}")
    return int(re.search(r"Collected : (\d+)", done.stderr)[1])


def main():
    parser = argparse.ArgumentParser(description=__doc__, formatter_class=argparse.RawDescriptionHelpFormatter)
    parser.add_argument("--program", help="the program, built before")
    asked = parser.parse_args()
    needs.programs("valgrind")
    with tempfile.TemporaryDirectory(prefix="bench-") as folder:
        program = asked.program or build("batch", LIBRARIES, folder)
        counted = [instructions(program, it) for it in SIZES]
    print(f"{'records':>8} {'instructions':>13} {'per record':>11} {'ratio':>6}")
    for records, count in zip(SIZES, counted):
        print(f"{records:>8} {count:>13} {count / records:>11.1f} {count / counted[0]:>6.2f}")
    if counted[1] > MOST * counted[0]:
        sys.exit(f"more than {MOST} times as many")


if __name__ == "__main__":
    main()
