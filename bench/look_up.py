#!/usr/bin/env python3
"""The time of one question against the number of names in the zone.

usage: python3 bench/look_up.py [--program FILE] [--runs N] [--questions N]

It makes scripts (docs/SCRIPT.md) whose secondary opens with 1,000, 10,000 and 100,000 names: half of them have an address, half are zone cuts, and
beside them stand a wildcard and the SOA. The primary has no SOA, so the transfer is refused, and the questions are answered from the
secondary's zone as it opened. The program that `rt run` built in crates/zonesync is run on each without questions and with so many of one kind:

- present: the address of a name that has one
- absent: a name that doesn't exist
- wildcard: a name that the wildcard stands for
- delegated: a name below a cut

It prints the time of one question, that is of reading it from the script, answering it and reporting the answer, and beside each kind the ratio of
the zone of most names to the one of fewest. Time is the processor's, the least of the runs. Only ratios say something on another machine.
"""

import argparse
import os
import random
import sys
import tempfile

from programs import needs
from transfer import A, APEX, KEY_NAME, NS, SOA, SOA_DATA, TOP, processor_time, record, run

SIZES = [1_000, 10_000, 100_000]


def host(number):
    return b"\x07h%06x" % number + APEX


def cut(number):
    return b"\x07d%06x" % number + APEX


def present(number, half):
    return host(number % half)


def absent(number, half):
    return b"\x07a%06x" % number + APEX


def wildcard(number, half):
    return b"\x07x%06x\x01w" % number + APEX


def delegated(number, half):
    return b"\x03www" + cut(number % half)


# A kind of question, its rcode and AA bit, and how many records its answer has.
KINDS = {present: (b"answer 0 1", 1), absent: (b"answer 3 1", 1), wildcard: (b"answer 0 1", 1), delegated: (b"answer 0 0", 1)}


def zone(names):
    """The lines of a script before its questions."""
    half = names // 2
    records = [record(APEX, SOA, SOA_DATA), record(b"\x01*\x01w" + APEX, A, b"\xc0\0\2\2")]
    records += [record(host(it), A, b"\xc0\0\2\1") for it in range(half)]
    records += [record(cut(it), NS, b"\x02ns\x05other\0") for it in range(half)]
    lines = [
        f"zone {APEX.hex()} 1",
        f"key {KEY_NAME.hex()} hmac-sha256 000102 - -",
        "at 1000 1000",
        f"p {record(host(0), A, bytes(4)).hex()}",
    ]
    return lines + [f"s {it.hex()}" for it in records], len(records)


def checked(program, given, records, kind, questions):
    """Runs the program once and looks at what it says."""
    out, status, _ = run(program, given)
    lines = out.splitlines()
    wanted, count = KINDS[kind]
    answers = [it for it in lines if it.startswith(b"answer ")]
    length = 1 + records + questions * (1 + count)
    if (status, lines[0], len(lines), len(answers), set(answers)) != (1, b"refused not-valid", length, questions, {wanted}):
        sys.exit(f"{kind.__name__}: status {status}, {len(lines)} lines, first {lines[:1]}, answers {set(answers)}")


def times(program, folder, names, runs, questions):
    """The time of one question of each kind, in seconds."""
    lines, records = zone(names)
    path = f"{folder}/script"
    drawn = [random.Random(7).randrange(1 << 24) for _ in range(questions)]

    def timed(asked):
        with open(path, "w") as it:
            it.write("\n".join(lines + asked) + "\n")
        return min(processor_time(program, path) for _ in range(runs))

    without = timed([])
    found = {}
    for kind in KINDS:
        asked = [f"query {kind(it, names // 2).hex()} 1" for it in drawn]
        time = timed(asked)
        checked(program, path, records, kind, questions)
        found[kind] = (time - without) / questions
    return found


def main():
    parser = argparse.ArgumentParser(description=__doc__, formatter_class=argparse.RawDescriptionHelpFormatter)
    parser.add_argument("--program", default=f"{TOP}/crates/zonesync/out/zonesync")
    parser.add_argument("--runs", type=int, default=5, help="runs for each time, of which the least counts")
    parser.add_argument("--questions", type=int, default=50_000)
    asked = parser.parse_args()
    needs.file(asked.program, "run rt run in crates/zonesync first")
    needs.programs("/usr/bin/time")
    with tempfile.TemporaryDirectory(prefix="bench-") as folder:
        found = [times(asked.program, folder, names, asked.runs, asked.questions) for names in SIZES]
    print(f"{'question':<12}" + "".join(f"{it:>10} names" for it in SIZES) + f"{'ratio':>8}")
    for kind in KINDS:
        row = [it[kind] for it in found]
        print(f"{kind.__name__:<12}" + "".join(f"{it * 1e6:>13.2f} us" for it in row) + f"{row[-1] / row[0]:>8.2f}")


if __name__ == "__main__":
    main()
