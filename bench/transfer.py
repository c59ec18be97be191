#!/usr/bin/env python3
"""Time and peak memory of `zonesync axfr` and `ixfr` against the number of records, and where the time goes.

usage: python3 bench/transfer.py [--program FILE] [--runs N] [--shape WORD]

It makes scripts (docs/SCRIPT.md) with a primary's zone of so many records beside its SOA, and runs the program that `rt run` built in
crates/zonesync on each. The secondary begins without records, so that each record is read from the script, put into the primary's zone,
written, signed, checked, read, put into the secondary's zone and reported.

It prints, for each shape of zone:

- time, resident memory and heap at their peaks, for 1, 100, 1,000 and the most records that fit one message, and one record more, each less
  those of a zone of the SOA alone, and per record, beside the least per record;
- how time, heap and instructions grow where the number of records doubles: about 2.0 says in proportion to it, 4.0 by its square;
- how time and resident memory grow up to a script of 16 MiB, the longest that is read;
- the share of each step in the instructions, and the functions that take most.

Then both sides begin with the same zone, and commits of one new address each go over as differences (`ixfr`): how time, heap and instructions grow
where the number of commits doubles, less those of the same script without commits, and how they grow with the zone, for one number of commits.

Time is the processor's, the least of the runs. Heap and instructions come from valgrind, and are left out where there is none. What is
printed holds for one machine and one build: only ratios say something elsewhere. A whole run takes some minutes.
"""

import argparse
import collections
import os
import re
import shutil
import subprocess
import sys
import tempfile

from programs import TOP, needs

APEX = b"\x07example\0"
SOA_DATA = b"\0\0" + (1).to_bytes(4, "big") + bytes(16)
KEY_NAME = b"\x03key\0"
ALGORITHM = b"\x0bhmac-sha256\0"

A, NS, SOA, TSIG = 1, 2, 6, 250

HAS_VALGRIND = shutil.which("valgrind") is not None


def record(owner, rtype, data):
    """A record in wire form, of class IN."""
    return owner + rtype.to_bytes(2, "big") + b"\0\1\0\0\x0e\x10" + len(data).to_bytes(2, "big") + data


def label(number):
    """A label of four digits or more."""
    digits = b"%04x" % number
    return bytes([len(digits)]) + digits


def owners(number):
    """One address for each owner."""
    return record(label(number) + APEX, A, b"\xc0\0\2\1")


def addresses(number):
    """All addresses of one owner: one set."""
    return record(b"\x04host" + APEX, A, (0x0A000000 + number).to_bytes(4, "big"))


def servers(number):
    """All servers of the apex: one set, whose data are names."""
    return record(APEX, NS, label(number) + APEX)


def cuts(number):
    """One delegation for each owner, to one server."""
    return record(label(number) + APEX, NS, b"\x02ns\x05other\0")


def changed(count, commits):
    """A script whose primary and secondary have so many owners with one address each; each commit adds one more, with the next serial."""
    def soa(serial):
        return record(APEX, SOA, b"\0\0" + serial.to_bytes(4, "big") + bytes(16)).hex()

    lines = [f"zone {APEX.hex()} 1", f"key {KEY_NAME.hex()} hmac-sha256 000102 - -", "at 1000 1000"]
    for word in "ps":
        lines += [f"{word} {soa(1)}"] + [f"{word} {owners(it).hex()}" for it in range(count)]
    for it in range(commits):
        lines += [f"- {soa(it + 1)}", f"+ {soa(it + 2)}", f"+ {owners(count + it).hex()}", "commit"]
    return "\n".join(lines).encode() + b"\n"


SHAPES = {"owners": owners, "cuts": cuts, "addresses": addresses, "servers": servers}


def script(shape, count):
    """A script whose primary has so many records beside its SOA."""
    lines = [
        f"zone {APEX.hex()} 1",
        f"key {KEY_NAME.hex()} hmac-sha256 000102 - -",
        "at 1000 1000",
        f"p {record(APEX, SOA, SOA_DATA).hex()}",
    ]
    lines += [f"p {shape(it).hex()}" for it in range(count)]
    return "\n".join(lines).encode() + b"\n"


def most_records(shape):
    """How many records fit a message of 65,535 octets beside header, question, two SOA records and TSIG (RFC 8945, 4.2)."""
    question = len(APEX) + 4
    soas = 2 * len(record(APEX, SOA, SOA_DATA))
    # Algorithm, time, fudge, MAC behind its length, original id, error, and no other octets behind their length.
    tsig = len(record(KEY_NAME, TSIG, ALGORITHM + bytes(6 + 2 + 2 + 32 + 2 + 2 + 2)))
    return (65535 - 12 - question - soas - tsig) // len(shape(0))


def longest(shape):
    """How many records a script of 16 MiB has."""
    head = len(script(shape, 0))
    return (16 * 2**20 - head) // len(f"p {shape(16**5 - 1).hex()}\n")


def run(program, given, word="axfr"):
    """The output of one run, its status and its peak memory in KB."""
    with open(given, "rb") as file:
        how = ["/usr/bin/time", "-f", "%M", program, word]
        done = subprocess.run(how, stdin=file, capture_output=True)
    return done.stdout, done.returncode, int(done.stderr.split()[-1])


def processor_time(program, given, word="axfr"):
    """The processor time in seconds of one run."""
    with open(given, "rb") as file, open(os.devnull, "wb") as nowhere:
        child = subprocess.Popen([program, word], stdin=file, stdout=nowhere)
        _, _, usage = os.wait4(child.pid, 0)
        child.returncode = 0
    return usage.ru_utime + usage.ru_stime


class Bench:
    """Runs of the program on scripts of one shape."""

    word = "axfr"

    def __init__(self, program, folder, runs):
        self.program = program
        self.folder = folder
        self.runs = runs

    def given(self, name, count):
        path = f"{self.folder}/{name}-{count}"
        if not os.path.exists(path):
            with open(path, "wb") as it:
                it.write(self.script(name, count))
        return path

    def script(self, name, count):
        return script(SHAPES[name], count)

    def checked(self, name, count):
        """Peak memory in KB of a run, whose answer is looked at."""
        out, status, peak = run(self.program, self.given(name, count))
        lines = out.splitlines()
        if (status, lines[:1], len(lines)) != (0, [b"updated 1"], count + 2):
            sys.exit(f"{name}, {count} records: status {status}, {len(lines)} lines, first {lines[:1]}")
        return peak

    def time(self, name, count, most_runs=None):
        path = self.given(name, count)
        return min(processor_time(self.program, path, self.word) for _ in range(min(self.runs, most_runs or self.runs)))

    def heap(self, name, count):
        """The octets of heap at the moment when they are most, by valgrind; 0 without it."""
        if not HAS_VALGRIND:
            return 0
        how = ["valgrind", "--tool=dhat", "--dhat-out-file=/dev/null", self.program, self.word]
        with open(self.given(name, count), "rb") as file:
            said = subprocess.run(how, stdin=file, stdout=subprocess.DEVNULL, stderr=subprocess.PIPE, text=True).stderr
        return int(re.search(r"At t-gmax: ([\d,]+) bytes", said)[1].replace(",", ""))

    def measured(self, name, count):
        """Time, heap and instructions."""
        instructions = sum(self.counted(name, count, 0).values()) if HAS_VALGRIND else 0
        return self.time(name, count), self.heap(name, count), instructions

    def counted(self, name, count, callers):
        """The instructions of a run, by the chain of functions that they were counted in, innermost first."""
        out = f"{self.folder}/counts"
        how = ["valgrind", "--tool=callgrind", f"--callgrind-out-file={out}", f"--separate-callers={callers}", self.program, self.word]
        with open(self.given(name, count), "rb") as file:
            subprocess.run(how, stdin=file, stdout=subprocess.DEVNULL, stderr=subprocess.DEVNULL, check=True)
        return self_counts(out)


class ChangeBench(Bench):
    """Runs by IXFR on zones of so many owners, each named by its number, with so many commits."""

    word = "ixfr"

    def script(self, name, count):
        return changed(int(name), count)

    def checked(self, name, count):
        """Peak memory in KB of a run, whose answer is looked at: the differences begin at one version, and end at one for each commit."""
        out, status, peak = run(self.program, self.given(name, count), self.word)
        lines = out.splitlines()
        first = b"updated %d" % (count + 1) if count else b"up-to-date"
        if (status, lines[:1], len(lines)) != (0, [first], int(name) + count + 2):
            sys.exit(f"{count} commits over {name} owners: status {status}, {len(lines)} lines, first {lines[:1]}")
        return peak


def self_counts(path):
    """Reads a file of callgrind's: what each function counted itself."""
    names, counts = {}, collections.Counter()
    current, is_call = None, False
    with open(path, encoding="utf-8", errors="replace") as file:
        for line in file:
            found = re.match(r"fn=\((\d+)\)(?: (.*))?$", line)
            if found:
                if found[2]:
                    names[found[1]] = found[2]
                current = names[found[1]]
                continue
            found = re.match(r"cfn=\((\d+)\) (.*)$", line)
            if found:
                names[found[1]] = found[2]
                continue
            if line.startswith("calls="):
                is_call = True
                continue
            found = re.match(r"[+*-]?\d* ?(\d+)$", line)
            if found and re.match(r"[+*\d-]", line):
                if not is_call:
                    counts[current] += int(line.split()[1])
                is_call = False
    return counts


# The steps, by what stands in a chain of functions, innermost first; the first that fits tells. Where a function is inlined in its caller,
# the callee that is left tells: only an insertion asks for `ends_with` and `flatten` there.
STEPS = [
    ("HMAC", r"\bsha2::|\btsig_port::digests"),
    ("giving memory back", r"::destroy\b|\bdrop\b"),
    ("insertion, primary", r"\bzone_script::opening"),
    ("insertion, secondary", r"(\bzone_sessions::|\bstd_collections::|::ends_with\b|::flatten\b).*\bxfr_client::client"),
    ("walk, to write", r"\bzone_sessions::.*\bxfr_(server|text)::"),
    ("walk, to report", r"\bzone_sessions::walk.*\bzone_sync::program"),
    ("reading the script", r"\b(zone_script|script_words)::"),
    ("writing the message", r"\bxfr_(server|services|replies|text|batch)::"),
    ("reading the message", r"\bxfr_client::client|\bzone_sync::sync::take_replies|\btsig_port::"),
    ("report and link", r"\bzone_sync::program"),
    ("reading the script", r"\bzonesync::main"),
]


def step_of(chain):
    for name, pattern in STEPS:
        if re.search(pattern, chain):
            return name
    return "start and end"


def ratio(value, least):
    return f"{value / least:6.2f}" if least > 0 else "     -"


def sizes(bench, name):
    most = most_records(SHAPES[name])
    least_peak, least_time, least_heap = bench.checked(name, 0), bench.time(name, 0), bench.heap(name, 0)
    rows = []
    for count in [1, 100, 1000, most, most + 1]:
        peak = bench.checked(name, count) - least_peak
        rows.append((count, bench.time(name, count) - least_time, peak, bench.heap(name, count) - least_heap))
    print(f"the SOA alone: {least_time * 1e3:.2f} ms, {least_peak} KB, of it {least_heap} octets of heap")
    print(f"{most} records fit one message")
    print(f"{'records':>8} {'ms':>9} {'us/record':>10} {'ratio':>6} {'KB':>8} {'heap, octets':>13} {'heap/record':>12} {'ratio':>6}")
    # The time of one record is less than a run's noise: ratios are to the least of the others.
    least = min(it[1] / it[0] for it in rows[1:])
    least_memory = min(it[3] / it[0] for it in rows)
    for count, time, peak, heap in rows:
        timed = "noise" if count == 1 else ratio(time / count, least)
        print(
            f"{count:>8} {time * 1e3:>9.2f} {time / count * 1e6:>10.2f} {timed:>6}"
            f" {peak:>8} {heap:>13} {heap / count:>12.1f} {ratio(heap / count, least_memory):>6}"
        )


def doublings(bench, name, counts, what="records"):
    print(f"{what:>8} {'ms':>9} {'growth':>7} {'heap, octets':>13} {'growth':>7} {'instructions':>13} {'growth':>7}")
    base = bench.measured(name, 0)
    before = None
    for count in counts:
        now = [a - b for a, b in zip(bench.measured(name, count), base)]
        grown = [f"{a / b:7.2f}" if b > 0 else "      -" for a, b in zip(now, before)] if before else [" " * 7] * 3
        print(f"{count:>8} {now[0] * 1e3:>9.2f} {grown[0]} {now[1]:>13} {grown[1]} {now[2]:>13} {grown[2]}", flush=True)
        before = now


def up_to_longest(bench, name):
    """Time and resident memory up to the longest script, less those of a zone of the SOA alone."""
    print(f"{'records':>8} {'ms':>9} {'growth':>7} {'KB':>8} {'growth':>7}")
    least_peak, least_time = bench.checked(name, 0), bench.time(name, 0)
    most = longest(SHAPES[name])
    before = None
    for count in [most // 16, most // 8, most // 4, most // 2, most]:
        now = bench.time(name, count, 3) - least_time, bench.checked(name, count) - least_peak
        grown = [f"{a / b:7.2f}" if b > 0 else "      -" for a, b in zip(now, before)] if before else [" " * 7] * 2
        print(f"{count:>8} {now[0] * 1e3:>9.2f} {grown[0]} {now[1]:>8} {grown[1]}", flush=True)
        before = now


def shares(bench, name, count):
    if not HAS_VALGRIND:
        print("no valgrind: no shares")
        return
    counts = bench.counted(name, count, 40)
    total = sum(counts.values())
    steps, functions = collections.Counter(), collections.Counter()
    for chain, cost in counts.items():
        steps[step_of(chain)] += cost
        functions[(step_of(chain), chain.split("'")[0])] += cost
    print(f"{'step':<24} {'share':>6} {'instructions/record':>20}")
    for step, cost in steps.most_common():
        print(f"{step:<24} {100 * cost / total:>5.1f}% {cost / count:>20.0f}")
    print("the functions that take most, by step")
    for (step, function), cost in functions.most_common(12):
        print(f"{100 * cost / total:>6.1f}%  {step:<22} {function}")


def changes(bench):
    """What commits cost that go over as differences, by their number and by the zone's."""
    for count in [16, 64]:
        bench.checked("1000", count)
    doublings(bench, "1000", [16, 32, 64, 128], "commits")
    print()
    print(f"{'owners':>8} {'ms':>9} {'growth':>7} {'instructions':>13} {'growth':>7}")
    before = None
    for name in ["250", "500", "1000", "2000", "4000"]:
        with_edits, without = bench.measured(name, 64), bench.measured(name, 0)
        now = [with_edits[it] - without[it] for it in (0, 2)]
        grown = [f"{a / b:7.2f}" if b > 0 else "      -" for a, b in zip(now, before)] if before else [" " * 7] * 2
        print(f"{name:>8} {now[0] * 1e3:>9.2f} {grown[0]} {now[1]:>13} {grown[1]}", flush=True)
        before = now


def main():
    parser = argparse.ArgumentParser(description=__doc__, formatter_class=argparse.RawDescriptionHelpFormatter)
    parser.add_argument("--program", default=f"{TOP}/crates/zonesync/out/zonesync")
    parser.add_argument("--runs", type=int, default=15, help="runs for each time, of which the least counts")
    parser.add_argument("--shape", choices=sorted(SHAPES), action="append", help="only zones of this shape")
    parser.add_argument("--changes", action="store_true", help="only changes of a zone")
    asked = parser.parse_args()
    needs.file(asked.program, "run rt run in crates/zonesync first")
    needs.programs("/usr/bin/time")
    with tempfile.TemporaryDirectory(prefix="bench-") as folder:
        bench = Bench(asked.program, folder, asked.runs)
        for name in asked.shape or ([] if asked.changes else SHAPES):
            print(f"\n== {name}: {SHAPES[name].__doc__}")
            sizes(bench, name)
            print()
            doublings(bench, name, [120, 240, 480, 960, 1920])
            print()
            up_to_longest(bench, name)
            print()
            shares(bench, name, 1000)
        if not asked.shape:
            print(f"\n== changes: {ChangeBench.__doc__}")
            changes(ChangeBench(asked.program, folder, asked.runs))


if __name__ == "__main__":
    main()
