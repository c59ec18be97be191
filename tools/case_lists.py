"""The folders of cases, what each case has to end with, and the program that each folder is for.

A case is a file FOLDER/NAME, which is the standard input. Beside it NAME.args has the words, one a line, and NAME.stdout what is written; a word may
name one more file of FOLDER, which is then there when the program runs, and the word {} names the case's own file. The list tools/FOLDER.status has
the number of cases, then the exit status of each; tools/FOLDER.stderr, where there is one, the line that a case tells on standard error, which is empty
otherwise.

A line `reader ..` of NAME.stdout may have a field M..N, which stands for any number from M to N: how threads take turns isn't told.
"""

import os
import re

TOP = os.path.dirname(os.path.dirname(os.path.abspath(__file__)))

# The folder, the crate of the program, and the cases that take minutes under the checks of `rt try`, have words that it can't read, or fields M..N, which
# it doesn't know: tools/quick leaves them to the gate.
CASES = [
    ("cases", "zonesync", ["gen-100000-7", "words-axfr-16", "words-axfr-2", "words-ixfr-2", "words-not-utf8"]),
    ("peer_cases", "zone_peer", ["words-not-utf8"]),
]


def octets(path):
    with open(path, "rb") as it:
        return it.read()


def field_fits(found, wanted):
    """Whether a field of a line is the one that is wanted, or a number within it."""
    bounds = re.fullmatch(rb"([0-9]+)\.\.([0-9]+)", wanted)
    if not bounds:
        return found == wanted
    return bool(re.fullmatch(rb"0|[1-9][0-9]*", found)) and int(bounds[1]) <= int(found) <= int(bounds[2])


def line_fits(found, wanted):
    """The same of a line."""
    if not wanted.startswith(b"reader "):
        return found == wanted
    fields, due = found.split(b" "), wanted.split(b" ")
    return len(fields) == len(due) and all(map(field_fits, fields, due))


def output_fits(found, wanted):
    """Whether what a case wrote is what it has to write."""
    lines, due = found.split(b"\n"), wanted.split(b"\n")
    return len(lines) == len(due) and all(map(line_fits, lines, due))


class Cases:
    """One folder of cases."""

    def __init__(self, folder, crate, slow):
        self.name, self.folder, self.crate, self.slow = folder, f"{TOP}/{folder}", crate, slow
        first, *rows = octets(f"{TOP}/tools/{folder}.status").decode().splitlines()
        self.count = int(first.removesuffix(" cases"))
        self.statuses = {name: int(status) for name, status in map(str.split, rows)}
        told = f"{TOP}/tools/{folder}.stderr"
        rows = octets(told).decode().splitlines() if os.path.exists(told) else []
        self.told = {name: f"{text}\n".encode() for name, text in (it.split(" ", 1) for it in rows)}

    def words(self, name):
        """The words of a case."""
        return octets(f"{self.folder}/{name}.args").decode(errors="surrogateescape").splitlines()

    def data(self, name):
        """The other files of the folder that a case names."""
        own = {f"{name}{end}" for end in ["", ".args", ".stdout"]}
        return {it for it in self.words(name) if "/" not in it and os.path.isfile(f"{self.folder}/{it}")} - own

    def lacking(self, name):
        """Which file a case lacks, if any."""
        return next((it for it in [name, f"{name}.args", f"{name}.stdout"] if not os.path.isfile(f"{self.folder}/{it}")), None)

    def unlisted(self):
        """What is wrong with list and folder."""
        known = {name + end for name in self.statuses for end in ["", ".args", ".stdout"]}
        known |= {it for name in self.statuses if not self.lacking(name) for it in self.data(name)}
        strays = ({*os.listdir(self.folder)} - known) | ({*self.told} - {*self.statuses})
        found = [f"{self.name}/{it}: not of a listed case" for it in sorted(strays)]
        if not self.statuses or len(self.statuses) != self.count:
            found.append(f"{self.name}: {len(self.statuses)} cases are listed, not {self.count}")
        return found


def all_cases():
    return [Cases(*it) for it in CASES]
