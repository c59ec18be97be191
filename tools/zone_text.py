#!/usr/bin/python3
"""Turns a zone's master file into a script for zonesync, and a report of zonesync back into master-file text.

usage: tools/zone_text.py script ORIGIN MASTER [SECONDARY] [--changes FILE] [--query NAME TYPE].. > script
       tools/zone_text.py zone < report

It needs dnspython, by Debian's package for Debian's own Python: apt-get update && apt-get install -y python3-dnspython

`script` reads a master file (RFC 1035, 5) of the zone ORIGIN, in class IN, whose records the primary has, and where it is named one whose records the
secondary begins with. The SOA record comes first, the others in canonical order. The key is a sample key. FILE has what then changes on the primary,
line by line: `- RECORD`, `+ RECORD` (each a record as in a master file, with its owner, on one line) and `commit`; a line that begins with `;` says nothing.
Each `--query` is a question to the secondary, a name below ORIGIN or one that ends with a dot. `zone` prints each record that the report shows in the text form of its type
(RFC 1035, 5.1), types and data without one as RFC 3597, 5 has them, and the report's other lines as comments. docs/SCRIPT.md says what script
and report are, docs/example.zone is a master file.
"""

import argparse
import sys

import needs

needs.dnspython()

import dns.exception
import dns.name
import dns.rdata
import dns.rdataclass
import dns.rdatatype
import dns.zone
import dns.zonefile

KEY = "key 0673616d706c6500 hmac-sha256 000102030405060708090a0b0c0d0e0f - -"


def wire(owner, ttl, data):
    """The octets of one record, without compression (RFC 1035, 3.2.1)."""
    octets = data.to_wire()
    numbers = ((data.rdtype, 2), (data.rdclass, 2), (ttl, 4), (len(octets), 2))
    return owner.to_wire() + b"".join(value.to_bytes(size, "big") for value, size in numbers) + octets


def lines_of(word, origin, path):
    """A line for each record of a master file."""
    zone = dns.zone.from_file(path, origin, relativize=False, check_origin=False)
    found = [(owner, ttl, data) for owner, ttl, data in zone.iterate_rdatas()]
    found.sort(key=lambda it: (it[2].rdtype != dns.rdatatype.SOA, it[0], it[2].rdtype))
    return [f"{word} {wire(*it).hex()}" for it in found]


def change_lines(origin, path):
    """A line for each change of a list."""
    found = []
    with open(path) as changes:
        for line in map(str.strip, changes):
            if line and not line.startswith(";"):
                sign, _, text = line.partition(" ")
                if sign == "commit" and not text:
                    found.append(sign)
                elif sign in ("-", "+"):
                    (rrset,) = dns.zonefile.read_rrsets(text, rdclass=None, origin=origin, default_ttl=3600)
                    found.append(f"{sign} {wire(rrset.name, rrset.ttl, rrset[0]).hex()}")
                else:
                    sys.exit(f"no change: {line}")
    return found


def print_script(origin, primary, secondary, changes, questions):
    name = dns.name.from_text(origin)
    print(f"zone {name.to_wire().hex()} 1", KEY, sep="\n")
    print(*lines_of("p", name, primary), sep="\n")
    if secondary:
        print(*lines_of("s", name, secondary), sep="\n")
    if changes:
        print(*change_lines(name, changes), sep="\n")
    for qname, qtype in questions:
        print(f"query {dns.name.from_text(qname, name).to_wire().hex()} {int(dns.rdatatype.from_text(qtype))}")


def data_of(rclass, rtype, octets):
    """Data of a type, or as they are where they don't fit the type."""
    try:
        return dns.rdata.from_wire(rclass, rtype, octets, 0, len(octets))
    except dns.exception.DNSException:
        return dns.rdata.GenericRdata(rclass, rtype, octets)


def text_of(octets):
    """One record as text."""
    owner, used = dns.name.from_wire(octets, 0)
    rtype, rclass, ttl, length = (int.from_bytes(octets[used + at : used + at + size], "big") for at, size in ((0, 2), (2, 2), (4, 4), (8, 2)))
    data = data_of(rclass, rtype, octets[used + 10 : used + 10 + length])
    return f"{owner} {ttl} {dns.rdataclass.to_text(rclass)} {dns.rdatatype.to_text(rtype)} {data}"


def print_zone(report):
    for line in report:
        fields = line.split()
        if fields[:1] == ["rr"] and len(fields) == 3:
            print(text_of(bytes.fromhex(fields[2])))
        elif len(fields) == 2 and fields[0] in ("an", "au", "ad"):
            print(f"; {fields[0]} {text_of(bytes.fromhex(fields[1]))}")
        else:
            print(f"; {line.rstrip()}")


def main():
    parser = argparse.ArgumentParser(description=__doc__, formatter_class=argparse.RawDescriptionHelpFormatter)
    ways = parser.add_subparsers(dest="way", required=True)
    script = ways.add_parser("script")
    script.add_argument("origin")
    script.add_argument("master")
    script.add_argument("secondary", nargs="?")
    script.add_argument("--changes", metavar="FILE")
    script.add_argument("--query", nargs=2, action="append", default=[], metavar=("NAME", "TYPE"))
    ways.add_parser("zone")
    words = parser.parse_args()
    if words.way == "zone":
        print_zone(sys.stdin)
    else:
        print_script(words.origin, words.master, words.secondary, words.changes, words.query)


if __name__ == "__main__":
    main()
