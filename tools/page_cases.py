#!/usr/bin/python3
"""Writes the cases of zones whose text goes over in more than one message, or just in one: cases/pages-*.

usage: tools/page_cases.py

It needs dnspython, by Debian's package for Debian's own Python: apt-get update && apt-get install -y python3-dnspython

A message of a transfer has 12 octets of header, the question, records without compression and a TSIG record, 65,535 octets at most. How long
records are, their order in the output (RFC 4034, 6.1) and how long header, question and TSIG are is dnspython's word. The records are

- `one-full`: as many as make one message of 65,535 octets;
- `one-octet-more`: one octet more, so that the last SOA record goes in a second message;
- `record-full`: beside the SOA one record that makes a message of 65,535 octets by itself, the second of three;
- `record-too-long`: one octet more in that record, behind a message of others: the primary answers SERVFAIL in place of its message, the
  secondary refuses that as no message of a transfer, and its zone stays as it was;
- `5000-records`: 5,000 addresses, in three messages.
"""

import os

import needs

needs.dnspython()

import dns.message
import dns.name
import dns.rdata
import dns.rrset
import dns.tsig

TOP = os.path.dirname(os.path.dirname(os.path.abspath(__file__)))
ZONE = dns.name.from_text("example.")
KEY = dns.tsig.Key("key.", bytes([0, 1, 2]), dns.tsig.HMAC_SHA256)
MOST = 65535


def record(owner, rtype, text):
    """An RRset of one record, with TTL 3600."""
    return dns.rrset.from_text(dns.name.from_text(owner, ZONE), 3600, "IN", rtype, text)


def wire(it):
    """It in wire form, its names written out."""
    data = it[0].to_wire()
    return it.name.to_wire() + it.rdtype.to_bytes(2, "big") + it.rdclass.to_bytes(2, "big") + it.ttl.to_bytes(4, "big") + len(data).to_bytes(2, "big") + data


def room():
    """How many octets of records a signed answer has room for."""
    message = dns.message.make_response(dns.message.make_query(ZONE, "AXFR"))
    message.use_tsig(KEY)
    return MOST - len(message.to_wire())


def soa(serial):
    return record("@", "SOA", f". . {serial} 0 0 0 0")


def addresses(count):
    return [record(f"{it:04x}", "A", "192.0.2.1") for it in range(count)]


def filler(owner, octets):
    """A record of so many octets, of an unknown type."""
    length = octets - len(wire(record(owner, "TYPE65280", r"\# 0")))
    return record(owner, "TYPE65280", rf"\# {length} {'ab' * length}")


def write(name, primary, secondary, first_line, status):
    """A case: what the secondary holds in the end is the primary's zone, or its own where the transfer is refused."""
    held = secondary if status else primary
    lines = [f"zone {ZONE.to_wire().hex()} 1", f"key {KEY.name.to_wire().hex()} hmac-sha256 {KEY.secret.hex()} - -", "at 1000 1000"]
    lines += [f"p {wire(it).hex()}" for it in primary] + [f"s {wire(it).hex()}" for it in secondary]
    shown = [first_line] + [f"rr 0 {wire(it).hex()}" for it in sorted(held, key=lambda it: (it.name, it.rdtype))]
    for end, rows in ("", lines), (".args", ["axfr"]), (".stdout", shown):
        with open(f"{TOP}/cases/pages-{name}{end}", "w") as out:
            out.write("".join(row + "\n" for row in rows))
    print(f"pages-{name} {status}")


def main():
    ends = 2 * len(wire(soa(2)))
    left = room() - ends
    each = len(wire(addresses(1)[0]))
    whole = addresses(left // each - 2)
    rest = left - len(whole) * each
    write("one-full", [soa(2), *whole, filler("x", rest)], [], "updated 1", 0)
    write("one-octet-more", [soa(2), *whole, filler("x", rest + 1)], [], "updated 1", 0)
    write("record-full", [soa(2), filler("x", room())], [], "updated 1", 0)
    write("record-too-long", [soa(2), *addresses(10), filler("x", room() + 1)], [soa(1), *addresses(2)], "refused not-valid", 1)
    write("5000-records", [soa(2), *addresses(5000)], [soa(1)], "updated 1", 0)


if __name__ == "__main__":
    main()
