#!/usr/bin/python3
"""Prints one record of each known type, and one of an unknown one, in wire form, as dnspython makes them.

usage: tools/record_vectors.py

It needs dnspython, by Debian's package for Debian's own Python: apt-get update && apt-get install -y python3-dnspython

Each line has the name of the type, its number in four hexadecimal digits, and the record in hexadecimal digits: owner `example.`, class IN, TTL 3600,
no compression. `\\n\\` ends each, so that the lines can be pasted into the constant RECORDS of crates/dns_tests/src/dns_rdata_vector_tests.rt,
whose tests compare the fields with the values that stand here.
"""

import io

import needs

needs.dnspython()

import dns.name
import dns.rdata
import dns.rdataclass
import dns.rdatatype
import dns.rrset

OWNER = dns.name.from_text("example.")
TTL = 3600

# The type, and its data in the text form of a zone file; of an obsolete type, for which dnspython has no class, the names alone.
RECORDS = [
    ("A", "192.0.2.1"),
    ("NS", "ns.example."),
    ("MD", ["md.example."]),
    ("MF", ["mf.example."]),
    ("CNAME", "alias.example."),
    ("SOA", "ns.example. hostmaster.example. 2026112701 7200 3601 1209600 299"),
    ("MB", ["mb.example."]),
    ("MG", ["mg.example."]),
    ("MR", ["mr.example."]),
    ("PTR", "Host.eXample."),
    ("MINFO", ["owner.example.", "errors.example."]),
    ("MX", "266 mail.example."),
    ("TXT", '"one string" "another"'),
    ("AAAA", "2001:db8::1"),
    ("SRV", "513 1027 5353 server.example."),
    ("DS", "60485 5 1 2BB183AF5F22588179A53B0A98631FAD1A292118"),
    ("TYPE65280", r"\# 4 0A00FF01"),
]


def data_of(rtype, data):
    if isinstance(data, str):
        return dns.rdata.from_text(dns.rdataclass.IN, rtype, data)
    octets = b"".join(dns.name.from_text(it).to_wire() for it in data)
    return dns.rdata.GenericRdata(dns.rdataclass.IN, rtype, octets)


for word, data in RECORDS:
    rtype = dns.rdatatype.from_text(word)
    out = io.BytesIO()
    dns.rrset.from_rdata(OWNER, TTL, data_of(rtype, data)).to_wire(out)
    print(f"{word} {rtype:04x} {out.getvalue().hex()}\\n\\")
