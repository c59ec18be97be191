#!/usr/bin/python3
"""Prints records, and replies to AXFR and IXFR, as dnspython writes them, in hexadecimal digits.

usage: tools/transfer_vectors.py

It needs dnspython, by Debian's package for Debian's own Python: apt-get update && apt-get install -y python3-dnspython

What it prints is pasted into the constants of crates/transfer_tests/src/transfer_vectors.rt, whose names stand above their lines:

RECORDS: in each line a word, and the record that it stands for, with its names written out.
MESSAGES: in each line a word, and the message that it stands for, with its names compressed.

The zone `jain.ad.jp.` is the example of RFC 1995, 7, its letters in lower case, and so are the replies `steps` and `condensed`; `first`,
`second` and `third` are the records of `steps` in three messages, the later ones without a question. `whole` answers IXFR by the whole
zone, `lone` by one SOA, `equal` by two; `events` answers AXFR for `example.com.`. In the zone `example.` are five cuts and two aliases.
"""

import needs

needs.dnspython()

import dns.flags
import dns.message
import dns.name
import dns.rdatatype
import dns.rrset

ID = 1995
TTL = 3600

# The words of records: owner, type and data. RFC 1995, 7 gives no TTL; the numbers of its SOA behind the serial are 600, 600, 3600000, 604800.
RECORDS = {
    "soa-1": ("jain.ad.jp.", "SOA", "ns.jain.ad.jp. mohta.jain.ad.jp. 1 600 600 3600000 604800"),
    "soa-2": ("jain.ad.jp.", "SOA", "ns.jain.ad.jp. mohta.jain.ad.jp. 2 600 600 3600000 604800"),
    "soa-3": ("jain.ad.jp.", "SOA", "ns.jain.ad.jp. mohta.jain.ad.jp. 3 600 600 3600000 604800"),
    "ns": ("jain.ad.jp.", "NS", "ns.jain.ad.jp."),
    "ns-a": ("ns.jain.ad.jp.", "A", "133.69.136.1"),
    "nezu-5": ("nezu.jain.ad.jp.", "A", "133.69.136.5"),
    "bb-4": ("jain-bb.jain.ad.jp.", "A", "133.69.136.4"),
    "bb-2": ("jain-bb.jain.ad.jp.", "A", "192.41.197.2"),
    "bb-3": ("jain-bb.jain.ad.jp.", "A", "133.69.136.3"),
    "com-soa": ("example.com.", "SOA", "mname. rname. 1 0 0 0 0"),
    "com-1": ("example.com.", "A", "127.0.0.1"),
    "com-2": ("example.com.", "A", "255.255.255.255"),
    "com-soa-22": ("example.com.", "SOA", "mname. rname. 20240922 0 0 0 0"),
    "com-soa-23": ("example.com.", "SOA", "mname. rname. 20240923 0 0 0 0"),
    "soa": ("example.", "SOA", "mname. rname. 1 0 0 0 0"),
    "ns5-ds-99": ("ns5.example.", "DS", "99 8 1 " + "99" * 20),
    "cut-a": ("ns.example.", "A", "192.0.2.1"),
    "alias-a": ("cname.example.", "A", "192.0.2.1"),
    "cname": ("cname.example.", "CNAME", "target.example."),
    "cname2": ("cname2.example.", "CNAME", "target.example."),
}
for cut in ("ns", "ns2", "ns3", "ns4", "ns5"):
    RECORDS[cut + "-1"] = (cut + ".example.", "NS", "ns1.example.")
    RECORDS[cut + "-2"] = (cut + ".example.", "NS", "ns2.example.")
    RECORDS[cut + "-ds"] = (cut + ".example.", "DS", "16 8 1 " + "16" * 20)

# The words of messages: the zone, the type of the question, none for none, and the records.
MESSAGES = {
    "steps": ("jain.ad.jp.", "IXFR", "soa-3 soa-1 nezu-5 soa-2 bb-4 bb-2 soa-2 bb-4 soa-3 bb-3 soa-3"),
    "condensed": ("jain.ad.jp.", "IXFR", "soa-3 soa-1 nezu-5 soa-3 bb-3 bb-2 soa-3"),
    "first": ("jain.ad.jp.", "IXFR", "soa-3 soa-1 nezu-5 soa-2 bb-4"),
    "second": ("jain.ad.jp.", None, "bb-2 soa-2 bb-4"),
    "third": ("jain.ad.jp.", None, "soa-3 bb-3 soa-3"),
    "whole": ("jain.ad.jp.", "IXFR", "soa-3 ns ns-a bb-2 bb-3 soa-3"),
    "lone": ("jain.ad.jp.", "IXFR", "soa-3"),
    "equal": ("jain.ad.jp.", "IXFR", "soa-3 soa-3"),
    "events": ("example.com.", "AXFR", "com-soa com-1 com-2 com-soa"),
}


def record(word):
    """The record of a word, as a set of its own, so that each stands where it is put."""
    owner, rtype, data = RECORDS[word]
    return dns.rrset.from_text(dns.name.from_text(owner), TTL, "IN", rtype, data)


def wire(rrset):
    """A record's octets, its names written out."""
    data = rrset[0].to_wire()
    head = rrset.rdtype.to_bytes(2, "big") + rrset.rdclass.to_bytes(2, "big") + rrset.ttl.to_bytes(4, "big")
    return rrset.name.to_wire() + head + len(data).to_bytes(2, "big") + data


def message(zone, rtype, words):
    """A reply with these answer records."""
    reply = dns.message.Message(ID)
    reply.flags = dns.flags.QR | dns.flags.AA
    if rtype is not None:
        asked = dns.message.make_query(zone, dns.rdatatype.from_text(rtype))
        reply.question = asked.question
    reply.answer = [record(word) for word in words.split()]
    return reply.to_wire()


def main():
    print("RECORDS")
    for word in RECORDS:
        print(word, wire(record(word)).hex())
    print("MESSAGES")
    for word, row in MESSAGES.items():
        print(word, message(*row).hex())


if __name__ == "__main__":
    main()
