#!/usr/bin/python3
"""Prints records, and signed transfers of what is newer (RFC 1995), as dnspython writes them, in hexadecimal digits.

usage: tools/incremental_vectors.py

It needs dnspython, by Debian's package for Debian's own Python: apt-get update && apt-get install -y python3-dnspython

What it prints is pasted into the constants of crates/exchange_tests/src/incremental_vectors.rt, whose names stand above their lines:

RECORDS: in each line a word, and the record that it stands for, with its names written out.
VERSIONS: in each line the records of a version, in the order of a walk (RFC 4034, 6.1).
STREAMS: in each line a word, the request of one who has the serial 1, for what is newer or for the whole zone, and the replies to it, with the names
compressed, all signed by the key `key.` at the moment 1000.

The records of `jain.ad.jp.` are the example of RFC 1995, 7, its letters in lower case; an owner has capitals where its word has. The replies `steps` are
the three differences of the versions in one message, `batches` the same with one difference a message, the later ones without a question, `whole` the last
version, `equal`, `less` and `greater` one SOA. Those behind are wrong in one way each, or nearly so.
"""

from unittest import mock

import needs

needs.dnspython()

import dns.flags
import dns.message
import dns.name
import dns.rdata
import dns.renderer
import dns.rrset
import dns.tsig

ID = 1000
TIME = 1000
FUDGE = 300
KEY = dns.tsig.Key(dns.name.from_text("key."), bytes(range(3)), "hmac-sha256")
APEX = dns.name.from_text("example.")
JAIN = "ns.jain.ad.jp. mohta.jain.ad.jp. {} 600 600 3600000 604800"

# The words of records: owner, TTL, type and data.
RECORDS = {
    "jain-1": ("jain.ad.jp.", 3600, "SOA", JAIN.format(1)),
    "jain-2": ("jain.ad.jp.", 3600, "SOA", JAIN.format(2)),
    "jain-3": ("jain.ad.jp.", 3600, "SOA", JAIN.format(3)),
    "jain-ns": ("jain.ad.jp.", 3600, "NS", "ns.jain.ad.jp."),
    "jain-a": ("ns.jain.ad.jp.", 3600, "A", "133.69.136.1"),
    "nezu": ("nezu.jain.ad.jp.", 3600, "A", "133.69.136.5"),
    "bb-4": ("jain-bb.jain.ad.jp.", 3600, "A", "133.69.136.4"),
    "bb-2": ("jain-bb.jain.ad.jp.", 3600, "A", "192.41.197.2"),
    "bb-3": ("jain-bb.jain.ad.jp.", 3600, "A", "133.69.136.3"),
    "NEZU": ("NEZU.jain.ad.jp.", 3600, "A", "133.69.136.5"),
    "BB-4": ("JAIN-BB.jain.ad.jp.", 3600, "A", "133.69.136.4"),
    "BB-2": ("JAIN-BB.jain.ad.jp.", 3600, "A", "192.41.197.2"),
    "BB-3": ("JAIN-BB.jain.ad.jp.", 3600, "A", "133.69.136.3"),
    "soa-half": ("example.", 3600, "SOA", ". . 2147483648 0 0 0 0"),
    "a": ("a.example.", 3600, "A", "192.0.2.7"),
    "b": ("b.example.", 3600, "A", "192.0.2.8"),
    "other-b": ("b.example.", 3600, "A", "192.0.2.18"),
    "c": ("c.example.", 3600, "TXT", '"one" "two"'),
    "old": ("old.example.", 3600, "A", "192.0.2.6"),
    "below-b": ("a.b.example.", 3600, "A", "192.0.2.9"),
    "beside-below-b": ("c.b.example.", 3600, "A", "192.0.2.9"),
    "cut-1": ("sub.example.", 3600, "NS", "a.other."),
    "cut-2": ("sub.example.", 3600, "NS", "b.other."),
    "cut-ds": ("sub.example.", 3600, "DS", "16 8 1 " + "16" * 20),
    "t-1": ("t.example.", 3600, "A", "192.0.2.1"),
    "t-2": ("t.example.", 3600, "A", "192.0.2.2"),
    "t-3": ("t.example.", 3600, "A", "192.0.2.3"),
    "short-t-1": ("t.example.", 60, "A", "192.0.2.1"),
    "short-t-2": ("t.example.", 60, "A", "192.0.2.2"),
    "short-t-3": ("t.example.", 60, "A", "192.0.2.3"),
    "outside": ("other.", 3600, "A", "192.0.2.7"),
    "alias": ("y.example.", 3600, "CNAME", "a."),
    "other-alias": ("y.example.", 3600, "CNAME", "b."),
}
for serial in range(5):
    RECORDS[f"soa-{serial}"] = ("example.", 3600, "SOA", f". . {serial} 0 0 0 0")

# The versions of the zone `example.`, each SOA first.
VERSIONS = ["soa-1 a old", "soa-2 b old", "soa-3 b other-b c", "soa-4 a other-b c"]


def difference(number):
    """The batch that leads from the version of this number, from 0, to the next one (RFC 1995, 4)."""
    before, after = VERSIONS[number].split(), VERSIONS[number + 1].split()
    removed = [word for word in before[1:] if word not in after]
    added = [word for word in after[1:] if word not in before]
    return [before[0], *removed, after[0], *added]


BATCHES = [difference(number) for number in range(3)]

# The words of records whose data are damaged: those of another word without their last octet.
DAMAGED = {"damaged-soa": "soa-2", "damaged-a": "a"}

# The words of streams of replies to a request for what is newer: each reply's records.
NEWER = {
    "steps": [["soa-4", *BATCHES[0], *BATCHES[1], *BATCHES[2], "soa-4"]],
    "batches": [["soa-4", *BATCHES[0]], BATCHES[1], [*BATCHES[2], "soa-4"]],
    "whole": [[*VERSIONS[3].split(), "soa-4"]],
    "equal": [["soa-1"]],
    "less": [["soa-0"]],
    "greater": [["soa-2"]],
    "added-twice": ["soa-3 soa-1 soa-3 a a soa-3".split()],
    "outside-the-zone": ["soa-3 soa-1 soa-2 a soa-2 soa-3 outside soa-3".split()],
    "two-aliases": ["soa-3 soa-1 soa-2 a soa-2 soa-3 alias other-alias soa-3".split()],
}

# The same of replies to a request for the whole zone.
WHOLE = {
    "behind-the-end": ["soa-2 a soa-2 a".split()],
    "equal-data": ["soa-2 a a soa-2".split()],
    "nothing-between": ["soa-2 soa-2".split()],
    "no-soa-first": ["a soa-2 soa-2".split()],
    "first-damaged": ["damaged-soa a soa-2".split()],
    "second-damaged": ["soa-2 damaged-a soa-2".split()],
    "other-name": ["soa-2 a soa-2".split()],
    "other-type": ["soa-2 a soa-2".split()],
}

# The questions of replies that have another one than their request.
QUESTIONS = {"other-name": ("other.", "AXFR"), "other-type": ("example.", "A")}


class Plain(dns.renderer.Renderer):
    """Writes out each name."""

    def __init__(self, *args, **kw):
        super().__init__(*args, **kw)
        self.compress = None


def record(word):
    """The record of a word, as a set of its own, so that each stands where it is put."""
    if word in DAMAGED:
        whole = record(DAMAGED[word])
        data = dns.rdata.GenericRdata(whole.rdclass, whole.rdtype, whole[0].to_wire()[:-1])
        return dns.rrset.from_rdata(whole.name, whole.ttl, data)
    owner, ttl, rtype, data = RECORDS[word]
    return dns.rrset.from_text(dns.name.from_text(owner), ttl, "IN", rtype, data)


def wire(rrset):
    """A record's octets, its names written out."""
    data = rrset[0].to_wire()
    head = rrset.rdtype.to_bytes(2, "big") + rrset.rdclass.to_bytes(2, "big") + rrset.ttl.to_bytes(4, "big")
    return rrset.name.to_wire() + head + len(data).to_bytes(2, "big") + data


def signed(message, **kw):
    """The octets of a message that dnspython signs."""
    with mock.patch("time.time", return_value=TIME):
        return message.to_wire(**kw)


def asking(rtype):
    """The request of one who has the serial 1 (RFC 1995, 3)."""
    asked = dns.message.make_query(APEX, rtype, flags=0)
    asked.id = ID
    if rtype == "IXFR":
        asked.authority = [record("soa-1")]
    asked.use_tsig(KEY, fudge=FUDGE)
    return asked


def stream(rtype, word, replies):
    """The request and the replies."""
    with mock.patch("dns.renderer.Renderer", Plain):
        out = [signed(asking(rtype))]
    with mock.patch("time.time", return_value=TIME):
        asked = dns.message.from_wire(out[0], keyring=KEY)
    made = None
    for number, words in enumerate(replies):
        reply = dns.message.make_response(asked)
        reply.flags |= dns.flags.AA
        reply.answer = [record(found) for found in words]
        if word in QUESTIONS:
            reply.question = dns.message.make_query(*QUESTIONS[word]).question
        if number > 0:
            reply.question = []
        out.append(signed(reply, multi=True, tsig_ctx=made))
        made = reply.tsig_ctx
    return out


def main():
    print("RECORDS")
    for word in RECORDS:
        print(word, wire(record(word)).hex())
    print("VERSIONS")
    for words in VERSIONS:
        print(words)
    print("STREAMS")
    for rtype, streams in ("IXFR", NEWER), ("AXFR", WHOLE):
        for word, replies in streams.items():
            print(word, *(octets.hex() for octets in stream(rtype, word, replies)))


if __name__ == "__main__":
    main()
