#!/usr/bin/python3
"""Prints signed requests for transfers, and the whole replies of a primary to them, as messages after their lengths, in hexadecimal digits.

usage: tools/primary_vectors.py

It needs dnspython, by Debian's package for Debian's own Python: apt-get update && apt-get install -y python3-dnspython

What it prints is pasted into the constant ROWS of crates/stream_tests/src/primary_tests.rt: in each line the frame of a request at the moment 1000, and
that of the reply at the same moment. The primary's zone `example.` has two versions:

1: the SOA with serial 1, NS `ns.example.`, `ns.example.` A 192.0.2.1
2: the SOA with serial 2, NS `ns.example.`, `ns.example.` A 192.0.2.2

The requests: the whole zone; what is newer than 1; than 2; the whole zone by a key of that name with another secret; and by a key of another name. Replies
are signed by dnspython, which takes them too; those to the last two have a TSIG with an empty MAC and its error (RFC 8945, 5.3.2).
"""

from unittest import mock

import needs

needs.dnspython()

import dns.flags
import dns.message
import dns.name
import dns.rcode
import dns.rdatatype
import dns.renderer
import dns.rrset
import dns.tsig

TIME = 1000
FUDGE = 300
APEX = dns.name.from_text("example.")


def key(name, secret):
    return dns.tsig.Key(dns.name.from_text(name), secret, "hmac-sha256")


KEY = key("key.", bytes([0, 1, 2]))


def rrset(owner, rtype, data):
    return dns.rrset.from_text(owner, 3600, "IN", rtype, data)


def soa(serial):
    return rrset("example.", "SOA", f". . {serial} 0 0 0 0")


NS = rrset("example.", "NS", "ns.example.")
ONE, TWO = rrset("ns.example.", "A", "192.0.2.1"), rrset("ns.example.", "A", "192.0.2.2")
WHOLE = [soa(2), NS, TWO, soa(2)]
NEWER = [soa(2), soa(1), ONE, soa(2), TWO, soa(2)]


class Plain(dns.renderer.Renderer):
    """Writes out each name."""

    def __init__(self, *args, **kw):
        super().__init__(*args, **kw)
        self.compress = None


def wire(message, **kw):
    """The octets of a message that dnspython signs at the moment."""
    with mock.patch("dns.renderer.Renderer", Plain), mock.patch("time.time", return_value=TIME):
        return message.to_wire(**kw)


def read(octets, by, **kw):
    """What dnspython reads of the octets at the moment."""
    with mock.patch("time.time", return_value=TIME):
        return dns.message.from_wire(octets, keyring=by, **kw)


def request(rtype, number, by, serial=None):
    asked = dns.message.make_query(APEX, rtype, flags=0)
    asked.id = number
    if serial is not None:
        asked.authority = [soa(serial)]
    asked.use_tsig(by, fudge=FUDGE)
    return wire(asked)


def reply(octets, records):
    asked = read(octets, KEY)
    out = dns.message.make_response(asked, fudge=FUDGE)
    out.use_edns(-1)
    out.flags |= dns.flags.AA
    out.answer = list(records)
    out.request_mac = asked.mac
    octets = wire(out, multi=True)
    read(octets, KEY, request_mac=asked.mac, xfr=True, multi=True, one_rr_per_rrset=True)
    return octets


def refusal(octets, by, error):
    asked = read(octets, by)
    out = dns.message.make_response(asked)
    out.use_edns(-1)
    out.tsig = None
    out.set_rcode(dns.rcode.NOTAUTH)
    bare = wire(out)
    was = asked.tsig[0]
    data = type(was)(was.rdclass, was.rdtype, was.algorithm, was.time_signed, was.fudge, b"", asked.id, error, b"").to_wire()
    record = by.name.to_wire() + b"\0\xfa\0\xff" + bytes(4) + len(data).to_bytes(2, "big") + data
    return bare[:10] + b"\0\x01" + bare[12:] + record


def frame(octets):
    return (len(octets).to_bytes(2, "big") + octets).hex()


def main():
    asked = request("AXFR", 1, KEY)
    print(frame(asked), frame(reply(asked, WHOLE)))
    asked = request("IXFR", 2, KEY, 1)
    print(frame(asked), frame(reply(asked, NEWER)))
    asked = request("IXFR", 3, KEY, 2)
    print(frame(asked), frame(reply(asked, [soa(2)])))
    for number, by, error in [(4, key("key.", bytes([0, 1, 3])), 16), (5, key("other.", bytes([0, 1, 2])), 17)]:
        asked = request("AXFR", number, by)
        print(frame(asked), frame(refusal(asked, by, error)))


main()
