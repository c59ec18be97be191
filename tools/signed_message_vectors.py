#!/usr/bin/python3
"""Prints messages that dnspython signs by TSIG (RFC 8945), in hexadecimal digits.

usage: tools/signed_message_vectors.py

It needs dnspython, by Debian's package for Debian's own Python: apt-get update && apt-get install -y python3-dnspython

What it prints is pasted into the constants of crates/tsig_tests/src/tsig_port_vector_tests.rt, whose names stand above their lines:

UNSIGNED: the request for the whole zone `example.` with id 1000, an answer with the zone's SOA, and one with an A record, all without a TSIG.
EXCHANGES: in each line an algorithm, how many octets of each MAC are sent, in two digits, and those three messages signed: the request at the moment
TIME, the first answer a second later behind the request's MAC, the second answer another second later behind the first one's, by its timers alone.
REFUSALS: in each line the TSIG error in four digits and the reply to the first request of hmac-sha256, whole MACs.
COMPRESSED: request and first answer by a key whose name lies below `example.`, where dnspython compresses names, the owner of the TSIG among them.

dnspython computes each digest and writes each record. It sends whole MACs, so that the script itself cuts the MAC in a TSIG, and hands the cut one to what
digests the next message (RFC 8945, 5.2.2.1 and 5.3). Where MACs are whole, dnspython has to take the messages itself.
"""

import struct
from unittest import mock

import needs

needs.dnspython()

import dns.flags
import dns.message
import dns.name
import dns.rcode
import dns.rdataclass
import dns.rdatatype
import dns.renderer
import dns.rrset
import dns.tsig
from dns.rdtypes.ANY.TSIG import TSIG

ZONE = dns.name.from_text("example.")
ID = 1000
FUDGE = 300
# More than 32 bits.
TIME = 0x0102030405
SECRET = bytes(range(1, 33))
KEY_NAME = dns.name.from_text("Xfr-Key.")
COMPRESSED_KEY_NAME = dns.name.from_text("Xfr-Key.example.")
# The algorithm, and a length to which its MACs are cut.
ALGORITHMS = [("hmac-sha1", 10), ("hmac-sha256", 16), ("hmac-sha384", 24), ("hmac-sha512", 32)]
SOA = dns.rrset.from_text(ZONE, 3600, "IN", "SOA", "ns.example. hostmaster.example. 1 7200 3600 1209600 300")
A = dns.rrset.from_text("www.example.", 3600, "IN", "A", "192.0.2.1")


class Signer:
    """Signs the messages of one exchange, each behind the MAC of the one before it."""

    def __init__(self, key, length):
        self.key = key
        self.length = length
        self.request_mac = b""
        self.context = None

    def sign(self, message, time, multi):
        """The TSIG of an unsigned message, its MAC cut."""
        blank = TSIG(dns.rdataclass.ANY, dns.rdatatype.TSIG, self.key.algorithm, time, FUDGE, b"", ID, 0, b"")
        tsig, _ = dns.tsig.sign(message, self.key, blank, time, self.request_mac, self.context, multi)
        return tsig.replace(mac=tsig.mac[: self.length])

    def request(self, message):
        tsig = self.sign(message, TIME, False)
        self.request_mac = tsig.mac
        return with_record(message, self.key, tsig)

    def answer(self, message, time):
        tsig = self.sign(message, time, True)
        self.context = dns.tsig.get_context(self.key)
        self.context.update(struct.pack("!H", len(tsig.mac)) + tsig.mac)
        return with_record(message, self.key, tsig)


def rendered(flags, rrset=None):
    """A message with the question, and that record as its answer, without compression."""
    out = dns.renderer.Renderer(ID, flags)
    out.compress = None
    out.add_question(ZONE, dns.rdatatype.AXFR)
    if rrset:
        out.add_rrset(dns.renderer.ANSWER, rrset)
    out.write_header()
    return out.get_wire()


def with_record(message, key, tsig):
    """The message with the TSIG behind it, the number of its additional records 1."""
    record = dns.rrset.from_rdata(key.name, 0, tsig)
    out = dns.renderer.Renderer(ID)
    out.compress = None
    out.add_rrset(dns.renderer.ADDITIONAL, record)
    return message[:11] + b"\x01" + message[12:] + out.get_wire()[12:]


def read(octets, key, time, **kw):
    """What dnspython reads of the octets at the moment."""
    with mock.patch("time.time", return_value=time):
        return dns.message.from_wire(octets, keyring=key, **kw)


def check(key, request, first, second):
    """Asserts that dnspython takes the messages of an exchange with whole MACs."""
    asked = read(request, key, TIME)
    found = read(first, key, TIME + 1, request_mac=asked.mac, xfr=True, multi=True, one_rr_per_rrset=True)
    read(second, key, TIME + 2, request_mac=asked.mac, xfr=True, multi=True, tsig_ctx=found.tsig_ctx)


def check_refusal(error, reply, key, request_mac):
    """Asserts that dnspython reads that refusal."""
    try:
        read(reply, key, TIME, request_mac=request_mac)
    except error:
        return
    raise AssertionError(error)


def refusals(key, request):
    """The replies that say BADSIG, BADKEY and BADTIME: the first two unsigned, with the request's TSIG, the last one signed, with the server's time 301
    seconds behind it (RFC 8945, 5.3.2 and 5.2.3)."""
    bare = rendered(dns.flags.QR | dns.rcode.NOTAUTH)
    asked = read(request, key, TIME)
    for error, seen in [(dns.rcode.BADSIG, dns.tsig.PeerBadSignature), (dns.rcode.BADKEY, dns.tsig.PeerBadKey)]:
        reply = with_record(bare, key, asked.tsig[0].replace(mac=b"", error=error))
        check_refusal(seen, reply, key, asked.mac)
        yield error, reply
    reply = dns.message.make_response(asked)
    reply.set_rcode(dns.rcode.NOTAUTH)
    server_time = (TIME + 301).to_bytes(6, "big")
    reply.use_tsig(key, fudge=FUDGE, tsig_error=dns.rcode.BADTIME, other_data=server_time)
    with mock.patch("time.time", return_value=TIME):
        reply = reply.to_wire()
    check_refusal(dns.tsig.PeerBadTime, reply, key, asked.mac)
    yield dns.rcode.BADTIME, reply


def compressed(key):
    """Request and answer, all of it by dnspython."""
    asked = dns.message.make_query(ZONE, dns.rdatatype.AXFR, flags=0)
    asked.id = ID
    asked.use_tsig(key, fudge=FUDGE)
    with mock.patch("time.time", return_value=TIME):
        request = asked.to_wire()
    answer = dns.message.make_response(read(request, key, TIME))
    answer.flags |= dns.flags.AA
    answer.answer.append(SOA)
    with mock.patch("time.time", return_value=TIME + 1):
        first = answer.to_wire()
    return request, first


def main():
    question = rendered(0)
    answers = [rendered(dns.flags.QR | dns.flags.AA, rrset) for rrset in (SOA, A)]
    print("UNSIGNED")
    for message in [question, *answers]:
        print(f"{message.hex()}\\n\\")
    print("EXCHANGES")
    for word, cut in ALGORITHMS:
        key = dns.tsig.Key(KEY_NAME, SECRET, word)
        for length in (dns.tsig.mac_sizes[key.algorithm], cut):
            signer = Signer(key, length)
            request = signer.request(question)
            first = signer.answer(answers[0], TIME + 1)
            second = signer.answer(answers[1], TIME + 2)
            if length != cut:
                check(key, request, first, second)
            print(f"{word} {length:02x} {request.hex()} {first.hex()} {second.hex()}\\n\\")
    print("REFUSALS")
    key = dns.tsig.Key(KEY_NAME, SECRET, "hmac-sha256")
    request = Signer(key, 32).request(question)
    for error, reply in refusals(key, request):
        print(f"{error:04x} {reply.hex()}\\n\\")
    print("COMPRESSED")
    request, first = compressed(dns.tsig.Key(COMPRESSED_KEY_NAME, SECRET, "hmac-sha256"))
    print(f"{request.hex()} {first.hex()}")


main()
