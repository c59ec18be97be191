#!/usr/bin/python3
"""Prints streams of messages signed by TSIG (RFC 8945, 5.3.1), and signed requests with EDNS, in hexadecimal digits.

usage: tools/signed_stream_vectors.py

It needs dnspython, by Debian's package for Debian's own Python: apt-get update && apt-get install -y python3-dnspython

What it prints is pasted into the constants of crates/tsig_tests/src/tsig_port_stream_vector_tests.rt and
crates/transfer_tests/src/signed_vector_tests.rt, whose names stand above their lines:

PARTS: in each line an answer of a transfer in five messages: how many seconds after the request it is signed, `1` where it has the question for the
whole zone `example.`, and its records.
STREAMS: in each line an algorithm, how many octets of each MAC are sent, in two digits, the request at the moment TIME with id 1000, and those answers.
COMPRESSED: the same with the names compressed, by hmac-sha256, whole MACs.
AT_ONCE: the same as STREAMS, all at the moment TIME; PARTS_AT_ONCE: their lines of PARTS.
TAKEN: in each line the moment of a request by the key `key.`, the place of an octet of flags, in the OPT where it has one, the request, and what it is
without its TSIG.
ANSWERED: in each line how the request came, its moment, the request, and what a primary of the zone of ZONE gives in answer: the whole reply, between
`begin` and `end` where it is a transfer.
TRUNCATED: a request and the reply that says that another one was too long (RFC 8945, 5.3).

With whole MACs dnspython makes the streams by itself (`to_wire` with `multi` and `tsig_ctx`), and takes them. All MACs, cut ones too, are computed a second
time by Python's hmac over what RFC 8945, 4.3 and 5.3.1, says, and whole ones have to be the same.

The requests of `dig` and `named` were captured from BIND 9.18.49, by a server on 127.0.0.1 that wrote down what it received:

dig +edns=0 -y hmac-sha256:key.:AAEC @127.0.0.1 example. AXFR
dig +edns=0 +nsid +dnssec +bufsize=4096 +nocookie -y hmac-sha256:key.:AAEC @127.0.0.1 example. AXFR
dig +noedns -y hmac-sha256:key.:AAEC @127.0.0.1 example. AXFR
dig +edns=0 -y hmac-sha256:key.:AAEC @127.0.0.1 example. IXFR=1
dig +edns=0 +tcp -y hmac-sha256:key.:AAEC @127.0.0.1 www.example. A
named, zone "example" { type secondary; primaries { 127.0.0.1 key "key."; }; request-ixfr no; }: it asks for the SOA, with EDNS, then for the zone, without
"""

import hashlib
import hmac
from unittest import mock

import needs

needs.dnspython()

import dns.edns
import dns.flags
import dns.message
import dns.name
import dns.rcode
import dns.rdatatype
import dns.renderer
import dns.rrset
import dns.tsig

ID = 1000
FUDGE = 300
# More than 32 bits.
TIME = 0x0102030405
SECRET = bytes(range(1, 33))
KEY_NAME = dns.name.from_text("Xfr-Key.")
SHORT_KEY = dns.tsig.Key(dns.name.from_text("key."), bytes(range(3)), "hmac-sha256")
APEX = dns.name.from_text("example.")
# The algorithm, and a length to which its MACs are cut.
ALGORITHMS = [("hmac-sha1", 10), ("hmac-sha256", 16), ("hmac-sha384", 24), ("hmac-sha512", 32)]


def rrset(owner, rtype, data):
    """A set of one record: dnspython writes those of larger ones in any order."""
    return dns.rrset.from_text(owner, 3600, "IN", rtype, data)


SOA = rrset("example.", "SOA", "ns.example. hostmaster.example. 7 7200 3600 1209600 300")
# The answers of the transfer: whether the question stands in it, and its records.
PARTS = [
    (True, [SOA, rrset("example.", "NS", "ns.example.")]),
    (False, [rrset("ns.example.", "A", "192.0.2.1"), rrset("ns.example.", "A", "192.0.2.2")]),
    (True, [rrset("txt.example.", "TXT", '"one" "two"')]),
    (False, [rrset("example.", "MX", "10 mail.example."), rrset("mail.example.", "AAAA", "2001:db8::1")]),
    (False, [SOA]),
]
LATER = [k * k for k in range(1, 6)]
AT_ONCE = [0] * 5
# The zone that the tests' primary has.
ZONE = [
    rrset("example.", "SOA", ". . 1 0 0 0 0"),
    rrset("example.", "NS", "ns.example."),
    rrset("ns.example.", "A", "192.0.2.1"),
    rrset("ns.example.", "A", "192.0.2.2"),
]

CAPTURED = [
    ("tcp", 1795933262, "771000200001000000000002076578616d706c650000fc000100002904d000000000000c000a0008189115081650d3c2036b65790000fa00ff00000000003d0b686d61632d7368613235360000006b0bc44e012c00202ef777528303d8c1104b558cde5f2c3b25a802a7feff1e47fdbd12661015babc771000000000"),
    ("tcp", 1795933262, "b3a700200001000000000002076578616d706c650000fc0001000029100000008000000400030000036b65790000fa00ff00000000003d0b686d61632d7368613235360000006b0bc44e012c0020f4349a5decd5a6d9fb22fc8d0593df911a0bab51f26e3165d199de470d9b0960b3a700000000"),
    ("tcp", 1795933290, "e4c600200001000000000001076578616d706c650000fc0001036b65790000fa00ff00000000003d0b686d61632d7368613235360000006b0bc46a012c00201346260824c97f9aef9e886fe05c5ec71845fe9f5b2aa2c8cfa9591ad4443ff4e4c600000000"),
    ("tcp", 1795933290, "45db00000001000000010002076578616d706c650000fb0001c00c000600010000000000160000000000010000000000000000000000000000000000002904d000000000000c000a00088218fb3d1535b46e036b65790000fa00ff00000000003d0b686d61632d7368613235360000006b0bc46a012c0020e5ef07f55c28aa32e06f79a9c7d5bad4b2cc053e4077429460391900d2fa249045db00000000"),
    ("tcp", 1795933290, "f8760120000100000000000203777777076578616d706c65000001000100002904d000000000000c000a0008ec4db3800ecf5017036b65790000fa00ff00000000003d0b686d61632d7368613235360000006b0bc46a012c0020c100382a256e40def1ed335f3835306357e4fe7fd0cf17fbf43759e8fc28587af87600000000"),
    ("udp", 1795933262, "e3a800000001000000000002076578616d706c650000060001000029080000000000000400090000036b65790000fa00ff00000000003d0b686d61632d7368613235360000006b0bc44e012c0020225ac65b35e305aa33d17ee1c6546e6b23aee8fad4f3af8bd7f0f01d1f4c7e9be3a800000000"),
    ("tcp", 1795933262, "d33900000001000000000001076578616d706c650000fc0001036b65790000fa00ff00000000003d0b686d61632d7368613235360000006b0bc44e012c00200e8636b43aebdf8a0b77f819f270835d723a1dac14e20d6286d7e22c0ac1f502d33900000000"),
]


class Plain(dns.renderer.Renderer):
    """Writes out each name."""

    def __init__(self, *args, **kw):
        super().__init__(*args, **kw)
        self.compress = None


def wire(message, time, plain=True, **kw):
    """The octets of a message that dnspython signs at the moment."""
    renderer = Plain if plain else dns.renderer.Renderer
    with mock.patch("dns.renderer.Renderer", renderer), mock.patch("time.time", return_value=time):
        return message.to_wire(**kw)


def read(octets, key, time, **kw):
    """What dnspython reads of the octets at the moment."""
    with mock.patch("time.time", return_value=time):
        return dns.message.from_wire(octets, keyring=key, **kw)


def asking(key, edns):
    """A question for the zone, not signed yet."""
    asked = dns.message.make_query(APEX, dns.rdatatype.AXFR, flags=0)
    asked.id = ID
    edns(asked)
    asked.use_tsig(key, fudge=FUDGE)
    return asked


def answer(asked, with_question, rrsets):
    """An answer to it, not signed yet."""
    out = dns.message.make_response(asked)
    out.use_edns(-1)
    out.flags |= dns.flags.AA
    out.answer = list(rrsets)
    if not with_question:
        out.question = []
    return out


def bare_wire(message, plain=True):
    """The octets of a message without a TSIG."""
    kept, message.tsig = message.tsig, None
    out = wire(message, 0, plain)
    message.tsig = kept
    return out


def by_dnspython(key, plain, moments):
    """The stream as dnspython makes and takes it."""
    request = wire(asking(key, lambda asked: None), TIME, plain)
    asked = read(request, key, TIME)
    out, made, taken = [request], None, None
    for part, later in zip(PARTS, moments):
        message = answer(asked, *part)
        octets = wire(message, TIME + later, plain, multi=True, tsig_ctx=made)
        made = message.tsig_ctx
        found = read(octets, key, TIME + later, request_mac=asked.mac, xfr=True, multi=True, tsig_ctx=taken, one_rr_per_rrset=True)
        taken = found.tsig_ctx
        out.append(octets)
    return out


def with_tsig(key, length, octets, time, prior, timers=False):
    """The octets with a TSIG, and its MAC. The digest is of the MAC before it, of the message and of the TSIG's variables, or of its timers (RFC 8945, 4.3)."""
    digest = getattr(hashlib, str(key.algorithm).rstrip(".").split("-")[1])
    times = time.to_bytes(6, "big") + FUDGE.to_bytes(2, "big")
    name = key.name.to_wire()
    algorithm = key.algorithm.to_wire()
    variables = key.name.canonicalize().to_wire() + b"\0\xff" + bytes(4) + algorithm + times + bytes(4)
    counted = len(prior).to_bytes(2, "big") + prior if prior else b""
    mac = hmac.new(key.secret, counted + octets + (times if timers else variables), digest).digest()[:length]
    data = algorithm + times + len(mac).to_bytes(2, "big") + mac + octets[:2] + bytes(4)
    record = name + b"\0\xfa\0\xff" + bytes(4) + len(data).to_bytes(2, "big") + data
    count = int.from_bytes(octets[10:12], "big") + 1
    return octets[:10] + count.to_bytes(2, "big") + octets[12:] + record, mac


def by_hmac(key, length, plain, moments):
    """The stream with MACs that Python's hmac computes."""
    asked = asking(key, lambda asked: None)
    request, mac = with_tsig(key, length, bare_wire(asked, plain), TIME, b"")
    out = [request]
    for number, (part, later) in enumerate(zip(PARTS, moments)):
        octets, mac = with_tsig(key, length, bare_wire(answer(asked, *part), plain), TIME + later, mac, number > 0)
        out.append(octets)
    return out


def parts(moments):
    for later, (with_question, rrsets) in zip(moments, PARTS):
        records = []
        for found in rrsets:
            out = Plain(ID)
            out.add_rrset(dns.renderer.ANSWER, found)
            records.append(out.get_wire()[12:].hex())
        print(f"{later:x}", int(with_question), *records)


def streams(moments):
    for word, cut in ALGORITHMS:
        key = dns.tsig.Key(KEY_NAME, SECRET, word)
        whole = dns.tsig.mac_sizes[key.algorithm]
        assert by_dnspython(key, True, moments) == by_hmac(key, whole, True, moments)
        for length in (whole, cut):
            print(word, f"{length:02x}", *(octets.hex() for octets in by_hmac(key, length, True, moments)))


def edns_requests():
    """Requests of dnspython with an OPT before the TSIG, and those that were captured."""
    option = dns.edns.GenericOption
    kinds = [
        lambda asked: asked.use_edns(0),
        lambda asked: asked.use_edns(0, dns.flags.DO, 4096),
        lambda asked: asked.use_edns(0, 0, 1232, options=[option(3, b""), option(10, bytes(range(8))), option(11, b"\0\x64"), option(12, bytes(31))]),
    ]
    for kind in kinds:
        yield "tcp", TIME, wire(asking(SHORT_KEY, kind), TIME, False)
    for transport, time, digits in CAPTURED:
        yield transport, time, bytes.fromhex(digits)


def without_tsig(octets, time):
    """The octets without the TSIG that ends them."""
    found = read(octets, SHORT_KEY, time)
    tsig = len(SHORT_KEY.name.to_wire()) + 10 + len(found.tsig[0].to_wire())
    count = int.from_bytes(octets[10:12], "big") - 1
    return octets[:10] + count.to_bytes(2, "big") + octets[12:-tsig]


def flags_place(bare):
    """The place of the first octet of the OPT's flags (RFC 6891, 6.1.3), where such a record ends the message, else of the header's second one."""
    found = dns.message.from_wire(bare)
    if found.edns < 0:
        return 3
    return len(bare) - len(b"".join(bytes(4) + option.to_wire() for option in found.options)) - 4


def reply(octets, time):
    """The primary's reply: the zone, its SOA to one who has its serial (RFC 1995, 2), REFUSED to other questions; without an OPT."""
    asked = read(octets, SHORT_KEY, time)
    rdtype = asked.question[0].rdtype
    if rdtype == dns.rdatatype.AXFR:
        out = answer(asked, True, [*ZONE, ZONE[0]])
    elif rdtype == dns.rdatatype.IXFR:
        out = answer(asked, True, ZONE[:1])
    else:
        out = answer(asked, True, [])
        out.flags &= ~dns.flags.AA
        out.set_rcode(dns.rcode.REFUSED)
    return signed_reply(asked, out, time)


def signed_reply(asked, out, time):
    out.request_mac = asked.mac
    octets = wire(out, time)
    read(octets, SHORT_KEY, time, request_mac=asked.mac)
    assert octets == with_tsig(SHORT_KEY, 32, bare_wire(out), time, asked.mac)[0]
    return octets


def truncated():
    asked = dns.message.make_query("www.example.", dns.rdatatype.A)
    asked.id = ID
    asked.use_tsig(SHORT_KEY, fudge=FUDGE)
    request = wire(asked, TIME)
    asked = read(request, SHORT_KEY, TIME)
    out = answer(asked, True, [])
    out.flags = dns.flags.QR | dns.flags.TC | dns.flags.RD
    return request, signed_reply(asked, out, TIME)


def main():
    print("PARTS")
    parts(LATER)
    print("STREAMS")
    streams(LATER)
    print("COMPRESSED")
    key = dns.tsig.Key(KEY_NAME, SECRET, "hmac-sha256")
    compressed = by_dnspython(key, False, LATER)
    assert compressed == by_hmac(key, 32, False, LATER)
    print("hmac-sha256 20", *(octets.hex() for octets in compressed))
    print("PARTS_AT_ONCE")
    parts(AT_ONCE)
    print("AT_ONCE")
    streams(AT_ONCE)
    print("TAKEN")
    for _, time, request in edns_requests():
        bare = without_tsig(request, time)
        print(f"{time:x}", f"{flags_place(bare):x}", request.hex(), bare.hex())
    print("ANSWERED")
    for transport, time, request in edns_requests():
        digits = reply(request, time).hex()
        is_whole = dns.message.from_wire(request, keyring=SHORT_KEY, question_only=True).question[0].rdtype == dns.rdatatype.AXFR
        print(transport, f"{time:x}", request.hex(), f"begin {digits} end" if is_whole else digits)
    print("TRUNCATED")
    print(*(octets.hex() for octets in truncated()))


main()
