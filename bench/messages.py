#!/usr/bin/env python3
"""Writes the benchmark's messages into a folder, and its rows of hidden calls into another: messages.py FOLDER ROWS

call            the build description's call in full
call-open       the call without Privacy
call-bye        the BYE of the call
call-two        the call with a tel identity too, in the same field
call-fields     the same in a field of its own, before the sip one
call-200        a 200 to it, with as many bytes and fields
call-180        a 180 to it
invite          an INVITE of about 1,300 bytes with a body
invite-200      a 200 to it of about the same size, with a body
refused-REASON  the same INVITE, refused early (3: start line), in the middle (4: a field without colon) or late (12: no Allow)
empty           80 empty fields
SHAPE-LENGTH    messages that ask for the most work, accepted, of 1,000 to 8,192 bytes each:
  folds         one value folded at every fifth byte
  quoted        one long quoted string with an escape at every second byte
  parameters    one address with many parameters
  bare          the same, each parameter as short as can be
  folded        the same, with a fold before each
  tags          many required tags
  privacy       many tokens of Privacy, each as short as can be, the last one withholds the caller
  fields        96 fields

A row is a byte for the side, or 2 for the end of a call, one for the reason, 1 where the table of calls changes or 0, the length of the Call-ID
that an end has or 0, the table before, and the message, or the Call-ID and the tag of an end:

side-0          the call to side 0, none held
entered         the call, none held
open            the call without Privacy, none held
held, bye, end  the call, its BYE and its end, its pair being the only one held; held-last and so on: being the last of 32
bye-unknown     the BYE, none held; bye-others: 32 others are held; and the same of end
full            the call where 32 others are held
full-alike      the same, where all 33 pairs are the longest and differ in their last byte alone
full-sums       the same, where they differ in their last two bytes alone, whose sum is the same in all
full-inside     the same, where these two bytes stand inside the tag

Where others are held, but for the last three, pairs are as they mostly are: a Call-ID of 30 bytes and a tag of 10, always drawn in the same way.
"""
import os
import random
import string
import sys

LENGTHS = [1000, 2000, 3000, 4000, 6000, 8192]
SHAPES = ["folds", "quoted", "parameters", "bare", "folded", "tags", "privacy", "fields"]

CALL = """INVITE sip:+33123456789@gw.example SIP/2.0
v: SIP/2.0/UDP relay.example;branch=z9hG4bK7
Max-Forwards: 70
f: <sip:+33187654321@relay.example>;tag=a1
t: <sip:+33123456789@gw.example>
i: 9x@relay.example
CSeq: 1 INVITE
m: <sip:relay.example>
Allow: INVITE, ACK, BYE
X-Relay-Mode: text
P-Asserted-Identity: <sip:+33187654321@relay.example>
Privacy: id
l: 0

"""

CALL_BYE = """BYE sip:+33123456789@gw.example SIP/2.0
v: SIP/2.0/UDP relay.example;branch=z9hG4bK8
Max-Forwards: 70
f: <sip:+33187654321@relay.example>;tag=a1
t: <sip:+33123456789@gw.example>;tag=b2
i: 9x@relay.example
CSeq: 2 BYE
X-Relay-Mode: text
l: 0

"""

CALL_OPEN = CALL.replace("Privacy: id\n", "")

# Call-ID and From tag of all three.
PAIR = ("9x@relay.example", "a1")

SIP_IDENTITY = "P-Asserted-Identity: <sip:+33187654321@relay.example>"

CALL_200 = """SIP/2.0 200 OK
v: SIP/2.0/UDP relay.example;branch=z9hG4bK7
Record-Route: <sip:gw.example;lr>
f: <sip:+33187654321@relay.example>;tag=a1
t: <sip:+33123456789@gw.example>;tag=b2
i: 9x@relay.example
CSeq: 1 INVITE
m: <sip:gw.example:5060>
Allow: INVITE, ACK, BYE
X-Relay-Mode: text
P-Asserted-Identity: <sip:+33123456789@gw.example>
k: 100rel, timer
l: 0

"""

CALL_180 = """SIP/2.0 180 Ringing
v: SIP/2.0/UDP relay.example;branch=z9hG4bK7
f: <sip:+33187654321@relay.example>;tag=a1
t: <sip:+33123456789@gw.example>;tag=b2
i: 9x@relay.example
CSeq: 1 INVITE
m: <sip:gw.example>
l: 0

"""

SDP = """v=0
o=relay 3891201 3891201 IN IP4 192.0.2.10
s=relay call
c=IN IP4 192.0.2.10
t=0 0
m=audio 40000 RTP/AVP 8 101
a=rtpmap:8 PCMA/8000
a=rtpmap:101 telephone-event/8000
a=fmtp:101 0-15
a=ptime:20
a=sendrecv
m=text 40002 RTP/AVP 98 99
a=rtpmap:98 t140/1000
a=rtpmap:99 red/1000
a=fmtp:99 98/98/98
"""

INVITE = """INVITE sip:+33123456789@gw.example:5060;user=phone SIP/2.0
Via: SIP/2.0/UDP border.relay.example:5060;branch=z9hG4bK4b43c2ff8.1
Via: SIP/2.0/UDP proxy.relay.example:5060;branch=z9hG4bK77ef4c2312983.1;received=192.0.2.2
Via: SIP/2.0/UDP 192.0.2.10:5060;branch=z9hG4bKnashds8;rport=5060
Record-Route: <sip:border.relay.example;lr>, <sip:proxy.relay.example;lr>
Max-Forwards: 68
From: "Relay Desk 4" <sip:+33187654321@relay.example;user=phone>;tag=1928301774
To: <sip:+33123456789@gw.example;user=phone>
Call-ID: a84b4c76e66710-3891201@192.0.2.10
CSeq: 314159 INVITE
Contact: <sip:+33187654321@192.0.2.10:5060;transport=udp>
Allow: INVITE, ACK, BYE, CANCEL, OPTIONS, PRACK, UPDATE
Supported: 100rel, timer, replaces
Session-Expires: 1800;refresher=uac
P-Asserted-Identity: "Relay Desk 4" <sip:+33187654321@relay.example>
Privacy: id
User-Agent: relay-desk/3.2
X-Relay-Mode: text
Accept: application/sdp
Content-Type: application/sdp
Content-Length: {length}

"""

INVITE_200 = """SIP/2.0 200 OK
Via: SIP/2.0/UDP border.relay.example:5060;branch=z9hG4bK4b43c2ff8.1
Via: SIP/2.0/UDP proxy.relay.example:5060;branch=z9hG4bK77ef4c2312983.1;received=192.0.2.2
Via: SIP/2.0/UDP 192.0.2.10:5060;branch=z9hG4bKnashds8;rport=5060
Record-Route: <sip:border.relay.example;lr>, <sip:proxy.relay.example;lr>
From: "Relay Desk 4" <sip:+33187654321@relay.example;user=phone>;tag=1928301774
To: <sip:+33123456789@gw.example;user=phone>;tag=314159-26
Call-ID: a84b4c76e66710-3891201@192.0.2.10
CSeq: 314159 INVITE
Contact: <sip:+33123456789@192.0.2.20:5060;transport=udp>
Allow: INVITE, ACK, BYE, CANCEL, OPTIONS, PRACK, UPDATE
Supported: 100rel, timer, replaces
Require: timer
Session-Expires: 1800;refresher=uac
P-Asserted-Identity: "Gateway 2" <sip:+33123456789@gw.example>
Privacy: none
Server: gateway/1.4
X-Relay-Mode: text
Accept: application/sdp
Content-Type: application/sdp
Content-Length: {length}

"""

PLAIN = {
    "Via": "SIP/2.0/UDP a.example;branch=z9hG4bK7", "Max-Forwards": "70", "From": "<sip:+33187654321@a.example>;tag=1", "To": "<sip:+33123456789@b.example>",
    "Call-ID": "x@a.example", "CSeq": "1 INVITE", "Contact": "<sip:a.example>", "Allow": "INVITE, ACK, BYE", "P-Asserted-Identity": "<sip:+33187654321@a.example>",
    "Content-Length": "0",
}


def crlf(text):
    return text.replace("\n", "\r\n")


def built(fields):
    lines = ["INVITE sip:+33123456789@b.example SIP/2.0"] + [f"{name}: {value}" for name, value in fields]
    return "\r\n".join(lines) + "\r\n\r\n"


def stretched(name, front, piece, back, length):
    """The plain INVITE with one value made long, to exactly this length with the help of an ignored field."""
    def with_times(times, fill):
        fields = dict(PLAIN)
        fields[name] = front + piece * times + back
        return built(list(fields.items()) + [("X-Fill", "f" * fill)])
    times = (length - len(with_times(0, 0))) // len(piece)
    return with_times(times, length - len(with_times(times, 0)))


def many_fields(length):
    """96 fields; Supported values share what is left of the length."""
    base = list(PLAIN.items())
    more = 96 - len(base) - 1
    share = (length - len(built(base + [("k", "x")] * more + [("X-Fill", "")]))) // more + 1
    fields = base + [("k", "x" * max(share, 1))] * more
    short = length - len(built(fields + [("X-Fill", "")]))
    return built(fields + [("X-Fill", "f" * max(short, 0))])


def shaped(shape, length):
    if shape == "folds":
        return stretched("Supported", "x", ",\r\n x", "", length)
    if shape == "quoted":
        return stretched("From", '"', '\\"', '" <sip:+33187654321@a.example>;tag=1', length)
    if shape == "parameters":
        return stretched("From", "<sip:+33187654321@a.example>", ";a=b", ";tag=1", length)
    if shape == "bare":
        return stretched("From", "<sip:+33187654321@a.example>", ";a", ";tag=1", length)
    if shape == "folded":
        return stretched("From", "<sip:+33187654321@a.example>", "\r\n ;a", ";tag=1", length)
    if shape == "tags":
        return stretched("Require", "timer", ",timer", "", length)
    if shape == "privacy":
        return stretched("Privacy", "none", ";x", ";user", length)
    return many_fields(length)


def replaced(text, old, new):
    """The text with one part, which stands in it once, replaced."""
    if text.count(old) != 1:
        sys.exit(f"{old!r} does not stand once in the message")
    return text.replace(old, new)


PLACES = 32


def table(pairs):
    """The table of calls in which these pairs stand in the first places."""
    places = [part for call_id, tag in pairs for part in (text_of(call_id, 128), text_of(tag, 64))]
    return b"".join(places).ljust(PLACES * (1 + 128 + 1 + 64), b"\0")


def text_of(text, most):
    return bytes([len(text)]) + text.encode().ljust(most, b"\0")


def usual_pairs():
    """33 of them: the last one is that of the message."""
    dice = random.Random(1)

    def drawn(length):
        return "".join(dice.choice(string.ascii_letters + string.digits) for _ in range(length))
    return [(drawn(16) + "@relay.example", drawn(10)) for _ in range(PLACES + 1)]


def alike_pairs(ends):
    """33 pairs of the longest texts, whose tags have these ends."""
    return [("i" * 128, "t" * (64 - len(end)) + end) for end in ends[:PLACES + 1]]


def screening(side, reason, changes, pairs, message, own=PAIR):
    """The row of this message with another pair in it."""
    message = replaced(replaced(message, PAIR[0], own[0]), "tag=" + PAIR[1], "tag=" + own[1])
    return bytes([side, reason, changes, 0]) + table(pairs) + crlf(message).encode()


def ending(reason, pairs, own=PAIR):
    return bytes([2, reason, reason == 0, len(own[0])]) + table(pairs) + "".join(own).encode()


def rows_of_calls():
    *others, usual = usual_pairs()
    letters = string.ascii_uppercase + string.ascii_lowercase
    *alike, another = alike_pairs(letters)
    # The second letter falls as the first one rises.
    *sums, one_more = alike_pairs([first + second for first, second in zip(letters, reversed(letters))])
    *inside, last_one = alike_pairs([first + "t" * 4 + second + "t" * 18 for first, second in zip(letters, reversed(letters))])
    rows = {
        "side-0": screening(0, 0, 0, [], CALL), "entered": screening(1, 0, 1, [], CALL), "open": screening(1, 0, 0, [], CALL_OPEN),
        "bye-unknown": screening(1, 0, 0, [], CALL_BYE), "bye-others": screening(1, 0, 0, others, CALL_BYE, usual),
        "end-unknown": ending(19, []), "end-others": ending(19, others, usual), "full": screening(1, 18, 0, others, CALL, usual),
        "full-alike": screening(1, 18, 0, alike, CALL, another), "full-sums": screening(1, 18, 0, sums, CALL, one_more),
        "full-inside": screening(1, 18, 0, inside, CALL, last_one),
    }
    for name, pairs, own in (("", [PAIR], PAIR), ("-last", others[1:] + [usual], usual)):
        rows["held" + name] = screening(1, 0, 0, pairs, CALL, own)
        rows["bye" + name] = screening(1, 0, 1, pairs, CALL_BYE, own)
        rows["end" + name] = ending(0, pairs, own)
    return rows


def write(folder, files):
    os.makedirs(folder, exist_ok=True)
    for name, data in files.items():
        with open(os.path.join(folder, name), "wb") as f:
            f.write(data)


def main():
    if len(sys.argv) != 3:
        sys.exit(__doc__)
    sdp = crlf(SDP)
    invite = crlf(INVITE.format(length=len(sdp))) + sdp
    messages = {
        "call": crlf(CALL), "call-two": crlf(replaced(CALL, SIP_IDENTITY, SIP_IDENTITY + ", <tel:+33187654321>")),
        "call-fields": crlf(replaced(CALL, SIP_IDENTITY, "P-Asserted-Identity: <tel:+33187654321>\n" + SIP_IDENTITY)),
        "call-open": crlf(CALL_OPEN), "call-bye": crlf(CALL_BYE),
        "call-200": crlf(CALL_200), "call-180": crlf(CALL_180), "invite": invite,
        "invite-200": crlf(INVITE_200.format(length=len(sdp))) + sdp,
        "refused-3": replaced(invite, " SIP/2.0\r\n", " SIP/2.1\r\n"), "refused-4": replaced(invite, "CSeq: ", "CSeq "),
        "refused-12": replaced(invite, "Allow: ", "X-Allow: "),
        "empty": built(list(PLAIN.items())).removesuffix("\r\n") + "k:\r\n" * 80 + "\r\n",
    }
    for shape in SHAPES:
        for length in LENGTHS:
            messages[f"{shape}-{length}"] = shaped(shape, length)
    write(sys.argv[1], {name: text.encode("latin-1") for name, text in messages.items()})
    write(sys.argv[2], rows_of_calls())


main()
