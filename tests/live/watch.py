#!/usr/bin/env python3
"""Stands on both sides of the forwarder in the live test, on loopback, between it and the two sipps.

Each message of a sipp is passed to the forwarder as it came: requests of the caller, responses of the called one, and its BYE. What the
forwarder says and sends is then held to what `second cases` prescribes for that message, the side that it goes to and the table of hidden
calls before: the four numbers; what reaches the other end, by its length and a sum of all its bytes, and nothing there where the message is
refused; the sum of the table; an answer with the reply status to the sender, and none where that is 0. Only what has come through goes
on to the sipp behind it.

Who is hidden is also judged here, from the pages and not by `second`, so that a rule that both have wrong is found. An INVITE out to side 1
whose Privacy holds `header`, `user` or `id`, and every request out to side 1 whose Call-ID and From tag are those of a remembered call, has an
anonymous From and no P-Asserted-Identity, however many came; every other INVITE has all of them as they came, and every other request its
From. Which calls are remembered is told here too, and which of them the forwarder must end by hand (forwarder.c): after each message every
byte of its table must be so.

The regulator's quarter is counted here too: what came through is accepted, all else refused, and this script itself reads the lines of each
message, and so says whether it is unread (with its reason, 2 to 5), a relay caller's or another's; the reasons from 6 on are those that
`second` and the forwarder have told, but for 18: nothing is ended by hand in the records, so more calls may be held there. At the end the
forwarder's live report must be the report of that count, and what it recorded must be the messages as they were sent to it, with their
sides, in every byte.

use: watch.py SIDE FIRST_PORT FORWARDER SECOND RECORDS CALLS REPORT [CASES]

SIDE is the called one's, the caller has the other. The five ports from FIRST_PORT on are those of the calling sipp, the near end, the
forwarder, the far end and the called sipp. RECORDS is where the forwarder records, CALLS where it leaves its table, REPORT where its live
report is written to. CASES is a file of recorded cases (crates/vectors/stdin): each 40th message is sent too, after the sipps have finished.
Ends at SIGTERM with a summary; exit status 0 where all was as prescribed, and all was seen that must be.
"""
import collections
import re
import select
import signal
import socket
import subprocess
import sys
import zlib

HOST = "127.0.0.1"
ROOM = 9216
FILLING = b"\xA5"  # of the buffer in `second cases`
PATIENCE = 2.0     # seconds in which something that must come comes
MASKED = b'"Anonymous" <sip:anonymous@anonymous.invalid>;tag='
HIDING = {b"header", b"user", b"id"}            # tokens of Privacy
COMPACT = {b"From": b"f", b"Call-ID": b"i"}     # compact forms of the names that are looked for

# What the sipps must have brought about, on either side: kinds accepted, replies, numbers of what has one, and of what is dropped without.
ACCEPTED = ["INVITE", "INVITE (later)", "ACK", "BYE", "CANCEL", "OPTIONS"]
ACCEPTED += ["180 to INVITE", "200 to INVITE", "487 to INVITE", "200 to BYE", "200 to CANCEL", "200 to OPTIONS"]
REPLIES = [400, 405, 416, 420, 483, 484]
ANSWERED = [("INVITE", (10, 400, 15, 0))]    # among the replies: a third identity
FULL = ("INVITE", (18, 503, 0, 0))           # out to side 1 alone
DROPPED = [("200", (3, 0, 0, 0)), ("200", (6, 0, 0, 0)), ("200", (11, 0, 0, 0)), ("200", (12, 0, 7, 1))]
DROPPED += [("700", (17, 0, 0, 0)), ("ACK", (12, 0, 2, 1))]


class End:
    """One of the forwarder's two peers: its side, its socket, and the sipp behind it."""

    def __init__(self, side, port, sipp):
        self.side, self.port, self.sipp = side, port, (HOST, sipp)
        self.socket = socket.socket(socket.AF_INET, socket.SOCK_DGRAM)
        self.socket.setsockopt(socket.SOL_SOCKET, socket.SO_RCVBUF, 4 << 20)
        self.socket.bind((HOST, port))


class Calls:
    """The calls that stay hidden, each a pair of Call-ID and tag in one of 32 places, beginning with none."""

    def __init__(self):
        self.pairs = [None] * 32

    def hold(self, pair):
        return pair is not None and pair in self.pairs

    def take(self, message, side):
        """What a message that has no other reason changes, and its reason: 18 where a new pair has no place, else 0."""
        pair = pair_of(message)
        if side == 1 and withholds(message) and not self.hold(pair):
            if None not in self.pairs:
                return 18
            self.pairs[self.pairs.index(None)] = pair
        if side == 1 and message.startswith(b"BYE "):
            self.end(pair)
        return 0

    def end(self, pair):
        self.pairs = [None if held == pair else held for held in self.pairs]

    def table(self):
        """Its bytes: length and Call-ID, length and tag, with zeros up to 129 and to 65 bytes."""
        texts = [bytes([len(text)]) + text for pair in self.pairs for text in pair or (b"", b"")]
        return b"".join(text.ljust(most, b"\0") for text, most in zip(texts, (129, 65) * len(self.pairs)))


class Watch:
    def __init__(self, side, first, forwarder, second, records, calls):
        self.near, self.far = End(1 - side, first + 1, first), End(side, first + 3, first + 4)
        self.address = (HOST, first + 2)
        ports = [str(end.port) for end in sorted((self.near, self.far), key=lambda end: end.side)]
        words = [forwarder, str(first + 2)] + ports + [records, calls]
        self.forwarder = subprocess.Popen(words, stdin=subprocess.PIPE, stdout=subprocess.PIPE, bufsize=0)
        if self.forwarder.stdout.readline() != b"ready\n":
            sys.exit("the forwarder did not start")
        self.second, self.records, self.file_of_calls = second, records, calls
        self.calls, self.calls_of_records = Calls(), Calls()
        self.refused = {}                       # of hidden calls: whether the far end refused the first INVITE; None: it has answered one
        self.waiting = collections.deque()    # what came from a sipp while another message was under way
        self.live = collections.Counter()
        self.recorded = collections.Counter()
        self.shown = collections.Counter()
        self.counted = collections.Counter()    # by line of the report and reason, 0 for accepted
        self.sent = []                          # records of all that was sent to the forwarder
        self.faults = 0
        self.finished = False

    def fault(self, what, message, wanted, got):
        self.faults += 1
        print(f"FAULT: {what}\nmessage: {message!r}\nwanted:  {wanted!r}\ngot:     {got!r}", flush=True)
        if self.faults == 5:
            # Each further one would only cost its wait.
            self.summary()
            sys.exit(1)

    def prescribed(self, message, side):
        """By the second implementation: the four numbers, the length of the outgoing message, and the sums of buffer and table."""
        steps = step(2, 0, 0, self.calls.table()) + step(1, side, ROOM, message)
        done = subprocess.run([self.second, "cases"], input=steps, stdout=subprocess.PIPE, check=True)
        numbers = tuple(int(word) for word in done.stdout.splitlines()[1].split())
        return numbers[:4], numbers[4:6], numbers[6]

    def said(self):
        """The numbers that the forwarder prints for the message under way, or None."""
        if select.select([self.forwarder.stdout], [], [], PATIENCE)[0]:
            return tuple(int(word) for word in self.forwarder.stdout.readline().split())
        return None

    def received(self, end, seconds):
        """The next datagram that the forwarder sends to this end, or None. Those of the sipp are put aside."""
        while select.select([end.socket], [], [], seconds)[0]:
            data, sender = end.socket.recvfrom(65536)
            if sender == self.address:
                return data
            self.waiting.append((data, end))
        return None

    def screened(self, message, sender):
        """Sends a message from one end; the numbers, and what came of it to the other end and back."""
        receiver = self.far if sender is self.near else self.near
        numbers, outgoing, sum_of_calls = self.prescribed(message, receiver.side)
        reason, reply = numbers[:2]
        wanted = due(message, receiver.side, self.calls)
        sender.socket.sendto(message, self.address)
        said = self.said()
        if said != numbers:
            self.fault("the numbers differ", message, numbers, said)
        # The line is printed last, so what must not come needs no wait. What comes late is found at a later message.
        onward = self.received(receiver, PATIENCE if reason == 0 else 0)
        if (onward is not None) != (reason == 0) or length_and_sum(onward or b"") != outgoing:
            self.fault("the outgoing message differs", message, outgoing, onward)
        if onward is not None and caller(onward) != wanted:
            self.fault("the caller is shown or hidden against the pages", message, wanted, caller(onward))
        self.follow(message, receiver.side, reason, onward, sum_of_calls)
        back = self.received(sender, PATIENCE if reply != 0 else 0)
        if (back or b"").split(b" ")[:2] != ([b"SIP/2.0", b"%d" % reply] if reply != 0 else [b""]):
            self.fault("the answer differs", message, reply, back)
        self.count(message, receiver.side, 0 if onward is not None else reason)
        return numbers, onward, back

    def follow(self, message, side, reason, onward, sum_of_calls):
        """Takes the message into the table of hidden calls, and holds that to `second` and to the forwarder's."""
        if reason in (0, 18) and self.calls.take(message, side) != reason:
            self.fault("18 is told, or not, against the pages", message, self.calls.pairs, reason)
        if zlib.adler32(self.calls.table()) != sum_of_calls:
            self.fault("the table of hidden calls differs from that of second", message, self.calls.pairs, sum_of_calls)
        if onward is not None:
            self.end_by_hand(kind(message, (0,), onward), onward, side)
        with open(self.file_of_calls, "rb") as f:
            table = f.read()
        if table != self.calls.table():
            self.fault("the forwarder's table of hidden calls differs", message, self.calls.table(), table)

    def end_by_hand(self, what, onward, side):
        """Ends a hidden call that is over by this outgoing message though no BYE to side 1 ended it."""
        pair, (status, _, method) = hidden_pair(onward, b"From"), what.partition(" to ")
        if side == 1 and method == "BYE" and status >= "200":
            self.end(hidden_pair(onward, b"To"), ENDED_BY_BYE)
        elif not self.calls.hold(pair):
            return
        elif side == 1 and what.startswith("INVITE"):
            self.refused[pair] = False if what == "INVITE" else None
        elif side == 0 and method == "INVITE" and status >= "200" and self.refused.get(pair) is False:
            self.refused[pair] = True if status >= "300" else None
        elif side == 1 and what == "ACK" and self.refused.get(pair):
            self.end(pair, ENDED_BY_REFUSAL)

    def end(self, pair, why):
        if self.calls.hold(pair):
            self.calls.end(pair)
            self.shown[why] += 1

    def count(self, message, side, reason):
        if reason in (0, 18):
            reason = self.calls_of_records.take(message, side)
        line, unread, _ = report_line(message)
        self.counted[(line, unread or reason)] += 1
        self.sent.append(b"SN" + bytes([side]) + len(message).to_bytes(2, "big") + message)

    def report(self):
        """The report of what was counted here."""
        lines = []
        for line in LINES:
            reasons = {reason: count for (found, reason), count in sorted(self.counted.items()) if found == line}
            came, accepted = sum(reasons.values()), reasons.pop(0, 0)
            rate = (came - accepted) * 10000 // came if came else 0
            lines.append(" ".join([f"{line} {came} {accepted} {rate}"] + [f"{reason}={count}" for reason, count in reasons.items()]))
        return "".join(text + "\n" for text in lines + [f"end {len(self.sent)} 0"]).encode()

    def finish_forwarder(self, report):
        """Ends the forwarder, and holds its report and its records to what was counted and sent here."""
        self.forwarder.stdin.close()
        said = self.forwarder.stdout.read()
        self.forwarder.wait()
        with open(report, "wb") as f:
            f.write(said)
        if said != self.report():
            self.fault("the live report differs", b"", self.report(), said)
        with open(self.records, "rb") as f:
            records = f.read()
        if records != b"".join(self.sent):
            self.fault(f"{self.records} has not the messages as they were sent", b"", len(b"".join(self.sent)), len(records))

    def handle(self, message, sender):
        receiver = self.far if sender is self.near else self.near
        numbers, onward, back = self.screened(message, sender)
        what = kind(message, numbers, onward)
        self.live[(what, numbers)] += 1
        self.shown[counted_line(message, onward)] += 1
        if onward is not None:
            self.shown.update(shown(what, message, onward))
            receiver.socket.sendto(onward, receiver.sipp)
        if back is not None:
            sender.socket.sendto(back, sender.sipp)

    def nothing_more(self):
        """Finds what the forwarder sent too late, and puts aside what the sipps have sent."""
        for end in (self.near, self.far):
            unasked = self.received(end, 0)
            if unasked is not None:
                self.fault("the forwarder sent something that nobody waited for", b"", None, unasked)

    def finish(self, _number, _frame):
        self.finished = True

    def serve(self):
        """Up to the signal. A message that is under way is handled to its end, since the forwarder counts it too."""
        while not self.finished:
            if self.waiting:
                self.handle(*self.waiting.popleft())
                continue
            self.nothing_more()
            if not self.waiting:
                select.select([self.near.socket, self.far.socket], [], [], 0.2)

    def send_cases(self, file):
        """Each 40th recorded message with the forwarder's own room, towards its side; whatever calls are held."""
        number = 0
        with open(file, "rb") as f:
            data = f.read()
        for which, side, room, message in steps(data):
            if which in (0, 1) and side in (0, 1) and room == ROOM:
                number += 1
                if number % 40 == 0:
                    numbers = self.screened(message, self.near if self.far.side == side else self.far)[0]
                    self.recorded[("response" if is_response(message) else "request", numbers[0])] += 1
        self.nothing_more()

    def to_show(self):
        """What messages must have shown, accepted ones but for the lines that say where one is counted."""
        outside = self.far.side == 1
        callers = [outcome_line(what, asked, "hidden" if outside else "as it came") for what, asked in HIDDEN]
        callers += [outcome_line(what, asked, "as it came") for what, asked in BARE]
        callers += [identities_line(what, fields, gone) for what, fields in TWO for gone in ([True, False] if outside else [False])]
        return SHOWN + COUNTED + callers + ([ENDED_BY_REFUSAL, ENDED_BY_BYE] if outside else [])

    def lacking(self):
        """What must have been seen, and was not."""
        nothing = (0, 0, 0, 0)
        lacking = [kind for kind in ACCEPTED if (kind, nothing) not in self.live]
        lacking += [f"reply {reply}" for reply in REPLIES if not any(numbers[1] == reply for _, numbers in self.live)]
        refused = ANSWERED + DROPPED + ([FULL] if self.far.side == 1 else [])
        lacking += [f"{kind} refused: {numbers}" for kind, numbers in refused if (kind, numbers) not in self.live]
        return lacking + [what for what in self.to_show() if not self.shown[what]]

    def summary(self):
        print(f"requests to side {self.far.side}, responses to side {self.near.side}: {sum(self.live.values())} messages of the sipps, "
              f"{sum(self.recorded.values())} recorded, {self.faults} faults")
        for (what, numbers), count in sorted(self.live.items()):
            print(f"{count:>6}  {what:<15} " + ("accepted" if numbers[0] == 0 else "reason %d, reply %d, detail %d, missing %d" % numbers))
        for what in sorted({*self.to_show(), *self.shown}):
            print(f"{self.shown[what]:>6}  {what}")
        for (what, reason), count in sorted(self.recorded.items()):
            print(f"{count:>6}  recorded {what}, " + ("accepted" if reason == 0 else f"reason {reason}"))
        lacking = self.lacking()
        if lacking:
            print("never seen: " + "; ".join(lacking))
        return not self.faults and not lacking


def step(which, side, room, data):
    """A step of `second cases`: kind 1 is a message, 2 a table."""
    return bytes([which, side]) + room.to_bytes(2, "big") + len(data).to_bytes(2, "big") + data


def steps(data):
    """The steps of a file: kind, side, room and bytes."""
    place = 0
    while place < len(data):
        room, length = (int.from_bytes(data[place + at:place + at + 2], "big") for at in (2, 4))
        yield data[place], data[place + 1], room, data[place + 6:place + 6 + length]
        place += 6 + length


def length_and_sum(outgoing):
    """As `second cases` tells it: the sum is that of the whole buffer."""
    return len(outgoing), zlib.adler32(outgoing.ljust(ROOM, FILLING))


# The page's lines as patterns, so that what is counted here does not rest on `second`.
TOKEN = rb"[A-Za-z0-9.!%*_+`'~-]"
TEXT = rb"[\t -~\x80-\xff]"
VERSION = rb"[Ss][Ii][Pp]/2\.0"
START = re.compile(rb"(?:%b{1,32} [!-~]{1,256} %b|%b [0-9]{3} %b*)\r\n" % (TOKEN, VERSION, VERSION, TEXT))
FIELD = re.compile(rb"(%b+)[ \t]*:(?:%b|\r\n(?=[ \t]))*\r\n(?![ \t])" % (TOKEN, TEXT))
QUOTED = rb'"(?:\\.|[^"\\])*"'
LINES = ["relay", "other", "unread"]    # of the report
RELAY = b"x-relay-mode"


def read_lines(message):
    """The reason for which a message is not read, 2 to 5, or 0; and the names of its fields up to there."""
    names = []
    if len(message) > 8192:
        return 2, names
    found = START.match(message)
    if not found:
        return 3, names
    place = found.end()
    while not message.startswith(b"\r\n", place):
        found = FIELD.match(message, place)
        if not found:
            return 4, names
        names.append(found[1])
        place = found.end()
    return (5 if len(names) > 96 else 0), names


def report_line(message):
    """The line of the report in which a message to side 0 or 1 stands, the reason for which it is not read, and its names."""
    reason, names = read_lines(message)
    relay = any(name.lower() == RELAY for name in names)
    return "unread" if reason else "relay" if relay else "other", reason, names


def values(message, name):
    """The canonical values of all fields with this name, in any letter case, or From's compact one."""
    fields = re.sub(rb"[ \t]*(\r\n[ \t]+)+", b" ", message.split(b"\r\n\r\n")[0]).split(b"\r\n")[1:]
    names = (name.lower(), COMPACT.get(name))
    return tuple(rest.strip(b" \t") for found, _, rest in (field.partition(b":") for field in fields) if found.rstrip(b" \t").lower() in names)


def value(message, name):
    """The first of them, or nothing."""
    return (values(message, name) or (b"",))[0]


def privacy(message):
    """The tokens of Privacy in small letters."""
    return [token.strip(b" \t").lower() for token in value(message, b"Privacy").split(b";")]


def tag(address):
    """The value of the tag parameter: the last one outside quotes and angle brackets, as a bare URI may have the same text before."""
    bare = re.sub(QUOTED + rb"|<[^>]*>", b"", address)
    return b"".join(re.findall(rb"(?i);[ \t]*tag[ \t]*=[ \t]*([^ \t;]+)", bare)[-1:])


def caller(message):
    return value(message, b"From"), values(message, b"P-Asserted-Identity")


def masked(message):
    return MASKED + tag(value(message, b"From")), ()


def unmasked(message):
    """The caller as it came. Outside INVITE, Privacy and P-Asserted-Identity are ignored."""
    return caller(message) if message.startswith(b"INVITE ") else (value(message, b"From"), ())


def identities(message):
    """How many identities each P-Asserted-Identity field has: what commas part, outside quotes."""
    return tuple(len(re.sub(QUOTED, b"", text).split(b",")) for text in values(message, b"P-Asserted-Identity"))


def withholds(message):
    return message.startswith(b"INVITE ") and bool(HIDING.intersection(privacy(message)))


def pair_of(message):
    """By what a call is remembered."""
    return value(message, b"Call-ID"), tag(value(message, b"From"))


def hidden_pair(message, name):
    """The same of an outgoing message where that field is anonymous, else None."""
    address = value(message, name)
    return (value(message, b"Call-ID"), address[len(MASKED):]) if address.startswith(MASKED) else None


def due(message, side, calls):
    """The caller as an accepted message must show it, by the pages and the calls held before."""
    hidden = side == 1 and not is_response(message) and (withholds(message) or calls.hold(pair_of(message)))
    return masked(message) if hidden else unmasked(message)


def is_response(message):
    return message[:8].upper() == b"SIP/2.0 "


def kind(message, numbers, outgoing):
    """The method of a request; the status of a response, and of an accepted one the method too."""
    words = message.split(b"\r\n")[0].decode("latin-1").split(" ")
    if is_response(message):
        return words[1] if outgoing is None else words[1] + " to " + value(outgoing, b"CSeq").decode("latin-1").split(" ")[-1]
    if 1 <= numbers[0] <= 5:
        return "(unread)"
    later = outgoing is not None and words[0] == "INVITE" and b";tag=" in value(outgoing, b"To")
    return words[0] + (" (later)" if later else "")


# What an accepted message shows beyond its bytes being those prescribed.
IGNORED = "responses that lost X-Relay-Mode, Privacy and P-Asserted-Identity"
LONG = "responses with compact names that became long"
SHORT = "responses to CANCEL that lost Contact and Allow"
UNMASKED = "responses with Privacy: %s and From as it came"
SHOWN = [IGNORED, LONG, SHORT] + [UNMASKED % token.decode() for token in sorted(HIDING)]

# Hidden calls that were ended by hand.
ENDED_BY_REFUSAL = "hidden calls ended after the ACK to a refusal of their first INVITE"
ENDED_BY_BYE = "hidden calls ended after the answer to a BYE of the far end"

# Values of Privacy that withhold the caller of an INVITE, in small letters, and one that does not.
WITHHELD = ["header", "user", "id", "none;user"]
OPEN = "none;identity"
# Requests that must have come with these values, or without any, in hidden calls and in others.
HIDDEN = [(what, asked) for what in ("INVITE", "INVITE (later)", "ACK", "BYE") for asked in WITHHELD] + [("CANCEL", "id")]
HIDDEN += [(what, "") for what in ("INVITE (later)", "ACK", "BYE")]
BARE = [(what, OPEN) for what in ("INVITE", "INVITE (later)", "ACK", "BYE")] + [("BYE", "id"), ("OPTIONS", "id")]
BARE += [(what, "") for what in ("INVITE", "INVITE (later)", "ACK", "BYE")]

# INVITEs with two identities that must have come, by how many each of their fields has.
TWO = [("INVITE", (2,)), ("INVITE (later)", (1, 1))]


# Where messages must have been counted, by how X-Relay-Mode stands in them.
PLAIN, CASED, TWICE = "X-Relay-Mode", "X-Relay-Mode in other letters", "X-Relay-Mode twice"
UNNAMED, NONE = "X-Relay-Mode, not read as a name", "no X-Relay-Mode"
COUNTED = ["counted in relay, accepted: " + mode for mode in (PLAIN, CASED, TWICE)] + ["counted in relay, refused: " + PLAIN]
COUNTED += ["counted in other, accepted: " + mode for mode in (UNNAMED, NONE)] + ["counted in other, refused: " + NONE]
COUNTED += ["counted in unread, refused: " + mode for mode in (UNNAMED, NONE)]


def counted_line(message, onward):
    line, _, names = report_line(message)
    spelt = [name for name in names if name.lower() == RELAY]
    if spelt:
        mode = TWICE if len(spelt) > 1 else PLAIN if spelt[0] == PLAIN.encode() else CASED
    else:
        mode = UNNAMED if RELAY in message.lower() else NONE
    return f"counted in {line}, {'refused' if onward is None else 'accepted'}: {mode}"


def outcome_line(what, asked, outcome):
    return f"{what} {'with Privacy: ' + asked if asked else 'without Privacy'}, the caller {outcome}"


def identities_line(what, fields, gone):
    where = "in one field" if len(fields) == 1 else "in two fields"
    return f"{what} with two identities {where}, {'both gone' if gone else 'both there'}"


def shown(what, message, outgoing):
    asked = b";".join(privacy(message)).decode("latin-1")
    if (what, identities(message)) in TWO:
        yield identities_line(what, identities(message), not identities(outgoing))
    if not is_response(message):
        outcomes = {unmasked(message): "as it came", masked(message): "hidden"}
        yield outcome_line(what, asked, outcomes.get(caller(outgoing), "changed"))
        return
    if lost(message, outgoing, b"X-Relay-Mode", b"Privacy", b"P-Asserted-Identity"):
        yield IGNORED
    if b"\r\nv: " in message and b"\r\nf: " in message and b"\r\nVia: " in outgoing and b"\r\nFrom: " in outgoing:
        yield LONG
    if asked and value(message, b"From") == value(outgoing, b"From") and b"anonymous" not in outgoing:
        yield UNMASKED % asked
    if value(outgoing, b"CSeq").endswith(b" CANCEL") and lost(message, outgoing, b"Contact", b"Allow"):
        yield SHORT


def lost(message, outgoing, *names):
    return all(value(message, name) and not value(outgoing, name) for name in names)


def main():
    if len(sys.argv) not in (8, 9):
        sys.exit(__doc__)
    watch = Watch(int(sys.argv[1]), int(sys.argv[2]), *sys.argv[3:7])
    signal.signal(signal.SIGTERM, watch.finish)
    print("ready", flush=True)
    try:
        watch.serve()
        if len(sys.argv) == 9:
            watch.send_cases(sys.argv[8])
        watch.finish_forwarder(sys.argv[7])
        sys.exit(0 if watch.summary() else 1)
    finally:
        watch.forwarder.terminate()


main()
