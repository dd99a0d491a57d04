#!/usr/bin/env python3
"""Holds the calling party numbers that the library writes and reads to what tshark reads in them.

Out: INVITEs are made from a number, whether it is withheld, a country code and whether the next node is at home. The library's parameter goes
into the optional part of an IAM (ITU-T Q.763), and tshark must read there what the INVITE says: the digits, each indicator, odd or even. The
filler, which tshark does not show, is looked at here. The library must then read its own parameter back to the INVITE's number and `id`.
Back: parameters are made from their fields, good ones and others. tshark must read those fields, and the library must give the number,
`id` and refusal that document 02 gives for what tshark reads.

use: trunk.py ANSWERS FOLDER [SEED]     (default: 1)
ANSWERS is the program made from answers.c; the IAMs and what tshark reads are left in the folder. Exit status 0: nothing differed.
"""
import collections
import itertools
import os
import random
import re
import struct
import subprocess
import sys
import xml.etree.ElementTree as xml

DRAWN = 3
DRAWN_BACK = 400
MTP3 = 141                  # the link type of a pcap file
CALLING_PARTY_NUMBER = 10   # the parameter's name in Q.763
CALLED = "1234567"
MOST_SHOWN = 31             # digits of a number; tshark calls more of them malformed
MOST_TOLD = 10

Call = collections.namedtuple("Call", "number withheld code home invite")
# What is said of a parameter, here or by tshark: digits is a tuple of numbers 0 to 15.
Fields = collections.namedtuple("Fields", "odd nature incomplete plan presentation screening digits")
# A parameter for the way back: its octets, its filler where it has one, and the country code.
Back = collections.namedtuple("Back", "fields filler code octets")

GOOD = Fields(odd=None, nature=4, incomplete=0, plan=1, presentation=0, screening=3, digits=())
TSHARK = {
    "isup.isdn_odd_even_indicator": "odd", "isup.calling_party_nature_of_address_indicator": "nature", "isup.ni_indicator": "incomplete",
    "isup.numbering_plan_indicator": "plan", "isup.address_presentation_restricted_indicator": "presentation",
    "isup.screening_indicator": "screening",
}
HIDING = ("id", "user", "Header", "none;ID", "critical ; id")
SHOWING = (None, "none", "session", "identity", "critical;user-agent")
IDENTITIES = (
    "P-Asserted-Identity: <sip:{0}@relay.example>", "P-Asserted-Identity: <tel:{0}>", "P-Asserted-Identity: tel:{0}",
    'P-Asserted-Identity: "Night desk" <sip:{0}@relay.example;user=phone>', "P-Asserted-Identity: <sip:{0}@relay.example>, <tel:{1}>",
    "p-asserted-identity: <tel:{1}> ,\r\n sip:{0}@relay.example", "P-Asserted-Identity: <tel:{1}>\r\nP-Asserted-Identity: <sip:{0}@relay.example>",
)
INVITE = """INVITE sip:+33123456789@gw.example SIP/2.0
Via: SIP/2.0/UDP relay.example;branch=z9hG4bK7
Max-Forwards: 70
From: <sip:+4912345678@relay.example>;tag=a1
To: <sip:+33123456789@gw.example>
Call-ID: 9x@relay.example
CSeq: 1 INVITE
Contact: <sip:relay.example>
Allow: INVITE, ACK, BYE
""".replace("\n", "\r\n")

differences = 0


def differs(what, wanted, found):
    """Tells a difference; only the first ones are shown."""
    global differences
    differences += 1
    if differences <= MOST_TOLD:
        print(f"{what}: wanted {wanted}, found {found}")


# The INVITEs.


def invite(number, withheld, place):
    """One of many ways to write a call with this caller; of two identities the tel one has another number."""
    lines = IDENTITIES[place % len(IDENTITIES)].format(number, "+8612345678901") + "\r\n"
    privacy = (HIDING if withheld else SHOWING)[place % 5]
    if privacy is not None:
        lines += f"Privacy: {privacy}\r\n"
    return (INVITE + lines + "\r\n").encode()


def drawn_digits(dice, count, first="123456789"):
    return dice.choice(first) + "".join(dice.choices("0123456789", k=count - 1)) if count else ""


def drawn_number(dice, length, code, starts):
    """A number of so many digits that starts with the code, or does not."""
    if starts:
        return "+" + code + drawn_digits(dice, length - len(code), "0123456789")
    while True:
        digits = drawn_digits(dice, length)
        if not digits.startswith(code):
            return "+" + digits


def drawn_callers(dice):
    lengths, codes = range(7, 16), range(1, 4)
    for length, size, starts, home, withheld, _ in itertools.product(lengths, codes, (True, False), (0, 1), (True, False), range(DRAWN)):
        code = drawn_digits(dice, size)
        yield drawn_number(dice, length, code, starts), withheld, code, home and dice.choice((1, 2, 1 << 63))


def worked_callers():
    """The build description's caller; codes that stand at the front by chance; 0 behind the code; a code again behind itself."""
    for home, withheld in itertools.product((0, 1), (False, True)):
        for number, code in (
            ("+33187654321", "33"), ("+33187654321", "3"), ("+33187654321", "331"), ("+33187654321", "332"), ("+33187654321", "87"),
            ("+390612345", "39"), ("+3333333", "33"), ("+333333333333333", "333"), ("+1000000", "1"), ("+1000000", "100"),
            ("+999999999999999", "99"), ("+1234567890", "1"),
        ):
            yield number, withheld, code, home


def calls(dice):
    callers = itertools.chain(worked_callers(), drawn_callers(dice))
    return [Call(*caller, invite(caller[0], caller[1], place)) for place, caller in enumerate(callers)]


def said_by(call):
    """What the parameter must be, by CR 7, from the INVITE."""
    digits = call.number[1:]
    national = call.home != 0 and digits.startswith(call.code)
    if national:
        digits = digits[len(call.code) :]
    return GOOD._replace(
        odd=len(digits) % 2, nature=3 if national else 4, presentation=1 if call.withheld else 0, digits=tuple(map(int, digits))
    )


# The parameters of the way back.


def octets(fields, filler):
    """The octets of Q.763, 3.10."""
    signals = fields.digits + (filler,) * (len(fields.digits) % 2)
    first = fields.odd << 7 | fields.nature
    second = fields.incomplete << 7 | fields.plan << 4 | fields.presentation << 2 | fields.screening
    return bytes((first, second)) + bytes(low | high << 4 for low, high in zip(signals[::2], signals[1::2]))


def drawn_signals(dice, count, first="123456789"):
    return tuple(map(int, drawn_digits(dice, count, first)))


def every_indicator(dice):
    for nature in range(128):
        yield GOOD._replace(nature=nature, digits=drawn_signals(dice, dice.randrange(8, 13)))
    for incomplete, plan, presentation, screening in itertools.product(range(2), range(8), range(4), range(4)):
        fields = GOOD._replace(nature=dice.choice((3, 4)), incomplete=incomplete, plan=plan, presentation=presentation, screening=screening)
        yield fields._replace(digits=drawn_signals(dice, dice.randrange(8, 13)))


def every_length(dice):
    """No digits, and as many as tshark shows, with a first one that is 0 and one that is not."""
    for length, nature, presentation, first in itertools.product(range(MOST_SHOWN + 1), (3, 4), (0, 1), ("0", "123456789")):
        yield GOOD._replace(nature=nature, presentation=presentation, digits=drawn_signals(dice, length, first))


def every_signal(dice):
    """Each code of an address signal, at the front, within and at the end of nine and of ten."""
    for signal, length, place, nature in itertools.product(range(16), (9, 10), (0, 4, -1), (3, 4)):
        signals = list(drawn_signals(dice, length))
        signals[place] = signal
        yield GOOD._replace(nature=nature, digits=tuple(signals))


def drawn_fields(dice):
    for _ in range(DRAWN_BACK):
        fields = GOOD._replace(nature=dice.choice((3, 4)), presentation=dice.randrange(2))
        if dice.randrange(4) == 0:
            name, values = dice.choice((("nature", 128), ("incomplete", 2), ("plan", 8), ("presentation", 4), ("screening", 4)))
            fields = fields._replace(**{name: dice.randrange(values)})
        highest = 15 if dice.randrange(4) == 0 else 9
        yield fields._replace(digits=tuple(dice.randint(0, highest) for _ in range(dice.randint(0, MOST_SHOWN))))


def parameter(fields, filler, code):
    return Back(fields, filler, code, octets(fields, filler))


def parameters(dice):
    """Some have a filler other than 0; an odd number of digits of which there is none is tried too."""
    for fields in itertools.chain(every_indicator(dice), every_length(dice), every_signal(dice), drawn_fields(dice)):
        filler = dice.randrange(16) if dice.randrange(8) == 0 else 0
        yield parameter(fields._replace(odd=len(fields.digits) % 2), filler, drawn_digits(dice, dice.randrange(1, 4)))
    for nature, plan, presentation in itertools.product((3, 4, 5), (1, 2), range(3)):
        yield parameter(GOOD._replace(odd=1, nature=nature, plan=plan, presentation=presentation), 0, "33")
    for filler in range(16):
        yield parameter(GOOD._replace(odd=1, digits=(3, 3, 1, 8, 7, 6, 5, 4, 3)), filler, "33")


def given_by(fields, filler, code):
    """What the library must answer, by CR 7: refusal, `id`, number."""
    digits = "".join(map(str, fields.digits))
    number = "+" + (code if fields.nature == 3 else "") + digits
    if fields.odd and not fields.digits:
        return 43, 0, "-"
    if fields.nature not in (3, 4) or fields.incomplete or fields.plan != 1 or fields.presentation > 1 or fields.screening != 3:
        return 44, 0, "-"
    if fields.odd and filler != 0:
        return 45, 0, "-"
    if max(fields.digits, default=0) > 9:
        return 46, 0, "-"
    if re.fullmatch(r"\+[1-9][0-9]{6,14}", number) is None:
        return 47, 0, "-"
    return 0, fields.presentation, number


# What the library and tshark say.


def ask(answers, lines):
    """The answer of the library to each line, as words."""
    run = subprocess.run([answers], input="".join(line + "\n" for line in lines), stdout=subprocess.PIPE, text=True)
    found = [line.split() for line in run.stdout.splitlines()]
    if run.returncode != 0 or len(found) != len(lines):
        sys.exit(f"{answers}: exit status {run.returncode}, {len(found)} answers to {len(lines)} lines")
    return found


def iam(circuit, parameter):
    """Service information, routing label, circuit, and an IAM with a called number and the parameter."""
    label = 1 | 2 << 14 | (circuit & 15) << 28
    called = octets(GOOD._replace(odd=1, nature=3, screening=0, digits=tuple(map(int, CALLED))), 0)
    # Message type, nature of connection, forward call (two), category, transmission medium; pointers to the called number and behind it.
    fixed = bytes((0x01, 0x00, 0x60, 0x00, 0x0A, 0x00, 2, len(called) + 2))
    optional = bytes((CALLING_PARTY_NUMBER, len(parameter))) + parameter + b"\0"
    return b"\x85" + struct.pack("<IH", label, circuit & 4095) + fixed + bytes((len(called),)) + called + optional


def write_capture(path, found):
    with open(path, "wb") as file:
        file.write(struct.pack("<IHHiIII", 0xA1B2C3D4, 2, 4, 0, 0, 65535, MTP3))
        for place, parameter in enumerate(found):
            message = iam(place, parameter)
            file.write(struct.pack("<IIII", place, 0, len(message), len(message)) + message)


def read_number(parameter):
    """The fields of a calling party number, as tshark shows them one by one, or None; its text of the digits must be the same."""
    fields = {TSHARK[field.get("name")]: int(field.get("show"), 0) for field in parameter if field.get("name") in TSHARK}
    digits = [field for field in parameter.iter("field") if field.get("name").endswith("_address_signal_digit")]
    fields["digits"] = tuple(int(field.get("show")) for field in digits)
    text = [field.get("show") for field in parameter if field.get("name") == "isup.calling"]
    if "".join(text) != "".join(f"{digit:X}" for digit in fields["digits"]):
        differs("the digits of tshark", fields["digits"], text)
    return Fields(**fields) if len(fields) == len(Fields._fields) else None


def read_packet(packet, parameter):
    """The one calling party number that tshark sees; all of the IAM must be as it was made."""
    shown = {field.get("name"): field.get("show") for field in packet.iter("field")}
    if (shown.get("isup.message_type"), shown.get("isup.called")) != ("1", CALLED) or packet.find(".//proto[@name='_ws.malformed']") is not None:
        return None
    name = f"field[@name='isup.parameter_type'][@show='{CALLING_PARTY_NUMBER}']"
    named = [part for part in packet.find("proto[@name='isup']") if part.find(name) is not None]
    if len(named) != 1 or named[0].get("value") != bytes((CALLING_PARTY_NUMBER, len(parameter))).hex() + parameter.hex():
        return None
    return read_number(named[0])


def read_by_tshark(folder, name, found):
    """What tshark reads in each parameter, or None; it must see every IAM. No settings of whoever runs this are used."""
    capture = f"{folder}/{name}.pcap"
    write_capture(capture, found)
    settings = dict(os.environ, HOME=folder, XDG_CONFIG_HOME=folder, WIRESHARK_CONFIG_DIR=folder)
    options = ("-n", "-o", "mtp3.standard:ITU", "-o", "isup.variant:ITU Standard")
    with open(f"{folder}/{name}.pdml", "wb") as shown, open(f"{folder}/{name}.err", "wb") as told:
        run = subprocess.run(["tshark", *options, "-r", capture, "-T", "pdml"], stdout=shown, stderr=told, env=settings)
    if run.returncode != 0:
        sys.exit(f"tshark: exit status {run.returncode}, see {folder}/{name}.err")
    packets = xml.parse(f"{folder}/{name}.pdml").getroot().findall("packet")
    if len(packets) != len(found):
        sys.exit(f"tshark sees {len(packets)} of {len(found)} IAMs")
    return [read_packet(packet, parameter) for packet, parameter in zip(packets, found)]


# The comparisons.


def written(answers, made):
    """The library's parameter of each call; one that is refused has no octets."""
    found = ask(answers, [f"parameter {call.code} {call.home} {call.invite.hex()}" for call in made])
    for call, answer in zip(made, found):
        if answer[:4] != ["0"] * 4:
            differs(f"{call[:4]}", "no refusal", answer)
    return [bytes.fromhex(answer[4].replace("-", "")) for answer in found]


def compare_out(answers, folder, made):
    found = written(answers, made)
    read = read_by_tshark(folder, "out", found)
    returned = ask(answers, [f"caller {call.code} {parameter.hex() or '-'}" for call, parameter in zip(made, found)])
    seen = set()
    for call, parameter, fields, answer in zip(made, found, read, returned):
        wanted = said_by(call)
        seen.add((len(call.number) - 1, len(call.code), wanted.nature, call.withheld))
        if fields != wanted:
            differs(f"{call[:4]} as {parameter.hex()}, by tshark", wanted, fields)
        if wanted.odd and parameter[-1:] > b"\x0f":
            differs(f"{call[:4]} as {parameter.hex()}", "a filler of 0", parameter[-1] >> 4)
        if answer != ["0", str(int(call.withheld)), call.number]:
            differs(f"{call[:4]} as {parameter.hex()}, read back", (0, int(call.withheld), call.number), answer)
    # Every length of a number and of a code, both natures, withheld and not.
    if len(seen) != 9 * 3 * 2 * 2:
        sys.exit(f"only {len(seen)} kinds of calls were tried")


def compare_back(answers, folder, made):
    read = read_by_tshark(folder, "back", [one.octets for one in made])
    returned = ask(answers, [f"caller {one.code} {one.octets.hex()}" for one in made])
    seen = collections.Counter()
    for one, fields, answer in zip(made, read, returned):
        if fields != one.fields:
            differs(f"{one.octets.hex()}, by tshark", one.fields, fields)
            continue
        wanted = given_by(fields, one.filler, one.code)
        seen[wanted[0]] += 1
        if answer != [str(word) for word in wanted]:
            differs(f"{one.octets.hex()} with {one.code}", wanted, answer)
    if differences == 0 and set(seen) != {0, 43, 44, 45, 46, 47}:
        sys.exit(f"only the refusals {sorted(seen)} were tried")
    return seen


def main():
    if len(sys.argv) not in (3, 4):
        sys.exit(__doc__)
    answers, folder = os.path.abspath(sys.argv[1]), os.path.abspath(sys.argv[2])
    dice = random.Random(int(sys.argv[3]) if len(sys.argv) == 4 else 1)
    out, there = calls(dice), list(parameters(dice))
    compare_out(answers, folder, out)
    print(f"{len(out)} INVITEs: the parameter of each compared with tshark's reading of it, and read back")
    seen = compare_back(answers, folder, there)
    refusals = ", ".join(f"{count} with {refusal}" for refusal, count in sorted(seen.items()) if refusal != 0)
    print(f"{len(there)} parameters for the way back: {seen[0]} have a number, {refusals}")
    print(f"{len(out) + len(there)} parameters compared, {differences} differences")
    sys.exit(differences != 0)


main()
