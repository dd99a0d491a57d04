#!/usr/bin/env python3
"""Writes inputs for the program cause_map to a new folder, each to a file of its own: those that are fixed, and drawn ones for each seed.

use: inputs.py FOLDER [SEED...]
"""
import os
import random
import sys

LONGEST = 25
DRAWN = 500
# What is near to a line of digits, and is none.
GARBAGE = (
    b"\n", b"\n\n", b"\r", b"\r\n", b" ", b"\t", b" \n", b"26\r\n", b"26\r", b"26 \n", b" 26\n", b"26\t", b"\t26", b"2 6", b"26\n\n", b"\n26", b"\n26\n",
    b"26\n27", b"26\n27\n", b"26\n ", b"26\n\0", b"26\r\n27\r\n", b"+26", b"-26", b"+0\n", b"-0\n", b"-1", b"26.", b"26.0", b"2e1", b"0x1a", b"1a", b"a1",
    b"2,6", b"2_6", b"26;", b"'26'", b'"26"', b"x", b"twenty-six\n", b"*", b"not a number of 1 to 19 digits\n", b" 26 480  31\n", b"480 31 0\n", b"\0",
    b"\0\0", b"26\0", b"\0" b"26", b"2\0" b"6", b"\0\n", b"26\0\n", b"\xff", b"\xff\xfe", b"26\xff", b"\xb2\xb6", b"\x32\xb6", b"\xc2\xb2", b"\xd9\xa2\xd9\xa6",
    b"\xef\xbb\xbf26\n", b"\x1a", b"26\x1a", b"\x04",
)
# Where a buffer may end.
LENGTHS = (26, 31, 32, 33, 63, 64, 65, 127, 128, 129, 255, 256, 257, 1023, 1024, 1025, 4095, 4096, 4097, 65535, 65536, 65537, 1000000)


def with_and_without(digits):
    """The line with its LF, and ended by nothing."""
    return (digits, digits + b"\n")


def numbers():
    """Every small number, and those at the edges of widths and of lengths."""
    yield from range(301)
    for width in (7, 8, 10, 16, 31, 32, 63, 64, 65):
        yield from ((1 << width) + beside for beside in (-2, -1, 0, 1, 17, 26, 127, 128))
    for length in range(1, LONGEST + 1):
        yield from (10**length - 1, 10**length, 10**length + 26, 10**length // 9)


def digits():
    for number in numbers():
        yield b"%d" % number
    for number in (0, 1, 5, 26, 34, 99, 127, 128, 256, 300):
        for length in range(1, LONGEST + 1):
            yield (b"%d" % number).rjust(length, b"0")


def every_byte():
    """Each byte alone, before, within and behind a number, and behind its line."""
    for byte in range(256):
        one = bytes((byte,))
        yield from (one, one + b"26", b"2" + one + b"6", b"26" + one, b"26\n" + one)


def long():
    for length in LENGTHS:
        for byte in (b"0", b"1", b"\n", b" ", b"\0", b"x"):
            yield byte * length
        yield from (b"26\n" + b"0" * length, b"26" + b" " * length, b"0" * length + b"\n", b"0" * 19 + b"\n" * length)


def fixed():
    yield b""
    for line in digits():
        yield from with_and_without(line)
    yield from GARBAGE
    yield from every_byte()
    yield from long()


def drawn(dice):
    """Mostly digits; often with one byte changed, put in or taken out, or with any bytes."""
    if dice.randrange(8) == 0:
        return dice.randbytes(dice.randrange(1, 40))
    alphabet = dice.choice((b"0123456789", b"0123456789", b"01", b"0123456789\n", b"0123456789 \r\n\t+-.x\0/:\xb2"))
    text = bytearray(dice.choices(alphabet, k=dice.choice((1, 2, 3, 3, 18, 19, 20, 21, dice.randrange(LONGEST)))))
    if dice.randrange(2):
        text += b"\n"
    if dice.randrange(3) == 0:
        place = dice.randrange(len(text) + 1)
        text[place : place + dice.randrange(2)] = dice.randbytes(dice.randrange(2))
    return bytes(text)


def main():
    if len(sys.argv) < 2:
        sys.exit(__doc__)
    inputs = dict.fromkeys(fixed())
    for seed in sys.argv[2:]:
        dice = random.Random(int(seed))
        inputs.update(dict.fromkeys(drawn(dice) for _ in range(DRAWN)))
    os.mkdir(sys.argv[1])
    for place, text in enumerate(inputs, 1):
        with open(f"{sys.argv[1]}/{place:05}", "wb") as file:
            file.write(text)


main()
