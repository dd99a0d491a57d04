#!/usr/bin/env python3
"""Writes records of the benchmark's messages to standard output: records.py MESSAGES COUNT

MESSAGES is the folder that messages.py writes. Of 100 records 90 are calls, their BYE and the responses to them, nine are refused or unread messages,
and one is of a shape that asks for the most work, of 1,000 to 8,192 bytes; each goes to side 0 or 1. The draw is always the same, and
fewer records are the first of more.
"""
import os
import random
import sys

CALLS = ["call", "call-open", "call-bye", "call-200", "call-180", "call-two", "call-fields", "invite", "invite-200"]


def record(message, side):
    return b"SN" + bytes([side]) + len(message).to_bytes(2, "big") + message


def main():
    if len(sys.argv) != 3:
        sys.exit(__doc__)
    kinds = {"calls": [], "refused": [], "shapes": []}
    for name in sorted(os.listdir(sys.argv[1])):
        with open(os.path.join(sys.argv[1], name), "rb") as f:
            kinds["calls" if name in CALLS else "refused" if name.startswith("refused-") else "shapes"].append(f.read())
    dice = random.Random(1)
    for _ in range(int(sys.argv[2])):
        kind = kinds[dice.choices(list(kinds), (90, 9, 1))[0]]
        sys.stdout.buffer.write(record(dice.choice(kind), dice.randrange(2)))


main()
