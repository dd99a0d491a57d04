#!/usr/bin/env python3
"""Runs a program whose standard input has the bytes of a file and then cannot be read: the system tells an error, not an end.

use: failing.py FILE PROGRAM...     (at most 4,000 bytes)
Prints what the program prints. Exit status 0: the program's was 0.
"""
import os
import subprocess
import sys
import tty


def main():
    if len(sys.argv) < 3:
        sys.exit(__doc__)
    with open(sys.argv[1], "rb") as file:
        data = file.read()
    # What reads the near end of a terminal whose far end is closed gets what was written there, then EIO.
    near, far = os.openpty()
    tty.setraw(far)
    if os.write(far, data) != len(data):
        sys.exit("too many bytes")
    os.close(far)
    sys.exit(subprocess.run(sys.argv[2:], stdin=near).returncode != 0)


main()
