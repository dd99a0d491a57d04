#!/usr/bin/env python3
"""Runs a program with a file on its standard input, through a pipe that it can read only piece by piece.

use: pieces.py FILE SIZE PROGRAM...     (SIZE: 1, another number of bytes, or `drawn` for sizes from 1 to 4,096)
Prints what the program prints. The most memory that it held is told on standard error in kB, once it waits for more than the file has; 0
where it has ended before. Exit status 0: the program's was 0.
"""
import fcntl
import os
import random
import select
import struct
import subprocess
import sys
import termios
import time


class Pipe:
    """The near end of the program's standard input."""

    def __init__(self, words, packets):
        # In a pipe of packets no read goes over the end of a write. A read that asks for less than a packet has would lose the rest of it,
        # so packets of one byte are the only safe ones.
        far, self.near = os.pipe2(os.O_CLOEXEC | (os.O_DIRECT if packets else 0))
        self.child = subprocess.Popen(words, stdin=far, stdout=subprocess.PIPE)
        os.close(far)
        self.packets = packets
        self.reader = select.poll()
        self.reader.register(self.near, 0)

    def has_reader(self):
        return not self.reader.poll(0)

    def is_empty(self):
        return struct.unpack("i", fcntl.ioctl(self.near, termios.FIONREAD, bytes(4)))[0] == 0

    def write(self, piece):
        """Writes a piece; if it is no packet, it waits until all of it is read."""
        os.write(self.near, piece)
        while not (self.packets or self.is_empty()) and self.has_reader():
            os.sched_yield()

    def sleeps(self):
        with open(f"/proc/{self.child.pid}/stat") as file:
            return self.is_empty() and file.read().rsplit(")", 1)[1].split()[0] == "S"

    def most_memory(self):
        """The most memory that the program held, once it has waited for a while; 0 where it has ended."""
        slept = 0
        while slept < 5 and self.has_reader():
            slept = slept + 1 if self.sleeps() else 0
            time.sleep(0.01)
        with open(f"/proc/{self.child.pid}/status") as file:
            lines = [line.split() for line in file]
        return next((int(words[1]) for words in lines if words[0] == "VmHWM:"), 0)

    def report(self):
        """What the program prints when nothing more comes, and its exit status."""
        os.close(self.near)
        return self.child.stdout.read(), self.child.wait()


def pieces(data, size):
    dice = random.Random(len(data))
    place = 0
    while place < len(data):
        end = place + (dice.randint(1, dice.choice((8, 8, 100, 4096))) if size == "drawn" else int(size))
        yield data[place:end]
        place = end


def main():
    if len(sys.argv) < 4:
        sys.exit(__doc__)
    with open(sys.argv[1], "rb") as file:
        data = file.read()
    pipe = Pipe(sys.argv[3:], sys.argv[2] == "1")
    try:
        for piece in pieces(data, sys.argv[2]):
            pipe.write(piece)
    except BrokenPipeError:
        # It has seen enough.
        pass
    print(pipe.most_memory(), file=sys.stderr)
    report, status = pipe.report()
    sys.stdout.buffer.write(report)
    sys.exit(status != 0)


main()
