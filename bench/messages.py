#!/usr/bin/env python3
"""Writes the accepted messages of a file of vectors as octets.

usage: messages.py VECTORS OUT [CLASS]

Each message is a 16-bit big-endian length and then its octets. CLASS takes only
the messages whose length is nearer to it than to the others of 20, 60, 120, 250.
"""
import struct
import sys

CLASSES = (20, 60, 120, 250)


def main(vectors, out, wanted=None):
    messages = []
    message = None
    for line in open(vectors):
        if line.startswith(">"):
            message = bytes.fromhex(line[1:])
        elif message is not None:
            if not line.startswith("refused"):
                messages.append(message)
            message = None
    if wanted is not None:
        messages = [m for m in messages if min(CLASSES, key=lambda c: abs(c - len(m))) == int(wanted)]
    with open(out, "wb") as file:
        for message in messages:
            file.write(struct.pack(">H", len(message)) + message)
    print("%d messages, %d octets" % (len(messages), sum(map(len, messages))))


if __name__ == "__main__":
    if len(sys.argv) not in (3, 4):
        sys.exit(__doc__)
    main(*sys.argv[1:])
