#!/usr/bin/env python3
"""vectors.py READ_TXT OUT: packs the cases of read.txt for the program `program_compare`; the first lines of its vectors.rt give the layout."""
import sys


def packed(octets, width):
    return len(octets).to_bytes(width, "big") + octets


def cases(lines):
    """The message and the lines below it, case by case."""
    message, below = None, []
    for line in lines:
        if line.startswith(">"):
            if message is not None:
                yield message, below
            message, below = bytes.fromhex(line[1:].strip()), []
        elif message is not None and line:
            below.append(line)
    if message is not None:
        yield message, below


def case(message, below):
    orig, invoke = "-", "-"
    if below[0].startswith("refused"):
        word, orig, word2, invoke = below.pop().split()
        assert (word, word2, len(below)) == ("orig", "invoke", 1), below
    text = "".join(line + "\n" for line in below).encode("ascii")
    answer = b"\0\0" if invoke == "-" else bytes([1, int(invoke) & 255])
    return packed(message, 2) + packed(text, 2) + packed(b"" if orig == "-" else bytes.fromhex(orig), 1) + answer


if __name__ == "__main__":
    with open(sys.argv[1], encoding="ascii") as source:
        packs = [case(*each) for each in cases(source.read().split("\n"))]
    with open(sys.argv[2], "wb") as out:
        out.write(b"".join(packs))
    print(len(packs), "cases,", sum(map(len, packs)), "octets")
