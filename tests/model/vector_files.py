"""Reads the vector files (read.txt, 05-unknown/read.txt, records.jsonl, write.jsonl, steer.jsonl) into plain values.
Knows their notation only, none of the rules."""

import json
import os
from collections import namedtuple

# listing: the expected text, newlines included. orig, invoke: of a refusal; None if absent.
ReadVector = namedtuple("ReadVector", "message listing refused orig invoke")


def read_vectors(directory):
    """read.txt and 05-unknown/read.txt: '> HEX', the listing, and after a refusal 'orig HEX|- invoke N|-'."""
    blocks = []
    for name in ("read.txt", "05-unknown/read.txt"):
        with open(os.path.join(directory, name), encoding="ascii") as file:
            blocks += ("\n" + file.read()).split("\n>")[1:]
    vectors = []
    for block in blocks:
        first, *lines = block.split("\n")
        lines = [line for line in lines if line]
        orig = invoke = None
        refused = lines[0].startswith("refused ")
        if refused:
            word, orig, word2, invoke = lines.pop().split()
            assert (word, word2) == ("orig", "invoke") and len(lines) == 1
            orig = None if orig == "-" else bytes.fromhex(orig)
            invoke = None if invoke == "-" else int(invoke)
        listing = "".join(line + "\n" for line in lines)
        vectors.append(ReadVector(bytes.fromhex(first.strip()), listing, refused, orig, invoke))
    return vectors


def json_lines(directory, name):
    """The values of a .jsonl file; strings, {"hex": ..}, become octets."""
    with open(os.path.join(directory, name), encoding="ascii") as file:
        return [json.loads(line, object_hook=octets_for_hex) for line in file if line.strip()]


def octets_for_hex(value):
    return bytes.fromhex(value["hex"]) if list(value) == ["hex"] else value
