#!/usr/bin/env python3
"""steerings.py VECTORS OUT: packs the cases of VECTORS/steer.jsonl for the program `program_compare` (the first lines of its steerings.rt give the layout), after the
page's own (its two rules for the specimens D, E and B) and some of ours on the layout of rules, docs/LAYOUT.md. Octets that the layout does not
use, those behind the last rule, and the ways to be no rule differ from case to case."""
import json
import os
import sys

TAGS = {"any": 0, "unidirectional": 0x61, "begin": 0x62, "end": 0x64, "continue": 0x65, "abort": 0x67}
MOST_RULES = 4

D = "6210480105" "6C0BA109" "020101" "02012D" "040107"
E = "6213480105" "6C0EA10C" "020101" "800102" "02012D" "040107"
B = "640A490105" "6C05A203" "020101"

# the page's specimens: D and E go to link 3, B to 9
PAGE_RULES = [["begin", 45, 3], ["any", "any", 9]]
PAGE = [(D, 3), (E, 3), (B, 9)]

# ours: rules as octets, and where they send D, which each bad rule would fit but for one octet
ANY = "000000000000000000000009"
OURS = [
    ("62010000" "0000002D" "00000005" + ANY, 5),
    ("00020000" "0000002D" "00000005" + ANY, 9),
    ("62FF0000" "0000002D" "00000005" + ANY, 9),
    ("63010000" "0000002D" "00000005" + ANY, 9),
    ("FF000000" "00000000" "00000005" + ANY, 9),
    ("00000000" "0000002D" "FFFFFFFF", 0xFFFFFFFF),
    ("62010000" "0100002D" "00000005" "00000000" "0000002D" "000000", None),
    ("00000000" "0000002D" "000000", None),
]


def packed(octets, width):
    return len(octets).to_bytes(width, "big") + octets


def rule(kind, code, link, turn):
    """One rule. A kind that is none: a number that is no tag, or a flag that is neither 0 nor 1."""
    unused = bytes([turn % 251, turn % 241])
    flag = 0 if code == "any" else 1
    value = bytes([turn % 239] * 4) if code == "any" else code.to_bytes(4, "big", signed=True)
    if kind == "none":
        number, flag = [(0x63, flag), (0xFF, flag), (0x00, 2), (0x62, 0xFF), (0x60, flag)][turn % 5]
    else:
        number = TAGS[kind]
    return bytes([number, flag]) + unused + value + link.to_bytes(4, "big")


def rules(listed, turn):
    """The rules, and up to 11 octets behind the last: they begin like one that fits everything."""
    assert len(listed) <= MOST_RULES, listed
    whole = b"".join(rule(*each, turn + i) for i, each in enumerate(listed))
    return whole + bytes(turn % 12)


def answer(said):
    if said[0] == "cause":
        return bytes([0, said[1], 0, 0, 0])
    word, value, component, invoke = said
    assert word == "problem", said
    return bytes([1, value, component]) + (b"\0\0" if invoke is None else bytes([1, invoke & 255]))


def case(message, octets, expect):
    orig = b""
    if "link" in expect:
        said = bytes([1]) + expect["link"].to_bytes(4, "big") + bytes(8)
    elif "norule" in expect:
        said = bytes(13)
    else:
        orig = bytes.fromhex(expect["otid"]["hex"]) if expect["otid"] else b""
        said = bytes([2]) + bytes(4) + bytes([expect["no"]]) + expect["place"].to_bytes(2, "big") + answer(expect["answer"])
    return packed(bytes.fromhex(message), 2) + packed(octets, 2) + packed(orig, 1) + said


def cases(path):
    """Message, rules as octets and what is expected, case by case."""
    for message, link in PAGE:
        yield message, rules(PAGE_RULES, 0), {"link": link}
    for octets, link in OURS:
        yield D, bytes.fromhex(octets), {"norule": True} if link is None else {"link": link}
    with open(path, encoding="ascii") as source:
        for turn, line in enumerate(source):
            each = json.loads(line)
            yield each["message"], rules(each["rules"], turn), each["expect"]


if __name__ == "__main__":
    packs = [case(*each) for each in cases(os.path.join(sys.argv[1], "steer.jsonl"))]
    with open(sys.argv[2], "wb") as out:
        out.write(b"".join(packs))
    print(len(packs), "cases,", sum(map(len, packs)), "octets")
