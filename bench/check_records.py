#!/usr/bin/env python3
"""Compares the output of `check_plain -d VECTORS` with records.jsonl.

usage: check_records.py DUMP RECORDS

The dump gives strings as [place, hex]. Beside the values, each place is held
against the tag and length octets that must stand before it in the message.
"""
import json
import sys


def main(dump_path, records_path):
    dumps = [json.loads(line) for line in open(dump_path)]
    records = [json.loads(line) for line in open(records_path)]
    differ = 0
    if len(dumps) != len(records):
        print("%d records in the dump, %d wanted" % (len(dumps), len(records)))
        differ += 1
    for got, wanted in zip(dumps, records):
        message = bytes.fromhex(wanted["message"])
        faults = []

        def hexes(string, tag):
            """The octets of a string; its place must follow `tag` and a length."""
            if string is None:
                return None
            place, octets = string
            if tag is not None:
                n = len(octets) // 2
                heads = [bytes([tag, n])] if n < 128 else [bytes([tag, 0x81, n])]
                if tag & 0x20:
                    heads.append(bytes([tag, 0x80]))
                if not any(message[:place].endswith(head) for head in heads):
                    faults.append("place %d does not follow %02X" % (place, tag))
            return {"hex": octets}

        record = got["record"]
        record["otid"] = hexes(record["otid"], 0x48)
        record["dtid"] = hexes(record["dtid"], 0x49)
        dialogue = record["dialogue"]
        if dialogue is not None:
            for key in ("name", "acn"):
                if key in dialogue:
                    dialogue[key] = hexes(dialogue[key], 0x06)
            if "octets" in dialogue:
                dialogue["octets"] = hexes(dialogue["octets"], int(dialogue["form"], 16))
            if "ui" in dialogue:
                dialogue["ui"] = hexes(dialogue["ui"], 0xBE)
        for row in record["components"]:
            if row["code"] is not None and row["code"][0] == "global":
                row["code"][1] = hexes(row["code"][1], 0x06)
            row["param_place"] = None
            if row["param"] is not None:
                row["param_place"] = [row["param"][0], len(row["param"][1]) // 2]
                row["param"] = hexes(row["param"], None)
        if got["message"] != wanted["message"] or record != wanted["record"] or faults:
            differ += 1
            print("wanted", json.dumps(wanted))
            print("got   ", json.dumps(got), *faults)
    print("%d records compared, %d differ" % (len(records), differ))
    return differ != 0


if __name__ == "__main__":
    if len(sys.argv) != 3:
        sys.exit(__doc__)
    sys.exit(main(sys.argv[1], sys.argv[2]))
