"""Usage: table_cases.py SEED COUNT VECTORS_DIR OUT. Events on a table of open transactions, by the model:
the histories of the vectors (none, if VECTORS_DIR is -), COUNT random events, and events on octets that no
history leaves.

The file begins with "GSKTABL1". Then each event: 1 and the table before it, or 0 if it goes on with the one that
the last event left; the event's number; our ID; the partner's ID; the answer; the table after it. The table and
the IDs are strings: length in 4 octets, and the octets. 0, 1 and the event have 1 octet, the answer 8."""

import sys

import table_model as table
from case_file import Random
from vector_files import json_lines

MAGIC = b"GSKTABL1"


def string(octets):
    return len(octets).to_bytes(4, "big") + octets


def event_octets(before, number, ours, partner, answer, after):
    return ((b"\x00" if before is None else b"\x01" + string(before)) + bytes([number]) + string(ours) + string(partner) +
            answer.to_bytes(8, "big") + string(after))


def histories(directory):
    for vector in json_lines(directory, "10-table/histories.jsonl"):
        before = bytes(table.TABLE_SIZE)
        octets = before
        for event, ours, partner in vector["events"]:
            number = table.event_number(event)
            answer, octets = table.call(octets, number, ours, partner or b"")
            yield event_octets(before, number, ours, partner or b"", answer, octets)
            before = None


def some_id(random, pool):
    if random.chance(4):
        return random.octets(random.choice((0, 5, 6, 9)))
    return random.choice(pool)


def random_events(random, count):
    """Histories of up to 400 events over few IDs, or over enough to fill the table."""
    done = 0
    while done < count:
        pool = [random.octets(random.between(1, 4)) for _ in range(random.choice((3, 6, 70, 90)))]
        pool += [identifier[:3] + b"\x00" for identifier in pool[:2]] + [b"\x05", b"\x00\x05", b"\x05\x00"]
        busy = len(pool) > 60
        before = bytes(table.TABLE_SIZE) + random.octets(random.choice((0, 0, 1, 12)))
        octets = before
        for _ in range(min(random.between(20, 400), count - done)):
            number = random.choice((1, 2) if busy and random.chance(70) else tuple(range(1, 10)))
            if random.chance(2):
                number = random.below(256)
            ours, partner = some_id(random, pool), some_id(random, pool)
            if random.chance(10):
                partner = b""
            answer, octets = table.call(octets, number, ours, partner)
            yield event_octets(before, number, ours, partner, answer, octets)
            before = None
            done += 1


def strange_tables(random, count):
    """Octets that no history leaves: any state, any length, octets behind an ID; and too few."""
    for _ in range(count):
        size = table.TABLE_SIZE if random.chance(80) else random.choice((0, 1, 11, 12, 767, 769, 800))
        octets = bytearray(random.octets(size))
        for at in range(0, size, 4 if random.chance(10) else table.ENTRY_SIZE):
            octets[at] = random.choice((0, 1, 2, 3, 3, 4, 255))
            if at + 8 <= size:
                octets[at + 1] = random.choice((0, 1, 1, 2, 3, 4, 5, 255))
                octets[at + 4:at + 8] = random.choice((b"\x41\x00\x00\x00", b"\x41\x42\x00\x00", b"\x00\x41\x00\x00",
                                                       b"\x41\x42\x43\x44", b"\x41\x99\x00\x00"))
        before = bytes(octets)
        ours = random.choice((b"\x41", b"\x41\x42", b"\x00\x41", b"\x41\x42\x43\x44", b"\x41\x99", b"\x07", b""))
        partner = random.choice((b"\x50", b"\x50\x51\x52\x53", b"", b"\x01\x02\x03\x04\x05"))
        number = random.below(12)
        answer, after = table.call(before, number, ours, partner)
        yield event_octets(before, number, ours, partner, answer, after)


def main(seed, count, directory, path):
    random = Random(seed)
    parts = (("vectors", () if directory == "-" else histories(directory)), ("random", random_events(random, count)),
             ("strange", strange_tables(random, count // 10)))
    with open(path, "wb") as file:
        file.write(MAGIC)
        for name, events in parts:
            written = 0
            for event in events:
                file.write(event)
                written += 1
            print("%s %d" % (name, written))
    return 0


if __name__ == "__main__":
    if len(sys.argv) != 5:
        sys.exit("usage: table_cases.py SEED COUNT VECTORS_DIR OUT")
    sys.exit(main(int(sys.argv[1]), int(sys.argv[2]), sys.argv[3], sys.argv[4]))
