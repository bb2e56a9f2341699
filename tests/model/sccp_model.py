"""Model of SCCP unitdata (Q.713, message type 09), read and written, in the words of the rules page.
To be read next to that page: no care for speed. Places count from 0."""

from collections import namedtuple

UNITDATA = 0x09
OTHER_TYPE, PAST_END, OVERLAP, EMPTY_ADDRESS, OUT_OF_RANGE, NO_ROOM = 31, 32, 33, 34, 35, 25
HEAD = 5                                    # type, class, three pointers
CALLED, CALLING, DATA = POINTERS = 2, 3, 4  # where each part's pointer stands
LONGEST_PART, MOST_IN_ADDRESSES = 255, 252

# A part is its contents' place and length; its length octet stands just before.
Part = namedtuple("Part", "place length")
Unitdata = namedtuple("Unitdata", "protocol_class called calling data")


# ---------------------------------------------------------------- reading

def part(octets, pointer):
    """The part that a pointer names, counted from its own octet; None if it is not all there."""
    if pointer >= len(octets):
        return None
    length_octet = pointer + octets[pointer]
    if length_octet >= len(octets):
        return None
    found = Part(length_octet + 1, octets[length_octet])
    return found if all(place < len(octets) for place in places(found)) else None


def places(found):
    """Where its octets stand, length octet included."""
    return range(found.place - 1, found.place + found.length)


def read(octets):
    """The unitdata, or the number of the refusal."""
    if octets[:1] != bytes([UNITDATA]):
        return OTHER_TYPE
    parts = [part(octets, pointer) for pointer in POINTERS]
    if None in parts:
        return PAST_END
    taken = list(range(HEAD)) + [place for each in parts for place in places(each)]
    if len(taken) != len(set(taken)):
        return OVERLAP
    called, calling, data = parts
    if called.length == 0 or calling.length == 0:
        return EMPTY_ADDRESS
    return Unitdata(octets[1], called, calling, data)


# ---------------------------------------------------------------- writing

def write(protocol_class, called, calling, data, room):
    """The octets, or the number of the refusal."""
    if not (1 <= len(called) <= LONGEST_PART and 1 <= len(calling) <= LONGEST_PART
            and len(called) + len(calling) <= MOST_IN_ADDRESSES and len(data) <= LONGEST_PART):
        return OUT_OF_RANGE
    pointers, body = b"", b""
    for pointer, contents in zip(POINTERS, (called, calling, data)):
        pointers += bytes([HEAD + len(body) - pointer])
        body += bytes([len(contents)]) + contents
    octets = bytes([UNITDATA, protocol_class]) + pointers + body
    return octets if len(octets) <= room else NO_ROOM


# ---------------------------------------------------------------- the two calls in C

def read_call(octets):
    answer = read(octets)
    if isinstance(answer, int):
        return answer
    return sum((found.place | found.length << 9) << bit
               for found, bit in ((answer.called, 8), (answer.calling, 25), (answer.data, 42)))


def write_call(protocol_class, called, calling, data, out):
    answer = write(protocol_class, called, calling, data, len(out))
    if isinstance(answer, int):
        return answer, out
    return len(answer) << 8, answer + out[len(answer):]
