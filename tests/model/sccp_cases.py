"""Random, damaged and hostile cases of the two calls for unitdata, by the model."""

import sccp_model as sccp
from case_file import Case

LENGTHS = (1, 1, 2, 3, 5, 11, 40, 125, 126, 127, 128, 250, 251, 252, 253, 254, 255)


def laid_unitdata(random):
    """Parts in any order, with gaps at times, each named by its pointer."""
    short = random.chance(70)
    sizes = [random.between(1, 12) if short else random.choice(LENGTHS) for _ in range(2)]
    sizes.append(random.choice((0, 1, 20, 255)) if random.chance(50) else random.below(40))
    octets = bytearray([sccp.UNITDATA, random.below(256), 0, 0, 0])
    order = list(zip(sccp.POINTERS, sizes))
    if random.chance(50):
        order.insert(0, order.pop(random.below(3)))
    for pointer, size in order:
        if random.chance(20):
            octets += random.octets(random.between(1, 4))
        octets[pointer] = min(255, len(octets) - pointer)
        octets += bytes([size]) + random.octets(size)
    if random.chance(20):
        octets += random.octets(random.choice((1, 2, 30, 600)))
    return octets


def damaged(random, octets):
    """One pointer, length octet, octet or end made wrong."""
    pointer = random.choice(sccp.POINTERS)
    named = pointer + octets[pointer]
    way = random.below(6)
    if way == 0:
        octets[pointer] = random.choice((0, 1, 2, 3, octets[pointer] ^ 1, random.below(256)))
    elif way == 1 and named < len(octets):
        octets[named] = random.choice((0, octets[named] ^ 1, min(255, octets[named] + 1), random.below(256)))
    elif way == 2:
        octets[pointer] = octets[random.choice(sccp.POINTERS)]
    elif way == 3:
        del octets[random.below(len(octets) + 1):]
    elif way == 4:
        del octets[len(octets) - 1:]
    else:
        octets[random.below(len(octets))] = random.below(256)
    return octets


def read_case(random):
    way = random.below(100)
    if way < 35:
        octets = bytes(laid_unitdata(random))
    elif way < 90:
        octets = laid_unitdata(random)
        for _ in range(random.choice((1, 1, 2))):
            octets = damaged(random, octets) if len(octets) > 4 else octets
        octets = bytes(octets)
    elif way < 95:
        octets = bytes([sccp.UNITDATA]) + random.octets(random.below(12))
    else:
        octets = random.octets(random.choice((0, 0, 1, 5, 40)))
    return Case(b"u", octets, b"", b"", sccp.read_call(octets), b"")


def write_case(random):
    called = random.choice((0, random.between(1, 30), random.choice(LENGTHS)) if random.chance(30) else LENGTHS)
    fits = sccp.MOST_IN_ADDRESSES - called
    calling = random.choice((0, 1, max(0, fits), max(0, fits) + 1)) if random.chance(60) \
        else random.between(1, 20)
    data = random.choice((0, 1, 254, 255, 255, 256, 300)) if random.chance(40) else random.below(60)
    size = called + calling + data + 8
    room = random.choice((size, size, size + 1, size + 20, size - 1, size - 1, 0, 8, 515, 516, 600))
    parts = [random.octets(length) for length in (called, calling, data)]
    protocol_class, out = random.below(256), random.nonzero(room)
    return Case(b"v", bytes([protocol_class]), parts[0], out,
                *sccp.write_call(protocol_class, *parts, out), *parts[1:])
