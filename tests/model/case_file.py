"""The case file: its format, and a small random generator that is the same everywhere.
All numbers in the file are big-endian; each case holds one call with its expected answer."""

from collections import namedtuple

MAGIC = b"GSKCASE1"

# op: b"r" read (a message, c room), b"w" write (a record, b material, c out),
# b"s" steer (a message, b rules), b"l" list (a message, c out), b"u" read a unitdata (a octets),
# b"v" write one (a class, b called, d calling, e data, c out). c_after is as long as c.
Case = namedtuple("Case", "op a b c answer c_after d e", defaults=(b"", b""))


def case_octets(case):
    octets = case.op
    for part in (case.a, case.b, case.c) + ((case.d, case.e) if case.op == b"v" else ()):
        octets += len(part).to_bytes(4, "big") + part
    assert len(case.c_after) == len(case.c)
    return octets + case.answer.to_bytes(8, "big") + case.c_after


def write_cases(path, cases):
    """Writes the cases to a file; returns how many there were."""
    count = 0
    with open(path, "wb") as file:
        file.write(MAGIC)
        for case in cases:
            file.write(case_octets(case))
            count += 1
    return count


class Random:
    """splitmix64."""

    def __init__(self, seed):
        self.state = seed & 0xFFFFFFFFFFFFFFFF

    def next(self):
        self.state = (self.state + 0x9E3779B97F4A7C15) & 0xFFFFFFFFFFFFFFFF
        z = self.state
        z = (z ^ z >> 30) * 0xBF58476D1CE4E5B9 & 0xFFFFFFFFFFFFFFFF
        z = (z ^ z >> 27) * 0x94D049BB133111EB & 0xFFFFFFFFFFFFFFFF
        return z ^ z >> 31

    def below(self, bound):
        """0 to bound - 1."""
        return self.next() * bound >> 64

    def between(self, low, high):
        """low to high, both included."""
        return low + self.below(high - low + 1)

    def chance(self, percent):
        return self.below(100) < percent

    def choice(self, values):
        return values[self.below(len(values))]

    def octets(self, count):
        whole = b"".join(self.next().to_bytes(8, "big") for _ in range((count + 7) // 8))
        return whole[:count]

    def nonzero(self, count):
        return self.octets(count).replace(b"\x00", b"\xA5")
