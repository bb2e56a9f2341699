"""Usage: worst.py SEED GENERATIONS COUNTER... Looks for the message of at most 255 octets that reading costs most.

COUNTER... is a command that takes a file of messages behind it (worst.c) and prints `mark N` three times for each on stderr.
Hostile messages by hand and random ones (tests/model/cases.py) are altered, those that cost most again, and so on. Prints the
costliest that was accepted and the costliest that was refused, in hex. The same seed gives the same search for the same library."""

import copy
import os
import subprocess
import sys
import tempfile

HERE = os.path.dirname(os.path.abspath(__file__))
sys.path.insert(0, os.path.join(HERE, "..", "tests", "model"))
sys.dont_write_bytecode = True
from case_file import Random                                     # noqa: E402
from cases import CONSTRUCTOR_TAGS, PRIMITIVE_TAGS, Node, component, good_message, message_tree, nodes_below  # noqa: E402

MOST, KEPT, CHILDREN = 255, 24, 160
NAME = bytes.fromhex("00118605010101")


def costs(messages, counter):
    """Instructions and status of each reading."""
    with tempfile.NamedTemporaryFile() as file:
        for message in messages:
            file.write(len(message).to_bytes(2, "big") + message)
        file.flush()
        run = subprocess.run(counter + [file.name], capture_output=True, text=True, check=True)
    marks = [int(line.split()[1]) for line in run.stderr.splitlines() if line.startswith("mark ")]
    statuses = [int(line) for line in run.stdout.split()]
    assert len(marks) == 3 * len(messages) and len(statuses) == len(messages), run.stderr[-300:]
    # of three marks the first two have a function between them that only returns
    return [(marks[i + 2] - 2 * marks[i + 1] + marks[i], status) for i, status in zip(range(0, len(marks), 3), statuses)]


# ---------------------------------------------------------------- by hand

def filled(make):
    """The longest message of a family: make(n) for the largest n that fits."""
    n = 0
    while n < 200 and len(make(n + 1).octets()) <= MOST:
        n += 1
    return make(n)


def begin(*parts, indefinite=True):
    return Node(0x62, [Node(0x48, b"\x01\x02\x03\x04"), *parts], indefinite)


def invoke(*parameter, indefinite=True):
    return Node(0xA1, [Node(0x02, b"\x01"), Node(0x80, b"\x02"), Node(0x02, b"\x7F\x01\x01\x01"), *parameter], indefinite)


def nested(depth, tag, indefinite):
    return Node(tag, [nested(depth - 1, tag, indefinite)] if depth > 1 else [], indefinite)


def families():
    tiny = [lambda: Node(0x05, b""), lambda: Node(0x30, [], True), lambda: Node(0x30, []), lambda: Node(b"\x1F\x1F", b""),
            lambda: Node(b"\xBF\xFF\xFF\x7F", [], True), lambda: nested(11, 0x30, True), lambda: nested(11, 0x30, False),
            lambda: nested(3, 0x30, True), lambda: nested(3, 0x24, False)]
    for one in tiny:
        for form in (False, True):
            # in one parameter; in the parameters of 16 components; in the user information of a dialogue request
            yield filled(lambda n: begin(Node(0x6C, [invoke(Node(0x30, [one() for _ in range(n)], form), indefinite=form)],
                                              form), indefinite=form))
            yield filled(lambda n: begin(Node(0x6C, [Node(0xA1, [Node(0x02, b"\x01"), Node(0x02, b"\x2D")] +
                                                         ([one()] if k < n else []), form) for k in range(16)], form),
                                         indefinite=form))
            yield filled(lambda n: begin(Node(0x6B, [Node(0x28, [Node(0x06, NAME), Node(0xA0, [Node(0x60, [
                Node(0xA1, [Node(0x06, b"\x2A")], form),
                Node(0xBE, [Node(0x28, [one() for _ in range(n)], form)], form)], form)], form)], form)], form), indefinite=form))


# ---------------------------------------------------------------- altering

def some_element(random):
    tag = random.choice(PRIMITIVE_TAGS + CONSTRUCTOR_TAGS)
    return Node(tag, b"" if not tag[0] & 0x20 else [], random.chance(50) and bool(tag[0] & 0x20))


def altered(random, root):
    root = copy.deepcopy(root)
    for _ in range(random.choice((1, 1, 2, 4))):
        nodes = nodes_below(root)
        constructors = [node for node in nodes if node.is_constructor()]
        node, around = random.choice(nodes), random.choice(constructors)
        way = random.below(10)
        if way < 3:
            around.body.insert(random.below(len(around.body) + 1), some_element(random))
        elif way < 5 and around.body:
            place = random.below(len(around.body))
            around.body[place:place] = copy.deepcopy(around.body[place:place + random.between(1, 3)])
        elif way == 5 and around.body:
            del around.body[random.below(len(around.body))]
        elif way == 6 and node.is_constructor():
            node.indefinite = not node.indefinite
        elif way == 7 and around.body:
            place = random.below(len(around.body))
            around.body[place] = Node(random.choice(CONSTRUCTOR_TAGS), [around.body[place]], random.chance(50))
        elif way == 8 and not node.is_constructor():
            node.body = random.octets(random.choice((0, 1, 1, 4, 16)))
        elif node.is_constructor() and node.tag == b"\x6C":
            node.body.insert(random.below(len(node.body) + 1),
                             message_tree(random, {"kind": "begin", "otid": None, "dtid": None, "dialogue": None,
                                                   "components": [component(random, True)]}).body[0].body[0])
        else:
            node.tag = random.choice(CONSTRUCTOR_TAGS if node.is_constructor() else PRIMITIVE_TAGS)
    return root


def main(seed, generations, counter):
    random = Random(seed)
    best = {}                                                    # octets: (instructions, status, tree)

    def count(trees):
        fresh = {}
        for tree in trees:
            octets = tree.octets()
            if len(octets) <= MOST and octets not in best:
                fresh[octets] = tree
        if fresh:
            for (octets, tree), (cost, status) in zip(fresh.items(), costs(list(fresh), counter)):
                best[octets] = (cost, status, tree)

    def ranked(accepted):
        found = [(cost, octets, tree) for octets, (cost, status, tree) in best.items() if (status == 0) == accepted]
        return sorted(found, key=lambda each: (-each[0], each[1]))

    count(list(families()) + [good_message(random) for _ in range(300)])
    for _ in range(generations):
        parents = [tree for accepted in (True, False) for _, _, tree in ranked(accepted)[:KEPT]]
        count([altered(random, random.choice(parents)) for _ in range(CHILDREN)])
        # only those that may be parents again are kept
        kept = ranked(True)[:4 * KEPT] + ranked(False)[:4 * KEPT]
        best = {octets: best[octets] for _, octets, _ in kept}
    for accepted, word in ((True, "accepted"), (False, "refused")):
        cost, octets, _ = ranked(accepted)[0]
        print("%-8s %6d instructions, %d octets: %s" % (word, cost, len(octets), octets.hex().upper()))


if __name__ == "__main__":
    if len(sys.argv) < 4:
        sys.exit(__doc__)
    main(int(sys.argv[1]), int(sys.argv[2]), sys.argv[3:])
