"""Usage: cases.py SEED COUNT OUT. Random, damaged and hostile cases of the calls, by the model.
The same seed and count give the same file everywhere; a count of the answers is printed."""

import sys

import sccp_cases
import tcap_model as tcap
from case_file import Case, Random, write_cases
from vector_cases import (KINDS, RECORD_SIZE, laid_material, laid_record, noted_strings,
                          strange_octet, whole_record)

# ---------------------------------------------------------------- elements that can be damaged


class Node:
    """An element: tag octets, contents (octets, or a list of nodes), form, and wounds."""

    def __init__(self, tag, body, indefinite=False):
        self.tag = bytes([tag]) if isinstance(tag, int) else tag
        self.body, self.indefinite = body, indefinite
        self.length = None              # octets in the place of the length
        self.added = 0                  # added to the length
        self.pair = b"\x00\x00"

    def body_octets(self):
        return self.body if isinstance(self.body, bytes) else b"".join(n.octets() for n in self.body)

    def octets(self):
        body = self.body_octets()
        length = self.length
        if length is None and self.indefinite:
            length = b"\x80"
        elif length is None:
            length = tcap.length_octets(max(0, len(body) + self.added))
        return self.tag + length + body + (self.pair if self.indefinite else b"")

    def is_constructor(self):
        return not isinstance(self.body, bytes)


def nodes_below(root):
    found = [root]
    for node in found:
        if node.is_constructor():
            found.extend(node.body)
    return found


PRIMITIVE_TAGS = tuple(bytes.fromhex(tag) for tag in (
    "02 04 04 05 06 0A 13 16 80 80 81 82 83 8F 9E C1 DE 41 48 49 4A 01 1E "
    "1F1F 9F1F 9F7F DF8100 9FFFFF7F 5F8A01 9F7E").split())
CONSTRUCTOR_TAGS = tuple(bytes.fromhex(tag) for tag in (
    "30 30 31 28 28 A0 A1 A2 A3 A4 A7 BE E1 FE 61 62 6B 6C 24 3F1F BF7F FF8100 BFFFFF7F 7F8A01").split())
HAZARDS = bytes.fromhex("00 00 80 FF 1F 81 82 7F 20 28 30 02 06 48 49 6B 6C A1 BE 3F 84 FE 01")


def contents(random, most=6):
    """Contents of a primitive, at times with octets that look like ends, tags or lengths."""
    octets = random.octets(random.below(most + 1))
    if random.chance(25):
        octets = bytes(random.choice(HAZARDS) for _ in octets)
    return octets


def element(random, depth=3):
    if depth == 0 or random.chance(60):
        return Node(random.choice(PRIMITIVE_TAGS), contents(random, random.choice((2, 6, 12))))
    children = [element(random, depth - 1) for _ in range(random.choice((0, 1, 1, 2, 3)))]
    return Node(random.choice(CONSTRUCTOR_TAGS), children, random.chance(40))


def nest(random, level, deepest, outermost=None):
    """Elements in one another, the outermost at one level and the innermost at the deepest."""
    indefinite = random.choice((0, 0, 40, 100))
    node = (Node(random.choice(PRIMITIVE_TAGS), contents(random, 2)) if random.chance(60)
            else Node(random.choice(CONSTRUCTOR_TAGS), [], random.chance(50)))
    for _ in range(deepest - level):
        children = [node]
        if random.chance(10):
            children.insert(random.below(2), Node(0x04, contents(random, 2)))
        node = Node(random.choice(CONSTRUCTOR_TAGS), children, random.chance(indefinite))
    if outermost is not None:
        node.tag = bytes([outermost])
        node.body = node.body if node.is_constructor() else []
    return node


# ---------------------------------------------------------------- random records
# In the vectors' notation, but with nodes for parameters and elements, lists of nodes for BE.

NAMES = tuple(bytes.fromhex(name) for name in (
    "00118605010101 00118605010201 00118605010102 001186050101 0011860501010100 2A 2A03 2A8648 00 7F "
    "8100 818001 81808000 FFFFFF7F 04000001000103 00000000000000000000000000000000").split())
LOCAL_CODES = (0, 1, 45, 45, 45, -1, 127, 128, -128, -129, 255, 256, 32767, 32768, -32768, -32769,
               8388607, 8388608, -8388608, -8388609, 2147483647, -2147483648)
INVOKE_IDS = (-128, -1, 0, 1, 127, 5)


def identifier(random):
    if random.chance(60):
        return random.choice(NAMES)
    octets = bytearray(random.octets(random.choice((1, 2, 3, 7, 15, 16))))
    begins = True
    for place in range(len(octets)):
        if begins and octets[place] == 0x80:
            octets[place] = 0x81
        begins = octets[place] < 0x80
    octets[-1] &= 0x7F
    return bytes(octets)


def other_name(random):
    name = identifier(random)
    return b"\x2A" if name in (tcap.STRUCTURED, tcap.UNSTRUCTURED) else name


def local_code(random):
    if random.chance(70):
        return random.choice(LOCAL_CODES)
    return tcap.signed(random.octets(random.between(1, 4)))


def invoke_id(random):
    return random.choice(INVOKE_IDS) if random.chance(70) else random.between(-128, 127)


def user_information(random):
    if random.chance(40):
        return None
    return [Node(0x28, [element(random, 1) for _ in range(random.below(3))], random.chance(40))
            for _ in range(random.choice((0, 0, 1, 1, 2)))]


def dialogue(random, kind):
    pdu = random.choice((None, None, "request", "response", "abort", "uni", "other", "other"))
    if kind == "abort" and random.chance(40):
        return {"pdu": "cause", "cause": random.below(5)}
    if pdu is None:
        return None
    if pdu == "other" and random.chance(50):
        return {"pdu": pdu, "name": other_name(random), "form": "A0", "octets": element(random, 2)}
    if pdu == "other":
        return {"pdu": pdu, "name": other_name(random), "form": "81", "octets": contents(random)}
    noted = {"pdu": pdu}
    if pdu != "abort":
        noted["acn"] = identifier(random)
    if pdu == "response":
        noted.update(result=random.below(2), source=random.choice(("user", "provider")),
                     diag=random.below(3))
    if pdu == "abort":
        noted["source"] = random.below(2)
    noted["ui"] = user_information(random)
    return noted


def component(random, brief=False):
    """brief: of at most 10 octets."""
    kind = random.choice(("invoke", "invoke", "last", "error", "reject", "notlast"))
    row = {"kind": kind, "id": invoke_id(random), "linked": None, "code": None, "param": None}
    if kind == "reject":
        problem_type = random.below(4)
        highest = tcap.HIGHEST_PROBLEM[0x80 + problem_type]
        row["code"] = ["problem", problem_type, random.choice((highest, random.between(0, highest)))]
        row["id"] = None if random.chance(30) else row["id"]
        return row
    result = kind in ("last", "notlast")
    if result and (brief or random.chance(30)):
        return row
    if brief:
        row["code"] = ["local", random.choice((1, 45, -128))]
        return row
    row["code"] = (["local", local_code(random)] if random.chance(60)
                   else ["global", identifier(random)])
    if kind == "invoke" and random.chance(40):
        row["linked"] = invoke_id(random)
    if result or random.chance(60):
        row["param"] = element(random, random.choice((0, 1, 2)))
    return row


def random_record(random):
    kind = random.choice(("unidirectional", "begin", "begin", "end", "continue", "continue", "abort"))
    count = random.choice((0, 1, 1, 1, 2, 2, 3, 4, 6))
    if kind == "unidirectional":
        count = max(1, count)
    return {"kind": kind,
            "otid": random.octets(random.between(1, 4)) if kind in ("begin", "continue") else None,
            "dtid": random.octets(random.between(1, 4)) if kind in ("end", "continue", "abort") else None,
            "dialogue": dialogue(random, kind),
            "components": [] if kind == "abort" else [component(random) for _ in range(count)]}


def crowd(random, noted):
    """15 to 18 components, mostly brief."""
    if noted["kind"] == "abort":
        noted.update(random_record(random), kind="end", otid=None, dtid=b"\x05", dialogue=None)
    count = random.choice((15, 16, 16, 17, 17, 17, 18))
    noted["components"] = [component(random, random.chance(95)) for _ in range(count)]
    if random.chance(70):
        noted["dialogue"] = None


def deepen(random, noted):
    """One string with a nest whose innermost element is at level 15 to 18."""
    deepest = random.choice((15, 16, 16, 17, 17, 18))
    rows = [row for row in noted["components"] if row["kind"] != "reject"]
    pdu = noted["dialogue"] or {}
    if "ui" in pdu and random.chance(50):
        pdu["ui"] = (pdu["ui"] or []) + [nest(random, 7, deepest, 0x28)]
    elif pdu.get("form") == "A0":
        pdu["octets"] = nest(random, 5, deepest)
    elif rows:
        row = random.choice(rows)
        row["code"] = row["code"] or ["local", 45]
        row["param"] = nest(random, 4 if row["kind"] in ("invoke", "error") else 5, deepest)


def stretch(random, noted, root):
    """A parameter made longer, so that a message or a part of it gets a length at a boundary."""
    nodes = [row["param"] for row in noted["components"] if row["param"] is not None]
    if not nodes:
        return
    node = random.choice(nodes)
    node.tag, node.body, node.indefinite = b"\x04", b"", False
    measured, target = root, random.choice((126, 127, 128, 129, 130))
    if random.chance(60):
        target = random.choice((253, 254, 255, 255, 256, 257, 258))
    elif random.chance(60):
        around = [other for other in nodes_below(root)
                  if other is node or node in nodes_below(other)]
        measured = random.choice(around)

    def size():
        return len(root.octets()) if measured is root else len(measured.body_octets())

    base = size()
    for length in range(max(0, target - base - 12), max(0, target - base) + 1):
        node.body = bytes(length)
        if size() >= target:
            break
    node.body = random.octets(len(node.body))


def plain(noted):
    """The record with octets for nodes."""
    def octets(string):
        if isinstance(string, Node):
            return string.octets()
        return b"".join(n.octets() for n in string) if isinstance(string, list) else string

    noted = dict(noted, components=[dict(row, param=octets(row["param"]))
                                    for row in noted["components"]])
    if noted["dialogue"] is not None:
        noted["dialogue"] = {name: octets(value) for name, value in noted["dialogue"].items()}
    return noted


# ---------------------------------------------------------------- messages in random forms

def message_tree(random, noted, indefinite=None):
    """The message of a record; indefinite: how many constructors in a hundred have that form."""
    if indefinite is None:
        indefinite = random.choice((0, 20, 50, 100))

    def node(tag, *children):
        return Node(tag, [child for child in children if child is not None], random.chance(indefinite))

    def number(tag, value):
        return Node(tag, tcap.shortest_signed(value))

    def optional(tag, octets):
        return None if octets is None else Node(tag, octets)

    def portion(pdu):
        if pdu["pdu"] == "cause":
            return number(0x4A, pdu["cause"])
        if pdu["pdu"] == "other":
            return node(0x6B, node(0x28, Node(0x06, pdu["name"]),
                                   Node(0x81, pdu["octets"]) if pdu["form"] == "81"
                                   else node(0xA0, pdu["octets"])))
        fields = []
        if pdu["pdu"] == "abort":
            fields.append(number(0x80, pdu["source"]))
        else:
            fields.append(Node(0x80, tcap.VERSION_1) if random.chance(50) else None)
            fields.append(node(0xA1, Node(0x06, pdu["acn"])))
        if pdu["pdu"] == "response":
            fields.append(node(0xA2, number(0x02, pdu["result"])))
            fields.append(node(0xA3, node(0xA1 if pdu["source"] == "user" else 0xA2,
                                          number(0x02, pdu["diag"]))))
        if pdu["ui"] is not None:
            fields.append(node(0xBE, *pdu["ui"]))
        tag = {"request": 0x60, "uni": 0x60, "response": 0x61, "abort": 0x64}[pdu["pdu"]]
        name = tcap.UNSTRUCTURED if pdu["pdu"] == "uni" else tcap.STRUCTURED
        return node(0x6B, node(0x28, Node(0x06, name), node(0xA0, node(tag, *fields))))

    def component_node(row):
        fields = [Node(0x05, b"") if row["id"] is None else number(0x02, row["id"])]
        if row["linked"] is not None:
            fields.append(number(0x80, row["linked"]))
        code = row["code"]
        rest = []
        if code is not None and code[0] == "problem":
            rest.append(number(0x80 + code[1], code[2]))
        elif code is not None:
            rest.append(number(0x02, code[1]) if code[0] == "local" else Node(0x06, code[1]))
            rest.append(row["param"])
        if code is not None and row["kind"] in ("last", "notlast"):
            rest = [node(0x30, *rest)]
        tag = {"invoke": 0xA1, "last": 0xA2, "error": 0xA3, "reject": 0xA4, "notlast": 0xA7}
        return node(tag[row["kind"]], *fields, *rest)

    return node(KINDS[noted["kind"]], optional(0x48, noted["otid"]), optional(0x49, noted["dtid"]),
                None if noted["dialogue"] is None else portion(noted["dialogue"]),
                node(0x6C, *map(component_node, noted["components"])) if noted["components"] else None)


# ---------------------------------------------------------------- damage

BAD_TAGS = tuple(bytes.fromhex(tag) for tag in
                 "1F80 1F1E 1F00 3F80 BF8001 1F818181 1F81808001 FFFFFFFF DF01 7F1E 9F80 1F".split())
SWAPPED_TAGS = bytes.fromhex("48 49 4A 6B 6C 68 69 60 61 62 64 65 67 28 06 02 05 04 30 22 26 80 81 82 83 84 "
                             "A0 A1 A2 A3 A4 A5 A6 A7 A8 BE 10 08 C1 E1")
BAD_LENGTHS = tuple(bytes.fromhex(length) for length in
                    "FF 80 8100 8101 817F 820001 820080 83000001 8400000003 81 82 8201 FE 84010000 84FFFFFFFF "
                    "88FFFFFFFFFFFFFFFF 8480000000 81FF 8180 82FFFF 00 7F".split())


def damage_tree(random, root):
    """One wound to one element of a message, the lengths around it still right."""
    nodes = nodes_below(root)
    node = random.choice(nodes)
    constructors = [other for other in nodes if other.is_constructor()]
    if not constructors:
        return
    around = random.choice(constructors)
    primitives = [other for other in nodes if not other.is_constructor()]
    open_ended = [other for other in constructors if other.indefinite]
    wound = random.below(17)
    if wound == 0 and around.body:
        around.body.pop(random.below(len(around.body)))
    elif wound == 1:
        around.body.insert(random.below(len(around.body) + 1), element(random, 1))
    elif wound == 2 and len(around.body) > 1:
        place = random.below(len(around.body) - 1)
        around.body[place:place + 2] = around.body[place + 1], around.body[place]
    elif wound == 3 and around.body:
        place = random.below(len(around.body))
        around.body.insert(place, around.body[place])
    elif wound == 4:
        node.tag = bytes([random.choice(SWAPPED_TAGS)])
    elif wound == 5:
        node.tag = bytes([node.tag[0] ^ 0x20]) + node.tag[1:]
    elif wound == 6:
        node.tag = random.choice(BAD_TAGS)
    elif wound == 7:
        node.tag = random.choice((b"\x00", b"\x20", b"\x00", b"\x1F\x00"))
    elif wound == 8:
        node.length = random.choice(BAD_LENGTHS)
    elif wound == 14:
        node.length = wrapping_length(random, len(node.body_octets()))
    elif wound == 15 and primitives:
        damage_contents(random, random.choice(primitives))
    elif wound == 9 and not node.indefinite:
        node.added = random.choice((-2, -1, 1, 1, 2, 5, 120))
    elif wound == 10 and primitives:
        damage_contents(random, random.choice(primitives))
    elif wound == 11 and open_ended:
        random.choice(open_ended).pair = random.choice(
            (b"", b"", b"\x00", b"\x00", b"\x00\x05", b"\x00\x00\x00\x00", b"\x00\x00\x00", b"\x20\x00"))
    elif wound == 12 and around.body:
        around.body[random.below(len(around.body)):] = []
    elif wound == 13:
        components = [other for other in constructors if 0xA1 <= other.tag[0] <= 0xA7]
        if components:
            random.choice(components).tag = random.choice(
                (b"\xA5", b"\xA6", b"\xA0", b"\x81", b"\x30", b"\xBF\x81\x00", b"\xE1", b"\x6C", b"\xA8"))
    else:
        node.body = node.body_octets() + random.octets(random.between(1, 3))


def wrapping_length(random, length):
    """Length octets that are too long by zeros in front, or right only where high octets are lost."""
    more = random.choice((1, 2, 3, 4, 5, 8, 9, 17, 126))
    octets = length.to_bytes(more, "big")
    if more > 1 and random.chance(50):
        octets = bytes([random.choice((1, 0x80, 0xFF))]) + octets[1:]
    return bytes([0x80 + more]) + octets


def damage_contents(random, node):
    body = bytearray(node.body)
    wound = random.below(7)
    if wound == 0:
        body += random.octets(random.choice((1, 1, 2, 16)))
    elif wound == 1:
        body = body[:random.below(len(body) + 1)]
    elif wound == 2 and body:
        body[0] = random.choice(b"\x80\x00\xFF\x81")
    elif wound == 3 and body:
        body[-1] = random.choice(b"\x80\xFF\x03\x05\x08\x02")
    elif wound == 4:
        body = bytes([random.choice(b"\x00\xFF")]) + body
    elif wound == 5 and body:
        body[-1] = body[-1] + 1 & 0xFF
    else:
        body = bytes([random.between(2, 9)])
    node.body = bytes(body)


def damage_octets(random, octets):
    """One wound to octets, whatever they mean."""
    octets = bytearray(octets)
    place = random.below(len(octets)) if octets else 0
    wound = random.below(9)
    if not octets or wound == 0:
        octets[place:place] = random.octets(random.between(1, 3))
    elif wound == 1:
        octets[place] ^= 1 << random.below(8)
    elif wound == 2:
        octets[place] = random.below(256)
    elif wound == 3:
        octets[place] = random.choice(HAZARDS)
    elif wound == 4:
        del octets[place:place + random.choice((1, 1, 2, 4))]
    elif wound == 5:
        del octets[place:]
    elif wound == 6:
        octets[place] = octets[place] + random.choice((1, -1)) & 0xFF
    elif wound == 7:
        octets[place:place] = bytes([random.choice(HAZARDS)])
    else:
        octets[place:place] = octets[random.below(len(octets)):][:random.between(1, 6)]
    return bytes(octets)


# ---------------------------------------------------------------- messages

SPECIMENS = tuple(bytes.fromhex(message) for message in (
    "6203480105", "640A4901056C05A203020101", "64804901056C80A280020101000000000000",
    "62104801056C0BA10902010102012D040107", "62134801056C0EA10C02010180010202012D040107", "", "6300",
    "6200", "62024800", "620448810105", "6203480205", "62054801056C00", "62074801056C02A500",
    "620348010500", "67064901054A0104", "67064901054A0105", "62054801056B80", "62064801056C8000",
    "62074801056C800005", "62804803050000", "620148", "7F80", "62", "6280", "62800000", "6303480105",
    "6380480105", "30064801050000", "4303480105", "2003480105", "7F2103480105", "630448810105", "6306490109480105",
    "62234801056B1E281C060700118605010101A011600F80020780A109060704000001000103"))


def good_message(random):
    """The octets of a random record in random forms (too long at times)."""
    noted = random_record(random)
    special = random.below(100)
    if special < 12:
        crowd(random, noted)
    elif special < 24:
        deepen(random, noted)
    root = message_tree(random, noted)
    if special >= 85:
        stretch(random, noted, root)
    return root


def any_message(random):
    way = random.below(1000)
    if way < 250:
        return good_message(random).octets()
    if way < 700:
        root = good_message(random)
        for _ in range(random.choice((1, 1, 1, 2))):
            damage_tree(random, root)
        return root.octets()
    if way < 850:
        octets = random.choice(SPECIMENS) if random.chance(20) else good_message(random).octets()
        for _ in range(random.choice((1, 1, 2, 4))):
            octets = damage_octets(random, octets)
        return octets
    if way < 880:
        return good_message(random).octets() + random.choice((b"\x00", b"\x00\x00", b"\x62")) \
            + random.octets(random.below(3))
    if way < 900:
        return random.choice(SPECIMENS)
    if way < 920:
        return bytes([random.below(256)]) + good_message(random).octets()[1:]
    if way < 940:
        return random.octets(random.choice((0, 1, 2, 3, 8, 40, 254, 255, 256, 257, 300)))
    if way < 980:
        octets = random.octets(random.between(1, 30))
        return bytes([random.choice(list(KINDS.values())), len(octets)]) + octets
    if way < 998:
        octets = good_message(random).octets()
        return octets + random.octets(max(0, random.choice((255, 256, 256, 257, 300, 511, 512)) - len(octets)))
    return good_message(random).octets() + random.octets(random.choice((4096, 65535, 65536, 65800)))


# ---------------------------------------------------------------- reading, listing, steering

def read_case(random):
    message = any_message(random)
    size = random.choice((428,) * 6 + (429, 500, 500, 428, 440, 452)) if random.chance(95) \
        else random.choice((0, 1, 44, 255, 426, 427, 427, 427))
    room = random.nonzero(size)
    return Case(b"r", message, b"", room, *tcap.read_call(message, room))


def list_case(random):
    message = any_message(random) if random.chance(40) else good_message(random).octets()
    size = len(tcap.listing(message))
    size = random.choice((size, size, size + 1, size + 100, size - 1, size - 1, 0, random.below(size)))
    out = random.nonzero(size)
    return Case(b"l", message, b"", out, *tcap.list_call(message, out))


def rule(random, record):
    """Rules that fit at times; record is None for an unreadable message."""
    kinds = list(KINDS.values())
    kind = random.choice([0] + 2 * kinds + [random.below(256)])
    code = random.choice((0, 1, 1, 1, 1, random.below(256)))
    local = random.choice(LOCAL_CODES)
    if record is not None and random.chance(60):
        kind = record.kind
    if record is not None and record.rows and random.chance(60):
        first = record.rows[0]
        if first.code is not None and first.code[0] == tcap.LOCAL:
            local = first.code[1]
    octets = bytes([kind, code]) + random.octets(2) + local.to_bytes(4, "big", signed=True)
    return octets + random.choice((bytes(4), b"\xFF\xFF\xFF\xFF", b"\x00\x00\x00\x03", random.octets(4)))


def steer_case(random):
    message = any_message(random) if random.chance(25) else good_message(random).octets()
    record = tcap.read(message)
    record = None if isinstance(record, tcap.Refusal) else record
    count = random.choice((0, 1, 1, 1, 2, 2, 3, 3, 4, 6)) if random.chance(98) else 100
    rules = b"".join(rule(random, record) for _ in range(count))
    if random.chance(30):
        rules += rule(random, record)[:random.between(1, 11)]
    return Case(b"s", message, rules, b"", tcap.steer_call(message, rules), b"")


# ---------------------------------------------------------------- writing: wounds to a record

def wound_parts(random, noted):
    """24, in the notation."""
    rows = noted["components"]
    row = random.choice(rows) if rows else None
    wound = random.below(12)
    if wound == 0:
        noted["otid"] = None if noted["otid"] is not None else random.octets(2)
    elif wound == 1:
        noted["dtid"] = None if noted["dtid"] is not None else random.octets(2)
    elif wound == 2:
        noted["dialogue"] = {"pdu": "cause", "cause": random.below(6)}
    elif wound == 3:
        noted["kind"] = random.choice(list(KINDS) + ["none"])
    elif wound == 4:
        noted["components"] = []
    elif wound == 5 and noted["dialogue"] is not None:
        noted["dialogue"]["ui"] = user_information(random)
    elif row is None:
        rows.append(component(random))
    elif wound == 6:
        row["id"] = None
    elif wound == 7 and row["kind"] != "reject":
        row["code"] = None
    elif wound in (8, 9):
        row["param"] = element(random, 1) if row["param"] is None else None
    elif wound == 10:
        row["linked"] = invoke_id(random)
    else:
        row["kind"] = "none"


def wound_range(random, noted):
    """23, in the notation: the highest value at times, then one above it, and far above."""
    pdu, rows = noted["dialogue"] or {}, noted["components"]
    numbers = [name for name in ("cause", "result", "diag") if name in pdu]
    numbers += ["source"] * (pdu.get("pdu") == "abort")
    rejects = [row for row in rows if row["kind"] == "reject"]
    with_global = [row for row in rows if row["code"] is not None and row["code"][0] == "global"]

    def number(highest):
        return random.choice((highest, highest + 1, highest + 1, 128, 255))

    wound = random.below(6)
    if wound == 0 and numbers:
        name = random.choice(numbers)
        pdu[name] = number({"cause": 4, "result": 1, "diag": 2, "source": 1}[name])
    elif wound <= 1 and rejects:
        code = random.choice(rejects)["code"]
        code[2] = number(tcap.HIGHEST_PROBLEM[0x80 + code[1]])
    elif wound == 2 and ("acn" in pdu or "name" in pdu):
        pdu["acn" if "acn" in pdu else "name"] = bytes(random.choice((0, 17, 18, 300)))
    elif wound <= 3 and with_global:
        random.choice(with_global)["code"][1] = bytes(random.choice((0, 17, 18, 255)))
    elif wound == 4 and noted["kind"] != "abort":
        rows.extend(component(random, True) for _ in range(17 - len(rows)))
    else:
        ids = [name for name in ("otid", "dtid") if noted[name] is not None]
        for name in ids and [random.choice(ids)]:
            noted[name] = random.octets(random.choice((0, 5, 5, 17, 256)))


def wounded_identifier(random):
    return random.choice((b"\x80", b"\x80\x01", b"\x2A\x80\x01", b"\x2A\x81", b"\x81", b"\xFF" * 16,
                          b"\x00\x11\x86\x05\x80\x01\x01", b"\x00" * 15 + b"\x80"))


def wounded_element(random, octets, level):
    wound = random.below(8)
    if wound == 0:
        return b""
    if wound == 1:
        return octets + random.choice((b"\x00", b"\x00\x00", b"\x04\x00", octets))
    if wound == 2:
        return octets[:random.below(len(octets) + 1)]
    if wound == 3:
        return nest(random, level, random.choice((16, 17, 18))).octets()
    if wound == 4:
        long = tcap.tlv(0x04, bytes(random.choice((126, 127, 128, 255, 256, 300))))
        return long if random.chance(50) else damage_octets(random, long)
    return damage_octets(random, octets)


def wounded_series(random, octets):
    wound = random.below(6)
    if wound == 0:
        return octets + random.choice((b"\x00\x00", b"\x00", b"\x28", b"\x08\x00", b"\x04\x00", b"\x30\x00"))
    if wound == 1:
        return random.choice((b"\x28\x00\x00\x00", b"\x28\x80", b"\x28\x80\x00", b"\x08\x00", b"\x00\x00"))
    if wound == 2:
        return octets + nest(random, 7, random.choice((16, 17, 18)), 0x28).octets()
    return damage_octets(random, octets)


def wound_strings(random, noted):
    """22, in the notation (of octets only)."""
    pdu, rows = noted["dialogue"] or {}, noted["components"]
    with_param = [row for row in rows if row["param"] is not None]
    with_global = [row for row in rows if row["code"] is not None and row["code"][0] == "global"]
    wound = random.below(6)
    if wound == 0 and ("acn" in pdu or "name" in pdu):
        pdu["acn" if "acn" in pdu else "name"] = wounded_identifier(random)
    elif wound == 1 and "name" in pdu:
        pdu["name"] = random.choice((tcap.STRUCTURED, tcap.UNSTRUCTURED))
    elif wound == 2 and with_global:
        random.choice(with_global)["code"][1] = wounded_identifier(random)
    elif wound == 3 and pdu.get("ui") is not None:
        pdu["ui"] = wounded_series(random, pdu["ui"])
    elif wound == 3 and pdu.get("form") == "A0":
        pdu["octets"] = wounded_element(random, pdu["octets"], 5)
    elif with_param:
        row = random.choice(with_param)
        row["param"] = wounded_element(random, row["param"], 4 if row["kind"] in ("invoke", "error") else 5)


# ---- wounds to the octets of a record

def spans_used(record):
    """Where spans in use stand in good enough octets of a record."""
    places = [8] * (record[1] == 1) + [16] * (record[2] == 1)
    places += [24] * (record[3] in (2, 3, 5, 6, 7))
    places += [32] * (record[3] in (6, 7) or record[3] in (2, 3, 4, 5) and record[40] == 1)
    for row in range(44, 44 + 24 * min(16, tcap.number_at(record, 4)), 24):
        places += [row + 8] * (record[row] != 0xA4 and record[row + 5] == 0x06)
        places += [row + 16] * (record[row] != 0xA4 and record[row + 6] == 1)
    return places


def wound_span(random, record, material):
    """21: a place or length at, past or far past the end of the material."""
    places = spans_used(record)
    if not places:
        return
    at = random.choice(places)
    place, length = tcap.span_at(record, at)
    end = len(material)
    place, length = random.choice((
        (max(0, end - length), length), (max(0, end - length) + 1, length), (end, length),
        (end + 1, length), (end, 0), (end + 1, 0), (place, end - place + 1), (place, 0xFFFFFFFF),
        (0xFFFFFFFF, length), (0xFFFFFFFF, 0), (0xFFFFFFFF, 1), (0x80000000, 0x80000000),
        (2 ** 32 - length, length), (2 ** 32 - place, length), (place + 256, length),
        (place + 65536, length), (place + 2 ** 31, length), (random.below(2 ** 32), length)))
    record[at:at + 8] = (place & 0xFFFFFFFF).to_bytes(4, "big") + (length & 0xFFFFFFFF).to_bytes(4, "big")


def wound_record(random, record):
    """24 and 23: a choice that does not exist, a number out of range, a count."""
    row = 44 + 24 * random.below(max(1, min(16, tcap.number_at(record, 4))))
    wound = random.below(5)
    if wound == 0:
        record[random.choice((0, 1, 2, 3, 40, 42))] = \
            random.choice((1, 2, 8, 0x80, 0xA1, 0x63, random.below(256)))
    elif wound == 1:
        record[row + random.choice((0, 1, 3, 5, 6))] = \
            random.choice((0, 1, 2, 6, 0x84, 0xA5, random.below(256)))
    elif wound == 2:
        count = random.choice((0, 1, 15, 16, 17, 18, 255, 256, 257, 65536, 65537, 0x0AAAAAAB,
                               2 ** 31, 2 ** 32 - 1))
        record[4:8] = count.to_bytes(4, "big")
        if random.chance(50):
            brief = bytes.fromhex("A2 01 07 00 00 00 00 00") + bytes(16)
            record[44:428] = brief * 16
    elif wound == 3:
        record[random.choice((41, 43, row + 7))] = random.choice((0, 1, 2, 3, 4, 5, 8, 255))
    else:
        for _ in range(random.between(1, 3)):
            record[random.below(len(record))] = random.below(256)


def write_case(random):
    way = random.below(100)
    if way < 8:
        record, material = record_read(random)
    else:
        noted = random_record(random)
        special = random.below(100)
        if special < 8:
            crowd(random, noted)
        elif special < 16:
            deepen(random, noted)
        elif special < 34:
            stretch(random, noted, message_tree(random, noted, indefinite=0))
        wounds = []
        if way >= 40:
            wounds = [random.below(6) for _ in range(random.choice((1, 1, 1, 1, 2, 3)))]
        if 0 in wounds:
            wound_parts(random, noted)
        noted = plain(noted)
        if 1 in wounds:
            wound_range(random, noted)
        if 2 in wounds or 5 in wounds:
            wound_strings(random, noted)
        if random.below(500) == 0:
            with_param = [row for row in noted["components"] if row["param"] is not None]
            for row in with_param[:1]:
                row["param"] = tcap.tlv(0x04, bytes(random.choice((65530, 65536, 70000))))
                if random.chance(50):
                    row["param"] += b"\x00"
        material, spans = laid_material(noted_strings(noted), random)
        laid = laid_record(noted, spans, random.octets, strange_octet(random))
        record = bytearray(whole_record(laid, random))
        if 3 in wounds:
            wound_span(random, record, material)
        if 4 in wounds:
            wound_record(random, record)
        if random.chance(1):
            del record[random.choice((0, 1, 43, 44, 300, 426, 427, 427, 427)):]
        record = bytes(record)
    out = random.nonzero(room_for(random, record, material))
    return Case(b"w", record, material, out, *tcap.write_call(record, material, out))


def record_read(random):
    """A record as reading gives it, with the message for its material."""
    message = good_message(random).octets()
    answer, room = tcap.read_call(message, random.nonzero(RECORD_SIZE))
    return room, message + random.octets(random.choice((0, 0, 3)))


def room_for(random, record, material):
    """Rooms around the length of the message written, around the bound, or any."""
    answer = tcap.write_call(record, material, bytes(255))[0]
    exact = answer >> 8
    if answer & 0xFF == 0 and random.chance(65):
        return random.choice((exact, exact, exact + 1, exact - 1, exact - 1, exact + 20))
    return random.choice((0, 1, 20, 254, 255, 255, 256, 256, 257, 300, 511, 512, 600,
                          65536 if random.below(20) == 0 else 255, random.below(256)))


# ---------------------------------------------------------------- all

def all_cases(seed, count, answers):
    random = Random(seed)
    for _ in range(count):
        way = random.below(100)
        make = read_case if way < 45 else write_case if way < 70 else steer_case if way < 80 else \
            list_case if way < 90 else sccp_cases.read_case if way < 95 else sccp_cases.write_case
        case = make(random)
        key = (case.op.decode(), case.answer & 0xFF)
        answers[key] = answers.get(key, 0) + 1
        yield case


def main(seed, count, path):
    answers = {}
    write_cases(path, all_cases(seed, count, answers))
    print("answer   read  write  steer   list  unitdata read  write")
    for status in sorted({status for op, status in answers}):
        print("%6d %6s %6s %6s %6s %14s %6s" % ((status,) + tuple(answers.get((op, status), "") for op in "rwsluv")))


if __name__ == "__main__":
    if len(sys.argv) != 4:
        sys.exit("usage: cases.py SEED COUNT OUT")
    main(int(sys.argv[1]), int(sys.argv[2]), sys.argv[3])
