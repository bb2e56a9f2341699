"""Usage: vector_cases.py VECTORS_DIR OUT. Turns the vector files into cases of the calls.
Expected answers and records come from the vectors' own values; places are found in the messages."""

import sys

from case_file import Case, Random, write_cases
from vector_files import json_lines, read_vectors

KINDS = {"unidirectional": 0x61, "begin": 0x62, "end": 0x64, "continue": 0x65, "abort": 0x67}
COMPONENTS = {"invoke": 0xA1, "last": 0xA2, "error": 0xA3, "reject": 0xA4, "notlast": 0xA7}
DIALOGUES = {"cause": 1, "request": 2, "response": 3, "abort": 4, "uni": 5}
FORMS = {"A0": 6, "81": 7}
CODES = {"local": 0x02, "global": 0x06}
SOURCES = {"user": 0xA1, "provider": 0xA2}
RECORD_SIZE, ROWS = 428, 16


# ---------------------------------------------------------------- laying out a record

def laid_record(noted, spans, unused, strange=None):
    """Head and rows of a record in the vectors' notation. spans: the place and length of every
    string, by name; unused(n): n octets for what the case does not use; strange(values): an octet
    for a choice that is none of the values."""
    dialogue = noted["dialogue"] or {}
    pdu = dialogue.get("pdu")
    case = 0 if pdu is None else DIALOGUES.get(pdu)
    if pdu == "other":
        case = FORMS[dialogue["form"]]
    number = {"cause": "cause", "response": "result", "abort": "source"}.get(pdu)
    source = SOURCES[dialogue["source"]] if pdu == "response" else None

    def span(name):
        return spans[name][0].to_bytes(4, "big") + spans[name][1].to_bytes(4, "big") \
            if name in spans else unused(8)

    def octet(value):
        return unused(1) if value is None else bytes([value & 0xFF])

    def choice(value, values):
        return bytes([values[value]]) if value in values else strange(list(values.values()))

    head = choice(noted["kind"], KINDS)
    head += bytes([noted["otid"] is not None, noted["dtid"] is not None, case])
    head += len(noted["components"]).to_bytes(4, "big")
    head += span("otid") + span("dtid") + span("name") + span("info")
    head += bytes([dialogue.get("ui") is not None])
    head += octet(dialogue[number] if number else None) + octet(source) + octet(dialogue.get("diag"))

    rows = b""
    for k, row in enumerate(noted["components"][:ROWS]):
        code = row["code"]
        rows += choice(row["kind"], COMPONENTS) + bytes([row["id"] is not None]) + octet(row["id"])
        rows += bytes([row["linked"] is not None]) + octet(row["linked"])
        if code is None:
            rows += b"\x00"
        elif code[0] == "problem":
            rows += octet(0x80 + code[1])
        else:
            rows += bytes([CODES[code[0]]])
        rows += bytes([row["param"] is not None])
        rows += octet(code[2] if code is not None and code[0] == "problem" else None)
        if code is not None and code[0] == "local":
            rows += code[1].to_bytes(4, "big", signed=True) + unused(4)
        else:
            rows += span(("code", k))
        rows += span(("param", k))
    return head + rows


def noted_strings(noted):
    """Every string of a record in the vectors' notation, by name."""
    dialogue = noted["dialogue"] or {}
    strings = {"otid": noted["otid"], "dtid": noted["dtid"],
               "name": dialogue.get("acn", dialogue.get("name")),
               "info": dialogue.get("ui", dialogue.get("octets"))}
    for k, row in enumerate(noted["components"][:ROWS]):
        if row["code"] is not None and row["code"][0] == "global":
            strings["code", k] = row["code"][1]
        strings["param", k] = row["param"]
    return {name: string for name, string in strings.items() if string is not None}


def zeros(count):
    return bytes(count)


# ---------------------------------------------------------------- finding places in good messages

def series(octets, place, end):
    """The elements of good contents: [(tag, contents begin, contents end)], and the place behind.
    end is None for the indefinite form, whose end pair is passed over."""
    elements = []
    while octets[place:place + 2] != b"\x00\x00" if end is None else place < end:
        tag = place
        if octets[place] & 0x1F == 0x1F:
            place += 1
            while octets[place] & 0x80:
                place += 1
        place += 1
        length = octets[place]
        place += 1
        if length == 0x80:
            begin = place
            place = series(octets, place, None)[1]
            elements.append((octets[tag], begin, place - 2))
            continue
        if length > 0x80:
            more = length - 0x80
            length = int.from_bytes(octets[place:place + more], "big")
            place += more
        elements.append((octets[tag], place, place + length))
        place += length
    return elements, place + 2 if end is None else end


def inside(octets, element):
    return series(octets, element[1], element[2])[0]


def found_spans(octets, noted):
    """The places of a good message's strings, but for the parameters, which the vectors give."""
    found = {}
    for part in inside(octets, series(octets, 0, len(octets))[0][0]):
        if part[0] == 0x48:
            found["otid"] = part
        elif part[0] == 0x49:
            found["dtid"] = part
        elif part[0] == 0x6B:
            name, holder = inside(octets, inside(octets, part)[0])
            if noted["dialogue"]["pdu"] == "other":
                found["name"], found["info"] = name, holder
            else:
                for field in inside(octets, inside(octets, holder)[0]):
                    if field[0] == 0xA1:
                        found["name"] = inside(octets, field)[0]
                    elif field[0] == 0xBE:
                        found["info"] = field
        elif part[0] == 0x6C:
            for k, component in enumerate(inside(octets, part)):
                fields = inside(octets, component)
                fields = inside(octets, fields[1]) if fields[1:] and fields[1][0] == 0x30 else fields[1:]
                codes = [field for field in fields if field[0] == 0x06]
                if noted["components"][k]["code"] is not None \
                        and noted["components"][k]["code"][0] == "global":
                    found["code", k] = codes[0]
    spans = {name: (begin, end - begin) for name, (tag, begin, end) in found.items()}
    for k, row in enumerate(noted["components"]):
        if row["param"] is not None:
            spans["param", k] = tuple(row["param_place"])
    strings = noted_strings(noted)
    assert set(spans) == set(strings)
    for name, (place, length) in spans.items():
        assert octets[place:place + length] == strings[name]
    return spans


def orig_place(message, orig):
    """Where the originating ID's octets stand: the contents of the 48 at the front."""
    place = 2 if message[1] <= 0x80 else 2 + message[1] - 0x80
    assert message[place] == 0x48 and message[place + 1] == len(orig)
    assert message[place + 2:place + 2 + len(orig)] == orig
    return place + 2


def refusal_answer(message, number, place, orig, cause=None, problem=None):
    """cause: its value; problem: its value, the component and the invoke ID or None."""
    answer = number | place << 8
    if orig is not None:
        answer |= orig_place(message, orig) << 24 | len(orig) << 40
    if problem is None:
        return answer | cause << 45
    value, component, invoke = problem
    answer |= 1 << 44 | value << 45 | component << 48
    return answer if invoke is None else answer | 1 << 55 | (invoke & 0xFF) << 56


# ---------------------------------------------------------------- cases

def read_cases(directory):
    records = {line["message"]: line["record"] for line in json_lines(directory, "records.jsonl")}
    random = Random(1)
    for vector in read_vectors(directory):
        message = vector.message
        room = random.nonzero(RECORD_SIZE + random.choice((0, 0, 1, 72)))
        if vector.refused:
            words = vector.listing.split()
            number, place, value = int(words[1]), int(words[2]), int(words[4])
            if words[3] == "cause":
                answer = refusal_answer(message, number, place, vector.orig, cause=value)
            else:
                answer = refusal_answer(message, number, place, vector.orig,
                                        problem=(value, int(words[6]), vector.invoke))
            yield Case(b"r", message, b"", room, answer, room)
        else:
            noted = records[message.hex().upper()]
            laid = laid_record(noted, found_spans(message, noted), zeros)
            yield Case(b"r", message, b"", room, 0, laid + room[len(laid):])


def list_cases(directory):
    random = Random(2)
    for vector in read_vectors(directory):
        text = vector.listing.encode("ascii")
        out = random.nonzero(len(text) + random.choice((0, 1, 40)))
        yield Case(b"l", vector.message, b"", out, len(text) << 8, text + out[len(text):])


def laid_material(strings, random):
    """Strings laid into material at scattered places, some shared, some overlapping, with filler
    between: the material, and the place and length of each."""
    material, spans = random.octets(random.below(6)), {}
    names = list(strings)
    while names:
        name = names.pop(random.below(len(names)))
        string = strings[name]
        place = material.find(string) if string and random.chance(50) else -1
        if place < 0 and random.chance(50):
            overlap = max(n for n in range(len(string) + 1) if material.endswith(string[:n]))
            place = len(material) - overlap
            material += string[overlap:]
        elif place < 0:
            material += random.octets(random.below(9))
            place = random.between(0, len(material)) if not string else len(material)
            material += string
        spans[name] = (place, len(string))
    return material + random.octets(random.choice((0, 0, 1, 7))), spans


def strange_octet(random):
    """A function that gives an octet other than those it is given."""
    def strange(values):
        while True:
            octet = random.below(256)
            if octet not in values:
                return bytes([octet])
    return strange


def whole_record(laid, random):
    """Junk in the rows behind the count, and at times behind the record."""
    return laid + random.octets(RECORD_SIZE - len(laid) + random.choice((0, 0, 0, 5)))


def write_cases_of_vectors(directory):
    random = Random(3)
    for vector in json_lines(directory, "write.jsonl"):
        noted, expect = vector["record"], vector["expect"]
        material, spans = laid_material(noted_strings(noted), random)
        laid = laid_record(noted, spans, random.octets, strange_octet(random))
        out = random.nonzero(vector["room"])
        if "no" in expect:
            answer, after = expect["no"], out
        else:
            message = bytes.fromhex(expect["ok"])
            answer, after = len(message) << 8, message + out[len(message):]
        yield Case(b"w", whole_record(laid, random), material, out, answer, after)


def steer_cases(directory):
    random = Random(4)
    strange = strange_octet(random)
    for vector in json_lines(directory, "steer.jsonl"):
        message, expect = bytes.fromhex(vector["message"]), vector["expect"]
        rules = b""
        for kind, code, link in vector["rules"]:
            any_or_kind = dict(KINDS, any=0)
            rules += (bytes([any_or_kind[kind]]) if kind in any_or_kind
                      else strange(list(any_or_kind.values())))
            rules += bytes([code != "any"]) + random.octets(2)
            rules += random.octets(4) if code == "any" else code.to_bytes(4, "big", signed=True)
            rules += link.to_bytes(4, "big")
        rules += random.octets(random.choice((0, 0, 1, 11)))
        if "link" in expect:
            answer = expect["link"] << 32
        elif "norule" in expect:
            answer = 64
        elif expect["answer"][0] == "cause":
            answer = refusal_answer(message, expect["no"], expect["place"], expect["otid"],
                                    cause=expect["answer"][1])
        else:
            answer = refusal_answer(message, expect["no"], expect["place"], expect["otid"],
                                    problem=expect["answer"][1:])
        yield Case(b"s", message, rules, b"", answer, b"")


def unitdata_read_cases(directory):
    for vector in json_lines(directory, "06-unitdata/read.jsonl"):
        expect = vector["expect"]
        answer = expect["no"] if "no" in expect else 0
        if "ok" in expect:
            for name, bit in (("called", 8), ("calling", 25), ("data", 42)):
                place, length = expect["ok"][name]
                answer |= place << bit | length << bit + 9
        yield Case(b"u", bytes.fromhex(vector["octets"]), b"", b"", answer, b"")


def unitdata_write_cases(directory):
    random = Random(6)
    for vector in json_lines(directory, "06-unitdata/write.jsonl"):
        expect, out = vector["expect"], random.nonzero(vector["room"])
        answer, after = expect.get("no"), out
        if "ok" in expect:
            octets = bytes.fromhex(expect["ok"])
            answer, after = len(octets) << 8, octets + out[len(octets):]
        yield Case(b"v", bytes([vector["class"]]), vector["called"], out, answer, after,
                   vector["calling"], vector["data"])


def all_cases(directory):
    for cases in (read_cases, list_cases, write_cases_of_vectors, steer_cases, unitdata_read_cases, unitdata_write_cases):
        yield from cases(directory)


def main(directory, path):
    print("%d cases" % write_cases(path, all_cases(directory)))


if __name__ == "__main__":
    if len(sys.argv) != 3:
        sys.exit("usage: vector_cases.py VECTORS_DIR OUT")
    main(sys.argv[1], sys.argv[2])
