"""Usage: selfcheck.py VECTORS_DIR. Runs the model on all vector files: how many compared, how many differ.
The same vectors as cases of the calls (vector_cases.py) are compared as well."""

import sys

import sccp_model as sccp
import table_model as table
import tcap_model as tcap
import vector_cases
from vector_files import json_lines, read_vectors

KINDS = {name: kind for kind, name in tcap.MESSAGE_NAMES.items()}
COMPONENTS = {name: kind for kind, name in tcap.COMPONENT_NAMES.items()}
PDUS = {"request": tcap.REQUEST, "response": tcap.RESPONSE, "abort": tcap.DIALOGUE_ABORT,
        "uni": tcap.UNIDIALOGUE, "cause": tcap.P_ABORT_CAUSE}
OTHER = {"A0": tcap.OTHER_ELEMENT, "81": tcap.OTHER_OCTETS}
SOURCES = {"user": tcap.USER, "provider": tcap.PROVIDER}
NONE = 0x63


# ---- the model's record in the notation of records.jsonl

def name_of(value, names):
    return next(name for name, other in names.items() if other == value)


def noted_string(span, octets):
    return None if span is None else tcap.octets_of(span, octets)


def noted_record(record, octets):
    return {"kind": tcap.MESSAGE_NAMES[record.kind], "otid": noted_string(record.orig, octets),
            "dtid": noted_string(record.dest, octets),
            "dialogue": noted_dialogue(record.dialogue, octets),
            "components": [noted_row(row, octets) for row in record.rows]}


def noted_dialogue(dialogue, octets):
    case = dialogue.case
    if case == tcap.NO_DIALOGUE:
        return None
    if case in OTHER.values():
        return {"pdu": "other", "name": noted_string(dialogue.name, octets),
                "form": name_of(case, OTHER), "octets": noted_string(dialogue.info, octets)}
    noted = {"pdu": name_of(case, PDUS)}
    if case == tcap.P_ABORT_CAUSE:
        noted["cause"] = dialogue.number
        return noted
    if case in tcap.WITH_CONTEXT_NAME:
        noted["acn"] = noted_string(dialogue.name, octets)
    if case == tcap.RESPONSE:
        noted.update(result=dialogue.number, source=name_of(dialogue.source, SOURCES),
                     diag=dialogue.diagnostic)
    if case == tcap.DIALOGUE_ABORT:
        noted["source"] = dialogue.number
    noted["ui"] = noted_string(dialogue.info, octets)
    return noted


def noted_row(row, octets):
    code = None
    if row.kind == tcap.REJECT:
        code = ["problem", row.code[0] - 0x80, row.code[1]]
    elif row.code is not None and row.code[0] == tcap.LOCAL:
        code = ["local", row.code[1]]
    elif row.code is not None:
        code = ["global", noted_string(row.code[1], octets)]
    return {"kind": tcap.COMPONENT_NAMES[row.kind], "id": row.invoke, "linked": row.linked,
            "code": code, "param": noted_string(row.parameter, octets),
            "param_place": None if row.parameter is None else list(row.parameter)}


# ---- a record of write.jsonl as the model's record and its material

class Material:
    """Strings one behind the other."""

    def __init__(self):
        self.octets = b""

    def add(self, string):
        if string is None:
            return None
        self.octets += string
        return tcap.Span(len(self.octets) - len(string), len(string))


def model_record(noted):
    material = Material()
    noted_pdu, dialogue = noted["dialogue"], tcap.Dialogue(tcap.NO_DIALOGUE)
    if noted_pdu is not None:
        pdu = noted_pdu["pdu"]
        source = noted_pdu.get("source")
        dialogue = tcap.Dialogue(
            OTHER.get(noted_pdu["form"], 8) if pdu == "other" else PDUS[pdu],
            name=material.add(noted_pdu.get("acn", noted_pdu.get("name"))),
            info=material.add(noted_pdu.get("ui", noted_pdu.get("octets"))),
            number={"cause": noted_pdu.get("cause"), "response": noted_pdu.get("result"),
                    "abort": source}.get(pdu),
            source=SOURCES.get(source, NONE) if pdu == "response" else None,
            diagnostic=noted_pdu.get("diag"))
    rows = []
    for component in noted["components"][:tcap.MOST_COMPONENTS]:
        code = component["code"]
        if code is not None and code[0] == "problem":
            code = (0x80 + code[1], code[2])
        elif code is not None and code[0] == "local":
            code = (tcap.LOCAL, code[1])
        elif code is not None:
            code = (tcap.GLOBAL, material.add(code[1]))
        rows.append(tcap.Row(COMPONENTS.get(component["kind"], NONE), component["id"],
                             component["linked"], code, material.add(component["param"])))
    record = tcap.Record(KINDS.get(noted["kind"], NONE), material.add(noted["otid"]),
                         material.add(noted["dtid"]), dialogue, len(noted["components"]), rows)
    return record, material.octets


# ---- the comparisons: pairs of what the vector says and what the model says

def compare_read(directory):
    for vector in read_vectors(directory):
        yield vector.listing, tcap.listing(vector.message)
        answer = tcap.read(vector.message)
        yield vector.refused, isinstance(answer, tcap.Refusal)
        if vector.refused:
            orig = None if answer.orig is None else tcap.octets_of(answer.orig, vector.message)
            yield (vector.orig, vector.invoke), (orig, answer.invoke)


def compare_records(directory):
    for vector in json_lines(directory, "records.jsonl"):
        message = bytes.fromhex(vector["message"])
        yield vector["record"], noted_record(tcap.read(message), message)


def compare_write(directory):
    for vector in json_lines(directory, "write.jsonl"):
        record, material = model_record(vector["record"])
        answer = tcap.write(record, material, vector["room"])
        yield vector["expect"], ({"no": answer} if isinstance(answer, int)
                                 else {"ok": answer.hex().upper()})


def compare_steer(directory):
    for vector in json_lines(directory, "steer.jsonl"):
        message = bytes.fromhex(vector["message"])
        rules = [tcap.Rule(None if kind == "any" else KINDS.get(kind, NONE),
                           None if code == "any" else code, link)
                 for kind, code, link in vector["rules"]]
        answer = tcap.read(message)
        if isinstance(answer, tcap.Refusal):
            standard = [answer.answer, answer.value]
            if answer.answer == "problem":
                standard += [answer.component, answer.invoke]
            got = {"no": answer.number, "place": answer.place,
                   "otid": noted_string(answer.orig, message), "answer": standard}
        else:
            link = tcap.steer(answer, rules)
            got = {"norule": True} if link is None else {"link": link}
        yield vector["expect"], got


def compare_unitdata_read(directory):
    for vector in json_lines(directory, "06-unitdata/read.jsonl"):
        answer = sccp.read(bytes.fromhex(vector["octets"]))
        yield vector["expect"], ({"no": answer} if isinstance(answer, int) else
                                 {"ok": {"class": answer.protocol_class, "called": list(answer.called),
                                         "calling": list(answer.calling), "data": list(answer.data)}})


def compare_unitdata_write(directory):
    for vector in json_lines(directory, "06-unitdata/write.jsonl"):
        answer = sccp.write(vector["class"], vector["called"], vector["calling"], vector["data"], vector["room"])
        yield vector["expect"], ({"no": answer} if isinstance(answer, int) else {"ok": answer.hex().upper()})


def compare_calls(directory):
    calls = {b"r": lambda a, b, c: tcap.read_call(a, c),
             b"w": tcap.write_call,
             b"s": lambda a, b, c: (tcap.steer_call(a, b), c),
             b"l": lambda a, b, c: tcap.list_call(a, c),
             b"u": lambda a, b, c: (sccp.read_call(a), c)}
    for case in vector_cases.all_cases(directory):
        yield (case.answer, case.c_after), (
            sccp.write_call(case.a[0], case.b, case.d, case.e, case.c) if case.op == b"v"
            else calls[case.op](case.a, case.b, case.c))


def compare_histories(directory):
    for vector in json_lines(directory, "10-table/histories.jsonl"):
        rooms, answers = table.EMPTY, []
        for event, ours, partner in vector["events"]:
            answer, rooms = table.step(rooms, event, ours, partner or b"")
            answers.append(answer.number or "ok")
        entries = [[entry.ours, entry.partner, table.STATE_NAMES[entry.state]] for entry in rooms if entry is not None]
        yield vector["answers"], answers
        yield vector["entries"], sorted(entries, key=lambda entry: entry[0])


def main(directory):
    total = 0
    for name, comparison in (("read.txt, 05-unknown/read.txt", compare_read), ("records.jsonl", compare_records),
                             ("write.jsonl", compare_write), ("steer.jsonl", compare_steer),
                             ("06-unitdata/read.jsonl", compare_unitdata_read),
                             ("06-unitdata/write.jsonl", compare_unitdata_write),
                             ("10-table/histories.jsonl", compare_histories),
                             ("cases of the calls", compare_calls)):
        compared = differ = 0
        for expected, got in comparison(directory):
            compared += 1
            if expected != got:
                differ += 1
                if differ <= 3:
                    print("differs: expected %s\n         got      %s" % (expected, got))
        print("%s: %d compared, %d differ" % (name, compared, differ))
        total += differ
    return 1 if total else 0


if __name__ == "__main__":
    if len(sys.argv) != 2:
        sys.exit("usage: selfcheck.py VECTORS_DIR")
    sys.exit(main(sys.argv[1]))
