"""Model of a TCAP codec: reading, writing, steering and listing, in the words of the rules page.
To be read next to that page: one short function for each rule, and no care for speed."""

from collections import namedtuple

# ---------------------------------------------------------------- names and numbers of the page

UNIDIRECTIONAL, BEGIN, END, CONTINUE, ABORT = 0x61, 0x62, 0x64, 0x65, 0x67
MESSAGE_NAMES = {UNIDIRECTIONAL: "unidirectional", BEGIN: "begin", END: "end",
                 CONTINUE: "continue", ABORT: "abort"}
WITH_ORIGINATING_ID = (BEGIN, CONTINUE)
WITH_DESTINATION_ID = (END, CONTINUE, ABORT)

INVOKE, RESULT_LAST, ERROR, REJECT, RESULT_NOT_LAST = 0xA1, 0xA2, 0xA3, 0xA4, 0xA7
COMPONENT_NAMES = {INVOKE: "invoke", RESULT_LAST: "last", ERROR: "error",
                   REJECT: "reject", RESULT_NOT_LAST: "notlast"}
RESULTS = (RESULT_LAST, RESULT_NOT_LAST)

LOCAL, GLOBAL = 0x02, 0x06                                     # tags of the two codes
HIGHEST_PROBLEM = {0x80: 2, 0x81: 7, 0x82: 2, 0x83: 4}         # general, invoke, result, error
HIGHEST_CAUSE, HIGHEST_RESULT, HIGHEST_SOURCE, HIGHEST_DIAGNOSTIC = 4, 1, 1, 2
USER, PROVIDER = 0xA1, 0xA2                                    # the two diagnostic sources

(NO_DIALOGUE, P_ABORT_CAUSE, REQUEST, RESPONSE, DIALOGUE_ABORT, UNIDIALOGUE,
 OTHER_ELEMENT, OTHER_OCTETS) = DIALOGUE_CASES = tuple(range(8))
WITH_CONTEXT_NAME = (REQUEST, RESPONSE, UNIDIALOGUE)
WITH_USER_INFORMATION = (REQUEST, RESPONSE, DIALOGUE_ABORT, UNIDIALOGUE)
STRUCTURED = bytes.fromhex("00118605010101")
UNSTRUCTURED = bytes.fromhex("00118605010201")
VERSION_1 = bytes.fromhex("0780")

MOST_OCTETS, MOST_COMPONENTS, DEEPEST_LEVEL, MOST_TAG_EXTENSIONS = 255, 16, 16, 3
LONGEST_ID, LONGEST_LOCAL_CODE, LONGEST_IDENTIFIER = 4, 4, 16

# ---------------------------------------------------------------- records and refusals

Span = namedtuple("Span", "place length")
# A span is None where the string is absent. count may exceed the rows: there are at most 16 rows.
Record = namedtuple("Record", "kind orig dest dialogue count rows")
# number: the cause, the result or the abort source. info: what BE holds, or the other name's octets.
Dialogue = namedtuple("Dialogue", "case name info number source diagnostic",
                      defaults=(None, None, None, None, None))
# code: None, (LOCAL, number), (GLOBAL, span), or in a Reject (problem type, problem).
Row = namedtuple("Row", "kind invoke linked code parameter")
# answer: "cause" or "problem", and its value. component and invoke go with a problem only.
Refusal = namedtuple("Refusal", "number place orig answer value component invoke")


def octets_of(span, octets):
    return octets[span.place:span.place + span.length]


# ---------------------------------------------------------------- primitive contents

def good_id(contents):
    return 1 <= len(contents) <= LONGEST_ID


def good_identifier(contents):
    """1 to 16 octets; no number begins with 80, the last one ends (bit H 0)."""
    if not 1 <= len(contents) <= LONGEST_IDENTIFIER:
        return False
    begins_number = True
    for octet in contents:
        if begins_number and octet == 0x80:
            return False
        begins_number = octet < 0x80
    return begins_number


def good_local_code(contents):
    return 1 <= len(contents) <= LONGEST_LOCAL_CODE and shortest_signed(signed(contents)) == contents


def one_octet_up_to(highest):
    return lambda contents: len(contents) == 1 and contents[0] <= highest


def one_octet(contents):
    return len(contents) == 1


def nothing(contents):
    return len(contents) == 0


def anything(contents):
    return True


def version_1(contents):
    return contents == VERSION_1


def signed(contents):
    return int.from_bytes(contents, "big", signed=True)


def shortest_signed(number):
    size = 1
    while not -(1 << 8 * size - 1) <= number < 1 << 8 * size - 1:
        size += 1
    return number.to_bytes(size, "big", signed=True)


# ---------------------------------------------------------------- reading: elements

ELSEWHERE, IN_DIALOGUE = "elsewhere", "dialogue"     # or the index of a component
MISSING, ANOTHER, TOO_MANY = 14, 15, 16              # in the place of 10, which is retired
WRONG_PART = (11, MISSING, ANOTHER, TOO_MANY)        # standard answers: with 11, as 10 was


class Fault(Exception):
    """The first fault found: its number, its place, and the part of the message it belongs to."""

    def __init__(self, number, place, owner):
        super().__init__(number, place, owner)
        self.number, self.place, self.owner = number, place, owner


class Contents:
    """Contents of a constructor, read from the front. Indefinite contents are limited by the end
    of the nearest definite contents around them. level is that of the elements inside; owner is
    whom the constructor (with its end pair) belongs to, inner whom the elements inside belong to."""

    def __init__(self, place, end, indefinite, level, owner, inner):
        self.place, self.end, self.indefinite = place, end, indefinite
        self.level, self.owner, self.inner = level, owner, inner
        self.asked = None       # where an element, mandatory or optional, was last asked for

    def fault(self, number):
        return Fault(number, self.place, self.inner)


class ElementReader:
    """At each place in this order: the end (1, 14), tag (1, 2), code 0 (6), level (5), expected tag
    (15, 16), length (1, 3, 4), contents (11 or inner faults)."""

    def __init__(self, octets):
        self.octets = octets

    def ended(self, c):
        """The end reached? Definite: nothing left. Indefinite: 00 00; nothing left or 00 alone is 1."""
        if not c.indefinite:
            return c.place == c.end
        ahead = self.octets[c.place:min(c.place + 2, c.end)]
        if ahead in (b"", b"\x00"):
            raise Fault(1, c.place, c.owner)
        return ahead == b"\x00\x00"

    def tag(self, c):
        """The tag's octets: extension (1, 2), universal code 0 (6), level (5). Moves nothing."""
        place = c.place
        if self.octets[place] & 0x1F == 0x1F:
            for extension in range(1, MOST_TAG_EXTENSIONS + 1):
                place += 1
                if place == c.end:
                    raise c.fault(1)
                octet = self.octets[place]
                if extension == 1 and (octet == 0x80 or octet < 31):
                    raise c.fault(2)
                if octet < 0x80:
                    break
            else:
                raise c.fault(2)
        tag = self.octets[c.place:place + 1]
        if tag in (b"\x00", b"\x20"):
            raise c.fault(6)
        if c.level > DEEPEST_LEVEL:
            raise c.fault(5)
        return tag

    def next_is(self, c, tag):
        """Does this element, which may stand here, stand here?"""
        c.asked = c.place
        return not self.ended(c) and self.tag(c) == bytes([tag])

    def unexpected(self, c):
        """None that may stand here does: the contents end where something mandatory is due (14), or
        an element stands where only others may (15), or follows where nothing more may (16)."""
        if self.ended(c):
            return c.fault(MISSING)
        self.tag(c)
        return c.fault(ANOTHER if c.asked == c.place else TOO_MANY)

    def expect(self, c, tag):
        if not self.next_is(c, tag):
            raise self.unexpected(c)

    def length(self, c):
        """Where the contents begin, and their length or None if indefinite. Moves nothing."""
        tag = self.tag(c)
        place = c.place + len(tag)
        if place == c.end:
            raise c.fault(1)
        first = self.octets[place]
        place += 1
        if first == 0x80 and is_constructor(tag):
            return place, None
        if first in (0x80, 0xFF):
            raise c.fault(3)
        length = first
        if first > 0x80:
            more = self.octets[place:min(place + first - 0x80, c.end)]
            if len(more) < first - 0x80:
                raise c.fault(1)
            length = int.from_bytes(more, "big")
            if more[0] == 0 or length < 128:
                raise c.fault(3)
            place += len(more)
        if place + length > c.end:
            raise c.fault(4)
        return place, length

    def enter(self, c, tag, inner=None):
        """Into the constructor expected here; inner is given where its contents change owner."""
        self.expect(c, tag)
        return self.enter_any(c, inner)

    def enter_any(self, c, inner=None):
        begin, length = self.length(c)
        end = c.end if length is None else begin + length
        return Contents(begin, end, length is None, c.level + 1,
                        c.inner, c.inner if inner is None else inner)

    def leave(self, inside, c):
        """Nothing more may come inside; c goes on behind the constructor."""
        if not self.ended(inside):
            raise self.unexpected(inside)
        c.place = inside.place + (2 if inside.indefinite else 0)

    def primitive(self, c, tag, good):
        """The primitive expected here: the span of its contents, which must be good."""
        self.expect(c, tag)
        span = Span(*self.length(c))
        if not good(octets_of(span, self.octets)):
            raise c.fault(11)
        c.place = span.place + span.length
        return span

    def element(self, c):
        """Any one element, checked to the bottom: its whole span, end pair included."""
        if self.ended(c):
            raise self.unexpected(c)
        begin = c.place
        if is_constructor(self.tag(c)):
            inside = self.enter_any(c)
            while not self.ended(inside):
                self.element(inside)
            self.leave(inside, c)
        else:
            contents, length = self.length(c)
            c.place = contents + length
        return Span(begin, c.place - begin)

    def externals(self, c):
        """Zero or more elements, each 28, up to the end: the span of the series."""
        begin = c.place
        while not self.ended(c):
            self.expect(c, 0x28)
            self.element(c)
        return Span(begin, c.place - begin)


def is_constructor(tag):
    return tag[0] & 0x20 != 0


# ---------------------------------------------------------------- reading: messages

class MessageReader(ElementReader):

    def __init__(self, octets):
        super().__init__(octets)
        self.orig = None        # the originating ID, once its element is read whole
        self.invoke = None      # the invoke ID of the component being read, once read

    def message(self):
        if len(self.octets) > MOST_OCTETS:
            raise Fault(7, MOST_OCTETS, ELSEWHERE)
        if not self.octets:
            raise Fault(1, 0, ELSEWHERE)
        kind = self.octets[0]
        whole = Contents(0, len(self.octets), False, 1, ELSEWHERE, ELSEWHERE)
        if kind not in MESSAGE_NAMES:
            self.orig = self.unknown_orig(whole)
            raise Fault(8, 0, ELSEWHERE)
        parts = self.enter(whole, kind)
        dest, dialogue, rows = None, Dialogue(NO_DIALOGUE), []
        if kind in WITH_ORIGINATING_ID:
            self.orig = self.primitive(parts, 0x48, good_id)
        if kind in WITH_DESTINATION_ID:
            dest = self.primitive(parts, 0x49, good_id)
        if kind == ABORT and self.next_is(parts, 0x4A):
            cause = self.primitive(parts, 0x4A, one_octet_up_to(HIGHEST_CAUSE))
            dialogue = Dialogue(P_ABORT_CAUSE, number=self.number(cause))
        elif self.next_is(parts, 0x6B):
            dialogue = self.dialogue_portion(parts)
        if kind == UNIDIRECTIONAL or kind != ABORT and self.next_is(parts, 0x6C):
            rows = self.component_portion(parts)
        self.leave(parts, whole)
        if whole.place < whole.end:
            raise whole.fault(9)
        return Record(kind, self.orig, dest, dialogue, len(rows), rows)

    def unknown_orig(self, whole):
        """The ID of an unknown type of message: it begins with a constructor's tag in one octet, not
        code 0, and a sound length, and a sound 48 stands first in it. Else None."""
        try:
            tag = self.tag(whole)
            if len(tag) > 1 or not is_constructor(tag):
                return None
            return self.primitive(self.enter_any(whole), 0x48, good_id)
        except Fault:
            return None

    def number(self, span):
        """The number in contents of one octet, none of which may be negative."""
        return self.octets[span.place]

    # ---- dialogue portion

    def dialogue_portion(self, parts):
        portion = self.enter(parts, 0x6B, inner=IN_DIALOGUE)
        external = self.enter(portion, 0x28)
        name = self.primitive(external, 0x06, good_identifier)
        name_octets = octets_of(name, self.octets)
        if name_octets not in (STRUCTURED, UNSTRUCTURED) and self.next_is(external, 0x81):
            dialogue = Dialogue(OTHER_OCTETS, name, self.primitive(external, 0x81, anything))
        else:
            holder = self.enter(external, 0xA0)
            if name_octets == STRUCTURED and self.next_is(holder, 0x61):
                dialogue = self.response(holder)
            elif name_octets == STRUCTURED and self.next_is(holder, 0x64):
                dialogue = self.dialogue_abort(holder)
            elif name_octets == STRUCTURED:
                dialogue = self.request(holder, REQUEST)
            elif name_octets == UNSTRUCTURED:
                dialogue = self.request(holder, UNIDIALOGUE)
            else:
                dialogue = Dialogue(OTHER_ELEMENT, name, self.element(holder))
            self.leave(holder, external)
        self.leave(external, portion)
        self.leave(portion, parts)
        return dialogue

    def request(self, holder, case):
        pdu = self.enter(holder, 0x60)
        name = self.version_and_context_name(pdu)
        info = self.user_information(pdu)
        self.leave(pdu, holder)
        return Dialogue(case, name, info)

    def response(self, holder):
        pdu = self.enter(holder, 0x61)
        name = self.version_and_context_name(pdu)

        inside = self.enter(pdu, 0xA2)
        result = self.primitive(inside, 0x02, one_octet_up_to(HIGHEST_RESULT))
        self.leave(inside, pdu)

        inside = self.enter(pdu, 0xA3)
        source = PROVIDER if self.next_is(inside, PROVIDER) else USER
        choice = self.enter(inside, source)
        diagnostic = self.primitive(choice, 0x02, one_octet_up_to(HIGHEST_DIAGNOSTIC))
        self.leave(choice, inside)
        self.leave(inside, pdu)

        info = self.user_information(pdu)
        self.leave(pdu, holder)
        return Dialogue(RESPONSE, name, info, self.number(result), source, self.number(diagnostic))

    def dialogue_abort(self, holder):
        pdu = self.enter(holder, 0x64)
        source = self.primitive(pdu, 0x80, one_octet_up_to(HIGHEST_SOURCE))
        info = self.user_information(pdu)
        self.leave(pdu, holder)
        return Dialogue(DIALOGUE_ABORT, info=info, number=self.number(source))

    def version_and_context_name(self, pdu):
        if self.next_is(pdu, 0x80):
            self.primitive(pdu, 0x80, version_1)
        inside = self.enter(pdu, 0xA1)
        name = self.primitive(inside, 0x06, good_identifier)
        self.leave(inside, pdu)
        return name

    def user_information(self, pdu):
        if not self.next_is(pdu, 0xBE):
            return None
        inside = self.enter(pdu, 0xBE)
        info = self.externals(inside)
        self.leave(inside, pdu)
        return info

    # ---- component portion

    def component_portion(self, parts):
        portion = self.enter(parts, 0x6C)
        if self.ended(portion):
            raise self.unexpected(portion)
        rows = []
        while not self.ended(portion):
            portion.inner, self.invoke = len(rows), None
            if len(rows) == MOST_COMPONENTS:
                raise portion.fault(12)
            tag = self.tag(portion)
            if len(tag) > 1 or tag[0] not in COMPONENT_NAMES:
                raise portion.fault(13)
            rows.append(self.component(portion, tag[0]))
        self.leave(portion, parts)
        return rows

    def component(self, portion, kind):
        fields = self.enter(portion, kind)
        linked = code = parameter = None
        if kind == REJECT and self.next_is(fields, 0x05):
            self.primitive(fields, 0x05, nothing)
        else:
            self.invoke = signed(octets_of(self.primitive(fields, 0x02, one_octet), self.octets))
        if kind == INVOKE and self.next_is(fields, 0x80):
            linked = signed(octets_of(self.primitive(fields, 0x80, one_octet), self.octets))
        if kind in (INVOKE, ERROR):
            code = self.code(fields)
            if not self.ended(fields):
                parameter = self.element(fields)
        elif kind == REJECT:
            code = self.problem(fields)
        elif self.next_is(fields, 0x30):
            inside = self.enter(fields, 0x30)
            code = self.code(inside)
            parameter = self.element(inside)
            self.leave(inside, fields)
        self.leave(fields, portion)
        return Row(kind, self.invoke, linked, code, parameter)

    def code(self, fields):
        if self.next_is(fields, GLOBAL):
            return GLOBAL, self.primitive(fields, GLOBAL, good_identifier)
        contents = self.primitive(fields, LOCAL, good_local_code)
        return LOCAL, signed(octets_of(contents, self.octets))

    def problem(self, fields):
        for type_tag, highest in HIGHEST_PROBLEM.items():
            if self.next_is(fields, type_tag):
                contents = self.primitive(fields, type_tag, one_octet_up_to(highest))
                return type_tag, self.number(contents)
        raise self.unexpected(fields)


def read(octets):
    """The Record of a message, or the Refusal."""
    reader = MessageReader(octets)
    try:
        return reader.message()
    except Fault as fault:
        return refusal(fault, reader)


def refusal(fault, reader):
    """The refusal with its one standard answer."""
    number, owner = fault.number, fault.owner
    component = invoke = None
    if number == 8:
        answer, value = "cause", 0
    elif number == 12:
        answer, value = "cause", 4
    elif owner == IN_DIALOGUE:
        answer, value = "cause", 3
    elif owner == ELSEWHERE:
        answer, value = "cause", 3 if number in WRONG_PART else 2
    else:
        answer, value = "problem", 0 if number == 13 else 1 if number in WRONG_PART else 2
        component, invoke = owner, reader.invoke
    return Refusal(number, fault.place, reader.orig, answer, value, component, invoke)


# ---------------------------------------------------------------- writing: refusals

def write(record, material, room):
    """The shortest message for the record over its material, or the number of the refusal."""
    for number, applies in ((24, wrong_parts), (23, out_of_range), (21, past_the_end), (22, malformed)):
        if applies(record, material):
            return number
    message = encode(record, material)
    return message if len(message) <= min(room, MOST_OCTETS) else 25


def wrong_parts(record, material):
    """24: a choice that does not exist, a part that its kind lacks or may not have."""
    kind, dialogue = record.kind, record.dialogue
    return (kind not in MESSAGE_NAMES
            or (record.orig is not None) != (kind in WITH_ORIGINATING_ID)
            or (record.dest is not None) != (kind in WITH_DESTINATION_ID)
            or dialogue.case not in DIALOGUE_CASES
            or dialogue.case == P_ABORT_CAUSE and kind != ABORT
            or dialogue.case == RESPONSE and dialogue.source not in (USER, PROVIDER)
            or kind == UNIDIRECTIONAL and record.count == 0
            or kind == ABORT and record.count > 0
            or any(wrong_row_parts(row) for row in record.rows))


def wrong_row_parts(row):
    if row.kind not in COMPONENT_NAMES:
        return True
    if row.invoke is None and row.kind != REJECT or row.linked is not None and row.kind != INVOKE:
        return True
    if row.kind == REJECT:
        return row.parameter is not None or row.code is None or row.code[0] not in HIGHEST_PROBLEM
    if row.kind in RESULTS and row.code is None:
        return row.parameter is not None
    if row.kind in RESULTS and row.parameter is None:
        return True
    return row.code is None or row.code[0] not in (LOCAL, GLOBAL)


def out_of_range(record, material):
    """23: the count, a value, or the length of an ID or identifier."""
    dialogue = record.dialogue
    highest = {P_ABORT_CAUSE: HIGHEST_CAUSE, RESPONSE: HIGHEST_RESULT, DIALOGUE_ABORT: HIGHEST_SOURCE}
    longest = {"ID": LONGEST_ID, "identifier": LONGEST_IDENTIFIER, "other name": LONGEST_IDENTIFIER}
    return (record.count > MOST_COMPONENTS
            or dialogue.case in highest and not 0 <= dialogue.number <= highest[dialogue.case]
            or dialogue.case == RESPONSE and not 0 <= dialogue.diagnostic <= HIGHEST_DIAGNOSTIC
            or any(row.kind == REJECT and not 0 <= row.code[1] <= HIGHEST_PROBLEM[row.code[0]]
                   for row in record.rows)
            or any(wanted in longest and not 1 <= span.length <= longest[wanted]
                   for span, wanted, level in strings(record)))


def past_the_end(record, material):
    """21: place plus length past the end of the material."""
    return any(span.place + span.length > len(material) for span, wanted, level in strings(record))


def malformed(record, material):
    """22: a malformed identifier, not the one element or series of 28, or a taken name."""
    return any(not well_formed(octets_of(span, material), wanted, level)
               for span, wanted, level in strings(record))


def strings(record):
    """Every string that the record has: its span, what it must be, and the level of its elements."""
    if record.orig is not None:
        yield record.orig, "ID", None
    if record.dest is not None:
        yield record.dest, "ID", None
    dialogue = record.dialogue
    if dialogue.case in WITH_CONTEXT_NAME:
        yield dialogue.name, "identifier", None
    if dialogue.case in (OTHER_ELEMENT, OTHER_OCTETS):
        yield dialogue.name, "other name", None
    if dialogue.case in WITH_USER_INFORMATION and dialogue.info is not None:
        yield dialogue.info, "series of 28", 7
    if dialogue.case == OTHER_ELEMENT:
        yield dialogue.info, "element", 5
    if dialogue.case == OTHER_OCTETS:
        yield dialogue.info, "octets", None
    for row in record.rows:
        if row.code is not None and row.code[0] == GLOBAL:
            yield row.code[1], "identifier", None
        if row.parameter is not None:
            yield row.parameter, "element", 5 if row.kind in RESULTS else 4


def well_formed(octets, wanted, level):
    if wanted == "identifier":
        return good_identifier(octets)
    if wanted == "other name":
        return good_identifier(octets) and octets not in (STRUCTURED, UNSTRUCTURED)
    if wanted in ("ID", "octets"):
        return True
    reader = ElementReader(octets)
    contents = Contents(0, len(octets), False, level, ELSEWHERE, ELSEWHERE)
    try:
        if wanted == "element":
            reader.element(contents)
        else:
            reader.externals(contents)
    except Fault:
        return False
    return contents.place == len(octets)


# ---------------------------------------------------------------- writing: octets

def encode(record, material):
    parts = []
    if record.orig is not None:
        parts.append(tlv(0x48, octets_of(record.orig, material)))
    if record.dest is not None:
        parts.append(tlv(0x49, octets_of(record.dest, material)))
    if record.dialogue.case == P_ABORT_CAUSE:
        parts.append(tlv(0x4A, bytes([record.dialogue.number])))
    elif record.dialogue.case != NO_DIALOGUE:
        parts.append(tlv(0x6B, tlv(0x28, encode_external(record.dialogue, material))))
    if record.rows:
        parts.append(tlv(0x6C, *(encode_component(row, material) for row in record.rows)))
    return tlv(record.kind, *parts)


def encode_external(dialogue, material):
    """The contents of the EXTERNAL. The version is the default and left out."""
    name = info = b""
    if dialogue.name is not None:
        name = tlv(0x06, octets_of(dialogue.name, material))
    if dialogue.case in WITH_USER_INFORMATION and dialogue.info is not None:
        info = tlv(0xBE, octets_of(dialogue.info, material))
    if dialogue.case == OTHER_OCTETS:
        return name + tlv(0x81, octets_of(dialogue.info, material))
    if dialogue.case == OTHER_ELEMENT:
        return name + tlv(0xA0, octets_of(dialogue.info, material))
    if dialogue.case == DIALOGUE_ABORT:
        pdu = tlv(0x64, tlv(0x80, bytes([dialogue.number])), info)
    elif dialogue.case == RESPONSE:
        pdu = tlv(0x61, tlv(0xA1, name),
                  tlv(0xA2, tlv(0x02, bytes([dialogue.number]))),
                  tlv(0xA3, tlv(dialogue.source, tlv(0x02, bytes([dialogue.diagnostic])))), info)
    else:
        pdu = tlv(0x60, tlv(0xA1, name), info)
    which = UNSTRUCTURED if dialogue.case == UNIDIALOGUE else STRUCTURED
    return tlv(0x06, which) + tlv(0xA0, pdu)


def encode_component(row, material):
    fields = [tlv(0x05) if row.invoke is None else tlv(0x02, shortest_signed(row.invoke))]
    if row.linked is not None:
        fields.append(tlv(0x80, shortest_signed(row.linked)))
    rest = []
    if row.kind == REJECT:
        rest.append(tlv(row.code[0], bytes([row.code[1]])))
    elif row.code is not None and row.code[0] == LOCAL:
        rest.append(tlv(LOCAL, shortest_signed(row.code[1])))
    elif row.code is not None:
        rest.append(tlv(GLOBAL, octets_of(row.code[1], material)))
    if row.parameter is not None:
        rest.append(octets_of(row.parameter, material))
    if row.kind in RESULTS and row.code is not None:
        rest = [tlv(0x30, *rest)]
    return tlv(row.kind, *fields, *rest)


def tlv(tag, *contents):
    body = b"".join(contents)
    return bytes([tag]) + length_octets(len(body)) + body


def length_octets(length):
    if length < 128:
        return bytes([length])
    size = (length.bit_length() + 7) // 8
    return bytes([0x80 + size]) + length.to_bytes(size, "big")


# ---------------------------------------------------------------- steering and listing

# kind: None any, or a number. code: None any, or a number.
Rule = namedtuple("Rule", "kind code link")


def steer(record, rules):
    """The link of the first rule that fits, or None."""
    for rule in rules:
        if fits(rule, record):
            return rule.link
    return None


def fits(rule, record):
    if rule.kind is not None and rule.kind != record.kind:
        return False
    if rule.code is None:
        return True
    first = record.rows[0] if record.rows else None
    return first is not None and first.kind == INVOKE and first.code == (LOCAL, rule.code)


def listing(octets):
    """The text that the listing program prints for a message."""
    answer = read(octets)
    if isinstance(answer, Refusal):
        text = "refused %d %d %s %d" % (answer.number, answer.place, answer.answer, answer.value)
        return text + ("\n" if answer.component is None else " component %d\n" % answer.component)
    lines = ["%s %d %s %s %s %d\n" % (
        MESSAGE_NAMES[answer.kind], len(octets), listed_string(answer.orig, octets),
        listed_string(answer.dest, octets), listed_dialogue(answer.dialogue), answer.count)]
    for index, row in enumerate(answer.rows):
        lines.append("%d %s %s %s %s %s\n" % (
            index, COMPONENT_NAMES[row.kind],
            "null" if row.invoke is None else row.invoke,
            "-" if row.linked is None else row.linked,
            listed_code(row, octets),
            "-" if row.parameter is None else "%d+%d" % row.parameter))
    return "".join(lines)


def listed_string(span, octets):
    return "-" if span is None else octets_of(span, octets).hex().upper()


def listed_dialogue(dialogue):
    names = {NO_DIALOGUE: "none", P_ABORT_CAUSE: "cause:%s" % dialogue.number, REQUEST: "request",
             RESPONSE: "response", DIALOGUE_ABORT: "abort", UNIDIALOGUE: "uni",
             OTHER_ELEMENT: "other", OTHER_OCTETS: "other"}
    return names[dialogue.case]


def listed_code(row, octets):
    if row.code is None:
        return "-"
    if row.kind == REJECT:
        return "problem:%d:%d" % (row.code[0] - 0x80, row.code[1])
    if row.code[0] == LOCAL:
        return "local:%d" % row.code[1]
    return "global:" + listed_string(row.code[1], octets)


# ---------------------------------------------------------------- the layout at the C boundary

HEAD_SIZE, ROW_SIZE, RECORD_SIZE, RULE_SIZE = 44, 24, 428, 12
NO_RULE = 64
NO_SPAN = bytes(8)


class NoRecord(Exception):
    """Octets that are no record."""


def span_octets(span):
    return NO_SPAN if span is None else span.place.to_bytes(4, "big") + span.length.to_bytes(4, "big")


def span_at(octets, place):
    return Span(number_at(octets, place), number_at(octets, place + 4))


def number_at(octets, place):
    return int.from_bytes(octets[place:place + 4], "big")


def flag(octet, allowed=True):
    """Is the part there? It is not where it is not allowed."""
    if octet > (1 if allowed else 0):
        raise NoRecord
    return octet == 1


def record_octets(record):
    """Head and counted rows, zeros in all that the case does not use."""
    dialogue = record.dialogue
    head = bytes([record.kind, record.orig is not None, record.dest is not None, dialogue.case])
    head += record.count.to_bytes(4, "big") + span_octets(record.orig) + span_octets(record.dest)
    head += span_octets(dialogue.name) + span_octets(dialogue.info)
    head += bytes([dialogue.case in WITH_USER_INFORMATION and dialogue.info is not None,
                   dialogue.number or 0, dialogue.source or 0, dialogue.diagnostic or 0])
    return head + b"".join(row_octets(row) for row in record.rows)


def row_octets(row):
    choice, value = (0, 0) if row.code is None else row.code
    octets = bytes([row.kind, row.invoke is not None, (row.invoke or 0) & 0xFF,
                    row.linked is not None, (row.linked or 0) & 0xFF,
                    choice, row.parameter is not None, value if row.kind == REJECT else 0])
    code = NO_SPAN
    if choice == LOCAL:
        code = value.to_bytes(4, "big", signed=True) + bytes(4)
    elif choice == GLOBAL:
        code = span_octets(value)
    return octets + code + span_octets(row.parameter)


def record_from_octets(octets):
    """The record in the octets, with None in all that the chosen case does not use."""
    if len(octets) < RECORD_SIZE:
        raise NoRecord
    case = octets[3]
    name = info = number = source = diagnostic = None
    if case in WITH_CONTEXT_NAME + (OTHER_ELEMENT, OTHER_OCTETS):
        name = span_at(octets, 24)
    if flag(octets[40], case in WITH_USER_INFORMATION) or case in (OTHER_ELEMENT, OTHER_OCTETS):
        info = span_at(octets, 32)
    if case in (P_ABORT_CAUSE, RESPONSE, DIALOGUE_ABORT):
        number = octets[41]
    if case == RESPONSE:
        source, diagnostic = octets[42], octets[43]
    count = number_at(octets, 4)
    rows = [row_from_octets(octets[HEAD_SIZE + ROW_SIZE * k:HEAD_SIZE + ROW_SIZE * (k + 1)])
            for k in range(min(count, MOST_COMPONENTS))]
    return Record(octets[0],
                  span_at(octets, 8) if flag(octets[1]) else None,
                  span_at(octets, 16) if flag(octets[2]) else None,
                  Dialogue(case, name, info, number, source, diagnostic), count, rows)


def row_from_octets(octets):
    kind, choice = octets[0], octets[5]
    invoke = signed(octets[2:3]) if flag(octets[1]) else None
    linked = signed(octets[4:5]) if flag(octets[3], kind == INVOKE) else None
    parameter = span_at(octets, 16) if flag(octets[6], kind != REJECT) else None
    code = choice, None
    if kind == REJECT:
        code = choice, octets[7]
    elif choice == LOCAL:
        code = LOCAL, signed(octets[8:12])
    elif choice == GLOBAL:
        code = GLOBAL, span_at(octets, 8)
    elif choice == 0 and kind in RESULTS:
        code = None
    return Row(kind, invoke, linked, code, parameter)


def rules_from_octets(octets):
    """The rules that may fit; the others, and octets behind the last whole rule, fit nothing."""
    for place in range(0, len(octets) - RULE_SIZE + 1, RULE_SIZE):
        kind, code = octets[place], octets[place + 1]
        if (kind == 0 or kind in MESSAGE_NAMES) and code in (0, 1):
            yield Rule(None if kind == 0 else kind,
                       None if code == 0 else signed(octets[place + 4:place + 8]),
                       number_at(octets, place + 8))


def refusal_answer(refused):
    answer = refused.number | refused.place << 8
    if refused.orig is not None:
        answer |= refused.orig.place << 24 | refused.orig.length << 40
    answer |= refused.value << 45
    if refused.answer == "problem":
        answer |= 1 << 44 | refused.component << 48
        if refused.invoke is not None:
            answer |= 1 << 55 | (refused.invoke & 0xFF) << 56
    return answer


# ---------------------------------------------------------------- the four calls

def over(start, room):
    """The room after start was written to its front."""
    return start + room[len(start):]


def read_call(message, room):
    if len(room) < RECORD_SIZE:
        return 25, room
    answer = read(message)
    if isinstance(answer, Refusal):
        return refusal_answer(answer), room
    return 0, over(record_octets(answer), room)


def write_call(record, material, out):
    try:
        answer = write(record_from_octets(record), material, len(out))
    except NoRecord:
        answer = 24
    if isinstance(answer, int):
        return answer, out
    return len(answer) << 8, over(answer, out)


def steer_call(message, rules):
    answer = read(message)
    if isinstance(answer, Refusal):
        return refusal_answer(answer)
    link = steer(answer, rules_from_octets(rules))
    return NO_RULE if link is None else link << 32


def list_call(message, out):
    text = listing(message).encode("ascii")
    if len(text) > len(out):
        return 25, out
    return len(text) << 8, over(text, out)
