"""Model of the table of open transactions: document 02, §10, in the words of that page.
Entries stand in 64 rooms; a room is None or an entry. As octets: docs/LAYOUT.md."""

from collections import namedtuple

from tcap_model import good_id

ROOMS, ENTRY_SIZE = 64, 12
TABLE_SIZE = ROOMS * ENTRY_SIZE

INITIATION_SENT, INITIATION_RECEIVED, ACTIVE = 1, 2, 3
STATE_NAMES = {INITIATION_SENT: "initiation sent", INITIATION_RECEIVED: "initiation received", ACTIVE: "active"}

EVENTS = ("begin_sent", "begin_received", "continue_sent", "continue_received", "end_sent",
          "end_received", "abort_sent", "abort_received", "local_close")

OPENED, KEPT, CLOSED = 1, 2, 3

# ours and partner are octets; partner is None until it is known.
Entry = namedtuple("Entry", "ours partner state")
# number: 0 or the refusal; done and room: of an event that is taken.
Answer = namedtuple("Answer", "number done room", defaults=(None, None))


def step(rooms, event, ours, partner):
    """The answer to an event, by its name, and the rooms after it. A partner that is not told has no octets."""
    brings_partner = event in ("begin_received", "continue_received")
    if not good_id(ours) or brings_partner and not good_id(partner):
        return Answer(40), rooms
    found = next((i for i, entry in enumerate(rooms) if entry is not None and entry.ours == ours), None)
    if event in ("begin_sent", "begin_received"):
        if found is not None:
            return Answer(41), rooms
        if None not in rooms:
            return Answer(43), rooms
        entry = (Entry(ours, None, INITIATION_SENT) if event == "begin_sent"
                 else Entry(ours, partner, INITIATION_RECEIVED))
        return changed(rooms, OPENED, rooms.index(None), entry)
    if found is None:
        return Answer(41), rooms
    entry = rooms[found]
    if event == "local_close":
        return changed(rooms, CLOSED, found, None)
    if event == "continue_sent" and entry.state == INITIATION_RECEIVED:
        return changed(rooms, KEPT, found, entry._replace(state=ACTIVE))
    if event == "continue_received" and entry.state == INITIATION_SENT:
        return changed(rooms, KEPT, found, entry._replace(state=ACTIVE, partner=partner))
    if event in ("continue_sent", "continue_received") and entry.state == ACTIVE:
        return changed(rooms, KEPT, found, entry)
    if event in ("end_sent", "abort_sent") and entry.state != INITIATION_SENT:
        return changed(rooms, CLOSED, found, None)
    if event in ("end_received", "abort_received") and entry.state != INITIATION_RECEIVED:
        return changed(rooms, CLOSED, found, None)
    return Answer(42), rooms


def changed(rooms, done, room, entry):
    return Answer(0, done, room), rooms[:room] + (entry,) + rooms[room + 1:]


EMPTY = (None,) * ROOMS


# ---- as octets

def padded(identifier):
    return identifier + bytes(4 - len(identifier))


def entry_octets(entry):
    if entry is None:
        return bytes(ENTRY_SIZE)
    partner = entry.partner or b""
    return bytes([entry.state, len(entry.ours), len(partner), 0]) + padded(entry.ours) + padded(partner)


def table_octets(rooms):
    return b"".join(entry_octets(entry) for entry in rooms)


def event_number(name):
    """1 to 9 in the page's order; every other event is 10."""
    return EVENTS.index(name) + 1 if name in EVENTS else 10


def event_name(number):
    return EVENTS[number - 1] if 1 <= number <= len(EVENTS) else "other"


def entry_in(octets):
    """Any octets are an entry: free if the state is none of the three, and found by nobody if the length is not
    1 to 4 or the octets behind the ID are not 0, which its four octets as an ID of their own say here."""
    state, ours_length, partner_length = octets[0], octets[1], octets[2]
    if state not in STATE_NAMES:
        return None
    ours, partner = octets[4:8], octets[8:12]
    whole = 1 <= ours_length <= 4 and padded(ours[:ours_length]) == ours
    return Entry(ours[:ours_length] if whole else octets[1:8], partner[:partner_length] or None, state)


def call(octets, number, ours, partner):
    """What the call answers, and the octets that it leaves."""
    if len(octets) < TABLE_SIZE:
        return 25, octets
    rooms = tuple(entry_in(octets[at:at + ENTRY_SIZE]) for at in range(0, TABLE_SIZE, ENTRY_SIZE))
    answer, after = step(rooms, event_name(number), ours, partner)
    if answer.number:
        return answer.number, octets
    at, entry = answer.room * ENTRY_SIZE, after[answer.room]
    if rooms[answer.room] != entry:
        if event_name(number) == "continue_sent":
            octets = octets[:at] + bytes([ACTIVE]) + octets[at + 1:]
        else:
            octets = octets[:at] + entry_octets(entry) + octets[at + ENTRY_SIZE:]
    return answer.done << 8 | answer.room << 16, octets
