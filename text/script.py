"""A script a person can write, to script bytes and back (docs/EVENTS.md lays out the bytes, and says what does not fit)."""
import math
import struct

from fields import Address, Always, Bytes, Choice, Hex, Maybe, Number, Word, form, lines, read, show
from notes import NOTHING, size

STATE, MOST_BODY = 65535, 4096
RECORD, OLDER_RECORD, RX, TX = 46, 43, 1464, 1472
STATE_BODY, OLDER_BODY = (16 * (record + RX + TX) + 8 for record in (RECORD, OLDER_RECORD))


def remote(field):
    return [Always("family", b"\4"), Always("first twelve bytes of the address", bytes(12)), Address(field)]


PARTY, CONNECTION, GROUP = Always("party", b"\0"), Number("connection", 1), Number("group", 1)
SWITCH = [Number("switch number", 1), Choice("position", off=0, on=1)]
EVENTS = {
    "tick": (0, [Number("ticks", 4)]),
    "open": (1, [PARTY, CONNECTION]),
    "close": (2, [PARTY, CONNECTION]),
    "connected": (3, [PARTY, CONNECTION]),
    "lost": (4, [PARTY, CONNECTION]),
    "remote": (5, [PARTY, CONNECTION, *remote("remote")]),
    "switch": (6, [PARTY, CONNECTION, *SWITCH]),
    "segment": (7, [PARTY, CONNECTION, Hex("bytes", MOST_BODY - 6)]),
    "walk": (8, [PARTY, CONNECTION, Number("place", 4), Hex("datagram", MOST_BODY - 10)]),
    "take": (9, [PARTY, CONNECTION, Number("room of the out buffer", 4)]),
    "datagram": (10, [PARTY, GROUP, *remote("source")]),
    "accept": (11, [PARTY, GROUP, *remote("source")]),
    "transmit": (12, [PARTY, Number("PDU", 2, 4), Hex("payload", MOST_BODY - 7)]),
    "switch-all": (13, [PARTY, *SWITCH]),
    "count": (14, [PARTY, Number("protocol", 1)]),
    "clear": (15, [PARTY, Number("protocol", 1)]),
    "cancel": (16, [PARTY, CONNECTION]),
}
NAMED = {event: (name, row) for name, (event, row) in EVENTS.items()}


class Part:
    """The receive part of a record: its kind, then the kind's own fields."""
    kind = Choice("receive part", header=0, payload=1, skip=2, transfer=3)
    rows = (
        [Always("route", b"\0"), Number("header bytes held", 2, most=255), Number("number of the header bytes", 8)],
        [Number("route", 1), Number("payload bytes held", 2), Number("payload length", 8, most=65535)],
        [Always("route", b"\0"), Always("bytes held", b"\0\0"), Number("bytes to skip", 8, most=2 ** 32 - 1)],
        [Number("route", 1), Always("bytes held", b"\0\0"), Number("bytes to come", 8, most=2 ** 32 - 1)],
    )
    form = "(" + " | ".join(form(name, row) for name, row in zip(kind.values, rows)) + ")"

    def read(self, words):
        kind = self.kind.read(words)
        return kind + read(self.rows[kind[0]], words)

    def show(self, data):
        kind = self.kind.show(data)
        return f"{kind} {show(self.rows[self.kind.values[kind]], data)}"


def wanted(wish):
    return [Word(wish), Choice(wish + " wanted", no=0, yes=1)]


# The lines of a state: where their bytes begin in the body, how many one has, how many there are, and its fields.
RECORDS = [Choice("mode", offline=0, reconnect=1, online=2), *wanted("open"), *wanted("close"), Word("remote"), *remote("remote"),
           Word("switches"), Number("switches", 4, 8), Word("part"), Part(), Word("used"), Number("bytes used", 2),
           Word("timer"), Number("timer", 2), Word("due"), Choice("due", no=0, yes=1),
           Maybe("alive", 2, Number("alive timer", 2)), Maybe("remote-set", 1, Choice("remote set", no=0, yes=1))]
LINES = {
    "record": (0, RECORD, 16, RECORDS),
    "drops": (16 * RECORD, 8, 1, [Number("UDP drops", 4), Number("TCP drops", 4)]),
    "rx": (16 * RECORD + 8, RX, 16, None),
    "tx": (16 * RECORD + 8 + 16 * RX, TX, 16, None),
}
EMPTY = (bytes([0, 0, 0, 4]) + bytes(RECORD - 4)) * 16 + bytes(8 + 16 * (RX + TX))


def forms():
    events = [form(name, row) for name, (_, row) in EVENTS.items()]
    events.insert(list(EVENTS).index("transmit") + 1, "transmit <PDU> <value> <unit>")
    return ["stamp <stamp of the first event> (the first line or none; for ./soad record)"] + events + [
        "state", form("record <connection>", RECORDS), form("drops", LINES["drops"][3]), "rx <connection> <bytes in hex>",
        "tx <connection> <bytes in hex>", "end"]


def state(first, rest):
    """From the line `state` to the line `end`. What is not given is empty: zeros and no remote."""
    body, given = bytearray(EMPTY), {}
    first.end()
    for words in rest:
        what = words.choice("line of a state", [*LINES, "end"])
        if what == "end":
            words.end()
            return bytes(body)
        at, size, count, row = LINES[what]
        number = words.number("connection", 15) if count > 1 else 0
        if (what, number) in given:
            raise words.wrong(what, f"stands already in line {given[what, number]}")
        given[what, number] = words.line
        data = read(row, words) if row else words.hex("bytes", size)
        words.end()
        at += number * size
        body[at:at + len(data)] = data
    raise first.wrong("state", "has no line `end`")


def state_text(data):
    if data.left() != STATE_BODY:
        older = f": its records have {OLDER_RECORD} bytes, as before alive timers, and not {RECORD}; its text is still read" * (data.left() == OLDER_BODY)
        raise data.wrong("body", f"has {data.left()} bytes, not {STATE_BODY}{older}")
    out = ["state"]
    for what, (at, size, count, row) in LINES.items():
        for number in range(count):
            one, empty = data.next(what, size), EMPTY[at + number * size:at + (number + 1) * size]
            if one != empty:
                name = f"{what} {number}" if count > 1 else what
                fields = Bytes(f"{data.whose}, {name}", data.data, data.field, data.at)
                out.append(f"{name} {show(row, fields) if row else one.rstrip(bytes(1)).hex()}")
    return "\n".join(out + ["end"])


def entry(event, body):
    return struct.pack(">HHI", event, 0, len(body)) + body


def value(words, units):
    """The body of a transmit whose payload is a number with its unit: `units` (notes.py) knows the PDU's unit and how many bytes it has."""
    pdu, number, place = words.number("PDU", 65535), words.number("value", math.inf), words.column
    unit = words.next("unit")
    try:
        width = units.width(pdu, unit)
    except ValueError as why:
        raise words.wrong("unit", str(why)) from None
    if number >= 256 ** width:
        raise words.wrong("value", f"{number} {unit} is more than {256 ** width - 1} {unit}, the most that a payload of {size(width)} holds", place)
    return bytes(1) + struct.pack(">HI", pdu, width) + number.to_bytes(width, "big")


def event_body(name, words, units):
    if name == "transmit" and len(words.words) == 3:
        return value(words, units)
    body = read(EVENTS[name][1], words)
    words.end()
    return body


def stamped(words):
    """The stamp of the first event, where this line gives it: for ./soad record, and no entry."""
    if words.words[0] != "stamp":
        return None
    words.next("stamp")
    stamp = words.number("stamp", 2 ** 32 - 1)
    words.end()
    return stamp


def first_stamp(text):
    """The stamp that the first line of a text gives; None where it gives none."""
    return next(map(stamped, lines(text)), None)


def entries(text, units):
    """(line, bytes) of each entry. The first line may be a stamp."""
    rest, first, front = lines(text), True, True
    for words in rest:
        if words.words[0] == "stamp" and not front:
            words.next("stamp")
            raise words.wrong("stamp", "is not the first line")
        front = False
        if stamped(words) is not None:
            continue
        name = words.choice("event", [*EVENTS, "state"])
        if name != "state":
            yield words.line, entry(EVENTS[name][0], event_body(name, words, units))
        elif first:
            yield words.line, entry(STATE, state(words, rest))
        else:
            raise words.wrong("state", "is not the first entry")
        first = False


def to_bytes(text, units=NOTHING):
    return b"".join(data for _, data in entries(text, units))


def head(data):
    """The event number of an entry and the length of its body, each judged before the body is looked at."""
    event = data.number("event number", 2, 65535)
    if event not in NAMED and event != STATE:
        raise data.wrong("event number", f"{event} is unknown")
    show([Always("zero field", bytes(2))], data)
    return event, data.number("body length", 4, STATE_BODY if event == STATE else MOST_BODY)


def entry_text(event, body, first):
    if event == STATE:
        if not first:
            raise body.wrong("start state", "is not the first entry")
        return state_text(body)
    name, row = NAMED[event]
    text = f"{name} {show(row, body)}"
    body.end()
    return text


def to_text(data):
    out, rest = [], Bytes("", data, 0, len(data))
    while rest.left():
        rest.whose = f"entry {len(out) + 1}"
        event, size = head(rest.part("head", 8))
        out.append(entry_text(event, rest.part("body", size), not out))
    return "".join(line + "\n" for line in out)
