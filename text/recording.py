"""Recordings (docs/RECORDING.md): one as a text a person can read, with the places of its bytes, also a damaged one as far as it goes; and one made
of a script and of what the program run printed for it."""
import re
import struct

from fields import Bytes, Wrong, show
from notes import size
from script import MOST_BODY, NAMED, STATE, entry

FRONT, ROW, MOST_ENTRIES, MOST_DISTANCE = 4, 12, 4000, 65535
MEANINGS = ("done", "table refused", "not there", "not allowed", "not online", "no destination", "switched off", "too long", "flush first",
            "out buffer too short", "no connection matches", "lent memory has another length", "state or table not sound")
REASONS = {20: "no route for this id", 21: "switched off", 22: "longer than its route allows",
           23: "cut off: no whole header, or a length beyond the end"}
# Where the arguments of an event end: a fixed place, or where its length stands, with the bytes of that length behind it.
ENDS = {1: 2, 2: 2, 3: 2, 4: 2, 5: 21, 6: 4, 9: 6, 10: 21, 11: 21, 13: 3, 14: 2, 15: 2, 16: 2}
LENGTHS = {7: 2, 8: 6, 12: 3}


def counted(number, unit):
    return f"{number} {unit}" + "s" * (number != 1)


def remote(address):
    host, port = address[-6:-2], int.from_bytes(address[-2:], "big")
    return f"{'.'.join(map(str, host)) if any(host) else 'any'} port {port or 'any'}"


def arguments_end(event, body):
    """How many bytes of a body are arguments; where their length says more than there is, all."""
    if event in ENDS:
        return min(ENDS[event], len(body))
    at = LENGTHS[event]
    return min(at + 4 + int.from_bytes(body[at:at + 4], "big"), len(body))


def event_words(event, body):
    """The event of arguments that fit, as run prints it (docs/EVENTS.md)."""
    one, rest = body[1], body[LENGTHS.get(event, 0) + 4:]
    if event <= 4 or event == 16:
        return f"{NAMED[event][0]} connection {one}"
    if event == 5:
        return f"set remote of connection {one} to {remote(body)}"
    if event == 6:
        return f"switch {body[2]} of connection {one} {('off', 'on')[body[3]]}"
    if event == 7:
        return f"segment on connection {one}, {size(len(rest))}"
    if event in (8, 9):
        word = int.from_bytes(body[2:6], "big")
        return f"walk on connection {one} from byte {word} of {size(len(rest))}" if event == 8 else f"take waiting of connection {one} into {size(word)}"
    if event in (10, 11):
        return f"{NAMED[event][0]} to group {one} from {remote(body)}"
    if event == 12:
        return f"transmit PDU 0x{body[1:3].hex()}, {size(len(rest))}: {rest.hex() or '-'}"
    if event == 13:
        return f"switch {one} of all connections {('off', 'on')[body[2]]}"
    return f"read {'and clear ' * (event == 15)}count of protocol {one}"


# ---- the answer: what decides its length is judged, all of it has words

def found(data, most):
    """The fields of a take or a walk after its first; the kind is at most this."""
    kind = data.number("kind", 1, most)
    number, header, length = data.number("route or reason", 1, 255), data.next("id", 4), data.number("length", 4, 2 ** 32 - 1)
    return kind, number, length, f"id 0x{header.hex()}, length {size(length)}"


def drop(number, header):
    return f"drop {number}, {REASONS.get(number, 'unknown')}, {header}"


def payload(data, field, length, within):
    """The place of a payload, and the payload; none where it reaches beyond what it stands in."""
    place = data.number(field, 4, 2 ** 32 - 1)
    return f"at byte {place}: {within[place:place + length].hex() if place + length <= len(within) and length else '-'}"


def take(data, count, segment):
    front = f"; take {count} read {size(data.number('bytes read', 4, 2 ** 32 - 1))}: "
    kind, number, length, header = found(data, 5)
    if kind == 0:
        return front + "more wanted"
    if kind == 2:
        return front + drop(number, header)
    if kind == 3:
        return f"{front}start of a transfer on route {number}, {header}" + ", the end" * (length == 0)
    if kind in (4, 5):
        place = payload(data, "place in the segment", length, segment)
        return f"{front}{'last ' * (kind == 5)}piece of route {number}, {header.replace('length ', '')}, from the segment {place}"
    pdu = f"{front}PDU of route {number}, {header}, from "
    if data.number("mark", 1, 1) == 0:
        return f"{pdu}the segment {payload(data, 'place in the segment', length, segment)}"
    return f"{pdu}receive memory: {data.next('payload', length).hex() or '-'}"


def walk(data, datagram):
    place = data.number("next place", 4, 2 ** 32 - 1)
    kind, number, length, header = found(data, 2)
    what = ["the end", f"PDU of route {number}, {header}", drop(number, header)][kind]
    at = f", {payload(data, 'place in the datagram', length, datagram)}" if kind == 1 else ""
    return f"; {what}{at}, next byte {place}"


def waiting(data):
    count, address = data.number("count", 4, 2 ** 32 - 1), data.next("address", 19)
    return f"; {size(count)} for {remote(address)}: {data.next('bytes', count).hex() or '-'}"


def done(event, body, data):
    """What follows 0 done."""
    rest = body[LENGTHS.get(event, 0) + 4:]
    if event == 4:
        return "; a transfer failed" * any(data.next("failed", 1))
    if event == 7:
        return "".join([take(data, count, rest) for count in range(1, data.number("number of takes", 2, 65535) + 1)])
    if event == 8:
        return walk(data, rest)
    if event == 9:
        return waiting(data)
    if event in (10, 11):
        return f"; connection {data.number('connection', 1, 255)}"
    if event in (14, 15):
        return f"; {counted(data.number('value', 4, 2 ** 32 - 1), 'drop')}"
    return ""


def answer_words(event, body, data):
    """An answer in words; one that does not fit is Wrong."""
    number = data.number("answer number", 2, 65535)
    front = f"{number} {MEANINGS[number] if number < len(MEANINGS) else 'unknown'}"
    if number == 0:
        front += done(event, body, data)
    else:
        named = data.number("destination", 4, 2 ** 32 - 1)
        front += f", destination {named}" if event == 12 and number in (4, 7, 8) else ""
    data.end()
    return front


# ---- to text

class Told:
    """The lines so far, and the last word: that of the first damage."""

    def __init__(self):
        self.lines, self.word = [], "OK"

    def damage(self, word, line):
        self.lines.append(line)
        self.word = word if self.word == "OK" else self.word


def bytes_at(data, at, end, words):
    return f"  byte {at}, {size(end - at)} {data[at:end].hex()}: {words}"


def body_lines(told, data, row_at, at, end, event):
    """The lines of a body that is there, and what is wrong with it or with its row."""
    if event not in NAMED or event == 0:
        told.damage("REFUSED", f"  refused at byte {row_at + 4}: event number: {event} is unknown")
    if data[row_at + 6:row_at + 8] != bytes(2):
        told.damage("REFUSED", f"  refused at byte {row_at + 6}: zero field: {data[row_at + 6:row_at + 8].hex()} is not 0000")
    if event not in ENDS and event not in LENGTHS:
        told.lines += [bytes_at(data, at, end, "body of an unknown event")] * (end > at)
        return
    middle = at + arguments_end(event, data[at:end])
    try:
        arguments = Bytes("body", data, at, middle)
        show(NAMED[event][1], arguments)
        arguments.end()
        told.lines.append(bytes_at(data, at, middle, event_words(event, data[at:middle])))
        told.lines.append(bytes_at(data, middle, end, answer_words(event, data[at:middle], Bytes("body", data, middle, end))))
    except Wrong as wrong:
        told.damage("REFUSED", "  refused at " + str(wrong).removeprefix("body, "))


def row_line(told, data, number, before, place):
    """The line of a contents row; its own place, its stamp, event number and body length, and its distance."""
    at = FRONT + ROW * number
    stamp, event, _, length = struct.unpack_from(">IHHI", data, at)
    ticks = 0 if before is None else (stamp - before) % 2 ** 32
    told.lines.append(f"entry {number + 1}, row at byte {at}: stamp {stamp}, after {counted(ticks, 'tick')}, event {event}, body of {size(length)}{place}")
    return at, stamp, event, length, ticks


def entry_lines(told, data, entries):
    """Every entry, up to one that is cut; the tests of each in the order of a replay."""
    at, before = FRONT + ROW * entries, None
    for number in range(entries):
        row, before, event, length, ticks = row_line(told, data, number, before, f" at byte {at}")
        if length > len(data) - at:
            there = "1 byte is" if len(data) - at == 1 else f"{len(data) - at} bytes are"
            told.lines += [bytes_at(data, at, len(data), "cut")] * (len(data) > at)
            told.damage("CUT", f"  cut at byte {len(data)}: body of {size(length)}, {there} there")
            return
        if ticks > MOST_DISTANCE:
            told.damage("REFUSED", f"  refused at byte {row}: stamp: {ticks} ticks after the one before, {MOST_DISTANCE} ticks are the most")
        body_lines(told, data, row, at, at + length, event)
        at += length
    if at < len(data):
        told.lines.append(f"{size(len(data) - at)} behind the last body, from byte {at} on: ignored")


def limit_lines(told, data, entries):
    """What passes a limit is told before the entries: nothing of such a recording is replayed."""
    if entries > MOST_ENTRIES:
        told.damage("REFUSED", f"over the limit at byte 2: {entries} entries, {MOST_ENTRIES} entries are the most")
    for number in range(entries):
        at = FRONT + ROW * number + 8
        length = int.from_bytes(data[at:at + 4], "big")
        if length > MOST_BODY:
            told.damage("REFUSED", f"over the limit at byte {at}: entry {number + 1}: body of {size(length)}, {MOST_BODY} bytes are the most")


def to_text(data):
    """The lines of a recording, and the last word."""
    told = Told()
    edition, entries = int.from_bytes(data[:2], "big"), int.from_bytes(data[2:4], "big")
    count = "1 entry" if entries == 1 else f"{entries} entries"
    if len(data) >= 2 and edition != 1:
        told.damage("REFUSED", f"refused at byte 0: edition: {edition} is not 1")
    elif len(data) < FRONT:
        told.damage("CUT", f"cut at byte {len(data)}: the contents end after {size(len(data))}, the front needs {FRONT} bytes")
    else:
        told.lines.append(f"recording of {size(len(data))}, edition 1, {count}")
        if len(data) < FRONT + ROW * entries:
            before = None
            for number in range((len(data) - FRONT) // ROW):
                before = row_line(told, data, number, before, "")[1]
            need = f"{count} {'needs' if entries == 1 else 'need'} {FRONT + ROW * entries} bytes"
            told.damage("CUT", f"cut at byte {len(data)}: the contents end after {size(len(data))}, {need}")
        else:
            limit_lines(told, data, entries)
            entry_lines(told, data, entries)
    return [*told.lines, told.word]


# ---- made of a script and of what run printed

COUNT = (14, b"\0\1")


class Script:
    """The entries of a script that is to be recorded: event number and body of each, as far as they are whole. Where ticks come before the first
    event, a read count stands before them (`late`): a recording has no ticks before its first entry."""

    def __init__(self, data, file, notes):
        self.data, self.file, self.lines, self.places = data, file, notes.script["lines"] if notes.script else None, []
        self.stamp, self.entries, at = (notes.script or {}).get("stamp") or 0, [], 0
        while len(data) - at >= 8:
            event, _, length = struct.unpack_from(">HHI", data, at)
            self.places.append(at)
            self.entries.append((event, data[at + 8:at + 8 + length]))
            at += 8 + length
        first = next((number for number, (event, _) in enumerate(self.entries) if event != 0), 0)
        self.late = any(any(body) for _, body in self.entries[:first])
        self.entries[:0] = [COUNT] * self.late
        if first == 0 and self.entries and self.entries[0][0] == STATE:
            raise self.wrong(0, "state", "a recording starts fresh and holds no start state")

    def wrong(self, number, field, reason):
        """An error at an entry, counted from 0."""
        own = number - self.late
        place = f"line {self.lines[own]}" if self.lines else f"entry {own + 1}, byte {self.places[own]}"
        return Wrong(f"script {self.file}, {place}", field, reason)

    def bytes(self):
        """What is to be run."""
        return entry(*COUNT) * self.late + self.data

    def refused(self, said):
        """What run refused, out of the lines that it printed."""
        number, why = re.search(r"(?m)^entry (\d+): refused: (.*)$", "\n".join(said)).groups()
        return self.wrong(int(number) - 1, "entry", why)


class Answer:
    """The bytes of an answer out of the words that run printed."""
    takes = re.compile(r"; take \d+ read (\d+) bytes?: (more wanted|(?:PDU|drop|start|piece|last piece) [^;]*)")
    pdu = re.compile(r"PDU of route (\d+), id 0x([0-9a-f]{8}), length (\d+) bytes?, (?:from the segment )?(?:at byte (\d+)|from receive memory): ([0-9a-f]*|-)")
    drop = re.compile(r"drop (\d+), .*id 0x([0-9a-f]{8}), length (\d+) byte")
    start = re.compile(r"start of a transfer on route (\d+), id 0x([0-9a-f]{8}), length (\d+) byte")
    piece = re.compile(r"(last )?piece of route (\d+), id 0x([0-9a-f]{8}), (\d+) bytes?, from the segment at byte (\d+): ")

    def __init__(self, event, words):
        number = int(words.split(" ", 1)[0])
        named = re.search(r", destination (\d+)$", words)
        if number:
            self.bytes = struct.pack(">HI", number, int(named[1]) if named else 0)
        else:
            self.bytes = bytes(2) + self.done(event, words.removeprefix("0 done"))

    def done(self, event, words):
        if event == 4:
            return bytes([words == "; a transfer failed"])
        if event == 7:
            all_takes = self.takes.findall(words)
            return struct.pack(">H", len(all_takes)) + b"".join(struct.pack(">I", int(read)) + self.found(what, True) for read, what in all_takes)
        if event == 8:
            what, place = re.fullmatch(r"; (.*), next byte (\d+)", words).groups()
            return struct.pack(">I", int(place)) + self.found(what, False)
        if event == 9:
            count, host, port, data = re.fullmatch(r"; (\d+) bytes? for (\S+) port (\S+): (\S+)", words).groups()
            address = bytes(4) if host == "any" else bytes(map(int, host.split(".")))
            return struct.pack(">IB12x", int(count), 4) + address + struct.pack(">H", 0 if port == "any" else int(port)) + self.hex(data)
        if event in (10, 11):
            return bytes([int(re.fullmatch(r"; connection (\d+)", words)[1])])
        return struct.pack(">I", int(re.fullmatch(r"; (\d+) drops?", words)[1])) if event in (14, 15) else b""

    @staticmethod
    def hex(digits):
        return b"" if digits == "-" else bytes.fromhex(digits)

    def found(self, words, marked):
        """What a take or a walk found; of a take's PDU with the mark where it stood."""
        pdu, drop_, start, piece = (form.match(words) for form in (self.pdu, self.drop, self.start, self.piece))
        if pdu:
            route, header, length, place, data = pdu.groups()
            stood = self.hex(data) if place is None else struct.pack(">I", int(place))
            return bytes([1, int(route)]) + bytes.fromhex(header) + struct.pack(">I", int(length)) + bytes([place is None]) * marked + stood
        if drop_:
            return bytes([2, int(drop_[1])]) + bytes.fromhex(drop_[2]) + struct.pack(">I", int(drop_[3]))
        if start:
            return bytes([3, int(start[1])]) + bytes.fromhex(start[2]) + struct.pack(">I", int(start[3]))
        if piece:
            last, route, header, length, place = piece.groups()
            return bytes([5 if last else 4, int(route)]) + bytes.fromhex(header) + struct.pack(">II", int(length), int(place))
        return bytes(10)


def answered(script, number, line):
    """Event and whole body of an entry that run has answered. The words of these bytes are the line that was printed, or it is no recording."""
    event, body = script.entries[number]
    front = f"entry {number + 1}: {event_words(event, body)}: "
    if not line.startswith(front):
        raise script.wrong(number, "answer", f"`{line}` is not what run prints of this event")
    answer = Answer(event, line.removeprefix(front)).bytes
    if front + answer_words(event, body, Bytes("answer", answer, 0, len(answer))) != line:
        raise script.wrong(number, "answer", f"`{line}` cannot be turned into bytes and back")
    return event, body + answer


def made(script, said):
    """The bytes of the recording of a script that run has answered to its end."""
    stamp, waited, rows, bodies = script.stamp, 0, [], []
    for number, (event, body) in enumerate(script.entries):
        if event == 0:
            waited += int.from_bytes(body, "big")
            continue
        if rows and waited > MOST_DISTANCE:
            raise script.wrong(number, "ticks", f"{waited} since the event before, {MOST_DISTANCE} are the most in a recording: put an event that "
                                                "changes nothing between them, as `count 1`")
        event, whole = answered(script, number, said[number])
        if len(whole) > MOST_BODY:
            raise script.wrong(number, "body", f"arguments and answer have {len(whole)} bytes, {MOST_BODY} are the most in a recording")
        stamp, waited = (stamp + waited) % 2 ** 32, 0
        rows.append(struct.pack(">IHHI", stamp, event, 0, len(whole)))
        bodies.append(whole)
        if len(rows) > MOST_ENTRIES:
            raise script.wrong(number, "entries", f"{MOST_ENTRIES} are the most in a recording")
    return struct.pack(">HH", 1, len(rows)) + b"".join(rows) + b"".join(bodies)
