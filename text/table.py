"""A table a person can read, to a table image and back. Whether the table keeps the rules is for the proved check to say;
here a value only has to fit its field. Names and units stand in the text alone: notes.py keeps them for what is printed."""
import re
import struct
from collections import namedtuple

from fields import Address, Always, Bytes, Choice, Mark, Maybe, Number, Ticks, Word, Wrong, form, lines, read, show


def zero(width):
    return Always("zero field", bytes(width))


OWNER = [Word("connection"), Number("connection", 1)]
LONGEST = [Word("longest"), Number("longest payload", 2), Word("bytes")]
NAMES = [Word("id"), Number("id", 4, 8), Word("pdu"), Number("pdu", 2, 4)]
GROUPS = [Word("groups"), Number("groups", 4, 8)]
ROWS = {
    "group": [Choice("protocol", UDP=1, TCP=2), zero(1)],
    "connection": [Word("group"), Number("group", 1), Choice("automatic or manual", manual=0, automatic=1), Word("remote"), Address("remote"),
                   Word("send"), Number("send size", 2), Word("bytes"), Maybe("alive", 2, Ticks("alive limit")),
                   Word("switches"), Number("start switches", 4, 8)],
    "route": [*OWNER, Mark("mark", "tp"), *LONGEST, *NAMES, zero(2), *GROUPS],
    "destination": [*OWNER, Choice("trigger or held", held=0, trigger=1), *LONGEST, *NAMES,
                    Word("timeout"), Number("timeout", 2), Word("ticks"), *GROUPS],
}
SIZES = {"group": 2, "connection": 16, "route": 16, "destination": 16}
NOTES = {"group": (), "connection": ("name",), "route": ("name", "unit"), "destination": ("name", "unit")}
# A row of a text: where it stands and each of its fields, its bytes, and its name and unit ("" where it has none).
Row = namedtuple("Row", "line columns data name unit")


def forms():
    return [" ".join([form(f"{kind} <number>", row)] + [f'[{note} "<{note}>"]' for note in NOTES[kind]]) for kind, row in ROWS.items()]


def named(kind, words):
    """The name and the unit at the end of a row's line, in either order."""
    out = {"name": "", "unit": ""}
    while words.words and words.words[0] in NOTES[kind] and not out[words.words[0]]:
        note = words.next("name or unit")
        out[note] = words.quoted(note)
    if not re.fullmatch(r"[^\s#]*", out["unit"]):
        raise words.wrong("unit", f"`{out['unit']}` has a space or a `#` in it", words.columns["unit"])
    return out


def rows(text):
    """The rows of each kind. They stand in any order of kinds; each names its own number, counted from 0 within its kind."""
    out = {kind: [] for kind in ROWS}
    if not text:
        raise Wrong("line 1, column 1", "text", "is empty")
    for words in lines(text):
        kind = words.choice("kind of row", ROWS)
        number = words.number(f"number of the {kind}", 65534)
        if number != len(out[kind]):
            raise words.wrong(f"number of the {kind}", f"{number} does not follow: the next {kind} is number {len(out[kind])}")
        data = read(ROWS[kind], words)
        out[kind].append(Row(words.line, words.columns, data, **named(kind, words)))
        words.end()
    return out


def image_of(bodies):
    image, at = struct.pack(">HH", 1, 4), 36
    for number, kind in enumerate(ROWS, 1):
        image += struct.pack(">HHI", number, len(bodies[kind]), at)
        at += SIZES[kind] * len(bodies[kind])
    return image + b"".join(row.data for kind in ROWS for row in bodies[kind])


def to_image(text):
    return image_of(rows(text))


def to_text(image):
    """An image whose contents and fields the text can say."""
    data = Bytes("front", image, 0, len(image))
    show([Always("edition", b"\0\1"), Always("number of kinds", b"\0\4")], data)
    counts, at = {}, 36
    for number, kind in enumerate(ROWS, 1):
        data.whose = f"contents entry {number}"
        show([Always("kind", struct.pack(">H", number))], data)
        counts[kind] = data.number("row count", 2, 65535)
        show([Always("offset", struct.pack(">I", at))], data)
        at += counts[kind] * SIZES[kind]
    if at != len(image):
        raise Wrong("byte 2", "total length", f"the image has {len(image)} bytes and its contents ask {at}")
    out = []
    for kind, row in ROWS.items():
        for number in range(counts[kind]):
            data.whose = f"{kind} {number}"
            out.append(f"{data.whose} {show(row, data)}")
    return "\n".join(out) + "\n"
