"""A commissioning sheet a person can write, to its bytes and back: single switches, in the words of a script (docs/EVENTS.md lays out the bytes)."""
from fields import Bytes, form, lines, read, show
from script import CONNECTION, SWITCH

ROW, SIZE = [CONNECTION, *SWITCH], 3


def is_text(data):
    """The bytes of a sheet that fits have a position in them, 0 or 1, and a text has no such byte; nothing at all is the empty sheet."""
    return data != b"" and min(data) > 8


def forms():
    return [form("switch", ROW)]


def entries(text):
    """(line, bytes) of each switch."""
    for words in lines(text):
        words.choice("line of a sheet", ["switch"])
        data = read(ROW, words)
        words.end()
        yield words.line, data


def to_text(data):
    out, rest = [], Bytes("", data, 0, len(data))
    while rest.left():
        rest.whose = f"entry {len(out) + 1}"
        out.append(f"switch {show(ROW, rest.part('switch', SIZE))}")
    return "".join(line + "\n" for line in out)
