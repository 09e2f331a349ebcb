"""What the texts of a table and a script (or a sheet) say and their bytes do not: names and units of rows, and the lines where rows and entries stand.
text/convert writes them down, text/dress puts them into what the programs print."""
import json
import struct

WIDTHS = (1, 2, 4)


def note(kind, row):
    """A row of a table text (table.py), for the file of notes; routes and destinations begin with the same fields."""
    kept = {"line": row.line, "columns": row.columns, "name": row.name, "unit": row.unit}
    if kind in ("route", "destination"):
        kept["connection"], kept["longest"], kept["id"], kept["pdu"] = struct.unpack_from(">BxHIH", row.data)
    return kept


def of_table(file, rows):
    return {"file": file, "rows": {kind: [note(kind, row) for row in rows[kind]] for kind in rows}}


def one(values):
    """The value that all of them are; "" where they differ, or there are none."""
    values = set(values)
    return values.pop() if len(values) == 1 else ""


def quoted(name):
    return f' "{name}"' if name else ""


def size(count):
    return f"{count} byte" + "s" * (count != 1)


class Notes:
    """The notes of a table and a script; each has none (None) where bytes were given."""

    def __init__(self, path=None):
        self.table = self.script = None
        if path:
            with open(path, encoding="utf-8", errors="surrogateescape") as file:
                text = file.read()
            self.table, self.script = json.loads(text) if text else (None, None)

    def keep(self, path):
        with open(path, "w", encoding="utf-8", errors="surrogateescape") as file:
            json.dump([self.table, self.script], file, ensure_ascii=False)

    def rows(self, kind):
        return self.table["rows"][kind] if self.table else []

    def row(self, kind, number):
        """The row of that number; a nameless one where there is none."""
        rows = self.rows(kind)
        return rows[number] if 0 <= number < len(rows) else {"name": "", "unit": "", "connection": -1}

    def name(self, kind, number):
        return quoted(self.row(kind, number)["name"])

    def on(self, kind, connection, header):
        """The rows of a connection that have this id."""
        return [row for row in self.rows(kind) if (row["connection"], row["id"]) == (connection, header)]

    def sent(self, pdu):
        """The destinations of a PDU."""
        return [row for row in self.rows("destination") if row["pdu"] == pdu]

    def width(self, pdu, unit):
        """How many bytes a value of this PDU has, if that is its unit: those of its destinations, which agree in both."""
        if not self.table:
            raise ValueError("a value with its unit needs a table text that says the PDU's unit; none is given")
        rows = self.sent(pdu)
        if not rows:
            raise ValueError(f"no destination of the table has PDU 0x{pdu:04x}")
        for number, row in enumerate(self.rows("destination")):
            if row["pdu"] == pdu and row["unit"] != unit:
                raise ValueError(f"`{unit}` is not the unit of destination {number}, which has {row['unit'] or 'none'}")
        longest = one(row["longest"] for row in rows)
        if longest not in WIDTHS:
            raise ValueError("the longest payloads of the PDU's destinations are not all 1 byte, all 2 bytes or all 4 bytes: write the payload in hex")
        return longest


NOTHING = Notes()
