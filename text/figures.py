"""The foreman's report for a person, a spreadsheet and a script: what `tally` printed (docs/REPORT.md), with the names of files and, of a table text, names and
units. Nothing is counted here: figures are taken over as they were printed."""
import csv
import io
import json
import re
import struct

from notes import quoted
from table import SIZES

BYTES = r"(\d+) bytes?"
FIRST = re.compile(rf"recording (\d+): {BYTES}")
LAST = re.compile(r"recording (\d+): (SAME|DIFFERS|REFUSED|CUT)(?:, left out: (.+))?")
ENTRIES, TICKS = re.compile(r"entries run: (\d+) of (\d+)"), re.compile(r"ticks run: (\d+) ticks?")
COUNTS = re.compile(r"recordings: (\d+) given, (\d+) same, (\d+) different, (\d+) refused, (\d+) cut, (\d+) left out")
ROUTE = re.compile(rf"route (\d+): (\d+) PDUs?, {BYTES}, smallest {BYTES}, largest {BYTES}")
REASONS = {20: "no route", 21: "switched off", 22: "too long", 23: "cut off"}
CONNECTION = re.compile(r"connection (\d+): " + ", ".join(rf"(\d+) drops? {reason} {words}" for reason, words in REASONS.items()))
TOTALS = ("given", "same", "different", "refused", "cut", "left_out")
DROPS = [f"drops_{reason}" for reason in REASONS]
COLUMNS = ["kind", "number", "name", "unit", "id", "connection", "connection_name", "protocol", "pdus", "bytes", "smallest_bytes", "largest_bytes", *DROPS,
           "file", "file_bytes", "entries_run", "entries_named", "ticks_run", "word", "left_out", "said"]


class Garbled(Exception):
    """A line that `tally` does not print."""


def plain(name):
    """The name of a file on one line."""
    return "".join(letter if letter.isprintable() or "\udc80" <= letter <= "\udcff" else "?" for letter in name)


def count(number, unit, plural=None):
    """1,234,567 bytes."""
    return f"{number:,} {unit if number == 1 else plural or unit + 's'}"


def many(number):
    return count(number, "recording")


class Rows:
    """The rows of an accepted table image, with the names and units that its text gave them."""

    def __init__(self, image, notes):
        counts = [struct.unpack_from(">H", image, 6 + 8 * kind)[0] for kind in range(4)]
        self.rows, at = {}, 36
        for rows, (kind, size) in zip(counts, SIZES.items()):
            self.rows[kind] = [image[at + size * row:at + size * (row + 1)] for row in range(rows)]
            at += size * rows
        self.notes = notes

    def name(self, kind, number):
        return self.notes.row(kind, number)["name"]

    def route(self, number):
        connection, header = struct.unpack_from(">BxxxI", self.rows["route"][number])
        return {"route": number, "name": self.name("route", number), "unit": self.notes.row("route", number)["unit"], "id": f"0x{header:08x}",
                "connection": connection, "connection_name": self.name("connection", connection)}

    def connection(self, number):
        protocol = self.rows["group"][self.rows["connection"][number][0]][0]
        return {"connection": number, "name": self.name("connection", number), "protocol": {1: "UDP", 2: "TCP"}[protocol]}


class Figures:
    """The lines of `tally`, one at a time; `dressed` gives a line its names and units."""

    def __init__(self, table, rows, files, dressed):
        self.table, self.rows, self.files, self.dressed = table, rows, files, dressed
        self.recordings, self.routes, self.connections, self.totals, self.result, self.now = [], [], [], {}, None, None

    def line(self, line):
        if self.now is not None:
            self.inside(line)
        elif FIRST.fullmatch(line) and len(self.recordings) < len(self.files):
            file, size = self.files[len(self.recordings)]
            self.now = {"recording": len(self.recordings) + 1, "file": file, "file_bytes": size, "said": []}
        elif COUNTS.fullmatch(line):
            self.totals = dict(zip(TOTALS, map(int, COUNTS.fullmatch(line).groups())))
        elif ROUTE.fullmatch(line):
            number, *figures = map(int, ROUTE.fullmatch(line).groups())
            self.routes.append({**self.rows.route(number), **dict(zip(("pdus", "bytes", "smallest_bytes", "largest_bytes"), figures))})
        elif CONNECTION.fullmatch(line):
            number, *drops = map(int, CONNECTION.fullmatch(line).groups())
            self.connections.append({**self.rows.connection(number), **dict(zip(DROPS, drops))})
        elif line in ("OK", "REFUSED") and self.totals:
            self.result = line
        else:
            raise Garbled(line)

    def inside(self, line):
        """A line of the recording that is being told."""
        last, entries, ticks = LAST.fullmatch(line), ENTRIES.fullmatch(line), TICKS.fullmatch(line)
        if last:
            self.recordings.append({**self.now, "word": last[2], "left_out": last[3] or ""})
            self.now = None
        elif entries:
            self.now["entries_run"], self.now["entries_named"] = int(entries[1]), int(entries[2])
        elif ticks:
            self.now["ticks_run"] = int(ticks[1])
        else:
            self.now["said"].append(self.dressed(line))

    def whole(self):
        """Every recording was told, and the last word came."""
        if self.result is None or len(self.recordings) != len(self.files) or len(self.routes) != len(self.rows.rows["route"]):
            raise Garbled("the end is missing")
        return self


def aligned(head, rows, words):
    """Lines in columns; the first `words` of them from the left, the rest from the right."""
    widths = [max(len(row[column]) for row in (head, *rows)) for column in range(len(head))]
    return ["  ".join(cell.ljust(width) if number < words else cell.rjust(width)
                      for number, (cell, width) in enumerate(zip(row, widths))).rstrip() for row in (head, *rows)]


def named(number, name, unit=""):
    return f"{number}{quoted(name)}" + (f", {unit}" if unit else "")


def told(one):
    """A recording that is not the same as then, or that was left out: which it is, how far it was run, and its place."""
    run = f"{one['entries_run']:,} of {count(one['entries_named'], 'entry', 'entries')} run"
    why = f"left out: {one['left_out']}" if one["left_out"] else f"{run} and counted"
    return [f"recording {one['recording']:,}, {plain(one['file'])}: {one['word']}, {why}", *("  " + line for line in one["said"])]


def words(figures):
    """For a person."""
    all_of, totals = figures.recordings, figures.totals
    run, of = sum(one["entries_run"] for one in all_of), sum(one["entries_named"] for one in all_of)
    lines = [f"report of {many(totals['given'])}, table {plain(figures.table)}",
             ", ".join(f"{totals[key]:,} {key.replace('_', ' ')}" for key in TOTALS[1:]),
             f"entries run: {run:,} of {count(of, 'entry', 'entries')}, ticks run: {count(sum(one['ticks_run'] for one in all_of), 'tick')}"]
    for one in all_of:
        if one["word"] != "SAME" or one["left_out"]:
            lines += told(one)
    routes = [[named(row["route"], row["name"], row["unit"]), row["id"], named(row["connection"], row["connection_name"]), count(row["pdus"], "PDU"),
               *(count(row[key], "byte") for key in ("bytes", "smallest_bytes", "largest_bytes"))] for row in figures.routes]
    lines += ["", *aligned(["route", "id", "connection", "handed out", "payload", "smallest", "largest"], routes, 3)]
    drops = [[named(row["connection"], row["name"]), row["protocol"], *(count(row[key], "drop") for key in DROPS)] for row in figures.connections]
    lines += ["", *aligned(["connection", "protocol", *(f"{reason} {said}" for reason, said in REASONS.items())], drops, 2), ""]
    lines += [f"left out: recording {one['recording']:,}, {plain(one['file'])}: {one['left_out']}" for one in all_of if one["left_out"]]
    return "\n".join([*lines, figures.result, ""])


def as_csv(figures):
    """One table with a row for each recording, route and connection, and a last one for the report; what a row does not have is empty."""
    out = io.StringIO()
    writer = csv.DictWriter(out, COLUMNS, restval="", lineterminator="\n")
    writer.writeheader()
    for kind, rows in (("recording", figures.recordings), ("route", figures.routes), ("connection", figures.connections)):
        for row in rows:
            said = "; ".join(line.strip() for line in row.get("said", []))
            writer.writerow({**{key: row[key] for key in row if key in COLUMNS}, "kind": kind, "number": row[kind], "said": said})
    writer.writerow({"kind": "report", "number": figures.totals["given"], "file": figures.table, "word": figures.result})
    return out.getvalue()


def as_json(figures):
    whole = {"table": figures.table, "result": figures.result, "totals": figures.totals, "recordings": figures.recordings, "routes": figures.routes,
             "connections": figures.connections}
    return json.dumps(whole, indent=2) + "\n"


def refused(shape, table, said):
    """A refused table: what `check` says of it."""
    if shape == "words":
        return said
    why = "; ".join(line for line in said.split("\n") if line and line != "REFUSED")
    if shape == "json":
        return json.dumps({"table": table, "result": "REFUSED", "said": why}, indent=2) + "\n"
    out = io.StringIO()
    writer = csv.DictWriter(out, COLUMNS, restval="", lineterminator="\n")
    writer.writeheader()
    writer.writerow({"kind": "report", "number": 0, "file": table, "word": "REFUSED", "said": why})
    return out.getvalue()


SHAPES = {"words": words, "csv": as_csv, "json": as_json}
