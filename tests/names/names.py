"""names.py: names, units and lines of texts, in texts and in what ./soad prints. Each check below is a function; each thing it compares counts as
passed or failed."""
import importlib.machinery
import importlib.util
import os
import re
import subprocess
import sys
import tempfile
import traceback

HERE = os.path.dirname(os.path.abspath(__file__))
ROOT = os.path.dirname(os.path.dirname(HERE))
sys.dont_write_bytecode = True
sys.path.insert(0, os.path.join(ROOT, "text"))
import script
import table
from fields import Wrong
from notes import Notes

passed, failed = 0, 0


def tool(name):
    loader = importlib.machinery.SourceFileLoader(name, os.path.join(ROOT, "text", name))
    module = importlib.util.module_from_spec(importlib.util.spec_from_loader(name, loader))
    loader.exec_module(module)
    return module


convert, dress = tool("convert"), tool("dress")


def same(got, want, what):
    global passed, failed
    if got == want:
        passed += 1
    else:
        failed += 1
        print(f"names: {what}\n  expected {want!r:.800}\n  got      {got!r:.800}")


def true(fact, what):
    same(bool(fact), True, what)


def contents(*name):
    with open(os.path.join(ROOT, *name), "rb") as file:
        return file.read()


def noted(text, file="examples/debarker.txt"):
    """The notes of a table text."""
    notes = Notes()
    convert.converted("table", "bytes", text.encode(), file, notes)
    return notes


# 1. Names and units in a text

CONNECTION = "connection 0 group 0 manual remote any port any send 8 bytes switches 0x00000000"
ROUTE = "route 0 connection 0 longest 0 bytes id 0x00000001 pdu 0x0001 groups 0x00000000"
DESTINATION = "destination 0 connection 0 held longest 0 bytes id 0x00000001 pdu 0x0001 timeout 0 ticks groups 0x00000000"


def texts():
    """They are read, are no part of the image, and a text without them is read as ever."""
    plain = f"group 0 UDP\n{CONNECTION}\n{ROUTE}\n{DESTINATION}\n"
    image = table.to_image(plain)
    same(table.to_text(image), plain, "a text without names")
    for ends, want in ((("", "", ""), ("", "", "", "", "")),
                       ((' name "valve"', ' name "ring" unit "bar"', ' unit "kPa" name "set"'), ("valve", "ring", "bar", "set", "kPa")),
                       (('\tname  "a # b"  # name "c"', ' unit "°C"#x', ' name "name" unit "unit"'), ("a # b", "", "°C", "name", "unit")),
                       (('# name "valve"', ' # unit "bar"', ' name "ä, ö: ü; (x)"'), ("", "", "", "ä, ö: ü; (x)", ""))):
        text = f"group 0 UDP\n{CONNECTION}{ends[0]}\n{ROUTE}{ends[1]}\n{DESTINATION}{ends[2]}\n"
        same(table.to_image(text), image, f"the image of a text with {ends}")
        rows = table.rows(text)
        (valve,), (ring,), (put,) = rows["connection"], rows["route"], rows["destination"]
        same((valve.name, ring.name, ring.unit, put.name, put.unit), want, f"names and units of {ends}")
    same(convert.converted("table", "bytes", contents("examples", "debarker.txt")), contents("examples", "debarker.table"), "the image of the example")
    true('name "' not in table.to_text(contents("examples", "debarker.table")), "no name in the text of an image")
    for kind, rows in table.rows(contents("examples", "debarker.txt").decode()).items():
        true(kind == "group" or all(row.name for row in rows), f"every {kind} of the example has a name")


# 2. Lines

def stored_lines():
    """lines.txt, each line as it comes: old words of run and new ones."""
    dressed = dress.Dress(noted(contents("examples", "debarker.txt").decode()))
    dressed.notes.script = {"file": "shift.txt", "lines": [4, 6, 9]}
    rows = [row for row in contents("tests", "names", "lines.txt").decode().split("\n") if row and not row.startswith("#")]
    pairs = [(row[2:], (after[2:] if after.startswith("+ ") else row[2:])) for row, after in zip(rows, rows[1:] + [""]) if row.startswith("- ")]
    for line, want in pairs:
        same(dressed.line(line), want, f"the line `{line}`")
    nothing = dress.Dress(Notes())
    for line, _ in pairs:
        same(nothing.line(line), line, f"without notes, the line `{line}`")
    kinds = {kind for line, _ in pairs for match in dress.PIECES.finditer(line) for kind in [match.lastgroup]}
    same(kinds, {name for name in dress.PIECES.groupindex if hasattr(dress.Dress, name)}, "kinds of pieces in lines.txt")


def bare(line):
    """A dressed line without what was added; names are in «» there and units begin with °."""
    line = re.sub(r'^(entry \d+), line \d+', r"\1", line)
    line = re.sub(r' \((holds|connection \d+ "«)[^()]*\)', "", line)
    return re.sub(r' = \d+ °\w+|,? ?(name |unit |and )?"(«[^»]*»|°\w+)"', "", line)


def stored_run():
    """The long stored run, under its table with names that look like the lines themselves: only added to, and often."""
    data = contents("crates", "run", "stdin")
    counts = [int.from_bytes(data[at:at + 2], "big") for at in (6, 14, 22, 30)]
    rows = table.to_text(data[:36 + 2 * counts[0] + 16 * sum(counts[1:])]).splitlines()
    ends = {"group": "", "connection": ' name "«connection 1, PDU of route 0: 0 done»"', "route": ' name "«route 3; 9 drops»" unit "°r"',
            "destination": ' name "«destination 0: 00b4»" unit "°d"'}
    notes = noted("\n".join(row + ends[row.split()[0]] for row in rows))
    notes.script = {"file": "", "lines": list(range(2, 2000))}
    dressed, changed = dress.Dress(notes), 0
    for line in contents("crates", "run", "stdout").decode().splitlines():
        got = dressed.line(line)
        same(bare(got), line, "a line of the stored run, dressed and undressed")
        changed += got.count("«")
    true(changed > 500, f"only {changed} names were put in")


# 3. Values in scripts

TABLE = "\n".join(["group 0 TCP"] + [f"connection {k} group 0 manual remote any port any send 99 bytes switches 0" for k in range(2)] + [
    f"destination {i} connection {k} held longest {longest} bytes id {i} pdu {pdu} timeout 0 ticks groups 0 {unit}"
    for i, (k, longest, pdu, unit) in enumerate([
        (0, 1, 1, 'unit "bar"'), (0, 2, 2, 'unit "bar"'), (0, 4, 3, 'unit "l/min"'), (0, 3, 4, 'unit "bar"'), (0, 0, 5, 'unit "bar"'), (0, 2, 6, ""),
        (0, 2, 7, 'unit "bar"'), (1, 2, 7, 'unit "kPa"'), (0, 2, 8, 'unit "bar"'), (1, 4, 8, 'unit "bar"'), (0, 2, 9, 'unit "bar"'), (1, 2, 9, ""),
        (0, 2, 10, 'unit "bar"'), (1, 2, 10, 'unit "bar"')])])
VALUES = [("1 0 bar", "1 00"), ("1 255 bar", "1 ff"), ("2 180 bar", "2 00b4"), ("2 0xB4 bar", "2 00b4"), ("2 0180 bar", "2 00b4"),
          ("0x2 65535 bar", "2 ffff"), ("3 4294967295 l/min", "3 ffffffff"), ("10 180 bar # to both", "10 00b4")]
HEX = "the longest payloads of the PDU's destinations are not all 1 byte, all 2 bytes or all 4 bytes: write the payload in hex"
REFUSALS = [("1 256 bar", 12, "value: 256 bar is more than 255 bar, the most that a payload of 1 byte holds"),
            ("2 65536 bar", 12, "value: 65536 bar is more than 65535 bar, the most that a payload of 2 bytes holds"),
            ("3 4294967296 l/min", 12, "value: 4294967296 l/min is more than 4294967295 l/min, the most that a payload of 4 bytes holds"),
            ("2 180 kPa", 16, "unit: `kPa` is not the unit of destination 1, which has bar"),
            ("2 180 Bar", 16, "unit: `Bar` is not the unit of destination 1, which has bar"),
            ('2 180 "bar"', 16, 'unit: `"bar"` is not the unit of destination 1, which has bar'),
            ("6 180 bar", 16, "unit: `bar` is not the unit of destination 5, which has none"),
            ("7 180 bar", 16, "unit: `bar` is not the unit of destination 7, which has kPa"),
            ("9 180 bar", 16, "unit: `bar` is not the unit of destination 11, which has none"),
            ("11 180 bar", 17, "unit: no destination of the table has PDU 0x000b"),
            ("4 180 bar", 16, "unit: " + HEX), ("5 180 bar", 16, "unit: " + HEX), ("8 180 bar", 16, "unit: " + HEX)]


def values():
    """A value with its unit is the payload of its width; every other is refused with the reason."""
    notes = noted(TABLE)
    for line, want in VALUES:
        same(script.to_bytes(f"transmit {line}", notes), script.to_bytes(f"transmit {want}"), f"transmit {line}")
    for line, column, reason in REFUSALS:
        try:
            got = script.to_bytes(f"tick 1\ntransmit {line}", notes)
        except Wrong as wrong:
            got = str(wrong)
        same(got, f"line 2, column {column}: {reason}", f"transmit {line}")


# 4. ./soad

def soad(*words):
    done = subprocess.run([os.path.join(ROOT, "soad"), *words], stdin=subprocess.DEVNULL, capture_output=True, check=False, cwd=ROOT)
    return done.returncode, done.stdout.decode(), done.stderr.decode()


def file(folder, name, text):
    path = os.path.join(folder, name)
    with open(path, "wb") as out:
        out.write(text if isinstance(text, bytes) else text.encode())
    return path


def readme():
    """README's lines of a run, those behind its command, are among what that prints, in that order; check names the rows."""
    _, *runs = re.split(r"(?m)^    \./soad run ", contents("README.md").decode())
    for number, text in enumerate(runs):
        command, *lines = text.splitlines()
        lines = [line[4:] for line in lines if line.startswith("    entry ")]
        status, out, error = soad("run", *command.split())
        same((status, error, out.splitlines()[-1]), (0, "", "OK"), f"README's run {command}")
        printed = iter(out.splitlines())
        for line in lines:
            true(line in printed, f"README's line `{line}` is printed")
        true(len(lines) >= (8, 4)[number > 0] and any(" bar" in line for line in lines), f"README shows the run {command} with its units")
    status, out, error = soad("check", "examples/debarker.txt")
    same((status, error, out.splitlines()[-1]), (0, "", "OK"), "./soad check of a text")
    for name in re.findall(r'(?:name|unit) "[^"]*"', contents("examples", "debarker.txt").decode()):
        true(f", {name}" in out, f"./soad check prints {name}")


def firmware():
    """The run of a transfer: its start, pieces and last piece name their route, no unit stands behind a piece, and a failed one names its connection."""
    status, out, error = soad("run", "examples/firmware-table.txt", "examples/firmware.txt")
    same((status, error, out.splitlines()[-1]), (0, "", "OK"), "the run of examples/firmware.txt")
    route = 'route 1 "firmware, front ring valve", id 0x00000121'
    for line in (f"take 1 read 8 bytes: start of a transfer on {route}, length 12 bytes; "
                 f"take 2 read 3 bytes: piece of {route}, 3 bytes, from the segment at byte 8: 464952",
                 f"take 1 read 6 bytes: piece of {route}, 6 bytes, from the segment at byte 0: 4d5741524520",
                 f"take 1 read 3 bytes: last piece of {route}, 3 bytes, from the segment at byte 0: 312e30; take 2 read 4 bytes: more wanted",
                 'take 1 read 6 bytes: PDU of route 0 "setpoint", id 0x00000101, length 2 bytes, from the segment at byte 4: 00b4 = 180 bar',
                 'cancel connection 0 "workshop": 0 done', 'tick 1 time: 0 done; a transfer failed on connection 0 "workshop"',
                 'cancel connection 0 "workshop": 3 not allowed'):
        true(re.search(f"(?m)^entry .*[:;] {re.escape(line)}$", out), f"the run of examples/firmware.txt prints `{line}`")
    true('name "firmware, front ring valve"' in soad("check", "examples/firmware-table.txt")[1], "./soad check lists the marked route")


def service():
    """The laptop that goes away: check lists the limit, and the run serves the next one; its timer stands in the record at the end."""
    status, out, error = soad("check", "examples/service-table.txt")
    same((status, error, out.splitlines()[-1]), (0, "", "OK"), "./soad check of examples/service-table.txt")
    true('\n  connection 0: group 0, opened on request, remote any port any, send size 512 bytes, alive limit 30 ticks, start switches 0x00000000, '
         'name "service laptop"\n' in out, f"./soad check lists the alive limit: {out}")
    true(", alive limit " not in soad("check", "examples/debarker.txt")[1], "./soad check lists no limit where there is none")
    status, out, error = soad("run", "examples/service-table.txt", "examples/service.txt")
    same((status, error, out.splitlines()[-1]), (0, "", "OK"), "the run of examples/service.txt")
    for line in ('port 40000: 10 no connection matches', 'bar: 4 not online, destination 0 "ring pressure" (connection 0 "service laptop")',
                 'port 40000: 000001010000000200aa (holds "ring pressure" 170 bar)', "due no, alive timer 25 ticks, remote set no"):
        true(f"{line}\n" in out, f"the run of examples/service.txt prints `{line}`")


def scripts():
    """A value in a script: run and to-bytes take it under a table text with that unit, and no other."""
    with tempfile.TemporaryDirectory() as folder:
        path = file(folder, "a shift.txt", "tick 1\nconnected 0\nconnected 1\ntransmit 0x0201 180 bar\ntake 1 99\n")
        status, out, error = soad("run", "examples/debarker.txt", path)
        same((status, error), (0, ""), "a run with a value")
        true('entry 5, line 5: take waiting of connection 1 "rear ring valve" into 99 bytes: 0 done; 10 bytes for 192.168.10.12 port 30501: '
             '000001010000000200b4 (holds "setpoint" 180 bar)\n' in out, f"the value is sent: {out}")
        hexed = script.to_bytes("tick 1\nconnected 0\nconnected 1\ntransmit 0x0201 00b4\ntake 1 99\n")
        done = subprocess.run([os.path.join(ROOT, "soad"), "script", "to-bytes", path, os.path.join(ROOT, "examples", "debarker.txt")],
                              stdout=subprocess.PIPE, check=False)
        same((done.returncode, done.stdout), (0, hexed), "./soad script to-bytes with a table")
        none = f"script {path}, line 4, column 21: unit: a value with its unit needs a table text that says the PDU's unit; none is given\nREFUSED\n"
        same(soad("script", "to-bytes", path), (1, "", none), "./soad script to-bytes without a table")
        same(soad("script", "to-bytes", path, "examples/debarker.table"), (1, "", none), "./soad script to-bytes with an image")
        same(soad("run", "examples/debarker.table", path), (1, none, ""), "./soad run with an image")
        bad = file(folder, "bad", "group 0 udp\n")
        same(soad("script", "to-bytes", path, bad), (1, "", f"table {bad}, line 1, column 9: protocol: `udp` is none of UDP, TCP\nREFUSED\n"),
             "./soad script to-bytes with a bad table")
        status, out, error = soad("script", "to-text", path, bad)
        same((status, out, error.split("\n")[0]), (2, "", "soad: script takes a direction and a file"), "./soad script to-text with a table")


def refusals():
    """A refused table that is a text names its line; check and run say it at the same byte, and REFUSED is the last word."""
    good = contents("examples", "debarker.txt").decode()
    with tempfile.TemporaryDirectory() as folder:
        for old, new, byte, line, column, reason in (
                ("route 1 connection 3", "route 1 connection 7", 120, 16, 20,
                 'receive route row 1 "ring pressure": connection 7 is not there, the table has 4 connections'),
                ("id 0x00000102 pdu 0x0102", "id 0x00000101 pdu 0x0102", 120, 16, 41,
                 'receive route row 1 "ring pressure": shares connection and header id with row 0 (line 15)'),
                ("route 0 connection 3 longest", "route 0 connection 3 tp longest", 104, 15, 22,
                 'receive route row 0 "ring pressure": transfer mark 1 on connection 3, which is UDP'),
                ("send 1472 bytes switches 0x00000003     name \"rear", "send 1472 bytes alive 30 ticks switches 0x00000003 name \"rear", 56, 11, 86,
                 'connection row 1 "rear ring valve": alive limit 30 ticks in group 0, which is TCP'),
                ("send 64 bytes", "send 7 bytes", 88, 13, 69, 'connection row 3 "scanner": send size 7 is not within 8..1472 bytes'),
                ("group 1 UDP  ", "\n".join(f"group {i} UDP" for i in range(1, 10)), 4, 14, 1,
                 "contents entry of kind 1, group: 10 rows are more than 8 rows")):
            path = file(folder, "a table.txt", good.replace(old, new))
            want = (1, f"refused 1 at byte {byte}, {path}, line {line}, column {column}: {reason}\nREFUSED\n", "")
            same(soad("check", path), want, f"./soad check of {new!r}")
            same(soad("run", path, "examples/shift.txt"), want, f"./soad run of {new!r}")


def pipes():
    """Texts that can be read but once; each line is told as it comes; a full disk is told in a line."""
    shell = './soad run <(cat examples/debarker.txt) <(cat examples/shift.txt)'
    done = subprocess.run(["bash", "-c", shell], stdout=subprocess.PIPE, check=False, cwd=ROOT)
    same((done.returncode, done.stdout.decode()), soad("run", "examples/debarker.txt", "examples/shift.txt")[:2], "./soad run of pipes")
    with tempfile.TemporaryDirectory() as folder:
        notes = os.path.join(folder, "notes")
        noted(contents("examples", "debarker.txt").decode()).keep(notes)
        words = [os.path.join(ROOT, "text", "dress"), notes]
        with subprocess.Popen(words, stdin=subprocess.PIPE, stdout=subprocess.PIPE) as going:
            going.stdin.write(b"entry 1: lost connection 1: 0 done\nent")
            going.stdin.flush()
            same(going.stdout.readline(), b'entry 1: lost connection 1 "rear ring valve": 0 done\n', "a line before the input ends")
            going.stdin.close()
            same((going.stdout.read(), going.wait()), (b"ent", 1), "an input that ends inside a line")
        for text, status in ((b"OK\n", 0), (b"CUT\n", 1), (b"OK\nREFUSED\n", 1), (b"", 1), (b"OK", 1), (b"\xff\nOK\n", 0)):
            done = subprocess.run(words, input=text, stdout=subprocess.PIPE, check=False)
            same((done.returncode, done.stdout), (status, text), f"text/dress of {text}")
        with open("/dev/full", "wb") as full:
            done = subprocess.run(words, input=b"OK\n", stdout=full, stderr=subprocess.PIPE, check=False)
        same((done.returncode, done.stderr), (2, b"soad: the lines cannot be read or written: No space left on device\n"), "a full disk")


for check in (texts, stored_lines, stored_run, values, readme, firmware, service, scripts, refusals, pipes):
    try:
        check()
    except Exception:
        failed += 1
        traceback.print_exc(file=sys.stdout)
print(f"names: {passed} passed, {failed} failed")
sys.exit(1 if failed else 0)
