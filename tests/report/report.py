"""report.py: tries ./soad report. Each check below is a function; each thing it compares counts as passed or failed. As many checks run at a time as there
are processors."""
import csv
import io
import json
import os
import pty
import re
import struct
import subprocess
import sys
import tempfile
import threading
import traceback
from concurrent.futures import ThreadPoolExecutor

ROOT = os.path.dirname(os.path.dirname(os.path.dirname(os.path.abspath(__file__))))
TABLE, TEXT = "examples/debarker.table", "examples/debarker.txt"
FIRMWARE_TABLE, FIRMWARE = "examples/firmware-table.txt", "examples/firmware.txt"
RECORDING, CHANGED = "examples/long-shift.recording", "examples/long-shift-changed.recording"
ROUTE = ("pdus", "bytes", "smallest_bytes", "largest_bytes")
DROPS = ("drops_20", "drops_21", "drops_22", "drops_23")
passed, failures, lock = 0, [], threading.Lock()


def same(got, want, what):
    global passed
    with lock:
        if got == want:
            passed += 1
        else:
            failures.append(what)
            print(f"report: {what}\n  expected {want!r:.900}\n  got      {got!r:.900}")


def true(fact, what):
    same(bool(fact), True, what)


def contents(*name):
    with open(os.path.join(ROOT, *name), "rb") as file:
        return file.read()


def file(name, data):
    path = os.path.join(FOLDER, name)
    with open(path, "wb") as out:
        out.write(data)
    return path


def soad(*words, shell='./soad "$@"', **more):
    """(status, standard output, standard error)."""
    done = subprocess.run(["bash", "-c", shell, "bash", *words], cwd=ROOT, env={**os.environ, **more}, stdin=subprocess.DEVNULL, capture_output=True,
                          check=False)
    return done.returncode, done.stdout.decode("utf-8", "surrogateescape"), done.stderr.decode("utf-8", "surrogateescape")


def lines(*words):
    """(status, lines of standard output), where nothing is said on standard error."""
    status, out, error = soad("report", *words)
    same(error, "", f"./soad report {words}: standard error")
    return status, out.split("\n")[:-1]


def parsed(*words):
    """(status, object) of --json."""
    status, said = lines("--json", *words)
    return status, json.loads("\n".join(said))


def page_recording():
    """The recording that docs/RECORDING.md shows."""
    return bytes.fromhex("".join(re.findall(r"(?m)^    \d\d: ([0-9a-f ]+)$", contents("docs", "RECORDING.md").decode())))


# 1. What the pages show

def block(text, command):
    """The indented lines behind a command, without the empty ones at its ends."""
    shown = text.split(f"    {command}\n", 1)[1].split("\n")
    end = next(number for number, line in enumerate(shown) if line and not line.startswith("    "))
    return [line[4:] for line in "\n".join(shown[:end]).strip("\n").split("\n")]


def pages():
    for page in ("README.md", os.path.join("docs", "REPORT.md")):
        text = contents(page).decode()
        command, = re.findall(r"(?m)^    (\./soad report .*)$", text)
        status, out, error = soad(shell=command)
        printed = out.split("\n")[:-1]
        same((status, error, printed[-1]), (0, "", "OK"), f"{page}: {command}")
        shown = block(text, command)
        same(printed[:len(shown)], shown, f"{page}: the lines of {command}")
    same(len(printed), len(shown), "docs/REPORT.md shows all lines")


def columns():
    """docs/REPORT.md names the columns and the names, in their order."""
    text = contents("docs", "REPORT.md").decode()
    table = text.split("`--csv`\n")[1].split("\n## ")[0]
    named = [name for row in re.findall(r"(?m)^\| (`[^|]*`) \|", table) for name in re.findall(r"`(\w+)`", row)]
    same(lines("--csv", TABLE, RECORDING)[1][0].split(","), named, "docs/REPORT.md: the columns of --csv")
    told = parsed(TABLE, RECORDING)[1]
    rows = dict(re.findall(r"(?m)^\| `(\w+)` \| (.*) \|$", text.split("`--json`\n")[1].split("\n## ")[0]))
    same(list(rows), list(told), "docs/REPORT.md: the names of --json")
    for name in ("totals", "recordings", "routes", "connections"):
        of = told[name] if name == "totals" else told[name][0]
        same(re.findall(r"`(\w+)`", rows[name]), list(of), f"docs/REPORT.md: the names of {name}")


def program_page():
    """What the program itself prints, for the recording of docs/RECORDING.md."""
    text = contents("docs", "REPORT.md").decode().split("## What the program `tally` prints")[1]
    shown = [line[4:] for line in text.split("\n") if line.startswith("    ")]
    data = page_recording()
    given = file("page-input", contents(TABLE) + len(data).to_bytes(4, "big") + data)
    start = '. tests/machine.sh; "${kit_start[@]}" target/bin/tally <"$1"'
    same(soad(given, shell=start), (0, "".join(line + "\n" for line in shown), ""), "docs/REPORT.md: the lines of the program tally")


# 2. The figures, counted again from what ./soad replay prints of each entry

TAKES = re.compile(r"PDU of route (?P<route>\d+), id \w+, length (?P<length>\d+) |drop (?P<reason>\d+),|"
                   r"start of a transfer on route (?P<starts>\d+), id \w+, length (?P<whole>\d+) bytes?(?P<end>, the end)?|last piece of route (?P<last>\d+),")


def counted(image, *recordings):
    """The lists of figures per route and per connection."""
    groups, connections, routes = (struct.unpack_from(">H", open(image, "rb").read(), 6 + 8 * kind)[0] for kind in range(3))
    pdus, drops = [[] for _ in range(routes)], [[0] * 4 for _ in range(connections)]
    for recording in recordings:
        started = {}
        for line in soad("replay", image, recording, "--each")[1].split("\n"):
            event = re.match(r"entry \d+, stamp \d+, after \d+ ticks?: (segment|walk) on connection (\d+)[ ,].*?: 0 done; ", line)
            if not event:
                continue
            connection = int(event[2])
            for take in TAKES.finditer(line, event.end()):
                if take["route"]:
                    pdus[int(take["route"])].append(int(take["length"]))
                elif take["reason"]:
                    drops[connection][int(take["reason"]) - 20] += 1
                elif take["last"]:
                    pdus[int(take["last"])].append(started[connection])
                elif take["end"]:
                    pdus[int(take["starts"])].append(0)
                else:
                    started[connection] = int(take["whole"])
    return [[len(of), sum(of), min(of, default=0), max(of, default=0)] for of in pdus], drops


def figures(told):
    return [[row[key] for key in ROUTE] for row in told["routes"]], [[row[key] for key in DROPS] for row in told["connections"]]


def firmware():
    """The table of the firmware transfer as an image, its recording, and one with a transfer of no bytes and drops."""
    image, one, two = (os.path.join(FOLDER, name) for name in ("firmware.table", "firmware.recording", "starts.recording"))
    soad("table", "to-image", FIRMWARE_TABLE, shell='./soad "$@" >' + f"'{image}'")
    script = file("starts.txt", b"count 1\ntick 1\nconnected 0\nsegment 0 0000012100000000\nsegment 0 00000121000000020102\n"
                  b"segment 0 000009990000000107\nsegment 0 0000012100000009\nlost 0\ncount 2\n")
    same([soad("record", FIRMWARE_TABLE, text, out)[0] for text, out in ((FIRMWARE, one), (script, two))], [0, 0], "recordings of transfers")
    return image, one, two


def by_hand():
    cut = file("cut.recording", contents(RECORDING)[:9000])
    early = file("early.recording", contents(CHANGED)[:4 + 12 * 199 + 4] + b"\0\x4d" + contents(CHANGED)[4 + 12 * 199 + 6:])
    for image, recordings in ((TABLE, [RECORDING]), (TABLE, [RECORDING, CHANGED, cut, early])):
        status, told = parsed(image, *recordings)
        same((status, told["result"], figures(told)), (0, "OK", counted(os.path.join(ROOT, image), *recordings)), f"the figures of {recordings}")
    same([one["word"] for one in told["recordings"]], ["SAME", "DIFFERS", "CUT", "DIFFERS"], "the words of the recordings")
    same([one["entries_run"] for one in told["recordings"]], [329, 329, 158, 199], "the entries that were run")
    image, *recordings = firmware()
    status, told = parsed(image, *recordings)
    same((status, figures(told)), (0, counted(image, *recordings)), "the figures of transfers")
    same(figures(told)[0][1], [3, 14, 0, 12], "transfers of 12, 0 and 2 bytes that ended, and none that did not")
    true(any(drops != [0, 0, 0, 0] for drops in figures(told)[1]), "drops of a TCP connection")
    named = parsed(FIRMWARE_TABLE, *recordings)[1]
    same((figures(named), named["routes"][1]["name"]), (figures(told), "firmware, front ring valve"), "the same of the table's text, with names")


def joined():
    """The order makes no difference, and single reports add up."""
    cut = file("cut-too.recording", contents(RECORDING)[:5000])
    all_of = (RECORDING, CHANGED, cut)
    want = figures(parsed(TABLE, *all_of)[1])
    same(figures(parsed(TABLE, *all_of[::-1])[1]), want, "the recordings in another order")
    single = [figures(parsed(TABLE, one)[1]) for one in all_of]
    routes = [[sum(of[0] for of in rows), sum(of[1] for of in rows), min(of[2] for of in rows if of[0]), max(of[3] for of in rows)]
              for rows in zip(*(one[0] for one in single))]
    drops = [[sum(of) for of in zip(*rows)] for rows in zip(*(one[1] for one in single))]
    same((routes, drops), want, "single reports add up")


# 3. Three shapes

def shapes():
    """What is printed for a person, as csv and as json says the same."""
    words = (TEXT, RECORDING, CHANGED)
    status, told = parsed(*words)
    rows = list(csv.DictReader(io.StringIO("\n".join(lines("--csv", *words)[1]) + "\n")))
    same([row["kind"] for row in rows], ["recording"] * 2 + ["route"] * 5 + ["connection"] * 4 + ["report"], "the rows of --csv")
    for kind, name in (("recording", "recordings"), ("route", "routes"), ("connection", "connections")):
        for row, want in zip((row for row in rows if row["kind"] == kind), told[name]):
            want = {**want, "said": "; ".join(line.strip() for line in want["said"])} if "said" in want else want
            want = {"number": str(want[kind]), **{key: str(value) for key, value in want.items() if key != kind or kind == "connection"}}
            same({key: row[key] for key in want}, want, f"--csv and --json: {kind} {want['number']}")
            true(all(row[key] == "" for key in row if key not in want and key != "kind"), f"--csv: {kind} {want['number']} has no other column")
    same([rows[-1][key] for key in ("number", "file", "word")], ["2", TEXT, "OK"], "--csv: the row of the report")
    said = lines(*words)[1]
    for row in told["routes"]:
        line = next(line for line in said if line.startswith(f'{row["route"]} "{row["name"]}"') and row["id"] in line)
        numbers = [int(number.replace(",", "")) for number in re.findall(r"([\d,]+) (?:PDU|byte)s?\b", line)]
        same(numbers, [row[key] for key in ROUTE], f"for a person: route {row['route']}")
    for row in told["connections"]:
        line = next(line for line in said if re.match(f'{row["connection"]} "{row["name"]}" +{row["protocol"]} ', line))
        same([int(number) for number in re.findall(r"(\d+) drops?\b", line)], [row[key] for key in DROPS], f"for a person: connection {row['connection']}")
    for front in ('0 "ring pressure", bar ', '0 "front ring valve" ', "report of 2 recordings"):
        true(any(line.startswith(front) for line in said), f"for a person: {front}")
    same(soad("report", *words, "--json")[1], soad("report", "--json", *words)[1], "an option behind the files")


def thousands():
    status, said = lines(TABLE, *[RECORDING] * 40)
    same((status, said[:3]), (0, ["report of 40 recordings, table examples/debarker.table", "40 same, 0 different, 0 refused, 0 cut, 0 left out",
                                  "entries run: 13,160 of 13,160 entries, ticks run: 66,320 ticks"]), "forty recordings")
    true(any(re.fullmatch(r"0 +0x00000101 +3 +1,200 PDUs +2,400 bytes +2 bytes +2 bytes", line) for line in said), "thousands are separated")
    tables = [[line for line in said if re.match(start, line)] for start in (r"(route|\d+ +0x)", r"(connection|\d+ +(TCP|UDP))")]
    true(all(len({len(line) for line in table}) == 1 for table in tables), "the lines of a table are aligned")
    single = lines(TABLE, file("single", page_recording()))[1]
    same(single[0], "report of 1 recording, table examples/debarker.table", "one recording")
    true(re.fullmatch(r"0 +0x00000101 +3 +0 PDUs +0 bytes +0 bytes +0 bytes", single[5]), f"no PDU: {single[5]}")


# 4. Recordings that are damaged, and tables that are refused

def damaged():
    """Each by its name and place; counted as far as it was run, or left out."""
    data = page_recording()
    row = lambda number, at, value: data[:4 + 12 * number + at] + value + data[4 + 12 * number + at + len(value):]  # noqa: E731
    unread = "left out: nothing of it can be read"
    cases = (("cut in a body", data[:60], "CUT", "2 of 3 entries run and counted", "cut: entry 3: body of 15 bytes, 8 bytes are there"),
             ("cut in its contents", data[:30], "CUT", unread, "cut: the contents end after 30 bytes, 3 entries need 40 bytes"),
             ("of no bytes", b"", "CUT", unread, "cut: the contents end after 0 bytes, the front needs 4 bytes"),
             ("of edition 2", b"\0\2" + data[2:], "REFUSED", unread, "refused: edition 2 is not 1"),
             ("with event 17", row(1, 4, b"\0\x11"), "REFUSED", "1 of 3 entries run and counted", "refused: entry 2: unknown event number 17"),
             ("with a body too long", row(1, 8, b"\0\0\x10\1"), "REFUSED", unread, "over the limit: entry 2: body of 4097 bytes, 4096 bytes are the most"),
             ("with a backward stamp", row(2, 0, bytes(4)), "REFUSED", "2 of 3 entries run and counted",
              "refused: entry 3: stamp 0 is 4294967295 ticks after the one before, 65535 ticks are the most"),
             ("with 4,001 entries", b"\0\1\x0f\xa1" + bytes(12 * 4001), "REFUSED", unread, "over the limit: 4001 entries, 4000 entries are the most"),
             ("with another answer", data[:-1] + b"\0", "DIFFERS", "3 of 3 entries run and counted",
              "first difference: entry 3, stamp 1: transmit PDU 0x0201, 2 bytes: 00b4"))
    paths = [file(f"recording {name}", recording) for name, recording, *_ in cases]
    for path, (name, _, word, why, place) in zip(paths, cases):
        status, said = lines(TABLE, path)
        same(said[3:5], [f"recording 1, {path}: {word}, {why}", f"  {place}"], f"a recording {name}")
        left = [f"left out: recording 1, {path}: nothing of it can be read", "REFUSED"] if why == unread else ["", "OK"]
        same((status, said[-2:]), (int(why == unread), left), f"a recording {name}: the end")
    status, said = lines(TABLE, RECORDING, *paths, RECORDING)
    same((status, said[1], said[-1]), (1, "2 same, 1 different, 5 refused, 3 cut, 5 left out", "REFUSED"), "all of them")
    same([line.split(", ")[0] for line in said if line.startswith("recording ")], [f"recording {number}" for number in range(2, 11)], "each is named")
    same(sum(line.startswith("left out: recording ") for line in said), 5, "each that is left out is named at the end")
    same(figures(parsed(TABLE, RECORDING, *paths, RECORDING)[1]), figures(parsed(TABLE, RECORDING, RECORDING)[1]), "none of them has figures")
    same(lines(TABLE, file("behind", data + bytes(40)))[1][1], "1 same, 0 different, 0 refused, 0 cut, 0 left out", "bytes behind the last body")
    odd = file("new\nline \x1b[31m.recording", data[:60])
    true(f"recording 1, {FOLDER}/new?line ?[31m.recording: CUT, 2 of 3 entries run and counted" in lines(TABLE, odd)[1], "a name that cannot be printed")


def tables():
    """A refused table ends it, in the words of check; and in the other shapes."""
    bad = file("bad.txt", b"group 0 udp\n")
    for name in ("examples/debarker-too-long.table", bad, file("empty.table", b""), file("long.table", contents(TABLE) + b"\0")):
        status, out, error = soad("check", name)
        same(soad("report", name, RECORDING), (status, out, error), f"the report under {name}")
        why = out.split("\n")[0]
        same(parsed(name, RECORDING), (1, {"table": name, "result": "REFUSED", "said": why}), f"--json under {name}")
        status, said = lines("--csv", name, RECORDING)
        row, = csv.DictReader(io.StringIO("\n".join(said)))
        same((status, row["kind"], row["word"], row["said"]), (1, "report", "REFUSED", why), f"--csv under {name}")


# 5. Files, arguments, outputs

def streams():
    """A recording from a pipe, and one so long that only its front is read."""
    want = parsed(TABLE, RECORDING)[1]
    status, out, error = soad(TABLE, RECORDING, shell='./soad report --json "$1" <(cat "$2")')
    same((status, error, figures(json.loads(out))), (0, "", figures(want)), "a recording from a pipe")
    status, out, error = soad(TABLE, RECORDING, shell='cat "$2" | ./soad report --json "$1" /dev/stdin')
    same((status, error, figures(json.loads(out))), (0, "", figures(want)), "a recording from standard input")
    long = file("long.recording", contents(RECORDING))
    os.truncate(long, 5 << 30)
    status, told = parsed(TABLE, long, RECORDING)
    same((status, [one["word"] for one in told["recordings"]], told["recordings"][0]["file_bytes"]), (0, ["SAME", "SAME"], 5 << 30), "a file of 5 GB")
    status, told = parsed(TABLE, "/dev/zero")
    same((status, told["recordings"][0]["said"]), (1, ["refused: edition 0 is not 1"]), "a device that does not end")


def progress():
    """On a terminal, of several recordings which one is read; nothing else, and nothing elsewhere."""
    for words, want in (((TABLE, RECORDING, CHANGED), [f"soad: recording 1 of 2: {RECORDING}", f"soad: recording 2 of 2: {CHANGED}"]),
                        ((TABLE, RECORDING), [])):
        ours, theirs = pty.openpty()
        done = subprocess.run(["./soad", "report", *words], cwd=ROOT, stdin=subprocess.DEVNULL, stdout=subprocess.PIPE, stderr=theirs, check=False)
        os.close(theirs)
        shown = b""
        try:
            while piece := os.read(ours, 4096):
                shown += piece
        except OSError:  # the other end is closed
            pass
        os.close(ours)
        pieces = [piece for piece in shown.decode().replace("\r", "").split("\x1b[K") if piece]
        same((pieces, done.returncode, done.stdout.decode()), (want, 0, soad("report", *words)[1]), f"progress of {words}")


def arguments():
    for call in ((), ("",), (TABLE,), (TABLE, ""), ("", RECORDING), (TABLE, "--csv"), ("--json", TABLE), (TABLE, RECORDING, "")):
        status, out, error = soad("report", *call)
        true((status, out) == (2, "") and error.startswith("soad: report takes a table and recordings\nusage: ./soad report "), f"./soad report {call}: {error}")
    for call, why in (((TABLE, RECORDING, "--csv", "--json"), "report takes one of --csv and --json, once"),
                      ((TABLE, RECORDING, "--each"), "report: there is no option --each")):
        status, out, error = soad("report", *call)
        true((status, out) == (2, "") and error.startswith(f"soad: {why}\nusage: ./soad report "), f"./soad report {call}: {error}")
    missing = os.path.join(FOLDER, "missing")
    for call in ((missing, RECORDING), (TABLE, missing), (TABLE, RECORDING, missing, RECORDING), (TABLE, FOLDER), (TABLE, "--json", RECORDING, missing)):
        same(soad("report", *call), (2, "", f"soad: cannot read the file {FOLDER if FOLDER in call else missing}\n"), f"./soad report {call}")
    status, out, error = soad("report", "--help")
    true((status, error) == (0, "") and out.startswith("./soad report TABLE RECORDING .."), "./soad report --help")


def outputs():
    for call in ((TABLE, RECORDING), (TABLE, RECORDING, "--csv"), (TABLE, RECORDING, "--json"), ("examples/debarker-too-long.table", RECORDING), ("--help",)):
        for where in ("/dev/full", "&-"):
            status, out, error = soad("report", *call, shell=f'./soad "$@" >{where}')
            true(status == 2 and error.count("\n") == 1 and "Traceback" not in error, f"./soad report {call} to {where}: {status} {error}")
        status, out, error = soad("report", *call, shell='{ ./soad "$@"; echo "status $?" >&2; } | head -c 1')
        true(error in ("status 0\n", "status 1\n", "status 2\n"), f"./soad report {call} to a reader that has seen enough: {error}")
    status, out, error = soad("report", TABLE, RECORDING, TMPDIR=os.path.join(FOLDER, "missing"))
    true((status, out) == (2, "") and error.count("\n") == 1, f"without a folder for what is between: {error}")


def tried(check):
    try:
        check()
    except Exception:
        failures.append(check.__name__)
        traceback.print_exc(file=sys.stdout)


with tempfile.TemporaryDirectory() as FOLDER, ThreadPoolExecutor(os.cpu_count()) as pool:
    list(pool.map(tried, (damaged, by_hand, outputs, arguments, tables, shapes, pages, columns, program_page, joined, streams, thousands, progress)))
print(f"report: {passed} passed, {len(failures)} failed")
sys.exit(1 if failures else 0)
