"""replay.py: tries ./soad replay, record and recording. Each check below is a function; each thing it compares counts as passed or failed. As many
checks run at a time as there are processors."""
import os
import re
import struct
import subprocess
import sys
import tempfile
import threading
import traceback
from concurrent.futures import ThreadPoolExecutor

ROOT = os.path.dirname(os.path.dirname(os.path.dirname(os.path.abspath(__file__))))
TABLE, TEXT, SHIFT = "examples/debarker.table", "examples/debarker.txt", "examples/shift.txt"
FIRMWARE_TABLE, FIRMWARE = "examples/firmware-table.txt", "examples/firmware.txt"
SERVICE_TABLE, SERVICE = "examples/service-table.txt", "examples/service.txt"
LONG, RECORDING, CHANGED = "examples/long-shift.txt", "examples/long-shift.recording", "examples/long-shift-changed.recording"
passed, failures, lock = 0, [], threading.Lock()


def same(got, want, what):
    global passed
    with lock:
        if got == want:
            passed += 1
        else:
            failures.append(what)
            print(f"replay: {what}\n  expected {want!r:.900}\n  got      {got!r:.900}")


def true(fact, what):
    same(bool(fact), True, what)


def contents(*name):
    with open(os.path.join(ROOT, *name), "rb") as file:
        return file.read()


def file(name, data):
    path = os.path.join(FOLDER, name)
    with open(path, "wb") as out:
        out.write(data)
    return path


def soad(*words, shell='./soad "$@"'):
    """(status, standard output, standard error); the output as bytes."""
    done = subprocess.run(["bash", "-c", shell, "bash", *words], cwd=ROOT, stdin=subprocess.DEVNULL, capture_output=True, check=False)
    return done.returncode, done.stdout, done.stderr.decode()


def lines(*words):
    """(status, lines of standard output), where nothing is said on standard error."""
    status, out, error = soad(*words)
    same(error, "", f"./soad {words}: standard error")
    return status, out.decode().split("\n")[:-1]


class Parts:
    """A recording taken apart: rows of stamp, event number, zero and length, and bodies."""

    def __init__(self, data):
        self.edition, self.count = struct.unpack_from(">HH", data)
        self.rows = [list(struct.unpack_from(">IHHI", data, 4 + 12 * number)) for number in range(self.count)]
        self.bodies, at = [], 4 + 12 * self.count
        for *_, length in self.rows:
            self.bodies.append(data[at:at + length])
            at += length

    def bytes(self):
        rows = b"".join(struct.pack(">IHHI", *row) for row in self.rows)
        return struct.pack(">HH", self.edition, self.count) + rows + b"".join(self.bodies)

    def body(self, number, data):
        """Gives an entry, counted from 1, another body."""
        self.bodies[number - 1], self.rows[number - 1][3] = data, len(data)
        return self

    def field(self, number, which, value):
        self.rows[number - 1][which] = value
        return self


def page():
    """The recording that docs/RECORDING.md shows, and the lines of its replay."""
    blocks = [line[4:] for line in contents("docs", "RECORDING.md").decode().split("\n") if line.startswith("    ")]
    rows = [re.fullmatch(r"(\d\d): ([0-9a-f ]+)", line) for line in blocks]
    data = b""
    for row in filter(None, rows):
        same(int(row[1]), len(data), f"docs/RECORDING.md: the place of the bytes {row[2]}")
        data += bytes.fromhex(row[2])
    return data, [line for line, row in zip(blocks, rows) if not row]


# 1. What the pages show

def recording_page():
    data, shown = page()
    same(lines("replay", TABLE, file("page", data), "--each"), (0, shown), "docs/RECORDING.md: the replay")
    same(lines("replay", TABLE, file("page", data)), (0, [line for line in shown if not line.startswith("entry ")]), "without --each")
    status, told = lines("recording", "to-text", file("page", data))
    same((status, told[-1], len(told)), (0, "OK", 11), "docs/RECORDING.md: the recording as a text")
    said = contents("docs", "RECORDING.md").decode()
    for at, hexes in re.findall(r"^\| (\d+) \| `([0-9a-f ]+)` \|", said, re.M):
        part = bytes.fromhex(hexes)
        same(data[int(at):int(at) + len(part)], part, f"docs/RECORDING.md: byte {at} is {hexes}")


def readme():
    """The command of README.md, and the lines behind it: those of the shift, then those of the changed one."""
    said = contents("README.md").decode()
    command, = re.findall(r"^    (\./soad replay .*)$", said, re.M)
    shown = [line[4:] for line in said.split(command)[1].split("\n    ./")[0].split("\n") if line.startswith("    ")]
    status, out, error = soad(shell=command)
    printed = out.decode().split("\n")
    same((status, error, printed[-2:]), (0, "", ["SAME", ""]), f"README: {command}")
    at = next(number for number, line in enumerate(shown) if line.startswith("first difference"))
    same(printed[:at], shown[:at], f"README: the first lines of {command}")
    status, told = lines("replay", TEXT, CHANGED)
    same((status, told[:len(shown) - at], told[-1]), (1, shown[at:], "DIFFERS"), "README: the first lines of the changed recording")


# 2. Record, then replay

def record_and_replay():
    for script, entries, note in ((SHIFT, 19, True), (LONG, 329, False)):
        out = os.path.join(FOLDER, "out")
        status, said, error = soad("record", TABLE, script, out)
        same((status, said), (0, b""), f"record {script}")
        same(error.startswith("soad: ticks come before the first event, so entry 1 is a read count"), note, f"record {script}: {error}")
        status, told = lines("replay", TABLE, out)
        same((status, told[0], told[-1]), (0, f"entries run: {entries} of {entries}", "SAME"), f"record {script}, then replay")
        same(soad("record", TEXT, script)[1], open(out, "rb").read(), f"record {script} to standard output, of a table text")
        status, told = lines("recording", "to-text", out)
        same((status, told[-1], sum(line.startswith("entry ") for line in told)), (0, "OK", entries), f"the recording of {script} as a text")
    same(open(out, "rb").read(), contents(RECORDING), f"{RECORDING} is the recording of {LONG}")


def same_end():
    """A replay ends as the run of the script does: its records and counts, and each entry in its words."""
    run = lines("run", TABLE, LONG)[1]
    told = lines("replay", TABLE, RECORDING, "--each")[1]
    same(told[-6:-1], run[-6:-1], "the end of the replay is the end of the run")
    words = [line.split(": ", 1)[1] for line in run if line.startswith("entry ") and ": tick " not in line]
    same([line.split(": ", 1)[1] for line in told if line.startswith("entry ")], words, "each entry in the words of run")
    stamps = [int(re.search(r"stamp (\d+)", line)[1]) for line in told if line.startswith("entry ")]
    same(sum(one > two for one, two in zip(stamps, stamps[1:])), 1, "the stamps wrap once")


def changed():
    """The changed recording has another answer at entry 109, and nothing else."""
    parts = Parts(contents(RECORDING))
    same(parts.bodies[108][-6:], bytes.fromhex("000400000001"), "entry 109 was refused with 4, destination 1")
    same(parts.body(109, parts.bodies[108][:-6] + bytes(2)).bytes(), contents(CHANGED), f"{CHANGED} is {RECORDING} with one answer changed")
    status, told = lines("replay", TABLE, CHANGED)
    same((status, told[:4], told[-1]), (1, ["first difference: entry 109, stamp 4294966948: transmit PDU 0x0201, 2 bytes: 00aa", "  recorded: 0 done",
                                            "  today: 4 not online, destination 1", "entries run: 329 of 329"], "DIFFERS"), "the changed recording")
    status, told = lines("recording", "to-text", CHANGED)
    same((status, told[-1]), (0, "OK"), "the changed recording as a text")


def transfers():
    """The recording of a transfer, and what is told where its answers are others: another kind, place, mark or failed."""
    out = os.path.join(FOLDER, "firmware")
    same(soad("record", FIRMWARE_TABLE, FIRMWARE, out)[:2], (0, b""), f"record {FIRMWARE}")
    whole = open(out, "rb").read()
    same(lines("replay", FIRMWARE_TABLE, out)[1][0::4], ["entries run: 13 of 13", "SAME"], f"record {FIRMWARE}, then replay")
    status, told = lines("recording", "to-text", out)
    same((status, told[-1], sum("start of a transfer on route 1" in line for line in told)), (0, "OK", 2), "the recording of a transfer as a text")
    told = lines("replay", FIRMWARE_TABLE, out, "--each")[1]
    true('entry 9, stamp 1, after 0 ticks: cancel connection 0 "workshop": 0 done' in told, "a cancel is replayed")
    piece = Parts(whole).bodies[2]  # the segment with the start and the first piece: 17 bytes of arguments, 4, a take of 14, one of 18
    route = 'route 1 "firmware, front ring valve", id 0x00000121'
    for name, at, byte, answer in (
            ("a piece as the last one", 39, 5, f"last piece of {route}, 3 bytes, from the segment at byte 8: 464952"),
            ("a piece at another place", 52, 7, f"piece of {route}, 3 bytes, from the segment at byte 7: 0c4649"),
            ("a piece beyond the segment", 52, 9, f"piece of {route}, 3 bytes, from the segment at byte 9: -"),
            ("a shorter piece", 48, 2, f"piece of {route}, 2 bytes, from the segment at byte 8: 4649"),
            ("another length", 34, 13, f"start of a transfer on {route}, length 13 bytes; take 2")):
        status, told = lines("replay", FIRMWARE_TABLE, file("other", Parts(whole).body(3, piece[:at] + bytes([byte]) + piece[at + 1:]).bytes()))
        same((status, told[0][:26], answer in told[1], told[-1]), (1, "first difference: entry 3,", True, "DIFFERS"), f"{name}: {told[:3]}")
    for name, at, byte, why in (("a take of kind 6", 25, 6, "kind: 6 is more than 5"), ("a start as a piece", 25, 4, "mark: is cut off")):
        path = file("unfit", Parts(whole).body(3, piece[:at] + bytes([byte]) + piece[at + 1:]).bytes())
        same(lines("replay", FIRMWARE_TABLE, path)[1][0], "refused: entry 3: body does not fit", f"the replay of {name}")
        true(any(line.startswith("  refused at byte ") and why in line for line in lines("recording", "to-text", path)[1]), f"{name} as a text")
    script = file("loss.txt", b"count 1\ntick 1\nconnected 0\nsegment 0 000001210000000200\nlost 0\nlost 0\n")
    same(soad("record", FIRMWARE_TABLE, script, out), (0, b"", ""), "record a loss in a transfer")
    loss = Parts(open(out, "rb").read())
    same((loss.bodies[3], loss.bodies[4]), (bytes.fromhex("0000000001"), bytes.fromhex("0000000300000000")), "the loss that ends a transfer answers failed")
    status, told = lines("replay", FIRMWARE_TABLE, file("kept", loss.body(4, bytes(5)).bytes()))
    same((status, told[1:3], told[-1]), (1, ["  recorded: 0 done", "  today: 0 done; a transfer failed"], "DIFFERS"), "a loss that did not tell")


def silences():
    """The recording of a service laptop that goes away: it replays the same, and differs under the table without its alive limit, where nobody is let go.
    One that was made under that table replays the same there, and the records at the end have their new words."""
    out, older = os.path.join(FOLDER, "service"), os.path.join(FOLDER, "older")
    endless = file("endless.txt", contents(SERVICE_TABLE).replace(b" alive 30 ticks", b""))
    same(soad("record", SERVICE_TABLE, SERVICE, out), (0, b"", ""), f"record {SERVICE}")
    told = lines("replay", SERVICE_TABLE, out)[1]
    same((told[0], told[1], told[-1]), ("entries run: 12 of 12", "ticks run: 60 ticks", "SAME"), f"record {SERVICE}, then replay")
    true(told[2].endswith(", due no, alive timer 30 ticks, remote set no"), f"the record at the end: {told[2]}")
    status, told = lines("replay", endless, out)
    same((status, told[0][:26], told[1:3], told[-1]),
         (1, "first difference: entry 9,", ['  recorded: 4 not online, destination 0 "ring pressure" (connection 0 "service laptop")', "  today: 0 done"], "DIFFERS"),
         f"the replay of {SERVICE} without a limit: {told[:3]}")
    same(soad("record", endless, SERVICE, older), (0, b"", ""), f"record {SERVICE} without a limit")
    told = lines("replay", endless, older)[1]
    same((told[0], told[-1]), ("entries run: 12 of 12", "SAME"), f"record {SERVICE} without a limit, then replay")
    true(told[2].endswith(", alive timer stopped, remote set no"), f"the record at the end without a limit: {told[2]}")
    status, told = lines("replay", SERVICE_TABLE, older)
    same((status, told[0][:26], told[-1]), (1, "first difference: entry 9,", "DIFFERS"), "a recording of before under a new limit")


# 3. Damaged recordings: the line of the replay, and what the text says of it

def damaged():
    data = page()[0]
    new = lambda: Parts(data)  # noqa: E731
    many = b"\0\1\x0f\xa1" + struct.pack(">IHHI", 0, 14, 0, 8) * 4001 + bytes.fromhex("0001000000000000") * 4001
    for name, recording, word, line, text in (
            ("cut in a body", data[:60], "CUT", "cut: entry 3: body of 15 bytes, 8 bytes are there", "  cut at byte 60: body of 15 bytes, 8 bytes are there"),
            ("without its last byte", data[:66], "CUT", "cut: entry 3: body of 15 bytes, 14 bytes are there",
             "  cut at byte 66: body of 15 bytes, 14 bytes are there"),
            ("cut in its contents", data[:30], "CUT", "cut: the contents end after 30 bytes, 3 entries need 40 bytes",
             "cut at byte 30: the contents end after 30 bytes, 3 entries need 40 bytes"),
            ("of one byte", data[:1], "CUT", "cut: the contents end after 1 byte, the front needs 4 bytes",
             "cut at byte 1: the contents end after 1 byte, the front needs 4 bytes"),
            ("of no bytes", b"", "CUT", "cut: the contents end after 0 bytes, the front needs 4 bytes",
             "cut at byte 0: the contents end after 0 bytes, the front needs 4 bytes"),
            ("of edition 2", b"\0\2" + data[2:], "REFUSED", "refused: edition 2 is not 1", "refused at byte 0: edition: 2 is not 1"),
            ("with a backward stamp", new().field(3, 0, 0).bytes(), "REFUSED",
             "refused: entry 3: stamp 0 is 4294967295 ticks after the one before, 65535 ticks are the most",
             "  refused at byte 28: stamp: 4294967295 ticks after the one before, 65535 ticks are the most"),
            ("with event 17", new().field(2, 1, 17).bytes(), "REFUSED", "refused: entry 2: unknown event number 17",
             "  refused at byte 20: event number: 17 is unknown"),
            ("with a tick", new().field(2, 1, 0).bytes(), "REFUSED", "refused: entry 2: unknown event number 0",
             "  refused at byte 20: event number: 0 is unknown"),
            ("with another zero", new().field(3, 2, 1).bytes(), "REFUSED", "refused: entry 3: zero field is not 0",
             "  refused at byte 34: zero field: 0001 is not 0000"),
            ("with party 1", new().body(2, b"\1\0\0\0").bytes(), "REFUSED", "refused: entry 2: body does not fit", "  refused at byte 48: party: 01 is not 00"),
            ("with an answer too long", new().body(2, bytes(5)).bytes(), "REFUSED", "refused: entry 2: body does not fit",
             "  refused at byte 52: end: 1 bytes are left over"),
            ("with a body too long", new().field(2, 3, 4097).bytes(), "REFUSED", "over the limit: entry 2: body of 4097 bytes, 4096 bytes are the most",
             "over the limit at byte 24: entry 2: body of 4097 bytes, 4096 bytes are the most"),
            ("with 4,001 entries", many, "REFUSED", "over the limit: 4001 entries, 4000 entries are the most",
             "over the limit at byte 2: 4001 entries, 4000 entries are the most")):
        path = file("damaged", recording)
        status, told = lines("replay", TABLE, path)
        same((status, told[0], told[-1]), (1, line, word), f"the replay of a recording {name}")
        status, told = lines("recording", "to-text", path)
        same((status, text in told), (1, True), f"a recording {name} as a text: {told}")
        same(told[-1], word, f"a recording {name} as a text: the last word")
    behind = file("behind", data + b"truck")
    same(lines("replay", TABLE, behind)[1][-1], "SAME", "bytes behind the last body")
    ignored = "5 bytes behind the last body, from byte 67 on: ignored"
    same(lines("recording", "to-text", behind)[1][-2:], [ignored, "OK"], "bytes behind the last body, as a text")
    both = Parts(contents(CHANGED)).field(200, 1, 77).bytes()
    status, told = lines("replay", TABLE, file("both", both))
    same((status, told[0][:29], told[-1]), (1, "first difference: entry 109, ", "DIFFERS"), "a difference and a refusal")
    same(told[3:5], ["refused: entry 200: unknown event number 77", "entries run: 199 of 329"], "a refusal behind a difference")


def tables():
    """A refused table ends it, in the words of check, whatever the recording holds; nothing of a recording completes a table."""
    image = contents(TABLE)
    for name, table in (("too long", contents("examples", "debarker-too-long.table")), ("without its last bytes", image[:-12]), ("empty", b"")):
        path = file("table", table)
        want = lines("check", path)
        for recording in (RECORDING, file("rest", image[-12:] + contents(RECORDING)), file("none", b"")):
            same(lines("replay", path, recording), want, f"the replay under a table that is {name}")
        status, out, error = soad("record", path, SHIFT)
        same((status, out, error.split("\n")[:-1]), (1, b"", want[1]), f"record under a table that is {name}")


# 4. What makes no recording

def refused_scripts():
    out = os.path.join(FOLDER, "never")
    state = file("state.txt", b"# a start\nstate\nend\ncount 1\n")
    convert = [os.path.join(ROOT, "text", "convert"), "script", "bytes"]
    known = subprocess.run(convert, input=b"count 1\ntick 2\nlost 9\n", stdout=subprocess.PIPE, check=True).stdout
    payload = "aa" * 4080
    for name, script, error in (
            ("a start state", state, f"script {state}, line 2: state: a recording starts fresh and holds no start state\nREFUSED\n"),
            ("many ticks", file("far.txt", b"count 1\ntick 65535\ntick 1\ncount 2\n"),
             "script {}, line 4: ticks: 65536 since the event before, 65535 are the most"),
            ("a long body", file("long.txt", f"transmit 0x0201 {payload}\ncount 1\ntransmit 1 {payload}aaaaaaaa\n".encode()),
             "script {}, line 3: body: arguments and answer have 4097 bytes, 4096 are the most"),
            ("4,001 events", file("many.txt", b"count 1\n" * 4001), "script {}, line 4001: entries: 4000 are the most in a recording\nREFUSED\n"),
            ("a late stamp", file("late.txt", b"count 1\nstamp 7\n"), "script {}, line 2, column 1: stamp: is not the first line\nREFUSED\n"),
            ("a stamp too large", file("large.txt", b"stamp 4294967296\n"),
             "script {}, line 1, column 7: stamp: 4294967296 is more than 4294967295\nREFUSED\n"),
            ("a text with a fault", file("bad.txt", b"tick one\n"), "script {}, line 1, column 6: ticks: `one` is no number"),
            ("an unknown event", file("unknown", known + b"\0\x11" + bytes(6)), "script {}, entry 4, byte 32: entry: unknown event number 17\nREFUSED\n"),
            ("an entry that is cut", file("cut", known[:-1]), "script {}: ends inside an entry\nCUT\n")):
        status, said, told = soad("record", TABLE, script, out)
        same((status, said, told.startswith(error.replace("{}", script))), (1, b"", True), f"record of {name}: {told}")
        true(not os.path.exists(out), f"record of {name} writes nothing")
    edge = file("edge.txt", f"stamp 4294967295\ncount 1\ntick 65535\ntransmit 1 {'aa' * 4083}\n".encode() + b"count 1\n" * 3998)
    same(soad("record", TABLE, edge, out), (0, b"", ""), "record at all three limits")
    same(lines("replay", TABLE, out)[1][:2], ["entries run: 4000 of 4000", "ticks run: 65535 ticks"], "the replay at all three limits")
    for name, script in (("no event", b""), ("ticks alone", b"tick 5\n")):
        same(soad("record", TABLE, file("none.txt", script))[1], bytes.fromhex("00010000"), f"record of {name}")


def arguments():
    for words, why in (((("replay",), ("replay", TABLE), ("replay", TABLE, ""), ("replay", TABLE, RECORDING, ""), ("replay", TABLE, RECORDING, "--all"),
                         ("replay", TABLE, RECORDING, "--each", "--each")), "replay takes a table and a recording"),
                       ((("record",), ("record", TABLE), ("record", TABLE, ""), ("record", TABLE, SHIFT, ""), ("record", TABLE, SHIFT, "a", "b")),
                        "record takes a table, a script and perhaps a file to write"),
                       ((("recording",), ("recording", "to-text"), ("recording", "to-text", ""), ("recording", RECORDING)),
                        "recording takes a direction and a file"),
                       ((("recording", "to-bytes", RECORDING),), "recording: there is no direction to-bytes")):
        for call in words:
            status, out, error = soad(*call)
            true((status, out) == (2, b"") and error.startswith(f"soad: {why}\nusage: ./soad {call[0]} "), f"./soad {call}: {status} {error}")
    missing = os.path.join(FOLDER, "missing")
    for call in (("replay", missing, RECORDING), ("replay", TABLE, missing), ("record", TABLE, missing), ("record", missing, SHIFT),
                 ("recording", "to-text", missing), ("replay", TABLE, FOLDER)):
        same(soad(*call), (2, b"", f"soad: cannot read the file {FOLDER if FOLDER in call else missing}\n"), f"./soad {call}")
    out = os.path.join(missing, "out")
    same(soad("record", TABLE, LONG, out), (2, b"", f"soad: cannot write the file {out}\n"), "record to a folder that is not there")
    for verb in ("replay", "record", "recording"):
        status, out, error = soad(verb, "--help")
        true((status, error) == (0, "") and out.startswith(f"./soad {verb} ".encode()), f"./soad {verb} --help")
    for call in (("replay", TABLE, RECORDING), ("replay", TABLE, RECORDING, "--each"), ("record", TABLE, LONG), ("recording", "to-text", RECORDING)):
        for where in ("/dev/full", "&-"):
            status, out, error = soad(*call, shell=f'./soad "$@" >{where}')
            true(status == 2 and error.count("\n") == 1 and "Traceback" not in error, f"./soad {call} to {where}: {status} {error}")
        status, out, error = soad(*call, shell='{ ./soad "$@"; echo "status $?" >&2; } | head -c 1')
        true(error in ("status 0\n", "status 2\n"), f"./soad {call} to a reader that has seen enough: {error}")
    true(soad("record", TABLE, LONG, "/dev/full")[0] == 2, "record to a full disk")


def tried(check):
    try:
        check()
    except Exception:
        failures.append(check.__name__)
        traceback.print_exc(file=sys.stdout)


with tempfile.TemporaryDirectory() as FOLDER, ThreadPoolExecutor(os.cpu_count()) as pool:
    list(pool.map(tried, (damaged, tables, arguments, refused_scripts, record_and_replay, transfers, silences, recording_page, readme, same_end, changed)))
print(f"replay: {passed} passed, {len(failures)} failed")
sys.exit(1 if failures else 0)
