"""both_ways.py COMMAND ..: tries the text tools; COMMAND runs the program run. Each check below is a function; each thing it compares counts
as passed or failed."""
import glob
import importlib.machinery
import importlib.util
import os
import random
import re
import subprocess
import sys
import tempfile
import traceback

HERE = os.path.dirname(os.path.abspath(__file__))
ROOT = os.path.dirname(os.path.dirname(HERE))
SEED = int(os.environ.get("SEED", random.SystemRandom().randrange(2 ** 32)))
COMMAND = sys.argv[1:]
sys.path[:0] = [HERE, os.path.join(ROOT, "text")]
import made
import script
import table
from fields import Wrong

loader = importlib.machinery.SourceFileLoader("convert", os.path.join(ROOT, "text", "convert"))
convert = importlib.util.module_from_spec(importlib.util.spec_from_loader("convert", loader))
loader.exec_module(convert)

rand = random.Random(SEED)
passed, failures = 0, []


def same(got, want, what):
    global passed
    if got == want:
        passed += 1
    else:
        failures.append(what)
        if len(failures) <= 20:
            print(f"text: {what}\n  expected {want!r:.600}\n  got      {got!r:.600}")


def true(fact, what):
    same(bool(fact), True, what)


def contents(*name):
    with open(os.path.join(ROOT, *name), "rb") as file:
        return file.read()


def unhex(folder, name):
    """A stored case."""
    lines = contents("tests", folder, name).decode().split("\n")
    return bytes.fromhex("".join(line for line in lines if not line.startswith("#")))


def refusal(what, direction, data):
    """What the tool says of data that it refuses; None where it does not. Any other exception is a failure of the check."""
    try:
        convert.converted(what, direction, data)
    except Wrong as wrong:
        return str(wrong)
    return None


def bare(text):
    """A text without its notes, names and units, as the tools print it. (No name of these texts has a `#` in it.)"""
    lines = (" ".join(re.sub('(name|unit) "[^"]*"', "", line.split("#")[0]).split()) for line in text.decode().split("\n"))
    return "".join(line + "\n" for line in lines if line)


# 1. Examples and tables

def there_and_back(what, text, data, loose, name):
    """The text is what the tool prints of the bytes, and text, and text written otherwise, give the bytes."""
    same(convert.converted(what, "text", data).decode(), text, f"{name}: bytes to text")
    same(convert.converted(what, "bytes", text.encode()), data, f"{name}: text to bytes")
    same(convert.converted(what, "bytes", loose.encode()), data, f"{name}: text written otherwise, to bytes")


def examples():
    text, image = contents("examples", "debarker.txt"), contents("examples", "debarker.table")
    there_and_back("table", bare(text), image, text.decode(), "examples/debarker")
    whole = unhex("images", "whole.hex")
    rows = ("group 0 UDP\nconnection 0 group 0 automatic remote any port any send 1472 bytes switches 0x00000001\n"
            "route 0 connection 0 longest 2 bytes id 0x00000101 pdu 0x0007 groups 0x00000001\n"
            "destination 0 connection 0 trigger longest 2 bytes id 0x00000202 pdu 0x0009 timeout 0 ticks groups 0x00000000\n")
    there_and_back("table", rows, whole, rows, "the image of R1.12")
    empty = bytes.fromhex("00010004" "0001000000000024" "0002000000000024" "0003000000000024" "0004000000000024")
    there_and_back("table", "\n", empty, "# nothing\n", "the table without rows")
    other = contents("examples", "debarker-too-long.table")  # refused by the check, and not here
    same(table.to_image(table.to_text(other)), other, "examples/debarker-too-long.table: to text and back")
    for name in ("firmware-table", "service-table"):
        text = contents("examples", name + ".txt")
        there_and_back("table", bare(text), table.to_image(text.decode()), text.decode(), f"examples/{name}")
    for name in ("shift", "firmware"):
        text = contents("examples", name + ".txt")
        there_and_back("script", bare(text), script.to_bytes(text.decode()), text.decode(), f"examples/{name}")
    marked = rows.replace("0 UDP", "0 TCP").replace("connection 0 longest 2", "connection 0 tp longest 2", 1)
    there_and_back("table", marked, whole[:36] + b"\2" + whole[37:55] + b"\1" + whole[56:], marked, "the image of R1.12 with a marked route")
    for limit, words, otherwise in ((1, "alive 1 tick ", "alive 0x1 ticks "), (30, "alive 30 ticks ", "alive 030 tick "), (0, "", "alive 0 ticks ")):
        limited, loose = (rows.replace("switches", word + "switches") for word in (words, otherwise))
        there_and_back("table", limited, whole[:48] + limit.to_bytes(2, "big") + whole[50:], loose, f"the image of R1.12 with an alive limit of {limit}")
    lines = "segment 2 000001010000000200b4\ntick 3\n"
    data = bytes.fromhex("0007000000000010" "0002" "0000000a" "000001010000000200b4" "000000000000000400000003")
    there_and_back("script", lines, data, lines, "two lines")
    there_and_back("script", "", b"", "# nothing\n", "the script without entries")


def random_tables():
    """Tables that the rules accept: the program run takes some of them, so that this is seen."""
    edges = [(0, 0, 0, 0), (8, 0, 0, 0), (1, 16, 0, 0), (8, 16, 64, 64), (1, 1, 64, 0), (1, 1, 0, 64)]
    for i in range(2500):
        groups, connections = rand.randrange(1, 4), rand.randrange(1, 5)
        counts = edges[i] if i < len(edges) else (groups, connections, rand.randrange(4), rand.randrange(4))
        rows, image = made.table(rand, counts)
        text = made.text(rows) or "\n"
        there_and_back("table", text, image, made.text(made.shuffled(rand, rows), rand), f"table {i}")
        if i < 60:
            same(run(image)[-1], "OK", f"table {i} is accepted")


# 2. Scripts

def stored_scripts():
    """Table and script of each stored case there and back. A case that is stored because it is refused may have no text."""
    whole = 0
    for path in sorted(glob.glob(os.path.join(ROOT, "tests", "scripts", "*.hex"))):
        name, data = os.path.basename(path), unhex("scripts", os.path.basename(path))
        counts = [int.from_bytes(data[at:at + 2], "big") for at in (6, 14, 22, 30)]
        end = 36 + 2 * counts[0] + 16 * sum(counts[1:])
        pieces = (("table", data[:end]), ("script", data[end:]))
        said = [refusal(what, "text", piece) for what, piece in pieces]
        if any(said):
            true(all(one is None or PLACE.match(one) for one in said), f"{name}: refused without a place: {said}")
            continue
        whole += 1
        for what, piece in pieces:
            text = convert.converted(what, "text", piece)
            same(convert.converted(what, "bytes", text), piece, f"{name}: {what} to text and back")
            same(convert.converted(what, "text", convert.converted(what, "bytes", text)), text, f"{name}: the printed {what} stays")
    true(whole >= 2, "at least two stored scripts have a text")


def random_scripts():
    """Every event of docs/EVENTS.md, in scripts of some entries, one in twenty after a start state."""
    page = contents("docs", "EVENTS.md").decode().split("## Event numbers and bodies")[1].split("##")[0]
    wanted = {int(number) for number, event in re.findall(r"^\| (\d+) \| ([^|]+)", page, re.M) if not event.startswith("kept")}
    met, events = set(), 0
    for i in range(600):
        names = list(made.EVENTS) if i == 0 else [rand.choice(list(made.EVENTS)) for _ in range(rand.randrange(30))]
        entries = [made.state(rand)] if i % 20 == 0 else []
        entries += [made.event(rand, name) for name in names]
        rows, data = [row for rows, _ in entries for row in rows], b"".join(entry for _, entry in entries)
        there_and_back("script", made.text(rows), data, made.text(rows, rand), f"script {i}")
        met |= {int.from_bytes(entry[:2], "big") for _, entry in entries}
        events += len(entries)
    same(met, wanted, "event numbers met, against docs/EVENTS.md")
    same({event for event, _ in script.EVENTS.values()} | {script.STATE}, wanted, "event numbers of the tool, against docs/EVENTS.md")
    for name, size in (("segment 0", 4090), ("walk 0 0", 4086), ("transmit 0x0000", 4089)):
        text = f"{name} {'a5' * size}\n"
        data = script.to_bytes(text)
        same((len(data), script.to_text(data)), (8 + 4096, text), f"the longest {name}")
    true(events > 5000, f"only {events} events")


# 3. and 4. What is refused

PLACE = re.compile(r"(line (\d+), column (\d+)|([a-z][a-z0-9, ]*, )?byte \d+): [A-Za-z][^:]*: .")


def spelled(text):
    """{ab*3} and \\u000d as errors.txt has them."""
    while re.search(r"\{[^{}]*\*\d+\}", text):
        text = re.sub(r"\{([^{}]*)\*(\d+)\}", lambda m: m[1] * int(m[2]), text)
    return re.sub(r"\\u([0-9a-f]{4})", lambda m: chr(int(m[1], 16)), text)


def damaged(image, edit):
    words = edit.split()
    if words[0] == "cut":
        return image[:int(words[1])]
    if words[0] == "append":
        return image + bytes(int(words[1]))
    at, data = int(words[1]), bytes.fromhex(words[2])
    return image[:at] + data + image[at + len(data):]


def cases():
    """(what, direction, input, message) of errors.txt; the message of a good input is None."""
    for row in contents("tests", "text", "errors.txt").decode().split("\n"):
        if row and not row.startswith("#"):
            what, text, *message = re.split(r" \| ?", row)
            message = spelled(message[0]) if message else None
            what = what.removeprefix("good ")
            if what == "image":
                yield "table", "text", damaged(contents("examples", "debarker.table"), text), message
            elif what == "bytes":
                yield "script", "text", bytes.fromhex(spelled(text)), message
            else:
                yield what, "bytes", spelled(text.replace("; ", "\n")).encode(), message


def points_at(text, message):
    """The column is that of the word, or number, that the message quotes; of a word that is missing, behind the last one."""
    place = PLACE.match(message)
    line, what = re.split("\r\n|\r|\n", text)[int(place[2]) - 1], message[place.end() - 1:]
    there = line[int(place[3]) - 1:]
    if what == "is missing":
        true(not there.split("#")[0].strip() and not line[:int(place[3]) - 1].endswith(" "), f"the column of `{message}` in {line!r:.150}")
    elif re.match("`|[0-9x]+ is more than", what):
        word = what[1:].split("` ")[0] if what.startswith("`") else what.split()[0]
        true(there.lstrip('"').startswith(word.lstrip('"')), f"the column of `{message:.150}` in {line!r:.150}")


def stored_errors():
    inputs = {(what, data) for what, _, data, message in cases() if message}
    good = [(what, data.decode().removesuffix("\nend")) for what, _, data, message in cases() if not message]
    for what, direction, data, message in cases():
        same(refusal(what, direction, data), message, f"errors.txt: {what} {data!r:.150}")
        if direction == "bytes" and message:
            points_at(data.decode(), message)
    names = [text.split("\n")[-1].split()[0] for _, text in good]
    same(set(names), {*table.ROWS, *script.EVENTS, *script.LINES}, "lines of errors.txt that are good")
    for what, text in good:
        before, words = text.rpartition("\n")[:2], text.split("\n")[-1].split()
        for count in range(1, len(words)):
            short = "".join(before) + " ".join(words[:count])
            true((what, short.encode()) in inputs, f"errors.txt lacks {short!r}")


def many_rows():
    """65,535 rows of a kind are the most that an image can count."""
    rows = "".join(f"group {i} UDP\n" for i in range(65536))
    same(refusal("table", "bytes", rows.encode()), "line 65536, column 7: number of the group: 65535 is more than 65534", "65,536 rows")
    most = rows.rpartition("group")[0]
    same(table.to_text(table.to_image(most)), most, "65,535 rows")


def some_text():
    otherwise = rand.choice([rand, None])
    if rand.random() < 0.5:
        return "table", made.text(made.table(rand, (1, 2, 1, 1))[0], otherwise)
    rows = made.state(rand)[0] if rand.random() < 0.1 else []
    for _ in range(3):
        rows += made.event(rand, rand.choice(list(made.EVENTS)))[0]
    return "script", made.text(rows, otherwise)


def random_texts():
    """A text with a few characters changed is refused by line, column, field and reason, or means the bytes that print as what means them."""
    refused = 0
    for i in range(1500):
        what, text = some_text()
        for _ in range(rand.randrange(1, 3)):
            at = rand.randrange(len(text))
            new = rand.choice(["", "", "0", "9", " ", "\n", "x", "-", "#", "f", "ff", "\0", "²", "any ", '"', 'name "x" '])
            text = text[:at] + new + text[at + rand.randrange(3):]
        said = refusal(what, "bytes", text.encode())
        if said is not None:
            refused += 1
            place, lines = PLACE.match(said), re.split("\r\n|\r|\n", text.removeprefix("\ufeff"))
            line, column = (int(place[2]), int(place[3])) if place and place[2] else (0, 0)
            true(1 <= line <= len(lines) and 1 <= column <= len(lines[line - 1]) + 1, f"refused with `{said}`: {text!r}")
            continue
        data = convert.converted(what, "bytes", text.encode())
        again = convert.converted(what, "text", data)
        same(convert.converted(what, "bytes", again), data, f"text {i}, {text!r}: to bytes, to text, to bytes")
    true(300 < refused < 1450, f"{refused} of 1500 changed texts are refused")


def changed(data):
    """Bytes with one changed, a few cut off, put in or added."""
    at, how = rand.randrange(len(data)), rand.randrange(8)
    if how == 0:
        return data[:at]
    if how == 1:
        return data[:at] + data[at + rand.randrange(1, 4):]
    if how == 2:
        return data[:at] + rand.randbytes(rand.randrange(1, 4)) + data[at:]
    return data[:at] + bytes([rand.choice([0, 1, 2, 3, 4, 255, rand.randrange(256)])]) + data[at + 1:]


def answered(what, data, name):
    """Bytes have a text that gives them back, or are refused with place, field and reason. Whether they are refused."""
    said = refusal(what, "text", data)
    if said is None:
        same(convert.converted(what, "bytes", convert.converted(what, "text", data)), data, f"{name}: to text and back")
    else:
        true(PLACE.match(said), f"{name}: refused with `{said}`")
    return said is not None


def damaged_images():
    image = contents("examples", "debarker.table")
    refused = 0
    for at in range(len(image)):
        refused += answered("table", image[:at], f"image cut to {at}")
        for value in (0, 1, 2, 255):
            data = image[:at] + bytes([value]) + image[at + 1:]
            refused += answered("table", data, f"image with byte {at} as {value}")
            said = refusal("table", "text", data)
            if at >= 36 and said:
                true(at - 2 < int(re.search(r"byte (\d+)", said)[1]) <= at, f"image with byte {at} as {value}: {said}")
    true(refused > 264 + 100, f"only {refused} damaged images are refused")


def changed_state(data):
    """A start state with one byte changed where there is something to get wrong."""
    at = rand.randrange(8, 8 + 16 * 46)
    return data[:at] + bytes([rand.choice([0, 1, 2, 3, 4, 255])]) + data[at + 1:]


def older_state(data):
    """A start state as it was before alive timers: of each record the first 43 of its 46 bytes."""
    body = b"".join(data[at:at + 43] for at in range(8, 8 + 16 * 46, 46)) + data[8 + 16 * 46:]
    return data[:4] + len(body).to_bytes(4, "big") + body


def damaged_scripts():
    refused = 0
    for i in range(2000):
        data = b"".join(made.event(rand, rand.choice(list(made.EVENTS)))[1] for _ in range(3))
        refused += answered("script", changed(data), f"script bytes {i}")
    for i in range(150):
        refused += answered("script", changed_state(made.state(rand)[1]), f"start state {i}")
    true(300 < refused < 2000, f"{refused} of 2150 damaged scripts are refused")
    said = refusal("script", "text", older_state(made.state(rand)[1]))
    true(said and "records have 43 bytes, as before alive timers" in said, f"an older start state: {said}")


# 5. ./soad and the program run

def run(data):
    return subprocess.run(COMMAND, input=data, stdout=subprocess.PIPE, timeout=20, check=False).stdout.decode().split("\n")[:-1]


def verdict_of_run(lines):
    """(verdict, entry) of what run printed."""
    entries = [line for line in lines if line.startswith("entry ")]
    if lines[-1] == "REFUSED":
        return entries[-1].split(": ")[2].rstrip(" 0123456789"), len(entries)
    return (lines[-1], len(entries) + 1) if lines[-1] == "CUT" else (lines[-1], None)


def verdict_of_text(data):
    """The same, of what the tool says."""
    said = refusal("script", "text", data)
    if said is None:
        return "OK", None
    entry = int(re.match(r"entry (\d+),", said)[1])
    for start, verdict in (("head: is cut off", "CUT"), ("body: is cut off", "CUT"), ("event number", "unknown event number"),
                           ("zero field", "zero field is not")):
        if f": {start}" in said:
            return verdict, entry
    return "body does not fit", entry


def same_refusals():
    """Bytes that have no text are those that run refuses, at the same entry and for the same reason. (No ticks: many take run long.)"""
    image, met = contents("examples", "debarker.table"), set()
    names = [name for name in made.EVENTS if name not in ("tick", "switch")]  # a switch is a tick but for its number
    for i in range(500):
        data = b"".join(made.event(rand, rand.choice(names))[1] for _ in range(2))
        if i % 5 == 0:
            start = (older_state if i % 100 == 0 else changed_state)(made.state(rand)[1])
            data = rand.choice([start + data, start + data, data + start])
        elif i % 5 == 1:
            data = data[:rand.randrange(len(data))]
        else:
            at = rand.choice([rand.randrange(len(data)), rand.randrange(8)])
            data = data[:at] + bytes([rand.choice([0, 1, rand.randrange(256)])]) + data[at + 1:]
        want = verdict_of_run(run(image + data))
        same(verdict_of_text(data), want, f"run and to-text of {data.hex():.200}")
        met.add(want[0])
    same(met, {"OK", "CUT", "body does not fit", "unknown event number", "zero field is not"}, "verdicts of run that were met")


def soad(*words):
    done = subprocess.run([os.path.join(ROOT, "soad"), *words], stdin=subprocess.DEVNULL, stdout=subprocess.PIPE, stderr=subprocess.PIPE, check=False)
    return done.returncode, done.stdout, done.stderr.decode()


def file(folder, name, data):
    path = os.path.join(folder, name)
    with open(path, "wb") as out:
        out.write(data)
    return path


def runs():
    """./soad run prints the same of texts without names and of bytes, and what the program run prints; of a script text, its lines, too."""
    image, shift = contents("examples", "debarker.table"), contents("examples", "shift.txt")
    rows, start = made.state(rand)
    with tempfile.TemporaryDirectory() as folder:
        tables = file(folder, "table", image), file(folder, "table.txt", bare(contents("examples", "debarker.txt")).encode())
        for name, data, text in (("shift", script.to_bytes(shift.decode()), shift), ("start", start, made.text(rows, rand).encode())):
            scripts = file(folder, name, data), file(folder, name + ".txt", text)
            want = (0, "".join(line + "\n" for line in run(image + data)).encode(), "")
            true(want[1].startswith(b"entry 1: ") and want[1].endswith(b"\nOK\n"), f"{name} runs")
            lines = [line for line, _ in script.entries(text.decode("utf-8-sig"), None)]
            told = re.sub(rb"(?m)^entry (\d+)", lambda m: m[0] + b", line %d" % lines[int(m[1]) - 1], want[1])
            for one, other in ((0, 0), (0, 1), (1, 0), (1, 1)):
                same(soad("run", tables[one], scripts[other]), (0, told, "") if other else want, f"./soad run {tables[one]} {scripts[other]}")
        same(soad("check", tables[1]), soad("check", tables[0]), "./soad check of a text and of its image")


def verbs():
    """./soad table and script: the other form; of what cannot be read the error, nothing on standard output, and the status. check and run
    tell such an error where they tell everything."""
    image, text, shift = contents("examples", "debarker.table"), contents("examples", "debarker.txt"), contents("examples", "shift.txt")
    data = script.to_bytes(shift.decode())
    with tempfile.TemporaryDirectory() as folder:
        def tried(want, *words, data=None):
            """./soad with the words, FILE for one with the data."""
            path = file(folder, "file", data)
            same(soad(*(path if word == "FILE" else word for word in words)), want, f"./soad {' '.join(words)} of {data!r:.60}")
        good = file(folder, "good", image)
        tried((0, image, ""), "table", "to-image", "FILE", data=text)
        tried((0, bare(text).encode(), ""), "table", "to-text", "FILE", data=image)
        tried((0, data, ""), "script", "to-bytes", "FILE", data=shift)
        tried((0, bare(shift).encode(), ""), "script", "to-text", "FILE", data=data)
        tried((0, script.to_bytes("tick 1"), ""), "script", "to-bytes", "FILE", data=b"tick 1 # \xe4")
        for what, message, input, *calls in (
                ("table", "line 2, column 9: protocol: `udp` is none of UDP, TCP", b"group 0 TCP\ngroup 1 udp\n",
                 "table to-image FILE", "check FILE", f"run FILE {good}"),
                ("script", "line 3, column 11: bytes: 3 hex digits are no whole bytes", b"tick 1\n\nsegment 0 00b\n",
                 "script to-bytes FILE", f"run {good} FILE"),
                ("table", "byte 2: total length: the image has 40 bytes and its contents ask 264", image[:40], "table to-text FILE"),
                ("script", "entry 1, byte 8: body: is cut off: 1 of 4 bytes", data[:9], "script to-text FILE"),
                ("table", "line 1, column 1: text: has a zero byte, which only images and scripts of bytes have", image, "table to-image FILE"),
                ("table", "line 1, column 1: text: is empty", b"", "table to-image FILE"),
                ("script", "line 1, column 6: ticks: `\ufffd` is no number (decimal digits, or 0x and hex digits)", b"tick \xe4",
                 "script to-bytes FILE")):
            told = f"{what} {os.path.join(folder, 'file')}, {message}\nREFUSED\n"
            for call in calls:
                tried((1, told.encode(), "") if call.split()[0] in ("check", "run") else (1, b"", told), *call.split(), data=input)
        for path in (os.path.join(folder, "not-there"), folder):
            for words in (("table", "to-image", path), ("table", "to-text", path), ("script", "to-bytes", path), ("script", "to-text", path),
                          ("check", path), ("run", path, good), ("run", good, path)):
                same(soad(*words), (2, b"", f"soad: cannot read the file {path}\n"), f"./soad {words} where nothing can be read")
        long = file(folder, "long", script.to_bytes(f"segment 0 {'a5' * 4000}\n" * 100))
        pipe = '"$0" script to-text "$1" | head -c 7'
        plain = {**os.environ, "PYTHONUNBUFFERED": ""}
        piped = subprocess.run(["bash", "-c", pipe, os.path.join(ROOT, "soad"), long], env=plain, capture_output=True, check=False)
        same((piped.stdout, piped.stderr), (b"segment", b""), "./soad script to-text to a reader that has seen enough")


def usage():
    """Help goes to standard output with status 0, wrong usage to standard error with status 2."""
    status, help, error = soad("help")
    same((status, error), (0, ""), "./soad help")
    for verb in ("check TABLE", "run TABLE SCRIPT", "table to-image FILE", "script to-bytes FILE", "bench-example ..", "test", "--version", "help"):
        true(f"\n  ./soad {verb} ".encode() in help, f"./soad help names {verb}")
    for words in (("--help",), ("-h",)):
        same(soad(*words), (0, help, ""), f"./soad {words}")
    for verb in ("check", "run", "table", "script", "test"):
        status, out, error = soad(verb, "--help")
        true(status == 0 and out.startswith(f"./soad {verb}".encode()) and out.count(b"\n") > 1 and not error, f"./soad {verb} --help")
    forms = soad("table", "--help")[1] + soad("script", "--help")[1]
    for name in (*table.ROWS, *script.EVENTS, *script.LINES, "state", "end"):
        true(re.search(f"^    {name}( <|\n| [a-z])", forms.decode(), re.M), f"the help of texts shows {name}")
    status, out, error = soad("toast")
    true((status, out) == (2, b"") and error == help.decode() + "soad: there is no verb toast\n", "./soad toast")
    for words, message in ((("check", "a", "b"), "check takes a table"), (("run", "a"), "run takes a table and a script"),
                           (("run", "a", "b", "c"), "run takes a table and a script"), (("test", "x"), "test takes no argument but --help"),
                           (("table", "to-image"), "table takes a direction and a file"),
                           (("script", "to-text"), "script takes a direction and a file"),
                           (("table", "to-bytes", "x"), "table: there is no direction to-bytes"),
                           (("script", "to-image", "x"), "script: there is no direction to-image")):
        form = soad(words[0], "--help")[1].decode().split("\n")[0]
        same(soad(*words), (2, b"", f"soad: {message}\nusage: {form}\n"), f"./soad {words}")
    for words in ((), ("table",), ("table", "up"), ("shelf", "text"), ("table", "text", "x", "y", "z")):
        done = subprocess.run([os.path.join(ROOT, "text", "convert"), *words], stdin=subprocess.DEVNULL, capture_output=True, check=False)
        same((done.returncode, done.stdout, done.stderr.decode()), (1, b"", convert.__doc__ + "\n"), f"text/convert {words}")


for check in (examples, random_tables, stored_scripts, random_scripts, stored_errors, many_rows, random_texts, damaged_images, damaged_scripts,
              same_refusals, runs, verbs, usage):
    try:
        check()
    except Exception:
        failures.append(check.__name__)
        traceback.print_exc(file=sys.stdout)
print(f"text: seed {SEED}")
print(f"text: {passed} passed, {len(failures)} failed")
sys.exit(1 if failures else 0)
