"""sheets.py: ./soad sheet on the example, on sheets that do not fit, and on random sheets, each against its shortened sheet run as a script."""
import os
import random
import subprocess
import sys
import tempfile

SEED = int(os.environ.get("SEED", random.SystemRandom().randrange(2 ** 32)))
SHEETS = 5
TABLE, EXAMPLE = "examples/debarker.txt", "examples/sheet.txt"
rand = random.Random(SEED)
passed = failed = 0
room = tempfile.TemporaryDirectory()


def tried(what, right, seen=""):
    global passed, failed
    passed, failed = passed + bool(right), failed + (not right)
    if not right:
        print(f"sheet: {what} (SEED={SEED})", seen, sep="\n")


def soad(*words):
    done = subprocess.run(["./soad", *words], stdout=subprocess.PIPE, stderr=subprocess.PIPE)
    return done.returncode, done.stdout.decode(), done.stderr.decode()


def file(name, data):
    path = os.path.join(room.name, name)
    with open(path, "wb") as out:
        out.write(data)
    return path


def text_of(switches):
    return "".join(f"switch {c} {n} {'on' if p else 'off'}\n" for c, n, p in switches).encode()


def some_switches():
    """Few connections and numbers, so that later switches override earlier ones; some are not there."""
    return [(rand.choice([0, 1, 2, 3, 3, 4, 255]), rand.choice([0, 1, 2, 31, 32, 200]), rand.randrange(2)) for _ in range(rand.choice([0, 1, 5, 30]))]


def records(path):
    """The lines of the records and counts that are left by a script."""
    status, said, _ = soad("run", TABLE, path)
    return status, [line for line in said.splitlines() if line.startswith(("connection ", "drops: "))]


FRESH = (3, 3, 0, 3)  # the start switches of the table


def by_hand(switches):
    """The lines of the words, by the rules alone."""
    words = {c: [0, 0] for c in range(4)}
    for c, n, p in switches:
        if c < 4 and n < 32:
            words[c] = [word | 1 << n if on == p else word & ~(1 << n) for word, on in zip(words[c], (1, 0))]
    return [(f"connection {c}", f": forced on 0x{on:08x}, forced off 0x{off:08x}, fresh switches 0x{FRESH[c]:08x} become 0x{(FRESH[c] | on) & ~off:08x}")
            for c, (on, off) in words.items()]


def converted(direction, data):
    return subprocess.run(["text/convert", "sheet", direction], input=data, stdout=subprocess.PIPE, stderr=subprocess.PIPE).stdout


def random_sheet(number):
    switches = some_switches()
    data = bytes(b for switch in switches for b in switch)
    tried(f"sheet {number} both ways", converted("bytes", text_of(switches)) == data and converted("text", data) == text_of(switches), data)
    long = file("long.txt", text_of(switches))
    status, said, _ = soad("sheet", TABLE, long)
    lines = said.splitlines()
    tried(f"sheet {number} is taken", status == 0 and lines[-1:] == ["OK"], said)
    tried(f"the words of sheet {number}", all(any(line.startswith(a) and line.endswith(b) for line in lines) for a, b in by_hand(switches)), said)
    status, kept, _ = soad("sheet", "--short", TABLE, long)
    short = file("short.txt", kept.encode())
    tried(f"the shortened sheet {number} leaves the records of the long one", status == 0 and records(short) == records(long), kept)
    tried(f"the shortened sheet {number} is as short as can be", soad("sheet", "--short", TABLE, short)[1] == kept, kept)
    told = soad("sheet", "--short", TABLE, file("long.bin", data))
    tried(f"sheet {number} as bytes", told[:2] == (0, kept), told)


def refused(what, status, words, *args):
    done = soad("sheet", *args)
    tried(what, done[0] == status and words in done[1] + done[2], done)


def refusals():
    refused("a cut sheet", 1, "sheet refused at byte 3: cut off inside a switch of 3 bytes\nREFUSED\n", TABLE, file("cut", b"\0\0\1\0\0"))
    refused("a position of 2", 1, "sheet refused at byte 5: the position is 2, neither 0 (off) nor 1 (on)\nREFUSED\n", TABLE, file("two", b"\0\0\1\0\0\2"))
    refused("a sheet that is too long", 1, "sheet refused: it is longer than 12288 bytes (4096 switches)\nREFUSED\n", TABLE, file("long", bytes(12289)))
    refused("the longest sheet", 0, "sheet of 4096 switches\n", TABLE, file("most", bytes(12288)))
    refused("an empty sheet", 0, "sheet of 0 switches\n", TABLE, file("none", b""))
    refused("a word that is none", 1, "line 2, column 12: position: `up` is none of off, on\nREFUSED", TABLE, file("up", b"switch 0 0 on\nswitch 0 1 up\n"))
    refused("another event", 1, "line 1, column 1: line of a sheet: `open` is none of switch\nREFUSED", TABLE, file("open", b"open 0\n"))
    refused("a refused table", 1, "refused 1 at byte 0", file("table", b"\0" * 40), EXAMPLE)
    refused("a sheet that is not there", 2, "cannot read the file", TABLE, os.path.join(room.name, "nowhere"))
    refused("a word too few", 2, "usage: ", TABLE)


status, said, _ = soad("sheet", TABLE, EXAMPLE)
with open("tests/sheet/example.txt", encoding="utf-8") as stored:
    tried("the example prints what is stored", (status, said) == (0, stored.read()), said)
refusals()
for sheet in range(SHEETS):
    random_sheet(sheet)
print(f"sheet: {passed} passed, {failed} failed")
sys.exit(1 if failed else 0)
