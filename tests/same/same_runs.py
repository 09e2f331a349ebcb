"""same_runs.py COMMAND ..: random runs, each tried against runs that count as the same (docs/THEOREMS.md, demand 3)."""
import os
import random
import re
import struct
import subprocess
import sys

sys.path.insert(0, os.path.join(os.path.dirname(os.path.abspath(__file__)), "..", "..", "text"))
import script
import table

SEED = int(os.environ.get("SEED", random.SystemRandom().randrange(2 ** 32)))
RUNS, CHANGES = 100, 60
rand = random.Random(SEED)


def some_table():
    """Two TCP connections and a UDP one, each with routes on, off by a switch and short; on TCP some are marked."""
    rows = ["group 0 TCP", "group 1 UDP"]
    for k in range(3):
        group = 1 if k == 2 else 0
        rows.append(f"connection {k} group {group} automatic remote 10.0.0.{k + 1} port {k + 1} send 64 bytes switches 0x{rand.randrange(4):x}")
    for i in range(9):
        mark = "tp " * (i % 3 < 2 and rand.random() < 0.4)
        rows.append(f"route {i} connection {i % 3} {mark}longest {rand.choice([2, 5, 11, 14])} bytes id {i // 3 + 1} pdu {i} groups {rand.randrange(4)}")
    for i in range(3):
        rows.append(f"destination {i} connection {i} held longest 8 bytes id {i} pdu 7 timeout {rand.randrange(4)} ticks groups {rand.randrange(3)}")
    return table.to_image("\n".join(rows))


def some_stream():
    """Frames of routed, unknown, empty and too long PDUs; the last one may be cut off."""
    frames = b""
    for _ in range(rand.randrange(1, 4)):
        size = rand.choice([0, 1, 2, 5, 11, 14])
        frames += struct.pack(">II", rand.randrange(1, 5), size) + rand.randbytes(size)
    if rand.random() < 0.1:  # a length that is not reached
        frames += struct.pack(">II", rand.randrange(1, 5), 2 ** 32 - 1) + rand.randbytes(3)
    return frames[:rand.randrange(len(frames) + 1)] if rand.random() < 0.02 else frames


def some_event():
    """(connection, text): None for an event of a group or of the module."""
    k = rand.randrange(3)
    what = rand.choice(["segment"] * 20 + ["switch"] * 3 + ["take", "walk", "lost", "connected", "connected", "remote", "cancel", "cancel"]
                       + ["tick", "transmit", "switch-all", "count", "accept"])
    return {
        "segment": lambda: (k, ("segment", some_stream())),
        "switch": lambda: (k, f"switch {k} {rand.randrange(2)} {rand.choice(['on', 'off'])}"),
        "take": lambda: (k, f"take {k} {rand.choice([0, 64])}"),
        "walk": lambda: (k, f"walk {k} 0 {some_stream().hex() or '-'}"),
        "lost": lambda: (k, f"lost {k}"),
        "connected": lambda: (k, f"connected {k}"),
        "cancel": lambda: (k, f"cancel {k}"),
        "remote": lambda: (k, f"remote {k} 10.0.0.9 port 9"),
        "tick": lambda: (None, "tick 1"),
        "transmit": lambda: (None, f"transmit 7 {rand.randbytes(rand.randrange(9)).hex() or '-'}"),
        "switch-all": lambda: (None, f"switch-all {rand.randrange(2)} {rand.choice(['on', 'off'])}"),
        "count": lambda: (None, f"count {rand.choice([1, 2])}"),
        "accept": lambda: (None, f"accept 0 10.0.0.{k + 1} port {k + 1}"),
    }[what]()


def changed(run):
    """One swap, cut or join somewhere; the run as it was where none fits the place."""
    i = rand.randrange(len(run))
    (k, event), (j, after) = run[i], run[(i + 1) % len(run)]
    both = isinstance(event, tuple) and isinstance(after, tuple) and i + 1 < len(run)
    if isinstance(event, tuple) and rand.random() < 0.5:
        at = rand.randrange(len(event[1]) + 1)
        return run[:i] + [(k, ("segment", event[1][:at])), (k, ("segment", event[1][at:]))] + run[i + 1:]
    if both and k == j and len(event[1]) + len(after[1]) < 2000:
        return run[:i] + [(k, ("segment", event[1] + after[1]))] + run[i + 2:]
    if i + 1 < len(run) and None not in (k, j) and k != j:
        return run[:i] + [run[i + 1], run[i]] + run[i + 2:]
    return run


def printed(command, image, run):
    text = "\n".join(f"segment {k} {e[1].hex() or '-'}" if isinstance(e, tuple) else e for k, e in run)
    lines = subprocess.run(command, input=image + script.to_bytes(text), stdout=subprocess.PIPE, check=True).stdout.decode().splitlines()
    end = [line for line in lines if not line.startswith("entry ")]
    handed = {}
    for line in lines:
        for found in TAKEN.finditer(line):
            handed_out(handed.setdefault(re.search(r"connection (\d+)", line).group(1), []), found)
    return end, handed


# A PDU; the start of a transfer, perhaps with its mark; a piece, perhaps the last. A piece belongs to the start before it.
TAKEN = re.compile(r"PDU of route (?P<pdu>\d+), id \w+, length \d+ bytes?, from (?:the segment at byte \d+|receive memory): (?P<payload>[0-9a-f-]+)"
                   r"|start of a transfer on route (?P<start>\d+), id \w+, length (?P<length>\d+) bytes?(?P<end>, the end)?"
                   r"|(?P<last>last )?piece of route (?P<piece>\d+), id \w+, (?P<size>\d+) bytes?, from the segment at byte \d+: (?P<bytes>[0-9a-f]+)")


def handed_out(connection, found):
    """Adds to what a connection has handed out: (route, payload) of a PDU; [route, length, joined bytes, end mark] of a transfer."""
    if found["pdu"]:
        connection.append((found["pdu"], found["payload"]))
    elif found["start"]:
        connection.append([found["start"], found["length"], "", bool(found["end"])])
    else:
        transfer = connection[-1]
        assert isinstance(transfer, list) and transfer[0] == found["piece"] and not transfer[3], f"a piece without a start: {found[0]}"
        assert int(found["size"]) == len(found["bytes"]) // 2 > 0, f"a piece without its bytes: {found[0]}"
        transfer[2] += found["bytes"]
        transfer[3] = bool(found["last"])


def some_run():
    return [(None, "tick 1"), (0, "connected 0"), (1, "connected 1")] + [some_event() for _ in range(rand.randrange(20, 80))]


def wrongly_changed(run):
    """Two neighbouring events swapped that may not be: of one connection, or with one of the whole module."""
    i = rand.randrange(len(run) - 1)
    return run[:i] + [run[i + 1], run[i]] + run[i + 2:] if None in (run[i][0], run[i + 1][0]) or run[i][0] == run[i + 1][0] else run


def pair(change):
    """A run and the same run after many changes, each as printed."""
    image, run = some_table(), some_run()
    other = run
    for _ in range(CHANGES):
        other = change(other)
    return printed(sys.argv[1:], image, run), printed(sys.argv[1:], image, other), (run, other)


def whole(handed):
    """Every transfer with its mark has all its bytes, and one without it has fewer."""
    every = [one for connection in handed.values() for one in connection if isinstance(one, list)]
    assert all((len(joined) // 2 == int(length)) == mark for _, length, joined, mark in every), f"a transfer of another length: {every}"
    return [one[3] for one in every]


failed, handed, marks = 0, 0, []
for number in range(RUNS):
    first, second, runs = pair(changed)
    handed += sum(map(len, first[1].values()))
    marks += whole(first[1])
    if first != second or first[0][-1] != "OK":
        failed += 1
        print(f"same: run {number} of seed {SEED} differs:\n  {runs[0]}\n  {runs[1]}\n  {first}\n  {second}")
if handed < 5 * RUNS:
    failed += 1
    print(f"same: only {handed} PDUs and transfers were handed out")
if marks.count(True) < RUNS or marks.count(False) < 2:
    failed += 1
    print(f"same: only {marks.count(True)} transfers ended with their mark, and {marks.count(False)} without it")
noticed = sum(first != second for first, second, _ in (pair(wrongly_changed) for _ in range(20)))
if noticed < 5:
    failed += 1
    print(f"same: of 20 runs with events swapped that may not be, only {noticed} were told apart")
print(f"same: {RUNS - failed} passed, {failed} failed ({handed} PDUs and transfers handed out, {len(marks)} transfers, {marks.count(False)} of them without "
      f"their mark; {noticed} of 20 wrong swaps noticed; seed {SEED})")
sys.exit(1 if failed else 0)
