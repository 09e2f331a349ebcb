"""small.py SECOND [COMMAND ..]: comparisons that fail. The second program compares itself with itself under a seeded fault: each such
comparison prints a small case, on which the fault is still seen and nothing else; a printed text is the case that was stored. COMMAND,
the program run, answers the small scripts as the second program does."""
import os
import re
import subprocess
import sys
import tempfile

sys.path.insert(0, os.path.join(os.path.dirname(os.path.abspath(__file__)), "..", "..", "text"))
import script
import table

SECOND, RUN = sys.argv[1], sys.argv[2:]

# part of the comparison, seed, cases, who answers, the fault, and what the printed case may have at most
FAULTS = [
    ("runs", 3, 40, "run", "DueOneTickEarly", {"entries": 4, "table rows": 3}),
    ("runs", 3, 10, "run", "FewerFieldsWin", {"entries": 3, "table rows": 3}),
    ("runs", 2, 20, "run", "StoredBeforeAllChecked", {"entries": 4, "table rows": 5}),
    ("streams", 2, 10, "run", "SwitchAtTheEnd", {"entries": 4, "table rows": 3}),
    ("transfers", 2, 10, "run", "TickTellsNothing", {"entries": 5, "table rows": 3}),
    ("transfers", 2, 10, "run", "MarkEarly", {"entries": 3, "table rows": 3}),
    ("silences", 2, 60, "run", "AliveByWalk", {"entries": 2, "table rows": 2}),
    ("silences", 2, 60, "run", "ExpiryKeepsSend", {"entries": 4, "table rows": 3}),
    ("silences", 2, 60, "run", "DatagramClearsMark", {"entries": 3, "table rows": 2}),
    ("recordings", 2, 100, "replay", "SignedDistance", {"entries": 2, "table rows": 4}),
    ("recordings", 2, 100, "replay", "StartsUnfit", {"entries": 3, "table rows": 3}),
    ("tallies", 2, 40, "tally", "SumWraps", {"parts": 3, "entries": 20}),
    ("tallies", 2, 40, "tally", "TransferAtStart", {"parts": 1, "entries": 12}),
    ("takes", 2, 100, "takes", "SwitchAtTheEnd", {"segments": 2, "bytes": 150}),
    ("takes", 2, 100, "takes", "PieceAsPdu", {"segments": 1, "bytes": 95}),
    ("table", 2, 1000, "driver", "SendSizeSeven", {"bytes": 54}),
    ("table", 2, 1000, "driver", "MarkOnUdp", {"bytes": 70}),
    ("table", 2, 1000, "driver", "LimitOnTcp", {"bytes": 54}),
    ("walk", 2, 1000, "driver", "CutLast", {"bytes": 90}),
    ("frame", 2, 100, "driver", "RestCleared", {"bytes": 9}),
]


def second(*words):
    """The status of the second program is 0, or the comparison has failed; what it printed."""
    done = subprocess.run([SECOND, *map(str, words)], stdout=subprocess.PIPE, stderr=subprocess.PIPE, text=True, check=False)
    failed = "the two programs differ" in done.stderr
    if (done.returncode == 0) == failed:
        sys.exit(f"{words}: {done.stderr or done.stdout}")
    return failed, done.stdout


def sizes(printed):
    """Calls, the most calls there may be, and what the case has, each by its name."""
    found = re.search(r"^  smallest found in (\d+) calls? of the program \(at most (\d+)\): (.*)$", printed, re.M)
    counts = [part.split(" ", 1) for part in found[3].split(", ")]
    plural = {"entry": "entries", "table row": "table rows", "segment": "segments", "part": "parts"}
    return int(found[1]), int(found[2]), {plural.get(name, name): int(count) for count, name in counts}


def pasted(printed):
    """The bytes of the texts that stand in what was printed."""
    lines = [line[4:] for line in printed.split("  both answers")[0].splitlines() if line.startswith("    ")]
    at = lines.index("# script, for ./soad script to-bytes")
    return table.to_image("\n".join(lines[:at])) + script.to_bytes("\n".join(lines[at:]))


def stored(folder):
    name, = os.listdir(folder)
    with open(os.path.join(folder, name), encoding="ascii") as file:
        return bytes.fromhex("".join(line for line in file if not line.startswith("#")))


def tried(part, seed, count, answers, fault, most, folder):
    """What is wrong with a failing comparison, and what it came to."""
    wrong = []
    program = [SECOND, "simulate", answers]
    failed, printed = second("compare", part, "--seed", seed, "--count", count, "--store", folder, "--", *program, "--fault", fault)
    if not failed:
        return ["the comparison did not fail"], ""
    calls, bound, has = sizes(printed)
    wrong += [f"{has[name]} {name}, not {limit} at most" for name, limit in most.items() if has[name] > limit]
    wrong += [f"{calls} calls of {bound}"] * (calls >= bound)
    replayed = {"streams": "runs", "transfers": "runs", "silences": "runs"}.get(part, part)
    if not second("replay", replayed, folder, "--", *program, "--fault", fault)[0]:
        wrong.append("the fault is not seen on the stored case")
    others = [program] + ([RUN] if answers == "run" and RUN else [])
    wrong += [f"the stored case differs without the fault: {other}" for other in others if second("replay", replayed, folder, "--", *other)[0]]
    if answers == "run" and pasted(printed) != stored(folder):
        wrong.append("the text that was printed is not the case that was stored")
    return wrong, f"{', '.join(f'{count} {name}' for name, count in has.items())}, {calls} calls"


def main():
    bad = 0
    for part, seed, count, answers, fault, most in FAULTS:
        with tempfile.TemporaryDirectory() as folder:
            wrong, told = tried(part, seed, count, answers, fault, most, folder)
        print(f"{part}, fault {fault}: {told}" + "".join(f"; WRONG: {what}" for what in wrong))
        bad += bool(wrong)
    print(f"shrink: {len(FAULTS) - bad} passed, {bad} failed")
    return bad


if __name__ == "__main__":
    sys.exit(1 if main() else 0)
