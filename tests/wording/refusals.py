"""refusals.py EDITS COMMAND ..: runs the command on each table of refusals.txt that such edits damage and compares what it prints."""
import os
import subprocess
import sys

HERE = os.path.dirname(os.path.abspath(__file__))


def damaged(table, edit):
    words = edit.split()
    if words[0] == "cut":
        return table[:int(words[1])]
    if words[0] == "append":
        return table + bytes(int(words[1]))
    at, data = int(words[1]), bytes.fromhex(words[2])
    return table[:at] + data + table[at + len(data):]


with open(os.path.join(HERE, "..", "..", "examples", "debarker.table"), "rb") as file:
    table = file.read()
with open(os.path.join(HERE, "refusals.txt")) as file:
    cases = [line.rstrip("\n").split(" | ", 1) for line in file if line.split()[0] in sys.argv[1].split()]
failed = 0
for edit, line in cases:
    printed = subprocess.run(sys.argv[2:], input=damaged(table, edit), stdout=subprocess.PIPE, check=False).stdout.decode()
    if printed != line + "\nREFUSED\n":
        failed += 1
        print(f"wording: after `{edit}` expected `{line}`, printed `{printed}`")
print(f"wording: {len(cases) - failed} passed, {failed} failed")
sys.exit(1 if failed or not cases else 0)
