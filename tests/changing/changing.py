"""changing.py: pastes the blocks of docs/CHANGING.md into a copy of crates/, second/ and bench/, in order, and checks the crate that the page changes
before its code is changed and after. rt builds the crates below it there, over what this machine has proved of them."""
import os
import re
import shutil
import subprocess
import sys
import tempfile

ROOT = os.path.dirname(os.path.dirname(os.path.dirname(os.path.abspath(__file__))))
CRATE = "send_destination"
passed, failed = 0, 0


def true(fact, what):
    global passed, failed
    passed, failed = passed + bool(fact), failed + (not fact)
    if not fact:
        print(f"changing: {what}")


def contents(*name):
    with open(os.path.join(*name), encoding="utf-8") as file:
        return file.read()


def blocks():
    """(file, old, new) of each edit of the page, in order; old is None for a file that is written whole."""
    for block in re.findall(r"(?:^    .*\n|^\n(?=    ))+", contents(ROOT, "docs", "CHANGING.md"), re.M):
        text = re.sub("^    ", "", block.strip("\n"), flags=re.M)
        whole = re.match(r"file: (.*)\nwhole:\n", text)
        if whole:
            yield whole[1], None, text[whole.end():] + "\n"
            continue
        for edit in re.split(r"\n\n(?=file: )", text):
            parts = re.fullmatch(r"file: (.*)\nold: (.*)\nnew: ((?:.|\n)*)", edit)
            true(parts, f"docs/CHANGING.md has a block that is no edit: {edit!r:.200}")
            if parts:
                yield parts[1], parts[2], parts[3].replace("\n     ", "\n")


def paste(folder, name, old, new):
    path = os.path.join(folder, name)
    if old is not None:
        before = contents(path)
        true(before.count(old) == 1, f"docs/CHANGING.md: `{old}` stands {before.count(old)} times in {name}")
        new = before.replace(old, new)
    with open(path, "w", encoding="utf-8") as file:
        file.write(new)


def copy(folder):
    for name in ("crates", "second/src", "bench"):
        shutil.copytree(os.path.join(ROOT, name), os.path.join(folder, name), ignore=lambda at, names: {"out"} & {*names} if os.path.dirname(at) == os.path.join(ROOT, "crates") else ())
    shutil.copy(os.path.join(ROOT, "crates.txt"), folder)


def says(folder):
    """What rt check says of each function of the crate."""
    done = subprocess.run(["rt", "check"], cwd=os.path.join(folder, "crates", CRATE), stdin=subprocess.DEVNULL, stdout=subprocess.PIPE, stderr=subprocess.STDOUT, check=False)
    return dict(re.findall(f"^fn {CRATE}::([a-z_]*): ([^;\n]*)", done.stdout.decode(errors="replace"), re.M)), done.stdout.decode(errors="replace")


with tempfile.TemporaryDirectory() as FOLDER:
    copy(FOLDER)
    edits = list(blocks())
    true(len(edits) >= 8, f"docs/CHANGING.md has {len(edits)} edits")
    definition = [edit for edit in edits if edit[0].startswith(f"crates/{CRATE}/specs/")]
    for edit in definition:
        paste(FOLDER, *edit)
    said, log = says(FOLDER)
    refused = sorted(name for name, verdict in said.items() if verdict != "proved")
    true(refused == ["sent", "timer_after"], f"with the definition alone refused are {refused}: {log[-1500:]}")
    for edit in edits:
        if edit not in definition:
            paste(FOLDER, *edit)
    said, log = says(FOLDER)
    true(said and set(said.values()) == {"proved"} and "logic=proved" in log, f"with every edit {said}: {log[-1500:]}")
print(f"changing: {passed} passed, {failed} failed")
sys.exit(1 if failed else 0)
