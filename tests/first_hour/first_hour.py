"""first_hour.py: tries README's commands and ./soad in a clone under a path with spaces. Each check below is a function; each thing it
compares counts as passed or failed."""
import os
import re
import subprocess
import sys
import tempfile
import traceback

from clone import ROOT, bare, clone

passed, failures = 0, []


def same(got, want, what):
    global passed
    if got == want:
        passed += 1
    else:
        failures.append(what)
        print(f"first hour: {what}\n  expected {want!r:.900}\n  got      {got!r:.900}")


def true(fact, what):
    same(bool(fact), True, what)


def contents(*name):
    with open(os.path.join(ROOT, *name), "rb") as file:
        return file.read()


def file(name, data):
    path = os.path.join(FOLDER, name)
    with open(path, "wb") as out:
        out.write(data)
    return path


def shell(command, *words, where=None, **more):
    """(status, standard output, standard error) of a command of bash, in the clone; "$@" in it are the words."""
    done = subprocess.run(["bash", "-c", command, "bash", *words], cwd=where or CLONE, env={**os.environ, **more}, stdin=subprocess.DEVNULL,
                          capture_output=True, check=False)
    return done.returncode, done.stdout.decode(), done.stderr.decode()


def soad(*words, **more):
    return shell('./soad "$@"', *words, **more)


TABLE, SHIFT, SHEET, DATAGRAM = "examples/debarker.table", "examples/shift.txt", "examples/sheet.txt", "examples/scanner.datagram"
RECORDING = "examples/long-shift.recording"
BENCH = ("bench-example", TABLE, "3", "0x3", DATAGRAM, "0x101", "180")


# 1. README's commands

def readme():
    """The commands of README.md, in order: those of its code blocks, and those within its sentences that are whole (a verb that takes files
    stands there without them); and the indented lines that follow each of the former. `./soad test` runs this test, and is the one command
    that is not run here."""
    commands, said, last = [], {}, None
    for line in contents("README.md").decode().split("\n"):
        if re.match("    (\\./|[a-z]+/run|rt |cc |bash )", line):
            last = line.strip()
            commands.append(last)
            said[last] = []
        elif line.startswith("    ") and last:
            said[last].append(line[4:])
        commands += re.findall("`(\\./soad (?:help|--version|[^`]* examples/[^`]*))`", line)
    true("./soad test" in commands, "README names ./soad test")
    return [command for command in commands if command != "./soad test"], said


def readme_commands():
    """Each command as it stands, in the clone: it ends with status 0, and prints the lines that README shows."""
    commands, said = readme()
    true(len(commands) >= 6, f"README has the commands {commands}")
    for command in commands:
        status, out, error = shell(command)
        same(status, 0, f"README: {command}: {error}")
        true(out, f"README: {command} prints something")
        if command.startswith(("./soad check", "./soad run", "./soad report", "./soad sheet", "./soad bench-example")):
            same(out.split("\n")[-2:], ["OK", ""], f"README: the last line of {command}")
        if command.startswith("./soad replay"):
            same(out.split("\n")[-2:], ["SAME", ""], f"README: the last line of {command}")
    for text in re.split("(?m)^    (?=\\./soad run )", contents("README.md").decode())[1:]:
        run, *lines = text.split("\n")
        shown = [line.strip() for line in lines if line.startswith("    entry ")]
        true(len(shown) >= 5, f"README shows lines of {run}")
        printed = shell(run)[1].split("\n")
        for line in shown:
            true(line in printed, f"README: {run} prints `{line}`")
    example = next((command for command in commands if command.startswith("./soad bench-example ")), "false")
    same(shell(example)[1], "".join(line + "\n" for line in said.get(example, [])), f"README: what {example} prints")


def elsewhere():
    """From another folder, through a link, through a link to a link, and through the path."""
    want = soad("check", TABLE)
    same(want[0], 0, "./soad check in the clone")
    link, other = os.path.join(FOLDER, "a link"), os.path.join(FOLDER, "other link")
    os.symlink(os.path.join(CLONE, "soad"), link)
    os.symlink("a link", other)
    table = os.path.join(CLONE, TABLE)
    for name in (link, other, os.path.join(CLONE, "soad")):
        same(shell('"$@"', name, "check", table, where="/"), want, f"{name} check, from /")
    same(shell('"./other link" check "$@"', table, where=FOLDER), want, "a link beside the caller")
    os.symlink(os.path.join(CLONE, "soad"), os.path.join(FOLDER, "soad"))
    same(shell('soad check "$@"', table, where="/", PATH=FOLDER + ":" + os.environ["PATH"]), want, "soad on the path")


# 2. Wrong arguments, statuses

def misuse(words, why):
    """Usage on standard error, nothing on standard output, status 2."""
    status, out, error = soad(*words)
    true((status, out) == (2, "") and error.startswith(f"soad: {why}\nusage: ./soad {words[0]}"), f"./soad {words}: {status} {out!r} {error!r}")


def arguments():
    for words in (("check",), ("check", ""), ("check", "", ""), ("check", TABLE, ""), ("check", "", "--help"), ("check", TABLE, TABLE)):
        misuse(words, "check takes a table")
    for words in (("run",), ("run", ""), ("run", TABLE), ("run", TABLE, ""), ("run", "", SHIFT), ("run", TABLE, SHIFT, "")):
        misuse(words, "run takes a table and a script")
    for words in (("sheet",), ("sheet", TABLE), ("sheet", TABLE, ""), ("sheet", "--short", TABLE), ("sheet", TABLE, SHEET, "")):
        misuse(words, "sheet takes a table and a sheet")
    for verb in ("table", "script"):
        for words in ((verb,), (verb, ""), (verb, "to-text"), (verb, "to-text", ""), (verb, "", TABLE), (verb, "to-text", TABLE, TABLE)):
            misuse(words, f"{verb} takes a direction and a file")
        misuse((verb, "sideways", TABLE), f"{verb}: there is no direction sideways")
    for verb in ("test", "prove"):
        for words in ((verb, ""), (verb, "all")):
            misuse(words, f"{verb} takes no argument but --help")
    for words in (BENCH[:1], BENCH[:6], (*BENCH, "1"), (*BENCH[:6], ""), (BENCH[0], "", *BENCH[2:])):
        misuse(words, "bench-example takes two files and four numbers")
    help = soad("help")
    same((help[0], help[2]), (0, ""), "./soad help")
    for words, why in (((), "a verb is missing"), (("",), "a verb is missing"), (("", TABLE), "a verb is missing"), (("toast",), "there is no verb toast")):
        same(soad(*words), (2, "", help[1] + f"soad: {why}\n"), f"./soad {words}")
    for words in (("report",), ("report", TABLE), ("report", TABLE, ""), ("report", TABLE, RECORDING, "")):
        misuse(words, "report takes a table and recordings")
    for verb in ("check", "run", "replay", "report", "record", "recording", "sheet", "table", "script", "bench-example", "prove", "test"):
        status, out, error = soad(verb, "--help")
        true((status, error) == (0, "") and out.startswith(f"./soad {verb}"), f"./soad {verb} --help")


def page():
    """The statuses that docs/EVENTS.md lays down: only 0, 1 and 2 stand there."""
    table = contents("docs", "EVENTS.md").decode().split("## Exit statuses")[1].split("\n## ")[0]
    same(re.findall(r"^\| (\d+) \|", table, re.M), ["0", "1", "2"], "statuses of docs/EVENTS.md")


def statuses():
    cut, wrong, missing = file("cut", b"\0\1\0\0\0\0\0\2\0"), file("wrong", b"\0\x10\0\0\0\0\0\0"), os.path.join(FOLDER, "missing")
    long, bad = "examples/debarker-too-long.table", file("bad.txt", b"group 0 udp\n")
    for words, status, last in ((("check", TABLE), 0, "OK"), (("run", TABLE, SHIFT), 0, "OK"), (("check", long), 1, "REFUSED"),
                                (("run", TABLE, cut), 1, "CUT"), (("run", TABLE, wrong), 1, "REFUSED"), (("run", long, SHIFT), 1, "REFUSED"),
                                (("report", TABLE, RECORDING), 0, "OK"), (("report", TABLE, RECORDING, wrong), 1, "REFUSED"),
                                (("report", long, RECORDING), 1, "REFUSED"),
                                (("sheet", TABLE, SHEET), 0, "OK"), (("sheet", TABLE, wrong), 1, "REFUSED"), (("sheet", long, SHEET), 1, "REFUSED"),
                                ((BENCH[0], long, *BENCH[2:]), 1, "REFUSED")):
        got = soad(*words)
        same((got[0], got[1].split("\n")[-2:]), (status, [last, ""]), f"./soad {words}: status and last line")
    for words, status in ((("table", "to-text", TABLE), 0), (("table", "to-image", bad), 1), (("script", "to-text", cut), 1), (("check", bad), 1)):
        same(soad(*words)[0], status, f"./soad {words}: status")
    for words in (("check", missing), ("run", missing, SHIFT), ("run", TABLE, missing), ("run", long, missing), ("report", TABLE, missing),
                  ("sheet", TABLE, missing), ("table", "to-text", missing), ("check", FOLDER)):
        status, out, error = soad(*words)
        true((status, out) == (2, "") and re.fullmatch("soad: cannot read the file .*\n", error), f"./soad {words}: {status} {error}")
    status, out, error = soad(BENCH[0], missing, *BENCH[2:])
    true((status, out) == (2, "") and error.endswith(f"bench: TABLE {missing}: cannot be opened\n"), "./soad bench-example of no table")


def version():
    """The project's version stands in one file; the newest entry of the changes is that version's."""
    number = contents("VERSION").decode()
    true(re.fullmatch(r"\d+\.\d+\.\d+\n", number), "VERSION is three numbers")
    kit = shell("rt version")[1]
    status, out, error = soad("--version")
    true(re.fullmatch(f"Crumhornray: version {re.escape(number)}Rattle kit: {re.escape(kit)}sources: .+\n", out), f"./soad --version: {out}")
    same((status, error), (0, ""), "./soad --version: status and standard error")
    same(re.findall("^## ([^ ,:\n]*)", contents("CHANGELOG.md").decode(), re.M)[:1], [number.strip()], "the newest entry of CHANGELOG.md")


# 3. What cannot be written

def plain(got, what, lines=1):
    """One plain line on standard error, and a status above 0 that docs/EVENTS.md has."""
    status, out, error = got
    good = status == 2 and out == "" and error.count("\n") == lines and error.endswith("\n")
    true(good and not re.search("Traceback|Error|Exception|line [0-9]+:|awk|cat:", error), f"{what}: status {status}, {error!r}")


def outputs():
    """A full disk and a closed output, for everything that ./soad prints."""
    for words in (("check", TABLE), ("check", "examples/debarker-too-long.table"), ("run", TABLE, SHIFT), ("run", "examples/debarker-too-long.table", SHIFT),
                  ("report", TABLE, RECORDING), ("report", "--json", TABLE, RECORDING), ("report", "--help"),
                  ("sheet", TABLE, SHEET), ("sheet", "--short", TABLE, SHEET), ("sheet", "--help"),
                  ("table", "to-text", TABLE), ("table", "to-image", "examples/debarker.txt"), ("script", "to-bytes", SHIFT), ("help",), ("--version",),
                  ("check", "--help"), ("run", "--help"), ("table", "--help"), ("script", "--help"), ("test", "--help"), ("bench-example", "--help")):
        plain(shell('./soad "$@" >/dev/full', *words), f"./soad {words} on a full disk")
        plain(shell('./soad "$@" >&-', *words), f"./soad {words} with a closed output")
    plain(shell('./soad "$@" >&-', *BENCH), "./soad bench-example with a closed output")
    status, _, error = shell('./soad "$@" >/dev/full', *BENCH)
    shown = [line for line in error.split("\n") if not line.startswith("+ ")]
    same((status, shown), (2, ["bench: the output cannot be written", ""]), "./soad bench-example on a full disk")
    for what in ("table bytes <examples/debarker.txt", "table forms"):
        plain(shell(f"text/convert {what} >/dev/full"), f"text/convert {what} on a full disk")
    for words in (("check", TABLE), ("run", TABLE, SHIFT), ("report", TABLE, RECORDING), ("sheet", TABLE, SHEET)):
        plain(soad(*words, TMPDIR=os.path.join(FOLDER, "missing")), f"./soad {words} without a folder for what is between")


def reader_gone():
    """A reader that has seen enough: no line, and no status above 2."""
    for words in (("check", TABLE), ("run", TABLE, SHIFT), ("report", TABLE, RECORDING), ("sheet", TABLE, SHEET), ("help",), ("table", "to-text", TABLE)):
        got = shell('{ sleep 0.1; ./soad "$@"; echo "status $?" >&2; } | :', *words)
        true(got[2] in ("status 0\n", "status 2\n"), f"./soad {words} to a reader that is gone: {got}")


def locked(command, *words):
    """A command of a user who may read the clone and not write there; root has to lay down the right to write anywhere."""
    if os.getuid() != 0:
        return shell(command, *words)
    return shell(f"setpriv --bounding-set -dac_override --inh-caps -dac_override bash -c '{command}' bash \"$@\"", *words)


def read_only():
    """What is built runs; what is not built says so in one line."""
    shell("chmod -R a-w .")
    true(locked("touch here")[0] != 0, "a clone that cannot be written")
    for words in (("check", TABLE), ("run", TABLE, SHIFT), ("report", TABLE, RECORDING), ("sheet", TABLE, SHEET), ("table", "to-text", TABLE)):
        got = locked('./soad "$@"', *words)
        same((got[0], got[2]), (0, ""), f"./soad {words} in a checkout that cannot be written")
    shell("chmod -R u+w . && rm -rf target && chmod -R a-w .")
    for words in (("check", TABLE), ("run", TABLE, SHIFT), ("report", TABLE, RECORDING), ("sheet", TABLE, SHEET), BENCH):
        plain(locked('./soad "$@"', *words), f"./soad {words} where nothing is built and nothing can be written")
    shell("chmod -R u+w .")


# 4. The first command: from sources that the gate has proved, and from others

def until(line, *words, where):
    """Starts ./soad and ends it as soon as standard error has a line that begins so (or so), or when it ends; what it said there."""
    with subprocess.Popen(["./soad", *words], cwd=where, stdin=subprocess.DEVNULL, stdout=subprocess.DEVNULL, stderr=subprocess.PIPE, text=True) as run:
        said = []
        for told in run.stderr:
            said.append(told)
            if told.startswith(line):
                break
        run.terminate()
    return said


def stored(folder):
    """The bytes of each case of a folder of tests/."""
    for name in sorted(os.listdir(os.path.join(ROOT, "tests", folder))):
        text = contents("tests", folder, name).decode()
        yield bytes.fromhex("".join(line for line in text.split("\n") if not line.startswith("#")))


def answers(path, inputs):
    """What a program prints of each input, and its status."""
    start = '. tests/machine.sh; "${kit_start[@]}" "$1"'
    return [subprocess.run(["bash", "-c", start, "bash", path], cwd=ROOT, input=data, capture_output=True, check=False) for data in inputs]


def sources():
    """Where nothing is built: a tree of the sum in crates.sum is compiled, and says so; the program answers as the one that the proof builds. A tree or a kit
    of another sum is proved. The sum is written here for the kit of this machine."""
    new = bare(FOLDER, "a new clone")
    true(shell(".ci/sum --write && .ci/sum --check", where=new)[0] == 0, ".ci/sum of a clone")
    sums = dict(line.split(" ", 1) for line in open(os.path.join(new, "crates.sum"), encoding="ascii").read().splitlines())
    same(contents("crates.sum").decode().split("\n")[0], f"sources {sums['sources']}", "crates.sum is the sum of this tree")
    said = until(("soad: built", "soad: proving"), "check", TABLE, where=new)
    if said[1:2] == ["soad: this kit does not build them from sources\n"]:
        true(said[2].startswith("soad: proving "), f"./soad check with a kit that builds nothing without a proof: {said}")
        return print("first hour: this kit builds no program without a proof, so ./soad proves it")
    shell("rm -rf target", where=new)
    status, out, error = shell('./soad "$@"', "check", TABLE, where=new)
    same((status, out), soad("check", TABLE)[:2], "./soad check, built from sources")
    same(error.split("\n")[0], "soad: building check_image from sources as proved by the gate at this sum; ./soad prove checks them here", "what is said of it")
    true(error.endswith(f"; sources {sums['sources']}\n"), f"the sum is said: {error}")
    for words in (("run", TABLE, SHIFT), ("run", "examples/service-table.txt", "examples/service.txt"), ("run", "examples/firmware-table.txt", "examples/firmware.txt"),
                  ("replay", "examples/debarker.txt", RECORDING), ("replay", "examples/debarker.txt", "examples/long-shift-changed.recording", "--each"),
                  ("report", "examples/debarker.txt", RECORDING, "--json"), ("sheet", "examples/debarker.txt", SHEET)):
        same(shell('./soad "$@"', *words, where=new)[:2], soad(*words)[:2], f"./soad {words}, built from sources")
    table = contents(TABLE)
    for name, inputs in (("check_image", [table, *stored("images")]), ("run", [table, *stored("scripts")]), ("replay", [table, *stored("recordings")]),
                         ("tally", [table, *stored("tallies")]), ("shorten", [table])):
        ours, theirs = ([(done.returncode, done.stdout) for done in answers(path, inputs)] for path in (
            os.path.join(new, "target/sources", name), os.path.join(ROOT, "target/bin", name)))
        same(ours, theirs, f"{name} built from sources answers as the one that the proof builds")
    same(shell('./soad "$@"', "check", TABLE, where=new)[2], "", "./soad check, built before")
    true(shell("./soad --version", where=new)[1].endswith(f"sources: as proved by the gate at this sum, {sums['sources']}\n"), "./soad --version of that sum")
    for what, change in (("another source", "echo >>crates/wire/src/lib.rt"), ("a file more", "touch crates/wire/src/more"), ("a file less", "rm crates/wire/specs/Lib.antt"),
                         ("another list of crates", "echo >>crates.txt"), ("another kit", "sed -i 's/^kit .*/kit of another day/' crates.sum"), ("no sum", "rm crates.sum")):
        shell(f"cp -a . ../changed && cd ../changed && {change} && rm -rf target", where=new)
        changed = os.path.join(FOLDER, "a path with spaces", "changed")
        said = until("soad: proving ", "check", TABLE, where=changed)
        same(said[:1], ["soad: these sources, or this kit, are not those that the gate has proved (crates.sum)\n"], f"./soad check of {what}")
        true(said[-1].startswith("soad: proving "), f"./soad check of {what} proves: {said}")
        if "kit" not in what:
            same(shell(".ci/sum --check", where=changed)[:2], (1, "rule broken: crates.sum is not the sum of this tree (.ci/sum --write)\n"), f"the gate, of {what}")
        shell("rm -rf ../changed", where=new)


def proves():
    """In this checkout, where all is proved: nothing is left to prove, and the last word is OK."""
    status, out, error = shell("./soad prove", where=ROOT)
    same((status, out), (0, "OK\n"), f"./soad prove: {error}")
    true(re.search(r"\nsoad: check_image and run and replay and tally and shorten proved and built \([0-9]+ crates, [0-9]+ s\)\n$", error), f"./soad prove says what: {error}")


# 5. The table in its own file

def tables():
    """`run` refuses what `check` refuses, in the same words, whatever stands in the script."""
    image, shift = contents(TABLE), contents(SHIFT)
    data = subprocess.run([os.path.join(ROOT, "text", "convert"), "script", "bytes"], input=shift, stdout=subprocess.PIPE, check=True).stdout
    entry = data[:12]
    scripts = {"the shift": shift, "the bytes that the table lacks": image[-12:], "lacking bytes and entries": image[-12:] + data, "nothing": b"",
               "an unknown event": b"\0\x10\0\0\0\0\0\0", "a text with a fault": b"tick one\n"}
    for name, table in (("12 bytes short", image[:-12]), ("with an entry behind it", image + entry), ("one byte short", image[:-1]),
                        ("one byte long", image + b"\0"), ("of 36 bytes", image[:36]), ("of 35 bytes", image[:35]), ("of no bytes", b""),
                        ("of 3,000 bytes", image + bytes(2736)), ("of 70,000 bytes", image + bytes(69736)), ("twice", image + image),
                        ("with a bad row and a bad length", image[:36] + b"\7" + image[37:-1]), ("with a bad entry of contents", image[:4] + b"\7" + image[5:])):
        path = file("table", table)
        want = soad("check", path)
        place = want[1].split(":")[0]
        first = 0 if len(table) < 36 else 4 if "contents" in name else 2
        same((want[0], place), (1, f"refused 1 at byte {first}"), f"./soad check of a table {name}")
        for what, script in scripts.items():
            if "12 bytes" in name or "entry" in name or what == "the shift":
                same(soad("run", path, file("script", script)), want, f"./soad run of a table {name}, with {what}")
    same(soad("run", file("table", image), file("script", data))[0], 0, "./soad run of the table as it is")


# 6. docs/EVENTS.md

def listing():
    """The listing that the page shows, and a line of a refusal."""
    lines = contents("tests", "images", "whole.hex").decode().split("\n")
    image = bytes.fromhex("".join(line for line in lines if not line.startswith("#")))
    shown = contents("docs", "EVENTS.md").decode().split("## What `./soad check` prints")[1].split("\n## ")[0]
    block = [line[4:] for line in shown.split("\n") if line.startswith("    ")]
    same(soad("check", file("whole", image)), (0, "".join(line + "\n" for line in block[:-1]), ""), "docs/EVENTS.md: the listing of ./soad check")
    same(soad("check", file("long", contents(TABLE) + b"\0"))[1], block[-1] + "\nREFUSED\n", "docs/EVENTS.md: the line of a refusal")


def room():
    """A room above 1,472 answers as 1,472 and prints as it was given."""
    got = soad("run", TABLE, file("rooms.txt", b"take 0 1472\ntake 0 1473\ntake 0 4294967295\n"))[1].split("\n")
    for number, size in ((1, 1472), (2, 1473), (3, 4294967295)):
        line = f"entry {number}, line {number}: take waiting of connection 0 into {size} bytes: 0 done; 0 bytes .*"
        true(re.fullmatch(line, got[number - 1]), f"a room of {size} bytes: {got}")


with tempfile.TemporaryDirectory() as FOLDER:
    CLONE = clone(FOLDER)
    for check in (readme_commands, elsewhere, arguments, page, statuses, version, outputs, reader_gone, sources, proves, tables, listing, room, read_only):
        try:
            check()
        except Exception:
            failures.append(check.__name__)
            traceback.print_exc(file=sys.stdout)
print(f"first_hour: {passed} passed, {len(failures)} failed")
sys.exit(1 if failures else 0)
