"""A fresh clone of this checkout under a path with spaces, with the proved programs and the library of target/ and nothing else of it."""
import os
import shutil
import subprocess

ROOT = os.path.dirname(os.path.dirname(os.path.dirname(os.path.abspath(__file__))))


def tracked():
    """The files that a clone has; where git cannot say, all but target/ and what rt makes."""
    listed = subprocess.run(["git", "ls-files", "-z"], cwd=ROOT, capture_output=True, check=False)
    if listed.returncode == 0 and listed.stdout:
        return [os.fsdecode(name) for name in listed.stdout.split(b"\0") if name and os.path.exists(os.path.join(os.fsencode(ROOT), name))]
    names = []
    for folder, folders, files in os.walk(ROOT):
        folders[:] = [name for name in folders if name not in ("target", "out", ".git")]
        names += [os.path.relpath(os.path.join(folder, name), ROOT) for name in files]
    return names


def copy(path, names):
    for name in names:
        os.makedirs(os.path.dirname(os.path.join(path, name)), exist_ok=True)
        shutil.copy(os.path.join(ROOT, name), os.path.join(path, name))


def bare(folder, name):
    """A clone in which nothing is built."""
    path = os.path.join(folder, "a path with spaces", name)
    copy(path, tracked())
    return path


def clone(folder):
    """The sources first: what is built must not be older."""
    path = bare(folder, "a clone")
    copy(path, ["target/bin/check_image", "target/bin/run", "target/bin/replay", "target/bin/shorten", "target/bin/tally", "target/staticlib/libsoad.a"])
    return path
