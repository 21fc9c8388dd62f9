"""The programs of this repository that scripts run, and what a script ends with that runs nothing."""

import os
import sys

ROOT = os.path.dirname(os.path.dirname(os.path.abspath(__file__)))
SKIPPED = 77


def skip(why):
    """Ends a script that can't run here, with a status that is neither a pass nor a failure."""
    print(f"skipped: {why}")
    sys.exit(SKIPPED)


def crates_below(name):
    """A crate of the repository with all those that it stands on."""
    below = {}
    with open(os.path.join(ROOT, "crates.txt"), encoding="utf-8") as file:
        for line in file:
            head, colon, libraries = line.partition(":")
            if colon and not head.startswith("#"):
                below[head.split()[0]] = libraries.split()
    found, ahead = set(), [name]
    while ahead:
        crate = ahead.pop()
        if crate in below and crate not in found:
            found.add(crate)
            ahead.extend(below[crate])
    return sorted(found)


def sources(name):
    """The sources of a crate and of those below it."""
    for crate in crates_below(name):
        for part in ("src", "specs", "proofs"):
            for folder, _, files in os.walk(os.path.join(ROOT, "crates", crate, part)):
                for file in files:
                    if file.endswith((".rt", ".antt")):
                        yield os.path.join(folder, file)


def proved(name):
    """The compiled program of a crate. A script that has none is skipped; one that is older than its sources fails."""
    program = os.path.join(ROOT, "crates", name, "out", name)
    if not os.access(program, os.X_OK):
        skip(f"crates/{name}/out/{name} is missing: rt ci {name} makes it")
    made = os.path.getmtime(program)
    newer = next((path for path in sources(name) if os.path.getmtime(path) > made), None)
    if newer is not None:
        print(f"stale: crates/{name}/out/{name} is older than {os.path.relpath(newer, ROOT)}: rt ci {name} makes it anew")
        sys.exit(1)
    return program
