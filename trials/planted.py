"""Tries the edits of trials/planted, wrong bodies that the prover has to refuse, in a copy of the repository.

They are of crates whose proof is too long for the gate to make once more for them. With --apply nothing is proved: that each
edit can still be made is all that is looked at.
"""

import argparse
import pathlib
import re
import shutil
import subprocess
import sys
import tempfile

from common import Failed, check

ROOT = pathlib.Path(__file__).resolve().parent.parent
PLANTED = ROOT / "trials" / "planted"
LINE = re.compile(r"(file|old|new): ?(.*)")


def edits(crates):
    """The edits of these crates, or of all that have some."""
    names = crates or sorted(folder.name for folder in PLANTED.iterdir())
    found = [edit for name in names for edit in sorted((PLANTED / name).glob("*.edit"))]
    check(found, f"no edits of {' '.join(names)}")
    return found


def apply(edit):
    """Makes an edit in memory: each old text has to stand once in its file."""
    texts, path, old = {}, None, None
    for kind, text in LINE.findall(edit.read_text()):
        if kind == "file":
            path = ROOT / "crates" / edit.parent.name / text
            texts.setdefault(path, path.read_text())
        elif kind == "old":
            old = text
        else:
            stands = texts[path].count(old)
            check(stands == 1, f"{edit.relative_to(ROOT)}: the old text stands {stands} times in {path.name}: {old}")
            texts[path] = texts[path].replace(old, text)


def without_work(folder, names):
    """Of what a crate's out/ has, the library alone is copied."""
    return [] if pathlib.Path(folder).name != "out" else [name for name in names if name != "rlib"]


def plant(folder, planted):
    """Copies the crates, with their libraries where these are proved already, and has these edits alone tried."""
    for name in ("crates.txt", "HANDLES"):
        shutil.copy(ROOT / name, folder)
    shutil.copytree(ROOT / "crates", folder / "crates", ignore=without_work)
    for old in folder.glob("crates/*/must-fail"):
        shutil.rmtree(old)
    for edit in planted:
        target = folder / "crates" / edit.parent.name / "must-fail"
        target.mkdir(exist_ok=True)
        shutil.copy(edit, target)


def try_all(planted):
    crates = sorted({edit.parent.name for edit in planted})
    with tempfile.TemporaryDirectory(prefix="plexil-planted-") as name:
        folder = pathlib.Path(name)
        plant(folder, planted)
        prover = subprocess.Popen(["rt", "must-fail", *crates], cwd=folder, stdout=subprocess.PIPE, text=True)
        refused = 0
        for line in prover.stdout:
            if "must-fail " in line:
                print(line, end="", flush=True)
                refused += ": refused, as it must be" in line
        prover.wait()
    check(refused == len(planted), f"{refused} of {len(planted)} edits were refused")
    return f"{refused} edits of {len(crates)} crates were refused"


def main():
    words = argparse.ArgumentParser(description=__doc__.splitlines()[0])
    words.add_argument("crates", nargs="*", help="whose edits, those of all where none is given")
    words.add_argument("--apply", action="store_true", help="prove nothing, and see only that each edit can be made")
    given = words.parse_args()
    try:
        planted = edits(given.crates)
        for edit in planted:
            apply(edit)
        print(f"{len(planted)} planted edits can be made" if given.apply else try_all(planted))
    except Failed as failed:
        print(f"FAILED: {failed}", file=sys.stderr)
        return 1
    return 0


if __name__ == "__main__":
    sys.exit(main())
