"""Runs over a file system that fills, and over one that is mounted away under the run.

A run over one that is full ends with 9; its journal is nothing or stands for a front of what the script posts. Once there is
room, `resume`, or `run` where there is no journal, goes on to the end. A run whose file system is mounted away goes on in the
file that it holds, and when it is mounted again the journal is there. Only root may mount; another is told so.
"""

import contextlib
import os
import shutil
import subprocess
import sys
import time

from common import PLAN, Script, answer, begin, check, end, history_of, run_trial

POSTS = 2000
PAGE = 4096


def main(program, count, chance, folder):
    (folder / "P").write_text(PLAN)
    mount = folder / "mount"
    mount.mkdir()
    if os.geteuid() != 0 or not may_mount(mount):
        return "file systems: skipped, one may not mount here"
    filled = sum(fill(program, chance, folder, mount) for _ in range(count))
    told = f"file systems: {count} runs, of which {filled} met a full one"
    if shutil.which("mkfs.ext4") is None:
        return told + "; none was mounted away, there is no mkfs.ext4"
    image = folder / "image"
    away = sum(mount_away(program, chance, folder, image, mount) for _ in range(count))
    return told + f"; {count} runs whose file system was mounted away, {away} of them under way"


def ran(*words):
    return subprocess.run(words, capture_output=True, check=False).returncode == 0


def may_mount(mount):
    return ran("mount", "-t", "tmpfs", "none", mount) and ran("umount", mount)


@contextlib.contextmanager
def mounted(mount, *words):
    check(ran("mount", *words, mount), f"mount {words}")
    try:
        yield
    finally:
        ran("umount", "-l", mount)


def script_for(folder, threads):
    script = Script(threads, POSTS // threads)
    (folder / "S").write_text(script.text())
    return script


def fill(program, chance, folder, mount):
    """Runs over a file system of some pages, and goes on once it has room. Whether it was full before."""
    script = script_for(folder, chance.choice((1, 8)))
    journal = mount / "J"
    with mounted(mount, "-t", "tmpfs", "-o", f"size={chance.randrange(1, 16) * PAGE}", "none"):
        # something else has some of the room
        (mount / "other").write_bytes(bytes(chance.randrange(PAGE)))
        first = answer(program, folder, "run", "P", "S", journal)
        before = history_of(journal)
        script.check_history(before or [])
        if first.status == 0:
            check(first.text == script.whole(before, 0), str(first))
            return False
        check((first.status, first.text) == (9, "disk fault\n"), str(first))
        check(ran("mount", "-o", "remount,size=1m", mount), "a larger file system")
        finish(program, folder, script, journal, before)
    return True


def finish(program, folder, script, journal, before):
    """Goes on behind a journal, or begins anew where there is none, and comes to the end."""
    words = ("run", "P", "S", journal) if before is None else ("resume", "S", journal)
    last = answer(program, folder, *words)
    history = history_of(journal)
    check(last.status == 0 and len(history) == script.length(), str(last))
    script.check_history(history)
    check(history[: len(before or [])] == (before or []), "entries are gone")
    check(last.text == script.whole(history, len(before or [])), str(last))


def mount_away(program, chance, folder, image, mount):
    """Mounts the file system of a run away, and again once the run has ended. Whether the run was under way."""
    script = script_for(folder, chance.choice((1, 8)))
    with open(image, "wb") as file:
        file.truncate(8 << 20)
    check(ran("mkfs.ext4", "-q", "-F", image), "a new file system")
    journal = mount / "J"
    with mounted(mount, "-o", "loop", image):
        call = begin(program, folder, "run", "P", "S", journal)
        goal = chance.randrange(20 * POSTS)
        while call.poll() is None and not (journal.exists() and journal.stat().st_size >= goal):
            time.sleep(0.0005)
        is_under_way = call.poll() is None
        check(ran("umount", "-l", mount), "a lazy unmount")
        first = end(call)
    with mounted(mount, "-o", "loop", image):
        history = history_of(journal)
        check(first.status == 0 and first.text == script.whole(history, 0), str(first))
        check(len(history) == script.length(), f"{len(history)} entries")
        trace = answer(program, folder, "trace", journal)
        check(trace.status == 0 and trace.text == script.whole(history, len(history)), str(trace))
    return is_under_way


if __name__ == "__main__":
    sys.exit(run_trial(main, __doc__, 50))
