"""Refuses each allocation of a call in turn, one number at a time, until a call has made them all.

The status is then the call's own or 10, or 8 or 9 where what was refused was wanted by the sink or the disk; what was printed
is a front of the text, and the journal stands for a front of its history. refusing.py says what it needs.
"""

import sys

import refusing
from common import EXAMPLES, Failed, START, answer, check, journal_at, journal_bytes, journal_of, report, run_trial

DRIVE = "A: { Drive(3); }"
HANDLED = bytes.fromhex("01 00000001 02 0001 41 06")
DRIVEN = journal_bytes(DRIVE, [HANDLED])
WAITING = "A: { Start Lookup(go); }"
ENDING = "A: { Start Lookup(go); End Lookup(done); }"
STANDING = "thread 1\nwait state A FINISHED\nset go = true\nthread 2\nwait events 1\nset go = true\n"


class Row:
    """A call, and what it finds. A journal without a byte is none."""

    def __init__(self, name, words, plan, script, journal=b""):
        self.name, self.words, self.plan, self.script, self.journal = name, words.split(), plan, script, journal


class Whole:
    """What a call comes to where nothing is refused: a status, a text, and a plan's text and entries."""

    def __init__(self, status, text, journal):
        self.status, self.text, self.journal = status, text, journal

    def allows(self, now, journal, at_first):
        """Whether it is this, or a want of memory with a front of it that has all that there was at first."""
        if now.status == 9:
            is_text = now.text == "disk fault\n"
        else:
            is_text = now.text == self.text if now.status == self.status else self.text.startswith(now.text)
        if journal is None or self.journal is None:
            is_front = journal == self.journal or not at_first
        else:
            count = len(journal[1])
            is_front = at_first <= count and journal == (self.journal[0], self.journal[1][:count])
        return now.status in (self.status, 8, 9, 10) and is_text and is_front


def main(program, count, chance, folder):
    library = refusing.library(folder)
    if library is None:
        return "refused memory: skipped, there is no cc"
    told = []
    for row in rows(program, folder):
        wholes = ORDERS if row.name == "two threads" else [whole_of(program, folder, row)]
        told.append(f"{refuse_each(program, folder, library, row, wholes, count)} of {row.name}")
    return "refused memory: each of " + ", ".join(told)


def rows(program, folder):
    """The calls of which each allocation is refused."""
    drive = (EXAMPLES / "safe-drive.ple").read_text()
    script = (EXAMPLES / "safe-drive.script").read_text()
    handle = "handle A COMMAND_SUCCESS\n"
    yield Row("ordinary use", "run P S J", DRIVE, handle)
    yield Row("two threads", "run P S J", ENDING, "thread 1\nset go = true\nset done = true\nthread 2\nset done = false\n")
    yield Row("waits that stand", "run P S J", WAITING, STANDING)
    yield Row("waits", "run P S J", WAITING, STANDING.replace("wait events 1\n", ""))
    yield Row("an open gate", "resume S J", DRIVE, handle, DRIVEN[:29] + b"\7" + DRIVEN[30:])
    yield Row("a closed gate", "resume S J", DRIVE, handle, DRIVEN[:29] + b"\0" + DRIVEN[30:])
    yield Row("a journal of one byte", "run P S J", DRIVE, handle, b"\7")
    yield Row("a check", "check P", drive, "")
    yield Row("a layout", "format P", drive, "")
    yield Row("a start", "trace-start P", drive, "")
    yield Row("a drive that is tried", "dry-run P S", drive, script)
    yield Row("a drive", "run P S J", drive, script)
    half = "".join(script.splitlines(keepends=True)[:4])
    yield Row("a drive that is resumed", "resume S J", drive, script, begun(program, folder, drive, half))
    yield Row("a drive that is printed", "trace J", drive, script, begun(program, folder, drive, script))


def begun(program, folder, plan, script):
    """The journal of a run."""
    row = Row("", "run P S J", plan, script)
    check(called(program, folder, row).status == 0, "a run that makes a journal")
    return (folder / "J").read_bytes()


def orders():
    """What the row of two threads may come to: its lines 2 and 3 are of one thread, and line 5 is of the other."""
    step = "step 1\n  A: "
    done = "EXECUTING -> ITERATION_ENDED SUCCESS\nstep 2\n  A: ITERATION_ENDED -> FINISHED SUCCESS\nquiet 2\n"
    lines = {2: ("go", True), 3: ("done", True), 5: ("done", False)}
    for order in ((2, 3, 5), (2, 5, 3), (5, 2, 3)):
        accepted = order[: order.index(3) + 1]
        text, replies, bodies = START, "", []
        for position, line in enumerate(order, 1):
            name, value = lines[line]
            thread = 2 if line == 5 else 1
            reply = f"accepted {position}" if line in accepted else "refused plan finished"
            replies += f"thread {thread} line {line}: {reply}\n"
            if line in accepted:
                text += f"event {position}: thread {thread} line {line} set {name} = {str(value).lower()}\n"
                text += {2: step + "WAITING -> EXECUTING\nquiet 1\n", 3: step + done, 5: "quiet 0\n"}[line]
                bodies.append(report(thread, line, name, value))
        yield Whole(0, text + replies + "plan finished SUCCESS\n", (ENDING.encode(), bodies))


ORDERS = list(orders())


def whole_of(program, folder, row):
    now = called(program, folder, row)
    check(now.status in (0, 11), f"{row.name}: {now}")
    return Whole(now.status, now.text, journal_at(folder / "J"))


def called(program, folder, row):
    """What the call answers."""
    lay(folder, row)
    return answer(program, folder, *row.words)


def lay(folder, row):
    """Writes the files that the call finds."""
    (folder / "P").write_text(row.plan)
    (folder / "S").write_text(row.script)
    (folder / "J").unlink(missing_ok=True)
    if row.journal:
        (folder / "J").write_bytes(row.journal)


def refuse_each(program, folder, library, row, wholes, most):
    """Refuses at most so many allocations, and answers how many there were."""
    before = journal_of(row.journal)
    at_first = len(before[1]) if before else 0
    for number in range(1, most + 1):
        lay(folder, row)
        now, is_refused = refusing.refused_answer(library, number, program, folder, *row.words)
        journal = journal_at(folder / "J")
        is_allowed = any(whole.allows(now, journal, at_first) for whole in wholes)
        check(is_allowed, f"{row.name}, allocation {number}: {now}, {journal}")
        if not is_refused:
            check(number > 1 and now.status in (0, 11), f"{row.name}: no allocation is counted")
            return number - 1
    raise Failed(f"{row.name}: over {most} allocations; give a greater --count")


if __name__ == "__main__":
    sys.exit(run_trial(main, __doc__, 100000))
