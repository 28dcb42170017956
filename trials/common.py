"""What the trials share: calls of the program, scripts, and what docs/FORMATS.md says of texts and journals."""

import argparse
import pathlib
import random
import re
import shutil
import subprocess
import sys
import tempfile

EXAMPLES = pathlib.Path(__file__).resolve().parent.parent / "examples"
PLAN = "A: { Start Lookup(go); }"
START = "event 0: start\nstep 1\n  A: INACTIVE -> WAITING\nquiet 1\n"


class Failed(Exception):
    """What a trial has found."""


def check(holds, found):
    if not holds:
        raise Failed(found)


def run_trial(trial, description, count, **further):
    """Reads the words of a trial, runs it in a new folder, and removes the folder where the trial holds. Of further words it
    has the name and the help; the trial gets each by its name."""
    words = argparse.ArgumentParser(description=description)
    words.add_argument("program", help="the built program")
    words.add_argument("--count", type=int, default=count, help=f"how often, {count} where it isn't given")
    words.add_argument("--seed", type=int, default=1, help="of the trial's choices")
    words.add_argument("--below", help="the folder in which the trial makes its own")
    for name, told in further.items():
        words.add_argument(f"--{name}", required=True, help=told)
    given = words.parse_args()
    program = pathlib.Path(given.program).resolve()
    folder = pathlib.Path(tempfile.mkdtemp(prefix="plexil-trial-", dir=given.below))
    try:
        more = {name: getattr(given, name) for name in further}
        print(trial(program, given.count, random.Random(given.seed), folder, **more))
    except Failed as failed:
        print(f"FAILED: {failed}\nthe files: {folder}", file=sys.stderr)
        return 1
    shutil.rmtree(folder)
    return 0


class Answer:
    """What a call came to."""

    def __init__(self, words, status, text, errors):
        self.words, self.status, self.text, self.errors = words, status, text, errors

    def __str__(self):
        return f"{self.words}: status {self.status}, {self.text[:300]!r} .. {self.text[-100:]!r}"


def begin(program, folder, *words, through=(), **how):
    """Starts a call of the program in the folder, through another program or at once. What it writes goes to files, so that it
    never waits for a reader."""
    files = {"stdout": tempfile.TemporaryFile(), "stderr": tempfile.TemporaryFile()}
    call = subprocess.Popen([*through, program, *words], cwd=folder, **files, **how)
    call.files, call.words = files, " ".join(map(str, words))
    return call


def end(call, is_loaded=True):
    """Waits for a call, and answers what it came to. A program that is loaded ends by itself, and without a word of errors."""
    call.wait()
    ended = Answer(call.words, call.returncode, *map(written, call.files.values()))
    check(not is_loaded or ended.status >= 0, f"{ended}: stopped by a signal")
    check(not is_loaded or ended.errors == "", f"{ended}: on standard error: {ended.errors[:300]}")
    return ended


def written(file):
    with file:
        file.seek(0)
        return file.read().decode(errors="replace")


def answer(program, folder, *words, is_loaded=True, **how):
    return end(begin(program, folder, *words, **how), is_loaded)


class Script:
    """A script of reports for the plan, of so many threads with so many posts each."""

    def __init__(self, threads, each):
        self.lines, self.posts = [], {}
        for thread in range(1, threads + 1):
            self.lines.append(f"thread {thread}")
            self.posts[thread] = []
            for number in range(each):
                self.lines.append(f"set x{number % 13} = {thread * 1000000 + number}")
                self.posts[thread].append(len(self.lines))

    def text(self):
        return "".join(line + "\n" for line in self.lines)

    def length(self):
        return sum(map(len, self.posts.values()))

    def check_history(self, history):
        """Each thread's entries are the first of its posts, each once and in their order."""
        for thread in {thread for thread, _ in history} | set(self.posts):
            lines = [line for other, line in history if other == thread]
            check(lines == self.posts.get(thread, [])[: len(lines)], f"lines of thread {thread}: {lines[:20]} ..")

    def trace(self, history):
        """The trace of a history."""
        events = (
            f"event {position}: thread {thread} line {line} {self.lines[line - 1]}\nquiet 0\n"
            for position, (thread, line) in enumerate(history, 1)
        )
        return START + "".join(events)

    def whole(self, history, before):
        """The text of a call that ends with this history, and found so many entries."""
        posted = list(enumerate(history, 1))[before:]
        replies = (f"thread {thread} line {line}: accepted {position}\n" for position, (thread, line) in posted)
        return self.trace(history) + "".join(sorted(replies, key=place_of)) + "plan running\n"


def place_of(reply):
    return int(reply.rsplit(" ", 1)[1])


def journal_bytes(plan, bodies):
    """The bytes of a journal of a plan with such entries."""
    records = b"".join(b"\1" + len(body).to_bytes(2, "big") + body for body in bodies)
    return b"\1PLXJRNL1" + len(plan.encode()).to_bytes(4, "big") + plan.encode() + records + b"\0"


def report(thread, line, name, value):
    """The bytes of an entry that reports that a state is true or false."""
    named = len(name).to_bytes(2, "big") + name.encode()
    return bytes([thread]) + line.to_bytes(4, "big") + b"\1" + named + bytes([0, 1 + value])


class Damaged(Exception):
    """The first place of damage."""


def journal_of(content):
    """The plan's text and the bodies of the entries for which these bytes stand; None where they are nothing."""
    if len(content) < 13 or content[0] == 0:
        return None
    for place in range(1, 8):
        if content[place] != b".PLXJRNL"[place]:
            raise Damaged(place)
    if content[8] not in b"12":
        raise Damaged(8)
    is_named = content[8] == ord("2")
    gate = 13 + int.from_bytes(content[9:13], "big")
    if gate > 13 + 1048576 or gate >= len(content):
        raise Damaged(9)
    plan, bodies = content[13:gate], []
    while content[gate] != 0:
        if len(bodies) == 100000:
            raise Damaged(gate)
        body = gate + 3
        after = body + int.from_bytes(content[gate + 1 : body], "big")
        if body > len(content) or after >= len(content):
            raise Damaged(gate + 1)
        if not is_entry(content[body:after], is_named):
            raise Damaged(body)
        bodies.append(content[body:after])
        gate = after
    return plan, bodies


def journal_at(path):
    """The same of a file, which isn't damaged."""
    try:
        return journal_of(path.read_bytes() if path.exists() else b"")
    except Damaged as place:
        raise Failed(f"{path}: damaged at byte {place}") from None


def history_of(path):
    """The threads and lines of a journal's entries; None where there is no journal."""
    journal = journal_at(path)
    return journal and [(body[0], int.from_bytes(body[1:5], "big")) for body in journal[1]]


NAME = rb"[A-Za-z_][A-Za-z0-9_]{0,63}"
PATH_NAME = rb"(?:" + NAME + rb"|#[A-Za-z0-9]{1,63})"


def is_entry(body, is_named):
    """Whether the bytes are those of an entry, or of one with the name of its interface or none."""
    try:
        rest = fields(body, is_named)
    except (IndexError, UnicodeDecodeError, ValueError):
        return False
    return rest == b""


def fields(body, is_named):
    """Takes an entry from the front of the bytes, and answers what is left."""
    if not (1 <= body[0] <= 8 and int.from_bytes(body[1:5], "big") > 0):
        raise ValueError
    rest = text(body[5:], rb"(?:" + NAME + rb")?", 64) if is_named else body[5:]
    kind, rest = rest[0], rest[1:]
    if kind == 1:
        rest = argumented(text(rest, NAME, 64))
        return value(rest)
    rest = text(rest, PATH_NAME + rb"(?:\." + PATH_NAME + rb")*", 5000)
    if kind == 2:
        if not 1 <= rest[0] <= 6:
            raise ValueError
        return rest[1:]
    if kind == 3:
        return value(rest)
    if kind in (4, 5):
        return rest
    raise ValueError


def text(rest, form, most):
    """Takes a text of a form, without a form any that is UTF-8."""
    length = int.from_bytes(rest[:2], "big")
    if len(rest) < 2 + length or length > most:
        raise ValueError
    taken = rest[2 : 2 + length]
    taken.decode()
    if form and not re.fullmatch(form, taken):
        raise ValueError
    return rest[2 + length :]


def argumented(rest):
    """Takes the arguments of a report."""
    count, rest = rest[0], rest[1:]
    if count > 8:
        raise ValueError
    for _ in range(count):
        if rest[0] == 0:
            raise ValueError
        rest = value(rest)
    return rest


def value(rest):
    """Takes a value."""
    tag, rest = rest[0], rest[1:]
    if tag <= 2:
        return rest
    if tag == 3:
        if len(rest) < 4:
            raise ValueError
        return rest[4:]
    if tag == 4:
        return text(rest, None, 1024)
    raise ValueError
