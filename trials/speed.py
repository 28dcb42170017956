"""Processor seconds of whole calls over large plans and long scripts, the best of some; of durable events, by the clock."""

import pathlib
import resource
import subprocess
import sys
import time

from common import PLAN, check, run_trial

NODES = 4096


def deep(levels):
    """All nodes, spread evenly over so many levels."""
    leaves, more = divmod(NODES - levels, levels)

    def block(level):
        inner = block(level + 1) if level + 1 < levels else ""
        return "{ NodeList: " + inner + " { }" * (leaves + (level < more)) + " }"

    return f"R: {block(0)}"


def idle(count):
    """A loop that a report of `level` sends round, beside nodes that wait for something else."""
    waiting = " ".join(f"W{n}: {{ Start Lookup(go{n}); }}" for n in range(count))
    loop = "S: Sequence { Integer seen = 0; Start Lookup(level) > seen; Repeat true; A: { seen = Lookup(level); } }"
    return f"R: Concurrence {{ {loop} {waiting} }}"


def megabyte():
    """Nodes with long conditions, about as many as a plan's bytes allow."""
    nodes = "\n".join(
        f'N{n}: {{ Start Lookup(a{n}) > 3 && Lookup(b{n % 50}) != "a text of some length, as they are" '
        f"|| (Lookup(c{n % 9}) + {n} * 3 - 7) % 11 == 4; Skip Lookup(d{n}) == {n}; Pre true; "
        f'Post isKnown(Lookup(e{n})); Drive{n % 20}({n}, "text{n}", {n}*2); }}'
        for n in range(4090)
    )
    return f"R: {{ NodeList:\n{nodes} }}"


def listed(nodes, before=""):
    return "R: { " + before + "NodeList: " + " ".join(nodes) + " }"


def reports(count, name):
    return "".join(f"set {name(n)} = {n + 1}\n" for n in range(count))


PLANS = {
    "deep": deep(62),
    "row": listed(["{ }"] * (NODES - 1)),
    "sequence": "R: Sequence { " + "{ } " * (NODES - 1) + "}",
    "writers": listed([f"{{ x = {n}; }}" for n in range(NODES - 1)], "Integer x; "),
    "queue": "R: Sequence { Integer x; " + " ".join(f"{{ x = {n}; }}" for n in range(NODES - 2)) + " }",
    "names": listed([f"{{ Start Lookup(x{n}) > 20000; }}" for n in range(1000)]),
    "name": listed([f"{{ Start Lookup(x) > {n + 20000}; }}" for n in range(1000)]),
    "idle40": idle(40),
    "idle4000": idle(4000),
    "megabyte": megabyte(),
    "one": PLAN,
}

SCRIPTS = {
    "names.s": reports(10_000, lambda n: f"x{n * 7 % 1000}"),
    "name.s": reports(10_000, lambda n: "x"),
    "level.s": reports(10_000, lambda n: "level"),
    "many.s": reports(100_000, lambda n: "x"),
    "durable.s": reports(5_000, lambda n: "x"),
    "threads.s": "".join(f"thread {t}\n" + reports(12_500, lambda n: f"x{t}") for t in range(1, 9)),
}

ROWS = [
    ("start of 4,096 nodes, 62 levels deep", "trace-start deep"),
    ("start of 4,096 nodes in one row", "trace-start row"),
    ("start of a `Sequence` of 4,095 nodes", "trace-start sequence"),
    ("start of 4,095 writers of one variable", "trace-start writers"),
    ("start of a `Sequence` of 4,094 writers of one variable", "trace-start queue"),
    ("10,000 reports, 1,000 nodes that each wait for a name of its own", "dry-run names names.s"),
    ("10,000 reports of one name, with which 1,000 nodes compare", "dry-run name name.s"),
    ("10,000 rounds of a loop beside 40 nodes that wait", "dry-run idle40 level.s"),
    ("10,000 rounds of a loop beside 4,000 nodes that wait", "dry-run idle4000 level.s"),
    ("100,000 reports to a plan of one node", "dry-run one many.s"),
    ("`check` of a plan of 0.9 MB", "check megabyte"),
    ("its start", "trace-start megabyte"),
    ("100,000 events with a journal in memory", "run one many.s JOURNAL"),
    ("`resume` over it", "resume many.s JOURNAL"),
    ("`trace` of it", "trace JOURNAL"),
    ("100,000 events of eight threads with a journal in memory", "run one threads.s JOURNAL"),
]
DURABLE = ("5,000 durable events, by the clock", "run one durable.s durable")


def seconds(program, words, folder, clock):
    """What a call takes, whose text goes to a file."""
    before, begun = resource.getrusage(resource.RUSAGE_CHILDREN), time.monotonic()
    with open(folder / "text", "wb") as text:
        status = subprocess.run([program, *words], cwd=folder, stdout=text, check=False).returncode
    ended, after = time.monotonic(), resource.getrusage(resource.RUSAGE_CHILDREN)
    check(status == 0, f"{words}: status {status}")
    return ended - begun if clock else after.ru_utime + after.ru_stime - before.ru_utime - before.ru_stime


def best(program, command, count, folder, journal, clock=False):
    words = [str(journal) if word == "JOURNAL" else word for word in command.split()]
    taken = []
    for _ in range(count):
        if words[0] == "run":
            pathlib.Path(folder, words[-1]).unlink(missing_ok=True)
        taken.append(seconds(program, words, folder, clock))
    return min(taken)


def speed(program, count, _, folder):
    for name, text in {**PLANS, **SCRIPTS}.items():
        (folder / name).write_text(text)
    memory = pathlib.Path("/dev/shm")
    journal = (memory if memory.is_dir() else folder) / f"plexil-speed-{folder.name}"
    for title, command in ROWS:
        print(f"| {title} | {best(program, command, count, folder, journal):.3f} |", flush=True)
    journal.unlink(missing_ok=True)
    print(f"| {DURABLE[0]} | {best(program, DURABLE[1], count, folder, journal, True):.3f} |")
    return f"{len(ROWS) + 1} rows, the best of {count} calls each"


if __name__ == "__main__":
    sys.exit(run_trial(speed, __doc__, 5))
