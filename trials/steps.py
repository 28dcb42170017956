"""Runs generated plans on the queued machine and on the plain stepper, step by step, by the program px_machine_tests.

First so many plans with their scripts; then a tenth of them with a node beside the root that runs away while the outside
reports `runaway`, which the script does before each of its posts; then a few of which each allocation is refused in turn.
Whatever the steppers tell has to be the same; a call of a stepper that had no memory is made again, and one elsewhere ends the
program.
"""

import re
import shlex
import subprocess
import sys

import refusing
from common import Failed, answer, check, run_trial

# So many rows go to one call of the program.
BATCH = 50
SIZES = (4, 6, 8, 10, 14)
# How many plans have each allocation refused, and how long a row of them may be.
REFUSED, SHORT = 5, 900

BLANK = r"(?:\s|//[^\n]*\n|/\*.*?\*/)*"
DECLARATION = re.compile(
    rf"{BLANK}(?:(?:Integer|Boolean|String)\b{BLANK})?(?:Command|Lookup)\b(?:[^;/]|//[^\n]*\n|/\*.*?\*/)*;", re.S
)
POST = re.compile(r"\s*(?:set|handle|return|abort|ack)\s")
PLACED = re.compile(r"(\s*(?:handle|return|abort|ack|wait\s+state)\s+)(\S.*)", re.S)
HOLD = re.compile(r"(\d+) rows hold, of (\d+) micro steps\n(?:(\d+) calls had no memory at first\n)?")


class Histories:
    """Plans with their scripts, each another, by a generator."""

    def __init__(self, generator, chance, folder):
        self.generator, self.chance, self.folder = shlex.split(generator), chance, folder

    def next(self):
        while True:
            seed, size = self.chance.randrange(1 << 31), self.chance.choice(SIZES)
            call = [*self.generator, str(seed), str(size), "P", "S"]
            subprocess.run(call, cwd=self.folder, check=True, capture_output=True)
            plan, script = ((self.folder / name).read_bytes() for name in "PS")
            try:
                return plan.decode(), script.decode()
            except UnicodeDecodeError:
                # A row is text.
                continue


def main(program, count, chance, folder, generator):
    histories = Histories(generator, chance, folder)
    plain = hold_each(program, folder, (histories.next() for _ in range(count)))
    running_away = hold_each(program, folder, (with_runaways(*histories.next()) for _ in range(count // 10)))
    told = f"steps: {count} plans, {plain} micro steps; {count // 10} with runaways, {running_away} micro steps"
    library = refusing.library(folder)
    if library is None:
        return f"{told}; no allocation refused, there is no cc"
    refused, again = refuse_each(program, folder, library, histories)
    return f"{told}; {refused} allocations refused in turn, {again} of them within the calls of the machine"


def spelled(plan, script):
    return f"{plan}\n----\n{script}\n====\n"


def written(folder, rows):
    """The file of these rows, to be read."""
    (folder / "rows").write_bytes("".join(rows).encode())
    return (folder / "rows").open("rb")


def hold_each(program, folder, histories):
    """Runs all rows, which have to hold, and answers how many micro steps they have."""
    steps, rows = 0, []
    for history in histories:
        rows.append(spelled(*history))
        if len(rows) == BATCH:
            steps += hold(program, folder, rows)
            rows = []
    return steps + hold(program, folder, rows)


def hold(program, folder, rows):
    with written(folder, rows) as file:
        now = answer(program, folder, stdin=file)
    said = HOLD.fullmatch(now.text)
    check(now.status == 0 and said and int(said[1]) == len(rows), f"{len(rows)} rows in the file rows: {now}")
    return int(said[2])


def with_runaways(plan, script):
    """The plan beside a node that runs away, and the script with an event before each post with which it does."""
    root = 0
    while declared := DECLARATION.match(plan, root):
        root = declared.end()
    away = "Away: { Start Lookup(runaway); Repeat true; }"
    lines = []
    for line in script.split("\n"):
        placed = PLACED.fullmatch(line)
        if POST.match(line):
            lines.append("set runaway = true")
        lines.append(f"{placed[1]}Both.{placed[2]}" if placed else line)
    return f"{plan[:root]}\nBoth: Concurrence {{\n{plan[root:]}\n{away} }}", "\n".join(lines)


def refuse_each(program, folder, library, histories):
    """Refuses each allocation over a few rows, and answers how many there were, and how often a call of a stepper was made again."""
    refused = again = 0
    for _ in range(REFUSED):
        row = spelled(*histories.next())
        while len(row) > SHORT:
            row = spelled(*histories.next())
        many, made = refuse_each_of(program, folder, library, row)
        refused, again = refused + many, again + made
    check(again > 0, "no allocation of a call of a stepper was refused")
    return refused, again


def refuse_each_of(program, folder, library, row):
    again = 0
    for number in range(1, 1000000):
        with written(folder, [row]) as file:
            now, is_refused = refusing.refused_answer(library, number, program, folder, is_loaded=False, stdin=file)
        said = HOLD.fullmatch(now.text)
        is_held = now.status == 0 and said and said[1] == "1"
        # Elsewhere the program ends, and has told nothing.
        check(is_held or is_refused and now.status == 1 and now.text == "", f"allocation {number}: {now}")
        again += bool(said and said[3])
        if not is_refused:
            return number - 1, again
    raise Failed("a million allocations")


if __name__ == "__main__":
    generator = "the words of a program that writes plans: it gets a seed, a size, and the files of a plan and a script behind them"
    sys.exit(run_trial(main, __doc__, 2000, generator=generator))
