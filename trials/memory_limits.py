"""Limits the memory that a call may have, in steps from 2 MB up, until all calls have enough.

Each call prints its whole text or says that memory ran out, with status 10, or with 9 where it ran out for the disk; what it
printed is a front of the text. Nothing is lost: a journal stands for a front of the history, and is resumed to its end. With
a limit at which the system doesn't load the program, nothing is printed and no journal is touched. The program may be the
launcher, which is loaded with less.
"""

import sys

from common import EXAMPLES, PLAN, Failed, Script, answer, check, history_of, run_trial

MEGABYTE = 1 << 20
STEP = 1 << 18
POSTS = 20_000
CALLS = ("check E", "format E", "trace-start E", "dry-run P S", "run P S J", "trace K", "resume S H")


def main(program, count, chance, folder):
    script = Script(8, POSTS // 8)
    prepare(program, folder, script)
    wholes = {words: whole_of(program, folder, words) for words in CALLS}
    limits = [2 * MEGABYTE + step * STEP for step in range(count)]
    loaded = [limit for limit in limits if is_loaded(program, folder, limit)]
    for limit in [limit for limit in limits if limit not in loaded]:
        check_unloaded(program, folder, limit)
    refused, enough = 0, 0
    for limit in loaded:
        statuses = [limited(program, folder, script, words, whole, limit) for words, whole in wholes.items()]
        enough += statuses.count(0)
        refused += len(statuses) - statuses.count(0)
        if statuses.count(0) == len(statuses):
            low, high = loaded[0] / MEGABYTE, limit / MEGABYTE
            told = f"from {low:g} MB, where it is loaded, to {high:g} MB"
            return f"memory limits: {told} {refused} calls were refused, {enough} had enough"
    raise Failed("no limit was enough for all calls; give a greater --count")


def prepare(program, folder, script):
    """A plan, a script with its journal, and a journal of its first lines."""
    (folder / "E").write_text((EXAMPLES / "safe-drive.ple").read_text())
    (folder / "P").write_text(PLAN)
    (folder / "S").write_text(script.text())
    (folder / "first").write_text(Script(1, 1).text())
    for lines, journal in (("S", "K"), ("first", "begun")):
        made = answer(program, folder, "run", "P", lines, journal)
        check(made.status == 0, str(made))


def fresh(folder):
    """Takes away the journal of a run, and lays down one to be resumed."""
    (folder / "J").unlink(missing_ok=True)
    (folder / "H").write_bytes((folder / "begun").read_bytes())


def whole_of(program, folder, words):
    fresh(folder)
    whole = answer(program, folder, *words.split())
    check(whole.status == 0, str(whole))
    return whole


def with_limit(limit):
    """The shell, through which a program has so much memory."""
    return ("sh", "-c", f'ulimit -c 0; ulimit -v {limit // 1024}; exec "$@"', "sh")


def is_loaded(program, folder, limit):
    """Whether the program comes to its first words with so much memory."""
    return answer(program, folder, "no", "command", is_loaded=False, through=with_limit(limit)).status in (2, 10)


def check_unloaded(program, folder, limit):
    """Calls that the system doesn't load print nothing and touch no journal."""
    for words in CALLS:
        fresh(folder)
        now = answer(program, folder, *words.split(), is_loaded=False, through=with_limit(limit))
        check(now.text == "" and not (folder / "J").exists(), f"{limit}: {now}")
        check((folder / "H").read_bytes() == (folder / "begun").read_bytes(), f"{limit}: {now}")


def limited(program, folder, script, words, whole, limit):
    """The status of the call with so much memory."""
    fresh(folder)
    now = answer(program, folder, *words.split(), through=with_limit(limit))
    check(now.status in (0, 9, 10), f"{limit}: {now}")
    journal = words.split()[-1]
    if journal in ("J", "H"):
        history = history_of(folder / journal)
        text = script.whole(history or [], 1 if journal == "H" else 0)
        check_rest(program, folder, script, journal, history, limit)
    else:
        text = whole.text
    wanted = {0: now.text == text, 9: now.text == "disk fault\n", 10: text.startswith(now.text)}
    check(wanted[now.status], f"{limit}: {now}")
    return now.status


def check_rest(program, folder, script, journal, history, limit):
    """The journal stands for a front, and is resumed to its end with all memory."""
    script.check_history(history or [])
    words = ("run", "P", "S", journal) if history is None else ("resume", "S", journal)
    rest = answer(program, folder, *words)
    last = history_of(folder / journal)
    check(rest.status == 0 and len(last) == POSTS, f"{limit}: {rest}")
    check(last[: len(history or [])] == (history or []), f"{limit}: entries are gone")
    check(rest.text == script.whole(last, len(history or [])), f"{limit}: {rest}")


if __name__ == "__main__":
    sys.exit(run_trial(main, __doc__, 400))
