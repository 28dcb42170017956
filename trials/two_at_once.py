"""Starts two commands that write to one journal at once: twice `resume`, and twice `run` over a file that isn't there.

One at a time has the journal: the other ends with 9, or comes when the first is done. Each line is accepted once.
"""

import sys

from common import PLAN, Script, answer, begin, check, end, history_of, run_trial

POSTS = 1000


def main(program, count, chance, folder):
    (folder / "P").write_text(PLAN)
    (folder / "begun").write_text(Script(1, 1).text())
    met = {"resume": 0, "run": 0}
    for number in range(count):
        threads = chance.choice((1, 8))
        script = Script(threads, POSTS // threads)
        (folder / "S").write_text(script.text())
        met["resume"] += both(program, folder, script, ("resume", "S", "J"), 1)
        met["run"] += both(program, folder, script, ("run", "P", "S", "J"), 0)
    return f"two at once: {count} pairs of `resume`, of which {met['resume']} met; {count} of `run`, of which {met['run']} met"


def both(program, folder, script, words, before):
    """Starts the command twice over a journal with so many entries, and answers whether one kept the other away."""
    journal = folder / "J"
    journal.unlink(missing_ok=True)
    if before:
        begun = answer(program, folder, "run", "P", "begun", "J")
        check(begun.status == 0, str(begun))
    answers = [end(call) for call in [begin(program, folder, *words) for _ in range(2)]]
    history = history_of(journal)
    check(history is not None and len(history) == script.length(), f"{history and len(history)} entries")
    script.check_history(history)
    whole = script.whole(history, before)
    first, other = sorted(answers, key=lambda it: (it.status, it.text != whole))
    check(first.status == 0 and first.text == whole, str(first))
    later = (5, "journal refused: exists\n") if words[0] == "run" else (0, script.whole(history, len(history)))
    check((other.status, other.text) in ((9, "disk fault\n"), later), str(other))
    return other.status == 9


if __name__ == "__main__":
    sys.exit(run_trial(main, __doc__, 100))
