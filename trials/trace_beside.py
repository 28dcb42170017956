"""Prints the journal of a run of 20,000 lines while it goes on, again and again.

Each trace is that of a history that stood, so each is a front of the next, and the run knows nothing of it.
"""

import sys

from common import PLAN, Script, answer, begin, check, end, history_of, run_trial

POSTS = 20000


def main(program, count, chance, folder):
    (folder / "P").write_text(PLAN)
    traces, runs = 0, 0
    while traces < count:
        traces += beside_one_run(program, count - traces, chance.choice((1, 8)), folder)
        runs += 1
    return f"trace beside a run: {traces} traces beside {runs} runs of {POSTS} lines"


def beside_one_run(program, most, threads, folder):
    """Makes at most so many traces while a run goes on, and answers how many there were."""
    script = Script(threads, POSTS // threads)
    (folder / "S").write_text(script.text())
    journal = folder / "J"
    journal.unlink(missing_ok=True)
    run = begin(program, folder, "run", "P", "S", "J")
    traces = []
    while run.poll() is None and len(traces) < most:
        traces += trace_now(program, folder, bool(traces))
    ended = end(run)
    history = history_of(journal)
    script.check_history(history)
    check(ended.status == 0 and ended.text == script.whole(history, 0), str(ended))
    check_fronts([*traces, script.trace(history)])
    return len(traces)


def trace_now(program, folder, is_there):
    """The trace of what the journal has now, without its last line; none before there is a journal."""
    now = answer(program, folder, "trace", "J")
    if not is_there and (now.status, now.text) == (5, "journal refused: none\n"):
        return []
    check(now.status == 0 and now.text.endswith("\nplan running\n"), str(now))
    return [now.text.removesuffix("plan running\n")]


def check_fronts(traces):
    for number, (trace, following) in enumerate(zip(traces, traces[1:]), 1):
        check(following.startswith(trace), f"trace {number} is no front of the next")


if __name__ == "__main__":
    sys.exit(run_trial(main, __doc__, 100))
