"""Kills runs of one and of eight threads at any moment, with SIGKILL, and resumes them until they come to their end.

Behind each kill the journal stands for a front of what the script's threads may post, which goes on from what stood there
before, or there is none yet; and the run that comes to its end prints the whole text.
"""

import signal
import sys
import time

from common import PLAN, Script, answer, begin, check, end, history_of, run_trial

POSTS = 4000
KILLS_OF_A_RUN = 10


def main(program, count, chance, folder):
    (folder / "P").write_text(PLAN)
    killed = {1: 0, 8: 0}
    ended = 0
    while sum(killed.values()) < count:
        threads = 1 if killed[1] <= killed[8] else 8
        left = count - sum(killed.values())
        killed[threads] += whole_run(program, min(left, KILLS_OF_A_RUN), threads, chance, folder)
        ended += 1
    return f"kill: {killed[1]} kills of one thread and {killed[8]} of eight, {ended} runs came to their end"


def whole_run(program, kills, threads, chance, folder):
    """Runs a script to its end with at most so many kills, and answers how many there were."""
    script = Script(threads, POSTS // threads)
    (folder / "S").write_text(script.text())
    journal = folder / "J"
    journal.unlink(missing_ok=True)
    killed, before = 0, None
    while killed < kills:
        call = begin(program, folder, *words_for(before))
        if not kill_on_the_way(call, journal, kills - killed, chance):
            break
        killed += 1
        after = history_of(journal)
        is_kept = before is None or (after is not None and after[: len(before)] == before)
        check(is_kept, f"entries are gone behind kill {killed}")
        script.check_history(after or [])
        before = after
    else:
        call = begin(program, folder, *words_for(before))
    finish(program, end(call), script, before or [], folder)
    return killed


def words_for(history):
    return ("run", "P", "S", "J") if history is None else ("resume", "S", "J")


def kill_on_the_way(call, journal, parts, chance):
    """Kills the call once the journal has grown by a part of what it lacks. False where the call was at its end before."""
    size = journal.stat().st_size if journal.exists() else 0
    lacks = max(20 * POSTS - size, 0)
    goal = size + chance.randrange(lacks // parts + 1)
    while call.poll() is None:
        if (journal.stat().st_size if journal.exists() else 0) >= goal:
            break
        time.sleep(0.0002)
    time.sleep(chance.random() * 0.002)
    if call.poll() is not None:
        return False
    call.send_signal(signal.SIGKILL)
    return call.wait() == -signal.SIGKILL


def finish(program, last, script, before, folder):
    """The call that came to its end has printed the whole text, and the journal stands for it."""
    history = history_of(folder / "J")
    check(len(history) == script.length(), f"{len(history)} entries")
    script.check_history(history)
    check(history[: len(before)] == before, "entries are gone at the end")
    check(last.status == 0 and last.text == script.whole(history, len(before)), str(last))
    trace = answer(program, folder, "trace", "J")
    check(trace.status == 0 and trace.text == script.whole(history, len(history)), str(trace))


if __name__ == "__main__":
    sys.exit(run_trial(main, __doc__, 200))
