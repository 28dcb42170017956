"""Changes the examples' plans, scripts and journals at random, and calls the program over each.

It ends by itself with a status of the table in docs/FORMATS.md, and what it prints has the form that stands there. A plan that
is refused is refused by each command alike, and one that isn't has a layout that spells as many nodes and is its own layout. A
journal is answered by what its bytes stand for, which is read here apart from the program.
"""

import re
import sys

from common import EXAMPLES, Damaged, answer, check, journal_of, run_trial

WORDS = """{ } ( ) [ ] ; , : = + - * / % ! && || == != < > <= >= A B x y 0 1 7 2147483647 2147483648 -1 1.5 "" "a" "\\"" true false UNKNOWN
Boolean Integer String Real Command Lookup LookupNow LookupOnChange Update NodeList Sequence UncheckedSequence Concurrence Try
if else elseif endif while for Start End Repeat Skip Exit Pre Post Invariant StartCondition EndCondition Priority Parent Self
isKnown abs sqrt state outcome failure command_handle FINISHED EXECUTING SUCCESS COMMAND_SUCCESS Wait // /* */""".split()
LINES = """set x = 1
set BitHot = true
set WheelStuck = UNKNOWN
set Depth = -2147483648
set at("a, b", -3) = "c"
handle A COMMAND_SUCCESS
handle DrillHole.Rise COMMAND_DENIED
return A 4
abort A
ack A
wait state A FINISHED
wait events 3
thread 2
thread 8
thread 9
thread 1 arm
thread 2 arm
thread 2 leg
thread 9 arm
# nothing""".splitlines()

NUMBER = r"(?:0|[1-9][0-9]*)"
REFUSALS = {
    3: rf"plan refused: (?:longer than 1048576 bytes|not text at byte {NUMBER}|byte {NUMBER}|real number at byte {NUMBER}"
    rf"|too long at byte {NUMBER}|deep at token {NUMBER}|syntax at token {NUMBER}|check [1-9] at token {NUMBER}"
    rf"|too many nodes {NUMBER})\n",
    4: rf"script refused: line {NUMBER} kind [1-6]\n",
    5: rf"journal refused: (?:none|damaged at byte {NUMBER}|plan|runaway at event {NUMBER})\n",
    6: "runaway at start\n",
}
STATE = "(?:INACTIVE|WAITING|EXECUTING|FINISHING|FAILING|ITERATION_ENDED|FINISHED)"
OUTCOME = r"(?:SUCCESS|SKIPPED|(?:FAILURE|INTERRUPTED)(?: [A-Z_]+)?)"
NODE = r"[A-Za-z0-9_#.]+"
MOVE = rf"  {NODE}: {STATE} -> {STATE}(?: {OUTCOME})?"
EFFECT = rf"    (?:no write|command {NODE}\(.*\)|abort {NODE}|update {NODE} = .*|{NODE}(?:\[[0-9]+\])? = .*)"
RUN = rf"(?:step [0-9]+\n(?:{MOVE}\n(?:{EFFECT}\n)*)+)*quiet {NUMBER}\n"
EVENT = rf"event {NUMBER}: thread [1-8] line {NUMBER} (?:set|handle|return|abort|ack) .*\n"
REPLY = rf"thread [1-8] line {NUMBER}: (?:accepted {NUMBER}|refused (?:plan finished|full|runaway))\n"
LAST = rf"plan (?:running|finished {OUTCOME})\n"
STALL = rf"stalled thread [1-8] line {NUMBER}: wait (?:state {NODE} {STATE}|events {NUMBER})\n"
TEXT = re.compile(rf"event 0: start\n{RUN}(?:{EVENT}{RUN})*(?:{REPLY})*{LAST}(?P<stalls>(?:{STALL})*)")


def main(program, count, chance, folder):
    plans = [path.read_text() for path in sorted(EXAMPLES.glob("*.ple"))]
    pairs = [(path.with_suffix(".ple").read_text(), path.read_text()) for path in sorted(EXAMPLES.glob("*.script"))]
    journals = [(script, journal_made(program, folder, plan, script)) for plan, script in pairs]
    met = {}
    for number in range(count):
        kind = ("plan", "script", "journal")[number % 3]
        if kind == "plan":
            status = over_plan(program, folder, mutated(chance, chance.choice(plans), WORDS))
        elif kind == "script":
            status = over_script(program, folder, *mutated_pair(chance, *chance.choice(pairs)))
        else:
            script, journal = chance.choice(journals)
            status = over_journal(program, folder, script, mutated_journal(chance, journal))
        met[kind, status] = met.get((kind, status), 0) + 1
    told = (f"{times} of a {kind} with status {status}" for (kind, status), times in sorted(met.items()))
    return f"mutated: {count}, " + ", ".join(told)


def journal_made(program, folder, plan, script):
    write(folder, P=plan.encode(), S=script.encode())
    (folder / "J").unlink(missing_ok=True)
    made = answer(program, folder, "run", "P", "S", "J")
    check(made.status == 0, str(made))
    return (folder / "J").read_bytes()


def write(folder, **files):
    for name, content in files.items():
        (folder / name).write_bytes(content)


def mutated(chance, text, words):
    """The bytes of the text with some changes of its words or of its bytes."""
    for _ in range(chance.choice((1, 1, 1, 2, 3, 8))):
        if chance.random() < 0.7:
            text = with_changed_words(chance, text, words)
        else:
            text = with_changed_bytes(chance, text.encode("utf-8", "surrogateescape")).decode("utf-8", "surrogateescape")
    return text.encode("utf-8", "surrogateescape")


def with_changed_words(chance, text, words):
    """The text with a word left out, doubled, replaced, put in, or exchanged with another."""
    parts = re.findall(r"\w+|\s+|[^\w\s]", text) or [""]
    here, there = chance.randrange(len(parts)), chance.randrange(len(parts))
    other = chance.choice([*words, parts[there]])
    changes = (
        lambda: parts.pop(here),
        lambda: parts.insert(here, parts[here]),
        lambda: parts.__setitem__(here, other),
        lambda: parts.insert(here, f" {other} "),
        lambda: parts.__setitem__(slice(here, here + 1), [parts[there]]),
        lambda: parts.__setitem__(slice(min(here, there), max(here, there)), parts[min(here, there) : max(here, there)] * 2),
    )
    chance.choice(changes)()
    return "".join(parts)


def with_changed_bytes(chance, content):
    """The bytes with one changed, some left out, doubled or put in, or with none behind a place."""
    here = chance.randrange(len(content) + 1)
    there = min(here + chance.randrange(1, 20), len(content))
    changes = (
        lambda: content[:here] + bytes([chance.randrange(256)]) + content[here + 1 :],
        lambda: content[:here] + content[there:],
        lambda: content[:there] + content[here:],
        lambda: content[:here] + chance.randbytes(chance.randrange(1, 5)) + content[here:],
        lambda: content[:here],
    )
    return chance.choice(changes)()


def mutated_pair(chance, plan, script):
    """A plan as it is, and a script with changes, most of whole lines."""
    if chance.random() < 0.5:
        return plan.encode(), mutated(chance, script, LINES)
    lines = script.splitlines()
    for _ in range(chance.randrange(1, 4)):
        here = chance.randrange(len(lines) + 1)
        line = chance.choice([*LINES, *script.splitlines()])
        lines[here : here + chance.randrange(2)] = [line]
    return plan.encode(), "\n".join(lines).encode()


def named_journal(chance, journal):
    """The journal in version 2, in which some entries have the name of an interface."""
    plan, bodies = journal_of(journal)
    names = [chance.choice((b"", b"arm", b"N" * 64)) for _ in bodies]
    bodies = [body[:5] + len(name).to_bytes(2, "big") + name + body[5:] for body, name in zip(bodies, names)]
    records = b"".join(b"\1" + len(body).to_bytes(2, "big") + body for body in bodies)
    return b"\1PLXJRNL2" + journal[9 : 13 + len(plan)] + records + b"\0"


def mutated_journal(chance, journal):
    """A journal of either version with changed bytes, or with records left out, doubled or exchanged."""
    if chance.random() < 0.5:
        journal = named_journal(chance, journal)
    plan, bodies = journal_of(journal)
    if chance.random() < 0.7:
        for _ in range(chance.choice((1, 1, 2, 5))):
            journal = with_changed_bytes(chance, journal)
        return journal
    here, there = chance.randrange(len(bodies)), chance.randrange(len(bodies))
    bodies[here], bodies[there] = bodies[there], bodies[here]
    bodies[there : there + chance.randrange(3)] = [bodies[here]] * chance.randrange(3)
    records = b"".join(b"\1" + len(body).to_bytes(2, "big") + body for body in bodies)
    return journal[: 13 + len(plan)] + records + b"\0"


def over_plan(program, folder, plan):
    """Checks, lays out and starts a plan."""
    write(folder, P=plan)
    checked = answer(program, folder, "check", "P")
    layout = answer(program, folder, "format", "P")
    started = answer(program, folder, "trace-start", "P")
    if checked.status == 3:
        check_refusal(checked)
        for other in (layout, started):
            check((other.status, other.text) == (3, checked.text), f"{other}, {checked}")
        return 3
    check(checked.status == 0 and re.fullmatch(r"ok [1-9][0-9]* nodes\n", checked.text), str(checked))
    check(layout.status == 0, str(layout))
    check_text(started)
    write(folder, P=layout.text.encode())
    again = answer(program, folder, "format", "P")
    check((again.status, again.text) == (0, layout.text), f"{layout}, {again}")
    nodes = answer(program, folder, "check", "P")
    check((nodes.status, nodes.text) == (0, checked.text), f"{checked}, {nodes}")
    return 0


def over_script(program, folder, plan, script):
    """Posts a script with no journal and with one, which the trace then prints."""
    write(folder, P=plan, S=script)
    (folder / "J").unlink(missing_ok=True)
    dry = answer(program, folder, "dry-run", "P", "S")
    check_text(dry)
    run = answer(program, folder, "run", "P", "S", "J")
    check_text(run)
    if dry.status != 0:
        check((run.status, run.text) == (dry.status, dry.text) and not (folder / "J").exists(), f"{dry}, {run}")
        return dry.status
    check(run.status in (0, 11), str(run))
    trace = answer(program, folder, "trace", "J")
    check_text(trace)
    check(trace.status == 0 and same_run(trace.text, run.text), f"{run}, {trace}")
    return run.status


def same_run(trace, whole):
    """Whether the trace is the text without its replies and stalls."""
    return trace == re.sub(rf"^(?:{REPLY}|{STALL})", "", whole, flags=re.MULTILINE)


def names_of(journal):
    """What is printed of the names of a journal's entries."""
    is_named = journal[8] == ord("2")
    lines = []
    for position, body in enumerate(journal_of(journal)[1], 1):
        name = body[7 : 7 + int.from_bytes(body[5:7], "big")].decode() if is_named else ""
        lines.append(f"event {position}: thread {body[0]} line {int.from_bytes(body[1:5], 'big')} {name or '-'}\n")
    return "".join(lines)


def over_journal(program, folder, script, journal):
    """Prints a journal and its names, and resumes it."""
    write(folder, S=script.encode(), J=journal)
    trace = answer(program, folder, "trace", "J")
    names = answer(program, folder, "names", "J")
    check((folder / "J").read_bytes() == journal, f"{trace}, {names}: the journal is another")
    resumed = answer(program, folder, "resume", "S", "J")
    check_text(trace)
    check_text(resumed)
    try:
        found = journal_of(journal)
        refusal = None if found else "none"
    except Damaged as place:
        refusal = f"damaged at byte {place}"
    if refusal:
        wanted = (5, f"journal refused: {refusal}\n")
        check((trace.status, trace.text) == wanted, f"{trace}: {refusal}")
        check((names.status, names.text) == wanted, f"{names}: {refusal}")
    else:
        check((names.status, names.text) == (0, names_of(journal)), f"{names}: other names")
        check(trace.status in (0, 6) or re.search(": (?:plan|runaway at event [0-9]+)\n", trace.text), str(trace))
    if trace.status != 0:
        check((resumed.status, resumed.text) == (trace.status, trace.text), f"{trace}, {resumed}")
    if resumed.status not in (0, 11):
        check((folder / "J").read_bytes() == journal, f"{resumed}: the journal is another")
    else:
        plan, bodies = journal_of((folder / "J").read_bytes())
        check(plan == found[0] and bodies[: len(found[1])] == found[1], f"{resumed}: another history")
    return trace.status


def check_refusal(refused):
    form = REFUSALS.get(refused.status)
    check(form and re.fullmatch(form, refused.text), str(refused))


def check_text(ended):
    """The text has the form that it has with this status."""
    if ended.status not in (0, 11):
        check_refusal(ended)
        return
    form = TEXT.fullmatch(ended.text)
    check(form, str(ended))
    check((form["stalls"] != "") == (ended.status == 11), str(ended))
    check_numbers(ended)


def check_numbers(ended):
    """Events and steps are counted, and `quiet` has the number of the steps."""
    events, steps = 0, 0
    for line in ended.text.split("\n"):
        first, _, rest = line.partition(" ")
        if first == "event":
            check(rest.startswith(f"{events}: "), f"{ended}: {line}")
            events, steps = events + 1, 0
        elif first == "step":
            steps += 1
            check(rest == str(steps), f"{ended}: {line}")
        elif first == "quiet":
            check(rest == str(steps), f"{ended}: {line}")


if __name__ == "__main__":
    sys.exit(run_trial(main, __doc__, 100_000))
