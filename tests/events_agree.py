#!/usr/bin/env python3
"""events_agree.py: whether all that names the events of the machine names the same ones, with the same refusals.

The list is the table of events in docs/SCRIPTS.md. It has a row for each line that makes an event, with what refuses it
in order. Compared with it are

- the rows of the definition (crates/af_base/specs), which decides, and those of docs/DEFINITIONS.md;
- the doc comments of the calls (crates/af_steps/src), and the comments of include/jaywardrobe.h;
- the forms, keywords and versions of the script language (crates/scm_lines), and the help text (crates/scmgc);
- the events that tools/plain_engine.py serves, and those that tools/walks draws;
- the lines that tools/lists writes: the table of CALLING.md, and those of scmgc.1 and of the help of `scmgc play`.

It prints a line for each difference, and then '1 passed, 0 failed' where there is none, and else '0 passed, 1 failed'.
The status is 0 or 1. Nothing has to be built.
"""
import inspect
import os
import re
import sys
from importlib.machinery import SourceFileLoader
from importlib.util import module_from_spec, spec_from_loader
from itertools import groupby
from typing import Callable, Dict, Iterable, Iterator, List, Tuple

sys.dont_write_bytecode = True
ROOT = os.path.dirname(os.path.dirname(os.path.realpath(__file__)))
sys.path.insert(0, f"{ROOT}/tools")
import plain_engine  # noqa: E402
from event_list import LIST, Row, Unreadable, events, table, text_of, verb_of  # noqa: E402

# The calls of the engine that do an event of another name.
TWINS = {"send_owned": "send"}
# C tests this before all else: there a type is a number, and an invalid one makes no event.
FIRST_IN_C = {"pair": ["EINVAL"], "socket": ["EINVAL"], "shutdown": ["EINVAL"]}
# The calls from C that have an error and are no events.
NO_EVENTS_OF_C = {"engine_new", "check", "next_fd", "poll", "graph", "tell_released", "tell_changed"}
# The relations of the definition that say how the collector's events are refused.
COLLECTOR = {"begin": "Begins", "slice": "GoesOn", "pass": "PassesWhole"}
# The words of a form, as the definition and as the list write them.
WORDS = {
    "number": "N",
    "sockets": "TYPE",
    "name": "NAME",
    "payload": "BYTES",
    "items": "ITEM ..",
    "privilege": "[priv]",
    "version": "N",
    "how": "HOW",
}
Refusals = Dict[str, List[str]]
# The compared facts: each has a name, the call that reads it, and the expected result.
Comparison = Tuple[str, Callable[[], dict], dict]


def errors_in(text: str) -> List[str]:
    return re.findall(r"\bE[A-Z]{2,}\b", text)


def merged(errors: List[str]) -> List[str]:
    """The errors, of which those of two tests in turn are one where they are the same."""
    return [it for it, _ in groupby(errors)]


def alike(names: Iterable[str]) -> Dict[str, str]:
    """Names of which only the presence is compared."""
    return {it: "is there" for it in names}


def first_cells(head: str) -> List[str]:
    """What is quoted in the first column of a table beside the list."""
    return [row[0].strip("`") for row in table(LIST, head) if row[0].startswith("`")]


# The refusals of each event, by the texts and the definition.


def defined() -> Refusals:
    """What the definition has. Its rows leave out ESRCH, which a step of a process is tested for first, and ENOMEM."""
    refusals, steps, passes = (text_of(f"crates/af_base/specs/{it}.antt") for it in ("Refusals", "Steps", "Pass"))
    # The right side of each part of a row by the part's name, and of each clause of `step_row` by its step's.
    clauses = re.findall(r"^(\w+)(?: [^=\n]*\bstep\.(\w+))?[^=\n]* =(.*(?:\n[ )].*)*)", refusals, re.M)
    bodies = {step or name: body for name, step, body in clauses}

    def row(name: str) -> List[str]:
        parts = re.findall(r"\b(on_\w+|at_socket|recv_row)\b", bodies[name])
        own = re.findall(r",\s+(E[A-Z]+),?\s*\)", bodies[name])
        return merged(own + [error for part in parts for error in row(part)])

    frugal = re.findall(r"^needs_no_memory \(?step\.(\w+).* = true$", steps, re.M)
    found = {"spawn": [*row("spawn_row"), "ENOMEM"]}
    for step in re.findall(r"^step_row \w+ \w+ \(?step\.(\w+)", refusals, re.M):
        found[step.lower()] = row("on_process") + row(step) + ["ENOMEM"] * (step not in frugal)
    for verb, relation in COLLECTOR.items():
        said = "".join(re.findall(rf"^{relation} .*(?:\n +.*)*", passes, re.M))
        found[verb] = re.findall(r"reply\.Refused (E[A-Z]+)", said)
    return found


def explained() -> Refusals:
    """What docs/DEFINITIONS.md has. Its rows name parts, and leave out ESRCH and ENOMEM."""
    page, head = "docs/DEFINITIONS.md", "Refused by, in this order"
    parts = {part.strip("`").split()[0]: refused for part, refused in table(page, f"Part | {head}")}

    def row(refused: str) -> List[str]:
        named = re.findall(r"`(on_\w+|at_socket)", refused)
        return merged(re.findall(r"\b(E[A-Z]+):", refused) + [error for part in named for error in row(parts[part])])

    rows = table(page, f"Event | {head} | Changes | Answers")
    return {event.strip("`").split()[0].lower(): row(refused) for event, refused, *_ in rows}


def called() -> Refusals:
    """What the doc comments of the engine's calls have."""
    found: Refusals = {}
    for name in ("tables", "sockets", "messages", "passes"):
        text = text_of(f"crates/af_steps/src/{name}.rt")
        for doc, call in re.findall(r"((?:    ///.*\n)+)(?:    (?:#\[|// ).*\n)*    pub fn (\w+)\(", text):
            said = re.sub(r"\s+/// ?", " ", doc)
            same = re.search(r"The refusals are those of `(\w+)`", said)
            found[call] = found[same[1]] if same else errors_in(said.partition("Refused")[2])
    return found


def declared() -> Refusals:
    """What the comments of the calls from C have."""
    call = r"/\*((?:[^*]|\*(?!/))*)\*/\s*(?:JW_.*\n)?int64_t jw_(\w+)\("
    comments = re.findall(call, text_of("include/jaywardrobe.h"))
    found = {call: re.findall(r"\bJW_(E[A-Z]+)\b", comment) for comment, call in comments}
    return {call: errors for call, errors in found.items() if errors and call not in NO_EVENTS_OF_C}


# The functions that make an event of a line, and those that try each.


def forms() -> Dict[str, str]:
    """The lines of the table of forms, by verb."""
    text, found = text_of("crates/scm_lines/specs/Forms.antt"), {}
    rows = re.findall(r'^(verb|line)_row \w+\.\w+ =\s+\(\s*codes "(\w+)",\s+((?:.*(?:\n +.*)*))', text, re.M)
    for maker, verb, form in rows:
        kinds = re.findall(r"\w+(?= ◂)|\b(?:items|privilege)(?= λ)", form)
        found[verb] = " ".join(["P"] * (maker == "verb") + [verb] + [WORDS.get(it, it) for it in kinds])
    return found


def keywords() -> Dict[str, str]:
    """What each word stands for where a line is read: behind a process a verb, and else a keyword."""
    text = text_of("crates/scm_lines/src/keywords.rt")
    return {word: name for word, name in re.findall(r'b"(\w+)"(?: =>|,) ((?:Verb|Keyword)::\w+)', text)}


def later_steps() -> Dict[str, str]:
    """The first version that has each step which scripts of version 1 do not have, by its verb."""
    text = text_of("crates/scm_lines/specs/Versions.antt")
    rows = re.findall(r"^first_number_of \(?step\.(\w+).* = (\d)$", text, re.M)
    return {step.lower(): number for step, number in rows}


def help_text() -> str:
    found = re.search(r'OF_SCRIPTS: &str =\s*"([^"]*)"', text_of("crates/scmgc/src/task.rt"))
    if not found:
        raise Unreadable("there is no OF_SCRIPTS")
    return found[1]


def helped() -> Dict[str, str]:
    """The lines of later versions that the help text explains."""
    return alike(re.findall(r"^  (P? ?\S.*?)  ", help_text(), re.M))


def misnamed(lines: Dict[str, str]) -> Dict[str, str]:
    """The verbs of the examples in the help text that begin none of these lines."""
    verbs = map(verb_of, re.findall(r"'([^']+)'", help_text()))
    return {it: "an example" for it in verbs if it not in lines}


def served() -> Dict[str, bool]:
    """The events that the plain engine does, and whether a process does them."""
    calls = inspect.getmembers(plain_engine.Engine, inspect.isfunction)
    return {name[3:]: "process" in inspect.signature(it).parameters for name, it in calls if name.startswith("do_")}


def module(tool: str):
    """A tool as a module."""
    loader = SourceFileLoader(tool, f"{ROOT}/tools/{tool}")
    made = module_from_spec(spec_from_loader(loader.name, loader))
    loader.exec_module(made)
    return made


def met() -> Dict[str, str]:
    """The events that the walks of a mix have to meet, by each error of theirs."""
    return alike(it for mix in module("walks").MIXES.values() for it in mix.meets)


# The comparisons.


def comparisons(rows: Dict[str, Row]) -> List[Comparison]:
    refusals = {verb: row.errors for verb, row in rows.items()}
    by_rows = {verb: [it for it in errors if it not in ("ESRCH", "ENOMEM")] for verb, errors in refusals.items()}
    by_calls = {**refusals, **{twin: refusals.get(verb) for twin, verb in TWINS.items()}}
    from_c = {verb: FIRST_IN_C.get(verb, []) + errors for verb, errors in refusals.items()}
    others = {verb_of(it): it for it in first_cells("Line | What it does")}
    lines = {**{verb: row.line for verb, row in rows.items()}, **others}
    of_process = {verb: row.is_of_process for verb, row in rows.items()}
    named = {verb: f"{'Verb' if of_process.get(verb) else 'Keyword'}::{verb.capitalize()}" for verb in lines}
    later = {verb: row for verb, row in rows.items() if row.version > 1}
    reports = alike(verb for verb in others if verb != "version")
    replies = alike(it for row in rows.values() for it in row.replies)
    return [
        ("crates/af_base/specs", defined, refusals),
        ("docs/DEFINITIONS.md", explained, by_rows),
        ("crates/af_steps/src", called, by_calls),
        ("include/jaywardrobe.h", declared, from_c),
        ("crates/scm_lines/specs/Forms.antt", forms, lines),
        ("crates/scm_lines/src/keywords.rt", keywords, named),
        ("crates/scm_lines/specs/Versions.antt", later_steps, {verb: str(row.version) for verb, row in later.items()}),
        ("crates/scmgc, later versions", helped, alike(row.line for row in later.values())),
        ("crates/scmgc, examples", lambda: misnamed(lines), {}),
        (f"{LIST}, the replies", lambda: alike(first_cells("Reply | What it says")), replies),
        (f"{LIST}, the texts of reports", lambda: alike(first_cells("Line | Text")), reports),
        ("tools/plain_engine.py, reports", lambda: alike(plain_engine.REPORTS), reports),
        ("tools/plain_engine.py, of a process", served, of_process),
        ("tools/walks", lambda: alike(module("walks").WORDS), alike(rows)),
        ("tools/walks, what mixes meet", met, alike(rows)),
    ]


def shown(value) -> str:
    return "nothing" if value is None else " ".join(value) or "no refusal" if isinstance(value, list) else str(value)


def different(source: str, told: dict, wanted: dict) -> Iterator[str]:
    """A line for each name that the two do not have alike."""
    for name in [*wanted, *(it for it in told if it not in wanted)]:
        if told.get(name) != wanted.get(name):
            yield f"{source}: {name}: {shown(told.get(name))}; by {LIST}: {shown(wanted.get(name))}"


def read(source: str, lines: Callable[[], Iterable[str]]) -> Iterator[str]:
    """Lines about a source, or one that says that it cannot be read."""
    try:
        yield from lines()
    except (Unreadable, LookupError, OSError, ValueError) as error:
        yield f"{source}: cannot be read: {error!r}"


def differences() -> Iterator[str]:
    """A line for each difference, and one for each source that cannot be read."""
    try:
        compared = comparisons(events())
    except Unreadable as error:
        yield str(error)
        return
    for source, told, wanted in compared:
        yield from read(source, lambda: different(source, told(), wanted))
    yield from read("tools/lists", module("lists").differences)


def main() -> int:
    lines = list(differences())
    for line in lines:
        print(line)
    print("0 passed, 1 failed" if lines else "1 passed, 0 failed")
    return 1 if lines else 0


if __name__ == "__main__":
    sys.exit(main())
