"""The answers of a function, as they are stored and as they have tactics prove a goal."""
import functools
import os
import re
import subprocess
import tempfile
from typing import List, NamedTuple, Set

from .functions import Function
from .kit import ROOT, rtlib

# A function whose one goal shows which tactics a check tries, with a lemma of the crate's own named
# for it.
SAMPLE = """#[tactic(auto, using(std::proofs::lemmas::Nat::rows))]
pub fn sample(n: u8) -> u8 {
    if n > 5 { n - 3 } else { 1 }
}
"""


def stored_answers(function: Function, folder: str) -> str:
    """The stored answers of a function in a folder of its crate, or nothing."""
    return rtlib.text_of(f"{function.proofs(folder)}/Answers.antt") or ""


def mentions(text: str, name: str) -> bool:
    """Whether a text has this name as a word of its own."""
    return bool(re.search(rf"(?<![\w-]){re.escape(name)}(?![\w-])", text))


def only_answer(text: str, answer: str) -> str:
    """The stored answers of a function with one goal's alone, what that mentions, and what has no
    name. All of them where the answer is no goal's: what it states may name places that the others
    bring."""
    if f"pub {answer} : goal.{answer}\n" not in text:
        return text
    parts = re.split(r"\n\n(?=\S)", text)
    names = [re.search(r"^(?:pub |abbrev )?(\S+) :", it, re.M) for it in parts]
    kept, new = {answer}, {answer}
    while new:
        said = "\n".join(it for it, name in zip(parts, names) if name and name[1] in new)
        new = {name[1] for name in names if name and mentions(said, name[1])} - kept
        kept |= new
    return "\n\n".join(it for it, name in zip(parts, names) if not name or name[1] in kept)


class Tactics(NamedTuple):
    """What an answer has to say so that tactics prove a goal: its `use` lines, and the call."""

    uses: List[str]
    call: str

    def answers(self, crate: str, function: Function, goals: Set[str]) -> str:
        """Answers that have them prove these goals of a function."""
        module = f"Rattle.{crate}.proofs.{function.name.replace('::', '.')}"
        head = "".join(f"{it}\n" for it in [f"use {module}.Goals as goal", *self.uses])
        rows = (f"\npub {it} : goal.{it}\n{it} c = {self.call}\n" for it in sorted(goals))
        return head + "".join(rows)


SEARCH = Tactics(["use Rattle.std.proofs.Common.{rules}"], "search rules")


def printed_sample() -> str:
    """The proof of the sample, as the kit prints it. It is kept in out/, for the run over the next
    crate."""
    kit = (rtlib.text_of(f"{rtlib.KIT}/KIT-ID") or "kit").split()[0]
    kept = f"{ROOT}/out/sample-of-{kit}"
    if os.path.isfile(kept):
        return rtlib.text_of(kept)
    with tempfile.TemporaryDirectory(prefix="wrong-bodies-") as room:
        os.mkdir(f"{room}/src")
        with open(f"{room}/src/lib.rt", "w", encoding="utf-8") as out:
            out.write(SAMPLE)
        words = [rtlib.RATTLE, "check", "--crate-name", "sample", "src/lib.rt"]
        words += ["--generated", "printed"]
        words += ["--extern", f"std={rtlib.KIT}/rlibs/std.rlib"]
        words += ["-L", f"dependency={rtlib.KIT}/rlibs"]
        words += ["--antt-project", f"{rtlib.KIT}/rattle/logic/antt-project.json"]
        words += ["--logic-built", f"{rtlib.KIT}/logic_built", "--links", "sample="]
        how = {"capture_output": True, "text": True, "errors": "replace"}
        said = subprocess.run(words, cwd=room, **how)
        text = rtlib.text_of(f"{room}/printed/Rattle-sample-proofs/sample/Proof.antt") or ""
    if "Grind.rows" not in text:
        rtlib.stop(f"the kit does not print its tactics: {(said.stdout + said.stderr)[-200:]}")
    # (two runs at once write the same)
    os.makedirs(f"{ROOT}/out", exist_ok=True)
    here = {"dir": f"{ROOT}/out", "encoding": "utf-8", "delete": False}
    with tempfile.NamedTemporaryFile("w", **here) as out:
        out.write(text)
    os.replace(out.name, kept)
    return text


@functools.lru_cache(maxsize=None)
def tactics_of_kit() -> Tactics:
    """The tactics that a check tries at a goal, as the kit prints them of the sample."""
    text = printed_sample()
    call = re.search(r"^\S+ c = (first_of \(.*?^\))", text, re.M | re.S)
    if not call:
        rtlib.stop("the kit does not print its tactics as it did")
    uses = [it for it in text.split("\n") if it.startswith("use ") and ".sample." not in it]
    return Tactics(uses, " ".join(call[1].split()))


def attributes_of(function: Function, room: str) -> str:
    """The attributes of a function, and behind them those of its file that say which tactics a
    check tries."""
    rows = rtlib.text_of(f"{room}/{function.file}").split("\n")
    of_file = [it for it in rows if it.startswith("#![tactic(")]
    return "\n".join([*rows[function.top : function.head], *of_file])


def tactics_of(crate: str, attributes: str) -> Tactics:
    """The tactics that a check tries at the goals of a function with these attributes, and `tests`
    with its rules: the check gives these to some goals, and to no others."""
    if "unfolding(" in attributes:
        rtlib.stop(f"{crate}: 'open:' names no goal of a function that unfolds definitions")
    uses, call = tactics_of_kit()
    named = re.search(r"\busing\(([^)]*)\)", attributes)
    paths = named[1].split(",") if named else []
    paths = [re.sub(r"^crate::", f"{crate}::", it.strip()).split("::") for it in paths]
    uses = [*uses, "use borrow.Author.Tests.{tests}"]
    uses += [f"use Rattle.{'.'.join(it[:-1])}.{{{it[-1]}}}" for it in paths]
    if paths:
        call = call.replace(", Grind.rows", "".join(f", {it[-1]}" for it in paths))
    else:
        call = re.sub(r", grind \([^)]*, Grind\.rows\) steps \d+", "", call)
    return Tactics(uses, f"first_of (search (tests, rules), {call})")
