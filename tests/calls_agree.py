#!/usr/bin/env python3
"""calls_agree.py: whether CALLING.md has the calls of the sources, with their types.

Read are the signatures in crates/jaywardrobe/CALLING.md, by the types that its parameters' names
stand for, and its table of answers. Each has to be what the sources have, and each call of `Engine`
has to be named. It prints a line for each difference, and then 'N passed, M failed'. The status is
0 only if M is 0. Nothing has to be built.
"""
import os
import re
import sys
from pathlib import Path
from typing import Dict, Iterator, List, Tuple

ROOT = Path(os.path.realpath(__file__)).parent.parent
PAGE = ROOT / "crates/jaywardrobe/CALLING.md"
# Where the calls of each section of the page are.
SECTIONS = {
    "Events": ["af_steps/src"],
    "Views": ["af_steps/src"],
    "Freed files and changed readiness": ["af_steps/src"],
    "A value behind each plain file": ["jaywardrobe/src/owned.rt"],
    "An engine for many threads": ["af_layer/src/shared.rt"],
    "A log of all calls": ["af_layer/src/layer.rt", "af_layer/src/book.rt", "af_layer/src/seat.rt"],
}
# Where the types are that calls answer.
TYPES = ["af_base/src/events.rt", "af_base/src/ready.rt", "af_steps/src"]
# A call of Engine for proofs, which does nothing.
FOR_PROOFS = {"is_sound"}
# A signature: the call, its parameters, and what it answers.
Signature = Tuple[str, str, str]


def sources(places: List[str]) -> str:
    """The text of these files, and of the files in these folders, without comments."""
    paths = [ROOT / "crates" / place for place in places]
    files = [file for it in paths for file in (sorted(it.glob("*.rt")) if it.is_dir() else [it])]
    return "\n".join(re.sub(r"^ *//.*\n", "", file.read_text(), flags=re.M) for file in files)


def parts(text: str) -> List[str]:
    """What stands between the commas of a list, but for those within brackets."""
    found, depth = [""], 0
    for sign in text:
        depth += (sign in "<({[") - (sign in ">)}]")
        if sign == "," and depth == 0:
            found.append("")
        else:
            found[-1] += sign
    return [part for part in (" ".join(it.split()) for it in found) if part]


def methods(text: str) -> Iterator[Signature]:
    """The public methods and constructors of a source."""
    head = r"^    pub fn (\w+)(?:<[^(]*>)?\(([^)]*)\)(?: -> ([^{]*?))?\s*(?:requires|ensures|\{|where)"
    for name, words, answer in re.findall(head, text, re.M):
        words = [it for it in parts(words) if it not in ("self", "&self", "&mut self")]
        yield name, ", ".join(it.removeprefix("mut ") for it in words), " ".join(answer.split())


def fields(text: str) -> Dict[str, List[str]]:
    """The public fields or the variants of each public type of a source."""
    found = {}
    for kind, name, body in re.findall(r"^pub (struct|enum) (\w+)(?:<[^>]*>)? \{\n(.*?)^\}", text, re.M | re.S):
        each = parts(re.sub(r",(\s*)\}", r"\1}", body))
        found[name] = [it.removeprefix("pub ") for it in each if kind == "enum" or it.startswith("pub ")]
    return found


def section(page: str, title: str) -> str:
    return page.partition(f"\n## {title}\n")[2].partition("\n## ")[0]


def kinds(page: str) -> Dict[str, str]:
    """The type that each parameter's name stands for."""
    said = re.search(r"^A parameter's name says its type: (.*)$", page, re.M)
    return dict(re.findall(r"`(\w+): ([^`]+)`", said[1])) if said else {}


def told(page: str, title: str) -> Iterator[Signature]:
    """The signatures in a section: the rows of the table of calls, and the others."""
    types, text = kinds(page), section(page, title)

    def signature(name: str, words: str, answer: str) -> Signature:
        typed = (it if ":" in it else f"{it}: {types.get(it, 'u32')}" for it in parts(words))
        return name, ", ".join(typed), answer

    for name, words, does in re.findall(r"^\|`(\w+)\(([^`]*)\)`\|(.*?)\|", text, re.M):
        answer = re.match(r"`([A-Zu(][^`]*)`", does)
        yield signature(name, words, f"Result<{answer[1] if answer else '()'}, Errno>")
    lines = re.sub(r"^\|.*\n", "", text, flags=re.M)
    for name, words, answer in re.findall(r"`(?:seat\.)?(\w+)\(([^`]*?)\)(?: -> ([^`]*))?`", lines):
        if answer or not words:
            yield signature(name, words, answer)


def differences() -> Iterator[Tuple[str, bool]]:
    """Each thing that is compared, and whether it agrees."""
    page = PAGE.read_text()
    for title, places in SECTIONS.items():
        there = set(methods(sources(places)))
        named = list(told(page, title))
        yield f"the section '{title}' has no signature", bool(named)
        for name, words, answer in named:
            yield f"{title}: {name}({words}) -> {answer or '()'}", (name, words, answer) in there
    for name, _, _ in methods(sources(["af_steps/src"])):
        yield f"no call {name}", name in FOR_PROOFS or bool(re.search(rf"`{name}\b", page))
    types = fields(sources(TYPES))
    rows = re.findall(r"^\|`(\w+)`\|(.*)\|$", section(page, "Events"), re.M)
    yield "the table of answers is empty", bool(rows)
    for name, cell in rows:
        listed = re.findall(r"`([^`]+)`", cell)
        yield f"{name}: {', '.join(listed)}", listed == types.get(name)


def main() -> int:
    found = list(differences())
    for what, agrees in found:
        if not agrees:
            print(f"CALLING.md, not so in the sources: {what}")
    failed = sum(not agrees for _, agrees in found)
    print(f"{len(found) - failed} passed, {failed} failed")
    return 1 if failed else 0


if __name__ == "__main__":
    sys.exit(main())
