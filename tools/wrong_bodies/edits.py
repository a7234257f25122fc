"""Places wrong bodies in the sources of their crate: finds the functions that each changes."""
import re
from typing import List, Set, Tuple

from .answers import stored_answers
from .blocks import Block, read_blocks
from .functions import Function, functions
from .kit import rtlib

CLAUSE = re.compile(r"\b(requires|ensures)\b")
# A text to be replaced: its file, its place there, itself and what comes there.
Change = Tuple[str, int, str, str]


class Edit:
    """A wrong body: what it replaces, by file and place, and the functions that it changes."""

    def __init__(self, block: Block, folder: str, known: List[Function]):
        self.name, self.line, self.fault = block.name, block.line, block.fault
        self.folder, self.known = folder, known
        # What must no longer fit in the stored answers; nothing where any goal may refuse it.
        self.answer = block.named.get("answer", "")
        # Or the goal that the check's tactics must leave open.
        self.open = block.named.get("open", "")
        # Or the goal that `search rules` must no longer prove.
        self.goal = block.named.get("goal", "")
        self.pairs: List[Change] = []
        self.changed: Set[Function] = set()
        # Whether it changes more than the bodies of functions.
        self.is_alone = False
        if not self.fault:
            self.apply(block)

    def blame(self, why: str) -> None:
        self.fault = self.fault or why

    def apply(self, block: Block) -> None:
        """Finds its places, and the functions that it names or changes."""
        named = block.named.get("fn")
        if named:
            self.changed.update(it for it in self.known if it.name == named)
            if not self.changed:
                self.blame(f"there is no function {named}")
        for old, new in block.pairs:
            self.add(block.file, old, new)
        if self.is_alone and not named:
            self.changed.clear()
        self.judge_names()

    def judge_names(self) -> None:
        """Notes what is wrong with the answer or goal that it names."""
        if self.goal and not self.can_stand_beside():
            self.blame("it names a goal, and changes more than the body of one function")
        if (self.answer or self.open) and len(self.changed) != 1:
            self.blame(f"it names an answer or a goal, and changes {len(self.changed)} functions")
        elif self.open:
            (function,) = self.changed
            if f"pub {self.open} : " in stored_answers(function, self.folder):
                self.blame(f"{self.open} has a stored answer: name it so")

    def can_stand_beside(self) -> bool:
        """Whether it can go into a second copy of its function: it changes that one's body and
        nothing else."""
        is_of_one = not self.is_alone and len(self.changed) == 1
        return is_of_one and not next(iter(self.changed)).of_trait

    def place(self, text: str, file: str, old: str) -> int:
        """Where the old text begins: the one place in a function that is named, or the one place in
        its file."""
        rows = text.split("\n")
        for it in self.changed:
            inside = "\n".join(rows[it.head : it.end + 1])
            if it.file == file and inside.count(old) == 1:
                return len("\n".join([*rows[: it.head], ""])) + inside.find(old)
        if text.count(old) != 1:
            self.blame(f"'{old.strip()}' stands {text.count(old)} times in {file}")
        return text.find(old)

    def add(self, file: str, old: str, new: str) -> None:
        """Notes what it replaces, and the function around it."""
        text = rtlib.text_of(f"{self.folder}/{file}") or ""
        at = self.place(text, file, old)
        self.pairs.append((file, at, old, new))
        row = text[: max(at, 0)].count("\n")
        inside = [it for it in self.known if it.file == file and it.head <= row <= it.end][-1:]
        self.changed.update(inside)
        is_between = inside and inside[0].head < row < inside[0].body
        is_body = inside and not is_between and not CLAUSE.search(old + new)
        self.is_alone = self.is_alone or not is_body


def edits_of(folder: str) -> List[Edit]:
    """The wrong bodies of the crate in a folder, each placed or at fault."""
    known = functions(folder)
    blocks = read_blocks(rtlib.text_of(f"{folder}/wrong-bodies.edits") or "")
    found = [Edit(it, folder, known) for it in blocks]
    placed = [it for it in found if not it.fault]
    for above, below in zip(placed, placed[1:]):
        if below.pairs[0][:2] < above.pairs[0][:2]:
            below.blame(f"it is out of order: {above.name} above it changes what comes later")
    return found


def batches(edits: List[Edit]) -> List[List[Edit]]:
    """The edits in few lists: of those in a list that change one function all but the first can
    stand beside it, and one that goes alone has its own."""

    def can_join(edit: Edit, batch: List[Edit]) -> bool:
        is_free = edit.can_stand_beside()
        alone = (it.is_alone for it in (edit, *batch))
        return not any(alone) and (is_free or not any(edit.changed & it.changed for it in batch))

    made: List[List[Edit]] = []
    for edit in sorted(edits, key=lambda it: (it.can_stand_beside(), -len(it.changed), it.name)):
        batch = next((it for it in made if can_join(edit, it)), None)
        if batch:
            batch.append(edit)
        else:
            made.append([edit])
    return made
