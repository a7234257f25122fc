"""Finds the functions of a crate's sources, by the names that a check gives them."""
import os
import re
from typing import Dict, List, NamedTuple, Optional, Tuple

from .kit import rtlib

VISIBLE = r"(?:pub(?:\([^)]*\))? )?"
OWNER = re.compile(VISIBLE + r"(?:impl|trait)\b(<(?:[^<>]|<[^<>]*>)*>)? ?(.*?)(?: \{| where|$)")
KIND = re.compile(VISIBLE + r"(?:struct|enum|trait) (\w+)")
HEAD = re.compile(r"(\s*)" + VISIBLE + r'(?:const |extern "C" )?fn (\w+)')


class Function(NamedTuple):
    """A function of a crate: its name, and how the names of its closures begin, as a check prints
    them below the crate; and where it stands: the lines of its first attribute or else its head, of
    its head, of its body's brace and of its end, from 0 on."""

    name: str
    closures: str
    file: str
    top: int
    head: int
    body: int
    end: int
    # Whether its impl is a trait's, or it is a trait's own: then it cannot stand there twice.
    of_trait: bool

    def proofs(self, folder: str) -> str:
        """The folder of its proofs in a folder of the crate."""
        return proofs_of(self.name, folder)


def proofs_of(name: str, folder: str) -> str:
    """The folder of the proofs of a function or closure in a folder of its crate."""
    return f"{folder}/proofs/{name.replace('::', '/')}"


def module_of(file: str) -> str:
    """The path of the module that a file of src/ holds, with '::' behind it: nothing for the
    crate's root."""
    inside = re.sub(r"^src/|(/mod)?\.rt$", "", file).replace("/", "::")
    return "" if inside in ("lib", "main") else inside + "::"


def owner_of(line: str, homes: Dict[str, str], file: str) -> Optional[Tuple[str, str, bool]]:
    """The module and the type below which a check lists the methods of an impl or a trait, if the
    line begins one, and whether it is a trait's: for `impl Hash for Items<u8>` the type is
    'ItemsU8Hash::', and for `impl Items<u8>` it is 'Items+u8::'."""
    block = OWNER.match(line)
    if not block:
        return None
    listed = (block[1] or "<>")[1:-1].split(",")
    parameters = [it.partition(":")[0].replace("const ", "").strip() for it in listed]
    trait, _, kind = re.sub(r"\w+::", "", block[2]).rpartition(" for ")
    name = re.match(r"\w*", kind)[0]
    words = re.findall(r"(?<!')\b[A-Za-z]\w*", kind + " " + trait)
    words = [it for it in words if it not in parameters]
    inside = "".join(it[0].upper() + it[1:] for it in words) if trait else "+".join(words)
    return homes.get(name, module_of(file)), inside + "::", bool(trait) or "trait " in line


def extent_of(lines: List[str], head: int) -> Tuple[int, int]:
    """The lines of the brace that opens a function's body and of the function's end, both at its
    own depth."""
    depth = re.match(r"\s*", lines[head])[0]
    if lines[head].endswith("}"):
        return head, head
    ends = depth + "}", depth + "};"
    end = next((at for at in range(head, len(lines)) if lines[at] in ends), head)
    brace = re.compile(rf"{depth}(\S.*)?\{{$")
    return next((at for at in range(head, end) if brace.match(lines[at])), head), end


def functions(folder: str) -> List[Function]:
    """The functions of a crate's sources, one inside another behind it."""
    homes, found = {}, []
    paths = [it for it in rtlib.files_of(folder) if it.endswith(".rt")]
    files = {os.path.relpath(it, folder): rtlib.text_of(it).split("\n") for it in paths}
    for file, lines in files.items():
        homes.update((it[1], module_of(file)) for it in map(KIND.match, lines) if it)
    for file, lines in files.items():
        owner = None
        for at, line in enumerate(lines):
            owner = owner_of(line, homes, file) or (None if line.startswith("}") else owner)
            head = HEAD.match(line)
            if head:
                is_inside = owner and head[1]
                module, kind, of_trait = owner if is_inside else (module_of(file), "", False)
                name, closures = module + kind + head[2], f"{module}fn::{kind}{head[2]}::"
                top = at
                while lines[top - 1].lstrip().startswith("#["):
                    top -= 1
                extent = extent_of(lines, at)
                found.append(Function(name, closures, file, top, at, *extent, of_trait))
    return found
