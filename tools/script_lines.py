"""A second reader of lines: which lines a script can have, and where and why another line cannot be read.

It has the language of docs/SCRIPTS.md as a table of patterns, and shares nothing with the program but that page and the
words of the reasons.
"""
import re
from typing import Iterator, List, NamedTuple, Optional

MAX_LINE = 262_144
MAX_NUMBER = 2**32 - 1
MAX_PAYLOAD = 65_537
MAX_ATTACHED = 1024
# The words behind each first word, and behind a process's number and its verb: a number, a type, a name, bytes, the
# ends to close, the version; and last priv or nothing, or items.
KEYWORDS = {
    b"spawn": "number number privilege",
    b"begin": "",
    b"slice": "number",
    b"pass": "",
    b"table": "",
    b"totals": "",
    b"check": "",
    b"version": "version",
}
VERBS = {
    b"open": "",
    b"dup": "number",
    b"dup2": "number number",
    b"close": "number",
    b"fork": "",
    b"exit": "",
    b"pair": "type",
    b"socket": "type",
    b"bind": "number name",
    b"listen": "number number",
    b"connect": "number name",
    b"accept": "number",
    b"send": "number bytes items",
    b"recv": "number number number",
    b"peek": "number number number",
    b"limit": "number",
    b"shutdown": "number ends",
    b"unconnect": "number",
}
# The first version that has a verb, where that is not version 1; and the versions that a line can name.
FIRST_VERSIONS = {b"peek": 2, b"limit": 2, b"shutdown": 3, b"unconnect": 3}
VERSIONS = {b"2": 2, b"3": 3}
# The types by version, and the reason why another word is none.
TYPES = {
    1: ((b"seqpacket", b"stream"), "a type is seqpacket or stream"),
    3: ((b"seqpacket", b"stream", b"dgram"), "a type is dgram, seqpacket or stream"),
}
QUESTIONS = b"who", b"graph", b"help"
WORD = re.compile(rb"[^ \t]+")
# A byte of a message: a character that means itself, or two digits behind a %.
SPELLED = re.compile(rb"[A-Za-z0-9_.-]|%[0-9A-Fa-f]{2}")


class Misfit(Exception):
    """What does not fit in a line, and at which of its bytes, from 0."""

    def __init__(self, at: int, reason: str):
        super().__init__(f"column {at + 1}: {reason}")


class Word(NamedTuple):
    """A word of a line, and where it begins."""

    at: int
    text: bytes


def number(word: Word) -> int:
    """The number that a word is."""
    other = re.search(rb"[^0-9]|\Z", word.text)
    if not word.text or other.start() < len(word.text):
        raise Misfit(word.at + other.start(), "a number has only the digits 0 to 9")
    if re.match(rb"0[0-9]", word.text):
        raise Misfit(word.at, "a number has no leading zero")
    if int(word.text) > MAX_NUMBER:
        raise Misfit(word.at, "a number is at most 4294967295")
    return int(word.text)


def payload(word: Word):
    """Whether a word spells bytes."""
    if word.text.startswith(b"*"):
        digits = Word(word.at + 1, word.text[1:])
        if number(digits) > MAX_PAYLOAD:
            raise Misfit(digits.at, "BYTES are at most 65537 bytes")
        return
    at = count = 0
    while at < len(word.text):
        spelled = SPELLED.match(word.text, at)
        if not spelled:
            is_percent = word.text[at:].startswith(b"%")
            characters = "BYTES have letters, digits, _ - . and % with two hexadecimal digits"
            raise Misfit(word.at + at, "% needs two hexadecimal digits" if is_percent else characters)
        at, count = spelled.end(), count + 1
    if count > MAX_PAYLOAD:
        raise Misfit(word.at, "BYTES are at most 65537 bytes")


def copies(word: Word) -> int:
    """How many descriptors an item stands for."""
    front, star, back = word.text.partition(b"*")
    number(Word(word.at, front))
    if not star:
        return 1
    behind = word.at + len(front) + 1
    count = number(Word(behind, back))
    if not 1 <= count <= MAX_ATTACHED:
        raise Misfit(behind, "a count is from 1 to 1024")
    return count


def items(words: List[Word]):
    """Whether all words are items."""
    total = 0
    for word in words:
        total += copies(word)
        if total > MAX_ATTACHED:
            raise Misfit(word.at, "the items of a line are at most 1024 descriptors")


def socket_type(word: Word, version: int):
    """Whether a word is a type of sockets in this version."""
    words, reason = TYPES[max(it for it in TYPES if it <= version)]
    if word.text not in words:
        raise Misfit(word.at, reason)


def fit(kind: str, word: Word, version: int):
    """Whether a word is of its kind, in a script of this version; a name is any word."""
    if kind == "number":
        number(word)
    elif kind == "bytes":
        payload(word)
    elif kind == "type":
        socket_type(word, version)
    elif kind == "ends" and word.text not in (b"read", b"write", b"both"):
        raise Misfit(word.at, "HOW is read, write or both")
    elif kind == "version" and word.text not in VERSIONS:
        raise Misfit(word.at, "the versions to name are 2 and 3")


def fit_form(form: str, words: List[Word], end: int, version: int):
    """Whether words are of a form, on a line with this end, in a script of this version."""
    rest = list(words)
    for kind in form.split():
        if kind == "items":
            return items(rest)
        if kind == "privilege":
            if rest and rest[0].text != b"priv":
                raise Misfit(rest[0].at, "only priv can stand here")
            rest = rest[1:]
        elif not rest:
            raise Misfit(end, "a word is missing")
        else:
            fit(kind, rest.pop(0), version)
    if rest:
        raise Misfit(rest[0].at, "a word too many")


def is_number(word: Word) -> bool:
    try:
        number(word)
        return True
    except Misfit:
        return False


def first_form(words: List[Word], end: int, version: int) -> Word:
    """The word that says which form a line has; the words behind it are of that form, in a script of this version."""
    first, *rest = words
    if is_number(first):
        if not rest:
            raise Misfit(end, "a word is missing")
        verb, *rest = rest
        if verb.text not in VERBS:
            raise Misfit(verb.at, "no event of a process has this name")
        fit_form(VERBS[verb.text], rest, end, version)
        return verb
    if first.text not in KEYWORDS:
        if re.match(rb"[0-9]", first.text):
            number(first)
        raise Misfit(first.at, "no line begins with this word")
    fit_form(KEYWORDS[first.text], rest, end, version)
    return first


class Reader:
    """Reads the lines of a script, one after another."""

    def __init__(self):
        # The version, once a line that is not silent has said it.
        self.version: Optional[int] = None

    def check(self, line: bytes):
        """Raises what does not fit in the next line."""
        if len(line) > MAX_LINE:
            raise Misfit(MAX_LINE, "a line has at most 262144 bytes")
        words = [Word(it.start(), it.group()) for it in WORD.finditer(line)]
        if not words or words[0].text.startswith(b"#"):
            return
        other = re.search(rb"[^\x20-\x7e\t]", line)
        if other:
            raise Misfit(other.start(), "this byte is not printable ASCII")
        form = first_form(words, len(line), self.version or 1)
        if form.text == b"version" and self.version:
            raise Misfit(form.at, "only comments and empty lines can stand before a version")
        first = FIRST_VERSIONS.get(form.text, 1)
        if first > (self.version or 1):
            raise Misfit(form.at, f"this event needs the first line `version {first}`")
        if not self.version:
            self.version = VERSIONS[words[1].text] if form.text == b"version" else 1

    def reason(self, line: bytes) -> Optional[str]:
        """Why the next line cannot be read, if it cannot."""
        try:
            return self.check(line)
        except Misfit as misfit:
            return str(misfit)


def is_question(line: bytes) -> bool:
    """Whether a line that cannot be read asks something."""
    return line.strip(b" \t") in QUESTIONS


def lines_of(script: bytes) -> Iterator[bytes]:
    """The lines of a script, without their ends."""
    *whole, last = script.split(b"\n")
    for line in whole:
        yield line[:-1] if line.endswith(b"\r") else line
    if last:
        yield last
