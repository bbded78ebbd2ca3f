"""The rules of tests/memory: each goes through a file's text and gives what it finds there."""
from __future__ import annotations

import re
from typing import AbstractSet, Callable, Iterator, List, NamedTuple

from .tables import GROWTH, LIBRARIES, MADE, MADE_MACROS, METHODS
from .text import Source, shortened

ERRORS = {"AllocError", "AllocFailed"}
# those of memory_growth, which nobody else can make: memory ran out, or a count came to its end
OURS_ALONE = {"OutOfMemory", "CountEnded"}
KNOWN = ERRORS | OURS_ALONE
# the variants that say so of a refusal, of a fault, and of a session's end
VARIANTS = {"NoMemory", "Memory"}
ALONE = KNOWN | VARIANTS
DECLARES = {"struct", "enum", "type", "trait", "union", "mod", "fn", "const", "static"}
BOXES = MADE["new"]
# their functions of such a name ask for nothing
NO_OWNERS = {"mem", "env", "u8", "u16", "u32", "u64", "u128", "usize", "i8", "i16", "i32", "i64", "i128", "isize"}
# from here on a number is taken for more than there is room for
MOST = 1 << 40
DIGITS = re.compile(r"(0x[0-9a-fA-F_]+|0b[01_]+|0o[0-7_]+|[0-9_]+)")
FORMATTER = re.compile(r"\bf: &mut (?:fmt::)?Formatter<")

NAMED, GROWN, VALUE = "AllocError is named", "memory is asked for", "an error that nothing came before"
RENAMED, DEFAULT, MACRO = "another name", "a default", "a macro"
TOO_MUCH, NUMBER = "more than there is room for", "a refusal by number or name"
DEFINED, OPENED, ELSEWHERE = "an error of its own", "an error that others can make", "text from elsewhere"
# what an error of memory_growth may be made of by `?`
HANDED_ON = re.compile(r"From<(?:AllocError|AllocFailed<\w+>|CountEnded)>$")


class Finding(NamedTuple):
    """What was found, in which line, and the text by which a table knows it."""

    kind: str
    line: int
    text: str


class File(NamedTuple):
    """A file of a crate: its name below crates/, its text, and the types and crates that are our own."""

    name: str
    source: Source
    own: AbstractSet[str]

    @property
    def is_growth(self) -> bool:
        return self.name.startswith(f"{GROWTH}/")


Rule = Callable[[File], Iterator[Finding]]


def named(file: File) -> Iterator[Finding]:
    for token in file.source.tokens:
        if token.text in ERRORS:
            yield Finding(NAMED, token.line, token.text)


def grown(file: File) -> Iterator[Finding]:
    """The calls that ask for memory."""
    for index, token in enumerate(file.source.tokens):
        text = growth(file, index) if token.kind == "word" else ""
        if text:
            yield Finding(GROWN, token.line, text)


def growth(file: File, index: int) -> str:
    """The text of the call of the kit that the word is of, if that asks for memory; otherwise none."""
    source, word = file.source, file.source.at(index)
    if word in MADE_MACROS and source.at(index + 1) == "!":
        to_formatter = source.at(index + 3) == "f" and any(FORMATTER.search(head) for head in source.heads(index))
        return "" if to_formatter else f"{word}!"
    if source.in_use(index):
        return used(source, index)
    if source.at(index - 1) == ".":
        return method(source, index)
    return function(file, index) if source.at(index - 1) == "::" else ""


def used(source: Source, index: int) -> str:
    """A function of a library that a `use` brings in, or all that the library has."""
    word, before = source.at(index), source.used_from(index)
    everything = word in LIBRARIES and source.at(index + 2) == "*"
    one = word in MADE and before & (MADE[word] | LIBRARIES)
    return f"use {word}" if everything or one else ""


def method(source: Source, index: int) -> str:
    name, opens = source.at(index), index + 1
    if source.at(opens) == "::":
        opens = source.angle_end(opens + 1) + 1
    if name not in METHODS or source.at(opens) != "(":
        return ""
    first, closes = source.receiver_start(index - 1), source.closes(opens)
    asked = source.spelled(opens + 1, closes - 1)
    # no answer comes of a result that is dropped, and one that is unwrapped was proved never to be refused: there was room
    dropped = source.at(closes + 1) == ";" and source.at(first - 1) in (";", "{", "}")
    unwrapped = source.at(closes + 1) == "." and source.at(closes + 2) == "unwrap"
    if dropped or unwrapped or asks_for_nothing(name, asked):
        return ""
    return shortened(source.spelled(first, index))


def asks_for_nothing(name: str, asked: str) -> bool:
    """Whether what is asked shows that it is another method: an entry's number, a text that is cut, a thread that is joined."""
    return {"entry": not asked, "split": bool(asked), "join": asked in ("rt", "&rt")}.get(name, False)


def function(file: File, index: int) -> str:
    source, name = file.source, file.source.at(index)
    first = source.path_start(index)
    if name in MADE and MADE[name] & {source.at(i) for i in range(first, index)}:
        return source.spelled(first, index)
    owner = source.owner(index)
    ours = owner in file.own or owner in NO_OWNERS or (owner == "Self" and source.defines(name))
    return source.spelled(first, index) if name in METHODS and not ours else ""


def valued(file: File) -> Iterator[Finding]:
    """The errors that are values, outside of the conversions."""
    source = file.source
    passed = source.regions({"enum", "struct"})
    converting = source.conversions(KNOWN)
    for index, token in enumerate(source.tokens):
        known = token.text in KNOWN
        if token.text not in ALONE or (known and file.is_growth) or source.in_use(index):
            continue
        if any(index in part for part in (passed if known else passed + converting)) or (known and source.is_type(index)):
            continue
        if not (source.is_pattern(index) or source.is_compared(index)):
            yield Finding(VALUE, token.line, source.place(index))


def renamed(file: File) -> Iterator[Finding]:
    """Other names of an error, or of what boxes a value."""
    source = file.source
    for index, token in enumerate(source.tokens):
        of = index
        if token.text == "type":
            of = source.renamed_type(index)
        elif source.in_use(index) and source.at(index + 1) == "as":
            of = index
        else:
            continue
        if source.at(of) in ALONE | BOXES:
            yield Finding(RENAMED, token.line, source.spelled(min(index, of), max(index + 2, of)))


def defaults(file: File) -> Iterator[Finding]:
    for index, token in enumerate(file.source.tokens):
        if token.text in ("default", "unwrap_or_default") and file.source.at(index - 1) in ("::", "."):
            yield Finding(DEFAULT, token.line, file.source.place(index))


def macros(file: File) -> Iterator[Finding]:
    for token in file.source.tokens:
        if token.text == "macro_rules":
            yield Finding(MACRO, token.line, "macro_rules!")


def too_much(file: File) -> Iterator[Finding]:
    """The greatest length, a constant that is as great, and any number of a growth that nothing has room for."""
    source = file.source
    for index, token in enumerate(source.tokens):
        greatest = token.text == "MAX" and (source.at(index - 2) in ("usize", "isize") or source.in_constant(index))
        if greatest or (is_great(source, index) and any(is_growing(source, of) for of in source.called(index))):
            yield Finding(TOO_MUCH, token.line, source.place(index))


def is_great(source: Source, index: int) -> bool:
    token = source.tokens[index]
    if token.kind == "number":
        found = DIGITS.match(token.text)
        assert found, f"{token.text} is no number"
        digits = found[0].replace("_", "")
        return int(digits, {"0x": 16, "0b": 2, "0o": 8}.get(digits[:2], 10)) >= MOST
    return token.text == "MAX" or (token.text == "!" and source.at(index + 1) == "0") or token.text == source.at(index + 1) == "<"


def is_growing(source: Source, index: int) -> bool:
    """Whether the word is that of a call that asks for memory, of the kit or of memory_growth."""
    name = source.at(index)
    before = {source.at(i) for i in range(source.path_start(index), index)}
    return name in METHODS or GROWTH in before or name in source.imported(GROWTH)


def numbered(file: File) -> Iterator[Finding]:
    for index, token in enumerate(file.source.tokens):
        if token.text in ("from_number", "from_name") and file.source.at(index - 1) in ("::", "."):
            yield Finding(NUMBER, token.line, file.source.place(index))


def defined(file: File) -> Iterator[Finding]:
    """What is declared by the name of an error."""
    for index, token in enumerate(file.source.tokens):
        declares = file.source.at(index - 1) in DECLARES or file.source.is_parameter_type(index)
        if token.text in ALONE and declares and not file.is_growth:
            yield Finding(DEFINED, token.line, token.text)


def opened(file: File) -> Iterator[Finding]:
    """Ways by which others than memory_growth could make one of its errors."""
    source = file.source
    for index, token in enumerate(source.tokens if file.is_growth else []):
        if token.text == "Default" or (token.text in OURS_ALONE and is_open(source, index)):
            yield Finding(OPENED, token.line, source.place(index))


def is_open(source: Source, index: int) -> bool:
    before, after = source.at(index - 1), source.at(index + 1)
    if before == "struct":
        fields = range(index + 1, source.closes(index + 1)) if after in ("(", "{") else range(0)
        return not fields or "pub" in [source.at(field) for field in fields]
    if before == "->":
        function = source.function_before(index)
        within = source.at(function - 1) == ")" and source.at(function - 2) in ("crate", "super", "self") and source.at(function - 3) == "("
        return function > 0 and not within and source.at(function - 1) in ("pub", ")", "const")
    if before == "for":
        return source.implemented(index).startswith("From<") and not HANDED_ON.match(source.implemented(index))
    return before == ":" and source.at(index - 3) in ("const", "static")


def elsewhere(file: File) -> Iterator[Finding]:
    source = file.source
    for index, token in enumerate(source.tokens):
        includes = token.text == "include" and source.at(index + 1) == "!"
        if includes or (token.text == "path" and source.at(index - 1) == "[" and source.at(index - 2) == "#"):
            yield Finding(ELSEWHERE, token.line, token.text)


# of a crate that asks for memory itself as yet, and of all
OUTSIDE: List[Rule] = [named, grown]
ALWAYS: List[Rule] = [valued, renamed, defaults, macros, too_much, numbered, defined, opened, elsewhere]


def findings(file: File, rules: List[Rule]) -> Iterator[Finding]:
    for rule in rules:
        yield from rule(file)
