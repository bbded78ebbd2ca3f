"""The sources' text as tokens: without comments, contracts and other ghost text, and with the bracket that each stands in."""
from __future__ import annotations

import re
from typing import Iterator, List, NamedTuple, Sequence, Set

TOKENS = re.compile(
    r"""(?P<comment>//[^\n]*|/\*.*?\*/)
    |(?P<text>b?r(?P<hashes>\#*)".*?"(?P=hashes)|[bc]?"(?:[^"\\]|\\.)*")
    |(?P<letter>b?'(?:[^'\\\n]|\\u\{[^}]*\}|\\x..|\\.)')
    |(?P<lifetime>'\w+)
    |(?P<word>(?:r\#)?[^\W\d]\w*)
    |(?P<number>\d\w*)
    |(?P<sign>::|=>|->|==|!=|<=|>=|&&|\|\||\.\.=?|\S)""",
    re.VERBOSE | re.DOTALL,
)
OPEN, CLOSE = "([{", ")]}"
# words that may come before the { of a pattern's fields don't include these
NO_PATH = {"else", "loop", "unsafe", "move", "match", "if", "while", "in", "return", "try"}
# before the path after which a block or a declaration begins
BEFORE_BLOCKS = {"->", "impl", "for", "struct", "enum", "trait", "mod", "union"}
# as much of a statement is shown
SHOWN = 60


class Token(NamedTuple):
    kind: str
    text: str
    line: int
    start: int
    end: int


def read(text: str) -> Iterator[Token]:
    """All tokens but comments. A raw word is the word itself."""
    line, at = 1, 0
    for found in TOKENS.finditer(text):
        line += text.count("\n", at, found.start())
        at = found.start()
        kind = next(name for name, value in found.groupdict().items() if value is not None and name != "hashes")
        if kind != "comment":
            yield Token(kind, found.group().replace("r#", "", 1) if kind == "word" else found.group(), line, found.start(), found.end())


def closed(tokens: Sequence[Token], at: int) -> int:
    """Where the bracket that opens at `at` is closed; the last token if nowhere."""
    depth = 0
    for index in range(at, len(tokens)):
        depth += (tokens[index].text in OPEN) - (tokens[index].text in CLOSE)
        if depth == 0:
            return index
    return len(tokens) - 1


def after_ghost(tokens: Sequence[Token], at: int) -> int:
    """Past the ghost line that begins at `at`: past its semicolon outside of brackets."""
    depth = 0
    for index in range(at, len(tokens)):
        depth += (tokens[index].text in OPEN) - (tokens[index].text in CLOSE)
        if depth == 0 and tokens[index].text == ";":
            return index + 1
    return len(tokens)


def after_clause(tokens: Sequence[Token], at: int) -> int:
    """Past the contract clause that begins at `at`: `ensures`, a star and a name if there are any, and braces. `at` if it is none."""
    opens = next((index for index in range(at + 1, min(at + 4, len(tokens))) if tokens[index].text == "{"), None)
    return at if opens is None else closed(tokens, opens) + 1


def without_contracts(tokens: Sequence[Token]) -> List[Token]:
    kept: List[Token] = []
    at = 0
    while at < len(tokens):
        after = at
        if tokens[at].kind == "word" and tokens[at].text == "ghost":
            after = after_ghost(tokens, at)
        elif tokens[at].kind == "word" and tokens[at].text in ("ensures", "requires"):
            after = after_clause(tokens, at)
        if after == at:
            kept.append(tokens[at])
            after = at + 1
        at = after
    return kept


def laid_out(text: str) -> str:
    """The text as if it stood on one line."""
    text = re.sub(r"(?<=[(\[]) | (?=[)\].])", "", text)
    return re.sub(r",(?=[)\]])", "", text)


def shortened(text: str) -> str:
    """The text with its blocks left out, and no more than its end."""
    before = ""
    while before != text:
        before, text = text, re.sub(r"\{[^{}]+\}", "{}", text)
    return text if len(text) <= SHOWN else "..." + text[-SHOWN:]


class Source:
    """A file's code: `tokens`, and for each the index of the bracket that it stands in, or -1."""

    def __init__(self, text: str) -> None:
        self.text = text
        self.tokens = without_contracts(list(read(text)))
        self.inside = self._brackets()

    def _brackets(self) -> List[int]:
        inside: List[int] = []
        opened: List[int] = [-1]
        for index, token in enumerate(self.tokens):
            if token.text in CLOSE and len(opened) > 1:
                opened.pop()
            inside.append(opened[-1])
            if token.text in OPEN:
                opened.append(index)
        return inside

    def at(self, index: int) -> str:
        """The token's text; empty outside of the file."""
        return self.tokens[index].text if 0 <= index < len(self.tokens) else ""

    def closes(self, index: int) -> int:
        return closed(self.tokens, index)

    def spelled(self, first: int, last: int) -> str:
        """The tokens from `first` to `last`, with one space wherever there was any."""
        parts: List[str] = []
        for index in range(max(first, 0), min(last + 1, len(self.tokens))):
            token = self.tokens[index]
            if parts and token.start > self.tokens[index - 1].end:
                parts.append(" ")
            parts.append(token.text)
        return laid_out("".join(parts))

    def path_start(self, index: int) -> int:
        """Where the path begins that ends with the word at `index`: its words, and what stands in angle brackets between them."""
        while self.at(index - 1) == "::":
            index -= 2
            if self.at(index) == ">":
                index = self.angle_start(index)
                if self.at(index - 1) == "::":
                    index -= 2
                elif self.tokens[index - 1].kind == "word" and index > 0:
                    index -= 1
        return index

    def angle_start(self, index: int) -> int:
        """Where the `<` is whose `>` is at `index`."""
        depth = 0
        for back in range(index, -1, -1):
            depth += (self.at(back) == ">") - (self.at(back) == "<")
            if depth == 0:
                return back
        return 0

    def receiver_start(self, dot: int) -> int:
        """Where the expression begins of which the call after the dot is made."""
        index = dot - 1
        while index > 0:
            if self.at(index) in ")]":
                index = self.inside_of_closed(index)
                if self.tokens[index - 1].kind != "word" and self.at(index - 1) not in ")]!":
                    return index
                index -= 1
            elif self.at(index) in ("?", "!"):
                index -= 1
            elif self.at(index - 1) in (".", "::"):
                index -= 2
            else:
                return index
        return index

    def inside_of_closed(self, index: int) -> int:
        """Where the bracket opens that is closed at `index`."""
        depth = 0
        for back in range(index, -1, -1):
            depth += (self.at(back) in CLOSE) - (self.at(back) in OPEN)
            if depth == 0:
                return back
        return 0

    def regions(self, heads: Set[str]) -> List[range]:
        """The braces after each of the words `heads`: `enum`, `struct`."""
        return [self._braces(index) for index in range(len(self.tokens)) if self.at(index) in heads]

    def conversions(self, names: Set[str]) -> List[range]:
        """The braces after each `impl From<NAME> for` of one of the names."""
        return [self._braces(index) for index in range(len(self.tokens)) if self.at(index) == "impl" and self._converts(index, names)]

    def _braces(self, index: int) -> range:
        opens = next((i for i in range(index, len(self.tokens)) if self.at(i) in ("{", ";", "(")), len(self.tokens))
        return range(index, self.closes(opens) + 1 if self.at(opens) in ("{", "(") else opens)

    def _converts(self, index: int, names: Set[str]) -> bool:
        index += 1
        if self.at(index) == "<":
            index = self.angle_end(index) + 1
        if self.at(index) != "From" or self.at(index + 2) not in names:
            return False
        return self.at(self.angle_end(index + 1) + 1) == "for"

    def angle_end(self, index: int) -> int:
        """Where the `>` is of the `<` at `index`."""
        depth = 0
        for after in range(index, len(self.tokens)):
            depth += (self.at(after) == "<") - (self.at(after) == ">")
            if depth == 0:
                return after
        return len(self.tokens) - 1

    def is_match(self, opens: int) -> bool:
        """Whether the brace is that of a `match`."""
        for back in range(opens - 1, -1, -1):
            if self.inside[back] != self.inside[opens]:
                continue
            if self.at(back) == "match":
                return True
            if self.at(back) in (";", "{", "}", "=>", ",", "="):
                return False
        return False

    def is_fields(self, opens: int) -> bool:
        """Whether the brace is that of a pattern's or a value's fields: a path stands before it, and it is no block."""
        if opens < 1 or self.tokens[opens - 1].kind != "word" or self.at(opens - 1) in NO_PATH:
            return False
        return self.at(self.path_start(opens - 1) - 1) not in BEFORE_BLOCKS and not self._ends_head(opens)

    def _ends_head(self, opens: int) -> bool:
        """Whether `if`, `while`, `for` or `match` stands before the brace, with what it is about between them."""
        assigned = False
        for back in range(opens - 1, -1, -1):
            if self.inside[back] != self.inside[opens]:
                continue
            text = self.at(back)
            if text == "let":
                return assigned and self.at(back - 1) in ("if", "while")
            if text in ("if", "while", "for", "match"):
                return True
            if text in (";", "{", "}", "=>", ","):
                return False
            assigned = assigned or text == "="
        return False

    def outermost(self, index: int) -> int:
        """The token itself, or the outermost bracket that it stands in within one pattern or one value."""
        while True:
            around = self.inside[index]
            if around < 0 or (self.at(around) == "{" and not self.is_fields(around)):
                return index
            index = around

    def is_pattern(self, index: int) -> bool:
        """Whether the word stands in a pattern: of an arm, of `let`, or of `matches!`."""
        if self.is_matched(index):
            return True
        outer = self.outermost(index)
        return self._after_let(outer) or self._begins_arm(outer)

    def is_matched(self, index: int) -> bool:
        """Whether the word stands in the pattern of a `matches!`."""
        around = self.inside[index]
        while around >= 0 and self.at(around) != "{":
            if self.at(around - 1) == "!" and self.at(around - 2) == "matches":
                commas = [i for i in range(around, index) if self.at(i) == "," and self.inside[i] == around]
                return bool(commas) and "if" not in [self.at(i) for i in range(commas[0], index)]
            around = self.inside[around]
        return False

    def _after_let(self, outer: int) -> bool:
        for back in range(outer - 1, -1, -1):
            if self.inside[back] != self.inside[outer]:
                continue
            if self.at(back) == "let":
                return True
            if self.at(back) in (";", "{", "}", "=", "=>", "if", "return", ":"):
                return False
        return False

    def _begins_arm(self, outer: int) -> bool:
        """Whether nothing but a pattern stands between the beginning of an arm and the token."""
        around = self.inside[outer]
        if around < 0 or not self.is_match(around):
            return False
        for back in range(outer - 1, around, -1):
            if self.inside[back] != around:
                continue
            if self.at(back) in ("=>", "if", "="):
                return False
            if self.at(back) == "," or (self.at(back) == "}" and self._ends_arm(back)):
                return True
        return True

    def _ends_arm(self, closes: int) -> bool:
        """Whether an arm ends with the brace: it is that of a block after the arrow, or nothing goes on after it."""
        return self.at(self.inside_of_closed(closes) - 1) == "=>" or self.at(closes + 1) not in ("|", ".", "?", "(", "else")

    def is_compared(self, index: int) -> bool:
        """Whether the path that ends with the word is compared with something, perhaps as what a variant holds."""
        while self.at(self.path_start(index) - 1) not in ("==", "!=") and self.at(index + 1) not in ("==", "!="):
            around = self.inside[index]
            if around < 1 or self.at(around) != "(" or not self.at(around - 1)[:1].isupper():
                return False
            index = around - 1
        return True

    def in_signature(self, index: int) -> bool:
        """Whether the word stands in the parentheses after `fn NAME`."""
        around = self.inside[index]
        while around >= 0 and self.at(around) == "(":
            before = around - 1
            if self.at(before) == ">":
                before = self.angle_start(before) - 1
            if self.at(before - 1) == "fn":
                return True
            around = self.inside[around]
        return False

    def is_type(self, index: int) -> bool:
        """Whether the path that ends with the word is a type: in angle brackets, after an arrow, of a parameter or a variable."""
        start = self.path_start(index)
        if self.at(index + 1) in (">", "<") or self.at(start - 1) in ("<", "->"):
            return True
        return self.at(start - 1) in (":", "&") and (self.in_signature(index) or self.at(index + 1) in ("|", "="))

    def is_parameter_type(self, index: int) -> bool:
        """Whether the word names a type parameter: `impl<WORD>`, `fn name<WORD>`."""
        for back in range(index - 1, -1, -1):
            if self.at(back) == "<":
                return self.at(back - 1) == "impl" or self.at(back - 2) in ("fn", "struct", "enum", "trait", "type")
            if self.at(back) not in (",", ":", "+") and self.tokens[back].kind not in ("word", "lifetime"):
                return False
        return False

    def use_start(self, index: int) -> int:
        """Where the `use` is that the word stands in, or -1."""
        for back in range(index - 1, -1, -1):
            if self.at(back) == "use":
                return back
            if self.at(back) not in ("::", "{", "}", ",", "*") and self.tokens[back].kind != "word":
                return -1
        return -1

    def in_use(self, index: int) -> bool:
        return self.use_start(index) >= 0

    def used_from(self, index: int) -> Set[str]:
        """The words before a `::` between the `use` and the word."""
        return {self.at(i) for i in range(self.use_start(index) + 1, index) if self.at(i + 1) == "::"}

    def imported(self, crate: str) -> Set[str]:
        """The words in the uses of a crate."""
        found: Set[str] = set()
        for index in range(len(self.tokens)):
            if self.at(index) == "use" and self.at(index + 1) == crate:
                end = next(i for i in range(index, len(self.tokens)) if self.at(i) == ";")
                found |= {self.at(i) for i in range(index + 2, end) if self.tokens[i].kind == "word"}
        return found

    def defines(self, name: str) -> bool:
        return any(self.at(i) == "fn" and self.at(i + 1) == name for i in range(len(self.tokens)))

    def declared(self) -> Set[str]:
        """The types, traits and modules that the file declares."""
        return {self.at(i + 1) for i in range(len(self.tokens)) if self.at(i) in ("struct", "enum", "trait", "mod")}

    def owner(self, index: int) -> str:
        """The last word of the path before the function at `index`; the type itself if angle brackets stand around it."""
        before = index - 2
        if self.at(before) != ">":
            return self.at(before)
        opens = self.angle_start(before)
        if self.at(opens - 1) == "::":
            return self.at(opens - 2)
        return self.at(opens - 1) if opens and self.tokens[opens - 1].kind == "word" else self.at(opens + 1)

    def renamed_type(self, index: int) -> int:
        """Of `type NAME = PATH`, where the last word of the path is; `index` if there is none."""
        after = next((i for i in range(index, len(self.tokens)) if self.at(i) in ("=", ";", "{")), index)
        if self.at(after) != "=":
            return index
        after += 1
        while self.at(after + 1) == "::":
            after += 2
        return after

    def in_constant(self, index: int) -> bool:
        """Whether the word stands in the value of a `const`, a `static` or a `let`."""
        outer = self.outermost(index)
        for back in range(outer - 1, -1, -1):
            if self.inside[back] != self.inside[outer]:
                continue
            if self.at(back) in (";", "{", "}", "=>"):
                return False
            if self.at(back) in ("const", "static", "let"):
                return True
        return False

    def function_before(self, index: int) -> int:
        """Where the `fn` is whose result the word is, or -1."""
        for back in range(index - 1, -1, -1):
            if self.inside[back] == self.inside[index] and self.at(back) in ("fn", ";", "}", "{"):
                return back if self.at(back) == "fn" else -1
        return -1

    def implemented(self, index: int) -> str:
        """Of `impl TRAIT for WORD` the trait, with what it is of."""
        begins = next((back for back in range(index, -1, -1) if self.at(back) == "impl"), index)
        first = begins + 1 if self.at(begins + 1) != "<" else self.angle_end(begins + 1) + 1
        return self.spelled(first, index - 2)

    def called(self, index: int) -> Set[int]:
        """The words before the parentheses that the token stands in: what it is given to."""
        found: Set[int] = set()
        around = self.inside[index]
        while around > 0 and self.at(around) != "{":
            before = self.angle_start(around - 1) - 2 if self.at(around - 1) == ">" else around - 1
            found.add(before)
            around = self.inside[around]
        return found

    def heads(self, index: int) -> Iterator[str]:
        """The texts before the braces that the token stands in, from the innermost."""
        around = self.inside[index]
        while around >= 0:
            if self.at(around) == "{":
                yield self.spelled(self.begin(around), around)
            around = self.inside[around]

    def place(self, index: int) -> str:
        """What a table knows a word by: the end of its statement or arm up to it, after the head of the block that this is in."""
        outer = self.outermost(index)
        around = self.inside[outer]
        own = shortened(self.spelled(self.begin(outer), index))
        head = "" if around < 0 else self._head(around) + " "
        return head + own

    def _head(self, opens: int) -> str:
        """What stands before a block: of a function its name alone."""
        function = self.function_before(opens)
        return f"fn {self.at(function + 1)} {{" if function >= 0 else shortened(self.spelled(self.begin(opens), opens))

    def begin(self, outer: int) -> int:
        """Where the statement, arm or field begins that the token at `outer` is of."""
        around = self.inside[outer]
        for back in range(outer - 1, around, -1):
            if self.inside[back] != around:
                continue
            if self.at(back) in (";", ",") or (self.at(back) == "}" and self.at(back + 1) not in (".", "?", "else", ")")):
                return back + 1
            if self.at(back) == "=>" and self.at(outer) == "{":
                return back + 1
        return around + 1
