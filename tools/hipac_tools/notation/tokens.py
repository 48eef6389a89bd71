"""The tokens of a text. Each is as long as it can be; white space and comments stand between them."""

from __future__ import annotations

import json
import re
from enum import Enum
from typing import Any, NamedTuple

from ..language import GREATEST, MOST_NAME_BYTES


class NotText(ValueError):
    """A text isn't in the notation: what is wrong at the first place that no script could have, and a hint or none."""

    def __init__(self, message: str, start: int, end: int, hint: str = "", opened: int | None = None):
        super().__init__(message)
        self.message = message
        self.start = start
        self.end = end
        self.hint = hint
        self.opened = opened
        """Where the brace, parenthesis or bracket stands that isn't closed, if the text ends in it."""


class Kind(Enum):
    """What a token is. The last one is END, or BROKEN where the text goes on with no token."""

    WORD = "word"
    QUOTED = "quoted"
    NUMBER = "number"
    TEXT = "text"
    SYMBOL = "symbol"
    END = "end"
    BROKEN = "broken"


class Token(NamedTuple):
    """A token: `text[start:end]` is how it is written."""

    kind: Kind
    value: Any
    """The word, the name, the number, the text or the symbol; of BROKEN the fault."""
    start: int
    end: int

    def is_named(self) -> bool:
        """Whether it is a word, or a name in backquotes."""
        return self.kind in (Kind.WORD, Kind.QUOTED)

    def told(self) -> str:
        """The token as messages name it."""
        if self.kind is Kind.END:
            return "the end"
        if self.kind is Kind.NUMBER:
            return f"the number {self.value}"
        if self.kind is Kind.TEXT:
            return "a text"
        return f"the name `{self.value}`" if self.kind is Kind.QUOTED else f"`{self.value}`"


ESCAPE = r"""\\(?:["\\/bfnrt]|u[0-9A-Fa-f]{4})"""
TEXT_PIECE = rf"""[^"\\\x00-\x1f]|{ESCAPE}"""
SPACE = re.compile(r"(?:[ \t\r\n]|#[^\n]*)*")
TOKEN = re.compile(
    r"""(?P<WORD>[A-Za-z][A-Za-z0-9_]*)"""
    r"""|`(?P<QUOTED>[A-Za-z][A-Za-z0-9_]*)`"""
    r"""|(?P<NUMBER>(?:0|[1-9][0-9]*)(?![0-9]))"""
    rf"""|(?P<TEXT>"(?:{TEXT_PIECE})*")"""
    r"""|(?P<SYMBOL>!=|<=|>=|[{}()\[\],:;.=<>+\-*/%])"""
)
INNER_TEXT = re.compile(rf"(?:{TEXT_PIECE})*")
INNER_NAME = re.compile(r"(?:[A-Za-z][A-Za-z0-9_]*)?")
PAIRED = re.compile(
    r"(?:[^\\]|\\[^u]|\\u(?![dD][89a-fA-F])....|\\u[dD][89abAB]..\\u[dD][c-fC-F]..)*(?P<half>\\u)?"
)
"""The longest beginning of a written text in which each half of a surrogate pair has its other one, and the escape
after it."""
ESCAPES = r'there are \" \\ \/ \b \f \n \r \t and \u with four hexadecimal digits'
NAME_RULE = "a name is a letter, then letters, digits or `_`"
OTHER_SIGNS = {
    "!": "not equal is `!=`, and negation is `not`", "&": "conjunction is `and`", "|": "disjunction is `or`",
    "'": "a text is in double quotes", "_": "a name begins with a letter", "\u201c": "a text is in plain double quotes",
    "\ufeff": "this is a byte order mark: save the file as UTF-8 without one",
}
"""Characters with which no token begins, and what is written in their place."""


def tokens_of(text: str, is_cut: bool = False) -> list[Token]:
    """All tokens of a text, up to its end or to the first character that continues none. A text is cut where its bytes
    are no UTF-8, and then goes on with no token there."""
    tokens: list[Token] = []
    at = end_of(SPACE, text, 0)
    while at < len(text):
        found = TOKEN.match(text, at)
        tokens.append(broken(text, at) if found is None else token_of(found))
        if tokens[-1].kind is Kind.BROKEN:
            return tokens
        at = end_of(SPACE, text, tokens[-1].end)
    if is_cut:
        return [*tokens, fault("the bytes here are no UTF-8", at, at + 1, "a script is saved as UTF-8")]
    return [*tokens, Token(Kind.END, None, at, at)]


def end_of(expression: re.Pattern[str], text: str, at: int) -> int:
    """Where an expression ends that matches at a place."""
    found = expression.match(text, at)
    return at if found is None else found.end()


def token_of(found: re.Match[str]) -> Token:
    """A token that is written as one; it may still be too long, too large, or half of a pair."""
    kind = Kind[str(found.lastgroup)]
    written, start, end = found[kind.name], found.start(), found.end()
    if kind in (Kind.WORD, Kind.QUOTED) and len(written) > MOST_NAME_BYTES:
        return fault(f"a name has at most {MOST_NAME_BYTES} bytes", start, end)
    if kind is Kind.NUMBER:
        if len(written) > 19 or int(written) > GREATEST + 1:
            return fault("the number is outside 64 bits", start, end)
        return Token(kind, int(written), start, end)
    if kind is Kind.TEXT:
        paired = PAIRED.match(written)
        if paired is not None and paired["half"]:
            half = start + paired.start("half")
            return fault("half of a surrogate pair is no character", half, half + 6)
        return Token(kind, json.loads(written), start, end)
    return Token(kind, written, start, end)


def fault(message: str, start: int, end: int, hint: str = "") -> Token:
    """The last token of a text that goes on with none."""
    return Token(Kind.BROKEN, NotText(message, start, end, hint), start, end)


def broken(text: str, at: int) -> Token:
    """What is wrong where no token begins, or where one begins and doesn't end."""
    first = text[at]
    if first == '"':
        return broken_text(text, end_of(INNER_TEXT, text, at + 1))
    if first == "`":
        name_end = end_of(INNER_NAME, text, at + 1)
        if name_end == at + 1:
            return fault("a name is expected after the backquote", name_end, name_end + 1, NAME_RULE)
        return fault("a backquote is expected after the name", name_end, name_end + 1)
    if "0" <= first <= "9":
        return fault("a number doesn't begin with 0", at, end_of(re.compile("[0-9]+"), text, at))
    is_shown = first.isprintable() and first != "`"
    return fault(f"no token begins with {f'`{first}`' if is_shown else f'U+{ord(first):04X}'}", at, at + 1,
                 OTHER_SIGNS.get(first, ""))


def broken_text(text: str, at: int) -> Token:
    """What is wrong in a text, whose pieces are right up to here."""
    if at == len(text):
        return fault('the text isn\'t closed: expected `"`, found the end', at, at)
    if text[at] == "\\":
        return fault(f"`{text[at:at + 2]}` is no escape", at, at + 2, ESCAPES)
    if text[at] == "\n":
        return fault('the text isn\'t closed: expected `"`, found the end of the line', at, at, "a line break is `\\n`")
    return fault("a text has no control characters", at, at + 1, "write an escape")
