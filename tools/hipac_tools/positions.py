"""A reader of JSON that keeps the position of each value in its text.

It accepts what the program's own reader accepts, and refuses what that refuses: more than 127 nested lists and objects,
halves of surrogate pairs, numbers too large for a float. So a fault that it names is the program's refusal S1.
"""

from __future__ import annotations

import re
from dataclasses import dataclass, field
from typing import Any, Optional

MOST_LEVELS = 127

SPACE = re.compile(r"[ \t\n\r]*")
PLAIN_TEXT = re.compile(r'"[^"\\\x00-\x1f]*"')
TEXT_PIECE = re.compile(r'[^"\\\x00-\x1f]+')
NUMBER_LIKE = re.compile(r"[-+.0-9][-+.0-9a-zA-Z]*")
NUMBER = re.compile(r"-?(0|[1-9][0-9]*)(\.[0-9]+)?([eE][-+]?[0-9]+)?")
WORD = re.compile(r"[A-Za-z_][A-Za-z0-9_]*")
SPACE_AT_LINE_END = re.compile(r"[ \t]*(\r?\n|\r|\Z)")
FOUR_DIGITS = re.compile(r"[0-9a-fA-F]{4}")

LITERALS = {"true": True, "false": False, "null": None}
ESCAPES = {'"': '"', "\\": "\\", "/": "/", "b": "\b", "f": "\f", "n": "\n", "r": "\r", "t": "\t"}
ESCAPES_THERE = 'there are \\" \\\\ \\/ \\b \\f \\n \\r \\t and \\u with four hexadecimal digits'
FOREIGN_WORDS = {
    "True": "true", "TRUE": "true", "False": "false", "FALSE": "false",
    "None": "null", "nil": "null", "NULL": "null", "undefined": "null",
}


@dataclass
class Node:
    """A value with its position: `text[start:end]` is how it is written."""

    value: Any
    """As `json.loads` gives it."""
    start: int
    end: int
    items: list[Node] = field(default_factory=list)
    members: dict[str, tuple[Node, Node]] = field(default_factory=dict)
    doubled: list[Node] = field(default_factory=list)
    """The keys of an object that stand in it before; of their values the last one counts."""


@dataclass(frozen=True)
class Found:
    """The value at a path, or if there is none, the nearest one that would contain it."""

    node: Node
    exact: bool


class NotJson(ValueError):
    """The text isn't JSON: what is wrong, where, and a suggestion."""

    def __init__(self, message: str, start: int, end: int, hint: str = "", opened: Optional[int] = None):
        super().__init__(message)
        self.message = message
        self.start = start
        self.end = end
        self.hint = hint
        self.opened = opened
        """Where the list or object begins that is not closed, if that is the fault."""


def parse(text: str) -> Node:
    """The value of a text, with all positions; raises NotJson."""
    reader = _Reader(text)
    reader.skip_space()
    root = reader.value(0)
    reader.skip_space()
    if reader.offset < len(text):
        raise reader.fault("more text follows after the end of the script", "one script is one JSON value")
    return root


def line_and_column(text: str, offset: int) -> tuple[int, int]:
    """The line and the column of an offset, both from 1; columns count characters."""
    return text.count("\n", 0, offset) + 1, offset - text.rfind("\n", 0, offset)


def find(root: Node, path: str) -> Found:
    """The value at the path of a refusal, such as `/rules/0/3`; `/` is the root."""
    node = root
    for step in path.split("/"):
        if step == "":
            continue
        if step in node.members:
            node = node.members[step][1]
        elif step.isdigit() and int(step) < len(node.items):
            node = node.items[int(step)]
        else:
            return Found(node, False)
    return Found(node, True)


class _Reader:
    """Reads one value after another, from left to right."""

    def __init__(self, text: str):
        self.text = text
        self.offset = 0

    def skip_space(self) -> None:
        space = SPACE.match(self.text, self.offset)
        self.offset = space.end() if space else self.offset

    def peek(self) -> str:
        return self.text[self.offset:self.offset + 1]

    def fault(self, message: str, hint: str = "", length: int = 1, opened: Optional[int] = None) -> NotJson:
        """A fault at the reader's position."""
        end = min(self.offset + length, len(self.text))
        return NotJson(message, self.offset, end, hint, opened)

    def value(self, level: int) -> Node:
        """The value that begins here, inside this number of lists and objects."""
        first = self.peek()
        if first == '"':
            return self.text_node()
        if first in ("[", "{"):
            if level >= MOST_LEVELS:
                raise self.fault(f"more than {MOST_LEVELS} lists and objects lie in one another")
            return self.list_node(level) if first == "[" else self.object_node(level)
        number, word = NUMBER_LIKE.match(self.text, self.offset), WORD.match(self.text, self.offset)
        if number:
            return self.number_node(number.group())
        if word:
            return self.literal_node(word.group())
        raise self.no_value()

    def no_value(self) -> NotJson:
        """Why no value begins here."""
        first, two = self.peek(), self.text[self.offset:self.offset + 2]
        if first == "":
            return self.fault("the text ends where a value is expected")
        if first == "'":
            return self.fault("a text stands in double quotes", 'write " in place of \'')
        if two in ("//", "/*") or first == "#":
            return self.fault("JSON has no comments", length=1 if first == "#" else 2)
        if first == "\ufeff":
            return self.fault("the text begins with a byte order mark", "save it as UTF-8 without one")
        if first in "]},":
            return self.fault(f"a value is expected here, and `{first}` stands here")
        return self.fault("no JSON value begins like this")

    def literal_node(self, word: str) -> Node:
        if word not in LITERALS:
            meant = FOREIGN_WORDS.get(word)
            hint = f"did you mean `{meant}`?" if meant else f'a text stands in double quotes: "{shortened(word)}"'
            raise self.fault(f"`{shortened(word)}` is no JSON value", hint, len(word))
        start, self.offset = self.offset, self.offset + len(word)
        return Node(LITERALS[word], start, self.offset)

    def number_node(self, written: str) -> Node:
        start = self.offset
        parts = NUMBER.fullmatch(written)
        if parts is None:
            raise self.fault(f"`{shortened(written)}` is no JSON number", number_hint(written), len(written))
        if float(written) in (float("inf"), float("-inf")):
            raise self.fault(f"the number `{shortened(written)}` is too large to be read", "", len(written))
        self.offset += len(written)
        whole = parts.group(2) is None and parts.group(3) is None and written != "-0"
        return Node(int(written) if whole else float(written), start, self.offset)

    def text_node(self) -> Node:
        start = self.offset
        plain = PLAIN_TEXT.match(self.text, start)
        if plain is not None:
            self.offset = plain.end()
            return Node(plain.group()[1:-1], start, self.offset)
        self.offset += 1
        pieces: list[str] = []
        while self.peek() != '"':
            piece = TEXT_PIECE.match(self.text, self.offset)
            if piece is not None:
                pieces.append(piece.group())
                self.offset = piece.end()
            else:
                pieces.append(self.special_piece(start))
        self.offset += 1
        return Node("".join(pieces), start, self.offset)

    def special_piece(self, start: int) -> str:
        """An escape within a text; anything else that stops a text is a fault of it."""
        letter = self.peek()
        if letter == "\\":
            return self.escape()
        if letter in ("", "\n", "\r"):
            self.offset = start
            found = SPACE_AT_LINE_END.search(self.text, start)
            end = found.start() if found else len(self.text)
            hint = 'write " at its end; a line break in a text is \\n'
            raise self.fault("this text isn't closed in its line", hint, end - start)
        hint = "write \\t" if letter == "\t" else f"write \\u{ord(letter):04x}"
        raise self.fault("a control character stands in a text", hint)

    def escape(self) -> str:
        letter = self.text[self.offset + 1:self.offset + 2]
        if letter in ESCAPES:
            self.offset += 2
            return ESCAPES[letter]
        if letter != "u":
            raise self.fault(f"`\\{letter}` is no escape", ESCAPES_THERE, 2)
        code = self.code_unit()
        if 0xD800 <= code < 0xDC00 and self.text.startswith("\\u", self.offset + 6):
            first, self.offset = self.offset, self.offset + 6
            second = self.code_unit()
            if 0xDC00 <= second < 0xE000:
                self.offset += 6
                return chr(0x10000 + ((code - 0xD800) << 10) + (second - 0xDC00))
            self.offset = first
        if 0xD800 <= code < 0xE000:
            raise self.fault("half of a surrogate pair is no character", "write the pair, or the character itself", 6)
        self.offset += 6
        return chr(code)

    def code_unit(self) -> int:
        """The number after `\\u`."""
        digits = FOUR_DIGITS.match(self.text, self.offset + 2)
        if digits is None:
            raise self.fault("four hexadecimal digits belong to `\\u`", "", 2)
        return int(digits.group(), 16)

    def list_node(self, level: int) -> Node:
        node = Node([], self.offset, self.offset)
        self.offset += 1
        self.skip_space()
        while self.goes_on(node, "]"):
            item = self.value(level + 1)
            node.items.append(item)
            node.value.append(item.value)
            self.to_next(node, "]")
        self.offset += 1
        node.end = self.offset
        return node

    def object_node(self, level: int) -> Node:
        node = Node({}, self.offset, self.offset)
        self.offset += 1
        self.skip_space()
        while self.goes_on(node, "}"):
            key, member = self.member(level)
            if key.value in node.members:
                node.doubled.append(key)
            node.members[key.value] = (key, member)
            node.value[key.value] = member.value
            self.to_next(node, "}")
        self.offset += 1
        node.end = self.offset
        return node

    def member(self, level: int) -> tuple[Node, Node]:
        if self.peek() != '"':
            word = WORD.match(self.text, self.offset)
            hint = f'write "{word.group()}"' if word else ""
            raise self.fault("a member's name is a text in double quotes", hint, len(word.group()) if word else 1)
        key = self.text_node()
        self.skip_space()
        if self.peek() != ":":
            raise self.fault(f"`:` is expected after the member's name `{shortened(key.value)}`")
        self.offset += 1
        self.skip_space()
        return key, self.value(level + 1)

    def goes_on(self, node: Node, closing: str) -> bool:
        """Whether another part follows; the end of the text is reported with the place where the list or object
        begins."""
        if self.peek() == "":
            raise self.never_closed(node, closing)
        return self.peek() != closing

    def never_closed(self, node: Node, closing: str) -> NotJson:
        what = "list" if closing == "]" else "object"
        return self.fault(f"the text ends, and a {what} isn't closed: `{closing}` is missing", opened=node.start)

    def to_next(self, node: Node, closing: str) -> None:
        """Passes the comma before another part, or stops at the closing bracket."""
        self.skip_space()
        if self.peek() == ",":
            comma = self.offset
            self.offset += 1
            self.skip_space()
            if self.peek() == closing:
                self.offset = comma
                raise self.fault(f"a comma stands before `{closing}`", "JSON has no comma after the last part")
        elif self.peek() == "":
            raise self.never_closed(node, closing)
        elif self.peek() != closing:
            raise self.no_comma(node, closing)

    def no_comma(self, node: Node, closing: str) -> NotJson:
        if self.peek() in ("]", "}"):
            return self.fault(f"`{self.peek()}` stands where `{closing}` is expected", opened=node.start)
        if self.peek() == ":" and closing == "]":
            message = "`:` stands in a list: isn't the list closed before?"
            return self.fault(message, "an object is written { }", opened=node.start)
        return self.fault(f"`,` or `{closing}` is expected here", "is a comma missing before it?")


def shortened(written: str) -> str:
    """A text for a message: cut if it is long, and without control characters."""
    cut = written if len(written) <= 40 else written[:37] + "..."
    return "".join(letter if letter.isprintable() else "\ufffd" for letter in cut)


def number_hint(written: str) -> str:
    """What is wrong with something that looks like a number."""
    if written.startswith("+"):
        return "a number has no sign +"
    if re.match(r"-?0[0-9]", written):
        return "a number has no zeros before it"
    if "." in written:
        return "a point stands between digits"
    return "a number is digits, perhaps with - before them"
