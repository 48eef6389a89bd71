"""The tokens of a text, one after another, and the nodes that are made of them."""

from __future__ import annotations

from typing import Any, Callable, NoReturn, Union

from ..language import GREATEST
from ..positions import Node
from . import hints
from .tokens import Kind, NotText, Token, tokens_of
from .words import MOST_NESTED, NOW, RESERVED

OPENING = {"{": "}", "(": ")", "[": "]"}


class Cursor:
    """Stands at a token. Each question about it adds to what could stand there, so that a fault can say it all.

    A node begins where its first token does, and ends where its last one does. A part that isn't written, as a mode or
    a predicate, has the place of the token that stands there instead.
    """

    def __init__(self, text: str, is_cut: bool = False) -> None:
        self.tokens = tokens_of(text, is_cut)
        self.index = 0
        self.now = self.tokens[0]
        self.asked: list[Union[str, tuple[str, ...]]] = []
        """What could stand at the token: groups by their names, and words and symbols."""
        self.opened: list[Token] = []
        self.end = 0
        """Where the last token ends that was taken."""
        self.version = 0
        """The script's version, once it is read: on it depends what a condition may have."""

    def take(self) -> Token:
        token = self.now
        self.index += 1
        self.now = self.tokens[self.index]
        self.end = token.end
        self.asked = []
        if token.kind is Kind.SYMBOL and token.value in OPENING:
            self.opened.append(token)
        elif token.kind is Kind.SYMBOL and token.value in OPENING.values():
            self.opened.pop()
        return token

    # ---- questions about the token

    def is_word(self, *words: str, called: str = "") -> bool:
        self.asked.append(called or words)
        return self.now.kind is Kind.WORD and self.now.value in words

    def is_symbol(self, *symbols: str, called: str = "") -> bool:
        self.asked.append(called or symbols)
        return self.now.kind is Kind.SYMBOL and self.now.value in symbols

    def is_kind(self, kind: Kind, called: str) -> bool:
        self.asked.append(called)
        return self.now.kind is kind

    def is_name(self, called: str) -> bool:
        self.asked.append(called)
        return self.now.kind is Kind.QUOTED or self.now.kind is Kind.WORD and self.now.value not in RESERVED

    def is_now(self) -> bool:
        """Whether the token is the bare word for the moment."""
        return self.now.kind is Kind.WORD and self.now.value == NOW

    # ---- tokens that must stand here

    def word(self, word: str) -> Token:
        return self.take() if self.is_word(word) else self.fault()

    def symbol(self, symbol: str) -> Token:
        return self.take() if self.is_symbol(symbol) else self.fault()

    def name(self, called: str) -> Node:
        return self.leaf() if self.is_name(called) else self.fault()

    def number(self, called: str) -> Node:
        """A number that isn't negative."""
        if not self.is_kind(Kind.NUMBER, called):
            self.fault()
        if self.now.value > GREATEST:
            self.refuse("the number is outside 64 bits")
        return self.leaf()

    # ---- nodes

    def leaf(self) -> Node:
        """The token as a value."""
        token = self.take()
        return Node(token.value, token.start, token.end)

    def absent(self, value: Any) -> Node:
        """A value that isn't written."""
        return Node(value, self.now.start, self.now.start)

    def listing(self, items: list[Node], start: int) -> Node:
        """A list that ends with the last token."""
        return Node([item.value for item in items], start, max(start, self.end), items)

    def form(self, tag: str, parts: list[Node], start: int) -> Node:
        """A form that ends with the last token. Its word has the place of the whole."""
        return self.listing([Node(tag, start, self.end), *parts], start)

    def several(self, part: Callable[[Cursor], Node], separator: str) -> list[Node]:
        """One or more parts with a symbol between them."""
        parts = [part(self)]
        while self.is_symbol(separator):
            self.take()
            parts.append(part(self))
        return parts

    # ---- faults

    def check_level(self, level: int) -> None:
        """Refuses what begins here and is this deep."""
        if level > MOST_NESTED:
            self.refuse(f"this is nested too deep: at most {MOST_NESTED} levels")

    def check_chain(self, operators: int) -> None:
        """Refuses an operator that has so many before it in its chain."""
        if operators >= MOST_NESTED:
            self.refuse(f"a chain has at most {MOST_NESTED} operators")

    def refuse(self, message: str) -> NoReturn:
        raise NotText(message, self.now.start, self.now.end)

    def wanted(self) -> list[str]:
        """What could stand at the token, as messages name it."""
        groups = ([one] if isinstance(one, str) else [f"`{word}`" for word in one] for one in self.asked)
        return list(dict.fromkeys(each for group in groups for each in group))

    def fault(self) -> NoReturn:
        """The token is none of those that were asked for since the last one."""
        token, wanted = self.now, self.wanted()
        if token.kind is Kind.BROKEN:
            raise token.value
        before, earlier = (self.tokens[max(self.index - back, 0)] for back in (1, 2))
        after = self.tokens[min(self.index + 1, len(self.tokens) - 1)]
        listed = " or ".join(part for part in (", ".join(wanted[:-1]), wanted[-1]) if part)
        hint = hints.hint(hints.Around(earlier, before, token, after, tuple(wanted)))
        opened = self.opened[-1].start if token.kind is Kind.END and self.opened else None
        raise NotText(f"expected {listed}, found {token.told()}", token.start, token.end, hint, opened)
