"""How a script is written, JSON or text: messages write forms in the same way."""

from __future__ import annotations

from dataclasses import dataclass

from ..language import Form
from ..notation.expression_texts import expression_text


@dataclass(frozen=True)
class Dialect:
    """The words of one way to write scripts, where messages and hints need them."""

    is_text: bool
    veto: str
    abort: str
    each: str
    moments: str
    """The events that name moments."""
    if_closed: str
    """What helps a guard whose test may end with a fault, from version 4 on."""
    in_a_sub: str
    """The same before version 4."""

    def field_of(self, row: str, field: str = "") -> str:
        """A field of a row; any one, if none is given."""
        if self.is_text:
            return f"`{row}.{field or 'field'}`"
        return f'["of", "{row}", {f"{chr(34)}{field}{chr(34)}" if field else "field"}]'

    def asked(self, form: Form) -> str:
        """A form that asks for something of the occurrence: in JSON its word."""
        return expression_text(form) if self.is_text else str(form[0])

    def later(self, word: str) -> str:
        """A form of version 4, by its word in JSON."""
        if not self.is_text:
            return f"`{word}`"
        return "a `veto` with a message" if word == "veto" else f"`{word}`"


JSON = Dialect(
    is_text=False,
    veto='["veto"]',
    abort='["abort"]',
    each='["each", name, class, predicate, body]',
    moments="`at` and `every`",
    if_closed='with the seventh part "closed" it vetoes then too: docs/SCRIPT.md, "Closed rules"',
    in_a_sub='a test in ["sub", [..], [["veto"]]] of its action vetoes then too: docs/SCRIPT.md, "Guards"',
)
TEXT = Dialect(
    is_text=True,
    veto="`veto`",
    abort="`abort`",
    each="`each item i where .. { .. }`",
    moments="`moment` and `every`",
    if_closed='a rule that is `closed` vetoes then too: docs/SCRIPT.md, "Closed rules"',
    in_a_sub='a test in `sub { .. } otherwise { veto }` of its action vetoes then too: docs/SCRIPT.md, "Guards"',
)
