"""The parts of which the forms are made: lists, words, names and numbers. Each is read, or refused with its reason."""

from __future__ import annotations

import re
from dataclasses import dataclass
from typing import Iterable, Iterator, Mapping, Optional

from ..language import CLOSED, GREATEST, LEAST, MOST_NAME_BYTES, MOST_PLACE, NAME_LETTERS, counts, is_name
from ..near import NO_HABITS, nearest
from ..positions import Node, shortened
from ..wording import listed
from .faults import Place
from .forms import GRAMMARS, Grammar, Shape, quoted

NAME_RULE = "a name is 1 to 32 bytes: an ASCII letter, then ASCII letters, digits or _"


def kind_of(node: Node) -> str:
    """What a JSON value is, in words."""
    value = node.value
    if value is None:
        return "null"
    if isinstance(value, bool):
        return "a truth value"
    if isinstance(value, (int, float)):
        return "a number"
    if isinstance(value, str):
        return "a text"
    return "a list" if isinstance(value, list) else "an object"


def is_number(node: Node) -> bool:
    return isinstance(node.value, (int, float)) and not isinstance(node.value, bool)


def did_you_mean(word: str, known: Iterable[str], habits: Mapping[str, str] = NO_HABITS) -> str:
    """The question after what was meant, or nothing where no known word is near."""
    meant = nearest(word, known, habits)
    return f"did you mean `{meant}`?" if meant else ""


# ---- lists and forms


def list_at(place: Place, what: str, items: str) -> list[Place]:
    """The items of a list; `what` names it, as `the classes`, and `items` says of what it is one."""
    if not isinstance(place.node.value, list):
        raise place.wrong_shape(f"{what} must be a list of {items}, and this is {kind_of(place.node)}")
    return place.items()


def up_to_bare(places: Iterable[Place]) -> Iterator[Place]:
    """The items of a list of lists, up to the first that is no list. Brackets are missing there, so what is behind it
    isn't what it seems to be."""
    for place in places:
        yield place
        if not isinstance(place.node.value, list):
            return


@dataclass(frozen=True)
class Limit:
    """How many items a list may have: `a class` has at most 32 `fields`, else it is refused with this word."""

    owner: str
    most: int
    items: str
    word: str


def short_list_at(place: Place, what: str, items: str, limit: Limit) -> list[Place]:
    """A list of no more items than its limit; the first one too many is shown."""
    parts = list_at(place, what, items)
    if len(parts) > limit.most:
        first = parts[limit.most].note(f"number {limit.most + 1} is here:")
        message = f"{limit.owner} has at most {limit.most} {limit.items}, and here are {len(parts)}"
        raise place.over_limit(limit.word, message, notes=(first,))
    return parts


def count_of(number: int) -> str:
    return {0: "no parts", 1: "1 part"}.get(number, f"{number} parts")


def shape_at(place: Place, shape: Shape, hint: str = "", outside: Optional[Place] = None) -> list[Place]:
    """The parts of a list of fixed parts; the hint is for a wrong number of them. A text has such a number only if the
    form is of another version, and then the hint says all. `outside` is the list of such lists in which it stands, if
    it stands in one."""
    written = f"{shape.what} is {shape.written()}"
    if not isinstance(place.node.value, list):
        bare = outside is not None and first_word(outside.node) is not None
        raise place.wrong_shape(f"{written}, and this is {kind_of(place.node)}", bare_shape(shape) if bare else "")
    if len(place.node.items) != len(shape.parts):
        if place.dialect.is_text:
            last = place.node.items[-1]
            raise place.refused(f"S2 {place.path}", hint, at=last if last.value == CLOSED else None)
        raise place.wrong_shape(f"{written}: {count_of(len(shape.parts))}, and this has {len(place.node.items)}", hint)
    return place.items()


def bare_shape(shape: Shape) -> str:
    """What helps where a list of such lists begins with a text: the parts of one stand in it as they are."""
    return f"put the {shape.what.split(' ', 1)[1]} into a list of its own: [{shape.written()}]"


def form_at(place: Place, grammar: Grammar) -> tuple[str, list[Place]]:
    """The word and the other parts of a form."""
    node = place.node
    if not isinstance(node.value, list):
        message = f"{grammar.what} is a list [word, ..], and this is {kind_of(node)}"
        raise place.wrong_shape(message, not_a_list(node, grammar))
    if not node.items:
        raise place.wrong_shape(f"{grammar.what} is a list [word, ..], and this list is empty", words_of(grammar))
    word = node.items[0].value
    if not isinstance(word, str):
        raise place.wrong_shape(f"{grammar.what} begins with its word, and this begins with {kind_of(node.items[0])}",
                                first_is_no_word(node, grammar))
    is_known = word in grammar.words
    parts = place.items()[1:]
    if place.dialect.is_text and not (is_known and len(parts) in counts(grammar.words[word])):
        raise place.wrong_shape(f"{place.dialect.later(word)} is of version 4")
    if not is_known:
        raise place.wrong_shape(f"{quoted(shortened(word))} begins no {grammar.named()}", *what_instead(word, grammar))
    if len(parts) not in counts(grammar.words[word]):
        raise place.wrong_shape(wrong_count(word, grammar, len(parts)), other_word(word, len(parts)))
    return word, parts


def first_word(node: Node) -> Optional[str]:
    """The text with which a list begins, if it begins with one."""
    word = node.items[0].value if node.items else None
    return word if isinstance(word, str) else None


def words_of(grammar: Grammar) -> str:
    return f"{grammar.what} begins with {listed(grammar.words, 'or')}"


def not_a_list(node: Node, grammar: Grammar) -> str:
    if isinstance(node.value, str) and node.value in grammar.words:
        return f"write {grammar.written(node.value)}"
    return ""


def first_is_no_word(node: Node, grammar: Grammar) -> str:
    if len(node.items) == 1 and first_word(node.items[0]) in grammar.words:
        return "these are two lists, one in the other: one pair of brackets is too many"
    return words_of(grammar)


def what_instead(word: str, grammar: Grammar) -> list[str]:
    """What an unknown word may be meant for: a known word near it, or another kind of form, and what there is."""
    meant = did_you_mean(word, grammar.words, grammar.habits)
    later = f"`{word}` is of version 4" if word in grammar.later else ""
    if meant or later:
        return [hint for hint in (meant, later) if hint]
    others = [other.what for other in GRAMMARS if word in other.words]
    other = [f"it begins {listed(others, 'or')}, and {grammar.what} is expected here"] if others else []
    return other + [words_of(grammar)]


def wrong_count(word: str, grammar: Grammar, have: int) -> str:
    least, most = counts(grammar.words[word])[0], counts(grammar.words[word])[-1]
    want = count_of(most) if least == most else f"{least} or {count_of(most)}"
    return f"{grammar.written(word)} has {want} after its word, and this has {have or 'none'}"


def other_word(word: str, have: int) -> str:
    """A form with that number of parts which is easily taken for this one."""
    if word == "-" and have == 1:
        return 'the number with the other sign is ["neg", a]'
    if word in ("+", "*", "and", "or") and have > 2:
        return f"it takes two: put one into the other, as [{quoted(word)}, a, [{quoted(word)}, b, c]]"
    if word == "if" and have == 2:
        return "both bodies are written: the second may be []"
    if word == "sub" and have == 1:
        return "`otherwise` is written: it may be []"
    if word in SHORT_FORMS and have == SHORT_FORMS[word][0]:
        return SHORT_FORMS[word][1]
    return ""


SHORT_FORMS = {
    "signal": (1, "the arguments are written too: [] if there are none"),
    "new": (1, 'the number of the part comes first, mostly 0: ["new", 0, field]'),
    "old": (1, 'the number of the part comes first, mostly 0: ["old", 0, field]'),
    "arg": (1, 'the number of the part comes first, mostly 0: ["arg", 0, j]'),
    "id": (0, 'the number of the part is written, mostly 0: ["id", 0]'),
    "time": (0, 'the number of the part is written, mostly 0: ["time", 0]'),
    "every": (1, 'the first moment comes before the period: ["every", 30, 30]'),
}
"""Forms with too few parts, by the number of parts that they have."""


# ---- names


def name_at(place: Place, what: str) -> str:
    """A text that is a name; `what` says whose, as `a class's name`."""
    name = place.node.value
    if not isinstance(name, str):
        raise place.wrong_shape(f"{what} is a text, and this is {kind_of(place.node)}")
    if not is_name(name):
        raise place.wrong_shape(f"{what} {why_no_name(name)}", NAME_RULE)
    return name


def why_no_name(name: str) -> str:
    if name == "":
        return "can't be empty"
    if re.match("[A-Za-z]", name) is None:
        return f"can't begin with {shown_letter(name[0])}"
    for letter in name:
        if NAME_LETTERS.fullmatch(f"a{letter}") is None:
            return f"can't have {shown_letter(letter)} in it"
    return f"has {len(name)} bytes, and {MOST_NAME_BYTES} are the most"


def shown_letter(letter: str) -> str:
    if letter == " ":
        return "a space"
    return f"`{letter}`" if letter.isprintable() else f"the character U+{ord(letter):04X}"


def new_name_at(place: Place, what: str, noun: str, known: Mapping[str, Place], *hints: str) -> str:
    """A name that none of those before has."""
    name = name_at(place, what)
    if name in known:
        first = known[name].note("the first one is here:")
        raise place.bad_name(f"{noun} `{name}` is there already", *hints, notes=(first,))
    return name


def known_name_at(place: Place, what: str, noun: str, known: Iterable[str]) -> str:
    """A name that is one of these."""
    name = name_at(place, what)
    known = list(known)
    if name not in known:
        raise place.bad_name(f"there is no {noun} `{name}`", did_you_mean(name, known) or names_there(noun, known))
    return name


def names_there(noun: str, known: list[str]) -> str:
    """The names that are known, where they are few."""
    if not known:
        return f"the script has no {noun}"
    return f"known here: {', '.join(known)}" if len(known) <= 12 else ""


# ---- numbers


def check_whole(place: Place) -> int:
    """A number that is a whole number of 64 bits with sign."""
    value = place.node.value
    if isinstance(value, float):
        raise place.bad_number(*why_not_whole(value))
    if not LEAST <= value <= GREATEST:
        raise place.bad_number(f"the number doesn't fit 64 bits with sign: {LEAST} to {GREATEST}")
    return value


def why_not_whole(value: float) -> tuple[str, str]:
    if value == 0 and str(value) == "-0.0":
        return "-0 isn't taken for a whole number", "write 0"
    if value.is_integer():
        hint = f"write {int(value)}" if LEAST <= value <= GREATEST else f"numbers are {LEAST} to {GREATEST}"
        return "a whole number is written without a point and an exponent", hint
    return "a number must be whole, and this has a fraction", ""


def whole_number_at(place: Place, what: str) -> int:
    if not is_number(place.node):
        raise place.wrong_shape(f"{what} is a whole number, and this is {kind_of(place.node)}", unquoted(place.node))
    return check_whole(place)


def unquoted(node: Node) -> str:
    if isinstance(node.value, str) and re.fullmatch(r"-?[0-9]{1,19}", node.value):
        return f"write {node.value} without quotes"
    return ""


def number_from(place: Place, least: int, what: str) -> int:
    """A whole number that isn't below the least one allowed."""
    number = whole_number_at(place, what)
    if number < least:
        raise place.wrong_shape(f"{what} is {least} or more, and this is {number}")
    return number


def index_at(place: Place, what: str) -> int:
    """The number of a part or an argument."""
    number = whole_number_at(place, what)
    if not 0 <= number <= MOST_PLACE:
        raise place.wrong_shape(f"{what} is 0 to {MOST_PLACE:,}, and this is {number}")
    return number


# ---- words of a table


def word_at(place: Place, what: str, words: Iterable[str], habits: Mapping[str, str]) -> str:
    """One of a few words, as a kind or a mode."""
    word, words = place.node.value, list(words)
    choice = f"{what} is {listed(map(quoted, words), 'or')}"
    if not isinstance(word, str):
        raise place.wrong_shape(f"{choice}, and this is {kind_of(place.node)}")
    if word not in words:
        noun = what.split(" ", 1)[1]
        raise place.wrong_shape(f"{quoted(shortened(word))} is no {noun}", did_you_mean(word, words, habits), choice)
    return word
