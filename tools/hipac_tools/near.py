"""The known word that is nearest to an unknown one, and so probably meant."""

from __future__ import annotations

import difflib
from typing import Iterable, Mapping, Optional

NO_HABITS: Mapping[str, str] = {}

# How alike two words are to be, by difflib's ratio. At 0.6 `emit` would be near `commit`.
LIKENESS = 0.65


def nearest(word: str, known: Iterable[str], habits: Mapping[str, str] = NO_HABITS) -> Optional[str]:
    """The known word that was meant, if one is near, whatever its case; `habits` has words of other languages, with the
    known word."""
    if word.lower() in habits:
        return habits[word.lower()]
    by_lower_case = {each.lower(): each for each in known if each != word}
    found = difflib.get_close_matches(word.lower(), by_lower_case, n=1, cutoff=LIKENESS)
    return by_lower_case[found[0]] if found else None
