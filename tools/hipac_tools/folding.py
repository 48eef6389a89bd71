"""Long lines, broken at spaces."""

from __future__ import annotations

WIDTH = 110
CONTINUED = "    "


def folded(line: str) -> str:
    """A line, broken at spaces if it is too long, but never within a text.

    A good place is before `and`, `or` and `then` and after a comma; better places are in fewer parentheses, then
    further right.
    """
    indent = line[:len(line) - len(line.lstrip(" "))]
    lines = []
    while len(line) > WIDTH:
        spaces = _spaces(line, len(indent) + len(CONTINUED))
        fitting = [space for space in spaces if space[1] <= WIDTH] or spaces[:1]
        if not fitting:
            break
        good = [space for space in fitting if space[1] > WIDTH // 3 and _is_good_break(line, space[1])]
        place = max(good)[1] if good else fitting[-1][1]
        lines.append(line[:place])
        line = indent + CONTINUED + line[place + 1:]
    return "\n".join(lines + [line])


def _spaces(line: str, start: int) -> list[tuple[int, int]]:
    """The spaces after `start` outside texts: their depth in parentheses, counted down from 0, and their index."""
    spaces, depth, is_text, is_escaped = [], 0, False, False
    for place, character in enumerate(line):
        if is_escaped:
            is_escaped = False
        elif character == "\\" and is_text:
            is_escaped = True
        elif character == '"':
            is_text = not is_text
        elif not is_text:
            depth += {"(": -1, ")": 1}.get(character, 0)
            if character == " " and place > start:
                spaces.append((depth, place))
    return spaces


def _is_good_break(line: str, place: int) -> bool:
    return line[place - 1] == "," or line.startswith((" and ", " or ", " then "), place)
