"""Boxes and arrows as one SVG element: laid out by Graphviz if its `dot` is installed, else by this module.

Its layout puts boxes on levels, so that arrows point down if possible. Between two levels of boxes is a level of
labels. An arrow has a place on each level that it crosses, so that it and its label have space beside the boxes.
"""
from __future__ import annotations

import re
import shutil
import subprocess
from dataclasses import dataclass, field
from typing import Sequence
from xml.sax.saxutils import escape, quoteattr

COLOURS = {"immediate": "#222222", "deferred": "#1f5fbf", "separate": "#b45309", "dependent": "#15803d",
           "exclusive": "#8b2fc9", "other": "#6b7280"}
FONT = "Helvetica, Arial, sans-serif"
FONT_SIZE = 12
CHARACTER = 6.9
"""About as wide as a character is; texts are measured by it."""
LINE = 16
PADDING = 10
GAP = 28
LABEL_LEVEL = 3.5 * LINE
MOST_PLACES = 4000
"""With more places than this on the levels, arrows go straight and only tell their label where they are pointed at."""
MOST_WIDE = 2
"""A picture that is so many times wider than high is very wide."""
MOST_FOR_DOT, MOST_SECONDS = 1000, 30
"""With more arrows than this Graphviz isn't asked, and no longer than this is it waited for."""


@dataclass(frozen=True)
class Box:
    """A node: its lines of text, the first as its title. A faint one can't act."""
    name: str
    lines: tuple[str, ...]
    colour: str = COLOURS["other"]
    is_round: bool = False
    is_faint: bool = False


@dataclass(frozen=True)
class Arrow:
    """An edge from box to box."""
    source: str
    target: str
    label: str
    colour: str = COLOURS["other"]
    is_dashed: bool = False


def draw(boxes: Sequence[Box], arrows: Sequence[Arrow]) -> str:
    """The picture as an element `svg`, without a prolog, so that a page can contain it."""
    program = shutil.which("dot")
    drawn = _drawn_by_dot(program, boxes, arrows) if program and len(arrows) <= MOST_FOR_DOT else None
    return drawn or _Layout(boxes, arrows).svg()


# By Graphviz.

def _drawn_by_dot(program: str, boxes: Sequence[Box], arrows: Sequence[Arrow]) -> str | None:
    """The layout by `dot`, which keeps arrows off boxes, or None if it fails. Arrows point down; where that makes a
    very wide picture they point to the right, if that one is less wide."""
    down = _asked_of_dot(program, dot_source(boxes, arrows))
    width, height = _size(down)
    if down is None or width <= MOST_WIDE * height:
        return down
    right = _asked_of_dot(program, dot_source(boxes, arrows, "LR"))
    return right if right is not None and 0 < _size(right)[0] < width else down


def _asked_of_dot(program: str, source: str) -> str | None:
    try:
        ended = subprocess.run([program, "-Tsvg"], input=source.encode("utf-8"), stdout=subprocess.PIPE,
                               stderr=subprocess.DEVNULL, timeout=MOST_SECONDS, check=False)
    except (OSError, subprocess.TimeoutExpired):
        return None
    text = ended.stdout.decode("utf-8", "replace")
    start = text.find("<svg")
    return text[start:] if ended.returncode == 0 and start >= 0 else None


def _size(svg: str | None) -> tuple[float, float]:
    """The width and the height that Graphviz gives its picture; nothing if it gives none."""
    found = re.search(r'<svg width="([0-9.]+)pt" height="([0-9.]+)pt"', svg or "")
    return (float(found[1]), float(found[2])) if found else (0.0, 0.0)


def dot_source(boxes: Sequence[Box], arrows: Sequence[Arrow], direction: str = "TB") -> str:
    """The picture in Graphviz's language."""
    font = f'fontname="{FONT}", fontsize={FONT_SIZE}'
    lines = ["digraph rules {", f"  rankdir={direction};", f"  node [shape=box, {font}];", f"  edge [{font}];"]
    for box in boxes:
        styles = (["rounded"] if box.is_round else []) + (["dashed"] if box.is_faint else [])
        lines.append(f'  {_dot_text(box.name)} [label={_dot_text(chr(10).join(box.lines))}, color="{box.colour}", '
                     f'style="{",".join(styles)}"];')
    for arrow in arrows:
        style = "dashed" if arrow.is_dashed else "solid"
        lines.append(f'  {_dot_text(arrow.source)} -> {_dot_text(arrow.target)} [label={_dot_text(arrow.label)}, '
                     f'color="{arrow.colour}", fontcolor="{arrow.colour}", style={style}];')
    return "\n".join(lines + ["}"]) + "\n"


def _dot_text(text: str) -> str:
    escaped = text.replace("\\", "\\\\").replace('"', '\\"').replace("\n", "\\n")
    return f'"{escaped}"'


# The layout of this module.

@dataclass
class _Place:
    """Space on a level: for a box, for a label, or for an arrow that passes by."""
    width: float
    level: int
    above: list["_Place"] = field(default_factory=list)
    below: list["_Place"] = field(default_factory=list)
    rank: float = 0.0
    x: float = 0.0


class _Layout:
    """Places for all boxes and arrows."""

    def __init__(self, boxes: Sequence[Box], arrows: Sequence[Arrow]) -> None:
        self.boxes = {box.name: box for box in boxes}
        self.loops = [arrow for arrow in arrows if arrow.source == arrow.target]
        self.arrows = [arrow for arrow in arrows if arrow.source != arrow.target]
        self.levels = self._box_levels()
        self.places = {name: _Place(self._width(box) + 2 * self._loop_room(name), 2 * self.levels[name])
                       for name, box in self.boxes.items()}
        lengths = (abs(self.levels[arrow.target] - self.levels[arrow.source]) for arrow in self.arrows)
        self.is_dense = sum(2 * length for length in lengths) > MOST_PLACES
        self.ways = [[] if self.is_dense else self._way(arrow) for arrow in self.arrows]
        self.rows = self._rows()
        self._put_in_order()
        self._put_in_columns()
        self.tops = self._tops()

    def _box_levels(self) -> dict[str, int]:
        """The level of each box: below all that lead to it, as far as arrows form no cycle."""
        targets: dict[str, list[str]] = {name: [] for name in self.boxes}
        for arrow in self.arrows:
            if arrow.target not in targets[arrow.source]:
                targets[arrow.source].append(arrow.target)
        forward, order = self._depth_first(targets)
        levels = {name: 0 for name in self.boxes}
        for name in reversed(order):
            for target in forward[name]:
                levels[target] = max(levels[target], levels[name] + 1)
        return levels

    @staticmethod
    def _depth_first(targets: dict[str, list[str]]) -> tuple[dict[str, list[str]], list[str]]:
        """The targets without those that close a cycle, and the boxes, each after all that it leads to."""
        forward: dict[str, list[str]] = {name: [] for name in targets}
        order: list[str] = []
        state: dict[str, str] = {}
        for root in targets:
            stack = [] if root in state else [(root, iter(targets[root]))]
            state.setdefault(root, "open")
            while stack:
                name, rest = stack[-1]
                target = next(rest, None)
                if target is None:
                    state[name] = "done"
                    order.append(name)
                    stack.pop()
                elif state.get(target) != "open":
                    forward[name].append(target)
                    if target not in state:
                        state[target] = "open"
                        stack.append((target, iter(targets[target])))
        return forward, order

    @staticmethod
    def _width(box: Box) -> float:
        return max(len(line) for line in box.lines) * CHARACTER + 2 * PADDING

    def _loop_room(self, name: str) -> float:
        """The space at a box's right for its arrow to itself; as much is left free at its left."""
        labels = [len(arrow.label) * CHARACTER for arrow in self.loops if arrow.source == name]
        return max(labels) + GAP if labels else 0.0

    def _way(self, arrow: Arrow) -> list[_Place]:
        """The places of an arrow from its upper box to its lower one. On its first level of labels it has its label."""
        upper, lower = sorted((self.places[arrow.source], self.places[arrow.target]), key=lambda place: place.level)
        way = [upper]
        for level in range(upper.level + 1, lower.level):
            width = len(arrow.label) * CHARACTER if level == upper.level + 1 else 0.0
            way.append(_Place(width, level))
        way.append(lower)
        for above, below in zip(way, way[1:]):
            above.below.append(below)
            below.above.append(above)
        return way

    def _rows(self) -> list[list[_Place]]:
        """The places by their levels."""
        count = max((place.level for place in self.places.values()), default=0) + 1
        rows: list[list[_Place]] = [[] for _ in range(count)]
        for place in list(self.places.values()) + [place for way in self.ways for place in way[1:-1]]:
            rows[place.level].append(place)
        return rows

    def _put_in_order(self) -> None:
        """Orders each level by the middle of what each place leads to or comes from, down and up in turn."""
        for row in self.rows:
            for position, place in enumerate(row):
                place.rank = position
        for turn in range(8):
            for row in self.rows if turn % 2 == 0 else reversed(self.rows):
                def middle(place: _Place) -> float:
                    near = place.above if turn % 2 == 0 else place.below
                    return sum(one.rank for one in near) / len(near) if near else place.rank
                row.sort(key=middle)
                for position, place in enumerate(row):
                    place.rank = position

    def _put_in_columns(self) -> None:
        """Gives each place its middle: level by level as near to the places above as the order allows."""
        for row in self.rows:
            self._pack(row, [None if not place.above else sum(one.x for one in place.above) / len(place.above)
                             for place in row])
        for row in reversed(self.rows):
            self._pack(row, [place.x if not place.below else sum(one.x for one in place.below) / len(place.below)
                             for place in row])
        left = min((place.x - place.width / 2 for row in self.rows for place in row), default=0.0)
        for row in self.rows:
            for place in row:
                place.x += PADDING - left

    @staticmethod
    def _pack(row: list[_Place], wishes: list[float | None]) -> None:
        """Puts a level's places near their wishes without overlap: pushed to the right first, then back as a whole."""
        least = 0.0
        for number, (place, wish) in enumerate(zip(row, wishes)):
            place.x = least + place.width / 2 if wish is None else wish
            if number > 0:
                place.x = max(place.x, least + place.width / 2)
            least = place.x + place.width / 2 + GAP
        pushed = [place.x - wish for place, wish in zip(row, wishes) if wish is not None]
        shift = sum(pushed) / len(pushed) if pushed else 0.0
        for place in row:
            place.x -= shift

    def _tops(self) -> list[float]:
        """The upper edge of each level."""
        tops, y = [], float(PADDING)
        for level in range(len(self.rows) + 1):
            tops.append(y)
            y += LABEL_LEVEL if level % 2 else self._box_height(level // 2)
        return tops

    def _box_height(self, level: int) -> float:
        heights = [self._height(box) for name, box in self.boxes.items() if self.levels[name] == level]
        return max(heights, default=0.0)

    @staticmethod
    def _height(box: Box) -> float:
        return len(box.lines) * LINE + 1.2 * PADDING

    # The drawing.

    def svg(self) -> str:
        """The picture."""
        right = max((place.x + place.width / 2 for row in self.rows for place in row), default=0.0)
        width, height = right + PADDING, self.tops[-1] + PADDING
        colours = sorted({arrow.colour for arrow in self.loops + self.arrows})
        parts = [f'<svg xmlns="http://www.w3.org/2000/svg" viewBox="0 0 {width:.0f} {height:.0f}" width="{width:.0f}" '
                 f'height="{height:.0f}" font-family="{FONT}" font-size="{FONT_SIZE}">', "<defs>"]
        parts += [self._head(colour) for colour in colours] + ["</defs>"]
        ports = self._ports()
        drawn = [self._arrow(arrow, self.ways[number], ports[number]) for number, arrow in enumerate(self.arrows)]
        drawn += [self._loop(arrow) for arrow in self.loops]
        parts += [line for line, _ in drawn] + [label for _, label in drawn if label]
        for box in self.boxes.values():
            parts += self._box(box)
        return "\n".join(parts + ["</svg>"]) + "\n"

    @staticmethod
    def _head(colour: str) -> str:
        return (f'<marker id="head-{colour[1:]}" viewBox="0 0 8 8" refX="8" refY="4" markerWidth="8" markerHeight="8" '
                f'orient="auto-start-reverse"><path d="M 0 0 L 8 4 L 0 8 z" fill="{colour}"/></marker>')

    def _ports(self) -> list[tuple[float, float]]:
        """For each arrow where it leaves its upper box and where it enters its lower one, spread over their edges."""
        ends: dict[tuple[str, bool], list[tuple[float, int]]] = {}
        for number, arrow in enumerate(self.arrows):
            upper, lower = self._upper_lower(arrow)
            way = self.ways[number] or [self.places[upper], self.places[lower]]
            ends.setdefault((upper, False), []).append((way[1].x, number))
            ends.setdefault((lower, True), []).append((way[-2].x, number))
        ports = [[0.0, 0.0] for _ in self.arrows]
        for (name, is_lower), arrows in ends.items():
            place = self.places[name]
            for position, (_, number) in enumerate(sorted(arrows), 1):
                width = self._width(self.boxes[name])
                ports[number][is_lower] = place.x + width * (position / (len(arrows) + 1) - 0.5)
        return [(port[0], port[1]) for port in ports]

    def _upper_lower(self, arrow: Arrow) -> tuple[str, str]:
        if self.levels[arrow.source] <= self.levels[arrow.target]:
            return arrow.source, arrow.target
        return arrow.target, arrow.source

    def _arrow(self, arrow: Arrow, way: list[_Place], ports: tuple[float, float]) -> tuple[str, str]:
        """An arrow as curves from level to level, and its label: all labels are drawn last, so no line crosses one."""
        upper, lower = self._upper_lower(arrow)
        level_bottom = self.tops[2 * self.levels[upper]] + self._box_height(self.levels[upper])
        points = [(ports[0], self._bottom(upper))]
        if way[1:-1] and level_bottom > self._bottom(upper):
            # Straight down first: a box beside may be higher than this one.
            points.append((ports[0], level_bottom))
        for place in way[1:-1]:
            height = LABEL_LEVEL if place.level % 2 else self._box_height(place.level // 2)
            points += [(place.x, self.tops[place.level]), (place.x, self.tops[place.level] + height)] \
                if place.level % 2 == 0 else [(place.x, self.tops[place.level] + height / 2)]
        points.append((ports[1], self.tops[2 * self.levels[lower]]))
        path = f"M {points[0][0]:.1f} {points[0][1]:.1f}"
        for (x, y), (to_x, to_y) in zip(points, points[1:]):
            middle = (y + to_y) / 2
            path += f" C {x:.1f} {middle:.1f} {to_x:.1f} {middle:.1f} {to_x:.1f} {to_y:.1f}"
        line = self._line(arrow, path, "end" if upper == arrow.source else "start")
        label = way[1:2] if len(way) > 2 else []
        return line, "".join(self._label(arrow, place.x, self.tops[place.level] + LABEL_LEVEL / 2 + 4, "middle")
                             for place in label)

    def _bottom(self, name: str) -> float:
        return self.tops[2 * self.levels[name]] + self._height(self.boxes[name])

    def _loop(self, arrow: Arrow) -> tuple[str, str]:
        """An arrow from a box to itself, at its right side, and its label."""
        place, box = self.places[arrow.source], self.boxes[arrow.source]
        right, top = place.x + self._width(box) / 2, self.tops[place.level]
        upper, lower = top + self._height(box) * 0.25, top + self._height(box) * 0.75
        path = f"M {right:.1f} {upper:.1f} C {right + GAP:.1f} {upper - 8:.1f} {right + GAP:.1f} {lower + 8:.1f} " \
               f"{right:.1f} {lower:.1f}"
        return self._line(arrow, path, "end"), self._label(arrow, right + GAP * 0.85, (upper + lower) / 2 + 4, "start")

    @staticmethod
    def _line(arrow: Arrow, path: str, end: str) -> str:
        dashes = ' stroke-dasharray="5 4"' if arrow.is_dashed else ""
        title = escape(f"{arrow.source}: {arrow.label}: {arrow.target}")
        return (f'<path d="{path}" fill="none" stroke="{arrow.colour}" stroke-width="1.3"{dashes} '
                f'marker-{end}="url(#head-{arrow.colour[1:]})"><title>{title}</title></path>')

    @staticmethod
    def _label(arrow: Arrow, x: float, y: float, anchor: str) -> str:
        return (f'<text x="{x:.1f}" y="{y:.1f}" text-anchor="{anchor}" fill="{arrow.colour}" stroke="white" '
                f'stroke-width="4" paint-order="stroke">{escape(arrow.label)}</text>')

    def _box(self, box: Box) -> list[str]:
        """A box with its lines; the first one is bold."""
        place = self.places[box.name]
        width = self._width(box)
        left, top = place.x - width / 2, self.tops[place.level]
        dashes = ' stroke-dasharray="4 3"' if box.is_faint else ""
        radius = 12 if box.is_round else 3
        parts = [f'<g><title>{escape(" ".join(box.lines))}</title>'
                 f'<rect x="{left:.1f}" y="{top:.1f}" width="{width:.1f}" height="{self._height(box):.1f}" '
                 f'rx="{radius}" fill="white" stroke={quoteattr(box.colour)} stroke-width="1.5"{dashes}/>']
        for number, line in enumerate(box.lines):
            weight = ' font-weight="bold"' if number == 0 else ""
            parts.append(f'<text x="{place.x:.1f}" y="{top + PADDING + LINE * (number + 0.6):.1f}" '
                         f'text-anchor="middle" fill="#222222"{weight}>{escape(line)}</text>')
        return parts + ["</g>"]
