"""The picture of a graph: well formed, with all boxes and arrows, with Graphviz and without it."""
from __future__ import annotations

import os
import re
import shutil
import tempfile
import unittest
from pathlib import Path
from unittest import mock
from xml.etree import ElementTree

from hipac_tools import graph, paths, picture, rulebase
from hipac_tools.picture import Arrow, Box
from tests.making import EXAMPLES, RandomRuns

SVG = "{http://www.w3.org/2000/svg}"
BOXES = [Box("the script", ("the script",), is_round=True), Box("a", ("a", "on signal <s> & more", "immediate")),
         Box("b", ("b", "at moment 3", "deferred"), is_faint=True), Box("c", ("c",))]
ARROWS = [Arrow("the script", "a", "signal <s>"), Arrow("a", "b", "signal t"), Arrow("b", "a", "signal s"),
          Arrow("a", "a", "signal s"), Arrow("the script", "c", "prepares", is_dashed=True), Arrow("a", "c", "fires")]


def own(boxes: list[Box], arrows: list[Arrow]) -> ElementTree.Element:
    """The picture with the module's own layout."""
    with mock.patch("shutil.which", return_value=None):
        return ElementTree.fromstring(picture.draw(boxes, arrows))


def boxes_of(root: ElementTree.Element) -> list[tuple[float, float, float, float]]:
    """Left, top, right and bottom of each box."""
    sides = ([float(one.get(side, "0")) for side in ("x", "y", "width", "height")] for one in root.iter(SVG + "rect"))
    return [(left, top, left + width, top + height) for left, top, width, height in sides]


def points_of(path: str) -> list[tuple[float, float]]:
    """Points along a path of curves."""
    numbers = [float(number) for number in re.findall(r"-?[0-9.]+", path)]
    ends = list(zip(numbers[::2], numbers[1::2]))
    found, start = [], ends[0]
    for first, second, end in zip(ends[1::3], ends[2::3], ends[3::3]):
        for step in range(33):
            there, back = step / 32, 1 - step / 32
            weights = (back ** 3, 3 * back * back * there, 3 * back * there * there, there ** 3)
            corners = (start, first, second, end)
            found.append((sum(weight * corner[0] for weight, corner in zip(weights, corners)),
                          sum(weight * corner[1] for weight, corner in zip(weights, corners))))
        start = end
    return found


def crossings(root: ElementTree.Element) -> list[str]:
    """The arrows that pass behind a box."""
    found = []
    for path in root.iter(SVG + "path"):
        if path.find(SVG + "title") is not None:
            found += [path.findtext(SVG + "title", "") for x, y in points_of(path.get("d", ""))
                      for left, top, right, bottom in boxes_of(root)
                      if left + 1 < x < right - 1 and top + 1 < y < bottom - 1]
    return found


class OwnLayout(unittest.TestCase):
    def test_all_boxes_and_arrows_are_drawn(self) -> None:
        root = own(BOXES, ARROWS)
        self.assertEqual(len(boxes_of(root)), len(BOXES))
        titles = [one.findtext(SVG + "title") for one in root.iter(SVG + "path") if one.find(SVG + "title") is not None]
        self.assertEqual(sorted(titles), sorted(f"{one.source}: {one.label}: {one.target}" for one in ARROWS))
        texts = ["".join(one.itertext()) for one in root.iter(SVG + "text")]
        for text in [line for box in BOXES for line in box.lines] + [arrow.label for arrow in ARROWS]:
            self.assertIn(text, texts)

    def test_boxes_lie_apart_and_within_the_picture(self) -> None:
        for seed in range(30):
            with mock.patch("shutil.which", return_value=None):
                root = ElementTree.fromstring(graph.svg(graph.build(rulebase.read(RandomRuns(seed).script()))))
            boxes = boxes_of(root)
            width, height = float(root.get("width", "0")), float(root.get("height", "0"))
            for number, (left, top, right, bottom) in enumerate(boxes):
                self.assertTrue(left >= 0 and top >= 0 and right <= width and bottom <= height, seed)
                for other in boxes[number + 1:]:
                    is_beside = right <= other[0] or other[2] <= left
                    self.assertTrue(is_beside or bottom <= other[1] or other[3] <= top, seed)

    def test_arrows_go_down_where_they_can(self) -> None:
        tops = {box.name: one[1] for box, one in zip(BOXES, boxes_of(own(BOXES, ARROWS)))}
        self.assertLess(tops["the script"], tops["a"])
        self.assertLess(tops["a"], tops["b"])
        self.assertLess(tops["a"], tops["c"])

    def test_no_arrow_passes_behind_a_box(self) -> None:
        tall = Box("tall", ("tall", *["line"] * 6))
        pictures = [own([Box("a", ("a",)), tall, Box("b", ("b",)), *BOXES[3:]],
                        [Arrow("a", "b", "x"), Arrow("tall", "b", "y"), Arrow("a", "c", "far to the right")])]
        for seed in range(20):
            found = graph.build(rulebase.read(RandomRuns(seed).script()))
            with mock.patch("shutil.which", return_value=None):
                pictures.append(ElementTree.fromstring(graph.svg(found)))
        self.assertEqual([crossed for root in pictures for crossed in crossings(root)], [])

    def test_nothing_and_very_much(self) -> None:
        self.assertEqual(boxes_of(own([], [])), [])
        boxes = [Box(str(number), (str(number),)) for number in range(120)]
        arrows = [Arrow(str(one), str(other), "x") for one in range(120) for other in range(one)]
        self.assertEqual(len(boxes_of(own(boxes, arrows))), 120)


class Graphviz(unittest.TestCase):
    def drawn_with(self, program: str) -> str:
        """The picture with this shell script as `dot`."""
        with tempfile.TemporaryDirectory() as folder:
            dot = Path(folder) / "dot"
            dot.write_text(f"#!/bin/sh\n{program}\n", encoding="utf-8")
            dot.chmod(0o755)
            with mock.patch.dict(os.environ, {"PATH": f"{folder}:{os.environ['PATH']}"}):
                return picture.draw(BOXES, ARROWS)

    def test_dot_draws_where_it_is_installed(self) -> None:
        program = """[ "$1" = -Tsvg ] && cat > /dev/null && echo '<?xml version="1.0"?><!DOCTYPE svg><svg><g/></svg>'"""
        self.assertEqual(self.drawn_with(program), "<svg><g/></svg>\n")

    @unittest.skipUnless(shutil.which("dot"), "Graphviz isn't installed")
    def test_a_very_wide_picture_points_to_the_right(self) -> None:
        boxes = [Box("all", ("all",))] + [Box(str(number), (str(number), "some text of it")) for number in range(12)]
        arrows = [Arrow("all", str(number), "an event") for number in range(12)]
        wide, narrow = picture.draw(boxes, arrows), picture.draw(boxes[:3], arrows[:2])
        (width, height), (narrow_width, narrow_height) = (
            [float(number) for number in re.findall(r'(?:width|height)="([0-9.]+)pt"', one)] for one in (wide, narrow))
        self.assertLess(width, height)
        self.assertLess(narrow_width, 2 * narrow_height)

    def test_a_dot_that_fails_is_not_asked_further(self) -> None:
        for program in ("exit 1", "echo nothing", "echo '<svg/>'; exit 2"):
            self.assertEqual(len(boxes_of(ElementTree.fromstring(self.drawn_with(program)))), len(BOXES))

    def test_source_for_dot(self) -> None:
        source = picture.dot_source(BOXES[:2], [Arrow("the script", "a", 'a "b" \\', "#123456", is_dashed=True)])
        self.assertIn('"the script" [label="the script", color="#6b7280", style="rounded"];', source)
        self.assertIn('"a" [label="a\\non signal <s> & more\\nimmediate"', source)
        look = 'label="a \\"b\\" \\\\", color="#123456", fontcolor="#123456", style=dashed'
        self.assertIn(f'"the script" -> "a" [{look}];', source)


class Examples(unittest.TestCase):
    def test_pictures_are_well_formed(self) -> None:
        for example in EXAMPLES:
            found = graph.build(rulebase.read_file(str(example)))
            root = ElementTree.fromstring(graph.svg(found))
            self.assertTrue(root.tag.endswith("svg"))
            texts = {"".join(one.itertext()) for one in root.iter(SVG + "text")}
            self.assertLessEqual({node.name for node in found.nodes}, texts)

    def test_mere_installing_by_the_script_is_left_out(self) -> None:
        found = graph.build(rulebase.read_file(str(EXAMPLES[0])))
        self.assertNotIn("installs", graph.svg(found))


class Paths(unittest.TestCase):
    TARGETS: dict[str, list[str]] = {"a": ["b", "c"], "b": ["d"], "c": ["d"], "d": ["b", "e"], "e": [], "f": ["f"]}

    def test_shortest_ways(self) -> None:
        self.assertEqual(paths.shortest_way(self.TARGETS, "a", {"e"}), ("a", "b", "d", "e"))
        self.assertEqual(paths.shortest_way(self.TARGETS, "b", {"b"}), ("b", "d", "b"))
        self.assertEqual(paths.shortest_way(self.TARGETS, "f", {"f"}), ("f", "f"))
        self.assertIsNone(paths.shortest_way(self.TARGETS, "e", {"a", "e"}))

    def test_components(self) -> None:
        groups = paths.components(self.TARGETS, "abcdef")
        self.assertEqual(groups, [["e"], ["b", "d"], ["c"], ["a"], ["f"]])
        ring = {str(number): [str((number + 1) % 5000)] for number in range(5000)}
        self.assertEqual([len(group) for group in paths.components(ring, ring)], [5000])
