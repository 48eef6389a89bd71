"""The places that the tools name are those of the script's text, or of the form that `json.tool` prints."""

from __future__ import annotations

import json
import subprocess
import sys
import unittest

from hipac_tools import positions
from hipac_tools.places import PRINTED, Places, marked

from .breaking import paths_of
from .trials import accepted_scripts


def told(text: str, path: str) -> str:
    return Places(text).told(f"at {marked(path)}")


class PlacesOfScripts(unittest.TestCase):
    def test_a_script_on_one_line_has_the_places_of_json_tool(self) -> None:
        for name, script in accepted_scripts().items():
            with self.subTest(name):
                text = json.dumps(script)
                if len(text) > 20_000:
                    continue
                printed = json.dumps(script, indent=4)
                places, root = Places(text), positions.parse(printed)
                for steps in paths_of(script):
                    path = "/" + "/".join(map(str, steps)) if steps else ""
                    start = positions.find(root, path or "/").node.start
                    line, column = positions.line_and_column(printed, start)
                    self.assertEqual(places.told(marked(path)), f"line {line}:{column}", path)

    def test_it_is_json_tool_s_form(self) -> None:
        script = {"version": 1, "classes": [["a", []]], "rules": [], "items": [["tx", [["emit", "\u00e9 \\ \""]]]]}
        words = [sys.executable, "-m", "json.tool"]
        ended = subprocess.run(words, input=json.dumps(script), capture_output=True, text=True, check=True)
        self.assertEqual(ended.stdout, json.dumps(script, indent=4) + "\n")

    def test_a_script_on_several_lines_has_its_own(self) -> None:
        text = '{"version": 1,\n "classes": [], "rules": [],\n  "items": [["tx",\n []]]}'
        self.assertEqual(told(text, "/items/0/1"), "at line 4:2")
        self.assertIsNone(Places(text).note)

    def test_a_path_that_leads_nowhere_stays_one(self) -> None:
        text = '{"version": 1, "classes": [], "rules": [], "items": []}'
        for one in (text, text.replace(" ", "\n")):
            for path in ("/items/0", "/rules/x", "/nothing", "/version/0", "/0"):
                self.assertEqual(told(one, path), f"at {path}")

    def test_what_the_places_are_is_noted_once_one_is_told(self) -> None:
        places = Places('{"version": 1, "items": [["tx", []]]}')
        self.assertIsNone(places.note)
        places.told("no place")
        self.assertIsNone(places.note)
        places.told(marked("/items/0"))
        self.assertEqual(places.note, PRINTED)


if __name__ == "__main__":
    unittest.main()
