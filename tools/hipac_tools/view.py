"""The word `view`: one self-contained page of HTML that shows what a script's transactions did."""

from __future__ import annotations

import base64
import hashlib
import html
import json
import sys
from dataclasses import dataclass
from pathlib import Path
from typing import Any, Dict, List, Optional

from . import graph
from .account import Account, NoAccount, account_of
from .command import (
    DONE, MOST_REPORT_BYTES, PLAIN_START, REFUSED, START_OPTIONS, Start, bytes_of, shown, unknown_option, unread,
    without_start, write_file, wrong_words,
)
from .model import page_model
from .notation.writer import rule_text

USAGE = """usage: hipac-tools view SCRIPT [REPORT] [--out FILE.html] [--script FILE] [--checked] [--signals FILE]

Makes a page that shows the script's units, the tree of what each did, rules, objects and their histories. REPORT is one
that ./hipac wrote with --tree; where it isn't given the program is run. The page goes to standard output or to FILE.
For SCRIPT or REPORT `-` is standard input. Without REPORT, SCRIPT may be a journal; if its script is in a file,
--script names that, and it is run with --checked and --signals as its rule base was.
The exit status is 0, 2 for a script or a report that can't be shown, 3 for wrong words, 4 where the program failed, 5
for a report that isn't the one that following the script gives."""

OPTIONS = ("--out", *START_OPTIONS)

PAGE = Path(__file__).with_name("page")
CODE = ("data.js", "tree.js", "panels.js", "search.js", "overview.js", "main.js")


@dataclass(frozen=True)
class Words:
    """The command line: the script, the report if one is given, the file for the page, and how a journal's rule base
    was started."""

    script: str
    report: Optional[str] = None
    out: Optional[str] = None
    start: Start = PLAIN_START


def main(arguments: List[str]) -> int:
    if arguments in (["--help"], ["-h"]):
        print(USAGE)
        return DONE
    words = _words(arguments)
    if words is None:
        return wrong_words("view", USAGE, arguments, OPTIONS)
    try:
        page = page_of(words)
    except NoAccount as fault:
        print(f"view: {shown(words.script)}: {fault}", file=sys.stderr)
        return fault.status
    except OSError as fault:
        print(f"view: {unread(fault, words.script)}", file=sys.stderr)
        return REFUSED
    if words.out is not None:
        return write_file("view", words.out, page)
    sys.stdout.buffer.write(page)
    return DONE


def _words(arguments: List[str]) -> Optional[Words]:
    """The words in any order; None if they are wrong."""
    names, start = without_start(arguments)
    out = None
    if "--out" in names:
        place = names.index("--out")
        if place + 1 == len(names):
            return None
        out = names[place + 1]
        del names[place:place + 2]
    if len(names) not in (1, 2) or unknown_option(names) or len(names) == 2 and start != PLAIN_START:
        return None
    return Words(names[0], names[1] if len(names) == 2 else None, out, start)


def page_of(words: Words) -> bytes:
    report_text = None if words.report is None else _report_text(words.report)
    name = Path(shown(words.script)).name
    account = account_of(bytes_of(words.script), report_text, start=words.start)
    return page_text(account, name).encode("utf-8")


def _report_text(name: str) -> str:
    content = bytes_of(name, MOST_REPORT_BYTES)
    if len(content) > MOST_REPORT_BYTES:
        raise NoAccount(f"a report of more than {MOST_REPORT_BYTES:,} bytes isn't read", REFUSED)
    return content.decode("utf-8", "replace")


def page_text(account: Account, name: str) -> str:
    """The page: its parts joined, with the script's own texts in places where they can only be text."""
    base = account.base
    data: Dict[str, Any] = dict(vars(page_model(account)))
    data["name"] = name
    data["note"] = account.places.note
    data["texts"] = {rule.name: rule_text(rule) for rule in base.rules}
    code = "".join(_part(part) for part in CODE)
    parts = {
        "policy": _policy(code),
        "title": html.escape(name),
        "style": _part("page.css"),
        "graph": graph.svg(graph.build(base)) if base.rules else "",
        "data": in_script(data),
        "code": code,
    }
    return _filled(_part("page.html"), parts)


def _policy(code: str) -> str:
    """The page may load nothing, and run only its own code, which is named by its hash."""
    digest = base64.b64encode(hashlib.sha256(code.encode("utf-8")).digest()).decode("ascii")
    return f"default-src 'none'; style-src 'unsafe-inline'; img-src data:; script-src 'sha256-{digest}'"


def in_script(data: Any) -> str:
    """Data as JSON for an element `script`: it contains no `<`, so nothing in it ends the element."""
    text = json.dumps(data, ensure_ascii=False, separators=(",", ":"))
    for mark in "<>&\u2028\u2029":
        text = text.replace(mark, f"\\u{ord(mark):04x}")
    return text


def _part(name: str) -> str:
    return (PAGE / name).read_text(encoding="utf-8")


def _filled(page: str, parts: Dict[str, str]) -> str:
    """The page with its parts in their places. Places are searched in the page only, never in a part."""
    pieces = page.split("{{")
    filled = [pieces[0]]
    for piece in pieces[1:]:
        name, _, rest = piece.partition("}}")
        filled += [parts[name], rest]
    return "".join(filled)
