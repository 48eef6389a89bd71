"""The desk's page for a browser: what is in stock, the orders by their state, forms, and the last requests with their
answers. It has no scripts. Each form is a request of the desk, as a client sends it."""

from __future__ import annotations

import contextlib
import http.server
import re
import urllib.parse
from collections import deque
from dataclasses import dataclass
from html import escape
from pathlib import Path
from typing import TYPE_CHECKING, Any, Deque, Dict, List, Sequence, Tuple

if TYPE_CHECKING:
    from desk import Desk

    from hipac import Object, State

STATES = {"open": ("pay", "cancel"), "paid": ("ship",), "shipped": (), "cancelled": ()}
"""The states of an order, each with the requests that may follow."""

MOST_ROWS = 50
"""So many rows of a table are shown, the newest first."""

MOST_REPORTS = 20
"""So many of the last requests are shown."""

TEMPLATE = Path(__file__).with_name("page.html")


@dataclass(frozen=True)
class Report:
    """A request, and the lines of its answer."""

    request: str
    lines: List[str]

    @property
    def is_done(self) -> bool:
        return self.lines[-1] == "done"


def rows(cells: Sequence[Sequence[str]], headings: Sequence[str]) -> str:
    """A table. The cells are HTML."""
    if not cells:
        return "<p class='none'>none</p>"
    head = "".join(f"<th>{escape(it)}</th>" for it in headings)
    shown = "".join("<tr>" + "".join(f"<td>{it}</td>" for it in row) + "</tr>" for row in cells[:MOST_ROWS])
    more = len(cells) - MOST_ROWS
    return f"<table><tr>{head}</tr>{shown}</table>" + (f"<p class='none'>and {more:,} more</p>" if more > 0 else "")


def button(word: str, number: int) -> str:
    """A form of one button."""
    return (f"<form method='post' action='/{word}'><input type='hidden' name='number' value='{number}'>"
            f"<button>{word}</button></form>")


def products(state: "State") -> str:
    def row(it: "Object") -> Tuple[str, ...]:
        note = "reordered" if it["awaited"] else ""
        return str(it.key), escape(str(it["name"])), f"{it['stock']:,}", f"{it['low']:,}", note

    return rows([row(it) for it in state.all("product")], ("number", "name", "in stock", "reorder below", ""))


def orders(state: "State") -> str:
    """The orders of each state, the newest first."""
    names: Dict[Any, str] = {it.key: str(it["name"]) for it in state.all("product")}
    parts = []
    for word, steps in STATES.items():
        found = [it for it in reversed(state.all("order")) if it["state"] == word]
        cells = [(str(it.key), escape(names.get(it["product"], str(it["product"]))), f"{it['count']:,}",
                  "".join(button(step, it.key) for step in steps)) for it in found]
        parts.append(f"<h3>{word} ({len(found):,})</h3><div id='{word}'>"
                     + rows(cells, ("number", "product", "pieces", "")) + "</div>")
    return "".join(parts)


def reports(told: Sequence[Report]) -> str:
    """The last requests, the newest first."""
    def item(it: Report) -> str:
        lines = "".join(f"<div>{escape(line.strip())}</div>" for line in it.lines)
        return f"<li class='{'done' if it.is_done else 'no'}'><b>{escape(it.request)}</b>{lines}</li>"

    return "<ol>" + "".join(item(it) for it in reversed(told)) + "</ol>" if told else "<p class='none'>none</p>"


def choices(state: "State") -> str:
    return "".join(f"<option value='{it.key}'>{it.key} {escape(str(it['name']))}</option>"
                   for it in state.all("product"))


def page_text(state: "State", minute: int, told: Sequence[Report]) -> str:
    """The whole page."""
    last = told[-1] if told else None
    banner = "" if last is None else (
        f"<p id='banner' class='{'done' if last.is_done else 'no'}'>{escape(last.request)}: "
        f"{escape(last.lines[-1])}</p>")
    numbers = [it.key for it in state.all("order")]
    parts = {
        "banner": banner, "minute": f"{minute:,}", "day": str(minute + 1440), "products": products(state),
        "orders": orders(state), "reports": reports(told), "choices": choices(state),
        "next": str(max(numbers, default=0) + 1),
    }
    return re.sub(r"\{\{(\w+)\}\}", lambda hole: parts[hole[1]], TEMPLATE.read_text(encoding="utf-8"))


def request_of(word: str, fields: Dict[str, List[str]]) -> str:
    """The request of a form: its word, and the fields in their order. A field has no line feed."""
    return " ".join([word, *(" ".join(value.split()) for values in fields.values() for value in values)])


class PageServer(http.server.ThreadingHTTPServer):
    """Serves the page, on the port after the desk's."""

    daemon_threads = True

    def __init__(self, desk: "Desk"):
        host, port = str(desk.server_address[0]), desk.server_address[1]
        super().__init__((host, port + 1), Visitor)
        self.desk = desk
        self.told: Deque[Report] = deque(maxlen=MOST_REPORTS)
        self.url = f"http://{host}:{port + 1}/"

    def ask(self, request: str) -> None:
        """Asks the desk, and keeps the answer for the page."""
        self.told.append(Report(request, self.desk.answer(request)))


class Visitor(http.server.BaseHTTPRequestHandler):
    """One request of a browser."""

    server: PageServer

    def do_GET(self) -> None:  # pylint: disable=invalid-name
        base = self.server.desk.base
        if self.path != "/":
            self.send_error(404)
        elif base is None:
            self.send_page("<!doctype html><meta http-equiv='refresh' content='1'><title>Order desk</title>"
                           f"<p>{self.server.desk.progress()}")
        else:
            self.send_page(page_text(base.show(), base.time, list(self.server.told)))

    def do_POST(self) -> None:  # pylint: disable=invalid-name
        """Asks what a form says, and shows the page again. Forms of other sites are refused."""
        origin = self.headers.get("Origin")
        if origin is not None and origin != f"http://{self.headers.get('Host')}":
            self.send_error(403)
            return
        length = int(self.headers.get("Content-Length", "0"))
        fields = urllib.parse.parse_qs(self.rfile.read(length).decode("utf-8", "replace"), keep_blank_values=True)
        self.server.ask(request_of(self.path.lstrip("/"), fields))
        try:
            self.send_response(303)
            self.send_header("Location", "/")
            self.end_headers()
        finally:
            self.server.desk.end_if_failed()

    def send_page(self, text: str) -> None:
        content = text.encode()
        self.send_response(200)
        self.send_header("Content-Type", "text/html; charset=utf-8")
        self.send_header("Content-Length", str(len(content)))
        self.end_headers()
        # A browser that goes away in the middle does no harm.
        with contextlib.suppress(ConnectionError):
            self.wfile.write(content)

    def log_message(self, format: str, *args: object) -> None:  # pylint: disable=redefined-builtin
        """Nothing is logged: the journal has the requests."""
