"""The word `graph`: which rule may set off which, as text and as a picture.

`build` finds the nodes and edges of a script, its cycles, its longest chain of firings, and what looks like an
oversight. All of it is read from the script's text: an edge means that something may happen. Without an edge nothing
happens.
"""
from __future__ import annotations

import sys
import textwrap
from dataclasses import dataclass
from typing import Iterable, Iterator, Sequence

from . import influence, language, oversights, paths, picture, proved
from . import rulebase as scripts
from .command import DONE, START_OPTIONS, unknown_option, without_start, write_file, wrong_words
from .folding import folded
from .influence import Deeds, Pattern, Reach
from .notation.event_texts import event_text, on_text
from .rulebase import Rule, RuleBase

USAGE = """usage: hipac-tools graph SCRIPT [--live] [--proved] [--svg FILE] [--script FILE] [--checked] [--signals FILE]

Tells which rule may set off which, the cycles among them, the longest chain of firings, and what looks like an
oversight. With --live any transaction may follow the script's, as in a rule base that stays up; so it is anyway where
the script only installs rules and creates objects. With --proved ./hipac-check decides whether a run may meet A7. With
--svg it also draws the picture: by Graphviz where `dot` is installed, else by a layout of its own. `-` is standard
input. SCRIPT may be a journal; if its script is in a file, --script names that, and it is run with --checked and
--signals as its rule base was.
The exit status is 0, or 2 where it is no script, or 3 where the words are wrong or a file can't be read or written."""

OPTIONS = ("--live", "--proved", "--svg", *START_OPTIONS)

SETS_OFF, PREPARES, FIRES = "sets off", "prepares", "fires"
OPERATIONS = {"fire": FIRES, "install": "installs", "enable": "enables", "disable": "disables", "remove": "removes"}
KINDS = (SETS_OFF, PREPARES, *OPERATIONS.values())
FIRING_KINDS = (SETS_OFF, FIRES)
"""The kinds of edges along which one firing follows from another, one deeper."""

NONE = ("none",)
NO_TRANSACTION = "the script has no transaction: all rules are taken as installed, and all their events as possible"
LATER = "transactions may follow those of the script: all events of its rules are taken as possible"
NARROWER = "a predicate that begins with `x.key = ..` looks at one object, with `x.field < ..` at those that fit"
MOST_CYCLES = 20
BOX_WIDTH, MOST_BOX_LINES = 36, 4


@dataclass(frozen=True)
class Node:
    """A rule, or a source of events that is no rule. A source has no couplings, and nothing sets it off."""
    name: str
    when: str = ""
    ec: str = ""
    ca: str = ""
    may_fire: bool = True
    is_closed: bool = False

    @property
    def is_rule(self) -> bool:
        """Whether the node is a rule."""
        return bool(self.ec)

    @property
    def couplings(self) -> str:
        """The couplings in short: the second is left out if it is immediate. A closed rule is marked."""
        couplings = self.ec if self.ca in ("", "immediate") else f"{self.ec}, then {self.ca}"
        return couplings + (", closed" if self.is_closed else "")


@dataclass(frozen=True)
class Edge:
    """One way in which a source acts on a rule. The label is the simple event, and empty for a rule operation."""
    source: str
    target: str
    kind: str
    label: str = ""


@dataclass(frozen=True)
class Cycle:
    """Rules each of which may set off the next, and the last the first; `labels` says what leads from each to its next.

    `breaks` names the couplings that separate the turns: without them all firings nest at the place of the first event.
    """
    rules: tuple[str, ...]
    labels: tuple[str, ...]
    breaks: tuple[str, ...]
    may_turn: bool

    @property
    def path(self) -> str:
        """The cycle by its rules."""
        return " -> ".join(self.rules + self.rules[:1])


@dataclass(frozen=True)
class Chain:
    """The longest chain of firings that may happen. If a cycle may turn, it is endless, and `steps` leads into it."""
    steps: tuple[Edge, ...]
    endless: bool


@dataclass(frozen=True)
class Graph:
    """All that `graph` shows of a script."""
    nodes: list[Node]
    edges: list[Edge]
    cycles: list[Cycle]
    has_more_cycles: bool
    chain: Chain
    limit: int
    warnings: list[str]
    scans: list[str]

    @property
    def may_meet_limit(self) -> bool:
        """Whether some run may meet the cause A7."""
        return self.chain.endless or len(self.chain.steps) > self.limit


def main(arguments: list[str]) -> int:
    """Writes the text to standard output, and the picture to a file."""
    words = list(arguments)
    if words in (["--help"], ["-h"]):
        print(USAGE)
        return DONE
    is_live, is_proved = "--live" in words, "--proved" in words
    words, start = without_start(word for word in words if word not in ("--live", "--proved"))
    target = None
    if "--svg" in words[:-1]:
        place = words.index("--svg")
        target = words[place + 1]
        del words[place:place + 2]
    if len(words) != 1 or unknown_option(words):
        return wrong_words("graph", USAGE, words, OPTIONS)
    try:
        script = scripts.text_of(words[0], start)
        graph = build(scripts.read_text(words[0], script), is_live)
    except scripts.Refused as fault:
        print(fault, file=sys.stderr)
        return fault.status
    depth = proved.depth_text(scripts.value_of(script)) if is_proved else ""
    sys.stdout.buffer.write(graph_text(graph, depth).encode("utf-8"))
    return DONE if target is None else write_file("graph", target, svg(graph).encode("utf-8"))


def build(rulebase: RuleBase, is_live: bool = False) -> Graph:
    """The graph of a script, which may be the beginning of a rule base that stays up."""
    rules = {rule.name: rule for rule in rulebase.rules}
    sources = influence.all_deeds(rulebase, is_live)
    reach = influence.reach(rulebase, sources)
    nodes = [Node(name) for name in sources if name not in rules]
    nodes += [Node(rule.name, on_text(rule.event), rule.ec, rule.ca, rule.name in reach.firing, rule.is_closed)
              for rule in rulebase.rules]
    edges = list(_edges(rulebase, sources))
    possible = _possible(rules, edges, reach)
    cycles, more = _cycles(rules, edges, possible)
    return Graph(nodes, edges, cycles, more, _chain(possible, [node.name for node in nodes], reach),
                 rulebase.depth_limit, oversights.warnings(rulebase, sources, reach), oversights.scans(rulebase))


# Edges.

def _edges(rulebase: RuleBase, sources: dict[str, Deeds]) -> Iterator[Edge]:
    """All edges, in the order of sources, then of rules, then of kinds and labels."""
    last = {rule.name: set(influence.last_patterns(rule.event)) for rule in rulebase.rules}
    whole = {rule.name: {tuple(one) for one in language.patterns(rule.event)} for rule in rulebase.rules}
    for source, deeds in sources.items():
        for name in last:
            for label in _labels(deeds.events & last[name]):
                yield Edge(source, name, SETS_OFF, label)
            for label in _labels(deeds.events & (whole[name] - last[name])):
                yield Edge(source, name, PREPARES, label)
            for word, kind in OPERATIONS.items():
                if (word, name) in deeds.operations:
                    yield Edge(source, name, kind)


def _labels(events: Iterable[Pattern]) -> list[str]:
    return sorted(event_text(list(event)) for event in events)


def _possible(rules: dict[str, Rule], edges: list[Edge], reach: Reach) -> list[Edge]:
    """The edges along which a firing may really follow: both ends may fire, and the event may be completed there."""
    completing = {name: set(_labels(influence.setting_off(rule.event, reach.events))) for name, rule in rules.items()}
    return [edge for edge in edges
            if edge.target in reach.firing and (edge.source not in rules or edge.source in reach.firing)
            and (edge.kind == FIRES or edge.kind == SETS_OFF and edge.label in completing[edge.target])]


def _links(edges: Iterable[Edge]) -> dict[str, dict[str, Edge]]:
    """From each source to its targets, with the first edge that leads there."""
    links: dict[str, dict[str, Edge]] = {}
    for edge in edges:
        links.setdefault(edge.source, {}).setdefault(edge.target, edge)
    return links


# Cycles.

def _cycles(rules: dict[str, Rule], edges: list[Edge], possible: list[Edge]) -> tuple[list[Cycle], bool]:
    """For each two rules that follow each other on a cycle the shortest one, each once; and whether there are more."""
    links = _links(edge for edge in edges if edge.kind in FIRING_KINDS and edge.source in rules)
    turning = {(edge.source, edge.target) for edge in possible}
    found: dict[tuple[str, ...], Cycle] = {}
    order = {name: place for place, name in enumerate(rules)}
    for group in sorted(paths.components(links, rules), key=lambda names: min(order[name] for name in names)):
        inside = {name: [target for target in links.get(name, ()) if target in group]
                  for name in sorted(group, key=lambda name: order[name])}
        for source, targets in inside.items():
            for target in targets:
                way = (source,) if target == source else paths.shortest_way(inside, target, {source}) or ()
                names = _turned(way, order)
                if names not in found and len(found) == MOST_CYCLES:
                    return list(found.values()), True
                if names not in found:
                    found[names] = _cycle(names, edges, rules, turning)
    return list(found.values()), False


def _turned(names: tuple[str, ...], order: dict[str, int]) -> tuple[str, ...]:
    """A cycle that begins at the rule which comes first in the script. A path that ends where the cycle closes is
    one too."""
    start = min(range(len(names)), key=lambda place: order[names[place]])
    return names[start:] + names[:start]


def _cycle(names: tuple[str, ...], edges: list[Edge], rules: dict[str, Rule], turning: set[tuple[str, str]]) -> Cycle:
    """A cycle with what leads from rule to rule, and the couplings that separate its turns."""
    pairs = list(zip(names, names[1:] + names[:1]))
    labels = tuple(" or ".join(edge.label or FIRES for edge in edges
                               if (edge.source, edge.target) == pair and edge.kind in FIRING_KINDS) for pair in pairs)
    breaks = []
    for name in names:
        for coupling in dict.fromkeys((rules[name].ec, rules[name].ca)):
            if coupling == "deferred":
                breaks.append(f"{name} is deferred: the next turn is in a round at the end of the transaction")
            elif coupling != "immediate":
                breaks.append(f"{name} is {coupling}: the next turn is in a transaction of its own")
    return Cycle(names, labels, tuple(breaks), all(pair in turning for pair in pairs))


# Chains.

def _chain(possible: list[Edge], order: Sequence[str], reach: Reach) -> Chain:
    """The longest path along possible edges from a source that isn't a rule; if a cycle may turn, a path into it."""
    links = _links(possible)
    starts = [name for name in order if name not in reach.firing]
    groups = paths.components(links, order)
    turning = {name for group in groups for name in group if len(group) > 1 or name in links.get(name, ())}
    if turning:
        ways = [paths.shortest_way(links, start, turning) for start in starts]
        entry = min((way for way in ways if way), key=len)
        turn = paths.shortest_way(links, entry[-1], {entry[-1]}) or entry[-1:]
        return Chain(_steps(links, entry + turn[1:]), True)
    longest: dict[str, tuple[str, ...]] = {}
    for (name,) in groups:
        longest[name] = (name,) + max((longest[target] for target in links.get(name, ())), key=len, default=())
    return Chain(_steps(links, max((longest[start] for start in starts), key=len)), False)


def _steps(links: dict[str, dict[str, Edge]], names: Sequence[str]) -> tuple[Edge, ...]:
    return tuple(links[source][target] for source, target in zip(names, names[1:]))


# The text.

def graph_text(graph: Graph, depth: str = "") -> str:
    """The graph as text: its edges, the cycles, the longest chain, and what looks like an oversight; and what is proved
    of the depth."""
    couplings = {node.name: node.couplings for node in graph.nodes}
    edges: dict[str, list[Edge]] = {node.name: [] for node in graph.nodes}
    for edge in graph.edges:
        edges[edge.source].append(edge)
    taken = {influence.ANY_SCRIPT: NO_TRANSACTION, influence.ANY_LATER: LATER}
    sections = [_section("Who may set off whom", [words for source, words in taken.items() if source in edges])]
    sections += [_node_text(node, edges[node.name], couplings) for node in graph.nodes]
    sections += [_cycles_text(graph), _chain_text(graph, couplings, depth)]
    sections.append(_section("Warnings", graph.warnings or NONE))
    scans = list(graph.scans)
    if scans:
        scans.append(NARROWER)
    return "\n\n".join(sections + [_section("Queries that look at a whole class", scans or NONE)]) + "\n"


def _node_text(node: Node, edges: list[Edge], couplings: dict[str, str]) -> str:
    """A node with its edges, those of one kind and label on one line."""
    head = f"{node.name} ({node.couplings}), {node.when}" if node.is_rule else node.name
    targets: dict[tuple[str, str], list[str]] = {}
    for edge in edges:
        is_task = edge.kind in FIRING_KINDS + (PREPARES,)
        shown = f"{edge.target} ({couplings[edge.target]})" if is_task else edge.target
        targets.setdefault((edge.label, edge.kind), []).append(shown)
    lines = [head + ("" if node.may_fire else ", never fires")]
    for (label, kind), names in sorted(targets.items(), key=lambda one: KINDS.index(one[0][1])):
        lines.append(f"  {label}{' ' if label else ''}{kind} {', '.join(names)}")
    return "\n".join(folded(line) for line in lines + ([] if targets else ["  acts on no rule"]))


def _cycles_text(graph: Graph) -> str:
    """Each cycle with what leads from rule to rule, and what separates its turns."""
    lines = []
    for cycle in graph.cycles:
        lines.append(f"{cycle.path}, by {', '.join(cycle.labels)}")
        lines += ["  " + one for one in cycle.breaks or ("all immediate: each turn is inside the one before",)]
        if not cycle.may_turn:
            lines.append("  it never turns, since not all of this may happen")
    if graph.has_more_cycles:
        lines.append(f"and more than these {len(graph.cycles)}")
    return _section("Cycles", lines or NONE)


def _chain_text(graph: Graph, couplings: dict[str, str], proved_depth: str) -> str:
    """The longest chain with its depths, and whether a run may meet A7."""
    chain, limit = graph.chain, graph.limit
    length = "without end" if chain.endless else f"{len(chain.steps)} deep"
    lines = []
    for depth, step in enumerate(chain.steps, 1):
        way = "fired" if step.kind == FIRES else f"set off by {step.label}"
        lines.append(f"{depth} {step.target} ({couplings[step.target]}), {way} from {step.source}")
    if chain.endless:
        lines.append("and so on, as long as conditions hold and events are complete")
    lines.append(proved_depth or ("a run may meet A7" if graph.may_meet_limit else "no run meets A7"))
    return _section(f"Longest chain of firings: {length}, and at most {limit} may nest", lines)


def _section(head: str, lines: Sequence[str]) -> str:
    return "\n".join([head] + [folded("  " + line) for line in lines])


# The picture.

def svg(graph: Graph) -> str:
    """The graph as one element `svg`, laid out by Graphviz if its `dot` is installed.

    The script's installs of rules are left out, since mostly a script installs them all.
    """
    colour = {node.name: picture.COLOURS.get(node.ec, picture.COLOURS["other"]) for node in graph.nodes}
    rules = {node.name for node in graph.nodes if node.is_rule}
    labels: dict[tuple[str, str, str], list[str]] = {}
    for edge in graph.edges:
        if edge.source in rules or edge.kind != "installs":
            labels.setdefault((edge.source, edge.target, edge.kind), []).append(edge.label)
    arrows = []
    for (source, target, kind), events in labels.items():
        label = kind if events == [""] else ", ".join(events)
        is_firing = kind in FIRING_KINDS
        arrows.append(picture.Arrow(source, target, f"prepared by {label}" if kind == PREPARES else label,
                                    colour[target] if is_firing else picture.COLOURS["other"], not is_firing))
    return picture.draw([_box(node, colour[node.name]) for node in graph.nodes], arrows)


def _box(node: Node, colour: str) -> picture.Box:
    """The box of a node. A long event is cut; the text of the graph has all of it."""
    if not node.is_rule:
        return picture.Box(node.name, (node.name,), colour, is_round=True)
    lines = textwrap.wrap(node.when, BOX_WIDTH)
    if len(lines) > MOST_BOX_LINES:
        lines[MOST_BOX_LINES - 1:] = [".."]
    return picture.Box(node.name, (node.name, *lines, node.couplings), colour, is_faint=not node.may_fire)
