"""What ./hipac-check proves, among a tool's own warnings and hints: it is put in their place where it decides."""

from __future__ import annotations

from ..positions import Node, find
from ..proved import Finding, Proved
from .faults import Fault, Note

# The words of findings, each with the word that stands at its place in messages.
WORDS = {"kind": "warning", "open": "hint", "uninstalled": "warning", "never": "warning"}

GUARD = "doesn't veto if"


def undecided(own: list[tuple[str, Fault]], proved: Proved, root: Node) -> list[tuple[str, Fault]]:
    """The warnings and hints that what is proved doesn't decide, and its findings. Where a warning stands at the place
    of a finding or at a part of it, it is told alone, since it may say what helps."""
    found = [(WORDS[finding.word], finding.word, placed(finding, root)) for finding in proved.findings]
    kept = [(word, fault) for word, fault in own if not is_decided(fault, proved, found)]
    told = [(shown, fault) for shown, word, fault in found
            if not is_told(fault, kept) and not (word == "open" and has_hint(kept, fault))]
    return kept + told + [("warning", fault) for fault in chain_fault(proved, root)]


def placed(finding: Finding, root: Node) -> Fault:
    node = find(root, finding.path).node
    return Fault("", node.start, node.end, finding.message, finding.hints)


def is_decided(fault: Fault, proved: Proved, found: list[tuple[str, str, Fault]]) -> bool:
    """Whether it is a hint on a guard of which it is proved that no fault ends it before it vetoes."""
    if GUARD not in fault.message or proved.verdicts["kinds"] != "ok":
        return False
    return not any(word == "open" and has_hint([("", fault)], open_part) for _, word, open_part in found)


def is_told(fault: Fault, others: list[tuple[str, Fault]]) -> bool:
    """Whether another one of them stands there, or at a part of what stands there."""
    return any(fault.start <= other.start and other.end <= fault.end for word, other in others if word == "warning")


def has_hint(faults: list[tuple[str, Fault]], part: Fault) -> bool:
    """Whether one of the hints is on the guard whose part it is."""
    name = part.message.split("`")[1]
    return any(GUARD in fault.message and fault.message.startswith(f"`{name}`") for _, fault in faults)


def chain_fault(proved: Proved, root: Node) -> list[Fault]:
    """The chain of more firings than may nest, at the first rule, with the places that lead from rule to rule."""
    if not proved.chain:
        return []
    names = [str(find(root, f"{path}/0").node.value) for path in proved.chain]
    notes = []
    for link, name, after in zip(proved.links, names, names[1:]):
        by, event = find(root, link.by).node, find(root, link.event).node
        notes += [Note(f"`{name}` may trigger `{after}` by this:", by.start, by.end),
                  Note("which may end its event here:", event.start, event.end)]
    node = find(root, f"{proved.chain[0]}/0").node
    who = "other transactions" if proved.verdicts["depth"] != "unknown" else "the script"
    message = f"{who} may begin too long a chain: {' -> '.join(up_to_a_turn(names))}"
    # A chain goes round a cycle mostly: each link is shown once.
    return [Fault("", node.start, node.end, message, (), tuple(dict.fromkeys(notes)))]


def up_to_a_turn(names: list[str]) -> list[str]:
    """The names up to the first one that was there before."""
    return names[:next((number + 1 for number, name in enumerate(names) if name in names[:number]), None)]
