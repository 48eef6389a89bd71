"""Paths through a graph, which is given by the targets of each node, in order. All answers follow that order."""
from __future__ import annotations

from typing import Collection, Iterable, Iterator, Mapping

Targets = Mapping[str, Iterable[str]]


def shortest_way(targets: Targets, start: str, goals: Collection[str]) -> tuple[str, ...] | None:
    """The shortest path of at least one step from a node to one of the goals, both ends included."""
    ways: dict[str, tuple[str, ...]] = {}
    queue: list[tuple[str, ...]] = [(start,)]
    for way in queue:
        for target in targets.get(way[-1], ()):
            if target not in ways:
                ways[target] = way + (target,)
                if target in goals:
                    return ways[target]
                queue.append(ways[target])
    return None


def components(targets: Targets, nodes: Iterable[str]) -> list[list[str]]:
    """The nodes in groups that lead to each other, each group after all groups that it leads to."""
    return _Components(targets, nodes).groups


class _Components:
    """Tarjan's search, without recursion: `low` is the earliest open node that a node is known to lead back to."""

    def __init__(self, targets: Targets, nodes: Iterable[str]) -> None:
        self.targets = targets
        self.groups: list[list[str]] = []
        self.number: dict[str, int] = {}
        self.low: dict[str, int] = {}
        self.open: list[str] = []
        self.is_open: dict[str, bool] = {}
        for node in nodes:
            if node not in self.number:
                self._search(node)

    def _search(self, root: str) -> None:
        calls = [(root, self._enter(root))]
        while calls:
            node, rest = calls[-1]
            target = next(rest, None)
            if target is None:
                calls.pop()
                self._leave(node)
                if calls:
                    caller = calls[-1][0]
                    self.low[caller] = min(self.low[caller], self.low[node])
            elif target not in self.number:
                calls.append((target, self._enter(target)))
            elif self.is_open[target]:
                self.low[node] = min(self.low[node], self.number[target])

    def _enter(self, node: str) -> Iterator[str]:
        self.number[node] = self.low[node] = len(self.number)
        self.open.append(node)
        self.is_open[node] = True
        return iter(self.targets.get(node, ()))

    def _leave(self, node: str) -> None:
        if self.low[node] != self.number[node]:
            return
        place = self.open.index(node)
        group = self.open[place:]
        del self.open[place:]
        for member in group:
            self.is_open[member] = False
        self.groups.append(group)
