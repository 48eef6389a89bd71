#!/usr/bin/env python3
"""The crates of this repository: what each uses, the checksums of programs, and what a proof costs.

    tools/repo.py costs    prints the table of docs/GATE.md
"""

from __future__ import annotations

import graphlib
import itertools
import os
import re
import shutil
import subprocess
import sys
from collections.abc import Iterable
from dataclasses import dataclass

TOP = os.path.dirname(os.path.dirname(os.path.abspath(__file__)))

# Where programs are kept, and where ./build proves crates.
BUILT = os.path.join(TOP, ".built")
ROOMS = os.path.join(BUILT, "rooms")

# The folders of a crate that a proof reads.
PARTS = ("src", "specs", "proofs")

# A crate's edits that the gate tries, and its others.
GATE_EDITS = "must-fail"
MORE_EDITS = "more-edits"

# What a first proof costs in a whole ./build, in seconds of one processor, rounded.
COSTS = {
    "hp_model": 15,
    "hp_words": 45,
    "hp_board": 120,
    "hp_value": 200,
    "hp_event": 20,
    "hp_tree": 60,
    "hp_query": 140,
    "hp_detect": 180,
    "hp_store": 460,
    "hp_rule": 380,
    "hp_view": 300,
    "hp_ops": 220,
    "hp_attempt": 130,
    "hp_report": 160,
    "hp_script": 590,
    "hp_fire": 1230,
    "hp_top": 430,
    "hp_sessions": 480,
    "hp_lines": 25,
    "hp_analysis": 100,
    "hp_signals": 60,
    "hp_checked": 180,
    "hp_text": 600,
    "hp_print": 600,
    "hp_notation": 100,
    "hp_live": 330,
    "hipac": 320,
    "hipac_live": 230,
    "hipac_c": 180,
    "hipac_check": 150,
    "hipac_text": 100,
    "bank": 360,
}
# The cost of a crate that isn't in the table.
USUAL_COST = 250


@dataclass(frozen=True)
class Crate:
    """A crate, as its line of crates.txt describes it."""

    name: str
    line: str
    # The crates of this repository that it names, and the toolchain's libraries.
    uses: tuple[str, ...]
    libraries: tuple[str, ...]


def crates(top: str = TOP) -> dict[str, Crate]:
    """Each crate of crates.txt, by its name."""
    lines = {}
    with open(os.path.join(top, "crates.txt"), encoding="utf-8") as file:
        for line in file:
            left, colon, right = line.partition("#")[0].partition(":")
            if colon:
                lines[left.split()[0]] = (line.partition("#")[0].strip(), right.split())
    found = {}
    for name, (line, words) in lines.items():
        uses = tuple(word for word in words if word in lines)
        found[name] = Crate(name, line, uses, tuple(word for word in words if word not in lines))
    return found


def with_used(names: Iterable[str], known: dict[str, Crate]) -> list[str]:
    """These crates and all that they use, each after those that it uses."""
    wanted, left = {}, list(names)
    while left:
        name = left.pop()
        if name not in wanted:
            wanted[name] = known[name].uses
            left += wanted[name]
    return list(graphlib.TopologicalSorter({name: wanted[name] for name in known if name in wanted}).static_order())


def is_program(name: str, top: str = TOP) -> bool:
    """Whether a crate is a program."""
    return os.path.isfile(os.path.join(top, "crates", name, "src", "main.rt"))


def programs(known: dict[str, Crate], top: str = TOP) -> list[str]:
    """The crates that are programs."""
    return [name for name in known if is_program(name, top)]


def libraries(known: dict[str, Crate]) -> list[str]:
    """The crates that are static libraries, for C."""
    return [name for name, crate in known.items() if "staticlib" in crate.line.partition(":")[0].split()]


def cost_of(name: str) -> int:
    """What a first proof of a crate costs, in seconds of one processor."""
    return COSTS.get(name, USUAL_COST)


def output_of(words: list[str], **how) -> str:
    """The standard output of a command that is to end with status 0, without space around it."""
    said = subprocess.run(words, stdin=subprocess.DEVNULL, stdout=subprocess.PIPE, text=True, check=True, **how).stdout
    return said.strip()


def toolchain() -> str:
    """The folder of the Rattle toolchain."""
    return os.path.dirname(output_of(["rt", "doc"]))


def key_of(name: str, *folders: str, top: str = TOP) -> str:
    """The checksum of these folders of a crate and of all that it uses."""
    return output_of([os.path.join(TOP, "tools", "key"), top, name, *folders])


def proved_place(name: str, top: str = TOP) -> str:
    """The path of the proved program, or of the folder with the proved library, that is made from the files below this
    folder. tools/start and the client for Python look there."""
    return os.path.join(BUILT, f"{name}-proved-{key_of(name, *PARTS, top=top)}")


def unproved_place(name: str) -> str:
    """The folder of the unproved program that is made from the current sources; tools/start looks there."""
    return os.path.join(BUILT, f"{name}-unproved-{key_of(name, 'src')}")


def edits(name: str, folder: str) -> list[str]:
    """The paths of a crate's edits in one of its folders."""
    at = os.path.join(TOP, "crates", name, folder)
    found = sorted(os.listdir(at)) if os.path.isdir(at) else []
    return [os.path.join(at, it) for it in found if not it.endswith(".md")]


def link(source: str, target: str) -> None:
    """Makes a file stand in a second place, without a second copy if the file system can."""
    try:
        os.link(source, target)
    except OSError:
        shutil.copy2(source, target)


def copy_crates(chosen: list[Crate], to: str, top: str = TOP, parts: Iterable[str] = PARTS) -> None:
    """Makes a small repository of these crates in a folder: these parts of their files, crates.txt and HANDLES."""
    for crate, part in itertools.product(chosen, parts):
        source = os.path.join(top, "crates", crate.name, part)
        if os.path.isdir(source):
            shutil.copytree(source, os.path.join(to, "crates", crate.name, part), symlinks=True)
    os.makedirs(to, exist_ok=True)
    with open(os.path.join(to, "crates.txt"), "w", encoding="utf-8") as file:
        file.write("".join(f"{crate.line}\n" for crate in chosen))
    if os.path.isfile(os.path.join(top, "HANDLES")):
        shutil.copy(os.path.join(top, "HANDLES"), to)


def cost_table() -> str:
    """The table of docs/GATE.md."""
    rows = ["| Crate | Proof | Edits of the gate | More edits |", "|---|---|---|---|"]
    for name in crates():
        counts = " | ".join(str(len(edits(name, folder))) for folder in (GATE_EDITS, MORE_EDITS))
        rows.append(f"| `{name}` | {cost_of(name):,} | {counts} |")
    return "\n".join(rows) + "\n"


def minutes(seconds: float) -> str:
    """So many minutes, in words."""
    number = round(seconds / 60)
    return f"{number} minute{'' if number == 1 else 's'}"


def count_in(text: str) -> tuple[int, int] | None:
    """The counts of the last line 'N passed, M failed' in what a command said."""
    found = re.findall(r"(?m)^(\d+) passed, (\d+) failed", text)
    return (int(found[-1][0]), int(found[-1][1])) if found else None


def main(words: list[str]) -> int:
    if words != ["costs"]:
        sys.exit(__doc__)
    print(cost_table(), end="")
    return 0


if __name__ == "__main__":
    sys.exit(main(sys.argv[1:]))
