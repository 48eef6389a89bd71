#!/usr/bin/env python3
"""Tries the edits of crates/NAME/must-fail: the prover must refuse each of them.

    checks/must_fail.py [--until MOMENT] [--follow LOG] FOLDER [NAME ..]

FOLDER is a copy of this repository in which `rt ci` has proved all crates. Its libraries are used as they are. With
--follow `rt ci` is still at work there and writes to LOG: the edits of a crate are tried once the crates below it are
proved, on at most half of the processors, and only where `rt ci` leaves them idle.

The edits of a crate that change different functions are tried in one check, which looks at these functions and at those
that they call, and at nothing else: each function is proved against the contracts of the others. An edit is refused if
the prover complains of the function that it changes. What that doesn't show to be refused is then tried alone, in a
check of the whole crate, as is an edit of a definition.

An edit has failed if the crate is still proved with it, if the prover can't read it or its borrow checker doesn't cover
it, or if the prover complains only of a proof that names what the edit took away: then no contract was tried. It isn't
counted if a search only ended at a limit, or if the check itself ended before. As many crates are tried side by side as
there are processors, and memory for them, quick ones first. With --until no check begins after that moment of the
system's monotonic clock, in seconds, and the edits that are left are told. The last line is 'N passed, M failed'.
"""

import argparse
import concurrent.futures
import contextlib
import math
import os
import re
import shutil
import subprocess
import sys
import tempfile
import time

from edited_functions import texts_with, together, unique_names
from harness import repo
from more_edits import BAD, BY_NAME, NOT_TRIED, PROVED, REFUSED
from more_edits import came_to, edited, edited_body, refused_of, text_of, with_their_ends

# The status of a check that is asked for a function that isn't there, or for a name that several have.
NO_SUCH_PLACE = 2

PROCESSORS = len(os.sched_getaffinity(0))

# The memory, in kB, that must be free when a check begins: each takes up to 4 GB.
FREE_MEMORY = 8_000_000

# What an edit must not come to.
FAILED = (PROVED, BAD, BY_NAME)

# How many crates are named whose edits took longest.
LONGEST = 12

# Seconds between two looks at what `rt ci` has proved.
PAUSE = 5


def free_memory():
    """The memory that is free, in kB."""
    return int(re.search(r"MemAvailable:\s+(\d+)", text_of("/proc/meminfo")).group(1))


class Proofs:
    """What `rt ci` has proved so far, by its log; everything, if there is none to follow."""

    def __init__(self, log):
        self.log, self.done, self.has_ended = log, set(), log is None

    def read(self):
        """Reads what the log says by now."""
        if not self.has_ended:
            said = text_of(self.log)
            self.done = set(re.findall(r"(?m)^rt: (\w+) (?:proved|is kept)\b", said))
            self.has_ended = repo.count_in(said) is not None

    def has_all(self, names):
        """Whether these crates are proved."""
        return self.has_ended or self.done.issuperset(names)


class Proved:
    """The crates of a folder in which `rt ci` builds the libraries, or has built them."""

    def __init__(self, folder, end=math.inf, log=None):
        self.top, self.kit, self.known, self.end = folder, repo.toolchain(), repo.crates(folder), end
        self.proofs = Proofs(log)

    def has_time(self):
        """Whether a check may begin."""
        return time.monotonic() < self.end

    def is_ready(self, name):
        """Whether the edits of a crate can be tried: the crates below it are proved. (Without time, all are told.)"""
        below = repo.with_used(self.known[name].uses, self.known)
        return self.proofs.has_all(below) or not self.has_time()

    def has_place(self, at_work):
        """Whether a crate may begin beside so many: a processor and memory are free for it."""
        processors = PROCESSORS if self.proofs.has_ended else max(1, PROCESSORS // 2)
        is_alone = at_work == 0 and self.proofs.has_ended
        return at_work < processors and (is_alone or free_memory() >= FREE_MEMORY)

    def rlib(self, name):
        return os.path.join(self.top, "crates", name, "out", "rlib", f"{name}.rlib")

    def words(self, name):
        """The command that checks a crate in the current folder over the libraries of this one."""
        of_kit, crate = os.path.join(self.kit, "rlibs"), self.known[name]
        root = "src/main.rt" if repo.is_program(name, self.top) else "src/lib.rt"
        words = [os.path.join(self.kit, "bin", "rattle"), "check", "--crate-name", name, root]
        for library in ("std", *crate.libraries):
            words += ["--extern", f"{library}={of_kit}/{library}.rlib"]
        words += ["-L", f"dependency={of_kit}"]
        for used in crate.uses:
            words += ["--extern", f"{used}={self.rlib(used)}"]
        for below in repo.with_used(crate.uses, self.known):
            words += ["-L", f"dependency={os.path.dirname(self.rlib(below))}"]
        words += ["--antt-project", os.path.join(self.kit, "rattle", "logic", "antt-project.json")]
        return [*words, "--logic-built", os.path.join(self.kit, "logic_built"), "--jobs", "1"]

    def check(self, name, texts, only):
        """Checks a crate with these texts in place of its own: what `only` names, or all of it. The result is the
        status and the lines of the check."""
        with tempfile.TemporaryDirectory(prefix="must-fail-") as room:
            for part in repo.PARTS:
                source = os.path.join(self.top, "crates", name, part)
                if os.path.isdir(source):
                    shutil.copytree(source, os.path.join(room, part))
            for path, text in texts.items():
                with open(os.path.join(room, path), "w", encoding="utf-8") as file:
                    file.write(text)
            words = [*self.words(name), *(word for path in only for word in ("--only", path))]
            done = subprocess.run(words, cwd=room, stdin=subprocess.DEVNULL, stdout=subprocess.PIPE,
                                  stderr=subprocess.STDOUT, check=False, encoding="utf-8", errors="replace")
        return done.returncode, with_their_ends(done.stdout.rstrip("\n").split("\n"))


class Tries:
    """The tries of a crate's edits, and what came of each."""

    def __init__(self, proved, crate):
        self.proved, self.crate = proved, crate
        sources = os.path.join(proved.top, "crates", crate, "src")
        paths = [os.path.join(at, name) for at, _, names in os.walk(sources) for name in names if name.endswith(".rt")]
        self.unique = unique_names(map(text_of, paths))
        # Of each edit by its path: what it came to, and the line that shows it.
        self.found = {}
        self.seconds, self.alone = 0.0, 0

    def text(self, path):
        return text_of(os.path.join(self.proved.top, "crates", self.crate, path))

    def body(self, path):
        """The edit as a change of one function, if it is one."""
        return edited_body(self.crate, path, self.text, self.unique)

    def group(self, group):
        """Tries edits of different functions in one check of these. The result is the paths of those that it doesn't
        show to be refused."""
        texts = texts_with(group, self.text)
        status, lines = self.proved.check(self.crate, texts, [body.place for body in group])
        if status == NO_SUCH_PLACE:
            status, lines = self.proved.check(self.crate, texts, [])
        refused = refused_of(group, status, lines, texts) or {}
        for path, shown in refused.items():
            self.found[path] = REFUSED, shown
        return [body.path for body in group if body.path not in refused]

    def one(self, path):
        """Tries an edit alone, in a check of the whole crate."""
        self.alone += 1
        texts, why = edited(self.crate, path)
        self.found[path] = came_to(*self.proved.check(self.crate, texts, []), texts) if texts else (BAD, why)

    def run(self):
        """Tries all edits of the crate that the gate tries."""
        begun, paths = time.monotonic(), repo.edits(self.crate, repo.GATE_EDITS)
        bodies = [body for body in map(self.body, paths) if body]
        left = [path for path in paths if path not in {body.path for body in bodies}]
        for group in together(bodies):
            left += self.group(group) if self.proved.has_time() else [body.path for body in group]
        for path in left:
            if self.proved.has_time():
                self.one(path)
            else:
                self.found[path] = NOT_TRIED, "there was no time left"
        self.seconds = time.monotonic() - begun
        return self


def tell(tries):
    """Prints what the edits of a crate came to. Gives how many were refused, and how many failed."""
    for path, (kind, shown) in sorted(tries.found.items()):
        head = "FAILED " if kind in FAILED else "" if kind == REFUSED else "not counted: "
        print(f"{head}{tries.crate}/{os.path.basename(path)[: -len('.edit')]}: {kind}: {shown.strip()[:200]}")
    kinds = [kind for kind, _ in tries.found.values()]
    print(f"{tries.crate}: {kinds.count(REFUSED)} of {len(kinds)} refused, {tries.seconds:.0f} seconds", flush=True)
    return kinds.count(REFUSED), sum(kinds.count(kind) for kind in FAILED)


def give_way():
    """Leaves the processors to others that want them, also where Linux shares them between sessions."""
    os.nice(19)
    with contextlib.suppress(OSError), open("/proc/self/autogroup", "w", encoding="ascii") as file:
        file.write("19")


def in_turn(proved, crates):
    """Tries the edits of these crates, each once it is ready, in order where several are. Gives the tries of each."""
    left, at_work = list(crates), set()
    with concurrent.futures.ThreadPoolExecutor(PROCESSORS) as pool:
        while left or at_work:
            proved.proofs.read()
            ready = [name for name in left if proved.is_ready(name)]
            if ready and proved.has_place(len(at_work)):
                left.remove(ready[0])
                at_work.add(pool.submit(Tries(proved, ready[0]).run))
            if not at_work:
                time.sleep(PAUSE)
                continue
            done, at_work = concurrent.futures.wait(at_work, PAUSE, concurrent.futures.FIRST_COMPLETED)
            yield from (it.result() for it in done)


def words_of_command():
    """The words of the command line."""
    parser = argparse.ArgumentParser(description=__doc__, formatter_class=argparse.RawDescriptionHelpFormatter)
    parser.add_argument("folder", metavar="FOLDER")
    parser.add_argument("crates", nargs="*", metavar="NAME", choices=[*repo.crates(), []])
    parser.add_argument("--until", type=float, default=math.inf, metavar="MOMENT")
    parser.add_argument("--follow", metavar="LOG")
    return parser.parse_args()


def main():
    words = words_of_command()
    if words.follow:
        give_way()
    proved = Proved(os.path.abspath(words.folder), words.until, words.follow)
    crates = words.crates or [name for name in proved.known if repo.edits(name, repo.GATE_EDITS)]
    passed, failed, times = 0, 0, []
    for tries in in_turn(proved, sorted(crates, key=repo.cost_of)):
        refused, others = tell(tries)
        passed, failed = passed + refused, failed + others
        times.append((tries.seconds, f"{tries.crate} {tries.seconds:.0f} ({tries.alone})"))
    longest = ", ".join(text for _, text in sorted(times, reverse=True)[:LONGEST])
    print(f"test: note: seconds of the edits of a crate, and how many were tried alone: {longest}")
    print(f"{passed} passed, {failed} failed")
    return 1 if failed else 0


if __name__ == "__main__":
    sys.exit(main())
