#!/usr/bin/env python3
"""Checks that the files of each crate are in the layout of `rt fmt`, and that no line is too long. `rt ci` refuses a
crate whose layout is another, too, but only when it has come to it.

    checks/layout.py

A line of Rust or of a document has at most 120 columns, and one of a proof at most 200. Worked texts and what `rt fmt`
puts on one line may be longer. The last line is 'N passed, M failed', and counts crates, and the documents as one.
"""

import os
import subprocess
import sys

from harness import TOP, Failed, files_of_git, repo, run_checks

ENDINGS = (".rt", ".antt")

# The most columns of a line, by the ending of its file, and what a line that has more must hold: a tactic and a nest of
# pairs, which `rt fmt` puts on one line, or a worked text.
COLUMNS = {".rt": (120, ("#[tactic(",)), ".antt": (200, ('codes "', "(λ t n r e. rw e refl, (")), ".md": (120, ())}


def files_of(name):
    """The paths of a crate's files that have a layout."""
    parts = [os.path.join(TOP, "crates", name, part) for part in repo.PARTS]
    walked = [(at, file) for part in parts for at, _, files in os.walk(part) for file in files]
    return sorted(os.path.join(at, file) for at, file in walked if file.endswith(ENDINGS))


def expect_short_lines(paths):
    """Fails if a line of these files is too long."""
    for path in paths:
        most, excused = COLUMNS[os.path.splitext(path)[1]]
        with open(path, encoding="utf-8") as file:
            for number, line in enumerate(file, 1):
                if len(line.rstrip("\n")) > most and not any(words in line for words in excused):
                    raise Failed(f"{os.path.relpath(path, TOP)}:{number}: more than {most} columns")


def check(name):
    """Fails if a file of this crate isn't in the layout."""
    expect_short_lines(files_of(name))
    words = [os.path.join(repo.toolchain(), "bin", "rattle"), "fmt", "--check", *files_of(name)]
    done = subprocess.run(words, stdout=subprocess.PIPE, stderr=subprocess.STDOUT, text=True, check=False)
    if done.returncode != 0:
        raise Failed(f"run rt fmt in crates/{name}: {done.stdout.strip()}")


def main():
    documents = [os.path.join(TOP, path) for path in files_of_git("*.md")]
    checks = [("documents", lambda: expect_short_lines(documents))]
    return run_checks([*checks, *((name, lambda name=name: check(name)) for name in repo.crates())], jobs=4)


if __name__ == "__main__":
    sys.exit(main())
