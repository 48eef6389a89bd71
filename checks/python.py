#!/usr/bin/env python3
"""Has Debian's pyflakes, pycodestyle and mypy look at the Python of this repository: they must find nothing.

    checks/python.py

Mypy looks at the files of GROUPS. (Ruff isn't among Debian's packages.) The last line is 'N passed, M failed', where
each look that finds something has failed.
"""

import glob
import os
import subprocess
import sys
import tempfile

from harness import TOP, Failed, files_of_git, run_checks

# Rules of pycodestyle that aren't ours: imports after a change of the path, operators at a line's beginning or end,
# lambdas with a name, a space before the colon of a slice, and how a continued line is indented.
NOT_OURS = "E402,W503,W504,E731,E203,E127,E128"

COMMANDS = {
    "pyflakes": ["pyflakes3"],
    "pycodestyle": ["pycodestyle", "--max-line-length=120", f"--ignore={NOT_OURS}"],
}

# What mypy looks at, each with the folders that its imports are found in.
GROUPS = {
    "scripts": (["build", "test", "tools/*.py", "checks/*.py", "bench/*.py"], ["tools", "checks", "bench"]),
    "tools": (["tools/hipac_tools/*.py", "tools/hipac_tools/*/*.py"], ["tools"]),
    "tests of the tools": (["tools/tests/*.py"], ["tools"]),
    "client": (["clients/python/*.py", "clients/python/hipac/*.py"], ["clients/python"]),
    "order desk": (
        ["examples/orders/desk.py", "examples/orders/page.py"], ["clients/python", "examples/orders", "tools"]),
}
MYPY = ["mypy", "--python-version=3.9", "--ignore-missing-imports", "--follow-imports=silent", "--scripts-are-modules"]

# The groups in which each function says its types.
TYPED = ("tools", "client", "order desk")


def scripts():
    """The paths of all files of Python that git knows or would add."""
    return [path for path in files_of_git() if is_python(os.path.join(TOP, path))]


def is_python(path):
    if path.endswith(".py"):
        return True
    with open(path, "rb") as file:
        return file.readline().startswith(b"#!/usr/bin/env python3")


def look(words, **variables):
    """A command must find nothing."""
    how = {"stdout": subprocess.PIPE, "stderr": subprocess.STDOUT, "text": True, "check": False}
    done = subprocess.run(words, cwd=TOP, env={**os.environ, **variables}, **how)
    if done.returncode != 0:
        raise Failed(done.stdout.strip() or f"status {done.returncode}")


def typed(group):
    """Mypy must find nothing in a group."""
    patterns, folders = GROUPS[group]
    paths = [path for pattern in patterns for path in sorted(glob.glob(os.path.join(TOP, pattern)))]
    strict = ["--disallow-untyped-defs"] if group in TYPED else []
    with tempfile.TemporaryDirectory(prefix="mypy-") as cache:
        look([*MYPY, *strict, f"--cache-dir={cache}", *paths], MYPYPATH=os.pathsep.join(folders))


def main():
    paths = scripts()
    checks = [(name, lambda words=words: look([*words, *paths])) for name, words in COMMANDS.items()]
    checks += [(f"mypy: {group}", lambda group=group: typed(group)) for group in GROUPS]
    return run_checks(checks, len(checks))


if __name__ == "__main__":
    sys.exit(main())
