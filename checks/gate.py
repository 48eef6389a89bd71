#!/usr/bin/env python3
"""Tests ./test itself, on a small tree with fake checks and a fake rt: what it counts, catches and shows.

    checks/gate.py

The last line is 'N passed, M failed'.
"""

import collections
import glob
import os
import signal
import subprocess
import sys
import tempfile
import time

from harness import LIMIT, TOP, expect, run_checks
import more_edits
import running

# The scripts that the parts run. Each fake one says what the notes' file of its name has, and ends with the status on
# the first line of it. (A word ends it by a signal.)
SCRIPTS = (
    "checks/refused_growths.py",
    "checks/layout.py",
    "checks/more_edits.py",
    "checks/must_fail.py",
    "checks/python.py",
    "checks/gate.py",
    "checks/programs.py",
    "checks/live_sessions.py",
    "checks/conditions.py",
    "checks/version4.py",
    "checks/checking.py",
    "checks/notation.py",
    "checks/accounts.py",
    "checks/embedded.py",
    "examples/orders/page_test.py",
    "editors/tests/run.py",
    "tools/unproved.py",
    "tools/tests/run.py",
    "tools/tests/browser_test.py",
    "clients/python/tests/run.py",
)
FAKE = r'''#!/usr/bin/env python3
import os, signal, sys
notes, name = @NOTES@, @NAME@
with open(os.path.join(notes, "calls"), "a") as file:
    file.write(" ".join([name, *sys.argv[1:]]) + "\n")
path = os.path.join(notes, os.path.basename(name) + ("-proved" if os.environ.get("HIPAC") else ""))
said = open(path).read() if os.path.exists(path) else "0\n2 passed, 0 failed\n"
status, _, rest = said.partition("\n")
print(rest, end="", flush=True)
if status == "killed":
    os.kill(os.getpid(), signal.SIGKILL)
sys.exit(int(status))
'''

# A fake rt: it lays out nothing, tests pass unless the notes name one, and `rt ci` says what the notes say.
FAKE_RT = r"""#!/usr/bin/env bash
notes=@NOTES@
echo "rt $*" >>"$notes/calls"
case $1 in
  try)
    for file in src/*/*.rt; do
      name=${file#src/}
      name=${name%.rt}
      case $(cat "$notes/broken" 2>/dev/null) in
        "$name") echo "test ${name//\//::}::it_holds ... FAILED"; echo "    $file:1:1: it doesn't hold" ;;
        *) echo "test ${name//\//::}::it_holds ... ok" ;;
      esac
    done
    test ! -e "$notes/broken"
    ;;
  ci)
    mkdir -p crates/hipac/out
    find . -name '*.edit' >"$notes/edits"
    find . -name 'rooms' >"$notes/rooms"
    if [ -e "$notes/slow" ]; then sleep 300 & wait; fi
    if [ -e "$notes/ci" ]; then cat "$notes/ci"; exit 1; fi
    echo "rt: all is proved"
    echo "7 passed, 0 failed"
    ;;
esac
"""

# The unit tests of this repository: the path below tests/ of each file, without its end. The fake rt takes each for one
# test.
UNIT_TESTS = sorted(path[len(os.path.join(TOP, "tests", "")) : -len(".rs")]
                    for path in glob.glob(os.path.join(TOP, "tests", "*", "*.rs")) if not path.endswith("/lib.rs"))
FOLDERS = sorted({name.split("/")[0] for name in UNIT_TESTS})

# How many pass in the tree: two in each script but those that make programs and try edits, and one for each program
# that is made; the unit tests, one of app_tests, and their layout.
QUICK = 2 * (len(SCRIPTS) - 2) + 5 + len(UNIT_TESTS) + 2
PROVED = QUICK + 7 + 2 * 7

# How many parts come after the proofs, and fail where these do: the edits and the checks of the proved programs.
AFTER = 7

# The folders of tests in Python: the part of ./test that runs them, its script, and how many programs it needs.
PYTHON_TESTS = {
    "tools/tests": ("tools", "tools/tests/run.py", 2),
    "clients/python/tests": ("client", "clients/python/tests/run.py", 1),
    "examples/orders": ("client", "clients/python/tests/run.py", 1),
    "editors/tests": ("editors", "editors/tests/run.py", 0),
}

# A test that passes and one that fails; and what the scripts of PYTHON_TESTS use, where it isn't in the tree.
TWO_TESTS = """import unittest


class Some(unittest.TestCase):
    def test_passes(self):
        self.assertEqual(1, 1)

    def test_fails(self):
        self.assertEqual(1, 2)
"""
USED = {
    "tools/hipac_tools/__init__.py": "",
    "tools/hipac_tools/program.py": """from types import SimpleNamespace


def run(script, words):
    return SimpleNamespace(status=0, output="final\\nend\\n", errors="")
""",
    "clients/python/hipac/__init__.py": 'PROGRAM = ("true",)\nHipacError, find_library = Exception, str\n',
    "clients/python/tests/__init__.py": "",
    "editors/tests/__init__.py": "",
}


class Tree:
    """A small repository with ./test, fake checks and a fake rt."""

    def __init__(self, room):
        self.top, self.notes = os.path.join(room, "tree"), os.path.join(room, "notes")
        os.makedirs(self.notes)
        for name in ("repo", "running", "parts", "proving", "unit_tests"):
            self.write(f"tools/{name}.py", text_of(os.path.join(TOP, "tools", f"{name}.py")), 0o755)
        self.write("test", text_of(os.path.join(TOP, "test")), 0o755)
        self.write(".ci/run", text_of(os.path.join(TOP, ".ci", "run")), 0o755)
        for name in SCRIPTS:
            self.write(name, FAKE.replace("@NOTES@", repr(self.notes)).replace("@NAME@", repr(name)), 0o755)
        self.write("tools/tests/__init__.py", "")
        self.write("crates.txt", "low:\napp: low\n")
        self.write("HANDLES", "Handles allowed: none.\n")
        self.write("crates/low/src/lib.rt", "//! low\n")
        self.write("crates/app/src/main.rt", "//! app\n")
        self.write("crates/app/must-fail/some.edit", "file: src/main.rt\nold: app\nnew: other\n")
        for name in [*UNIT_TESTS, *(f"{folder}/lib" for folder in FOLDERS)]:
            self.write(f"tests/{name}.rs", text_of(os.path.join(TOP, "tests", f"{name}.rs")))
        self.write("tests/app_tests/lib.rs", "//! Tests.\n\nmod first;\n")
        self.write("tests/app_tests/first.rs", "//! Tests.\n")
        rt = os.path.join(room, "bin", "rt")
        write(rt, FAKE_RT.replace("@NOTES@", self.notes), 0o755)
        for name in ("apt-get", "chromedriver", "dot", "gcc", "luajit", "mypy", "pgrep", "pkg-config", "pyflakes3",
                     "pycodestyle", "valgrind", "vim"):
            write(os.path.join(room, "bin", name), "#!/bin/sh\n", 0o755)
        for name in ("jsonschema", "selenium"):
            write(os.path.join(room, "modules", f"{name}.py"), "")
        places = {"PATH": f"{room}/bin:{os.environ['PATH']}", "PYTHONPATH": os.path.join(room, "modules")}
        self.how = {"cwd": self.top, "env": {**os.environ, **places}}

    def write(self, path, text, mode=0o644):
        write(os.path.join(self.top, path), text, mode)

    def note(self, name, text):
        write(os.path.join(self.notes, name), text)

    def calls(self):
        return text_of(os.path.join(self.notes, "calls")).splitlines()

    def run(self, *words):
        """The status of ./test, the lines that it wrote, and the last of them."""
        done = subprocess.run(words or ["./test"], stdin=subprocess.DEVNULL, stdout=subprocess.PIPE,
                              stderr=subprocess.STDOUT, text=True, timeout=LIMIT, check=False, **self.how)
        lines = done.stdout.splitlines()
        return done.returncode, lines, lines[-1] if lines else ""


def text_of(path):
    with open(path, encoding="utf-8") as file:
        return file.read()


def write(path, text, mode=0o644):
    os.makedirs(os.path.dirname(path), exist_ok=True)
    with open(path, "w", encoding="utf-8") as file:
        file.write(text)
    os.chmod(path, mode)


def expect_failure(tree, words, counts, told):
    """A run fails with these counts, and tells of it twice, the second time near its end."""
    status, lines, last = tree.run(*words)
    expect((status, last), (1, "{} passed, {} failed".format(*counts)), "\n".join(lines[-30:]))
    again = lines.index("test: what failed, once more:")
    expect([any(told in line for line in part) for part in (lines[:again], lines[again:])], [True, True], lines)


def counts_all(tree):
    """The last line counts what all parts count, and nothing is proved."""
    status, lines, last = tree.run()
    expect((status, last), (0, f"{QUICK} passed, 0 failed"), "\n".join(lines[-30:]))
    expect([it for it in tree.calls() if it.startswith("rt ci")], [], "calls of rt ci")


def proves_all(tree):
    """The gate also counts what `rt ci`, the edits and the checks of the proved programs count. rt ci gets no edit."""
    status, lines, last = tree.run(".ci/run")
    expect((status, last), (0, f"{PROVED} passed, 0 failed"), "\n".join(lines[-30:]))
    calls = [it.split() for it in tree.calls()]
    counts = collections.Counter(it[0] for it in calls)
    names = ("checking", "conditions", "live_sessions", "notation", "programs", "version4")
    twice = [f"checks/{name}.py" for name in names]
    expect([it for it in sorted(counts) if it in twice and counts[it] == 2], twice, calls)
    edits = [it for it in calls if it[0] == "checks/must_fail.py"]
    copy = edits[0][-1]
    expect([it[3:] for it in edits], [["--follow", os.path.join(tree.top, ".built/test/rt_ci.log"), copy]], "edits")
    expect([it[1:] for it in calls if "--proved" in it], [["--proved", f"{copy}/crates/hipac/out/hipac"]],
           "the check of the proved program")
    expect(text_of(os.path.join(tree.notes, "edits")), "", "the edits that rt ci finds")


def catches_tests(tree):
    """A unit test that fails in any folder of tests is caught and shown, with its own file."""
    tree.note("broken", "app_tests/first")
    expect_failure(tree, ["./test"], (QUICK - 1, 1), "    tests/app_tests/first.rs:1:1: it doesn't hold")
    for folder in FOLDERS:
        name = next(name for name in UNIT_TESTS if name.startswith(f"{folder}/"))
        tree.note("broken", name)
        counts = len(UNIT_TESTS) + 1, 1
        expect_failure(tree, ["./test", "unit_tests"], counts, f"    tests/{name}.rs:1:1: it doesn't hold")


def catches_python_tests(tree):
    """A test in Python that fails in any folder of them is caught and shown, with its class."""
    for path, text in USED.items():
        tree.write(path, text)
    for folder, (part, runs, programs) in PYTHON_TESTS.items():
        tree.write(runs, text_of(os.path.join(TOP, runs)), 0o755)
        tree.write(f"{folder}/test_two.py", TWO_TESTS)
        expect_failure(tree, ["./test", part], (programs + 1, 1), "FAIL: test_fails (")
        os.remove(os.path.join(tree.top, folder, "test_two.py"))


def catches_the_dead(tree):
    """A part that dies counts as one that failed, whatever it counted before."""
    tree.note("conditions.py", "killed\n2 passed, 0 failed\n")
    expect_failure(tree, ["./test"], (QUICK, 1), "FAILED conditions: status -9")
    tree.note("conditions.py", "0\nnothing to say\n")
    expect_failure(tree, ["./test"], (QUICK - 2, 1), "FAILED conditions: status 0")


def counts_unittests(tree):
    """Of Python's tests each failure and each error counts, and what was skipped counts as passed."""
    said = "FAIL: test_one (tests.Some)\nRan 9 tests in 1.0s\n\nFAILED (failures=1, errors=2, skipped=1)\n"
    tree.note("run.py", f"1\n{said}")
    expect_failure(tree, ["./test", "tools"], (2 + 6, 3), "FAIL: test_one (tests.Some)")
    tree.note("run.py", "0\nRan 9 tests in 1.0s\n\nOK (skipped=1)\n")
    expect(tree.run("./test", "tools")[2], "11 passed, 0 failed", "the count")


def catches_missing_programs(tree):
    """If a program isn't made, each part that needs it has failed."""
    tree.note("unproved.py", "1\nerror: no program\n")
    status, lines, last = tree.run("./test", "conditions")
    expect((status, last), (1, "0 passed, 2 failed"), "\n".join(lines))


def proves_nothing_in_vain(tree):
    """The proofs are ended where a quick check has failed, and nothing that follows them is run."""
    tree.note("more_edits.py", "1\nFAILED an edit\n5 passed, 1 failed\n")
    tree.note("slow", "")
    counts = QUICK - 2 + 5, 2 + AFTER
    expect_failure(tree, ["./test", "--prove"], counts, "FAILED an edit")
    expect_failure(tree, ["./test", "--prove"], counts, "FAILED rt_ci: ended, since this failed: edits_apply")
    expect([it for it in tree.calls() if "must_fail" in it or "--proved" in it], [], "what follows the proofs")


def catches_proofs(tree):
    """What `rt ci` refuses counts and is shown, with the reasons that follow; no proved program is checked then."""
    why = "rt: hp_low/x.edit: BAD EDIT; the first lines of what it said:"
    tree.note("ci", f"rt: low proved\n{why}\na reason\n5 passed, 2 failed\n")
    expect_failure(tree, ["./test", "--prove"], (QUICK + 5, 2 + AFTER), "a reason")
    expect([it for it in tree.calls() if "--proved" in it], [], "checks of the proved program")
    tree.note("ci", "rt: low proved\n")
    expect_failure(tree, ["./test", "--prove"], (QUICK, 1 + AFTER), "it said no count")


def catches_wrong_reports(tree):
    """A check that fails on the proved programs is caught."""
    tree.note("conditions.py-proved", "1\nFAILED script 3\n1 passed, 1 failed\n")
    expect_failure(tree, ["./test", "--prove"], (PROVED - 1, 1), "FAILED script 3")


def shows_notes(tree):
    """A part's note is shown, though nothing has failed."""
    tree.note("notation.py", "0\ntest: note: it took long\n2 passed, 0 failed\n")
    status, lines, last = tree.run("./test", "notation")
    expect((status, last, "test: note: it took long" in lines), (0, "3 passed, 0 failed", True), "\n".join(lines))


def catches_edits(tree):
    """An edit that the prover doesn't refuse is caught."""
    tree.note("must_fail.py", "1\nFAILED app/some: NOT REFUSED: the crate is still proved\n1 passed, 1 failed\n")
    expect_failure(tree, ["./test", "--prove"], (PROVED - 1, 1), "FAILED app/some")


def proves_a_copy(tree):
    """`rt ci` runs on a copy: it leaves nothing here, and sees no room of ./build."""
    tree.write(".built/rooms/low/src/lib.rt", "//! low\n")
    status, lines, last = tree.run("./test", "--prove")
    expect((status, last), (0, f"{PROVED} passed, 0 failed"), "\n".join(lines[-30:]))
    expect(os.path.exists(os.path.join(tree.top, "crates", "hipac")), False, "whether rt ci ran here")
    expect("room" in text_of(os.path.join(tree.notes, "rooms")), False, "the rooms that rt ci finds")


def ends_its_parts(tree):
    """An interrupt ends the parts at work, and the run has failed."""
    tree.write("checks/conditions.py", "#!/bin/sh\nsleep 300 & wait\n", 0o755)
    how = {"stdout": subprocess.PIPE, "stderr": subprocess.STDOUT, "text": True, "start_new_session": True}
    testing = subprocess.Popen(["./test", "conditions"], **how, **tree.how)
    deadline = time.monotonic() + LIMIT
    while not os.path.exists(os.path.join(tree.top, ".built", "test", "conditions.log")):
        expect(time.monotonic() < deadline, True, "whether the part begins in time")
        time.sleep(0.1)
    time.sleep(1)
    testing.send_signal(signal.SIGINT)
    said = testing.communicate(timeout=LIMIT)[0]
    expect((testing.returncode, said.splitlines()[-1]), (1, "1 passed, 1 failed"), said)


def leaves_the_status(_tree):
    """What ends a command leaves its status for the thread that waits for it, however late that does."""
    command = running.start(["sh", "-c", "sleep 300 & wait"], start_new_session=True)
    running.stop_group(command)
    running.wait_and_measure(command)
    expect(command.returncode, -signal.SIGTERM, "status")


# What a check of an edit may say, with its status, and what the edit comes to by that.
NOT_PROVED = "only=1 proved=0"
SAID = (
    (0, ["only=1 proved=1"], more_edits.PROVED),
    (1, ["fn app::f: no proof: expected answers in ./proofs/f/Answers.antt; `search` did not prove `returns`",
         NOT_PROVED], more_edits.REFUSED),
    (1, ["note: src/lib.rt:3:5: it is not proved that what the function ensures holds when it returns (`returns`); "
         "`search` gave up at one of its limits", NOT_PROVED], more_edits.AT_LIMIT),
    (1, ["./proofs/f/Answers.antt:3:5: error: `returns`: `goal` has no field `in-Ok`", NOT_PROVED], more_edits.BY_NAME),
    (1, ["src/lib.rt:3:5: error: unknown field `rule`"], more_edits.BAD),
    (1, ["fn app::f: no proof: expected `f_spec` in ./proofs/f/Proof.antt; the borrow checker does not cover this "
         "function yet", NOT_PROVED], more_edits.BAD),
    (-9, ["statements std: modules loaded=115 checked=0"], more_edits.NOT_JUDGED),
)


def judges_edits(_tree):
    """What an edit comes to by what its check says: only a contract that fails refuses it."""
    for status, lines, kind in SAID:
        expect(more_edits.came_to(status, lines, {"src/lib.rt": ""})[0], kind, lines[0])


def missing_program(_tree):
    """`checks/programs.py --proved` fails if there is no such program."""
    words = [os.path.join(TOP, "checks", "programs.py"), "--proved", "/nowhere"]
    done = subprocess.run(words, stdout=subprocess.PIPE, text=True, timeout=LIMIT, check=False)
    expect((done.returncode, done.stdout.splitlines()[-1]), (1, "0 passed, 1 failed"), "status and count")


CHECKS = (
    counts_all,
    proves_all,
    catches_tests,
    catches_python_tests,
    catches_the_dead,
    counts_unittests,
    catches_missing_programs,
    proves_nothing_in_vain,
    catches_proofs,
    catches_wrong_reports,
    shows_notes,
    catches_edits,
    proves_a_copy,
    ends_its_parts,
    leaves_the_status,
    judges_edits,
    missing_program,
)


def main():
    with tempfile.TemporaryDirectory(prefix="gate-") as room:
        checks = []
        for check in CHECKS:
            at = os.path.join(room, check.__name__)
            checks.append((check.__doc__.split("\n")[0], lambda check=check, at=at: check(Tree(at))))
        return run_checks(checks, 2)


if __name__ == "__main__":
    sys.exit(main())
