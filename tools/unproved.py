#!/usr/bin/env python3
"""Makes an unproved program with all run-time checks, and keeps it for tools/start.

    tools/unproved.py NAME

`rt try` makes such a program and runs it, but keeps no file. So this script gives it several empty inputs to run one
after another (`--cases`), and during a run gives the program's file a second name. It keeps a folder
.built/NAME-unproved-KEY with the program and, one word for each line, the toolchain's own loader, with which rt starts
it. KEY is the checksum of the sources.
"""

import fcntl
import os
import re
import shutil
import signal
import subprocess
import sys
import tempfile
import time

sys.dont_write_bytecode = True

import repo  # noqa: E402 (they leave no file beside them)
import running  # noqa: E402
from repo import BUILT  # noqa: E402

# The number of empty inputs. Each is one more chance to take the program; the first is mostly enough.
CASES = 20

# The time limits for making a program, and for its run on an empty input, in seconds.
MAKE_LIMIT = 1800
RUN_LIMIT = 60

# The number of programs of one name that stay: of the current sources, and of earlier ones.
KEPT = 2

ADVICE = (
    "./build makes the proved program instead, in longer time; "
    "`rt try`, in the folder of the crate, makes and runs an unproved one"
)


class NotMade(Exception):
    """Why no program was made."""


def loader():
    """The toolchain's own loader and C library, with which rt starts a program that it tries."""
    library = os.path.join(os.path.dirname(repo.output_of(["rt", "doc"])), "toolchain", "lib")
    return [os.path.join(library, "ld-linux-x86-64.so.2"), "--inhibit-cache", "--library-path", library]


def take(room, program):
    """Gives the program that rt runs in this folder a second name. Once a run has begun, the file is complete."""
    for folder, _, names in os.walk(room):
        if "program" in names and "stdout" in names:
            try:
                os.link(os.path.join(folder, "program"), program)
                return True
            except OSError:
                # The run has ended meanwhile.
                continue
    return False


def end_of_case(said):
    """The exit status of the first input's run, once rt has printed it; any other end is an error."""
    with open(said, encoding="utf-8", errors="replace") as file:
        text = file.read()
    line = re.search(r"^case=.*\n", text, re.MULTILINE)
    status = re.search(r" run=ended status=(\d+) ", line[0]) if line else None
    if line and not status:
        raise NotMade(f"the program doesn't run on an empty input:\n{text[-2000:]}")
    return int(status[1]) if status else None


def made_by_try(name, room, words=()):
    """Makes a program by `rt try` with these additional words, and returns its path in this folder."""
    program, cases, said = (os.path.join(room, it) for it in ("program", "cases", "said"))
    os.mkdir(cases)
    for number in range(CASES):
        open(os.path.join(cases, f"empty-{number:02}"), "wb").close()
    command = ["rt", "try", "--cases", cases, "--steps", "1", *words]
    how = {"cwd": os.path.join(repo.TOP, "crates", name), "stderr": subprocess.STDOUT}
    how["env"] = {**os.environ, "TMPDIR": room}
    deadline, is_taken, status = time.monotonic() + MAKE_LIMIT, False, None
    with open(said, "wb") as out:
        trying = running.start(command, stdout=out, **how)
        try:
            while trying.poll() is None and time.monotonic() < deadline and not (is_taken and status is not None):
                is_taken = is_taken or take(room, program)
                status = end_of_case(said)
                time.sleep(0.005)
        finally:
            running.stop(trying)
    if not is_taken:
        with open(said, encoding="utf-8", errors="replace") as file:
            text = file.read()[-2000:].rstrip("\n")
        left = f"rt try ended with status {trying.returncode}, and left no program to take"
        raise NotMade(f"{left}. It said:\n{text}\n{ADVICE}")
    if status is None or runs(program) != status:
        raise NotMade(f"the program that was taken from rt try doesn't run as it did there. {ADVICE}")
    return program


def runs(program):
    """The exit status of a program with an empty input."""
    how = {"stdin": subprocess.DEVNULL, "stdout": subprocess.DEVNULL, "stderr": subprocess.DEVNULL, "env": {}}
    return subprocess.run([*loader(), program], timeout=RUN_LIMIT, check=False, **how).returncode


def is_kept(folder):
    """Whether this folder has a complete program whose loader still exists."""
    try:
        with open(os.path.join(folder, "loader"), encoding="utf-8") as file:
            found = file.readline().rstrip("\n")
        return os.access(found, os.X_OK) and os.access(os.path.join(folder, "program"), os.X_OK)
    except OSError:
        return False


def keep(name):
    """Makes the program of the current sources, and keeps it. If a source changes meanwhile, it is made again."""
    while True:
        kept = repo.unproved_place(name)
        if is_kept(kept):
            return
        room = tempfile.mkdtemp(prefix=f"making-{name}-", dir=BUILT)
        try:
            program = made_by_try(name, room)
            made = os.path.join(room, "made")
            os.mkdir(made)
            os.rename(program, os.path.join(made, "program"))
            os.chmod(os.path.join(made, "program"), 0o755)
            with open(os.path.join(made, "loader"), "w", encoding="utf-8") as file:
                file.write("\n".join(loader()) + "\n")
            if repo.unproved_place(name) == kept:
                shutil.rmtree(kept, ignore_errors=True)
                os.rename(made, kept)
        finally:
            shutil.rmtree(room, ignore_errors=True)


def clear(name):
    """Removes the remains of killed launches, and the programs of old sources."""
    old = []
    for each in os.listdir(BUILT):
        path = os.path.join(BUILT, each)
        if each.startswith(f"making-{name}-"):
            shutil.rmtree(path, ignore_errors=True)
        elif re.fullmatch(re.escape(name) + "-unproved-[0-9a-f]{16}", each):
            old.append((os.stat(path).st_mtime, path))
    for _, path in sorted(old)[:-KEPT]:
        shutil.rmtree(path, ignore_errors=True)


def main(name):
    signal.signal(signal.SIGTERM, lambda number, _: sys.exit(128 + number))
    if is_kept(repo.unproved_place(name)):
        return
    os.makedirs(BUILT, exist_ok=True)
    with open(os.path.join(BUILT, f"{name}-unproved.lock"), "w", encoding="utf-8") as lock:
        try:
            fcntl.flock(lock, fcntl.LOCK_EX | fcntl.LOCK_NB)
            print(f"{name}: making the program without proofs, with all checks at run time: a minute or two",
                  file=sys.stderr, flush=True)
        except BlockingIOError:
            print(f"{name}: another launch makes the program: waiting for it", file=sys.stderr, flush=True)
            fcntl.flock(lock, fcntl.LOCK_EX)
        clear(name)
        keep(name)
        clear(name)


if __name__ == "__main__":
    if len(sys.argv) != 2:
        sys.exit(__doc__)
    if not shutil.which("rt"):
        sys.exit(f"{sys.argv[1]}: there is no rt on the path: the Rattle toolchain is needed to make the program")
    try:
        main(sys.argv[1])
    except (NotMade, OSError, subprocess.SubprocessError) as error:
        sys.exit(f"{sys.argv[1]}: no program was made: {error}")
    except KeyboardInterrupt:
        sys.exit(f"{sys.argv[1]}: interrupted")
