#!/usr/bin/env python3
"""Tries the edits of crates/NAME/more-edits: the prover must refuse each of them.

    checks/more_edits.py [--anew] [--untried] [NAME ..]  tries those of these crates, or of all crates
    checks/more_edits.py --apply-only [NAME ..]          proves nothing: checks that the edits of both folders apply

The gate tries the edits of must-fail and not these. This script copies the crates to a temporary folder and works
there, crate by crate, lowest first. It checks a crate without an edit, and then with edits. It begins with what
`./build` kept of the crate in .built/rooms, or else with what `rt check` kept in the crate's out/. Each check of edits
begins with what the check without an edit kept. Edits of different functions are tried in one check. What that doesn't
show to be refused is then tried alone.

That an edit was refused is kept in the crate's out/, so a later run doesn't try the edit again until it, the crate, a
crate below it or the toolchain changes. `--anew` tries all again. `--untried` tries only those that have a line
`# untried`. Several runs may work side by side on different crates.

It prints what came of each edit, and how many are left; the last line counts them all. The status is 0 if
each edit applies and was refused, 1 if one wasn't, and 130 if the run was interrupted. The copy is then removed. An
edit isn't refused if the prover complains only of a proof that names what the edit took away, or of a search that ended
at a limit: then no contract was shown to fail.
"""

import contextlib
import fcntl
import functools
import hashlib
import os
import re
import shutil
import signal
import subprocess
import sys
import tempfile
import time

from edited_functions import body_of, texts_with, together, unique_names
from harness import TOP, repo

# The folder of the gate's edits, and that of the others.
FIRST = repo.GATE_EDITS
MORE = repo.MORE_EDITS

CRATES = repo.crates()

# The line of an edit that was never tried. It is removed when the prover has refused the edit.
UNTRIED = "# untried"

# What an edit can come to. The second: the only complaints are of a proof file that names what the edit took away, so
# that no contract was tried. The third: `search` found no proof within its limits, and the contract may still hold. A
# bad edit doesn't apply, or makes a text that the prover can't read or has no proof of. One isn't judged if the check
# ended before, as where memory ran out.
REFUSED = "refused"
BY_NAME = "only refused since a proof names what it took away"
AT_LIMIT = "only refused at a limit of search"
PROVED = "NOT REFUSED"
BAD = "bad"
NOT_JUDGED = "not judged"
NOT_TRIED = "not tried"

# A complaint of the prover, with its file, the definition that it is of, if any, and its words.
COMPLAINT = re.compile(r"(?:\./)?(\S+?):\d+:\d+: error: (?:(`[^`]*`): )?(.*)")

# A line that says that something isn't proved, with its file and its line there.
UNPROVED = re.compile(
    r"(?:note: (?=.*: it is not proved that ))?(?:\./)?([^\s:]+):(\d+):\d+: (?:error: |it is not proved )"
)

# The words of complaints of a text that can't be read, and of a proof that names what is not there or needs another
# proof that does.
UNREAD = re.compile(r"is not in scope|has no field|is no name|operand is missing|expected the end|cannot continue")
NO_SUCH_NAME = re.compile(r"has no field|is not in scope|has no `|was not admitted|which was rejected")

# What is said of a search that ended at a limit.
GAVE_UP = "gave up at one of its limits"

# A line that says that a function has no proof: since no search found one, or since none was begun.
NO_PROOF = re.compile(r"fn \S+: no proof: ")
SEARCHED = re.compile(NO_PROOF.pattern + r"expected answers in (?:\./)?(\S+); `search` did not prove `")

# A line that says that a loop isn't shown to end, which each function promises that doesn't wait.
ENDLESS = re.compile(NO_PROOF.pattern + r"expected a measure in (?:\./)?(\S+)")

# The last line of a check of some functions alone, and that of a check of a crate that isn't proved.
JUDGED = re.compile(r"logic=not-proved|only=\d+ proved=\d+$")

SIGNALS = (signal.SIGINT, signal.SIGTERM, signal.SIGHUP)


class Interrupted(Exception):
    """The run was interrupted."""


def interrupt(_number, _frame):
    # (a second interrupt must not stop the removal of the copy)
    for number in SIGNALS:
        signal.signal(number, signal.SIG_IGN)
    raise Interrupted


def text_of(path):
    with open(path, encoding="utf-8") as file:
        return file.read()


def is_untried(path):
    return UNTRIED in text_of(path).split("\n")


def edited(crate, path):
    """The texts of the files that an edit changes, by their paths in the crate, or why it does not apply to the current
    sources, by the rules of `rt`."""
    if not re.fullmatch(r"[A-Za-z0-9_-][A-Za-z0-9_.-]*\.edit", os.path.basename(path)):
        return None, "its name is not that of an edit"
    file, old, pairs, before, after = "", "", 0, {}, {}
    for line in text_of(path).split("\n"):
        if line.startswith("file: "):
            file = line[len("file: ") :].strip()
            if os.path.normpath(file) != file or not file.startswith(tuple(f"{part}/" for part in repo.PARTS)):
                return None, f"{file} is no file below src/, specs/ or proofs/"
            if not os.path.isfile(os.path.join(TOP, "crates", crate, file)):
                return None, f"there is no file {file}"
        elif line.startswith("old: "):
            old = line[len("old: ") :]
        elif line.startswith("new:"):
            if not file or not old:
                return None, "a new text stands before any file or any old text"
            if file not in after:
                before[file] = after[file] = text_of(os.path.join(TOP, "crates", crate, file))
            found = after[file].count(old)
            if found != 1:
                return None, f"an old text stands in {file} {found} times, and not once: {old.strip()[:80]}"
            after[file] = after[file].replace(old, line[len("new:") :].removeprefix(" "))
            old, pairs = "", pairs + 1
        elif line.strip() and not line.startswith(("#", "--", "//")):
            return None, f"a line that is not read: {line.strip()[:80]}"
    if old or not pairs:
        return None, "an old text has no new one" if old else "it has no old and new text"
    return (None, "it changes nothing") if after == before else (after, None)


def edited_body(crate, path, text, unique):
    """An edit as a change of one function, if it is one. `text` gives the text of a file of the crate, and `unique` has
    the names that only one of its functions has."""
    texts, _ = edited(crate, path)
    body = body_of(path, {file: text(file) for file in texts}, texts) if texts else None
    if body:
        body.is_unique = body.name in unique
    return body


def apply_all(crates):
    """Prints for each edit of both folders that does not apply why it doesn't. Returns how many apply, and how many
    don't."""
    faults, counts = 0, {FIRST: 0, MORE: 0}
    for crate in crates:
        names = {}
        for folder in (FIRST, MORE):
            for path in repo.edits(crate, folder):
                counts[folder] += 1
                name = os.path.basename(path)
                why = edited(crate, path)[1]
                if name in names:
                    why = f"an edit of this name stands in {names[name]} too"
                names[name] = folder
                if why:
                    faults += 1
                    print(f"FAILED {crate}/{folder}/{name}: does not apply: {why}", flush=True)
    whole = f"{counts[FIRST]} edits in {FIRST} and {counts[MORE]} in {MORE}"
    print(f"{whole}: {f'{faults} do not apply' if faults else 'each applies'}", flush=True)
    return sum(counts.values()) - faults, faults


# ---- results of earlier runs


@functools.lru_cache(maxsize=None)
def toolchain():
    return subprocess.run(["rt", "version"], stdin=subprocess.DEVNULL, stdout=subprocess.PIPE, check=True).stdout


@functools.lru_cache(maxsize=None)
def sum_of(crate, top=TOP):
    """A sum of all that the result of an edit depends on but the edit itself, as the files stand below a folder."""
    whole = hashlib.sha256(toolchain())
    for name in repo.with_used([crate], CRATES):
        whole.update(repr((name, CRATES[name].uses)).encode())
        for part in repo.PARTS:
            for at, folders, files in os.walk(os.path.join(top, "crates", name, part)):
                folders.sort()
                for file in sorted(files):
                    path = os.path.join(at, file)
                    with open(path, "rb") as read:
                        whole.update(repr((os.path.relpath(path, top), read.read())).encode())
    return whole.hexdigest()


class Results:
    """The edits of a crate that were refused, each with a sum of what that depends on."""

    def __init__(self, crate):
        self.at = os.path.join(TOP, "crates", crate, "out", "refused-edits")
        self.sum = sum_of(crate)

    def line(self, path):
        lines = [line for line in text_of(path).split("\n") if line != UNTRIED]
        return hashlib.sha256("\n".join([self.sum, *lines]).encode()).hexdigest()

    def has(self, path):
        kept = os.path.join(self.at, os.path.basename(path))
        return os.path.isfile(kept) and text_of(kept) == self.line(path)

    def keep(self, path):
        os.makedirs(self.at, exist_ok=True)
        with open(os.path.join(self.at, os.path.basename(path)), "w", encoding="utf-8") as file:
            file.write(self.line(path))


# ---- the copy


def homes(crate):
    """Where checks of a crate keep their work, the best first: its room of `./build`, where that has the files as they
    stand, and its own folder."""
    room, own = os.path.join(repo.ROOMS, crate), os.path.join(TOP, "crates", crate)
    there = os.path.join(room, "crates", crate)
    if not os.path.isdir(there):
        return [own]
    return [there, own] if sum_of(crate, room) == sum_of(crate) else [own, there]


@contextlib.contextmanager
def at_rest(folder):
    """Whether no check works in a crate's folder. None begins there before this ends."""
    held = os.open(folder, os.O_RDONLY)
    try:
        fcntl.flock(held, fcntl.LOCK_SH | fcntl.LOCK_NB)
        is_free = True
    except BlockingIOError:
        is_free = False
    try:
        yield is_free
    finally:
        os.close(held)


def take(crate, part, to, by=shutil.copy2):
    """Copies a part of what checks of a crate kept. The result is the folder that it was taken from, if any."""
    for home in homes(crate):
        if not os.path.isdir(os.path.join(home, "out", part)):
            continue
        with at_rest(home) as is_free:
            if is_free:
                shutil.copytree(os.path.join(home, "out", part), os.path.join(to, "out", part), copy_function=by)
                return home
    return None


def copy_crates(wanted, to):
    """Copies crates and all that they use, without edits, and the libraries that were built of them. The work on a
    wanted crate is copied in its turn, since it is large."""
    lacking, order = [], repo.with_used(wanted, CRATES)
    repo.copy_crates([CRATES[name] for name in order], to)
    for crate in order:
        copy = os.path.join(to, "crates", crate)
        # (`rt` removes a library before it builds it anew, and so doesn't write where a link leads)
        if not take(crate, "rlib", copy, repo.link) and crate not in wanted:
            lacking.append(crate)
            take(crate, "incremental", copy)
    if lacking:
        print(f"to be built first, since no library of them is kept: {' '.join(lacking)}", flush=True)


def remove(path):
    """Removes a folder, if it exists. A command that was ended may still have been writing in it."""
    for _ in range(20):
        shutil.rmtree(path, ignore_errors=True)
        if not os.path.lexists(path):
            return
        time.sleep(0.25)
    print(f"{path} could not be removed", file=sys.stderr)


def files_in(folder):
    """The size and the time of each file of a folder, by its path there."""
    found = {}
    for at, _, names in os.walk(folder):
        for name in names:
            path = os.path.join(at, name)
            found[os.path.relpath(path, folder)] = (os.stat(path).st_size, os.stat(path).st_mtime_ns)
    return found


def restore(work, kept):
    """Makes a folder hold what another one does, and copies only what differs in size or time."""
    wanted, there = files_in(kept), files_in(work)
    for path in there.keys() - wanted.keys():
        os.remove(os.path.join(work, path))
    for path, what in wanted.items():
        if there.get(path) != what:
            os.makedirs(os.path.dirname(os.path.join(work, path)), exist_ok=True)
            shutil.copy2(os.path.join(kept, path), os.path.join(work, path))


# ---- checks


def with_their_ends(lines):
    """Lines, where those that continue a complaint are joined with it."""
    found = []
    for line in lines:
        if re.match(r"  [^|]", line) and found and COMPLAINT.match(found[-1]):
            found[-1] += " " + line.strip()
        else:
            found.append(line)
    return found


def said_by(words, folder, room):
    """Runs a command in a folder, and returns its status and the lines that it printed. Its children end with it."""
    how = {"cwd": folder, "stdin": subprocess.DEVNULL, "stdout": subprocess.PIPE, "stderr": subprocess.STDOUT}
    how.update(env={**os.environ, "TMPDIR": room}, start_new_session=True, encoding="utf-8", errors="replace")
    with subprocess.Popen(words, **how) as running:
        try:
            said = running.communicate()[0]
        finally:
            if running.poll() is None:
                # (the checks that it started end too)
                running.kill()
    return running.returncode, with_their_ends(said.rstrip("\n").split("\n"))


def is_unread(line, changed):
    """Whether a line says that a text of src/, specs/ or an edited file can't be read: no contract was tried."""
    found = COMPLAINT.match(line)
    if not found or not (found[1] in changed or found[1].startswith(("src/", "specs/"))):
        return False
    return not found[2] or bool(UNREAD.search(re.sub(r"`[^`]*`", "", found[3])))


def is_judged(status, lines):
    """Whether the prover judged all that it was asked for, and refused some of it."""
    return status == 1 and any(map(JUDGED.match, lines))


def complaints(lines):
    """The lines that complain, but for those of a proof that names what is not there."""
    told = [line for line in lines if COMPLAINT.match(line)]
    return [line for line in told if not (COMPLAINT.match(line)[1].startswith("proofs/") and NO_SUCH_NAME.search(line))]


def place_in(line):
    """The file and the line of what a line says isn't proved, if it says so. Of a function without a proof it is the
    file that its proof would have."""
    found, without = UNPROVED.match(line), SEARCHED.match(line) or ENDLESS.match(line)
    return (found[1], int(found[2])) if found else (without[1], 0) if without else None


def refused_of(group, status, lines, changed):
    """Of the edits of a group, those that their check shows to be refused, each with the line that shows it. `None` if
    the prover couldn't read one of them or couldn't tell, so that the check says nothing of the others."""
    if (status != 0 and not is_judged(status, lines)) or any(is_unread(line, changed) for line in lines):
        return None
    # (that one function isn't proved is no reason to refuse another one)
    places = [(place_in(line), line) for line in lines if not NO_SUCH_NAME.search(line)]
    found = {}
    for body in group:
        of_it = (line for place, line in places if place and body.has(*place, line) and GAVE_UP not in line)
        shown = next(of_it, None)
        if shown:
            found[body.path] = shown
    return found


def came_to(status, lines, changed):
    """What an edit came to, by the status and the lines of its check, and the line that shows it."""
    for line in lines:
        if is_unread(line, changed):
            return BAD, line
    if status == 0:
        return PROVED, "the crate is still proved"
    if not is_judged(status, lines):
        return NOT_JUDGED, next((line for line in lines if "error" in line), lines[-1])
    shown = complaints(lines) + [line for line in lines if UNPROVED.match(line) and not COMPLAINT.match(line)]
    shown += [line for line in lines if SEARCHED.match(line) or ENDLESS.match(line)]
    if shown:
        judged = [line for line in shown if GAVE_UP not in line]
        return (REFUSED, judged[0]) if judged else (AT_LIMIT, shown[0])
    told = [line for line in lines if COMPLAINT.match(line)]
    if told:
        return BY_NAME, told[0]
    # (as where the borrow checker doesn't cover the function: no contract was tried)
    return BAD, next((line for line in lines if NO_PROOF.match(line)), lines[-1])


class Room:
    """A crate of the copy, with the work that is kept on it."""

    def __init__(self, crate, copy, room):
        self.at = os.path.join(copy, "crates", crate)
        self.work = os.path.join(self.at, "out", "incremental")
        self.kept = os.path.join(room, f"kept-{crate}")
        self.room = room

    def check(self):
        return said_by(["rt", "check", "--jobs", "1"], self.at, self.room)

    def begin(self):
        """Checks the crate without an edit, over the work that is kept on it, and keeps the work. The result is the
        status and the lines of the check."""
        home = take(os.path.basename(self.at), "incremental", self.at)
        said = f"begins with the work in {os.path.relpath(home, TOP)}/out" if home else "is proved from nothing"
        print(f"{os.path.basename(self.at)} {said}", flush=True)
        status, lines = self.check()
        if status == 0:
            shutil.copytree(self.work, self.kept)
        return status, lines

    def check_with(self, texts):
        """Checks the crate with other texts of some files, and then puts all back. The result is the status and the
        lines of the check."""
        own = {path: self.text(path) for path in texts}
        self.write(texts)
        try:
            return self.check()
        finally:
            self.write(own)
            restore(self.work, self.kept)

    def text(self, path):
        return text_of(os.path.join(self.at, path))

    def sources(self):
        """The paths of the crate's sources."""
        return [f"src/{path}" for path in files_in(os.path.join(self.at, "src")) if path.endswith(".rt")]

    def write(self, texts):
        for path, text in texts.items():
            with open(os.path.join(self.at, path), "w", encoding="utf-8") as file:
                file.write(text)

    def end(self):
        """Builds the library for the crates above, and removes the work, which is large and which they don't need."""
        if os.path.isfile(os.path.join(self.at, "src", "lib.rt")):
            said_by(["rt", "lib", "--jobs", "1"], self.at, self.room)
        remove(self.work)
        remove(self.kept)


class Count:
    """How many edits of a run came to what, and how many are left."""

    def __init__(self, left, before):
        self.left, self.before, self.kinds = left, before, {}

    def add(self, kind, number=1):
        self.kinds[kind] = self.kinds.get(kind, 0) + number
        self.left -= number

    def refused(self):
        return self.kinds.get(REFUSED, 0)

    def __str__(self):
        others = [f"{number} {kind}" for kind, number in self.kinds.items() if kind != REFUSED]
        before = [f"{self.before} refused before, as all is now"] * (self.before > 0)
        return ", ".join([f"{self.kinds.get(REFUSED, 0)} edits refused", *others, *before, f"{self.left} left"])


class Tries:
    """The tries of a crate's edits. Each is printed, counted and kept as it comes."""

    def __init__(self, here, count):
        self.here, self.count = here, count
        self.crate = os.path.basename(here.at)
        self.results = Results(self.crate)
        self.unique = unique_names(map(here.text, here.sources()))
        # The names of the edits that came to each kind.
        self.names = {}

    def tell(self, path, kind, shown, seconds):
        name = os.path.basename(path)[: -len(".edit")]
        self.count.add(kind)
        self.names.setdefault(kind, []).append(name)
        spent = f"{seconds:.0f} seconds, {self.count.left} left"
        print(f"{time.strftime('%H:%M:%S')} {self.crate}/{name}: {kind}: {shown.strip()[:200]} ({spent})", flush=True)
        if kind == REFUSED:
            self.results.keep(path)

    def one(self, path):
        """Tries an edit alone."""
        begun, (texts, why) = time.monotonic(), edited(self.crate, path)
        kind, shown = came_to(*self.here.check_with(texts), texts) if texts else (BAD, why)
        self.tell(path, kind, shown, time.monotonic() - begun)

    def group(self, group):
        """Tries edits of different functions in one check, or in two halves if the check says nothing. The result is
        the paths of those that aren't shown to be refused."""
        if len(group) < 2:
            return [body.path for body in group]
        begun, texts = time.monotonic(), texts_with(group, self.here.text)
        print(f"{time.strftime('%H:%M:%S')} {self.crate}: {len(group)} edits in one check", flush=True)
        refused = refused_of(group, *self.here.check_with(texts), texts)
        if refused is None:
            middle = len(group) // 2
            return self.group(group[:middle]) + self.group(group[middle:])
        spent = (time.monotonic() - begun) / len(group)
        for path, shown in refused.items():
            self.tell(path, REFUSED, shown, spent)
        return [body.path for body in group if body.path not in refused]

    def body(self, path):
        """The edit as a change of one function, if it is one."""
        return edited_body(self.crate, path, self.here.text, self.unique)


def try_edits(here, paths, count):
    """Tries edits of a crate, and returns the names of those that came to each kind."""
    tries = Tries(here, count)
    bodies = [body for body in map(tries.body, paths) if body]
    alone = [path for path in paths if path not in {body.path for body in bodies}]
    for group in together(bodies):
        alone += tries.group(group)
    for path in alone:
        tries.one(path)
    return tries.names


def try_crate(crate, paths, copy, room, count):
    """Tries edits of a crate, prints what came of them, and counts them."""
    begun, here = time.monotonic(), Room(crate, copy, room)
    print(f"== {crate}: {len(paths)} edits, from {time.strftime('%H:%M')}", flush=True)
    status, lines = here.begin()
    if status != 0:
        print(f"{crate} is not proved without an edit:", *lines[-8:], sep="\n  ", flush=True)
        count.add(NOT_TRIED, len(paths))
        return
    print(f"{crate} is proved without an edit after {time.monotonic() - begun:.0f} seconds", flush=True)
    names = try_edits(here, paths, count)
    here.end()
    for kind, found in names.items():
        print(f"{crate}: {len(found)} {kind}: {' '.join(found)}", flush=True)
    marked = [os.path.basename(path)[: -len(".edit")] for path in paths if is_untried(path)]
    marked = [name for name in marked if name in names.get(REFUSED, [])]
    if marked:
        print(f"{crate}: take the line '{UNTRIED}' out of {' '.join(marked)}", flush=True)
    print(f"{crate}: done in {time.monotonic() - begun:.0f} seconds", flush=True)


def left_to_try(crate, anew, untried_alone):
    """The edits of a crate that a run has to try, and the number of those that it hasn't."""
    wanted = [path for path in repo.edits(crate, MORE) if is_untried(path) or not untried_alone]
    if not wanted or anew:
        return wanted, 0
    results = Results(crate)
    left = [path for path in wanted if not results.has(path)]
    return left, len(wanted) - len(left)


def try_all(crates, anew, untried_alone):
    """Tries the edits of crates, and returns the status."""
    asked = {crate: left_to_try(crate, anew, untried_alone) for crate in crates}
    wanted = {crate: paths for crate, (paths, _) in asked.items() if paths}
    whole = sum(map(len, wanted.values()))
    count = Count(whole, sum(before for _, before in asked.values()))
    print(f"edits to try: {whole}; crates: {' '.join(wanted) or 'none'}", flush=True)
    folder = tempfile.mkdtemp(prefix="more-edits-")
    try:
        copy, room = os.path.join(folder, "copy"), os.path.join(folder, "room")
        os.mkdir(room)
        copy_crates(list(wanted), copy)
        for crate, paths in wanted.items():
            try_crate(crate, paths, copy, room, count)
    except Interrupted:
        print(f"\ninterrupted: {count}", flush=True)
        return 130
    finally:
        remove(folder)
    print(count, flush=True)
    return 0 if count.refused() == whole else 1


def main(words):
    names = [word for word in words if not word.startswith("-")]
    options = {word for word in words if word.startswith("-")}
    every = repo.with_used(CRATES, CRATES)
    if options - {"--anew", "--untried", "--apply-only"} or set(names) - set(every):
        print(__doc__.strip(), file=sys.stderr)
        return 2
    crates = [crate for crate in every if not names or crate in names]
    for number in SIGNALS:
        signal.signal(number, interrupt)
    try:
        applied, faults = apply_all(crates)
        if "--apply-only" in options:
            print(f"{applied} passed, {faults} failed")
            return 1 if faults else 0
        return max(try_all(crates, "--anew" in options, "--untried" in options), 1 if faults else 0)
    except Interrupted:
        return 130


if __name__ == "__main__":
    sys.exit(main(sys.argv[1:]))
