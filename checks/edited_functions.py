"""Which edits of a crate can be tried in one check, and which of them the prover refuses then.

Each function is proved against the contracts of those that it calls, whatever their bodies are. So edits of the bodies
of different functions can be tried together: an edit is refused if the prover complains of its own function.
"""

import collections
import os
import re

# The head of a function, with its indentation and its name.
HEAD = re.compile(r"( *)(?:pub(?:\([a-z ]+\))? )?(?:const )?(?:extern \"C\" )?fn (\w+)")

# The head of an impl, with its trait, if it has one, and its type.
IMPL = re.compile(r"impl(?:<.*?>)? (?:(?P<of>[\w:]+)(?:<.*?>)? for )?(?P<type>[\w:]+)")


class Body:
    """An edit that changes lines of one function alone, but for functions that it adds."""

    def __init__(self, path, file, name, lines):
        self.path, self.file, self.name = path, file, name
        # What names the function to the prover.
        self.place = ""
        # The numbers of its first and last line.
        self.first, self.last = lines
        # The changed lines, by their numbers, and the words that they hold and did not hold before.
        self.changed, self.words = {}, set()
        # Where the proofs of the file's functions stand, each in a folder of its name. A method's proof may stand below
        # the file that defines its type, so its name alone counts if no other function of the crate has it.
        self.proofs = "proofs" + re.sub(r"(/lib|/main)?\.rt$", "", file.removeprefix("src")) + "/"
        self.is_unique = False

    def has(self, file, line, said=""):
        """Whether a place that the prover names belongs to the function: a line of it, or a file of its proof. The file
        of a cycle of calls belongs to it if what is said there names a goal of the function."""
        if file == self.file:
            return self.first <= line <= self.last
        folder, _, _ = file.rpartition("/")
        is_near = folder.startswith("proofs/" if self.is_unique else self.proofs)
        is_near = is_near or f"{folder}/".endswith(f"/{self.place.replace('::', '/')}/")
        whose = os.path.basename(folder)
        is_of_cycle = whose.startswith("+") and re.search(rf"`(?:\S*::)?{self.name}-", said)
        return is_near and (whose.removeprefix("+") == self.name or bool(is_of_cycle))

    def is_apart_from(self, other):
        """Whether both can be tried together: it can be told of which function a complaint is, and neither edit calls
        the other function anew, since a cycle of calls is a fault of each function in it."""
        pairs = (self, other), (other, self)
        if self.name == other.name and any(one.proofs.startswith(two.proofs) for one, two in pairs):
            return False
        return not any(one.name in two.words for one, two in pairs)


def functions(text):
    """The functions of a file: the name of each, and its first and last line, from 1 on."""
    lines, found = text.split("\n"), []
    for number, line in enumerate(lines, 1):
        head = HEAD.match(line)
        if head:
            ends = (at for at in range(number, len(lines) + 1) if lines[at - 1] == head[1] + "}")
            found.append((head[2], (number, next(ends, number))))
    return found


def module_of(file):
    """The module that a file of src/ is, by its path below the crate. It is empty for the crate's root and for another
    file."""
    path = re.sub(r"(/mod)?\.rt$", "", file)
    return "" if path in ("src/lib", "src/main") or not path.startswith("src/") else path[4:].replace("/", "::")


def place_of(file, text, first, name):
    """What names the function of this name that begins at a line: its module and its name, or its type and its name,
    since a type may be of another module. If the head of its impl takes several lines, or has a bound with an arrow, it
    is the module."""
    lines, module = text.split("\n"), module_of(file)
    heads = [line for line in lines[: first - 1] if line.startswith("impl")]
    if not lines[first - 1].startswith(" ") or not heads:
        return "::".join(part for part in (module, name) if part)
    head = IMPL.match(heads[-1])
    if not head:
        return module
    return head["type"].rpartition("::")[2] + (head["of"] or "").rpartition("::")[2] + "::" + name


def unique_names(texts):
    """The names that only one function of these texts has."""
    numbers = collections.Counter(name for text in texts for name, _ in functions(text))
    return {name for name, number in numbers.items() if number == 1}


def words(line):
    return set(re.findall(r"\w+", line))


def adds_function(old, new):
    """Whether a line of documentation is changed into a function that stands before it."""
    return old.startswith("///") and HEAD.match(new) is not None


def body_of(path, before, after):
    """The edit at a path as a change of one function, if it is one. It may add functions for this one to call. `before`
    and `after` are the texts of the files that it changes."""
    if len(after) != 1:
        return None
    file = next(iter(after))
    old, new = before[file].split("\n"), after[file].split("\n")
    if not file.startswith("src/") or len(old) != len(new):
        return None
    changed = {number: line for number, line in enumerate(new, 1) if old[number - 1] != line}
    inside = [number for number, line in changed.items() if not adds_function(old[number - 1], line)]
    for name, (first, last) in functions(before[file]):
        if inside and all(first <= number <= last for number in inside):
            body = Body(path, file, name, (first, last))
            body.place = place_of(file, before[file], first, name)
            body.changed = changed
            body.words = {word for number, line in changed.items() for word in words(line) - words(old[number - 1])}
            return body
    return None


def together(bodies):
    """The edits in groups, each of which can be tried in one check."""
    groups = []
    for body in bodies:
        fitting = (group for group in groups if all(body.is_apart_from(other) for other in group))
        group = next(fitting, None)
        if group is None:
            groups.append([body])
        else:
            group.append(body)
    return groups


def texts_with(group, before):
    """The texts of the files with all edits of a group."""
    texts = {body.file: before(body.file).split("\n") for body in group}
    for body in group:
        for number, line in body.changed.items():
            texts[body.file][number - 1] = line
    return {file: "\n".join(lines) for file, lines in texts.items()}
