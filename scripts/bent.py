"""Which functions an edit bends, and what a check says of each function, for scripts/try-wrong."""
import pathlib
import re

import sources

# A goal's proof that fails since a proof file names what the edit took away: this says nothing of a contract.
NAMES = re.compile(r"is not in scope|has no field|has no `|was not admitted|can be named from here|no such (goal|name)|is no name")
# Goals with these beginnings are of the function's own contract. The others are of loops, of calls and of sums.
OWN = ("returns", "invariant_of")
FUNCTION = re.compile(r"fn ([^\s`]+?): (proved|not proved|no proof|could not tell|no holes|assumed)(.*)")
ERROR = re.compile(r"(?:\./)?(\S+?):(\d+):\d+: error(?:\[[\w-]+\])?: (?:`([^`]*)`: )?(.*)")
OPEN = re.compile(r"note: src/\S+?:\d+:\d+: it is not proved that .*?\(`([^`]+)`\)(.*)")
UNPROVED = re.compile(r"`search` did not prove ((?:`[^`]+`(?:, | and )?)+)")
WAITS = re.compile(r"it calls (.*?), which (?:is|are) not")
PROOF = re.compile(r"proofs/(.*)/(?:Answers|Invariants|Proof)\.antt$")
HEAD = re.compile(r"\s*(?:pub(?:\([^)]*\))? )?(?:const )?(?:unsafe )?(?:extern \"C\" )?fn (\w+)")
IMPL = re.compile(r"\s*(?:unsafe )?impl\b(?:<(?:[^<>]|<[^<>]*>)*>)?\s+(?:([\w:]+)(?:<.*?>)? for )?&?(?:mut )?([\w:]+)")
TRAIT = re.compile(r"\s*(?:pub )?(?:unsafe )?trait (\w+)")

CONTRACT, GOAL, LIMIT, NAME, PROVED = "contract", "another goal", "limit", "name", "not refused"


def indent(line):
    return len(line) - len(line.lstrip())


def owner(lines, at):
    """The type or trait in whose block a line stands, as checks write it."""
    for above in reversed(lines[:at]):
        if above.strip() and indent(above) < indent(lines[at]) and not above.lstrip().startswith(("//", "#")):
            of, trait = IMPL.match(above), TRAIT.match(above)
            if of:
                return [of[2].split("::")[-1] + (of[1].split("::")[-1] if of[1] else "")]
            if trait:
                return [trait[1]]
            if above.rstrip().endswith("{"):
                return []
    return []


def last_line(lines, at):
    """The line with which a function ends that begins at a line."""
    for end in range(at, len(lines)):
        if lines[end].rstrip().endswith("}") and indent(lines[end]) == indent(lines[at]) and (end > at or "{" in lines[end]):
            return end
    return len(lines) - 1


def functions_by_line(crate, path, text):
    """The function of each line of a file of code, and None where there is none."""
    lines = text.split("\n")
    module = path.removeprefix("src/").removesuffix(".rt").removesuffix("/mod").replace("/", "::")
    prefix = [crate] + ([] if module in ("lib", "main") else [module])
    names = [None] * len(lines)
    for at, line in enumerate(lines):
        found = HEAD.match(line)
        if found:
            end = last_line(lines, at)
            names[at:end + 1] = ["::".join([*prefix, *owner(lines, at), found[1]])] * (end + 1 - at)
    return names


def bent_by(crate, folder, edit):
    """The functions that an edit bends. None stands for what is outside of functions."""
    path, old, texts, found = "", "", {}, set()
    for line in sources.read(edit).split("\n"):
        key, _, value = line.partition(":")
        if key == "file":
            path = value.strip()
            texts.setdefault(path, sources.read(pathlib.Path(folder, path)))
        elif key == "old":
            old = value.removeprefix(" ")
        elif key == "new":
            start = texts[path].find(old) + indent(old)
            found.add(functions_by_line(crate, path, texts[path])[texts[path].count("\n", 0, start)])
            texts[path] = texts[path].replace(old, value.removeprefix(" "))
    return found


class Said:
    """What a check says: the verdict on each function, the goals of its own that failed, and the callees that it waits for."""

    def __init__(self, text):
        self.verdicts, self.goals, self.waits = {}, {}, {}
        in_proofs, above = {}, []
        for line in text.split("\n"):
            error, is_open, function = ERROR.match(line), OPEN.match(line), FUNCTION.match(line)
            proof = error and PROOF.match(error[1])
            if proof:
                in_proofs.setdefault(proof[1], []).append((NAME if NAMES.search(error[4]) else GOAL, error[3] or "?"))
            elif is_open:
                above.append((LIMIT if "at one of its limits" in is_open[2] or "ran out" in is_open[2] else GOAL, is_open[1]))
            elif function:
                self.take(function, above)
                above = []
        for name in self.verdicts:
            self.goals[name] += in_proofs.get(name.partition("::")[2].replace("::", "/"), [])

    def take(self, function, above):
        name, self.verdicts[function[1]], rest = function.groups()
        known, more, waits = {goal for _, goal in above}, UNPROVED.search(rest), WAITS.search(rest)
        others = re.findall(r"`([^`]+)`", more[1]) if more else []
        self.goals[name] = [*above, *((GOAL, it) for it in others if it not in known)]
        self.waits[name] = set(re.findall(r"`([^`]+)`", waits[1])) if waits else set()

    def names_of(self, function):
        """The names under which a check speaks of a function: its own, and those of what it makes of its closures."""
        crate, _, path = function.partition("::")
        parts = path.split("::")
        inner = ["::".join([crate, *parts[:cut], "fn", *parts[cut:]]) for cut in range(len(parts))]
        return [it for it in self.verdicts if it == function or any(it == name or it.startswith((name + "::", name + "+")) for name in inner)]

    def known(self, function):
        """The name that checks give a function: that of a trait's block says more, and that of a type has the type's module."""
        if not function or self.names_of(function):
            return function
        head, _, last = function.rpartition("::")
        owner = head.rpartition("::")[2]
        for like in (lambda it: it.startswith(head), lambda it: f"::{owner}::" in it):
            found = [it for it in self.verdicts if it.endswith("::" + last) and like(it)]
            if len(found) == 1:
                return found[0]
        return function

    def waited_for(self, functions):
        """All functions that some functions wait for, through what stands between."""
        found, waiting = set(), [it for function in functions for it in self.names_of(function)]
        while waiting:
            new = self.waits.get(waiting.pop(), set()) - found
            found |= new
            waiting += new
        return found

    def kind(self, functions):
        """At what some bent functions failed. None: nothing is known."""
        names = [it for function in functions if function for it in self.names_of(function)]
        goals = [it for name in names for it in self.goals[name]]
        real = [goal for kind, goal in goals if kind == GOAL]
        if real:
            return CONTRACT if any(it.startswith(OWN) for it in real) else GOAL
        if any(kind == LIMIT for kind, _ in goals):
            return LIMIT
        if any(self.waits[it] for it in names):
            return None
        if any(kind == NAME for kind, _ in goals):
            return NAME
        return PROVED if names and all(self.verdicts[it] == "proved" for it in names) else None
