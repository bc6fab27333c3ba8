"""What scripts read of the sources: functions with their clauses, and the items of files in antt with what is said above them."""
import itertools
import re

FUNCTION = re.compile(r"(?m)^[ \t]*((?:pub(?:\(\w+\))? )?(?:const )?(?:unsafe )?(?:extern \"C\" )?fn \w+)")
CLAUSE = re.compile(r"\b(requires|ensures)( \w+)?\s*$")
DEFINITION = re.compile(r" *(?:(?:abbrev|unfoldable) pub|pub record|pub data) (\S+)")
ROW = re.compile(r"pub (\w+) :")
WORD = re.compile(r"[^\W\d][\w'-]*")
USED = re.compile(r"(?m)^\s*(?:pub )?(?:ghost )?use Rattle\.([\w.]+)\.\{(.*)\};?$")
# A module that a file gives a name of its own, and a word behind such a name.
MODULE_NAMED = re.compile(r"(?m)^\s*(?:ghost )?use Rattle\.([\w.]+) as (\w+);?$")
BEHIND = re.compile(r"\b(\w+)\.([^\W\d][\w'-]*)")
OWNER = re.compile(r"(?m)^(?:pub (trait)|impl)\b")
GHOST = re.compile(r"(?m)^[ \t]*((?:pub )?ghost \w+: \{.*)$")
TYPE = re.compile(r"(?m)^pub (?:struct|enum|trait) (\w+)")
HANDED = re.compile(r"(?m)^pub use crate::[\w:]+::\{?([\w, ]+)\}?;")
ENUM = re.compile(r"(?m)^pub enum (\w+)")
VARIANT = re.compile(r"(?m)^    ([A-Z]\w*)\b")
IMPORT = re.compile(r"(?m)^\s*(?:pub )?(?:ghost )?use .*")
# The words of the class table: a file that has one changes if classes depend on rules.
CLASS_WORDS = re.compile(r"\b(?:class_sizes|class_of|is_class_size|class_number)\b")
COMMENT = re.compile(r" *-- (.*?)(?<! ----)")
DIVIDER = re.compile(r" *-- .* -{4,}")
MODULE = re.compile(r"(?m)^pub mod (\w+)")
# What a type says of itself for the clauses of a trait. How its value is read, and what it keeps, are its own. So is the value
# of a type that no other crate can name.
GIVEN = re.compile(r"(?m)^[ \t]*(?:pub )?ghost (?!view\b|invariant\b)(\w+) = \{")


def read(path):
    return path.read_text(encoding="utf-8")


def layers(root):
    """The sections of crates.txt: each its comment and its crates with what they stand on."""
    found = []
    for line in read(root / "crates.txt").splitlines():
        if line.startswith("#"):
            found.append((line.strip("# ").rstrip("."), []))
        elif ":" in line:
            name, _, below = line.partition(":")
            found[-1][1].append((name.split()[0], below.split()))
    return found


def closing(text, at):
    """Where the brace that opens at a place is closed."""
    depth = 0
    for place in range(at, len(text)):
        depth += {"{": 1, "}": -1}.get(text[place], 0)
        if depth == 0:
            return place
    return len(text)


def signature(text, at):
    """A function from its name to its body."""
    place = at
    while place < len(text):
        if text[place] == ";" and text.count("[", at, place) == text.count("]", at, place):
            break
        if text[place] == "{":
            if not CLAUSE.search(text[at:place]):
                break
            place = closing(text, place)
        place += 1
    return text[at:place]


def parts(text):
    """The parts of a list that stand between its outer commas."""
    found, depth = [""], 0
    for sign in text:
        depth += {"{": 1, "}": -1}.get(sign, 0)
        if sign == "," and not depth:
            found.append("")
        else:
            found[-1] += sign
    return [it.strip() for it in found]


def brought(module, text):
    """What a list of imports in braces brings: pairs of a module and a name, maybe with its `as`."""
    for part in parts(text):
        path, brace, names = part.partition(".{")
        if brace:
            yield from brought(f"{module}.{path}", names[:-1])
        else:
            path, dot, name = part.rpartition(".")
            yield (f"{module}.{path}", name) if dot and path.strip(".") else (module, part)


def imports(text):
    """What the names that a file imports stand for: crate, path and name."""
    found = {}
    for module, names in USED.findall(text):
        for path, name in brought(module, names):
            first, _, other = name.partition(" as ")
            found[other or first] = f"{path}.{first}"
    return found


def without_parameters(head):
    """What stands after `impl` or `trait`, without the `<..>` of its parameters."""
    depth, place = 0, 0
    while head[place:place + 1] == "<" or depth:
        depth += {"<": 1, ">": -1}.get(head[place], 0)
        place += 1
    return head[place:]


def owners(text):
    """The public traits and the blocks of `impl`: which of them it is, of what, and where it begins and ends."""
    for found in OWNER.finditer(text):
        start = text.index("{", found.end())
        head = without_parameters(text[found.end():start].lstrip()).rpartition(" for ")[2]
        yield found[1] is not None, re.match(r"\s*(?:\w+::)*(\w+|\(\))", head)[1], found.start(), closing(text, start)


def without_hidden(head, clauses):
    """The clauses of a function without the names of its parameters, which hide imports. Names of clauses stay."""
    names = re.findall(r"[(,]\s*(?:mut )?(\w+):", head)
    return re.sub(rf"\b(?:{'|'.join(names)})\b(?! \{{)", "", clauses) if names else clauses


def calls(text):
    """The public calls of a file with their clauses, and types and traits with theirs."""
    blocks = list(owners(text))
    for found in FUNCTION.finditer(text):
        within = next((it for it in blocks if it[2] < found.start() < it[3]), None)
        if found[1].startswith("pub ") or within and within[0]:
            name = re.search(r"fn (\w+)", found[1])[1]
            said = signature(text, found.start(1))
            clauses = re.search(r"\b(?:requires|ensures)\b", said)
            if clauses:
                shown = without_hidden(said[:clauses.start()], said[clauses.start():])
                yield f"{within[1]}::{name}" if within else name, shown
    for found in TYPE.finditer(text):
        end = closing(text, text.find("{", found.end())) if "{" in text[found.end():] else found.end()
        ghosts = GHOST.findall(text[found.start():end])
        if ghosts:
            yield found[1], "\n".join(ghosts)


def is_public(path, top):
    """Whether a file of src/ can be named from another crate."""
    parts = path.relative_to(top).with_suffix("").parts if path != top / "lib.rt" else ()
    above = [top / "lib.rt", *(top.joinpath(*parts[:n]).with_suffix(".rt") for n in range(1, len(parts)))]
    return all(re.search(rf"(?m)^pub mod {part};", read(file)) for part, file in zip(parts, above) if file.exists())


def public_calls(crate):
    """The files of a crate's src/, each with those of its calls, types and traits that another crate can name."""
    top = crate / "src"
    files = {path: read(path) for path in sorted(top.rglob("*.rt"))}
    handed = {name.strip() for text in files.values() for names in HANDED.findall(text) for name in names.split(",")}
    named = {name for path, text in files.items() if is_public(path, top) for name in TYPE.findall(text)} | handed
    for path, text in files.items():
        found = [it for it in calls(text) if it[0].partition("::")[0] in named or "::" not in it[0] and is_public(path, top)]
        if found:
            yield path, text, found


def modules(file):
    """The modules that a file names, in its order."""
    return MODULE.findall(read(file))


def head_of_file(path):
    """What is said at the head of a file of code; a line with nothing ends a paragraph."""
    said = itertools.takewhile(lambda line: line.startswith("//!"), read(path).splitlines())
    return re.sub(r"(?<!\n)\n(?!\n)", " ", "\n".join(line[3:].strip() for line in said))


def head_of(crate):
    """What is said at the head of a crate's root file."""
    root = crate / "src" / "lib.rt"
    return head_of_file(root if root.exists() else root.with_name("main.rt"))


def variants(file, enum):
    """The variants of a public enum of a file."""
    text = read(file)
    start = next(it for it in ENUM.finditer(text) if it[1] == enum).end()
    return VARIANT.findall(text[start:closing(text, text.index("{", start))])


def without_comments(path):
    """What a file says, but for whole lines of comments and imports."""
    return IMPORT.sub("", re.sub(r"(?m)^\s*(?:--|//).*", "", read(path)))


class Item:
    """An item of a file in antt: its name, the lines of the comment right above it, and its own text."""

    def __init__(self, name, said):
        self.name, self.said, self.text = name, said, ""

    def is_closed(self):
        """Whether proofs see through it only where they say so."""
        return self.text.lstrip().startswith("unfoldable")


class Source:
    """A file in antt: the comment at its head, and its public items of a form. A divider stands in the list as None."""

    def __init__(self, path, form):
        self.items = []
        lines = read(path).splitlines()
        self.head = " ".join(said[1] for said in itertools.takewhile(bool, map(COMMENT.fullmatch, lines)))
        above = []
        for line in lines:
            found, said = form.match(line), COMMENT.fullmatch(line)
            if found:
                self.items.append(Item(found[1], above))
            elif DIVIDER.fullmatch(line):
                self.items.append(None)
            if self.items and self.items[-1] and not said:
                self.items[-1].text += line + "\n"
            above = [*above, said[1]] if said else []


def words_meant(text, file, own=()):
    """The definitions that words of a text stand for in a file, whose own are given. Some stand behind the name of a module."""
    meant = imports(file) | dict(own)
    named = {name: module for module, name in MODULE_NAMED.findall(file)}
    behind = {f"{named[name]}.{it}" for name, it in BEHIND.findall(text) if name in named}
    return {meant[it] for it in WORD.findall(text) if it in meant} | behind


def definitions(crate):
    """The definitions of a crate's specs/, each as crate, path and name, with its file and the definitions that it uses."""
    for path in sorted(crate.glob("specs/*.antt")):
        text, here = read(path), f"{crate.name}.specs.{path.stem}"
        items = [it for it in Source(path, DEFINITION).items if it]
        own = {it.name: f"{here}.{it.name}" for it in items}
        for item in items:
            yield f"{here}.{item.name}", path, words_meant(item.text, text, own)


def cited(crate):
    """The definitions that the public contracts of a crate name, and what its types give to those of traits."""
    found = set()
    for _, text, public in public_calls(crate):
        found |= words_meant("\n".join(said for _, said in public), text)
    top = crate / "src"
    for path in sorted(top.rglob("*.rt")):
        text, can_be_named = read(path), is_public(path, top)
        given = (text[it.end():closing(text, it.end() - 1)] for it in GIVEN.finditer(text) if can_be_named or it[1] != "Value")
        found |= words_meant("\n".join(given), text)
    return found
