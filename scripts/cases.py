"""The cases of crates/script_cases/data and the tests, for scripts/run-wrong and scripts/check-edits."""
import pathlib
import re

CRATES = pathlib.Path(__file__).resolve().parent.parent / "crates"
DATA = CRATES / "script_cases/data"


def cases_of(file):
    """The titles and texts of a file's cases, each by itself, after what stands before the first and after the lists that it may use."""
    lists, head, found = [], [], []
    for section in re.split(r"(?m)^(?=%)", file.read_text(encoding="utf-8")):
        if section.startswith("%%"):
            found.append((section.split("\n", 1)[0][2:].strip(), len(lists), [section]))
        elif section.startswith("% list "):
            lists.append(section)
        else:
            (found[-1][2] if found else head).append(section)
    return [(title, "".join([*lists[:count], *head, *sections])) for title, count, sections in found]


def is_there(place):
    """Whether a place of the form `FILE.cases: TITLE`, `CRATE/FILE.rt: TEST` or `scripts/NAME` is that of a case, a test or a script."""
    file, _, name = place.partition(": ")
    if file.startswith("scripts/"):
        return (CRATES.parent / file).is_file()
    if file.endswith(".cases"):
        return (DATA / file).is_file() and any(title == name for title, _ in cases_of(DATA / file))
    source = CRATES / file.replace("/", "/src/", 1)
    return source.suffix == ".rt" and source.is_file() and f"#[test]\nfn {name}(" in source.read_text(encoding="utf-8")
