"""The examples in doc comments, and the modules `examples` of the crate `callers` that the gate proves and tests."""
import re

from library import ROOTS, TOP

SOURCES = TOP / "crates" / "callers" / "src"
# The items that a caller meets first. Each has an example.
SHOWN = {
    "Builder",
    "LineQueue",
    "LogSink",
    "MakeWriter",
    "MemoryFolder",
    "NonBlockingBuilder",
    "RollingFile",
    "RollingFileAppender",
    "WorkerGuard",
    "daily",
    "non_blocking",
    "run_counted",
}
COMMENT = re.compile(r"^ *//[/!](?!/) ?(.*)$")
DECLARED = re.compile(r"\b(?:fn|struct|enum|trait|const(?! fn)|static|type|mod) (\w+)")
FENCE = "```"


def crates():
    """The two crates that a user names, and all crates of the repository below them."""
    lines = [it.split(":") for it in (TOP / "crates.txt").read_text().split("\n") if ":" in it and it[0] != "#"]
    below = {head.split()[0]: needs.split() for head, needs in lines}
    found, rest = [], list(ROOTS)
    while rest:
        name = rest.pop()
        if name in below and name not in found:
            found.append(name)
            rest += below[name]
    return sorted(found)


def module_name(item):
    """The name of the module with the example of an item: `rolling_file` for `RollingFile`."""
    return re.sub(r"(?<=[a-z0-9])(?=[A-Z])", "_", item).lower()


def comments(path):
    """The doc comments of a file: the line of each, what it is about, and its lines without the slashes."""
    lines = path.read_text().split("\n")
    at = 0
    while at < len(lines):
        first = at
        while at < len(lines) and COMMENT.match(lines[at]):
            at += 1
        if at > first:
            of_file = lines[first].lstrip().startswith("//!")
            name = path.stem if of_file else next((it[1] for it in map(DECLARED.search, lines[at:]) if it), "")
            yield first + 1, name, [COMMENT.match(it)[1] for it in lines[first:at]]
        at = max(at, first + 1)


def blocks(lines):
    """The text of each block of code in a doc comment. One that is not closed ends with a line that no module has."""
    found, block = [], None
    for line in lines:
        if not line.startswith(FENCE):
            if block is not None:
                block.append(line)
        elif block is None:
            block = []
        else:
            found.append(block)
            block = None
    return ["\n".join(it) + "\n" for it in found + ([block + [FENCE]] if block is not None else [])]


def modules(tally):
    """The code of each module of `examples`: what follows a line `//!` and an empty line."""
    names = set(re.findall(r"^(?:pub )?mod (\w+);", (SOURCES / "examples.rt").read_text(), re.M)) - {"tests"}
    files = {it.stem: it for it in (SOURCES / "examples").glob("*.rt") if it.stem != "tests"}
    tally.check(names == set(files), "callers: examples.rt does not name each file once")
    found = {}
    for name, path in files.items():
        head, _, code = path.read_text().partition("\n\n")
        tally.check(re.fullmatch(r"//! .*", head), f"{path.relative_to(TOP)}: does not begin with one line `//!`")
        found[name] = code
    return found


def check_examples(tally):
    """Checks that each example in a doc comment is the module of its item's name, and each module is one example."""
    code = modules(tally)
    seen = []
    for crate in crates():
        for path in sorted((TOP / "crates" / crate / "src").rglob("*.rt")):
            for line, item, lines in comments(path):
                for block in blocks(lines):
                    name = module_name(item)
                    place = f"{path.relative_to(TOP)}:{line}: the example of `{item}`"
                    tally.check(block == code.get(name), f"{place} is not the code of examples::{name}")
                    seen.append(item)
    for item in sorted(SHOWN | set(seen)):
        tally.check(seen.count(item) == 1, f"`{item}` has {seen.count(item)} examples in doc comments, not one")
    for name in sorted(code):
        count = [module_name(it) for it in seen].count(name)
        tally.check(count == 1, f"examples::{name} is in {count} doc comments, not in one")
