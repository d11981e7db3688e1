#!/usr/bin/env python3
"""Counts the definitions that a contract stands on, and compares the counts with docs/PROMISES.md.

    tests/closure/run.py                              compares the first table of docs/PROMISES.md
    tests/closure/run.py CRATE FUNCTION [CLAUSE..]    prints the counts of a function, and of each of its clauses
    tests/closure/run.py --list CRATE FUNCTION [CLAUSE..]    lists the definitions too

The definitions are those that the function's `ensures` clauses name, those that these name, and so on, through the `use`
lines of the files. Definitions of std and of the kit's crates are not counted, and neither are types of `src`, which
contracts see as they are declared. Lines are counted with their comments, without `use` lines and empty lines.
FUNCTION is a name, or TYPE::NAME. The last line of a comparison is `N passed, M failed`.
"""
import pathlib
import re
import sys

TOP = pathlib.Path(__file__).resolve().parent.parent.parent
PROMISES = TOP / "docs" / "PROMISES.md"
# What a name of the specification language is made of.
WORD = re.compile(r"[^\s(){}\[\];,.]+")
DEFINITION = re.compile(r"^ *(?:(?:abbrev|unfoldable) pub|pub (record|data)) ([^\s:({]+)")
USE = re.compile(r"^ *(?:ghost )?use ([\w.]+?)(?:\.\{([^}]*)\})?(?: as (\S+?))?;?$", re.M)


def names_used(text):
    """What each name of a file's `use` lines stands for: a module, and a name in it."""
    found = {}
    for module, names, _ in USE.findall(text):
        for name in filter(None, (it.strip() for it in names.split(","))):
            there, _, here = name.partition(" as ")
            found[here or there] = (module, there)
    return found


class Specs:
    """The definitions of one file of specs/, each with its text and its number of lines."""

    def __init__(self, path):
        text = path.read_text()
        lines = text.split("\n")
        heads = [(i, m[2], m[1]) for i, line in enumerate(lines) if (m := DEFINITION.match(line))]
        self.module = "Rattle." + ".".join(path.relative_to(TOP / "crates").with_suffix("").parts)
        self.uses = names_used(text)
        self.texts, self.sizes, self.constructors = {}, {}, {}
        for (i, name, kind), (end, *_) in zip(heads, heads[1:] + [(len(lines),)]):
            while not lines[end - 1].strip() or lines[end - 1].lstrip().startswith("--") or lines[end - 1].startswith(("module", "use")):
                end -= 1
            body = [it for it in lines[i:end] if it.strip()]
            # The parameters of a module are part of each definition in it.
            module = [it for it in lines[:i] if it.startswith("module _")][-1:] if lines[i].startswith(" ") else []
            self.texts[name] = "\n".join(re.sub("--.*", "", it) for it in body + module)
            self.sizes[name] = len(body) + self.comment_before(lines, i)
            if kind == "data":
                for line in body[1:]:
                    self.constructors[line.split()[0]] = name

    @staticmethod
    def comment_before(lines, i):
        """How many lines of comment are right before line i. A heading of a section is none of them."""
        top = i
        while top and lines[top - 1].lstrip().startswith("--") and not lines[top - 1].startswith("-- ----"):
            top -= 1
        return i - top


SPECS = {it.module: it for it in map(Specs, sorted((TOP / "crates").glob("*/specs/**/*.antt")))}


def resolve(module, name):
    """The definition of this name in a module, if the repository has one."""
    specs = SPECS.get(module)
    if specs is None:
        return None
    name = specs.constructors.get(name, name)
    return (module, name) if name in specs.texts else None


def definitions_in(text, uses, module=None):
    """The definitions that a text names, by the names of its own module and by its file's `use` lines."""
    for word in set(WORD.findall(text)):
        found = resolve(module, word) or (word in uses and resolve(*uses[word]))
        if found:
            yield found


def closure(definitions):
    """These definitions, and all that they stand on."""
    seen, todo = set(), list(definitions)
    while todo:
        module, name = it = todo.pop()
        if it not in seen:
            seen.add(it)
            todo += definitions_in(SPECS[module].texts[name], SPECS[module].uses, module)
    return seen


def clauses_of(crate, function):
    """The `ensures` clauses of a function, each with its name and the definitions that it stands on."""
    owner, _, name = function.rpartition("::")
    found = []
    for path in sorted((TOP / "crates" / crate / "src").rglob("*.rt")):
        text = path.read_text()
        uses = names_used(text)
        head = re.compile(rf"^ *(?:pub )?fn {name}\b(?:<[^(]*>)?\(.*?(?:^ *\{{\n|;\n)", re.M | re.S)
        for signature in head.finditer(text):
            owners = re.findall(r"^impl[^{]*?(\w+)(?:<[^{]*>)? *\{", text[: signature.start()], re.M)
            if owner and owners[-1:] != [owner]:
                continue
            clauses = re.findall(r"ensures\*? ?(\w*) ?\{(.*?)\}\s*(?=ensures|requires|;|\{\n|$)", signature[0], re.S)
            found += [(clause, closure(definitions_in(body, uses))) for clause, body in clauses]
    return found


def counts(definitions):
    return len(definitions), sum(SPECS[module].sizes[name] for module, name in definitions)


def of_functions(crate, cell):
    """The definitions of a cell of the table: functions in backticks, each with its clauses after a colon, if not all."""
    every = set()
    for function, only in re.findall(r"`([\w:]+?)(?:: ([\w, ]+))?`", cell):
        wanted = only.split(", ") if only else None
        found = [it for clause, it in clauses_of(crate, function) if wanted is None or clause in wanted]
        if not found:
            raise SystemExit(f"{PROMISES.name}: no clause of {crate}: {function} {only}")
        every = every.union(*found)
    return every


def compare():
    """Compares each row of the table with what is counted, and returns how many rows agree and how many don't."""
    row = re.compile(r"^\| [^|]+ \| `(\w+)` \| ([^|]+) \| (\d+) \| (\d+) \|$", re.M)
    passed = failed = 0
    for crate, functions, *figures in row.findall(PROMISES.read_text()):
        got = counts(of_functions(crate, functions))
        if got == tuple(map(int, figures)):
            passed += 1
        else:
            failed += 1
            print(f"{crate}: {functions}: {got[0]} definitions, {got[1]} lines, where {PROMISES.name} has {' and '.join(figures)}")
    if not passed + failed:
        raise SystemExit(f"{PROMISES.name} has no row to compare")
    print(f"{passed} passed, {failed} failed")
    return failed


def show(crate, function, only, lists):
    """Prints the counts of a function's clauses, or of these alone."""
    chosen = [(name, it) for name, it in clauses_of(crate, function) if not only or name in only]
    every = set().union(*(it for _, it in chosen))
    for name, definitions in chosen + [("all", every)]:
        print(f"{function} {name:16} {counts(definitions)[0]:4} definitions {counts(definitions)[1]:5} lines")
        for module in sorted({module for module, _ in definitions}) if lists else ():
            print("   ", module.removeprefix("Rattle."), "-", *sorted(it for at, it in definitions if at == module))


if __name__ == "__main__":
    words = [it for it in sys.argv[1:] if it != "--list"]
    if not words:
        sys.exit(compare() > 0)
    if len(words) < 2:
        sys.exit(__doc__)
    show(*words[:2], words[2:], "--list" in sys.argv)
