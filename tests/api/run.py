#!/usr/bin/env python3
"""Makes docs/API.md from the sources, or compares it with them.

    tests/api/run.py            compares docs/API.md with the sources
    tests/api/run.py --write    writes docs/API.md

The page has what a user of `tracing_appender` and `appender_log` reaches. A comparison also fails if a public item has
no doc comment, or if a line of the sources that declares one is not on the page. It finds these lines by their form
alone, without the reader that makes the page. It also fails if an example in a doc comment is not the text of a module
of `examples` of `crates/callers`. The last line of a comparison is `N passed, M failed`.
"""
import re
import sys
from collections import Counter

sys.dont_write_bytecode = True

from examples import check_examples
from library import TOP, TYPES, Library
from page import page

PAGE = TOP / "docs" / "API.md"
HEADING = re.compile(r"^##? (.*)$", re.M)
DECLARED = re.compile(r" *pub (?:const (?=fn )|unsafe )?(?:fn|struct|enum|trait|const|static|type) (\w+)")
# What declares a part of a trait, of an enum or of a struct.
PART = {
    "trait": re.compile(r"    (?:fn|type|ghost(?! use)) (\w+)"),
    "enum": re.compile(r"    ([A-Z]\w*)"),
    "struct": re.compile(r"    pub (\w+):"),
}


class Tally:
    def __init__(self):
        self.passed = self.failed = 0

    def check(self, holds, why):
        if holds:
            self.passed += 1
        else:
            self.failed += 1
            print(why)


def place(module, line):
    return f"{module.path.relative_to(TOP)}:{line}"


def compare(tally, parts):
    """Compares each section of the page."""
    text = PAGE.read_text() if PAGE.exists() else ""
    at = [it.start() for it in HEADING.finditer(text)]
    there = {HEADING.match(it)[1]: it.rstrip("\n") for it in (text[i:j] for i, j in zip(at, at[1:] + [len(text)]))}
    for name in {**parts, **there}:
        made = parts.get(name, "").rstrip("\n")
        why = f"{PAGE.name}, {name}: not as in the sources; tests/api/run.py --write makes it anew"
        tally.check(there.get(name, "") == made, why)


def check_documentation(tally, library):
    """Checks that each item of the page, each public function of a type and each function of a trait is documented."""
    for module, _ in library.pages.values():
        tally.check(module.docs, f"{place(module, 1)}: the module has no doc comment")
    for item in library.described():
        members = library.members_of(item) if item.kind in TYPES else []
        for it in [item] + [it for it in members if it.kind != "ghost"]:
            tally.check(it.docs, f"{place(it.module, it.line)}: `{it.name}` has no doc comment")


# ---- the lines that declare something, by their form alone


def form(line):
    """What a declaration's first line has in common with that of the page."""
    return re.split(r" = | \{|;|,$", line.strip())[0]


def owner_of(head):
    """The type of an `impl`, from its text up to the bracket."""
    while "<" in head:
        head, count = re.subn(r"<[^<>]*>", "", head.replace("->", ""))
        if not count:
            break
    return re.findall(r"\b(?:impl|for) +&?(?:mut )?(?:\w+::)*(\w+)", head)[-1]


def declared(module):
    """The public declarations of a file: the number and text of each line, its name, and its type if it has one."""
    lines = module.text.split("\n")
    owner = kind = None
    for number, line in enumerate(lines, 1):
        if line.startswith("impl"):
            owner, kind = owner_of(module.text.split("\n", number - 1)[-1].split("{")[0]), None
        elif match := DECLARED.match(line):
            name = match[1]
            if not line.startswith(" "):
                owner, kind = name, re.match(r"pub (\w+)", line)[1]
            yield number, line, name, owner
        elif kind in PART and (match := PART[kind].match(line)):
            yield number, line, match[1], owner
        if line.startswith("}"):
            owner = kind = None


def given_names(library, crate):
    """The names of a crate that are public: those in a `pub use`, and those that a public module declares."""
    names = set()
    for module in crate.all():
        for text in re.findall(r"^pub use ([^;]*);", module.text, re.M):
            names.update(re.findall(r"\w+", text))
        if any(module is it for it, _ in library.pages.values()):
            names.update(re.findall(r"^pub (?:fn|struct|enum|trait|const|static|type) (\w+)", module.text, re.M))
    return names


def check_lines(tally, library, text):
    """Checks that the page has a line for each line of the sources that declares what can be reached."""
    on_page = Counter(map(form, text.split("\n")))
    names = set().union(*(given_names(library, it) for it in library.crates.values()))
    reached = {it.root().name for it in (item.module for item in library.described())}
    for crate in (it for it in library.crates.values() if it.name in reached):
        for module in crate.all():
            for number, line, name, owner in declared(module):
                if owner not in names:
                    continue
                on_page[form(line)] -= 1
                tally.check(on_page[form(line)] >= 0, f"{place(module, number)}: `{name}` is not on the page")


def main():
    library = Library()
    parts = page(library)
    text = "\n".join(parts.values()).rstrip("\n") + "\n"
    if sys.argv[1:] == ["--write"]:
        PAGE.write_text(text)
        return 0
    if sys.argv[1:]:
        sys.exit(__doc__)
    tally = Tally()
    compare(tally, parts)
    check_documentation(tally, library)
    check_lines(tally, library, text)
    check_examples(tally)
    print(f"{tally.passed} passed, {tally.failed} failed")
    return int(tally.failed > 0)


if __name__ == "__main__":
    sys.exit(main())
