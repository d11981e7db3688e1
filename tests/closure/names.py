#!/usr/bin/env python3
"""Fails for each name that two definitions have, or a definition and a type of Rust that it is not the model of.

    tests/closure/names.py

Definitions are the public ones of crates/*/specs: `abbrev pub`, `unfoldable pub`, `pub record`, `pub data`. A `pub use`
defines nothing. Types are the public ones of the libraries. The types of tests and measurements don't count: no
contract of a library names them. A definition is the model of a type if that type's `ghost Value` begins with its name, or
if `MODELS` has it. The last line is `N passed, M failed`: each name is one case.
"""
import collections
import pathlib
import re
import sys

from run import DEFINITION, SPECS, TOP

TYPE = re.compile(r"^ *pub (?:struct|enum|trait|type) (\w+)", re.M)
VALUE = re.compile(r"^impl\b[^{]*?\bModel for (\w+)[^{]*\{.*?^ *ghost Value = \{ *(\w+)", re.M | re.S)
# Crates of tests and measurements.
TESTS = re.compile(r"acceptance_\w+|bench|callers|refusals")
# Definitions that are what a type of their name is, though not by a `ghost Value`.
MODELS = {
    "Plan": "the type's steps as lists; `plan_of` leads from the type to the definition",
}


def library_sources():
    for path in sorted((TOP / "crates").glob("*/src/**/*.rt")):
        crate = path.relative_to(TOP / "crates").parts[0]
        if not TESTS.fullmatch(crate):
            yield path, path.read_text()


def compare():
    """Reports each name with more than one meaning, and returns how many there are."""
    definitions, types, models = collections.defaultdict(list), collections.defaultdict(list), set(MODELS)
    for module, specs in SPECS.items():
        for name in specs.texts:
            definitions[name].append(module.removeprefix("Rattle."))
    for path, text in library_sources():
        for name in TYPE.findall(text):
            types[name].append(str(path.relative_to(TOP)))
        models.update(kind for kind, value in VALUE.findall(text) if kind == value)
    passed = failed = 0
    for name, modules in sorted(definitions.items()):
        others = types[name] if name in types and name not in models else []
        if len(modules) + len(others) == 1:
            passed += 1
        else:
            failed += 1
            print(f"{name}: {', '.join(modules + others)}")
    print(f"{passed} passed, {failed} failed")
    return failed


if __name__ == "__main__":
    sys.exit(compare() > 0)
