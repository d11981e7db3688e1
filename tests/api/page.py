"""The text of docs/API.md."""
import re
import textwrap

from library import TYPES, page_order

WIDTH = 120
# The ghost members of a `Model` that only proofs see.
INNER_VIEW = ("view", "invariant", "inverse")

ABOUT = """Each public item has its documentation, its signature, and its contract (`requires` before a call, `ensures` after it). Left
out are bodies, private fields, proofs, and functions of a trait's `impl` without a contract or documentation of their own.
In a clause `x.now` is what a reference leads to, and `x.old` and `x.new` are what a `&mut` leads to before and after the
call. The names in it are defined in `specs/` of the crate in the table: [PROMISES](PROMISES.md) explains the main ones.
[CALLING](CALLING.md) shows how to name them.
"""
# What most programs use.
FIRST = "daily Builder FileAppender RollingFile NonBlockingBuilder NonBlocking WorkerGuard Losses LogSink InitError".split()
TAIL = "`tests/api/run.py --write` makes this page from the sources, and `.ci/run` compares it with them."


def first_sentence(docs):
    """The first sentence of a doc comment."""
    paragraph = []
    for line in docs:
        if not line and paragraph:
            break
        paragraph.append(line)
    text = " ".join(" ".join(paragraph).split())
    end = re.search(r"(?<!\.)[.!?](?=\s+[A-Z`(\"'])", text)
    return text[: end.end()] if end else text


def wrapped(text, mark=""):
    return textwrap.wrap(
        text, WIDTH, initial_indent=mark, subsequent_indent=mark, break_long_words=False, break_on_hyphens=False
    )


def entry(item, text, column=None):
    """An item after its documentation and attributes. It is indented as in the source, or to this column."""
    column = item.column if column is None else column
    indent = " " * column
    attributes = [indent + it for it in item.attributes if re.match(r"#\[(derive|must_use|error)\b", it)]
    return [f"{indent}/// {it}".rstrip() for it in item.docs] + attributes + (indent + text).split("\n")


def fields(members, column):
    """Those fields of a struct or variant that are public, and `..` if there are others."""
    lines = [line for it in members if it.public for line in entry(it, it.head + ",", column)]
    return lines if all(it.public for it in members) else lines + [" " * column + ".."]


def struct(item):
    if item.brackets == "(":
        return entry(item, item.head + "(" + ", ".join(it.head if it.public else ".." for it in item.members) + ");")
    if not item.brackets:
        return entry(item, item.head + ";")
    if not any(it.public for it in item.members):
        return entry(item, item.head + " { .. }")
    return entry(item, item.head + " {") + fields(item.members, 4) + ["}"]


def enum(item):
    lines = entry(item, item.head + " {")
    for it in item.members:
        if it.brackets == "{":
            lines += entry(it, it.head + " {", 4) + fields(it.members, 8) + ["    },"]
        else:
            lines += entry(it, it.head + ",", 4)
    return lines + ["}"]


def declaration(item):
    """A function, a constant, an alias or a ghost member."""
    if item.kind != "fn":
        return entry(item, item.head)
    return entry(item, item.head + (" { .. }" if item.has_body and item.in_trait else ";"))


def block(lines, members):
    """A trait or an `impl` with these members. Ghost members without documentation are next to each other."""
    if not members:
        return lines[:-1] + [lines[-1] + " { .. }"]
    lines, before = lines[:-1] + [lines[-1] + " {"], None
    for it in members:
        if before and not (before.kind == it.kind == "ghost" and not it.docs and not before.docs):
            lines.append("")
        lines += declaration(it)
        before = it
    return lines + ["}"]


def trait(item):
    return block(entry(item, item.head), [it for it in item.members if it.kind != "proofs"])


def impl(item):
    """An `impl` with what a caller sees of it. One without a trait and without public functions has no lines."""
    if not item.trait:
        members = [it for it in item.members if it.public]
        return block(entry(item, item.head), members) if members else []
    return block(entry(item, item.head), list(seen_members(item)))


def seen_members(item):
    """The members of a trait's `impl` that a caller sees. Ghost members after the `use` of a proof are proofs."""
    proofs = False
    for it in item.members:
        proofs = proofs or it.kind == "proofs"
        inner = proofs or item.trait == "Model" and it.name in INNER_VIEW
        if it.kind == "type" or it.kind == "ghost" and not inner or it.kind == "fn" and (it.has_clauses or it.docs):
            yield it


def code(blocks):
    """A block of code, with an empty line between its parts."""
    lines = []
    for it in filter(None, blocks):
        lines += ([""] if lines else []) + it
    return ["```rust"] + lines + ["```", ""]


def type_section(library, item, name):
    shown = {"struct": struct, "enum": enum, "trait": trait}.get(item.kind, declaration)
    return [f"### `{name}`", ""] + code([shown(item)] + [impl(it) for it in library.impls_of(item)])


def section(library, path):
    """All that a module has."""
    module, items = library.pages[path]
    own = {name: it for name, it in sorted(items.items()) if library.main_path(it) == (path, name)}
    lines = [f"## `{path}`", ""] + module.docs + [""]
    for name, it in own.items():
        if it.kind in TYPES:
            lines += type_section(library, it, name)
    for title, kinds in (("Functions", ("fn",)), ("Constants", ("const", "static"))):
        chosen = [declaration(it) for it in own.values() if it.kind in kinds]
        if chosen:
            lines += [f"### {title}", ""] + code(chosen)
    others = {name: "::".join(library.main_path(it)) for name, it in items.items() if name not in own}
    others.update(library.foreign.get(path, {}))
    if others:
        links = ", ".join(f"`{name}` (`{there}`)" for name, there in sorted(others.items()))
        lines += wrapped(f"Items of other modules that are also here: {links}.") + [""]
    return lines


def first_items(library):
    """What most programs use."""
    items = {name: (path, it) for it in library.described() for path, name in [library.main_path(it)] if name in FIRST}
    links = [(f"[`{name}`](#{items[name][0].replace(':', '')})", items[name][1]) for name in FIRST]
    return ["Most programs need ten items:", "", *(f"- {link}: {first_sentence(it.docs)}" for link, it in links), ""]


def index(library):
    """The modules with their crates, and a line for each type, trait, function and constant that is described under them."""
    lines = []
    for path in sorted(library.pages, key=page_order):
        lines += [f"**[`{path}`](#{path.replace(':', '')})**, in `{library.pages[path][0].crate}`", ""]
        items = {library.main_path(it)[1]: it for it in library.described() if library.main_path(it)[0] == path}
        lines += [f"- `{name}`: {first_sentence(it.docs)}" for name, it in sorted(items.items())] + [""]
    return lines + [TAIL, ""]


def page(library):
    """The parts of the page, each under the text of its heading."""
    parts = {"API": ["# API", ""] + first_items(library) + ABOUT.split("\n") + index(library)}
    for path in sorted(library.pages, key=page_order):
        parts[f"`{path}`"] = section(library, path)
    return {name: "\n".join(lines) for name, lines in parts.items()}
