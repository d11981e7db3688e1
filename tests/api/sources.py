"""Reads the sources of a crate: its modules, and in each the items as they are declared, without their bodies."""
import re

TOKEN = re.compile(
    r"""(?P<space>\s+)
      | (?P<doc>///(?!/)[^\n]*)
      | (?P<inner>//![^\n]*)
      | (?P<comment>//[^\n]*|/\*.*?\*/)
      | (?P<string>b?r(?P<hashes>\#*)".*?"(?P=hashes)|b?"(?:\\.|[^"\\])*")
      | (?P<char>b?'(?:\\(?:x..|u\{\w+\}|.)|[^'\\\n])')
      | (?P<lifetime>'\w+)
      | (?P<word>\w+)
      | (?P<arrow>->|=>)
      | (?P<sign>.)""",
    re.X | re.S,
)
CLOSING = {"{": "}", "(": ")", "[": "]"}


class Token:
    def __init__(self, kind, text, start):
        self.kind, self.text, self.start, self.end = kind, text, start, start + len(text)
        # The index of the bracket that closes this one.
        self.closing = None


def tokens_of(path, text):
    """The tokens of a text, without white space and comments that document nothing."""
    found, open_ones = [], []
    for match in TOKEN.finditer(text):
        kind = match.lastgroup if match.lastgroup != "hashes" else "string"
        if kind in ("space", "comment"):
            continue
        token = Token(kind, match[0], match.start())
        if kind == "sign" and token.text in CLOSING:
            open_ones.append(len(found))
        elif kind == "sign" and token.text in CLOSING.values():
            if not open_ones or CLOSING[found[open_ones[-1]].text] != token.text:
                raise SystemExit(f"{path}:{text.count(chr(10), 0, token.start) + 1}: `{token.text}` closes nothing")
            found[open_ones.pop()].closing = len(found)
        found.append(token)
    if open_ones:
        raise SystemExit(f"{path}:{text.count(chr(10), 0, found[open_ones[-1]].start) + 1}: a bracket is not closed")
    return found


def text_of(comment):
    """A line of documentation, which keeps its indentation."""
    return comment.text[3:].removeprefix(" ").rstrip()


class Item:
    """A declaration: its kind, name and visibility, its documentation, and its text as it is in the source."""

    def __init__(self, module, kind, name, docs, attributes, public):
        self.module, self.kind, self.name = module, kind, name
        self.docs, self.attributes, self.public = docs, attributes, public
        self.line = self.column = 0
        # The text without body and documentation; the parts of a type, a trait or an impl; whether it has clauses.
        self.head, self.members, self.has_clauses = "", [], False
        # Of a function: whether it has a body, and whether it is a trait's.
        self.has_body = self.in_trait = False
        # Of a field or a variant: the fields of a variant, and the brackets that they are in.
        self.brackets = ""
        # Of an impl: the names of its type and of its trait, and those that the trait is applied to.
        self.owner, self.trait, self.arguments = "", "", ()


class Module:
    """A module of a crate, with its items, its modules by name, and what it gives under other paths."""

    def __init__(self, crate, name, path, parent, public):
        self.crate, self.name, self.path, self.parent, self.public = crate, name, path, parent, public
        self.text = path.read_text()
        self.items, self.modules, self.exports = [], {}, []
        Reader(self).read_module()

    def root(self):
        return self.parent.root() if self.parent else self

    def all(self):
        """This module and all below it."""
        yield self
        for it in self.modules.values():
            yield from it.all()

    def child_path(self, name):
        folder = self.path.parent if self.parent is None else self.path.with_suffix("")
        return folder / f"{name}.rt"


class Reader:
    """Reads the items of one file."""

    def __init__(self, module):
        self.module, self.text = module, module.text
        self.tokens = tokens_of(module.path, module.text)
        self.at = 0

    # ---- tokens

    def is_at(self, text, ahead=0):
        at = self.at + ahead
        return at < len(self.tokens) and self.tokens[at].kind != "string" and self.tokens[at].text == text

    def fail(self, why):
        line = self.text.count("\n", 0, self.tokens[min(self.at, len(self.tokens) - 1)].start) + 1
        raise SystemExit(f"{self.module.path}:{line}: {why}")

    def next_word(self):
        self.at += 1
        return self.tokens[self.at - 1].text

    def skip(self):
        """Goes past one token, or past all that is in brackets."""
        closing = self.tokens[self.at].closing
        self.at = (closing if closing is not None else self.at) + 1

    def skip_to(self, *ends):
        """Goes to the next of these signs that is in no brackets."""
        while not any(map(self.is_at, ends)):
            self.skip()

    def slice(self, first, end):
        """The text from one token up to another, which is left out."""
        return self.text[self.tokens[first].start : self.tokens[end - 1].end]

    # ---- what is before an item

    def outer(self):
        """The documentation and the attributes before an item."""
        docs, attributes = [], []
        while self.at < len(self.tokens):
            token = self.tokens[self.at]
            if token.kind == "doc":
                docs.append(text_of(token))
                self.at += 1
            elif token.kind == "inner":
                self.at += 1
            elif self.is_at("#") and self.is_at("[", 1):
                first = self.at
                self.at += 1
                self.skip()
                attributes.append(self.slice(first, self.at))
            elif self.is_at("#") and self.is_at("!", 1):
                self.at += 2
                self.skip()
            else:
                break
        return docs, attributes

    def visibility(self):
        """Whether an item is public. One that only a part of its crate sees isn't."""
        if not self.is_at("pub"):
            return False
        self.at += 1
        if self.is_at("("):
            self.skip()
            return False
        return True

    # ---- items

    def read_module(self):
        module = self.module
        module.docs = [text_of(it) for it in self.tokens if it.kind == "inner"]
        while self.at < len(self.tokens):
            item = self.item()
            if item is not None:
                module.items.append(item)

    def item(self):
        """Reads one item. `None` if it is none of those that a page shows, or only of tests."""
        docs, attributes = self.outer()
        if self.at == len(self.tokens):
            return None
        first = self.at
        public = self.visibility()
        item = self.declared(public, docs, attributes)
        is_test = any(re.match(r"#\[(cfg\(test\)|test)", it) for it in attributes)
        if item is None or is_test:
            return None
        start = self.tokens[first].start
        item.line = self.text.count("\n", 0, start) + 1
        item.column = start - (self.text.rfind("\n", 0, start) + 1)
        return item

    def declared(self, public, docs, attributes):
        first = self.at - (1 if public else 0)
        if self.is_at("const") and self.is_at("fn", 1) or self.is_at("unsafe"):
            self.at += 1
        kind = self.next_word()
        item = lambda name: Item(self.module, kind, name, docs, attributes, public)
        if kind == "ghost":
            return self.ghost(first, item)
        if kind == "use":
            return self.use(public)
        if kind == "mod":
            return self.mod(public, attributes)
        if kind == "impl":
            return self.impl(first, item(""))
        if kind == "macro_rules":
            return self.skip_to("{", "(", "[") or self.skip()
        if kind in ("struct", "enum", "trait", "fn", "const", "static", "type"):
            return getattr(self, f"read_{kind}")(first, item(self.next_word()))
        self.at -= 1
        return self.fail(f"`{kind}` begins no item that this script knows")

    def ghost(self, first, item):
        """A ghost member. Lines `ghost use` are left out."""
        name = self.next_word()
        self.skip_to(";")
        self.at += 1
        made = None if name == "use" else item(name)
        if made:
            made.head = self.slice(first, self.at)
        elif re.search(r"\.proofs\.", self.slice(first, self.at)):
            made = Item(self.module, "proofs", "", [], [], False)
        return made

    def use(self, public):
        first = self.at
        self.skip_to(";")
        if public:
            self.module.exports += use_paths(self.tokens[first : self.at])
        self.at += 1

    def mod(self, public, attributes):
        name = self.next_word()
        if not self.is_at(";"):
            if not any(it.startswith("#[cfg(test)") for it in attributes):
                self.fail("this script reads a module in a file of its own only")
            self.skip_to("{")
            self.skip()
            return
        self.at += 1
        if not any(it.startswith("#[cfg(test)") for it in attributes):
            module = self.module
            module.modules[name] = Module(module.crate, name, module.child_path(name), module, public)

    def read_fn(self, first, item):
        while not self.is_at("{") and not self.is_at(";"):
            if self.is_at("ensures") or self.is_at("requires"):
                item.has_clauses = True
                self.skip_to("{")
            self.skip()
        item.head = self.slice(first, self.at)
        item.has_body = self.is_at("{")
        self.skip()
        return item

    def read_type(self, first, item):
        self.skip_to(";")
        item.head = self.slice(first, self.at) + ";"
        self.at += 1
        return item

    def read_const(self, first, item):
        """A constant, whose value is left out if it is a struct's."""
        self.skip_to("=", ";")
        item.head = self.slice(first, self.at)
        value = self.at
        self.skip_to(";")
        if value != self.at:
            item.head += " " + ("= ..;" if "{" in self.slice(value, self.at) else self.slice(value, self.at) + ";")
        else:
            item.head += ";"
        self.at += 1
        return item

    read_static = read_const

    def read_struct(self, first, item):
        self.skip_to("{", "(", ";")
        item.head = self.slice(first, self.at)
        if not self.is_at(";"):
            item.brackets = self.tokens[self.at].text
            item.members = self.parts(self.field)
        if self.is_at(";"):
            self.at += 1
        return item

    def read_enum(self, first, item):
        self.skip_to("{")
        item.head = self.slice(first, self.at)
        item.members = self.parts(self.variant)
        return item

    def parts(self, read):
        """The fields or variants in the brackets here."""
        end = self.tokens[self.at].closing
        self.at += 1
        found = []
        while self.at < end:
            docs, attributes = self.outer()
            found.append(read(docs, attributes))
            if self.is_at(","):
                self.at += 1
        self.at = end + 1
        return found

    def field(self, docs, attributes):
        first = self.at
        public = self.visibility()
        field = Item(self.module, "field", self.tokens[self.at].text, docs, attributes, public)
        angles = 0
        while self.tokens[self.at].text not in CLOSING.values() and not (self.is_at(",") and angles == 0):
            angles += self.is_at("<") - self.is_at(">")
            self.skip()
        field.head = self.slice(first, self.at)
        return field

    def variant(self, docs, attributes):
        first = self.at
        variant = Item(self.module, "variant", self.next_word(), docs, attributes, True)
        if self.is_at("{") or self.is_at("("):
            variant.brackets = self.tokens[self.at].text
            variant.members = self.parts(self.field)
            for it in variant.members:
                it.public = True
        end = self.at
        while not self.is_at(",") and not self.is_at("}"):
            self.skip()
        variant.head = variant.name if variant.brackets == "{" else self.slice(first, max(end, self.at))
        return variant

    def read_trait(self, first, item):
        self.skip_to("{")
        item.head = self.slice(first, self.at)
        item.members = self.members()
        for it in item.members:
            it.in_trait = True
        return item

    def impl(self, first, item):
        self.skip_to("{")
        item.head = self.slice(first, self.at)
        item.trait, item.arguments, item.owner = impl_names(self.tokens[first + 1 : self.at])
        item.members = self.members()
        return item

    def members(self):
        """The items in the brackets here."""
        end = self.tokens[self.at].closing
        self.at += 1
        found = []
        while self.at < end:
            item = self.item()
            if item is not None:
                found.append(item)
        self.at = end + 1
        return found


def use_paths(tokens):
    """What a `use` names: the path of each, and its name here."""
    found, prefix, at = [], [], 0
    while at < len(tokens):
        text = tokens[at].text
        if text == "{":
            inner, depth = [[]], 0
            for token in tokens[at + 1 : -1]:
                depth += (token.text == "{") - (token.text == "}")
                if token.text == "," and depth == 0:
                    inner.append([])
                else:
                    inner[-1].append(token)
            for part in filter(None, inner):
                found += [(prefix + path, name) for path, name in use_paths(part)]
            return found
        if text == "as":
            return [(prefix, tokens[at + 1].text)]
        if text != ":":
            prefix = prefix + [text]
        at += 1
    return [(prefix, prefix[-1])]


def impl_names(tokens):
    """Of the words between `impl` and its bracket: the trait, the names that it is applied to, and the type."""
    texts, depth = [it.text for it in tokens], 0
    parts = [[]]
    for at, text in enumerate(texts):
        depth += (text == "<") - (text == ">")
        if depth == 0 and text in ("for", "where"):
            if text == "where":
                break
            parts.append([])
        else:
            parts[-1].append(text)
    first, _ = after_generics(parts[0])
    if len(parts) == 1:
        return "", (), last_of_path(first)
    return last_of_path(first), tuple(it for it in first if re.fullmatch(r"\w+", it)), last_of_path(parts[1])


def after_generics(texts):
    """The words after the parameters in angles that begin a text, and these parameters."""
    if texts[:1] != ["<"]:
        return texts, []
    depth = 0
    for at, text in enumerate(texts):
        depth += (text == "<") - (text == ">")
        if depth == 0:
            return texts[at + 1 :], texts[: at + 1]
    return texts, []


def last_of_path(texts):
    """The name of a type without its path and its arguments."""
    name = ""
    for text in texts:
        if text == "<":
            break
        if re.fullmatch(r"\w+", text) and text != "mut":
            name = text
    return name
