"""What a user of the library reaches: the modules of each public path, and the items under it."""
from pathlib import Path

from sources import Module

TOP = Path(__file__).resolve().parent.parent.parent
ROOTS = ("tracing_appender", "appender_log")
# The modules that a user meets first. The others follow by name, and those of laws are the last.
FIRST = ("rolling", "non_blocking")
TYPES = ("struct", "enum", "trait", "type")


class Library:
    """The crates that the page is made of, and what each public path leads to."""

    def __init__(self):
        self.crates = {}
        # The modules of the page by path, the paths of each item, and what a module has of crates of the kit.
        self.pages, self.paths, self.foreign = {}, {}, {}
        for root in ROOTS:
            self.add_page(root, self.crate(root))
        for module in self.crates.values():
            self.check_names(module)
        modules = [it for crate in self.crates.values() for it in crate.all()]
        self.impls = [it for module in modules for it in module.items if it.kind == "impl"]

    def crate(self, name):
        """A crate of the repository. `None` if it has none of this name."""
        source = TOP / "crates" / name / "src" / "lib.rt"
        if name not in self.crates and source.exists():
            self.crates[name] = Module(name, name, source, None, True)
        return self.crates.get(name)

    def add_page(self, path, module):
        """Adds a module, with all that it gives under this path."""
        items = {it.name: it for it in module.items if it.public}
        modules = {name: it for name, it in module.modules.items() if it.public}
        for names, name in module.exports:
            found = self.resolve(module, names)
            if found is None:
                self.foreign.setdefault(path, {})[name] = "::".join(names)
            else:
                (modules if isinstance(found, Module) else items)[name] = found
        if items or path in self.foreign:
            self.pages[path] = (module, items)
            for name, item in items.items():
                self.paths.setdefault(item, []).append((path, name))
        for name, it in modules.items():
            self.add_page(f"{path}::{name}", it)

    def resolve(self, module, names):
        """What a path in a module leads to. `None` if that is in a crate of the kit."""
        first, *rest = names
        if first == "crate":
            found = module.root()
        elif first in ("self", "super"):
            found = module if first == "self" else module.parent
        else:
            found = self.lookup(module, first) or self.crate(first)
        if found is None:
            return None
        for name in rest:
            found = self.lookup(found, name)
            if found is None:
                raise SystemExit(f"{module.path}: {'::'.join(names)} leads to nothing")
        return found

    def lookup(self, module, name):
        """The module or item of this name in a module."""
        if name in module.modules:
            return module.modules[name]
        for item in module.items:
            if item.name == name and item.kind != "impl":
                return item
        for names, here in module.exports:
            if here == name:
                return self.resolve(module, names)
        return None

    def check_names(self, crate):
        """An `impl` is attached to its type by name, so a crate must not give two types one name."""
        seen = {}
        for it in (it for at in crate.all() for it in at.items if it.kind in TYPES):
            if it.name in seen and (it in self.paths or seen[it.name] in self.paths):
                raise SystemExit(f"{it.module.path}:{it.line}: {crate.name} has two types {it.name}")
            seen[it.name] = it

    def main_path(self, item):
        """The path that an item is described under: that of its own module, if it is public, else the first one."""
        paths = sorted(self.paths[item], key=lambda it: page_order(it[0]))
        return next((it for it in paths if self.pages[it[0]][0] is item.module), paths[0])

    def owner_of(self, impl):
        """The type of the page that an `impl` belongs to, or else the trait."""
        crate = impl.module.root()
        here = {it.name: it for at in crate.all() for it in at.items if it.kind in TYPES}
        elsewhere = {it.name: it for it in self.paths if it.kind in TYPES}
        for name in (impl.owner, impl.trait, *impl.arguments):
            item = here.get(name, elsewhere.get(name))
            if item in self.paths:
                return item
            if name == impl.owner and item is not None:
                return None
        return None

    def impls_of(self, item):
        """The `impl` blocks of a type or trait, those without a trait first."""
        own = [it for it in self.impls if self.owner_of(it) is item]
        away = lambda it: (it.module.path != item.module.path, str(it.module.path), it.line)
        return sorted(own, key=lambda it: (it.trait != "Model", it.trait != "", away(it)))

    def described(self):
        """All items of the page."""
        return list(self.paths)

    def members_of(self, item):
        """The members of a type or trait that are public: those of the trait, or of each `impl` without one."""
        if item.kind == "trait":
            return [it for it in item.members if it.kind != "proofs"]
        return [it for impl in self.impls_of(item) if not impl.trait for it in impl.members if it.public]


def page_order(path):
    crate, _, module = path.partition("::")
    return ROOTS.index(crate), module.endswith("laws"), FIRST.index(module) if module in FIRST else len(FIRST), module
