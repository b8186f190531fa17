"""Checks that each function of the crates is called.

A function is called if a user of the crates can call it, or if a function that is called names it in its body. Clauses, proofs and
tests do not count. The crates of tests and of must-fail edits are not read. A user can call

- each function of the API, such as a law, which has an empty body;
- each method of these crates that is `pub` or declared by a trait;
- each method of an `impl` of a trait, in any crate, since it is called through the trait;
- `main` of a program.

Free functions are distinguished by their paths. Methods are distinguished only by their names: a method with the name of a called
method counts as called."""
import re

from api.topics import CRATES
from sources.items import ROOT, crate, type_names

SKIPPED = re.compile(r".*_tests|.*_mutants|test_types|forwarding_arena")
PATH = re.compile(r"(?P<before>\.|::|>\s*::)?\s*\b(?P<path>[A-Za-z_]\w*(?:\s*::\s*(?:<[^;{}()]*?>\s*::\s*)?[A-Za-z_]\w*)*)")


class Function:
    """A function with its crate, its module, and the type or trait whose block it is in."""

    def __init__(self, home, module, item):
        self.home, self.module, self.item = home, module, item
        self.block = item.block if item.block and item.block.kind in ("impl", "trait") else None

    @property
    def of_trait(self):
        return self.block and (self.block.kind == "trait" or len(type_names(self.block)) > 1 or " for " in self.block.head)

    @property
    def body(self):
        return self.item.file.bare[self.item.body[0] : self.item.body[1]] if self.item.body else ""

    def is_for_users(self):
        if self.of_trait:
            return self.home.name in CRATES or self.body != ""
        if self.home.name in CRATES and self.item.is_public and (self.block or self.home.is_public(self.item)):
            return True
        return self.item.name == "main" and not self.module and not self.block

    def __str__(self):
        owner = type_names(self.block)[-1:] if self.block else []
        return "::".join((self.home.name, *self.module, *owner, self.item.name))


def all_functions():
    with open(f"{ROOT}/crates.txt", encoding="utf-8") as file:
        names = [line.partition(":")[0] for line in file.read().splitlines() if ":" in line]
    for name in names:
        if not SKIPPED.fullmatch(name):
            yield from (Function(crate(name), module, item) for module, item in crate(name).all_members() if item.kind == "fn")


def paths_in(body):
    """Yields each path in a body, and whether it may be a method's name."""
    for it in PATH.finditer(body):
        yield tuple(re.findall(r"[A-Za-z_]\w*", re.sub(r"<[^;{}()]*?>", "", it["path"]))), bool(it["before"])


def problems():
    functions = list(all_functions())
    free = {it.item.key: it for it in functions if not it.block}
    methods = {}
    for it in functions:
        if it.block:
            methods.setdefault(it.item.name, []).append(it)
    todo = [it for it in functions if it.is_for_users()]
    found = set(todo)
    while todo:
        caller = todo.pop()
        for path, is_method in paths_in(caller.body):
            called = list(methods.get(path[-1], [])) if is_method or len(path) > 1 else []
            if not is_method or len(path) > 1:
                target = caller.home.find(caller.module, path)
                called += [free[target[1].key]] if target and target[1].key in free else []
            for it in called:
                if it not in found:
                    found.add(it)
                    todo.append(it)
    return sorted(f"{it} is not called" for it in functions if it not in found)
