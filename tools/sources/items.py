"""Reads source files (`.rt`): their items with heads, doc comments and clauses, and which items of a crate users can import."""
import bisect
import functools
import os
import re

ROOT = os.path.dirname(os.path.dirname(os.path.dirname(os.path.abspath(__file__))))

TEXT = re.compile(r'(//[^\n]*|/\*.*?\*/)|b?"(?:\\.|[^"\\])*"|b?\'(?:\\.[^\']*|[^\'\\\n])\'', re.S)
HEAD = re.compile(
    r"(?P<visibility>pub(?:\([a-z ]+\))?\s+)?"
    r"(?:(?P<ghost>ghost\s+(?!use\b))(?P<member>\w+)|(?:(?:final|const|unsafe|default)\s+)*(?P<fn>fn)\s+(?P<fn_name>\w+)"
    r"|(?:unsafe\s+)?(?P<kind>ghost\s+use|use|mod|struct|enum|trait|type|impl|const|static|macro_rules!)(?!\w)\s*(?P<name>\w+)?|(?P<call>[\w:]+!))"
)
CLAUSE = re.compile(r"(requires|ensures)(\*?)\s*(\w*)\s*\{")


def blank(match):
    """Replaces a match by spaces, and keeps its line breaks."""
    return re.sub(r"[^\n]", " ", match[0])


def close_of(text, start):
    """Returns the position after the bracket that closes the one at `start`."""
    depth = 0
    for k in range(start, len(text)):
        depth += (text[k] in "{([") - (text[k] in "})]")
        if depth == 0:
            return k + 1
    raise ValueError("a bracket is not closed")


def skip_spaces(text, at, end):
    while at < end and text[at].isspace():
        at += 1
    return at


def one_line(text):
    return " ".join(text.split())


def head_line(item):
    """Returns the head of an `impl` in one line, without spaces and commas that its line breaks leave in angle brackets."""
    return re.sub(r"(?<!-),? >", ">", one_line(item.head).replace("< ", "<"))


def without_indent(text):
    """Removes the common indentation of all lines after the first."""
    lines = [it.rstrip() for it in text.split("\n")]
    least = min((len(it) - len(it.lstrip()) for it in lines[1:] if it), default=0)
    return "\n".join([lines[0], *(it[least:] for it in lines[1:])])


class Source:
    """A source file. `code` is its text without comments, and `bare` is also without string and character literals.

    All three have the same length, so that positions are the same in each.
    """

    def __init__(self, path):
        self.path = path
        with open(f"{ROOT}/{path}", encoding="utf-8") as file:
            self.text = file.read()
        self.code = TEXT.sub(lambda it: blank(it) if it[1] else it[0], self.text)
        self.bare = TEXT.sub(blank, self.text)
        self.starts = [0, *(it.end() for it in re.finditer("\n", self.text))]
        self.lines = self.text.split("\n")

    def line_at(self, at):
        """Returns the number of the line of a position, from 1."""
        return bisect.bisect_right(self.starts, at)

    def comment_between(self, start, end, mark):
        """Returns the text of the comment lines with this mark in a range."""
        found = re.findall(rf"^[ \t]*{mark}(?!/|!) ?(.*)$", self.text[start:end], flags=re.M)
        return "\n".join(it.rstrip() for it in found)

    def note_above(self, at):
        """Returns the plain comment directly above the line of a position."""
        k, found = self.line_at(at) - 2, []
        while k >= 0 and re.match(r"\s*//(?!/|!)", self.lines[k]):
            found.append(self.lines[k].strip()[2:].strip())
            k -= 1
        return " ".join(reversed(found))


@functools.cache
def source(path):
    return Source(path)


# ---------------------------------------------------------------- items


class Clause:
    """A clause of a contract: `requires` or `ensures`, with a star or not, its label, its text, and the comment above it."""

    def __init__(self, word, label, text, note):
        self.word, self.label, self.text, self.note = word, label, text, note


class Item:
    """An item of a source file: a type, a trait, an `impl`, a function, a ghost member, or a `use` or `mod` line."""

    def __init__(self, file, kind, name, at):
        self.file, self.kind, self.name, self.at = file, kind, name, at
        self.is_public, self.docs, self.note, self.attributes = False, "", "", []
        self.head_end, self.clauses, self.body, self.end, self.block = at, [], None, at, None

    @property
    def head(self):
        """The signature: the text before the contract, the body or the semicolon."""
        return without_indent(self.file.code[self.at : self.head_end].rstrip().rstrip(","))

    @property
    def path(self):
        return self.file.path

    @property
    def line(self):
        return self.file.line_at(self.at)

    @property
    def key(self):
        return f"item {self.path}:{self.at}"

    @property
    def comment(self):
        """The comment of a ghost member, in one line."""
        return self.note or one_line(self.docs)

    @functools.cached_property
    def items(self):
        """The items in the block of a trait, an `impl` or a module."""
        return items_of(self.file, self.body[0], self.body[1], self)

    def members(self, kind):
        return [it for it in self.items if it.kind == kind]


def items_of(file, start, end, block=None):
    """Reads the items in a range of a file."""
    found, at = [], start
    while (first := skip_spaces(file.bare, at, end)) < end:
        item = read_item(file, at, first, end)
        item.block = block
        found.append(item)
        at = item.end
    return found


def read_item(file, previous, first, end):
    """Reads the item that begins at a position, after the item that ends at `previous`."""
    at, attributes = first, []
    while file.bare[at] == "#":
        after = close_of(file.bare, file.bare.index("[", at))
        attributes.append(file.code[at:after])
        at = skip_spaces(file.bare, after, end)
        if at == end:
            break
    head = HEAD.match(file.bare, at)
    if not head:
        if attributes and attributes[-1].startswith("#!"):
            return Item(file, "attribute", "", at)
        raise ValueError(f"{file.path}:{file.line_at(at)}: this item cannot be read")
    kind, name = kind_and_name(head)
    item = Item(file, kind, name, at)
    item.is_public = (head["visibility"] or "").strip() == "pub"
    item.attributes = attributes
    item.docs = file.comment_between(previous, at, "///")
    item.note = file.note_above(first)
    read_rest(item, head)
    return item


def kind_and_name(head):
    """Returns the kind and the name of the item that a head begins."""
    if head["fn"]:
        return "fn", head["fn_name"]
    if head["ghost"]:
        return "ghost", head["member"]
    if head["call"]:
        return "call", head["call"]
    kind = re.sub(r"\s+", " ", head["kind"])
    return kind, "" if kind in ("use", "ghost use", "impl") else head["name"] or ""


def read_rest(item, head):
    """Reads the rest of an item after its head: the end of its signature, its clauses, its body and its end."""
    bare, at = item.file.bare, head.end()
    ends_at_brace = item.kind in ("mod", "struct", "enum", "trait", "impl", "fn", "macro_rules!", "call")
    is_sealed = False
    while True:
        clause = CLAUSE.match(bare, at) if item.kind == "fn" and bare[at - 1].isspace() else None
        if clause:
            item.head_end, is_sealed = item.head_end if is_sealed else at, True
            at = read_clause(item, clause)
        elif bare[at] == ";" or (bare[at] == "{" and ends_at_brace):
            item.head_end = item.head_end if is_sealed else at
            if bare[at] == "{":
                item.end = close_of(bare, at)
                item.body = (at + 1, item.end - 1)
            else:
                item.end = at + 1
            return
        elif bare[at] in "([{":
            at = close_of(bare, at)
        else:
            at += 1


def read_clause(item, match):
    """Reads the clause at a match, and returns the position after it."""
    file, start = item.file, match.end()
    end = close_of(file.bare, start - 1)
    text = one_line(file.code[start : end - 1])
    item.clauses.append(Clause(match[1] + match[2], match[3], text, file.note_above(match.start())))
    return end


# ---------------------------------------------------------------- crates and their exports


class Crate:
    """A crate: its items by module, and which of them users can import."""

    def __init__(self, name):
        self.name, self.modules = name, {}
        self.read_module((), "lib" if os.path.exists(f"{ROOT}/crates/{name}/src/lib.rt") else "main")

    def read_module(self, path, file):
        """Reads a module and the modules that it declares, except tests."""
        items = items_of(it := source(f"crates/{self.name}/src/{file}.rt"), 0, len(it.text))
        self.modules[path] = items
        for item in items:
            if item.kind == "mod" and item.body is None and "#[cfg(test)]" not in item.attributes:
                self.read_module((*path, item.name), "/".join((*path, item.name)))

    def all_items(self):
        return [item for items in self.modules.values() for item in items]

    @functools.cached_property
    def uses(self):
        """The names that each module imports, each with its path and whether it is public."""
        return {path: [it for item in items if item.kind == "use" for it in names_of_use(item)] for path, items in self.modules.items()}

    def all_members(self):
        """Yields each item with its module, and the items in blocks of `impl` and `trait`."""
        for module, items in self.modules.items():
            for item in items:
                yield module, item
                if item.kind in ("impl", "trait") and item.body:
                    yield from ((module, it) for it in item.items)

    def find(self, module, path):
        """Returns the item that a path in a module resolves to, or `None` for an item of std or a local name."""
        first, rest = path[0], path[1:]
        if not rest and first in ("crate", "self", "super"):
            return None
        if first == "crate":
            return self.find_in((), rest)
        if first == "self":
            return self.find_in(module, rest)
        if first == "super":
            return self.find_in(module[:-1], rest)
        if any(it.name == first for it in self.modules.get(module, [])) or any(name == first for name, _, _ in self.uses[module]):
            return self.find_in(module, path)
        if rest and os.path.exists(f"{ROOT}/crates/{first}/src/lib.rt"):
            return crate(first).find_in((), rest)
        return None

    def find_in(self, module, path):
        """Returns the item at a path below a module."""
        name, rest = path[0], path[1:]
        if module not in self.modules:
            return None
        if rest and (*module, name) in self.modules:
            return self.find_in((*module, name), rest)
        for item in self.modules[module]:
            if item.name == name and item.kind in ("struct", "enum", "trait", "type", "fn", "const", "static", "macro_rules!"):
                return self, item
        for known, target, _ in self.uses[module]:
            if known == name and target != path:
                return self.find(module, (*target, *rest))
        return None

    def exports(self, module=()):
        """Yields each item of a module that users can import, with the crate that defines it and its path in this crate."""
        for item in self.modules[module]:
            if item.is_public and item.kind == "mod":
                yield from self.exports((*module, item.name))
            elif item.is_public and item.kind != "use":
                yield self, item, "::".join((*module, item.name))
        for name, path, is_public in self.uses[module]:
            if is_public and name == "*":
                raise ValueError(f"crates/{self.name}: this program does not read `pub use` with `*`")
            found = self.find(module, path) if is_public else None
            if found:
                yield *found, "::".join((*module, name))

    def public_items(self):
        """Returns the items that users can import, each with the crate that defines it and its shortest path."""
        found = {(self, it): f"{it.name}!" for it in self.all_items() if it.kind == "macro_rules!" and "#[macro_export]" in it.attributes}
        for home, item, path in self.exports():
            known = found.get((home, item))
            if known is None or path.count("::") < known.count("::"):
                found[(home, item)] = path
        return [(home, item, path) for (home, item), path in found.items()]

    def is_public(self, item):
        return any(it is item for _, it, _ in self.public_items())


@functools.cache
def crate(name):
    return Crate(name)


def names_of_use(item):
    """Returns the names that a `use` item imports, each with its path and whether it is public."""
    words = re.findall(r"\w+|::|[{},*]", re.sub(r"^(pub(\([a-z ]+\))?\s+)?use", "", item.file.bare[item.at : item.end]))
    found = []

    def read(at, path):
        while at < len(words):
            if words[at] == "{":
                at += 1
                while words[at] != "}":
                    at = read(at, path)
                    at += words[at] == ","
                return at + 1
            path, at = (*path, words[at]), at + 1
            if at < len(words) and words[at] == "::":
                at += 1
                continue
            name = path[-1]
            if at < len(words) and words[at] == "as":
                name, at = words[at + 1], at + 2
            if path[-1] == "self":
                path, name = path[:-1], path[-2] if name == "self" else name
            found.append((name, path, item.is_public))
            return at
        return at

    read(0, ())
    return found


# ---------------------------------------------------------------- the repository


def files_below(*tops):
    """Yields the paths of all files below folders of the repository, without what the toolchain writes."""
    for top in tops:
        for folder, folders, names in os.walk(f"{ROOT}/{top}"):
            folders[:] = sorted(it for it in folders if it not in ("out", "target"))
            yield from (os.path.relpath(f"{folder}/{name}", ROOT) for name in sorted(names))


def items_in_file(path):
    """Yields all items of a source file, also those in blocks."""

    def inner(items):
        for it in items:
            yield it
            if it.kind in ("impl", "trait", "mod") and it.body:
                yield from inner(it.items)

    file = source(path)
    yield from inner(items_of(file, 0, len(file.text)))


def type_names(item):
    """Returns the names of the trait and the type of an `impl`, or of a trait, without parameters and bounds."""
    head = re.sub(r"\bwhere\b.*", "", item.head.replace("->", ""), flags=re.S)
    while re.search(r"<[^<>]*>", head):
        head = re.sub(r"<[^<>]*>", "", head)
    names = re.findall(r"\b[A-Z]\w*", head)
    return names if item.kind == "impl" else names[:1]
