"""Reads definitions (`.antt` files of `specs/`): the words that clauses use, with their comments, and what they use in turn."""
import functools
import os
import re

from .items import ROOT, items_of

# Only the type is shown of a definition with more lines than this.
MAX_DEFINITION_LINES = 40

WORD = re.compile(r"(?<![\w.'-])[^\W\d][\w'-]*(?:\.[^\W\d][\w'-]*)*")
DEFINITION = re.compile(r"(?P<indent>\s*)(?:abbrev |unfoldable |opaque )*pub (?:abbrev |unfoldable )*(?P<kind>record |data )?(?P<name>[^\s:({]+)\s")


class Word:
    """A definition of a file of `specs/`."""

    def __init__(self, path, line, name, comment, scope, text):
        self.path, self.line, self.name, self.comment, self.scope, self.text = path, line, name, comment, scope, text

    @property
    def key(self):
        return f"word {self.path} {self.name}"

    def words_used(self):
        """Returns the definitions that this one uses."""
        file = spec(self.path)
        names = {name: (it.path, it.name) for name, it in file.words.items()} | file.imports
        found = words_in("\n".join([*self.scope, self.text]), names, self.variables())
        return {name: it for name, it in found.items() if it is not self}

    def variables(self):
        """Returns the names of the arguments on the left of the definition's equations."""
        left = re.findall(rf"^{re.escape(self.name)} (.*?) =(?: |$)", self.text, flags=re.M)
        names = re.findall(r"[^\W\d][\w']*", " ".join(left))
        return " ".join(it for it in names if not spec(self.path).is_constructor(it))

    @property
    def fields(self):
        """Returns the types of the fields of a record, by name."""
        return dict(re.findall(r"^ +(?:pub )?(\w+) : (.*)", self.text, flags=re.M))

    @property
    def is_short(self):
        return self.text.count("\n") < MAX_DEFINITION_LINES


class Spec:
    """A file of `specs/`: its definitions by name, and the names that it imports. A constructor has the definition of its type."""

    def __init__(self, path):
        self.path, self.words = path, {}
        with open(f"{ROOT}/{path}", encoding="utf-8") as file:
            text = file.read()
        self.lines = text.split("\n")
        self.imports = imports_in(text)
        scopes, at = [], 0
        while at < len(self.lines):
            line = self.lines[at]
            indent = len(line) - len(line.lstrip())
            if line.strip() and not line.lstrip().startswith("--"):
                scopes = [it for it in scopes if it[0] < indent]
            if re.match(r"\s*module _ ", line):
                scopes.append((indent, line.strip()))
            match = DEFINITION.match(line + " ")
            at = self.read_definition(at, match, [it for _, it in scopes]) if match and match["name"] != "mod" else at + 1

    def is_constructor(self, name):
        path, known = self.imports.get(name, (self.path, name))
        word = spec(path).words.get(known)
        return bool(word) and word.name != known

    def read_definition(self, at, match, scope):
        """Reads the definition that begins at a line, and returns the line after it."""
        name, indent = match["name"], len(match["indent"])
        end = at + 1
        while end < len(self.lines) and self.continues(end, name, indent, match["kind"]):
            end += 1
        while not self.lines[end - 1].strip() or self.lines[end - 1].lstrip().startswith("--"):
            end -= 1
        text = "\n".join(it[indent:].rstrip() for it in self.lines[at:end])
        word = Word(self.path, at + 1, name, self.comment_above(at), scope, text)
        self.words[name] = word
        if match["kind"] == "data ":
            for constructor in re.findall(r"^\s+([^\s:]+) :", text, flags=re.M):
                self.words.setdefault(constructor, word)
        return end

    def continues(self, at, name, indent, kind):
        """Returns whether a line continues the definition that begins above it."""
        line = self.lines[at]
        if not line.strip():
            return bool(kind) and at + 1 < len(self.lines) and self.lines[at + 1].startswith(" " * (indent + 1))
        if len(line) - len(line.lstrip()) > indent:
            return True
        return not kind and line[indent:].startswith((name + " ", "}", ")"))

    def comment_above(self, at):
        """Returns the comment directly above a line."""
        k, found = at - 1, []
        while k >= 0 and self.lines[k].lstrip().startswith("--"):
            found.append(self.lines[k].lstrip()[2:].strip())
            k -= 1
        return " ".join(it for it in reversed(found) if it)


@functools.cache
def spec(path):
    return Spec(path)


def imports_in(text):
    """Returns the origins of the names that `use` lines import: a file of `specs/` and a name there, or no name for the file itself.

    Names from elsewhere are left out.
    """
    found = {}
    for crate_name, module, names, alias in re.findall(r"\buse Rattle\.(\w+)\.specs\.([\w.]+?)(?:\.\{([^}]*)\}| as (\w+))", text):
        path = f"crates/{crate_name}/specs/{module.replace('.', '/')}.antt"
        if os.path.exists(f"{ROOT}/{path}"):
            for name in filter(None, (it.strip() for it in names.split(","))):
                known, _, local = name.partition(" as ")
                found[local.strip() or known.strip()] = (path, known.strip())
            if alias:
                found[alias] = (path, None)
    return found


def words_in(text, imports, variables=""):
    """Returns the definitions that a clause or a definition uses, by the names there, in order. Variables are left out."""
    bound = set(" ".join([variables, *re.findall(r"(?<=λ )[^.]*(?=\.)|(?<=[({])[\w' ]+(?= : )", text)]).split())
    found = {}
    for match in WORD.finditer(text):
        name, _, rest = match[0].partition(".")
        path, known = imports.get(name, (None, None))
        local = name if known else rest.partition(".")[0]
        known = known or local
        if path and name not in bound and known in spec(path).words:
            found[local] = spec(path).words[known]
    return found


@functools.cache
def scoped_imports(file, block):
    """Returns the imports of the `ghost use` lines of a file, outside all blocks and in the block of one item."""
    found = {}
    for item in items_of(file, 0, len(file.text)):
        inside = item.items if block and item.at == block.at else [item]
        for it in inside:
            if it.kind == "ghost use":
                found.update(imports_in(file.bare[it.at : it.end]))
    return found


def words_of_item(item, texts):
    """Returns the definitions that clauses or ghost members of an item use."""
    imports = scoped_imports(item.file, item.block if item.block else item if item.kind in ("trait", "impl") else None)
    arguments = " ".join(re.findall(r"(\w+)\s*:(?!:)", item.head)) if item.kind == "fn" else ""
    found = {}
    for text in texts:
        found.update(words_in(text, imports, arguments))
    return found
