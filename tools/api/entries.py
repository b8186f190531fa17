"""Reads the entries of the API from the sources: calls, types, traits and laws, each with its signature, doc comment and contract.

An item is public if it is reachable from `lib.rt` through `pub mod` and `pub use`. An item that several crates export has its entry in
the crate that defines it. A word of a clause is a name that a `ghost use` line imports from the `specs/` of a crate here.
"""
import functools
import os
import re

from sources.items import ROOT, close_of, crate, head_line, one_line, skip_spaces
from sources.words import words_of_item

from .meanings import MEANINGS
from .topics import CRATES, INTERNAL, by_topic

KINDS = {"type": ("struct", "enum", "type"), "trait": ("trait",), "function": ("fn", "macro_rules!", "const", "static")}


class Entry:
    """An entry: its name with the path in its crate, its item, and blocks of content. A block is a kind with what it shows."""

    def __init__(self, name, item):
        self.name, self.item, self.blocks = name, item, []

    @property
    def key(self):
        return self.item.key

    @property
    def summary(self):
        return first_sentence(self.item.docs)

    def add(self, kind, content):
        if content:
            self.blocks.append((kind, content))

    def add_words(self, found):
        self.add("words", list(found.items()))


class CratePage:
    """The entries of a crate: its calls by owner and topic, its types, its traits, its laws, and the names from other crates."""

    def __init__(self, name):
        self.name, self.about = name, CRATES[name]
        self.calls, self.types, self.traits, self.laws, self.elsewhere = [], [], [], [], []
        items = sorted(crate(name).public_items(), key=lambda it: (it[2].count("::"), it[2].lower()))
        functions = []
        for home, item, path in items:
            if path.startswith(tuple(f"{it}::" for it in INTERNAL)):
                continue
            if home.name != name and home.name in CRATES and home.is_public(item):
                self.elsewhere.append((path, item))
            elif item.kind in KINDS["trait"]:
                self.traits.append(trait_entry(item, path))
                self.add_calls(path, [function_entry(it, f"{path}::{it.name}") for it in item.members("fn")])
            elif item.kind in KINDS["type"]:
                self.types.append(type_entry(home, item, path))
                self.add_calls(path, [function_entry(it, f"{path}::{it.name}", head) for it, head in methods_of(home, item)])
            else:
                functions.append(function_entry(item, path))
        self.laws += [it for it in functions if is_law_function(it.item)]
        self.calls.sort(key=lambda it: -sum(len(some) for _, some in it[1]))
        self.add_calls("", [it for it in functions if not is_law_function(it.item)])

    def add_calls(self, owner, entries):
        self.laws += [it for it in entries if is_law_function(it.item)]
        entries = [it for it in entries if not is_law_function(it.item)]
        if entries:
            self.calls.append((owner, by_topic(entries)))

    def laws_by_module(self):
        """Groups the laws by their modules, if there are many."""
        groups = {}
        for it in self.laws:
            groups.setdefault(it.name.rpartition("::")[0] if len(self.laws) > 8 else "", []).append(it)
        return list(groups.items())

    def entries(self):
        """Returns all entries, calls first."""
        calls = [it for _, topics in self.calls for _, some in topics for it in some]
        return [*calls, *self.types, *self.traits, *self.laws]


def first_sentence(docs):
    """Returns the first sentence of a text, in one line."""
    text = one_line(docs.strip().split("\n\n")[0])
    return re.split(r"(?<=[a-z)`'\]\d][.])\s(?=[A-Z`])|:$", text)[0]


# ---------------------------------------------------------------- words


def meaning(word):
    """Returns the meaning of a word in one line: that of `MEANINGS`, the first sentence of its comment, or its definition."""
    known = MEANINGS.get(word.path, {}).get(word.name)
    if known:
        return known
    if word.comment:
        return as_markdown(first_sentence(word.comment).rstrip("."))
    lines = definition_text(word).split("\n")[len(word.scope) :]
    equations = [it.strip() for it in lines if " = " in it]
    return code(equations[0] if len(equations) == 1 and len(equations[0]) < 120 else one_line(lines[0]))


def as_markdown(text):
    """Returns plain text as Markdown. Special characters outside code are escaped."""
    parts = re.split(r"(`[^`]*`)", text)
    return "".join(it if it.startswith("`") else re.sub(r"([<*\\])", r"\\\1", it) for it in parts)


def definition_text(word):
    """Returns a definition below the lines of the modules that give it parameters.

    The words `abbrev` and `pub` are left out, and so is the type of a definition without parameters that is itself a type.
    """
    text = word.text if word.is_short else word.text.partition("\n")[0]
    text = re.sub(r"\A[^:]* : Type 0\n(?=\S)", "", text)
    lines = [f"{'  ' * k}{it}" for k, it in enumerate(word.scope)]
    lines += [f"{'  ' * len(lines)}{it}" for it in text.split("\n")]
    return "\n".join(re.sub(r"^(\s*)(?:(?:abbrev|unfoldable|opaque|pub) )+", r"\1", it).rstrip() for it in lines)


# ---------------------------------------------------------------- parts of entries


def docs_of(text):
    """Returns a doc comment whose headings are replaced by bold lines, and links to paths of Rust by their texts."""
    text = re.sub(r"\[([^\]]+)\]\(crate::[^)]*\)", r"\1", text.strip())
    return re.sub(r"^#+ (.*)$", r"**\1**", text, flags=re.M)


def code(text):
    return f"`{text}`" if "`" not in text else f"`` {text} ``"


def clause_lines(clauses, indent=""):
    """Returns a list with a line for each clause. The word `ensures` is left out."""
    lines = []
    for it in clauses:
        word = "" if it.word == "ensures" else it.word.replace("*", "\\*")
        label = f"**{it.label}**" if it.label else ""
        start = " ".join(filter(None, (word, label)))
        lines.append(f"{indent}- {start}{': ' if start else ''}{with_note(it.note, it.text)}")
    return lines


def with_note(note, text):
    return f"{note} {code(text)}" if note else code(text)


def ghost_text(item):
    """Returns the text after a ghost member's name: its type, its definition, or both."""
    text = one_line(item.file.code[item.at : item.end])
    return re.sub(r"\{ (.*?) \}(?=;| =|$)", r"\1", text.partition(item.name)[2].strip(" :=;").strip())


def is_law(item):
    """Returns whether a ghost member of a trait is a law, rather than a function or a predicate."""
    return bool(re.match(r"\(", ghost_text(item)) or re.search("[≡≢<≤↔]", ghost_text(item)))


def is_law_function(item):
    """Returns whether a function has an empty body, so that it only states its clauses."""
    return item.kind == "fn" and bool(item.body) and not item.file.bare[item.body[0] : item.body[1]].strip() and bool(item.clauses)


def signature(item):
    """Returns the text of an item without its body. A type has its public fields or its variants."""
    attributes = [it for it in item.attributes if it.startswith("#[derive")]
    head = item.head
    if item.kind in ("struct", "enum", "trait") and item.body:
        inside = {"struct": fields, "enum": variants, "trait": associated_types}[item.kind](item)
        head = f"{head} {{\n{inside}\n}}" if inside else f"{head} {{ .. }}"
    elif item.kind == "macro_rules!":
        head = f"macro_rules! {item.name} {{ .. }}"
    elif item.kind == "type":
        head += ";"
    return "\n".join([*attributes, head])


def variants(item):
    """Returns the variants of an enum, with their doc comments."""
    lines = item.file.text[item.body[0] : item.body[1]].strip("\n").split("\n")
    return "\n".join(it.rstrip() for it in lines if not re.match(r"\s*//(?!/)", it))


def fields(item):
    """Returns the public fields of a struct, with their doc comments, and a line for private fields."""
    bare, (at, end) = item.file.bare, item.body
    lines, hidden = [], False
    while (first := skip_spaces(bare, at, end)) < end:
        after = end_of_field(bare, first, end)
        if re.match(r"pub\s(?!\()", bare[first:]):
            docs = item.file.comment_between(at, first, "///")
            lines += [f"    /// {it}".rstrip() for it in docs.split("\n") if docs]
            lines.append(f"    {one_line(item.file.code[first:after])}")
        else:
            hidden = True
        at = after
    return "\n".join([*lines, *(["    // private fields"] if hidden and lines else [])])


def end_of_field(bare, at, end):
    """Returns the position after the comma that ends a field."""
    depth = 0
    while at < end:
        if bare[at] in "([{":
            at = close_of(bare, at)
            continue
        depth += (bare[at] == "<") - (bare[at] == ">" and bare[at - 1] not in "-=")
        at += 1
        if bare[at - 1] == "," and depth == 0:
            break
    return at


def associated_types(item):
    """Returns the associated types and constants of a trait, with their doc comments."""
    lines = []
    for it in item.items:
        if it.kind in ("type", "const"):
            lines += [f"    /// {doc}".rstrip() for doc in it.docs.split("\n") if it.docs]
            lines.append(f"    {one_line(it.head)};")
    return "\n".join(lines)


# ---------------------------------------------------------------- entries


def new_entry(item, name):
    entry = Entry(name, item)
    entry.add("code", ("rust", signature(item)))
    entry.add("text", docs_of(item.docs))
    return entry


def function_entry(item, name, head=""):
    """Returns the entry of a function. A law has the definitions that state it, too."""
    entry = new_entry(item, name)
    entry.add("text", f"In {code(head)}." if head else "")
    statements = statements_of(item)
    entry.add("clauses", clause_lines(item.clauses))
    if statements:
        entry.add("code", ("antt", "\n\n".join(dict.fromkeys(definition_text(it) for it in statements))))
        entry.add_words({name: word for it in statements for name, word in it.words_used().items()})
    else:
        entry.add_words(words_of_item(item, [it.text for it in item.clauses]))
    return entry


def statements_of(item):
    """Returns the definitions that state a law, if each clause is one word with arguments."""
    if not is_law_function(item):
        return []
    words = [words_of_item(item, [it.text]) for it in item.clauses]
    are_words = all(len(it) == 1 and clause.text.startswith(tuple(it)) for it, clause in zip(words, item.clauses))
    return [word for it in words for word in it.values()] if are_words else []


def trait_entry(item, path):
    entry = new_entry(item, path)
    entry.add("calls", [(it, it.name) for it in item.members("fn")])
    ghosts = item.members("ghost")
    for title, some in ("Ghost members", [it for it in ghosts if not is_law(it)]), ("Laws", [it for it in ghosts if is_law(it)]):
        entry.add("list", (title, [f"- **{it.name}**: {with_note(it.comment, ghost_text(it))}" for it in some]) if some else None)
    entry.add_words(words_of_item(item, [ghost_text(it) for it in ghosts]))
    return entry


def target_of(item):
    """Returns the trait of an `impl`, or "", and the name of its type."""
    head, depth, words = item.head.replace("->", "  "), 0, []
    for word in re.findall(r"[\w:]+|[<>()]", head)[1:]:
        depth += (word == "<") - (word == ">")
        if depth == 0 and re.match(r"\w", word):
            words.append(word)
    if "for" in words:
        k = words.index("for")
        return words[k - 1], words[k + 1].rpartition("::")[2] if words[k + 1 :] else ""
    return "", words[0].rpartition("::")[2] if words else ""


def trait_text(item):
    """Returns the trait of an `impl` with its parameters."""
    head = head_line(item)
    depth, at = 0, 4
    while head[at] == "<" or depth:
        depth += (head[at] == "<") - (head[at] == ">" and head[at - 1] != "-")
        at += 1
    return head[at:].rpartition(" for ")[0].strip()


def impls_of(home, item):
    """Returns the `impl` blocks of a type, those of its own file first."""
    impls = [it for it in home.all_items() if it.kind == "impl" and target_of(it)[1] == item.name]
    return sorted(impls, key=lambda it: it.file is not item.file)


def methods_of(home, item):
    """Returns the methods of a type, each with the head of its block if few of them are in blocks with that head."""
    found = [(fn, head_line(it)) for it in impls_of(home, item) if not target_of(it)[0] for fn in it.members("fn") if fn.is_public]
    heads = [head for _, head in found]
    return [(fn, head if 2 * heads.count(head) < len(heads) else "") for fn, head in found]


def type_entry(home, item, path):
    entry = new_entry(item, path)
    aliased = alias_target(home, item)
    entry.add("alias", [(aliased, aliased.name)] if aliased else None)
    entry.add("calls", [(it, it.name) for it, _ in methods_of(home, item) if not is_law_function(it)])
    impls = impls_of(home, item)
    found = {}
    for it in impls:
        if target_of(it)[0] == "Model":
            for value in (it for it in it.members("ghost") if it.name == "Value"):
                entry.add("text", f"Contracts see it as: {code(ghost_text(value))}")
                found.update(words_of_item(value, [ghost_text(value)]))
    add_implemented(entry, [it for it in impls if target_of(it)[0] not in ("", "Model")], found)
    return entry


def alias_target(home, item):
    """Returns the type that an alias names, if it has an entry."""
    named = re.search(r"=\s*(\w+)", item.head) if item.kind == "type" else None
    return next((it for it in home.all_items() if named and it.name == named[1] and it.kind in ("struct", "enum") and has_entry(it)), None)


@functools.cache
def traits():
    """Returns the traits of this repository by name."""
    names = sorted(os.listdir(f"{ROOT}/crates"))
    every = [it for name in names if os.path.exists(f"{ROOT}/crates/{name}/src/lib.rt") for it in crate(name).all_items()]
    return {it.name: it for it in every if it.kind == "trait"}


@functools.cache
def public_keys():
    return {item.key for name in CRATES for _, item, _ in crate(name).public_items()}


def has_entry(item):
    return item.key in public_keys()


def add_implemented(entry, impls, found):
    """Adds the traits that a type implements, each with its ghost members and the clauses that its calls have beside the trait's."""
    lines = []
    for item in impls:
        trait = traits().get(target_of(item)[0].rpartition("::")[2])
        laws = {it.name for it in trait.members("ghost") if is_law(it)} if trait else set()
        labels = {it.name: {clause.label for clause in it.clauses} for it in trait.members("fn")} if trait else {}
        docs = f": {one_line(item.docs)}" if item.docs else ""
        name = f"[{code(trait_text(item))}](\0{trait.key}\0)" if trait and has_entry(trait) else code(trait_text(item))
        lines.append(f"- {name}{docs}")
        lines += [f"  - {code(one_line(it.head))}" for it in item.items if it.kind == "type"]
        for it in item.members("ghost"):
            if it.name not in laws:
                lines.append(f"  - **{it.name}**: {code(ghost_text(it))}")
                found.update(words_of_item(it, [ghost_text(it)]))
        for it in item.members("fn"):
            more = [clause for clause in it.clauses if clause.label not in labels.get(it.name, set())]
            if more:
                lines += [f"  - {code(it.name)}", *clause_lines(more, "    ")]
                found.update(words_of_item(it, [clause.text for clause in more]))
    entry.add("list", ("Implements", lines) if lines else None)
    entry.add_words(found)


@functools.cache
def all_pages():
    """Returns the pages of all crates of `CRATES`."""
    return [CratePage(name) for name in CRATES]
