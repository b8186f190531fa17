"""Checks that each clause that docs/GUARANTEES.md names exists.

Reads the column Clause, which is the last one of a table. A cell has parts separated by `;`:

- `` `f`, `g`: `label` `` names the clause `label` of each function. A method belongs to each type in the heading that has it, or
  to the type before `::`. A function outside of types may be named under any heading. `` `f_*` `` stands for all public functions
  whose names begin with `f_`.
- `` `f` `` alone names a law (a function with an empty body), or a function with a clause that has no label.
- `` `Type`: `label` `` names a `ghost` of a trait or an implementation, or a field of a definition.
- `` `Definition` `` alone names a definition.
- `` `size_of::<T>() == n` `` names a fact that a constant proves.

A name in parentheses has to occur in the clause before it."""
import re

from sources.items import files_below, items_in_file, source, type_names
from sources.pages import read
from sources.words import spec

PAGE = "docs/GUARANTEES.md"
NAMES = re.compile(r"`([^`]+)`(?: \(`(\w+)`\))?")


def add_clauses(clauses, path):
    """Adds the clauses of the functions of a source file, and the ghosts of its types.

    A key of `clauses` is an owner, "" for a free function, and a name. A value has the text of each label.
    """
    for item in items_in_file(path):
        in_block = item.block and item.block.kind in ("impl", "trait")
        owners = type_names(item.block) if in_block else [""]
        if item.kind == "ghost":
            for owner in owners:
                ghosts = clauses.setdefault((owner, ""), {})
                ghosts[item.name] = ghosts.get(item.name, "") + item.file.code[item.at : item.end]
        if item.kind != "fn":
            continue
        public = item.is_public or in_block and (item.block.kind == "trait" or len(owners) > 1)
        for function in [clauses.setdefault((owner, item.name), {}) for owner in owners]:
            if public:
                function["pub"] = ""
            for it in item.clauses:
                function[it.label or None] = function.get(it.label or None, "") + it.text
            if item.body and not item.file.bare[item.body[0] : item.body[1]].strip():
                function.setdefault(None, "")


def add_definitions(clauses, path):
    """Adds the definitions of a file with their fields."""
    for name, word in spec(path).words.items():
        if name == word.name:
            clauses.setdefault((name, ""), {}).update({None: "", **word.fields})


def all_clauses():
    clauses = {}
    for path in files_below("crates"):
        if path.endswith(".rt") and "/src/" in path:
            add_clauses(clauses, path)
    for path in files_below("crates"):
        if path.endswith(".antt") and "/specs/" in path:
            add_definitions(clauses, path)
    return clauses


def clauses_of(clauses, types, subject):
    """Returns the clauses of each function, type or definition that a name stands for."""
    owner, _, name = subject.rpartition("::")
    for candidates in [[owner]] if owner else [types, [""]] if not name[0].isupper() else []:
        public = [(it, other) for (it, other), labels in clauses.items() if it in candidates and "pub" in labels and len(labels) > 1]
        if name.endswith("*"):
            found = [clauses[it] for it in public if it[1].startswith(name[:-1])]
        else:
            found = [clauses[it] for it in public if it[1] == name]
        if found:
            return found
    return [clauses[subject, ""]] if (subject, "") in clauses else []


def proved_facts():
    """Returns the lines of the sources that prove a fact by a constant."""
    sources = [source(it).text for it in files_below("crates") if re.fullmatch(r"crates/\w+/src/\w+\.rt", it)]
    return "".join(re.findall(r"prove!\(.*", "".join(sources)))


def named_clauses():
    """Yields each line of the page that names a clause, with the types in its heading, and its subject, label and word."""
    types, in_table = [], False
    for number, line in enumerate(read(PAGE).splitlines(), 1):
        if line.startswith("#"):
            types = re.findall(r"`(\w+)`", line)
        cell = line.strip("|").split("|")[-1].strip()
        in_table = cell == "Clause" or in_table and line.startswith("|")
        if not in_table or cell == "Clause":
            continue
        for part in cell.split("; "):
            subjects, _, labels = part.partition(": ")
            for subject, alone in NAMES.findall(subjects):
                for label, word in NAMES.findall(labels) or [(None, alone)]:
                    yield number, types, subject, label, word


def problems():
    clauses, facts, found_any = all_clauses(), proved_facts(), False
    for number, types, subject, label, word in named_clauses():
        found_any = True
        found = clauses_of(clauses, types, subject)
        if subject.startswith("size_of"):
            found = [{None: ""}] if subject in facts else []
        if not found or not all(label in it and word in it[label] for it in found):
            yield f"{PAGE}:{number}: {subject}{f': {label}' if label else ''}{f' ({word})' if word else ''}"
    if not found_any:
        yield f"{PAGE}: no clause is named"
