"""Checks that each name in code on the pages exists: names of clauses, calls and definitions in the crates, and paths of files. A call, as
`f(x)`, has to name a function of a crate other than those of tests.

Commands, licenses and names of the toolchain are skipped, and so are pages that quote the Rust crate. A word of the glossary has to be
defined in the file that its row or the last one before it leads to. A link has to lead to a file, and to a heading there."""
import os
import re

from api.meanings import MEANINGS
from sources.items import ROOT, files_below, items_in_file, source
from sources.pages import read, words_of_glossary
from sources.words import spec

PAGES = (
    "README.md", "CHANGELOG.md", "CONTRIBUTING.md", "docs/ARCHITECTURE.md", "docs/CLI.md", "docs/DIAGRAMS.md", "docs/GLOSSARY.md",
    "docs/GUARANTEES.md", "docs/GUIDE.md", "docs/PROOF_GUIDE.md", "docs/DECISIONS.md",
)
SKIPPED = re.compile(r"rt |--|error\[|this crate|it is not|the run|expected a|rattle|LICENSE|HANDLES|RT_JOBS|proofs/m/|proofs/FUNCTION|proofs/MODULE|proofs/NAME|mod NAME|Rattle.mine|SHORTER_PROOFS|crates/mine|mine:|crates.txt|Lts|Tie")

# `f` is any function, and `same` compares texts in tests.
OTHER_CALLS = {"f", "same"}


def path_exists(path, all_files):
    """Returns whether a path exists from the root, from crates/ or docs/, or in some crate."""
    if any(os.path.exists(f"{ROOT}/{it}{path}") for it in ("", "crates/", "docs/")):
        return True
    return any(f"/{path}" in it for it in all_files)


def definitions(path):
    """Returns the names that a file defines, or none if there is no such file."""
    if not os.path.isfile(f"{ROOT}/{path}"):
        return set()
    if path.endswith(".antt"):
        words = spec(path).words
        return {*words, *(name for it in words.values() for name in it.fields)}
    inside = re.findall(r"^\s*(?:pub )?(\w+)\s*(?:[,({]|$)", source(path).code, flags=re.M)
    return {*(it.name for it in items_in_file(path)), *inside}


def callable_names():
    """Returns the names of all functions, variants, macros and definitions of the crates, other than those of tests."""
    found = set()
    for path in files_below("crates"):
        if re.match(r"crates/\w+_(tests|mutants)/", path):
            continue
        if path.endswith(".rt") and "/src/" in path and "/tests" not in path:
            items = list(items_in_file(path))
            found.update(it.name for it in items if it.kind in ("fn", "macro_rules!"))
            found.update(name for it in items if it.kind == "enum" and it.body for name in re.findall(r"^\s*(\w+)", it.file.code[it.body[0] : it.body[1]], flags=re.M))
    return found


def call_problems():
    """Yields the calls on the pages, as `f(x)`, whose function no crate defines."""
    known = callable_names() | OTHER_CALLS
    for page in PAGES:
        for code in re.findall(r"`([^`\n]+)`", re.sub(r"```.*?```", "", read(page), flags=re.S)):
            for name in re.findall(r"(?<![\w#\]])([a-z_]\w*)\(", code):
                if name not in known:
                    yield f"{page}: no crate has a function {name}"


def glossary_problems():
    """Yields the words of the glossary that their file does not define."""
    for name, path, _ in words_of_glossary():
        if re.split(r"[.:\s]", name)[-1] not in definitions(path):
            yield f"docs/GLOSSARY.md: {name} in {path}"


def meaning_problems():
    """Yields the words in tools/api/meanings.py that their file does not define."""
    for path, words in MEANINGS.items():
        for name in words:
            if name not in definitions(path):
                yield f"tools/api/meanings.py: {name} in {path}"


def anchors(path):
    """Returns the anchors of the headings of a page."""
    found, text = {}, re.sub(r"```.*?```", "", read(path), flags=re.S)
    for heading in re.findall(r"^#+ (.*)$", text, flags=re.M):
        name = re.sub(r"\[([^\]]*)\]\([^)]*\)", r"\1", heading).replace("`", "")
        slug = re.sub(r"[^\w\s-]", "", name.lower()).replace(" ", "-")
        found[slug] = found.get(slug, -1) + 1
    return {slug if k == 0 else f"{slug}-{k}" for slug, count in found.items() for k in range(count + 1)}


def link_problems():
    """Yields the links of the pages that lead nowhere."""
    pages = [it for it in files_below("docs", "compare", "crates") if it.endswith(".md") and not it.startswith("docs/api/")]
    for page in [*(it for it in os.listdir(ROOT) if it.endswith(".md")), *pages]:
        for target in re.findall(r"\]\(([^)\s]+)\)", re.sub(r"```.*?```|`[^`\n]*`", "", read(page), flags=re.S)):
            if target.startswith("http"):
                continue
            path, _, anchor = target.partition("#")
            path = os.path.normpath(f"{os.path.dirname(page)}/{path}") if path else page
            if not os.path.exists(f"{ROOT}/{path}") or anchor and path.endswith(".md") and anchor not in anchors(path):
                yield f"{page}: the link to {target} leads nowhere"


def name_problems():
    all_files, words = [f"/{it}" for it in files_below("crates", "bench")], set()
    for path in all_files:
        with open(f"{ROOT}{path}", encoding="utf-8", errors="replace") as file:
            words.update(re.findall(r"[A-Za-z_][A-Za-z0-9_']*", f"{path} {file.read()}"))
    for page in PAGES:
        text = re.sub(r"```.*?```", "", read(page), flags=re.S)
        for code in re.findall(r"`([^`\n]+)`", text):
            if SKIPPED.match(code):
                continue
            if command := re.match(r"(tools/\w+|compare/run) ([a-z]\w*)?", code):
                # A subcommand of `tools/test` is a script.
                script = f"tools/tests/{command[2]}" if command[1] == "tools/test" and command[2] else command[1]
                code = script if command[2] != "all" else command[1]
            if re.fullmatch(r"[\w.+-]*/[\w./+-]*", code):
                if not path_exists(code, all_files):
                    yield f"{page}: {code}"
                continue
            for name in re.findall(r"[A-Za-z_][A-Za-z0-9_']*\*?", code):
                known = name in words or name.endswith("*") and any(it.startswith(name[:-1]) for it in words)
                if not known:
                    yield f"{page}: {name} in {code}"


def problems():
    return sorted({*name_problems(), *call_problems(), *glossary_problems(), *meaning_problems(), *link_problems()})
