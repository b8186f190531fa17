"""Checks the examples of the pages.

Read from the pages and sources:

- The lines of the example session of docs/CLI.md are `crates/chain_tool/sample`. They have the same responses in the script on which
  `rt ci` runs the program, `crates/chain_tool/stdin` and `stdout`.
- README's diagram is in the docs of `crates/chain_arena`.
- Each example below has not been changed since it last passed: its sum is in `tested_examples.txt`, which a run writes.
- The examples of docs/PROOF_GUIDE.md are in `crates/chain_examples`, which `rt ci` proves.

Run by `rt try`, without proofs, in copies of this repository:

- README's example passes its test, and that of the docs of `crates/chain_arena` returns true. So do the examples in the doc comments of
  calls: each is the body of a test with the runtime `rt` and the allocator `alloc`.
- So do GUIDE's examples under 'I want to', after the chains that they begin with; one with an `fn` stands beside them.
- So do the examples in the READMEs of `linked_lists`, `documents` and `run_queues`.
- README's commands succeed, other than the gate."""
import hashlib
import os
import re
import shutil
import subprocess
import tempfile
import textwrap

from sources.items import ROOT, files_below, items_in_file
from sources.pages import code_blocks, read, table_rows

TESTED = "tools/checks/tested_examples.txt"

# The crates whose READMEs have an example, and the line for it.
LISTS = ("linked_lists", "documents", "run_queues")
LISTS_LINE = "mine: arena_core arena_ptr arena_traits chain_arena chain_laws chain_links chain_lists chain_renumbering chain_traits " + " ".join(LISTS)

# Before the tests made from doc comments.
DOC_TESTS = """#![tactic(auto)]

use arena_base::{ArenaSlot, ArenaTrait};
use arena_ptr::{ChainInsertionError, LimitedStack, PtrKey, SetMaxCapacity, ToolPtr};
use chain_arena::{ChainArena, ChainArenaTrait, LinkInsertKind, LinkNoGen};
use chain_traits::walks::for_each_in_chain;
use std::alloc::Global;
"""

# The chains that GUIDE's examples begin with.
GUIDE_CHAINS = """let mut arena: ChainArena<ToolPtr, u32> = ChainArena::new(alloc);
let a = arena.insert_reallocating(LinkInsertKind::Disconnected, 1)?;
let b = arena.insert_reallocating(LinkInsertKind::ChainEnd(a), 2)?;
let c = arena.insert_reallocating(LinkInsertKind::ChainEnd(b), 3)?;
let d = arena.insert_reallocating(LinkInsertKind::SingleLinkCyclic, 4)?;
let e = arena.insert_reallocating(LinkInsertKind::NextTo(d), 5)?;
"""


def session():
    """Returns the lines of the example session of docs/CLI.md with their responses."""
    page = read("docs/CLI.md")
    part = page[page.index("## Example session") : page.index("## Commands")]
    return [tuple(it.strip("`") for it in cells) for cells in table_rows(part)]


def script_with_responses():
    """Returns each line of the program's script that has a response, with its response. A byte is a character."""
    script, responses = (read(f"crates/chain_tool/{name}", "latin-1") for name in ("stdin", "stdout"))
    lines = [line for line in script.split("\n") if len(line) > 200 or line.removesuffix("\r").strip(" ")]
    return list(zip(lines, responses.removesuffix("\n").split("\n"), strict=True))


def session_is_sample():
    script, rows = script_with_responses(), session()
    is_in_script = any(script[at : at + len(rows)] == rows for at in range(len(script)))
    return is_in_script and [line for line, _ in rows] == read("crates/chain_tool/sample").splitlines()


def doc_comment_examples():
    """Returns the Rust code in the doc comments of all crates."""
    paths = [it for it in files_below("crates") if it.endswith(".rt") and "/src/" in it and "```rust" in read(it)]
    return [code for path in paths for it in items_in_file(path) for code in code_blocks(it.docs, "rust")]


def crate_docs():
    return "".join(f"{line[4:]}\n" for line in read("crates/chain_arena/src/lib.rt").splitlines() if line.startswith("//!"))


def problems():
    if not session_is_sample():
        yield "docs/CLI.md: the example session is not the sample of the program, with the responses of its script"
    if code_blocks(read("README.md"), "text")[0] not in crate_docs():
        yield "README.md: the diagram is not in the docs of chain_arena"
    tutorial = read("crates/chain_examples/src/tutorial.rt")
    for it in code_blocks(read("docs/PROOF_GUIDE.md"), "rust"):
        if it not in tutorial:
            yield f"docs/PROOF_GUIDE.md: this example is not in tutorial.rt: {it.splitlines()[0]} .."
    tested = read(TESTED).split() if os.path.isfile(f"{ROOT}/{TESTED}") else []
    for where, *suite in suites():
        if sum_of(suite) not in tested:
            yield f"{where}: an example was changed, and has not passed since: tools/check --run examples"


# ---------------------------------------------------------------- with the toolchain


def guide_examples():
    """Returns GUIDE's examples under 'I want to': the bodies of tests, and the items beside them."""
    page = read("docs/GUIDE.md")
    codes = code_blocks(page[page.index("## I want to") : page.index("## Errors")], "rust")
    items = [it for it in codes if re.search(r"^fn ", it, re.M)]
    return [GUIDE_CHAINS + it for it in codes if it not in items], items


def test_of(name, code):
    body = textwrap.indent(code, "    ")
    return f"#[test]\nfn {name}(rt: HostRuntime) -> Result<(), ChainInsertionError> {{\n    let alloc: Global = rt.alloc();\n{body}    Ok(())\n}}\n"


def doc_tests(examples, items=()):
    tests = [test_of(f"example_{k}", code) for k, code in enumerate(examples, 1)]
    return "\n".join([DOC_TESTS, *items, *tests])


def readme_test(name):
    """Returns the example in the README of a crate, as the root file of a crate with one test."""
    lines = code_blocks(read(f"crates/{name}/README.md"), "rust")[0].splitlines()
    uses = ["use arena_ptr::ChainInsertionError;", *(it for it in lines if it.startswith("use ")), "use std::alloc::Global;"]
    code = "\n".join(it for it in lines if not it.startswith("use ")) + "\n"
    return "#![tactic(auto)]\n\n" + "\n".join(uses) + "\n\n" + test_of("example", code)


def with_test(code):
    """Returns the code with a test that its one function, of an allocator, returns true."""
    name = re.search(r"pub fn (\w+)", code)[1]
    return f"{code}\n#[test]\nfn example(rt: HostRuntime) {{\n    assert!(rt; {name}(rt.alloc()) == Ok(true));\n}}\n"


def passes_tests(line, code, count):
    """Returns whether the tests of a crate `mine` with this code pass, which are `count`. Its line is added to crates.txt."""
    with tempfile.TemporaryDirectory() as folder:
        copy = f"{folder}/copy"
        shutil.copytree(ROOT, copy, ignore=shutil.ignore_patterns("out"), symlinks=True)
        os.makedirs(f"{copy}/crates/mine/src")
        with open(f"{copy}/crates/mine/src/lib.rt", "w", encoding="utf-8") as file:
            file.write(code)
        with open(f"{copy}/crates.txt", "a", encoding="utf-8") as file:
            file.write(line + "\n")
        run = subprocess.run(["rt", "try", "--test"], cwd=f"{copy}/crates/mine", capture_output=True, text=True)
    return f"test result: ok. {count} passed" in run.stdout + run.stderr


def crate_line(page):
    """Returns the line of README for crates.txt."""
    return re.search(r"the line `(mine: [^`]*)`", page)[1]


def commands_succeed(page):
    """Runs README's commands: the program on its sample, and a copy into another repository. The gate is not run."""
    lines = [line.partition("#")[0].strip() for block in code_blocks(page, "sh") for line in block.splitlines()]
    commands = [it for it in lines if it]
    if len(commands) != 3 or commands[1] != ".ci/run":
        return False
    program = subprocess.run(["bash", "-c", commands[0]], cwd=ROOT, capture_output=True, text=True)
    with tempfile.TemporaryDirectory() as dest:
        script = commands[2].replace("DEST", dest)
        vendor = subprocess.run(["bash", "-c", script], cwd=ROOT, capture_output=True, text=True)
    responses = "".join(f"{response}\n" for _, response in session())
    return program.stdout == responses and vendor.returncode == 0


def suites():
    """Yields the examples that are run: where they are, the line for crates.txt, the root file, and how many tests it has."""
    page, examples = read("README.md"), doc_comment_examples()
    bodies, items = guide_examples()
    line = crate_line(page)
    yield "README.md", line, code_blocks(page, "rust")[0], 1
    yield "crates/chain_arena/src/lib.rt", line, with_test(code_blocks(crate_docs(), "rust")[0]), 1
    yield "doc comments", f"{line} chain_traits", doc_tests(examples), len(examples)
    yield "docs/GUIDE.md", f"{line} chain_traits", doc_tests(bodies, items), len(bodies)
    for name in LISTS:
        yield f"crates/{name}/README.md", LISTS_LINE, readme_test(name), 1


def sum_of(suite):
    return hashlib.sha256(repr(suite).encode()).hexdigest()[:32]


def run_problems():
    passed = []
    for where, *suite in suites():
        if passes_tests(*suite):
            passed.append(sum_of(suite))
        else:
            yield f"{where}: an example does not pass its test"
    with open(f"{ROOT}/{TESTED}", "w", encoding="utf-8") as file:
        file.write("".join(f"{it}\n" for it in passed))
    if not commands_succeed(read("README.md")):
        yield "README.md: a command does not succeed, or the program does not print the responses of the session"
