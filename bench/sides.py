"""Builds the programs that are measured: ours, which is proved, and those of compare/, which cargo builds."""
import os
import shutil
import subprocess
import sys
from typing import NamedTuple

ROOT = os.path.dirname(os.path.dirname(os.path.abspath(__file__)))

# Arguments, and the output that they must have: 400 operations, in two rounds over 200 links. The sum was computed independently of the
# program. Link k has the index k, the generation 2 and the value (k - 1) % 10. A round starts with the sum 0. Each link multiplies it
# by 31 and adds (2^33 + k) xor value, modulo 2^64.
CHECKED_RUN = ["walk", "200", "10", "2", "all"], "walk: 400 operations, sum 11310695771671459584\n"

# The folder of Debian's packages of Rust sources. Cargo can use it as a directory source.
DEBIAN = "/usr/share/cargo/registry"


class Side(NamedTuple):
    """Equivalent programs, each a command without the arguments of a case. The better one counts."""

    name: str
    programs: list


def crates_below(name):
    """Returns the lines of crates.txt of a crate and of all crates that it uses."""
    with open(f"{ROOT}/crates.txt", encoding="utf-8") as file:
        lines = {line.partition(":")[0]: line for line in file.read().splitlines() if ":" in line}
    below = [name, *lines[name].partition(":")[2].split()]
    return {it: lines[it] for it in below}


# The programs over our library, each with its name in tables, the bytes of a value, and the types of its pointers and values.
OURS = {
    "chain_bench": ("ours", 4, "ToolPtr", "u32"),
    "chain_bench_slim": ("ours, slim", 4, "SlimPtr", "u32"),
    "chain_bench_8": ("ours", 8, "ToolPtr", "u64"),
    "chain_bench_slim_8": ("ours, slim", 8, "SlimPtr", "u64"),
}


def make_workspace(workspace, names):
    """Writes a workspace with programs of OURS and copies of built crates of this repository."""
    lines = [f"{name}: arena_base arena_ptr chain_arena" for name in names]
    copy_crates(workspace, ["chain_arena"], lines)
    for name in names:
        write_program(f"{workspace}/crates/{name}", *OURS[name][2:])


def copy_crates(workspace, crates, programs):
    """Writes a workspace with copies of crates of this repository, once built, and with these lines for programs."""
    below = {}
    for crate in crates:
        below.update(crates_below(crate))
        run = subprocess.run(["rt", "lib"], cwd=f"{ROOT}/crates/{crate}", stdin=subprocess.DEVNULL, capture_output=True, text=True)
        if run.returncode:
            sys.exit(f"{crate}: rt lib exited with status {run.returncode}\n{run.stdout[-2000:]}{run.stderr[-2000:]}")
    for crate in below:
        for part in ("src", "specs", "proofs", "out/rlib"):
            copy = f"{workspace}/crates/{crate}/{part}"
            shutil.rmtree(copy, ignore_errors=True)
            shutil.copytree(f"{ROOT}/crates/{crate}/{part}", copy)
    with open(f"{workspace}/crates.txt", "w", encoding="utf-8") as file:
        file.write("\n".join([*below.values(), *programs, ""]))
    shutil.copyfile(f"{ROOT}/HANDLES", f"{workspace}/HANDLES")


def write_program(folder, pointer, value):
    """Writes the program of bench/ for a type of pointers and one of values."""
    types = {"pub type Ptr = arena_ptr::ToolPtr;": f"pub type Ptr = arena_ptr::{pointer};", "pub type Value = u32;": f"pub type Value = {value};"}
    write_sources(folder, f"{ROOT}/bench", types)


def write_sources(folder, sources, replaced):
    """Writes a crate with the `.rt.txt` files of a folder, after replacements in them, and without proofs by hand."""
    shutil.rmtree(f"{folder}/src", ignore_errors=True)
    for part in ("src", "specs", "proofs"):
        os.makedirs(f"{folder}/{part}", exist_ok=True)
    for part in ("specs", "proofs"):
        open(f"{folder}/{part}/Lib.antt", "w", encoding="utf-8").close()
    for name in os.listdir(sources):
        if name.endswith(".rt.txt"):
            with open(f"{sources}/{name}", encoding="utf-8") as file:
                text = file.read()
            for old, new in replaced.items():
                text = text.replace(old, new)
            with open(f"{folder}/src/{name[:-len('.txt')]}", "w", encoding="utf-8") as file:
                file.write(text)


def build_proved(folder, *arguments):
    """Proves, builds and runs the program of a crate's folder. Returns its path and its output."""
    run = subprocess.run(["rt", "run", "--", *arguments], cwd=folder, stdin=subprocess.DEVNULL, capture_output=True, text=True)
    if run.returncode:
        sys.exit(f"{folder}: rt run exited with status {run.returncode}\n{run.stdout[-2000:]}{run.stderr[-2000:]}")
    return f"{folder}/out/{os.path.basename(folder)}", run.stdout


def our_sides(options):
    """Returns the sides over our library, after a check of the output of one run of each."""
    names = [name for name in OURS if OURS[name][1] == options.value_bytes]
    if not options.bench:
        make_workspace(options.workspace, names)
    return [our_side(options, name) for name in names]


def our_side(options, name):
    arguments, expected = CHECKED_RUN
    program = f"{os.path.abspath(options.bench)}/{name}" if options.bench else build_proved(f"{options.workspace}/crates/{name}", *arguments)[0]
    output = subprocess.run([program, *arguments], capture_output=True, text=True).stdout
    if output != expected:
        sys.exit(f"{name} {' '.join(arguments)}: it wrote {output!r} instead of {expected!r}")
    return Side(OURS[name][0], [[program]])


def tool(options):
    """Returns the path of chain_tool, the program of docs/CLI.md."""
    return os.path.abspath(options.tool) if options.tool else build_proved(f"{ROOT}/crates/chain_tool")[0]


def cargo_build(folder, profile, *cargo_options):
    """Builds the programs of a package. Returns their folder and "", or `None` and the error."""
    command = ["cargo", "build", "--quiet", "--profile", profile, *cargo_options]
    run = subprocess.run(command, cwd=folder, capture_output=True, text=True, env={**os.environ, "CARGO_NET_RETRY": "0"})
    if run.returncode:
        errors = [line for line in run.stderr.splitlines() if line.startswith("error")]
        return None, (errors or [f"status {run.returncode}"])[0]
    return f"{os.environ.get('CARGO_TARGET_DIR', f'{folder}/target')}/{profile}", ""


def rust_sides(options):
    """Returns the Rust sides, the commands of the Rust programs that execute lines, and notes on what is left out."""
    if not shutil.which("cargo"):
        return [], [], ["There is no cargo on this machine: only our side is measured."]
    cargo_options = []
    if options.triple_arena:
        path = os.path.abspath(options.triple_arena)
        cargo_options = ["--offline", "--config", f'patch.crates-io.triple_arena.path="{path}"']
    folder, error = cargo_build(f"{ROOT}/compare", "timing", *cargo_options)
    other, error = cargo_build(f"{ROOT}/compare", "timing-one-unit", *cargo_options) if folder else (None, error)
    if other is None:
        return [], [], [f"The crate triple_arena is not available ({error}): only our side is measured. --triple-arena FOLDER uses a copy."]
    programs = [[f"{it}/time"] for it in (folder, other)]
    responses = [[f"{it}/responses"] for it in (folder, other)]
    if options.value_bytes == 8:
        return [Side("Rust", [[f"{it}/time_long"] for it in (folder, other)])], responses, []
    sides = [Side("Rust", programs), Side("Rust, 24 bytes", [[*command, "--wide"] for command in programs])]
    slotmap, notes = slotmap_sides(cargo_options)
    return sides + slotmap, responses, notes


def debian_options():
    """Returns the options by which cargo takes crates from Debian's packages, if they are on this machine."""
    if not os.path.isdir(DEBIAN):
        return []
    return ["--config", 'source.crates-io.replace-with="debian"', "--config", f'source.debian.directory="{DEBIAN}"']


def slotmap_sides(cargo_options):
    """Returns the side over a SlotMap, if it can be built, and a note if not.

    Offline, the sources of slotmap are those of Debian's package librust-slotmap-dev.
    """
    if cargo_options:
        cargo_options = [*cargo_options, *debian_options()]
    folder, error = cargo_build(f"{ROOT}/compare/slotmap_links", "release", *cargo_options)
    if folder is None:
        return [], [f"slotmap is not available ({error}): it is left out."]
    return [Side("slotmap", [[f"{folder}/slotmap_links"]])], []
