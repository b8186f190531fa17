"""Executes the cases of library_cases.txt on this repository's library.

The sources of the program are in library_cases/. Their names end in `.txt`, so that the gate does not read them. They are copied to
a temporary workspace with copies of the crates. There `rt try` compiles and runs the program. It proves nothing.
"""
import os
import shutil
import subprocess
import tempfile

HERE = os.path.dirname(os.path.abspath(__file__))
ROOT = os.path.dirname(HERE)
PROGRAM = "library_cases"
LIBRARY = "chain_arena"


def crates_of_library():
    """Returns the line of crates.txt of the library, and of each crate that it uses, by the crate's name."""
    with open(f"{ROOT}/crates.txt", encoding="utf-8") as file:
        lines = {line.partition(":")[0]: line for line in file.read().splitlines() if ":" in line}
    names = [LIBRARY, *lines[LIBRARY].partition(":")[2].split()]
    return {name: lines[name] for name in names}


def make_workspace(workspace):
    """Writes a workspace with the program and copies of the crates. Returns the program's folder."""
    crates = crates_of_library()
    for name in crates:
        for part in ("src", "specs", "proofs"):
            shutil.copytree(f"{ROOT}/crates/{name}/{part}", f"{workspace}/crates/{name}/{part}")
    folder = f"{workspace}/crates/{PROGRAM}"
    for part in ("src", "specs", "proofs"):
        os.makedirs(f"{folder}/{part}")
    for part in ("specs", "proofs"):
        open(f"{folder}/{part}/Lib.antt", "w", encoding="utf-8").close()
    for name in os.listdir(f"{HERE}/{PROGRAM}"):
        shutil.copyfile(f"{HERE}/{PROGRAM}/{name}", f"{folder}/src/{name.removesuffix('.txt')}")
    with open(f"{workspace}/crates.txt", "w", encoding="utf-8") as file:
        file.write("\n".join([*crates.values(), f"{PROGRAM}: {' '.join(crates)}", ""]))
    shutil.copyfile(f"{ROOT}/HANDLES", f"{workspace}/HANDLES")
    return folder


def run_cases(cases):
    """Builds the program and runs it on the cases. Returns the process, which has ended."""
    with tempfile.TemporaryDirectory() as workspace:
        folder = make_workspace(workspace)
        return subprocess.run(["rt", "try"], cwd=folder, input=cases, capture_output=True, text=True, check=False)
