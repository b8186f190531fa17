"""Measures unions and lookups of `SurjectArena`, petgraph's `UnionFind` and two plain arrays, and prints a table in Markdown.

Our side is the program in `bench/sets/`, which `rt run` proves and builds in a workspace with copies of this repository's crates. The
other two are built by cargo from `bench/sets/petgraph`. Each run unites as many random pairs as there are keys, and the lookups come
after all paths of the other sides are compressed. Runs alternate between the sides, and the best counts. Each prints a sum over what
its calls returned. If that of a side differs from ours, this program exits."""
import argparse
import sys
import tempfile

import measures
import sides
from sides import ROOT

CASES = {"union": "`union` of two random keys' sets", "same": "`in_same_set` of two random keys", "value": "`get_val` of a random key"}


def our_program(workspace):
    line = "set_bench: arena_base arena_ptr chain_arena surject_arena"
    sides.copy_crates(workspace, ["chain_arena", "surject_arena"], [line])
    folder = f"{workspace}/crates/set_bench"
    sides.write_sources(folder, f"{ROOT}/bench/sets", {})
    return sides.build_proved(folder, "union", "200")[0]


def other_programs():
    folder, error = sides.cargo_build(f"{ROOT}/bench/sets/petgraph", "release", "--offline", *sides.debian_options())
    if folder is None:
        sys.exit(f"petgraph is not available ({error})")
    return {"petgraph": [f"{folder}/set_bench"], "arrays": [f"{folder}/set_bench", "--arrays"]}


def best_times(programs, case, keys, runs):
    """Returns the least nanoseconds of an operation of each side."""
    outputs = [{name: measures.output_of([*program, case, str(keys)]) for name, program in programs.items()} for _ in range(runs)]
    for name in programs:
        if outputs[0][name].total != outputs[0]["ours"].total:
            sys.exit(f"{case} {keys}: the sum of {name} differs")
    return {name: min(it[name].nanoseconds for it in outputs) / keys for name in programs}


def print_sets(arguments):
    """Prints the table for the options of `tools/bench sets`."""
    parser = argparse.ArgumentParser(prog="bench sets", description=__doc__, formatter_class=argparse.RawDescriptionHelpFormatter)
    parser.add_argument("--keys", type=int, nargs="+", default=[20_000, 1_000_000], metavar="N", help="the numbers of keys (20000 1000000)")
    parser.add_argument("--runs", type=int, default=15, metavar="N", help="the number of runs (15)")
    parser.add_argument("--workspace", default=f"{tempfile.gettempdir()}/set_bench", metavar="FOLDER", help="the folder in which set_bench is proved and kept")
    options = parser.parse_args(arguments)
    programs = {"ours": [our_program(options.workspace)], **other_programs()}
    print(f"|Nanoseconds an operation|keys|{'|'.join(programs)}|")
    print("|---" * (2 + len(programs)) + "|")
    for keys in options.keys:
        for case, text in CASES.items():
            times = best_times(programs, case, keys, options.runs)
            print(f"|{text}|{keys:,}|{'|'.join(f'{it:.1f}' for it in times.values())}|", flush=True)
