"""Prints the tables of docs/BENCHMARKS.md."""
import statistics
import sys

from lines import KINDS, instructions_of_lines
from measures import NotSupported, Times, instructions_of_operation, peak_of_link

CASES = {
    "insert": "insertion of a lone link, starting from an empty arena",
    "insert_end": "insertion at the end of a chain",
    "insert_beside": "insertion after a random link",
    "insert_beside_roomy": "the same, with capacity for all links",
    "exchange": "exchange of the next links of two random links",
    "break_connect": "break after a random link, then reconnection",
    "replace": "removal of a random link, then insertion after another",
    "move_after": "move of a random link after another, a call of ours alone",
    "reverse": "one link of reversals of each chain, a call of ours alone",
    "get_link": "lookup of a random link, by `get_link`",
    "walk": "one link of walks along all chains, by `iter_chain`",
    "advance": "the same, by `advancer_chain`",
    "iterate": "one link of an iteration by index, by `iter_link_no_gen`",
    "drain_chains": "one link of drains of one chain after another",
    "drain_interleaved": "the same, of chains that grew in turn",
    "drain": "one link of a drain of all links",
    "drain_tangled": "the same, with chains at random indexes",
    "copy": "one link of a clone",
    "compress": "one link of a compression, with a hole after each link",
    "canonical_tangled": "one link of a canonical compression, with chains at random indexes",
    "canonical_interleaved": "the same, with chains that grew in turn",
    "canonical_holes": "the same, with chains in order and a hole after each link",
    "canonical_rested": "the same, with chains in order",
    "canonical_behind": "the same, with chains in order after as many holes as links",
    "canonical_permuted": "the same, with the cycles of a random permutation",
    "canonical_permuted_holes": "the same, with half of the links removed at random",
    "canonical_permuted_behind": "the cycles of a random permutation after as many holes as links",
    "transfer": "one link of a transfer to another arena",
    "transfer_permuted": "the same, with the cycles of a random permutation",
}


def table(headers, rows):
    print("|" + "|".join(headers) + "|")
    print("|" + "---|" * len(headers))
    for row in rows:
        print("|" + "|".join(row) + "|", flush=True)
    print()


def selection(options, names):
    return [name for name in names if not options.only or name in options.only]


def ratio(one, other):
    if one is None or not other:
        return ""
    return f"{one / other:.2f}" if one > 0.1 * other else f"{one / other:.1g}"


def ratio_columns(sides):
    """Returns the columns of ratios, each its header and the positions of its two sides: of ours to each other one, and of slim to the Rust."""
    names = [side.name for side in sides]
    columns = [(f"ours / {name}", 0, k) for k, name in enumerate(names) if not name.startswith("ours")]
    if "ours, slim" in names and "Rust" in names:
        columns.append(("slim / Rust", names.index("ours, slim"), names.index("Rust")))
    return columns


def ratio_headers(sides):
    return [header for header, _, _ in ratio_columns(sides)]


def ratios(sides, numbers):
    return [ratio(numbers[one], numbers[other]) for _, one, other in ratio_columns(sides)]


def print_operations(options):
    """Prints what an operation of each case is."""
    table(["case", "operation"], [[f"`{case}`", CASES[case]] for case in selection(options, CASES)])


def print_instructions(options, sides):
    """Prints the instructions of an operation."""
    rows = []
    for case in selection(options, CASES):
        numbers = [instructions_or_none(side, case, options) for side in sides]
        cells = ["" if number is None else f"{number:.1f}" for number in numbers]
        rows.append([f"`{case}`", *cells, *ratios(sides, numbers)])
    if rows:
        print(f"Instructions of an operation, {options.links[0]:,} links:\n")
        table(["case", *(side.name for side in sides), *ratio_headers(sides)], rows)


def instructions_or_none(side, case, options):
    try:
        return instructions_of_operation(side, case, options.links[0], options.chain)
    except NotSupported:
        return None


def print_times(options, sides, links):
    """Prints the nanoseconds of an operation: the best run, and the median in parentheses."""
    rows = []
    for case in selection(options, CASES):
        times = Times(case, links, options.chain).measure(sides, options.runs, options.seconds)
        bests = [times.best(side.name) for side in sides]
        cells = [cell_of(times, side.name) for side in sides]
        rows.append([f"`{case}`", *cells, *ratios(sides, bests)])
        print(f"{links:,} links, {case}: {', '.join(cells)}", file=sys.stderr, flush=True)
    if rows:
        print(f"Nanoseconds of an operation, {links:,} links, best of {options.runs} runs (median):\n")
        table(["case", *(side.name for side in sides), *ratio_headers(sides)], rows)


def cell_of(times, name):
    numbers = times.of(name)
    if not numbers:
        return times.reason(name)
    return f"{min(numbers):.1f} ({statistics.median(numbers):.1f})"


def print_memory(options, sides):
    """Prints the memory at the peak of a run, and the longest insertion."""
    fewer, more = sorted(options.links)[-2:] if len(options.links) > 1 else (options.links[0] // 2, options.links[0])
    rows = []
    for case in selection(options, ("insert", "canonical_tangled", "transfer")):
        peaks = [peak_of_link(side, case, fewer, more, options.chain) for side in sides]
        rows.append([f"`{case}`", *("" if bytes_ is None else f"{bytes_:.1f}" for bytes_ in peaks)])
    if not options.only or "insert" in options.only:
        times = Times("insert", more, options.chain, "longest").measure(sides, options.runs, options.seconds)
        rows.append(["longest insertion, microseconds", *(f"{times.best(side.name) / 1000:.0f}" for side in sides)])
    if rows:
        print(f"Bytes of a link at the peak, from {fewer:,} to {more:,} links, and the longest of {more:,} insertions:\n")
        table(["case", *(side.name for side in sides)], rows)


def print_lines(options, tool, rust_programs):
    """Prints the instructions of a command, for chain_tool and for the Rust programs that execute the same lines."""
    rows = []
    for kind in selection(options, KINDS):
        commands, unit = KINDS[kind][1:]
        ours, *rust = instructions_of_lines([[tool], *rust_programs], kind, options)
        rows.append([f"`{kind}`", commands, unit, f"{ours:.1f}", *([f"{min(rust):.1f}", ratio(ours, min(rust))] if rust else [])])
    if rows:
        print(f"Instructions of a command, or of a link, over {options.links[0]:,} links:\n")
        table(["lines", "commands", "per", "ours", *(["Rust", "ours / Rust"] if rust_programs else [])], rows)
