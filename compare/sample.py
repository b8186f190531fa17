"""Writes a script that has each command with each kind, form and response, and the responses of the Rust crate."""
import itertools
import os
import sys

import scripts
from programs import responses_of

# The numbers of lines of three-call scripts, and of the random script.
THREE_CALL_LINES = 8_000
RANDOM_LINES = 11_000

# The responses that each command has while no allocation fails. Those of `add` and `addwithin` are added for each kind and form.
RESPONSES = {
    "connect": ["ok", "none"], "breakprev": ["ok", "none"], "breaknext": ["ok", "none"], "exchange": ["ok", "none"],
    "remove pointer": ["value", "value overflow", "none"], "remove index": ["value", "value overflow", "none"],
    "invalidate": ["at", "at overflow", "none"], "drain": ["count", "none"], "clear": ["ok", "ok overflow"],
    "compress keep": ["ok", "ok overflow"], "compress reset": ["ok"], "canonical keep": ["ok", "ok overflow"],
    "canonical reset": ["ok"], "moves keep": ["moved", "moved overflow"], "moves reset": ["moved"], "reserve": ["ok"], "setgen": ["ok"],
    "incgen": ["ok", "ok overflow"], "show": ["prev", "none"], "chain": ["walk", "none"], "len": ["count"],
}
KINDS = ["alone", "ring"] + [f"{kind} {form}" for kind in ("end", "start", "after", "before", "between", "bridge") for form in ("pointer", "index")]


def required_pairs():
    """Returns all pairs of a command, with its kind and form, and one of its responses."""
    required = {(name, response) for name, responses in RESPONSES.items() for response in responses} | {("bad line", "bad line")}
    for kind in KINDS:
        has_requirement = kind not in ("alone", "ring")
        required |= {(f"add {kind}", it) for it in ["at"] + ["refused link"] * has_requirement}
        required |= {(f"addwithin {kind}", it) for it in ["at", "refused capacity"] + ["refused link"] * has_requirement}
    return required


def form_of(word):
    return "pointer" if "." in word else "index"


def pair_of(line, response):
    """Returns the command of a line, with its kind and form, and the kind of its response."""
    if response == "bad line":
        return response, response
    words = line.decode().split()
    name = words[0]
    if name in ("add", "addwithin"):
        name = " ".join(words[:2] + [form_of(it) for it in words[2:3] if len(words) > 3])
    elif name == "remove":
        name += " " + form_of(words[1])
    elif name in ("compress", "canonical", "moves"):
        name += " " + words[1]
    first = "walk" if words[0] == "chain" and response != "none" else response.split()[0]
    if first == "refused":
        return name, response
    return name, first + " overflow" * response.endswith(" overflow")


def pairs_in(programs, script):
    """Returns the pair of each line that has a response."""
    lines = [line for line in script if scripts.has_response(line)]
    return [pair_of(line, response) for line, response in zip(lines, responses_of(programs.by_transfer(script)), strict=True)]


def three_call_lines(programs):
    """Returns the lines of some three-call scripts. Each has two successive calls with responses that no earlier one has."""
    covered, chosen, count = set(), [], 0
    all_scripts = scripts.three_call_scripts(True)
    while count < THREE_CALL_LINES:
        batch = list(itertools.islice(all_scripts, 0, 97 * 400, 97))
        if not batch:
            break
        pairs = iter(pairs_in(programs, list(itertools.chain(*batch))))
        for script in batch:
            pairs_of_script = list(itertools.islice(pairs, len(script)))
            calls = list(zip(script, pairs_of_script))[len(scripts.SETUP) : -len(scripts.REPORT)]
            successions = {(calls[0], calls[1]), (calls[1], calls[2])}
            if not successions <= covered and count < THREE_CALL_LINES:
                covered |= successions
                chosen.append(script)
                count += len(script)
    return list(itertools.chain(*chosen))


def capacity_lines():
    """Returns insertions within the capacity, of each kind and form. They are refused, and succeed after the arena has grown."""
    lines = ["reserve 2", "addwithin alone 1", "addwithin ring 2"]
    lines += ["addwithin alone 9", "addwithin ring 9", "addwithin bridge 1.2 1.2 9", "addwithin bridge 1 1 9"]
    lines += [f"addwithin {kind} {form} 9" for kind in ("end", "start", "after", "before") for form in ("1.2", "1")]
    lines += ["addwithin between 2.2 2.2 9", "addwithin between 2 2 9", "add after 9 9", "add between 2 2 3"]
    lines += ["addwithin bridge 1 1 4", "addwithin alone 9", "reserve 16"]
    lines += [f"addwithin {kind} {form} 9" for kind in ("end", "start") for form in ("9.9", "9", "2.2", "2")]
    lines += [f"addwithin {kind} {form} 9" for kind in ("after", "before") for form in ("9.9", "9")]
    lines += [f"addwithin {kind} {form} 9" for kind in ("between", "bridge") for form in ("2.2 2.2", "2 2", "9.9 1.2", "9 1")]
    lines += ["addwithin alone 5", "addwithin end 5.2 6", "addwithin end 6 7", "addwithin start 5.2 8", "addwithin start 8 9"]
    lines += ["addwithin after 5.2 10", "addwithin before 5.2 11", "addwithin before 5 12", "addwithin after 5 13", "addwithin ring 14"]
    lines += ["addwithin between 5.2 13.2 15", "addwithin bridge 7.2 9.2 16", "chain 5.2", "chain 2.2", "moves keep", "len", "add alone 17"]
    return lines + ["addwithin alone 18", "reserve 64", "clear"]


def rare_lines():
    """Returns lines whose responses are rare in random scripts."""
    lines = ["setgen 2", "add alone 1", "add ring 2", "add start 2 9", "add start 2.2 9", "add end 2 9", "add end 2.2 9", "add before 9 9"]
    lines += ["add after 9 9", "setgen 4294967295", "clear", "add alone 1", "setgen 4294967295", "remove 1", "add alone 2"]
    return lines + ["setgen 4294967295", "remove 1.2", "add alone 3", "setgen 4294967295", "invalidate 1.2", "incgen", "clear", "setgen 2"]


def sample_script(programs, seed):
    """Returns the script of the sample: rows, three-call scripts, lines that are no commands, and a random script."""
    rows = [line for row in scripts.ROWS for line in ["clear", "setgen 2", *row.split(";")]]
    random_lines = scripts.random_script(f"{seed}.sample", RANDOM_LINES, 60, 64)
    syntax_lines = [line for line in scripts.SYNTAX_LINES if len(line) < 1000]
    three_calls, reset = three_call_lines(programs), ["clear", "setgen 2"]
    parts = [capacity_lines(), rare_lines(), rows, three_calls, reset, syntax_lines, reset, random_lines]
    return [line for part in parts for line in scripts.to_bytes(part)]


def write(programs, seed, folder):
    """Writes the files stdin and stdout of a sample to a folder, and prints how often each pair occurs."""
    script = sample_script(programs, seed)
    count = {}
    for pair in pairs_in(programs, script):
        count[pair] = count.get(pair, 0) + 1
    missing = sorted(required_pairs() - set(count))
    if missing:
        print(f"The sample has none of these: {missing}")
        return 1
    os.makedirs(folder, exist_ok=True)
    for name, text in (("stdin", scripts.text_of(script)), ("stdout", programs.by_transfer(script))):
        with open(f"{folder}/{name}", "wb") as file:
            file.write(text)
    for (name, response), times in sorted(count.items()):
        sys.stdout.write(f"{name}: {response}: {times}\n")
    print(f"{len(script)} lines, {sum(count.values())} responses, {len(count)} kinds of them")
    return 0
