"""The table of what a run of the gate took, of the samples of bench/gate_costs, and what of it is above the budget."""
import collections
import glob
import json
import os
import time

# The budget, in processor seconds.
FUNCTION, CRATE, OF_CHAIN, WRONG_BODIES = 10, 120, 240, 25
# The crates that are older than the budget of a crate. Others owe it.
OLDER = """
    ask_language ask_leaves ask_machine ciravogu config conn conn_trace data_groups event_order frame_loops frame_machine frame_moves frame_words
    frames http_cookies http_frames http_heads
    irule_net journal_text number_table persistence plain_eval pools proxy proxy_core px_bytes px_outside px_real rule_loader rule_model
    rule_nodes seg_buffer serve_loop served_core session_table shared_store tcl_commands tcl_compile tcl_encodings tcl_expr
    tcl_list_commands tcl_lists tcl_strings tcl_var_commands tcl_vars tcl_words""".split()


def read(folder, wait=5):
    """What was sampled of each part, the first one first. A sampler that has just lost its command gets some seconds to write."""
    until = time.time() + wait
    while time.time() < until and not all(os.path.exists(it[: -len(".told")]) for it in glob.glob(f"{folder}/*.told")):
        time.sleep(0.1)
    found = []
    for file in glob.glob(f"{folder}/*.json"):
        with open(file, encoding="utf-8") as it:
            found.append((os.path.basename(file)[: -len(".json")], json.load(it)))
    return sorted(found, key=lambda it: it[1]["began"])


def needs_of(root):
    """The crates of crates.txt, and those that each stands on."""
    found = {}
    with open(f"{root}/crates.txt", encoding="utf-8") as it:
        for line in it:
            name, colon, needs = line.partition("#")[0].partition(":")
            if colon:
                found[name.split()[0]] = needs.split()
    return found


def lines_of(root, crate):
    """The lines of a crate's sources, and of its definitions and proofs."""
    counts = collections.Counter()
    for part in ("src", "specs", "proofs"):
        for at, _, names in os.walk(f"{root}/crates/{crate}/{part}"):
            for name in names:
                with open(f"{at}/{name}", "rb") as it:
                    counts[part] += it.read().count(b"\n")
    return counts["src"], counts["specs"] + counts["proofs"]


class Costs:
    """What each kind of work took at each crate, over all parts."""

    def __init__(self, root, parts):
        self.root, self.parts, self.needs = root, parts, needs_of(root)
        # Checks that change nothing are no wrong bodies.
        is_of = lambda part, it: it["kind"] != "wrong bodies" or "unchanged" not in part
        self.checks = [(it, told["began"]) for part, told in parts for it in told["checks"] if is_of(part, it)]
        self.seconds, self.bytes = collections.Counter(), collections.Counter()
        self.spans, self.each = {}, collections.defaultdict(list)
        for it, began in self.checks:
            key = it["kind"], it["crate"]
            self.seconds[key] += it["seconds"]
            self.bytes[key] = max(self.bytes[key], it["bytes"])
            self.each[key].append(it["seconds"])
            from_, to = (it["began"] - began) / 60, (it["ended"] - began) / 60
            old = self.spans.get(key, (from_, to))
            self.spans[key] = min(old[0], from_), max(old[1], to)

    def of(self, kind):
        return sum(it for key, it in self.seconds.items() if key[0] == kind)

    def proved(self):
        """The crates that were proved, the dearest first."""
        return sorted((it for kind, it in self.seconds if kind == "proof"), key=lambda it: -self.seconds["proof", it])

    def rate(self, crate):
        """The seconds of a crate's proof for 1,000 lines of its sources."""
        return 1000 * self.seconds["proof", crate] / max(1, lines_of(self.root, crate)[0])

    def is_program(self, crate):
        return os.path.isfile(f"{self.root}/crates/{crate}/src/main.rt")

    def chain(self):
        """The crates that stand on one another and take longest together, the lowest first."""
        best = {}

        def longest(name):
            if name not in best:
                below = max((longest(it) for it in self.needs[name] if it in self.needs), default=(0, []))
                best[name] = below[0] + self.seconds["proof", name], [*below[1], name]
            return best[name]

        return max((longest(it) for it in self.needs), default=(0, []))


def minutes(seconds):
    return f"{seconds / 60:.1f}" if seconds < 600 else f"{seconds / 60:.0f}"


def print_whole(costs):
    programs = [it for it in costs.proved() if costs.is_program(it)]
    of_programs = sum(costs.seconds["proof", it] for it in programs)
    rows = [
        (f"proofs of {len(costs.proved()) - len(programs)} libraries", costs.of("proof") - of_programs),
        (f"proofs of {len(programs)} programs", of_programs),
        ("two compilers of each program", costs.of("compilers")),
        ("tests, proved and compiled", costs.of("tests")),
        ("wrong bodies of `must-fail/`", costs.of("must-fail")),
    ]
    print("| | minutes | processor minutes |\n|---|---:|---:|")
    for at, (name, told) in enumerate(costs.parts):
        if at == 0:
            for row, seconds in [*rows, ("runs of programs and what wasn't sampled", told["seconds"] - sum(it for _, it in rows))]:
                print(f"| {row} | | {minutes(seconds)} |")
        print(f"| {name} | {minutes(told['ended'] - told['began'])} | {minutes(told['seconds'])} |")
    wall, whole = sum(told["ended"] - told["began"] for _, told in costs.parts), sum(told["seconds"] for _, told in costs.parts)
    print(f"| all | {minutes(wall)} | {minutes(whole)} |\n")


def print_crates(costs):
    heads = "crate|src|specs, proofs|proof, s|for 1,000 lines of src|GB|from minute to minute|tests, s|compilers, s|wrong bodies, s".split("|")
    print(f"| {' | '.join(heads)} |\n|---{'|---:' * (len(heads) - 1)}|")
    told = lambda kind, it: f"{costs.seconds[kind, it]:.0f}" if (kind, it) in costs.seconds else ""
    others = sorted({it for _, it in costs.seconds} - {*costs.proved()})
    for it in [*costs.proved(), *others]:
        src, behind = lines_of(costs.root, it)
        span = costs.spans.get(("proof", it))
        when = f"{span[0]:.0f} to {span[1]:.0f}" if span else ""
        rate = f"{costs.rate(it):.0f}" if span else ""
        held = max((held for (_, crate), held in costs.bytes.items() if crate == it), default=0)
        wrong = [second for kind in ("must-fail", "wrong bodies") for second in costs.each[kind, it]]
        tried = f"{sum(wrong):.0f} in {len(wrong)}" if wrong else ""
        cells = [f"`{it}`", f"{src:,}", f"{behind:,}", told("proof", it), rate, f"{held / 1e9:.1f}", when]
        print(f"| {' | '.join([*cells, told('tests', it), told('compilers', it), tried])} |")
    print()


def print_above(costs):
    """Names what is above the budget."""
    timed = [(took, low, it["crate"], name) for it, _ in costs.checks for name, took, low in it["functions"]]
    functions = sorted((it for it in timed if it[0] > FUNCTION), reverse=True)
    print(f"Functions above {FUNCTION} s: {len(functions)}.\n")
    if functions:
        print("| function | s | of which lowering |\n|---|---:|---:|")
        for took, low, crate, name in functions:
            print(f"| `{crate}`, `{name}` | {took:.0f} | {low:.0f} |")
        print()
    dear = [it for it in costs.proved() if costs.rate(it) > CRATE]
    listed = lambda names: ", ".join(f"`{it}` {costs.rate(it):.0f}" for it in names) or "none"
    print(f"New crates above {CRATE} s for 1,000 lines of src: {listed([it for it in dear if it not in OLDER])}.")
    print(f"Older ones above that: {listed([it for it in dear if it in OLDER])}.\n")
    whole, chain = costs.chain()
    print(chain_of(costs, whole, chain))
    over = [it for it in chain if costs.seconds["proof", it] > OF_CHAIN]
    print(f"Of the chain above {OF_CHAIN // 60} minutes: {', '.join(f'`{it}`' for it in over) or 'none'}.\n")
    tried = [(crate, it) for (kind, crate), it in costs.each.items() if it and kind in ("wrong bodies", "must-fail")]
    slow = [(max(it), len(it), crate) for crate, it in tried if max(it) > WRONG_BODIES]
    named = ", ".join(f"`{crate}` {seconds:.0f} of {count}" for seconds, count, crate in sorted(slow, reverse=True))
    print(f"Crates with a check of wrong bodies above {WRONG_BODIES} s, the longest and how many there are: {named or 'none'}.")


def chain_of(costs, whole, chain):
    each = ", ".join("`{}` {}".format(it, minutes(costs.seconds["proof", it])) for it in chain)
    return f"The longest chain takes {minutes(whole)} processor minutes: {each}."


def print_table(root, folder):
    try:
        parts = read(folder)
        if not parts:
            print("gate_costs: nothing was sampled")
            return 0
        for file in glob.glob(f"{folder}/*.told"):
            with open(file, encoding="utf-8") as it:
                print(it.read(), end="")
        costs = Costs(root, parts)
        proved = len(costs.proved())
        print(f"What the gate took, by samples of each second: {proved} of {len(costs.needs)} crates were proved in this run.\n")
        print_whole(costs)
        print_crates(costs)
        print_above(costs)
    except Exception as why:
        print(f"gate_costs: {type(why).__name__}: {why}")
    return 0
