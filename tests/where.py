#!/usr/bin/env python3
"""Where the time of a crate's proofs goes: `tests/where.py CRATE [FUNCTION..]`, in any checkout in which the crate was checked.

Without a FUNCTION a line for each function, dearest first: seconds of the walk through its code, of the search of goals that have no answer, of the tie of its contract to what callers read,
of its answers, and of all. With one, the goals of each function whose path has that name or ends with it: the seconds that each took where its proof was searched, those of its answer, and
how much the checker tried (steps). `--most N` shows so many lines (40 if left out; 0 shows all).

What a check keeps in out/incremental tells it: for each declaration how many steps it took, and of the walk, which tells none, how many bytes it came to. So the same proofs give the same
numbers, whatever ran beside the check; the seconds are those of a processor that does so many steps and bytes in one. What rests on the kit's libraries isn't in them, and neither is
loading."""

import argparse
import os
import re
import sys

ROOT = os.path.dirname(os.path.dirname(os.path.abspath(__file__)))
STEPS_IN_A_SECOND = 2_000_000
BYTES_IN_A_SECOND = 1_600_000
PARTS = {
    "walk": ["Code", "Lts", "Kinds", "Named", "Layout", "Symbol", "Reads", "Given", "Goals"],
    "search": ["Proof"],
    "tie": ["Tie", "Statement", "Met", "TheLink"],
    "answers": ["Answers", "Invariants"],
}
PART_OF = {module: part for part, modules in PARTS.items() for module in modules}
MODULE = re.compile(rf"(?P<function>.+?)\.(?P<module>{'|'.join(PART_OF)})(\.\w+)?")
DECLARATION = re.compile(rb'"name":"([^"]+)","notes":[^\n]*?"steps":\[(\d+),(\d+)')


def kept_by(crate):
    """The folder with the modules that the crate's checks kept, in the checkout of the current folder, or else in this one."""
    here = os.getcwd()
    above = [here.rsplit("/", up)[0] for up in range(here.count("/"))]
    at = next((it for it in above if os.path.isdir(f"{it}/crates/{crate}")), ROOT) + f"/crates/{crate}/out/incremental"
    found = [f"{at}/{it}" for it in os.listdir(at) if it.startswith("antt-checked")] if os.path.isdir(at) else []
    if not found:
        sys.exit(f"nothing is kept of a check of {crate}: run `rt check` in its folder")
    return max(found, key=os.path.getmtime)


def steps_of(path):
    """How many steps each declaration of a module took, as the module's record says, by name."""
    if not os.path.isfile(path):
        return {}
    with open(path, "rb") as it:
        return {name.decode(): int(first) + int(second) for name, first, second in DECLARATION.findall(it.read())}


def took(kept, name):
    """How long a module took, about."""
    steps = steps_of(f"{kept}/records/{name}.decls.oantt")
    if steps or not re.search(r"\.Lts(\.\w+)?$", name):
        return sum(steps.values()) / STEPS_IN_A_SECOND
    return os.path.getsize(f"{kept}/{name}.oantt") / BYTES_IN_A_SECOND


def table_of(kept, crate, wanted):
    """For each function its seconds by part, and the seconds of the other modules by kind; where functions are wanted, of those alone."""
    functions, others = {}, {"lemmas": 0, "specs and contracts": 0, "types": 0}
    for file in sorted(os.listdir(kept)):
        name = file.removesuffix(".oantt")
        own = re.match(rf"Rattle-{crate}-(proofs|specs)\.(.*)", name) if file.endswith(".oantt") else None
        of_a_function = MODULE.fullmatch(own[2]) if own and own[1] == "proofs" else None
        path = of_a_function["function"].replace(".", "::") if of_a_function else ""
        if of_a_function and (not wanted or any(f"::{path}".endswith(f"::{it}") for it in wanted)):
            parts = functions.setdefault(path, dict.fromkeys(PARTS, 0))
            parts[PART_OF[of_a_function["module"]]] += took(kept, name)
        elif own and not wanted and not of_a_function:
            is_of_a_type = re.search(r"\.The(Laws|Inside|Knot|Reach|Links)\b", name)
            others["specs and contracts" if own[1] == "specs" else "types" if is_of_a_type else "lemmas"] += took(kept, name)
    return functions, others


def print_table(functions, others, most):
    """Prints a line for each function, dearest first, and the sums."""
    print("".join(f"{it:>9}" for it in [*PARTS, "all"]) + "  function")
    lines = sorted(functions.items(), key=lambda it: -sum(it[1].values()))
    sums = [(f"{len(lines)} functions", {part: sum(it[part] for _, it in lines) for part in PARTS})]
    for name, parts in lines[: most or None] + sums:
        print("".join(f"{it:9.1f}" for it in [*parts.values(), sum(parts.values())]) + f"  {name}")
    for name, seconds in others.items():
        print(" " * 36 + f"{seconds:9.1f}  {name}")


def print_goals(kept, crate, function, parts, most):
    """Prints the goals of a function, dearest first: the seconds of the search, or of what takes the answer, those of the answer itself, and the steps."""
    path = f"Rattle-{crate}-proofs.{function.replace('::', '.')}"
    both = [steps_of(f"{kept}/records/{path}.{module}.decls.oantt") for module in ("Proof", "Answers")]
    steps = {name: sum(found.get(name, 0) for found in both) for name in {*both[0], *both[1]}}
    print(f"{function}: " + ", ".join(f"{part} {seconds:.1f}" for part, seconds in parts.items()))
    print(f"{'search':>9}{'answer':>9}{'steps':>12}  goal")
    for name in sorted(steps, key=lambda it: -steps[it])[: most or None]:
        print("".join(f"{found[name] / STEPS_IN_A_SECOND:9.2f}" if name in found else f"{'-':>9}" for found in both) + f"{steps[name]:12}  {name}")


def main():
    parser = argparse.ArgumentParser(usage="tests/where.py CRATE [FUNCTION..] [--most N]")
    parser.add_argument("crate")
    parser.add_argument("functions", nargs="*")
    parser.add_argument("--most", type=int, default=40)
    given = parser.parse_args()
    kept = kept_by(given.crate)
    functions, others = table_of(kept, given.crate, given.functions)
    for wanted in given.functions:
        found = [it for it in functions if f"::{it}".endswith(f"::{wanted}")]
        if not found:
            sys.exit(f"no function {wanted} in what is kept of {given.crate}")
        for function in found:
            print_goals(kept, given.crate, function, functions[function], given.most)
    if not given.functions:
        print_table(functions, others, given.most)


if __name__ == "__main__":
    main()
