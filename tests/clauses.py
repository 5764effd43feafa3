"""Cuts a function's contract to one of its clauses beside an empty one, and its proof to what is said of that clause: what refuses a body then is that clause. Where none is named, the
empty one stays alone: what refuses a body then is what a call requires, or an invariant."""

import re

START = re.compile(r"\s*(pub(\([^)]*\))? )?fn ")
CLAUSE = re.compile(r"(\s*)(ensures|requires|ghost)\b(\S*) ?(\w*)")
ANSWER = re.compile(r"(?:pub )?([\w-]+)")
OF_GOALS = re.compile(r"(use \S+\.Goals\.)\{(.*)\}")
LEFT = ("result", "self.new")
OF_A_CLAUSE = re.compile(r"[\w-]+-clause-(\w+)")


def contract_of(lines, at):
    """The numbers of the lines of the contract of the function that a line stands in: from its first clause to its body."""
    first = next(i for i in range(at, -1, -1) if START.match(lines[i]))
    body = next((i for i in range(first, len(lines)) if lines[i].strip() == "{"), first)
    return range(next((i for i in range(first, body) if CLAUSE.match(lines[i])), body), body)


def promises(lines, contract):
    """What the function promises: the lines of each clause, and its name."""
    starts = [i for i in contract if CLAUSE.match(lines[i])]
    each = [(range(a, b), CLAUSE.match(lines[a])) for a, b in zip(starts, [*starts[1:], contract.stop])]
    return [(where, it[3] or it[4]) for where, it in each if it[2] == "ensures"]


def kept_alone(text, at, name):
    """The text with one clause of the function that a line stands in, or with none where that is "", and the name of another one that stays, and says that what is left is what is left:
    answers are named by a clause where there are several. None where clauses have no name, or none has this one."""
    lines = text.split("\n")
    found = promises(lines, contract_of(lines, at))
    if not found or name not in ["", *[it for _, it in found]] or any(not re.fullmatch(r"\w+", it) for _, it in found):
        return None
    word = next((it for it in LEFT if any(it in lines[i] for where, _ in found for i in where)), None)
    empty = f"{word} ≡ {word}" if word and "◌≡◌" in text else "⊥ → ⊥"
    other = next((it for _, it in found if it != name), None)
    for where, it in found:
        if it != name:
            indent = CLAUSE.match(lines[where.start])[1]
            lines[where.start : where.stop] = [f"{indent}ensures {it} {{ {empty} }}" if it == other else "", *[""] * (len(where) - 1)]
    return "\n".join(lines), other


def fields_kept(lines, name, other):
    """An answer that is a record with a field for each clause, with those of one clause and of another one, which says that what is left is what is left. None where it is no such record, or
    has no field for the clause."""
    indent = lines[-1].removesuffix("}")
    if lines[-1].strip() != "}":
        return None
    field = re.compile(rf"{indent}  (\w+) =( |$)")
    start = next((i for i, it in enumerate(lines) if it.endswith("record {") and re.match(rf"{indent}\S", it)), len(lines))
    if name and not any(it[1] == name for it in map(field.match, lines[start:]) if it):
        return None
    kept, passes = lines[: start + 1], False
    for line in lines[start + 1 :]:
        begun = field.match(line)
        if begun:
            passes = begun[1] != name
            kept += [f"{indent}  {other} = search rules;"] if begun[1] == other else []
        kept += [] if passes and line != lines[-1] else [line]
    return kept


def is_never_reached(lines):
    """Whether an answer says that its path is never taken, which answers each clause."""
    return bool(re.match(r"\S+ g c = absurd \(", lines[-1]))


def declarations(text):
    """The parts of a proof, each from a line at the margin that begins a declaration: a line that closes a bracket, one with `unfolding`, or a declaration's second one, goes on with what
    stands before it."""
    found, name = [[]], None
    for line in text.split("\n"):
        begun = ANSWER.match(line) if line[:1].strip() and line[0] not in ")]}" else None
        if begun and begun[1] != "unfolding" and (begun[1] != name or line.startswith("pub ")):
            found.append([])
            name = begun[1]
        found[-1].append(line)
    return [it for it in found if it]


def imports_kept(lines):
    """The lines of a proof, whose imports of a goal's own parts are those that are still named in it."""
    kept = []
    for line in lines:
        named = OF_GOALS.fullmatch(line)
        if named:
            rest = "\n".join(it for it in lines if it is not line)
            parts = [it for it in named[2].split(", ") if re.search(rf"(?<![\w-]){re.escape(it)}(?![\w-])", rest)]
            line = f"{named[1]}{{{', '.join(parts)}}}" if parts else ""
        kept.append(line)
    return kept


def answers_kept(text, name, other):
    """The answers in a proof but for those that are given to other clauses, of which one stays. None where one is given to all clauses together, and not clause by clause."""
    kept = []
    for lines in declarations(text):
        named = ANSWER.match(lines[0])
        is_answer = bool(named) and named[1].startswith("returns")
        clause = OF_A_CLAUSE.fullmatch(named[1]) if is_answer else None
        if is_answer and not clause:
            blank = next((i for i in range(len(lines)) if not any(it.strip() for it in lines[i:])), len(lines))
            fields = lines[:blank] if is_never_reached(lines[:blank]) else fields_kept(lines[:blank], name, other)
            if fields is None:
                return None
            kept += [*fields, *lines[blank:]]
        elif not clause or clause[1] == name:
            kept += lines
    needs_rules = any(it.endswith("= search rules;") for it in kept) and not re.search(r"^use Rattle\.std\.proofs\.Common\.\{[^}]*\brules\b", text, re.MULTILINE)
    return "\n".join([*["use Rattle.std.proofs.Common.{rules}"] * needs_rules, *imports_kept(kept)])
