"""Cuts a clause that is a record to the fields that a wrong body names, and the answers to it to what they say of these: what refuses the body then is that field, and no search looks at the
others. The record with these fields alone stands behind the whole one, in the crate's specs."""

import re
from dataclasses import dataclass

import clauses
from promises import read

OPENING, CLOSING = "([{", ")]}"
TOKEN = re.compile(r"[\w'-]+")


def depths(text):
    """How many brackets are open before each character."""
    found, depth = [], 0
    for it in text:
        depth -= it in CLOSING
        found.append(depth)
        depth += it in OPENING
    return found


def last_at_top(text, word):
    """Where a word begins for the last time outside of brackets, or -1."""
    open_at = depths(text)
    places = [it.start() for it in re.finditer(rf"(?<![\w'-]){word}(?![\w'-])", text) if not open_at[it.start()]]
    return places[-1] if places else -1


def record_in(clause):
    """Where the name of the record begins and ends that a clause states behind its premises. None where it states none."""
    at, end = clause.index("{") + 1, clause.rindex("}")
    inner = clause[at:end]
    at += max((i + 1 for i, it in enumerate(inner) if it == "→" and not depths(inner)[i]), default=0)
    named = re.compile(r"\s*([A-Z]\w*)\b").match(clause, at, end)
    return named and named.span(1)


def fields_of(lines, name):
    """The record of a spec: its lines, how many of them are its head, and for each field its lines. None where there is no such record."""
    start = next((i for i, it in enumerate(lines) if re.match(rf"\s*pub record {name}\b", it)), None)
    if start is None:
        return None
    margin = len(lines[start]) - len(lines[start].lstrip())
    head = next(i for i in range(start, len(lines)) if lines[i].rstrip().endswith("where")) + 1
    end = next((i for i in range(head, len(lines)) if lines[i].strip() and len(lines[i]) - len(lines[i].lstrip()) <= margin), len(lines))
    found, field = {}, None
    for line in lines[head:end]:
        begun = re.match(rf" {{{margin + 2}}}(?:pub )?(\w+) :", line)
        field = begun[1] if begun else field
        if field and line.strip() and not line.lstrip().startswith("--"):
            found.setdefault(field, []).append(line)
    while end > head and (not lines[end - 1].strip() or lines[end - 1].lstrip().startswith("--")):
        end -= 1
    return range(start, end), head - start, found


def needed(fields, names):
    """The fields that these fields speak of, themselves included, in the record's order."""
    kept = set(names)
    while more := {it for name in kept for it in TOKEN.findall("\n".join(fields[name]).partition(":")[2]) if it in fields} - kept:
        kept |= more
    return [it for it in fields if it in kept]


def kept_in_record(literal, names):
    """A record that is written out, with these fields alone. None where it lacks one."""
    inner = literal[literal.index("{") + 1 : literal.rindex("}")]
    open_at, parts, at = depths(inner), [], 0
    for i, it in enumerate(inner):
        if it == ";" and not open_at[i]:
            parts, at = [*parts, inner[at:i]], i + 1
    parts = {it.split("=", 1)[0].strip(): it.split("=", 1)[1].rstrip() for it in [*parts, inner[at:]] if "=" in it}
    if any(it not in parts for it in names):
        return None
    return "record { " + "; ".join(f"{it} ={parts[it]}" for it in names) + " }"


def kept_in_answer(said, names):
    """What an answer says of these fields. None where it isn't told what it is made of."""
    said = said.rstrip()
    if said.startswith("absurd "):
        return said
    if said.endswith("}"):
        open_at = depths(said)
        begin = max(i for i, it in enumerate(said[:-1]) if it == "{" and open_at[i] == open_at[-1])
        before = re.search(r"(^|(?:\bin|\.)\s+)record $", said[:begin])
        if before and not open_at[-1]:
            kept = kept_in_record(said[begin:], names)
            return kept and said[: before.end(1)] + kept
    if said.startswith("λ"):
        dot = next((i for i, it in enumerate(said) if it == "." and not depths(said)[i] and said[i + 1 : i + 2].isspace()), None)
        kept = None if dot is None else kept_in_answer(said[dot + 1 :].lstrip(), names)
        return kept and f"{said[: dot + 1]} {kept}"
    if said.startswith("let "):
        at = last_at_top(said, "in")
        kept = None if at < 0 else kept_in_answer(said[at + 2 :].lstrip(), names)
        return kept and f"{said[: at + 2]} {kept}"
    if "|" in said or "record" in said.split("(")[0].split():
        return None
    return "record { " + "; ".join(f"{it} = ({said}).{it}" for it in names) + " }"


def answers_kept(proof, clause, names):
    """The answers of a proof to a clause, each with what it says of these fields. None where one can't be cut."""
    kept = []
    for lines in clauses.declarations(proof):
        name = clauses.ANSWER.match(lines[0])
        of = name and clauses.OF_A_CLAUSE.fullmatch(name[1])
        if of and of[1] == clause:
            blank = next((i for i in range(len(lines)) if not any(it.strip() for it in lines[i:])), len(lines))
            text = "\n".join(lines[:blank])
            begun = re.search(rf"^{re.escape(name[1])} g c = ", text, re.MULTILINE)
            said = begun and kept_in_answer(text[begun.end() :], names)
            if not said:
                return None
            lines = [*(text[: begun.end()] + said).split("\n"), *lines[blank:]]
        kept += lines
    return "\n".join(kept)


@dataclass
class Cut:
    """A function's text and proof with a clause cut to a field: the record that the clause stated, the one that it states now, the spec in which both stand, and the lines of the new one."""

    text: str
    proof: dict
    name: str
    only: str
    spec: str
    lines: list

    def imported(self, text):
        """The text of a file that names the record, which then names the new one too. It has as many lines as before."""
        names = re.compile(rf"(ghost use \S+\.specs\.{self.spec_module()}\.\{{[^}}]*(?<!\w){self.name}(?!\w))")
        return text if re.search(rf"ghost use [^;]*(?<!\w){self.only}(?!\w)", text) else names.sub(rf"\1, {self.only}", text)

    def spec_module(self):
        """The path of the spec's module."""
        return re.escape(self.spec.removeprefix("specs/").removesuffix(".antt").replace("/", "."))

    def stated(self, text):
        """The spec with the new record behind the other one."""
        lines = text.split("\n")
        if any(re.match(rf"\s*pub record {self.only}\b", it) for it in lines):
            return text
        end = fields_of(lines, self.name)[0].stop
        return "\n".join([*lines[:end], "", *self.lines, *lines[end:]])


def cut(crate, folder, text, at, clause, field, proof):
    """A function at a line of a text, and its proof, with a clause cut to a field of the record that it states. None where that can't be done."""
    lines = text.split("\n")
    where = next(it for it, name in clauses.promises(lines, clauses.contract_of(lines, at)) if name == clause)
    stated = "\n".join(lines[where.start : where.stop])
    span = record_in(stated)
    name = span and stated[slice(*span)]
    use = name and re.search(rf"ghost use Rattle\.{crate}\.specs\.([\w.]+)\.\{{[^}}]*(?<!\w){name}(?!\w)[^}}]*\}}", text)
    path = use and f"specs/{use[1].replace('.', '/')}.antt"
    spec = path and read(f"{folder}/{path}").split("\n")
    found = spec and fields_of(spec, name)
    if not found or field not in found[2]:
        return None
    block, head, fields = found
    names, only = needed(fields, [field]), f"{name}_{field}"
    answers = {it: answers_kept(its, clause, names) if it.endswith("/Answers.antt") else its for it, its in proof.items()}
    if None in answers.values():
        return None
    heading = [re.sub(rf"\bpub record {name}\b", f"pub record {only}", it) for it in spec[block.start : block.start + head]]
    lines[where.start : where.stop] = (stated[: span[0]] + only + stated[span[1] :]).split("\n")
    return Cut("\n".join(lines), answers, name, only, path, [*heading, *[line for it in names for line in fields[it]]])
