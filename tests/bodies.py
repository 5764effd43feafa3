"""Wrong bodies as they are listed, and the files of a crate with some of them: each in a copy of its function, under another name and behind it, or in the function's place where it can't be
copied. A copy has the function's attributes, contract and answers, or of these one clause with its answers where the body names it
(tests/clauses.py), so what refuses it is the same contract; and nothing stands on it, so one check takes many."""

import os
import re
from dataclasses import dataclass, field
from functools import lru_cache

import clauses
import fields
from promises import read

LIST = "must-fail/wrong_bodies.md"
START = re.compile(r"\s*(pub(\([^)]*\))? )?fn ")
BLOCK = re.compile(r"(pub(\([^)]*\))? )?(impl|trait)\b")
PUBLIC = re.compile(r"^pub (?:mod|struct|enum|trait|const|fn|use \w+(?:::\w+)*::) ?(\w+|\{[^}]*\})", re.MULTILINE)
OF_A_TRAIT = re.compile(r"\btrait\b|\bfor\s+(?!<)")


@dataclass(eq=False)
class WrongBody:
    """One wrong body: its name, its place in the list, the function that it is in, the clause that alone is to refuse it where one is named, and the field of its record where one is, or the
    call that does so by what it requires, and what takes the place of what."""

    name: str
    number: int
    function: str = ""
    file: str = ""
    clause: str = ""
    part: str = ""
    needs: str = ""
    pairs: list = field(default_factory=list)

    def changed(self, text):
        """The text of the file with this body, or None where a text to be replaced doesn't stand in it exactly once, nor as a whole line exactly once."""
        for old, new in self.pairs:
            lines = text.split("\n")
            if text.count(old) == 1:
                text = text.replace(old, new)
            elif lines.count(old) == 1:
                text = "\n".join(new if it == old else it for it in lines)
            else:
                return None
        return text

    @lru_cache(maxsize=8)
    def place(self, text):
        """The number of the last line that it changes, from 0, in the file's text; where it changes none, that of its function's first line."""
        lines, after = text.split("\n"), (self.changed(text) or text).split("\n")
        changed = next((i for i in reversed(range(len(lines))) if lines[i] != after[i]), None)
        return next((i for i, it in enumerate(lines) if self.begins(it)), 0) if changed is None else changed

    def own_name(self):
        """The name of its function, without the path."""
        return self.function.rpartition("::")[2]

    def begins(self, line):
        """Whether its function begins with a line."""
        return bool(START.match(line)) and bool(re.search(rf"\bfn {self.own_name()}\b", line))

    @lru_cache(maxsize=8)
    def first(self, text):
        """The number of its function's line with `fn`, from 0, in the file's text, or None where what it changes stands in no function of that name."""
        lines = text.split("\n")
        found = next((i for i in range(self.place(text), -1, -1) if START.match(lines[i])), None)
        return found if found is not None and self.begins(lines[found]) else None

    def lines(self, text):
        """The numbers of the lines of its function, from 0, with its attributes, in the file's text. They stay with every body, since each takes the place of part of a line."""
        lines, first = text.split("\n"), self.first(text)
        above = next(i for i in range(first, 0, -1) if not lines[i - 1].lstrip().startswith(("#[", "//")))
        indent = len(lines[first]) - len(lines[first].lstrip())
        return range(above, lines.index(" " * indent + "}", self.place(text)) + 1)

    def code(self, text):
        """Its function as it stands in the file's text."""
        lines = text.split("\n")
        return "\n".join(lines[i] for i in self.lines(text))

    def clauses(self, text):
        """The names of its function's clauses; a method of a trait's impl has the trait's too."""
        lines = text.split("\n")
        return {name for _, name in clauses.promises(lines, clauses.contract_of(lines, self.first(text)))}

    def is_of_a_trait(self, text):
        """Whether its function is a method of a trait or of its impl."""
        lines, first = text.split("\n"), self.first(text)
        if not lines[first].startswith(" "):
            return False
        block = next(i for i in range(first - 1, -1, -1) if BLOCK.match(lines[i]))
        return bool(OF_A_TRAIT.search("\n".join(lines[block:first]).partition("{")[0]))

    def is_copied(self, text):
        """Whether its function can be copied: a method of a trait or of its impl can't, and neither can `main`."""
        return self.own_name() != "main" and not self.is_of_a_trait(text)

    def is_public(self, text, root):
        """Whether its function is called by other crates, whose root this is: it is a method of a trait or of its impl, or public where the root has its module or passes its type on."""
        is_pub = text.split("\n")[self.first(text)].lstrip().startswith("pub fn ")
        return self.is_of_a_trait(text) or is_pub and any(it in passed_on(root) for it in self.function.split("::"))


@lru_cache
def passed_on(root):
    """The names that a library's root makes public: of its modules, types and functions, and of those that it passes on from others. A program has none."""
    return {name for line in PUBLIC.findall(root) for name in re.findall(r"\w+", line)}


def bodies_of(folder):
    """The wrong bodies of a crate, in the order of its list."""
    bodies = []
    for line in read(f"{folder}/{LIST}").split("\n"):
        word, _, rest = line.partition(" ")
        if word == "###":
            bodies.append(WrongBody(rest, len(bodies) + 1))
        elif word in ("fn:", "file:", "clause:", "field:", "needs:"):
            setattr(bodies[-1], {"fn:": "function", "field:": "part"}.get(word, word[:-1]), rest)
        elif word == "old:":
            bodies[-1].pairs.append((rest, ""))
        elif word == "new:":
            bodies[-1].pairs[-1] = bodies[-1].pairs[-1][0], rest
    return bodies


@dataclass
class Placed:
    """A wrong body as a check has it: the function that is checked, its lines in its file, from 1, and the files that its proof gets."""

    body: WrongBody
    function: str
    lines: range = range(0)
    proof: dict = field(default_factory=dict)
    cut: fields.Cut | None = None


def proof_of(function):
    """The folder of a function's proof."""
    return f"proofs/{function.replace('::', '/')}"


def proof_files(crate, folder, body, function):
    """The files of the proof of a body's function, as they are under another name."""
    old, new = proof_of(body.function), proof_of(function)
    names = sorted(os.listdir(f"{folder}/{old}")) if os.path.isdir(f"{folder}/{old}") else []
    path, to = (f"Rattle.{crate}.{it.replace('/', '.')}." for it in (old, new))
    return {f"{new}/{name}": read(f"{folder}/{old}/{name}").replace(path, to) for name in names if name.endswith(".antt")}


def alone(text, body, proof):
    """The text with a body, and its proof, where the clause that it names stands alone, or none where it names a call. None where it names neither, or the clause can't be cut out."""
    cut, other = (body.clause or body.needs) and clauses.kept_alone(body.changed(text), body.place(text), body.clause) or (None, None)
    if cut is None:
        return None
    kept = {path: clauses.answers_kept(it, body.clause, other) if path.endswith("/Answers.antt") else it for path, it in proof.items()}
    return None if None in kept.values() else (cut, kept)


def placed(crate, folder, body):
    """A wrong body's function with it, line by line, under the name of its copy where it is copied, and what is to be known of it."""
    text = read(f"{folder}/{body.file}")
    function = f"{body.function}_wrong_{body.number}" if body.is_copied(text) else body.function
    it = Placed(body, function, proof=proof_files(crate, folder, body, function))
    kept = alone(text, body, it.proof)
    changed, it.proof = kept or (body.changed(text), it.proof)
    it.cut = fields.cut(crate, folder, changed, body.place(text), body.clause, body.part, it.proof) if kept and body.part else None
    if it.cut:
        changed, it.proof = it.cut.text, it.cut.proof
    where, first = body.lines(text), body.first(text)
    lines = changed.split("\n")
    lines[first] = lines[first].replace(f"fn {body.own_name()}", f"fn {function.rpartition('::')[2]}", 1)
    return it, [lines[i] for i in where]


def with_bodies(crate, folder, bodies):
    """The files of a crate that change with wrong bodies, and where each body stands."""
    texts, found = {}, []
    for file in sorted({it.file for it in bodies}):
        text = read(f"{folder}/{file}")
        lines, made, at = text.split("\n"), [], 0
        for body in sorted((it for it in bodies if it.file == file), key=lambda it: it.lines(text).start):
            it, own = placed(crate, folder, body)
            where, is_copied = body.lines(text), it.function != body.function
            made += lines[at : where.stop if is_copied else where.start] + [""] * is_copied
            it.lines, at = range(len(made) + 1, len(made) + 1 + len(own)), where.stop
            made += own
            texts.update(it.proof)
            found.append(it)
        texts[file] = "\n".join(made + lines[at:])
    for each in [it for it in found if it.cut]:
        texts[each.body.file] = each.cut.imported(texts[each.body.file])
        texts[each.cut.spec] = each.cut.stated(texts.get(each.cut.spec) or read(f"{folder}/{each.cut.spec}"))
    return texts, found
