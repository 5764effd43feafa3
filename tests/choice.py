"""Which wrong bodies a run tries where it doesn't try all: those that a page names, all of the checker, those of which the last commits changed what their trial reads, but for names, of the
others each tenth, in turn, and of each public function and each method of a trait's impl at least one. What is taken in turn hangs on the tree that the last commit left: other commits take others."""

import contextlib
import hashlib
import io
import os
import re
import subprocess
import tarfile
import tempfile
from functools import lru_cache

import clauses
from bodies import LIST, alone, bodies_of, proof_files
from promises import files_below, read

COMMITS = 30
ONE_OF = 10
TRIED_WHOLE = "qcow2_check"
PAGE = "docs/WRONG_BODIES.md"
ROW = re.compile(r"^\|[^|]*\| `(\w+)` \| \[`\w+`\]\(\.\./crates/(\w+)/", re.MULTILINE)
NAMED, WHOLE, TOUCHED, IN_TURN, PUBLIC = RULES = (
    f"named by {PAGE}",
    "of the checker",
    f"touched by the last {COMMITS} commits",
    f"in turn, one of {ONE_OF}",
    "of a public function or a method of a trait",
)
# what a clause or an answer becomes that stands for those that were cut
EMPTY = re.compile(r"ensures \w+ \{ (?:(\S+) ≡ \1|⊥ → ⊥) \}|\w+ = search rules;")
DECLARED = re.compile(r"(\S+) :")
WORDS = re.compile(r"\w+")
SIGNS = re.compile(r"\w+|[^\w\s]")

# bodies come file by file
text_of = lru_cache(maxsize=8)(read)


def git(root, *words):
    """What git says, or None where it says nothing of this folder."""
    ran = subprocess.run(["git", "-C", root, *words], stdout=subprocess.PIPE, stderr=subprocess.DEVNULL)
    return ran.stdout if ran.returncode == 0 else None


@contextlib.contextmanager
def before(root):
    """The folder of the crates as they stood so many commits ago, or at the oldest commit there is, and what is to be said of that. There is no folder where no history is kept."""
    commits = (git(root, "rev-list", "--first-parent", f"--max-count={COMMITS + 1}", "HEAD") or b"").decode().split()
    text = git(root, "archive", commits[-1], "crates") if commits else None
    if text is None:
        yield None, "no history is kept here, so each wrong body counts as touched"
        return
    said = "" if len(commits) > COMMITS else f"the history that is kept here has {len(commits) - 1} commits before the last one, where {COMMITS} are looked at"
    with tempfile.TemporaryDirectory() as room:
        with tarfile.open(fileobj=io.BytesIO(text)) as it:
            it.extractall(room, [each for each in it if each.isdir() or each.name.endswith((".rt", ".antt", ".md"))])
        yield f"{room}/crates", said


def answers_read(text):
    """The answers in a proof and the lemmas of its own that these name: not imports, and nothing that only cut answers named."""
    parts = [[line for line in part if line.strip() and not line.startswith("--") and not EMPTY.fullmatch(line.strip())] for part in clauses.declarations(text)]
    parts = ["\n".join(it) for it in parts if it and not it[0].startswith("use ")]
    own = {DECLARED.match(it)[1]: it for it in parts if DECLARED.match(it)}
    kept = [it for it in parts if it not in own.values()]
    for it in kept:
        for name in [name for name in own if re.search(rf"(?<![\w-]){re.escape(name)}(?![\w-])", it)]:
            kept.append(own.pop(name))
    return sorted(kept)


def trial_reads(crate, folder, body):
    """What the trial of a wrong body reads of its function: the text, the clause that it names or the whole contract, and the answers that it keeps. None where it can't be tried."""
    text = text_of(f"{folder}/{body.file}") if os.path.isfile(f"{folder}/{body.file}") else ""
    if body.changed(text) is None or body.first(text) is None:
        return None
    proof = proof_files(crate, folder, body, body.function)
    cut, kept = alone(text, body, proof) or (body.changed(text), proof)
    lines = cut.split("\n")
    own = [lines[i].strip() for i in body.lines(text)]
    code = [it for it in own if it and not it.startswith("//") and not EMPTY.fullmatch(it)]
    # how its lines are broken is layout
    return " ".join(code), {path: answers_read(it) for path, it in kept.items()}


def trial_says(crate, folder, body):
    """All that the trial of a wrong body reads, word by word and sign by sign. None where it can't be tried."""
    reads = trial_reads(crate, folder, body)
    if reads is None:
        return None
    answers = [it for path in sorted(reads[1]) for it in reads[1][path]]
    return SIGNS.findall("\n".join([body.function, body.file, body.clause, body.needs, *(it for pair in body.pairs for it in pair), reads[0], *answers]))


def words_in(folders):
    """The words of all texts of crates, which are in these folders."""
    files = [f"{folder}/{part}/{it}" for folder in folders for part in ("src", "specs", "proofs") for it in files_below(f"{folder}/{part}", (".rt", ".antt"))]
    return {word for it in files for word in WORDS.findall(read(it))}


def is_touched(then, now, words_then, words_now):
    """Whether what a trial reads has changed, but for names: a name that is gone may have given way to one that is new, everywhere."""
    if then is None or now is None or len(then) != len(now):
        return True
    names = {}
    return any(old != new and (old in words_now or new in words_then or names.setdefault(old, new) != new) for old, new in zip(then, now))


def touched(root, crates):
    """The names of the wrong bodies of each crate that the last commits made or changed, or of which they changed what the trial reads."""
    found = {}
    with before(root) as (folder, said):
        if said:
            print(f"wrong bodies: {said}", flush=True)
        words_then, words_now = (words_in(f"{it}/{crate.name}" for crate, _ in crates) for it in (folder, f"{root}/crates"))
        for crate, bodies in crates:
            at = f"{folder}/{crate.name}"
            former = {it.name: trial_says(crate.name, at, it) for it in bodies_of(at)} if folder and os.path.isfile(f"{at}/{LIST}") else {}
            found[crate.name] = {it.name for it in bodies if is_touched(former.get(it.name), trial_says(crate.name, crate.folder, it), words_then, words_now)}
    return found


def firsts(crate, bodies, others):
    """The names of the first wrong body of each public function and of each method of a trait's impl, but for the functions of which another one is tried."""
    first, root = {}, f"{crate.folder}/src/lib.rt"
    of_root = text_of(root) if os.path.isfile(root) else ""
    for body in bodies:
        if body.is_public(text_of(f"{crate.folder}/{body.file}"), of_root):
            first.setdefault(body.function, body.name)
    has_one = {it.function for it in bodies if it.name in others}
    return {name for function, name in first.items() if function not in has_one}


def choose(root, crates):
    """For each crate the wrong bodies that are tried, by name, each with the first rule that takes it."""
    named = {crate: set() for crate in [it.name for it, _ in crates]}
    for name, crate in ROW.findall(read(f"{root}/{PAGE}")):
        named.setdefault(crate, set()).add(name)
    changed, tree, chosen = touched(root, crates), git(root, "rev-parse", "HEAD^{tree}") or b"", {}
    for crate, bodies in crates:
        by_rule = {NAMED: named[crate.name], WHOLE: {it.name for it in bodies} if crate.name == TRIED_WHOLE else set(), TOUCHED: changed[crate.name]}
        by_rule[IN_TURN] = {it.name for it in bodies if int(hashlib.sha256(tree + f"{crate.name}/{it.name}".encode()).hexdigest(), 16) % ONE_OF == 0}
        by_rule[PUBLIC] = firsts(crate, bodies, set().union(*by_rule.values()))
        rules = {it.name: next((rule for rule in RULES if it.name in by_rule[rule]), None) for it in bodies}
        chosen[crate.name] = {name: rule for name, rule in rules.items() if rule}
    return chosen


def tell(crates, chosen):
    """Says how many of how many are tried in each crate, by which rule, and how many are left, and the sums of all."""
    for crate, bodies in crates:
        rules = list(chosen[crate.name].values())
        by_rule = ", ".join(f"{rules.count(it)} {it}" for it in RULES if it in rules)
        print(f"wrong bodies of {crate.name}: {len(rules)} of {len(bodies)} are tried{': ' * bool(by_rule)}{by_rule}; {len(bodies) - len(rules)} are left", flush=True)
