#!/usr/bin/env python3
"""Tries the wrong bodies of crates/NAME/must-fail/wrong_bodies.md: each gives one function another meaning, and the prover must refuse it.

A check takes many bodies. Each stands in a copy of its function, which nothing else calls (tests/bodies.py); where a function can't be copied, it is changed in its place. What the crate's
other functions and its lemmas state is taken as it stands (tests/promises.py), over the libraries that the gate has just proved; where it hasn't run, they are proved first. Each body must
be refused for itself, by what its contract says: not only because a proof names what the body took away, and not because a proof can't be read. One of which a check says too little is
tried once more, alone. A check begins with what earlier ones of its crate have read.

Not all are tried each time: tests/choice.py says which ones. With --all all are, and words CRATE and CRATE/BODY name those that are. That each one changes what it is to change is looked
at each time, of all. With --list it is only told what would be tried.

With --beside FILE the gate runs beside it, and the file gets a line for each crate that is proved, and a line `end` where nothing runs beside it any more. No more checks run side by side
than there are processors, those of the gate and what comes behind it included: these go first. The last line counts."""

import argparse
import contextlib
import importlib.machinery
import importlib.util
import math
import os
import re
import shutil
import signal
import subprocess
import sys
import tempfile
import threading
import time
from dataclasses import dataclass, field

import choice
from bodies import LIST, bodies_of, proof_of, with_bodies
from promises import read, take_promises

ROOT = os.path.dirname(os.path.dirname(os.path.abspath(__file__)))
HOW_MANY_LINES = 8
MOST_IN_A_CHECK = 200
LEAST_IN_A_CHECK = 200
FIRST_IN_A_CHECK = 40
SECONDS_TO_LOOK_AGAIN = 5
LOOKS = 5
SECONDS_OF_LOOKS = 0.5
MISSING_NAME = re.compile(r": error: module `|has no field|is not in scope|has no `|was not admitted|is no name")
OF_AN_ANSWER = re.compile(r"\S+: error: (`[^`]*`: |module `|\d+ declarations? that depends? on )")
UNREADABLE = re.compile(r"operand is missing|expected the end|cannot continue")
CLAUSE = re.compile(r"`[\w-]*clause-(\w+)`")
ENDED = re.compile(r"checked (\S+), \d+ of \d+")
SECONDS = re.compile(r"^seconds (\S+) (\S+)$", re.MULTILINE)
SAID = re.compile(r"^fn (\w+)::(\S+): (.*)$", re.MULTILINE)


def toolchain():
    """The toolchain's program `rt` as a module: it knows the crates, and the words of a check."""
    loader = importlib.machinery.SourceFileLoader("rt", os.path.realpath(shutil.which("rt")))
    made = importlib.util.module_from_spec(importlib.util.spec_from_loader("rt", loader))
    loader.exec_module(made)
    return made


class Trial:
    """A crate whose wrong bodies are tried: those that are left, the checks that run, and what its checks keep for one another."""

    def __init__(self, rt, crate, room, bodies):
        self.rt, self.crate, self.kept = rt, crate, f"{room}/{crate.name}"
        self.name, self.folder = crate.name, crate.folder
        self.left, self.failed = bodies, 0
        self.leaving = threading.Lock()
        self.alone, self.running, self.checks, self.refused, self.seconds = set(), 0, 0, 0, 0
        self.in_place = {it.name for it in self.left if not it.is_copied(read(f"{self.folder}/{it.file}"))}
        how_many = -(-len(self.left) // MOST_IN_A_CHECK) or 1
        self.most = -(-len(self.left) // how_many)

    def begin_with_kept_work(self):
        """Begins with what other checks of the crate have kept. Beside the gate there is none: it puts that aside."""
        if os.path.isdir(f"{self.folder}/out/incremental"):
            leave(f"{self.folder}/out/incremental", self.kept)

    def weight(self):
        """What is left to be done, as far as the number of crates below tells what a body costs."""
        return len(self.left) * (1 + len(self.crate.below()))

    def can_begin(self):
        """Whether another check can begin: where nothing is kept, the first one leaves what it proved to the others."""
        return self.left and (os.path.isdir(self.kept) or not self.running)

    def next_bodies(self, share):
        """Takes the bodies of a check out of those that are left, no more than a share of them: one of which a check said too little is tried alone, and one of two that change one function
        in its place waits."""
        taken, in_place = [], set()
        most = min(self.most, max(LEAST_IN_A_CHECK, math.ceil(share * len(self.left))))
        if most < len(self.left) and not os.path.isdir(self.kept):
            # other checks of the crate wait for what it leaves
            most = FIRST_IN_A_CHECK
        for body in self.left:
            is_in_place = body.name in self.in_place
            if body.name in self.alone and not taken:
                taken.append(body)
                break
            if body.name not in self.alone and len(taken) < most and not (is_in_place and body.function in in_place):
                taken.append(body)
                in_place.update({body.function} if is_in_place else ())
        self.left = [it for it in self.left if it not in taken]
        self.running += 1
        return taken

    def note(self, tried):
        """Notes what a check showed."""
        self.running, self.checks, self.seconds = self.running - 1, self.checks + 1, self.seconds + tried.seconds
        again = [body for body, why in tried.unclear if body.name not in self.alone]
        tried.accepted += [(body, why) for body, why in tried.unclear if body.name in self.alone]
        self.alone.update(it.name for it in again)
        self.left = tried.again + self.left + again
        self.refused, self.failed = self.refused + len(tried.refused), self.failed + len(tried.accepted) + len(tried.others)
        tell(self.name, tried)
        if not self.left and not self.running:
            print(f"wrong bodies of {self.name}: {self.refused} refused in {self.checks} checks of {self.seconds:.0f} processor seconds", flush=True)


def leave(own, kept):
    """Leaves what a check has proved, and no earlier one, to the checks to come, and the newest of its lists. Proofs are linked: none is changed where it stands."""
    for folder, _, names in os.walk(own):
        to = os.path.join(kept, os.path.relpath(folder, own))
        os.makedirs(to, exist_ok=True)
        for name in names:
            is_proof = name.endswith(".oantt")
            if is_proof and os.path.lexists(f"{to}/{name}"):
                continue
            try:
                os.link(f"{folder}/{name}", f"{to}/{name}") if is_proof else shutil.copyfile(f"{folder}/{name}", f"{to}/{name}")
            except OSError:
                # it lies on another disk
                shutil.copyfile(f"{folder}/{name}", f"{to}/{name}")


def timed(lines):
    """What a check prints, and for each line that tells of a function that it has ended with, how many seconds passed since the one before."""
    printed, last = [], time.monotonic()
    for line in lines:
        if ended := ENDED.match(line):
            now = time.monotonic()
            line, last = f"seconds {ended[1]} {now - last:.1f}\n", now
        printed.append(line)
    return "".join(printed)


def checked(rt, crate, texts, only, kept):
    """Checks functions of a copy of the crate with these texts in place of its own, over its promises and what is kept, and answers its status, what it printed, and its processor
    seconds."""
    with tempfile.TemporaryDirectory() as room:
        for part in rt.rtlib.PARTS:
            if os.path.isdir(f"{crate.folder}/{part}"):
                shutil.copytree(f"{crate.folder}/{part}", f"{room}/{part}")
        for path, text in texts.items():
            os.makedirs(os.path.dirname(f"{room}/{path}"), exist_ok=True)
            with open(f"{room}/{path}", "w", encoding="utf-8") as it:
                it.write(text)
        take_promises(crate.name, room, only)
        flags = ["--jobs", "1", "--allow-holes", "--progress", *[word for function in only for word in ("--only", function)]]
        words = [*rt.rtlib.guarded(), rt.rtlib.RATTLE, "check", *crate.words(flags, keeps=False), "--incremental", kept]
        ran = subprocess.Popen(words, cwd=room, stdin=subprocess.DEVNULL, stdout=subprocess.PIPE, stderr=subprocess.STDOUT, text=True, errors="replace")
        printed = timed(ran.stdout)
        _, status, used = os.wait4(ran.pid, 0)
        ran.returncode = os.waitstatus_to_exitcode(status)
        return ran.returncode, printed, used.ru_utime + used.ru_stime


@dataclass
class Tried:
    """What a check showed: the bodies that were refused, with the clauses that each breaks and the seconds that it took, those that weren't and those of which it says too little, each with
    why, those to be tried again; and the functions without one that were refused."""

    seconds: float
    refused: list = field(default_factory=list)
    accepted: list = field(default_factory=list)
    unclear: list = field(default_factory=list)
    again: list = field(default_factory=list)
    others: list = field(default_factory=list)


def run(trial, texts, only):
    """Checks functions of a crate with changed texts, over what its checks keep, and answers the status, what was printed and the processor seconds."""
    with tempfile.TemporaryDirectory(dir=os.path.dirname(trial.kept)) as room:
        own = f"{room}/kept"
        os.mkdir(own)
        with trial.leaving:
            leave(trial.kept, own)
        status, printed, seconds = checked(trial.rt, trial.crate, texts, only, own)
        if status == -signal.SIGKILL:
            # most likely for memory
            status, printed, more = checked(trial.rt, trial.crate, texts, only, own)
            seconds += more
        with trial.leaving:
            leave(own, trial.kept)
    if trial.rt.rtlib.STALE.search(printed):
        printed = "the libraries of the crate are not those that the gate has proved; rt all check proves them"
    return status, printed, seconds


def try_bodies(trial, bodies):
    """Checks functions with wrong bodies, and answers what that showed."""
    texts, found = with_bodies(trial.name, trial.folder, bodies)
    status, printed, seconds = run(trial, texts, [it.function for it in found])
    said = {name: text for its_crate, name, text in SAID.findall(printed) if its_crate == trial.name}
    took = dict(SECONDS.findall(printed))
    if not said:
        print(f"a check of {trial.name} ended with status {status} and said nothing of its functions:", *printed.split("\n")[:HOW_MANY_LINES], sep="\n", flush=True)
        return blamed(found, printed, seconds)
    with_one = {it.function for it in found}
    tried = Tried(seconds, others=sorted(name for name, text in said.items() if name not in with_one and ("did not prove" in text or errors_of(name, printed))))
    for it in found:
        text = said.get(it.function, "")
        reasons = reasons_of(it, text, printed)
        if text.startswith(("no holes", "depends on a hole")):
            tried.accepted.append((it.body, "it is proved"))
        elif is_refusal(text) and reasons:
            tried.refused.append((it.body, sorted(set(CLAUSE.findall("\n".join(reasons)))), took.get(f"{trial.name}::{it.function}", "0")))
        else:
            tried.unclear.append((it.body, "; ".join(errors_of(it.function, printed)[:2]) or text or "nothing is said of it"))
    return tried


def blamed(found, printed, seconds):
    """What a check showed that said nothing of its functions: bodies that can't be compiled aren't refused, and the other ones are tried again, each alone where none is to blame."""
    errors = re.findall(r"^(?:\./)?(src/\S+?):(\d+):\d+: (error.*)", printed, re.MULTILINE)
    tried, why = Tried(seconds), {}
    for it in found:
        why[it.function] = next((text for file, line, text in errors if file == it.body.file and int(line) in it.lines), "")
    for it in found:
        if why[it.function]:
            tried.accepted.append((it.body, why[it.function]))
        elif any(why.values()):
            tried.again.append(it.body)
        else:
            tried.unclear.append((it.body, "nothing is said of it"))
    return tried


def is_refusal(said):
    """Whether what is said of a function is that it isn't proved."""
    return said.startswith("not proved") or "did not prove" in said


def errors_of(function, printed):
    """The errors in the proof of a function."""
    return re.findall(rf"^(?:\./)?{proof_of(function)}/(\S+: error: .*)", printed, re.MULTILINE)


def reasons_of(it, said, printed):
    """Why a function is refused by what its contract says: the goals that stay open, and the answers that no longer fit, not those that lack a name. None where a file of its proof can't be
    read: what is said against it names no declaration, and no import."""
    errors = errors_of(it.function, printed)
    if any(UNREADABLE.search(error) or not OF_AN_ANSWER.match(error) for error in errors):
        return []
    notes = re.findall(rf"^note: {re.escape(it.body.file)}:(\d+):\d+: (.*not proved.*)", printed, re.MULTILINE)
    goals = [said] if "did not prove" in said else []
    return goals + [note for line, note in notes if int(line) in it.lines] + [error for error in errors if not MISSING_NAME.search(error)]


def fitting(crate, bodies):
    """The wrong bodies of a crate that can be tried, and how many can't, which are told: each changes what stands in its file once, in its function, which has the clause or calls what the body
    names."""
    fits, files = [], {it.file for it in bodies}
    texts = {it: read(f"{crate.folder}/{it}") if os.path.isfile(f"{crate.folder}/{it}") else "" for it in files}
    for body in bodies:
        text = texts[body.file]
        if body.changed(text) is None:
            print(f"wrong body {crate.name}/{body.name}: BAD EDIT: what it changes doesn't stand in {body.file} once", flush=True)
        elif body.first(text) is None:
            print(f"wrong body {crate.name}/{body.name}: BAD EDIT: what it changes doesn't stand in {body.function}", flush=True)
        elif body.needs and f"{body.needs}(" not in body.code(text):
            print(f"wrong body {crate.name}/{body.name}: BAD EDIT: {body.function} doesn't call {body.needs}", flush=True)
        elif body.clause and not body.is_of_a_trait(text) and body.clause not in body.clauses(text):
            print(f"wrong body {crate.name}/{body.name}: BAD EDIT: {body.function} has no clause {body.clause}", flush=True)
        else:
            fits.append(body)
    return fits, len(bodies) - len(fits)


def tell(crate, tried):
    """Says what a check showed."""
    for body, broken, seconds in tried.refused:
        print(f"wrong body {crate}/{body.name}: refused: {body.function}{' by ' if broken else ''}{', '.join(broken)} ({seconds} s)", flush=True)
    for body, why in tried.accepted:
        print(f"wrong body {crate}/{body.name}: NOT REFUSED: {body.function}: {why[:300]}", flush=True)
    for other in tried.others:
        print(f"wrong bodies of {crate}: FAILED: {other} has none, and was refused for itself", flush=True)


class Lanes:
    """The crates whose wrong bodies are tried, and the checks that run side by side."""

    def __init__(self, trials, gate):
        self.trials, self.gate, self.changed = trials, gate, threading.Condition()

    def next(self):
        """The bodies for a check of the crate with the most left that can begin, or None where nothing is left, or can begin no more."""
        with self.changed:
            while True:
                is_over = self.gate.is_over()
                ready = [it for it in self.trials if it.can_begin() and self.gate.has_proved(it.crate)]
                if ready and sum(it.running for it in self.trials) < self.gate.room():
                    trial = max(ready, key=Trial.weight)
                    # so that no processor waits at the end, a check takes no more than one's part of all that is left
                    part = sum(it.weight() for it in self.trials) / processors()
                    return trial, trial.next_bodies(part / trial.weight())
                if not ready and not any(it.running for it in self.trials) and (is_over or not any(it.left for it in self.trials)):
                    return None
                self.changed.wait(SECONDS_TO_LOOK_AGAIN)

    def work(self):
        """Makes one check after another."""
        while taken := self.next():
            trial, bodies = taken
            try:
                tried = try_bodies(trial, bodies)
            except (OSError, ValueError, LookupError, re.error) as e:
                tried = Tried(0, accepted=[(it, f"it can't be tried: {e!r}") for it in bodies])
            with self.changed:
                trial.note(tried)
                self.changed.notify_all()


def processors():
    """How many processors there are for this."""
    return len(os.sched_getaffinity(0))


def states_of(path):
    """The state of a process or of a thread, and the number of the process above it. Its name, in brackets, may have spaces."""
    words = read(f"{path}/stat").rpartition(")")[2].split()
    return words[0], int(words[1])


def running_beside():
    """How many threads run, or wait for nothing but a processor, below the process that began this one, but for this one and what it began."""
    above, running = {}, 0
    for pid in [int(it) for it in os.listdir("/proc") if it.isdigit()]:
        with contextlib.suppress(OSError):
            above[pid] = states_of(f"/proc/{pid}")[1]
    below = {os.getppid()}
    while more := {pid for pid, parent in above.items() if parent in below and pid != os.getpid()} - below:
        below |= more
    for pid in below:
        with contextlib.suppress(OSError):
            running += sum(states_of(f"/proc/{pid}/task/{it}")[0] == "R" for it in os.listdir(f"/proc/{pid}/task"))
    return running


def busy_beside():
    """How many processors those threads keep busy: what most looks of a short while show."""
    looks = []
    for _ in range(LOOKS):
        looks.append(running_beside())
        time.sleep(SECONDS_OF_LOOKS / LOOKS)
    return sorted(looks)[LOOKS // 2]


class Gate:
    """The gate, and what comes behind it: which crates it has proved, told by a file where it runs beside this, else all that stand built or can be built; and how many processors it leaves."""

    def __init__(self, file):
        self.file, self.proved = file, set()

    def is_over(self):
        """Whether nothing more is going to be proved. It reads the file anew."""
        if not self.file:
            return True
        self.proved = set(read(self.file).split("\n"))
        return "end" in self.proved

    def has_proved(self, crate):
        """Whether the libraries of a crate are proved."""
        return not self.file or all(it.name in self.proved for it in crate.below())

    def room(self):
        """How many checks may run beside what the gate runs. Of more than two processors one stays free, since four checks side by side take a quarter longer each."""
        most = processors() - (processors() > 2)
        return most if self.is_over() else min(most, processors() - busy_beside())


def is_built(crate):
    """Whether a library stands built: by the gate, whose builds have no stamp, or else it is built here where its text has changed."""
    made_by_the_gate = os.path.isdir(crate.rlib) and not os.path.isfile(f"{os.path.dirname(crate.rlib)}/stamp")
    return made_by_the_gate or not crate.build_rlib(["--jobs", "1"], anew=False)


def tried_in(trials, gate):
    """Tries the wrong bodies of crates, and answers how many were refused and how many weren't."""
    lanes = Lanes(trials, gate)
    workers = [threading.Thread(target=lanes.work) for _ in range(processors())]
    for it in workers:
        it.start()
    for it in workers:
        it.join()
    for it in trials:
        if it.left:
            print(f"wrong bodies of {it.name}: NOT TRIED: {len(it.left)}, since a library below is not proved as it stands", flush=True)
    return sum(it.refused for it in trials), sum(it.failed + len(it.left) for it in trials)


def listed(crates):
    """The crates with wrong bodies, each with those that can be tried, and how many can't."""
    found, unfit = [], 0
    for crate in crates:
        bodies, more = fitting(crate, bodies_of(crate.folder) if os.path.isfile(f"{crate.folder}/{LIST}") else [])
        found, unfit = found + ([(crate, bodies)] if bodies else []), unfit + more
    return found, unfit


def named(found, words):
    """The wrong bodies that words name, of each crate, or None where a word names nothing."""
    asked = [(crate, [it for it in bodies if crate.name in words or f"{crate.name}/{it.name}" in words]) for crate, bodies in found]
    names = {name for crate, bodies in asked if bodies for name in [crate.name, *[f"{crate.name}/{it.name}" for it in bodies]]}
    return [(crate, bodies) for crate, bodies in asked if bodies] if set(words) <= names else None


def asked_for(found, given):
    """The wrong bodies of each crate that a run tries, or None where a word names nothing. It is told how many of how many these are."""
    asked = named(found, given.words) if given.words else found
    if asked and not given.all and (given.chosen or not given.words):
        chosen = choice.choose(ROOT, asked)
        choice.tell(asked, chosen)
        asked = [(crate, [it for it in bodies if it.name in chosen[crate.name]]) for crate, bodies in asked]
    if asked is not None:
        tried, all_of_them = (sum(len(bodies) for _, bodies in it) for it in (asked, found))
        print(f"wrong bodies: {tried} of {all_of_them} tried, {all_of_them - tried} left", flush=True)
    return asked


def words_of(words):
    """What the words of a call ask for."""
    parser = argparse.ArgumentParser(description="tries wrong bodies")
    parser.add_argument("words", nargs="*", metavar="CRATE or CRATE/BODY")
    parser.add_argument("--all", action="store_true", help="try all, also those that a run leaves out")
    parser.add_argument("--chosen", action="store_true", help="of the crates that are named try those that a run without words tries")
    parser.add_argument("--list", action="store_true", help="say what would be tried, and try nothing")
    parser.add_argument("--beside", metavar="FILE", help="the gate runs beside it, and tells in FILE what it has proved")
    return parser.parse_args(words)


def main(words):
    given = words_of(words)
    os.chdir(ROOT)
    rt = toolchain()
    # its first call sets a signal's handler, which only the main thread may
    rt.rtlib.guarded()
    found, unfit = listed(rt.rtlib.crates_below(ROOT))
    asked = asked_for(found, given)
    if asked is None:
        print("nothing was tried, since a word names no crate with wrong bodies, or none of them\n0 passed, 1 failed")
        return 1
    if given.list:
        print(f"0 passed, {unfit} failed")
        return 1 if unfit else 0
    for library in [] if given.beside else [below for crate, bodies in asked if bodies for below in crate.below()]:
        if not is_built(library):
            print(f"nothing was tried, since {library.name} is not proved as it stands\n0 passed, 1 failed")
            return 1
    if given.beside:
        # what runs beside it goes first
        os.nice(19)
    with tempfile.TemporaryDirectory() as room:
        trials = [Trial(rt, crate, room, bodies) for crate, bodies in asked]
        for it in [] if given.beside else trials:
            it.begin_with_kept_work()
        passed, failed = tried_in(trials, Gate(given.beside))
    print(f"{passed} passed, {failed + unfit} failed")
    return 1 if failed + unfit else 0


if __name__ == "__main__":
    sys.exit(main(sys.argv[1:]))
