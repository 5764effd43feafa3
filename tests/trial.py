#!/usr/bin/env python3
"""Tries tests/wrong_bodies.py itself, on a small crate: a body that a contract refuses, and bodies of which each is to make a run fail. The last line counts."""

import contextlib
import io
import os
import re
import sys
import tempfile

import bodies
from wrong_bodies import ROOT, Gate, Trial, fitting, toolchain, tried_in

CRATE = "image_access"
MEMORY = "src/memory.rt"
BODIES = [
    ("wrong", "error::StorageErrorFromAllocError::from", "src/error.rt", "fn from(_: AllocError) -> Self {", "fn from(_: AllocError) -> Self { return StorageError::Fault;"),
    ("stands_on_a_wrong_one", "memory::MemStorageStorage::resize", MEMORY, "set_size(&mut self.bytes, size)?;", "set_size(&mut self.bytes, (size))?;"),
    ("harmless", "call_count::CallCount::begin", "src/call_count.rt", "let fails = self.fails_in == 1;", "let fails = 1 == self.fails_in;"),
    ("harmless_by_other_names", "memory::put", MEMORY, "within[at..end].copy_from_slice(bytes);", "let _end = end; put(within, at, bytes);"),
    ("unchanged", "memory::overwrite", MEMORY, "grow(bytes, at, new_bytes.len())?;", "grow(bytes, at, new_bytes.len())?;"),
    ("with_answers_that_cannot_be_read", "memory::grow", MEMORY, "let end = end.max(bytes.len());", "let end = bytes.len().max(end);"),
    ("cannot_be_compiled", "memory::put_zeroes", MEMORY, "within[at..end].fill(0);", "within[at..end].fill(no_number);"),
    ("breaks_a_clause_alone", "memory::grow", MEMORY, "bytes.resize(end, 0)", "bytes.resize(end, 1)"),
    ("needs_what_is_not_called", "memory::grow", MEMORY, "bytes.resize(end, 0)", "bytes.resize(end, 2)"),
    ("stands_nowhere", "memory::put", MEMORY, "within[at..end].copy_to_slice(bytes);", ""),
    ("stands_in_another_one", "memory::grow", MEMORY, "within[at..end].fill(0);", "within[at..end].fill(1);"),
]
NEEDS = {"breaks_a_clause_alone": "resize", "needs_what_is_not_called": "push"}
WANTED = {
    "wrong": r"refused: ",
    "stands_on_a_wrong_one": r"NOT REFUSED: .*: it is proved",
    "harmless": r"NOT REFUSED: .*: it is proved",
    "harmless_by_other_names": r"NOT REFUSED: .*has no field",
    "unchanged": r"NOT REFUSED: .*: it is proved",
    "with_answers_that_cannot_be_read": r"NOT REFUSED: .*is never closed",
    "cannot_be_compiled": r"NOT REFUSED: .*error",
    "breaks_a_clause_alone": r"NOT REFUSED: .*: it is proved",
    "needs_what_is_not_called": r"BAD EDIT: ",
    "stands_nowhere": r"BAD EDIT: ",
    "stands_in_another_one": r"BAD EDIT: ",
}


def spoiled(proof_files):
    """What gives a proof its files, but that one body's answers have a bracket that is never closed."""
    return lambda crate, folder, body, function: {path: text + "(" * (body.name == "with_answers_that_cannot_be_read") for path, text in proof_files(crate, folder, body, function).items()}


def main():
    os.chdir(ROOT)
    bodies.proof_files = spoiled(bodies.proof_files)
    rt = toolchain()
    rt.rtlib.guarded()
    crate = next(it for it in rt.rtlib.crates_below(ROOT) if it.name == CRATE)
    tried = [bodies.WrongBody(name, number, function, file, needs=NEEDS.get(name, ""), pairs=[(old, new)]) for number, (name, function, file, old, new) in enumerate(BODIES, 1)]
    printed = io.StringIO()
    with tempfile.TemporaryDirectory() as room, contextlib.redirect_stdout(printed):
        fits, unfit = fitting(crate, tried)
        trial = Trial(rt, crate, room, fits)
        trial.begin_with_kept_work()
        refused, failed = tried_in([trial], Gate(None))
    said = dict(re.findall(rf"^wrong body {CRATE}/(\w+): (.*)$", printed.getvalue(), re.MULTILINE))
    passed = [name for name, wanted in WANTED.items() if re.match(wanted, said.get(name, ""))]
    for name in WANTED:
        print(f"{'ok' if name in passed else 'FAILED'}: {name}: {said.get(name, 'nothing is said of it') if name not in passed else ''}")
    is_counted = (refused, failed + unfit) == (1, len(WANTED) - 1)
    print(f"{'ok' if is_counted else 'FAILED'}: one is counted as refused, and the other ones as failed: {refused}, {failed + unfit}")
    failed = len(WANTED) - len(passed) + (not is_counted)
    print(f"{len(passed) + is_counted} passed, {failed} failed")
    return 1 if failed else 0


sys.exit(main())
