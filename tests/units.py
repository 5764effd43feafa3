#!/usr/bin/env python3
"""Runs the tests of the crates. A file crates/NAME/tests/PATH.rs is a module of its crate, written as src/PATH.rt would be: the toolchain compiles it with the crate's own code, with each
index, sum and access checked, and runs it. It needs no proof, since what a test shows it shows by running. What crates have under src/ is proved by the gate, and has no tests in it.
Crates can be named; the last line counts."""

import os
import re
import shutil
import subprocess
import sys
import tempfile
import time
from concurrent.futures import ThreadPoolExecutor

ROOT = os.path.dirname(os.path.dirname(os.path.abspath(__file__)))
SECONDS = "300"
HOW_MANY_LINES = 40


def read(path):
    """The text of a file."""
    with open(path, encoding="utf-8") as it:
        return it.read()


def modules_of(crate):
    """The modules of a crate's tests, by their paths without an ending."""
    top = f"{ROOT}/crates/{crate}/tests"
    found = [os.path.relpath(os.path.join(folder, name), top) for folder, _, names in os.walk(top) for name in names]
    return sorted(os.path.splitext(it)[0] for it in found if it.endswith(".rs"))


def put(crate, modules, folder):
    """Puts the modules of tests among the crate's own in its copy, each named by the module above it."""
    for module in modules:
        os.makedirs(os.path.dirname(f"{folder}/src/{module}"), exist_ok=True)
        shutil.copyfile(f"{ROOT}/crates/{crate}/tests/{module}.rs", f"{folder}/src/{module}.rt")
        above, name = os.path.split(module)
        if above not in modules:
            with open(f"{folder}/src/{above or 'lib'}.rt", "a", encoding="utf-8") as it:
                it.write(f"\n#[cfg(test)]\nmod {name};\n")


def ran(words, folder):
    """What a command of the toolchain printed."""
    return subprocess.run(words, cwd=folder, stdin=subprocess.DEVNULL, stdout=subprocess.PIPE, stderr=subprocess.STDOUT, errors="replace").stdout


def out_of_layout(crate, modules, folder):
    """How many modules of tests don't stand in the toolchain's layout, each of which is told. It reads the crate's copy."""
    ran(["rt", "fmt"], folder)
    found = [it for it in modules if read(f"{folder}/src/{it}.rt") != read(f"{ROOT}/crates/{crate}/tests/{it}.rs")]
    for module in found:
        print(f"tests of {crate}: FAILED: tests/{module}.rs isn't in the layout that rt fmt gives", flush=True)
    return len(found)


def try_crate(crate, modules, folder):
    """Runs the tests of a crate in its copy, and answers how many passed and how many didn't."""
    began = time.monotonic()
    wanted = sum(read(f"{ROOT}/crates/{crate}/tests/{it}.rs").count("#[test]") for it in modules)
    printed = ran(["rt", "try", "--test", "--seconds", SECONDS], folder)
    passed = len(re.findall(r"^test \S+ \.\.\. ok$", printed, re.MULTILINE))
    if passed != wanted:
        print(f"tests of {crate}: {wanted - passed} FAILED", *printed.split("\n")[-HOW_MANY_LINES:], sep="\n", flush=True)
    print(f"tests of {crate}: {passed} passed, {time.monotonic() - began:.0f} seconds", flush=True)
    return passed, abs(wanted - passed)


def main(names):
    found = {it: modules_of(it) for it in names or sorted(os.listdir(f"{ROOT}/crates"))}
    found = {crate: modules for crate, modules in found.items() if modules}
    with tempfile.TemporaryDirectory(prefix="tests-") as room, ThreadPoolExecutor(len(os.sched_getaffinity(0))) as lanes:
        shutil.copytree(f"{ROOT}/crates", f"{room}/crates", ignore=shutil.ignore_patterns("out", "must-fail"))
        shutil.copy(f"{ROOT}/crates.txt", room)
        failed = 0
        for crate, modules in found.items():
            put(crate, modules, f"{room}/crates/{crate}")
            failed += out_of_layout(crate, modules, f"{room}/crates/{crate}")
        counts = list(lanes.map(lambda it: try_crate(it, found[it], f"{room}/crates/{it}"), found))
    print(f"{sum(it for it, _ in counts)} passed, {failed + sum(it for _, it in counts)} failed")
    return 1 if failed or any(it for _, it in counts) else 0


if __name__ == "__main__":
    sys.exit(main(sys.argv[1:]))
