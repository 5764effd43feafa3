#!/usr/bin/env python3
"""Runs the merge gate, then the scripts on real files and the tests of the crates, and beside all these wrong bodies, of which tests/choice.py says which ones. With --anew the gate takes
nothing from what earlier runs proved. At the end stands how long each part took, what it took of processors, how many wrong bodies were tried and how many left, and what failed; the last
line sums what passed and what failed."""

import os
import re
import shutil
import subprocess
import sys
import tempfile
import threading
import time

ROOT = os.path.dirname(os.path.dirname(os.path.abspath(__file__)))
FAILURES = re.compile(r"NOT PROVED|NOT REFUSED|NOT TRIED|BAD EDIT|FAILED|: error")
PROVED = re.compile(r"rt: (\w+) (?:proved$|is kept: )")
TRIED = re.compile(r"wrong bodies: \d+ of \d+ tried, \d+ left")
SCRIPTS = ["tests/program.py", "tests/causes.py", "tests/writes.py", "tests/prepared.py", "tests/clearing.py", "tests/resizing.py", "tests/preallocation.py", "tests/failures.py", "tests/each.py", "tests/caches.py", "tests/stops.py", "tests/interop/write.py", "tests/interop/growing.py", "tests/interop/open.py", "tests/interop/versions.py", "tests/interop/overlay.py", "tests/interop/data_file.py", "tests/hostile.py", "tests/convert.py", "tests/check.py", "tests/tools.py", "tests/nbd.py", "tests/pages.py"]


def counts(words, told, look=lambda line: None):
    """Runs a command that ends with a line 'N passed, M failed', and answers these numbers, and the seconds that it and what it ran took of processors. Lines that tell of failures are
    kept in `told`; each line is shown to `look`."""
    started = subprocess.Popen(words, cwd=ROOT, stdout=subprocess.PIPE, text=True, errors="replace")
    last = ""
    for line in started.stdout:
        print(line, end="", flush=True)
        look(line)
        if FAILURES.search(line) and "refused, as it must be" not in line:
            told.append(line.rstrip())
        if line.strip():
            last = line.strip()
    _, status, used = os.wait4(started.pid, 0)
    started.returncode = status = os.waitstatus_to_exitcode(status)
    seconds = used.ru_utime + used.ru_stime
    said = re.fullmatch(r"(\d+) passed, (\d+) failed", last)
    if not said:
        print(f"{words[0]} ended with status {status} and without a count", flush=True)
        return 0, 1, seconds
    passed, failed = map(int, said.groups())
    if status and not failed:
        print(f"{words[0]} ended with status {status}", flush=True)
        failed = 1
    return passed, failed, seconds


def succeeds(words):
    """Runs a command that the scripts need."""
    return subprocess.run(words, cwd=ROOT).returncode == 0


def has_program(crate, name, target):
    """Takes a program that the gate has proved and built, or builds it."""
    built = f"{ROOT}/crates/{crate}/out/{crate}"
    if not os.path.isfile(built):
        return succeeds(["make", "-s", target])
    os.makedirs(f"{ROOT}/build", exist_ok=True)
    shutil.copy(built, f"{ROOT}/build/{name}")
    return True


class Parts:
    """The parts of a run: what each counted, how long it took and what of processors, the lines that tell of failures, and those that tell what was tried."""

    def __init__(self):
        self.results, self.times, self.told, self.tried, self.began = [], [], [], [], time.monotonic()

    def run(self, name, work):
        """Does a part, which answers its counts and the seconds that it took of processors."""
        began = time.monotonic()
        passed, failed, used = work()
        self.results.append((passed, failed))
        self.times.append((name, time.monotonic() - began, used))

    def command(self, name, words):
        """Runs a part that is a command with a count."""
        self.run(name, lambda: counts(words, self.told, self.note))

    def note(self, line):
        """Keeps a line that tells how many wrong bodies were tried."""
        if TRIED.match(line):
            self.tried.append(line.rstrip())

    def tell(self):
        """Prints the times, what failed and the sums, and answers whether anything failed."""
        passed, failed = (sum(each) for each in zip(*self.results))
        all_used = sum(used for _, _, used in self.times)
        for name, seconds, used in [*self.times, ("all", time.monotonic() - self.began, all_used)]:
            print(f"{name}: {seconds / 60:.1f} minutes, {used / 60:.1f} of a processor")
        print("\n".join([f"on {len(os.sched_getaffinity(0))} processors", *self.tried]))
        if failed:
            print("what failed:", *self.told[-40:], sep="\n")
        print(f"{passed} passed, {failed} failed")
        return failed > 0


def scripts(parts):
    """Runs the scripts on real files, those that need QEMU's tools only where these are there."""
    if not (has_program("qimg", "qimg", "qimg") and has_program("qimg_tools", "qimg-tools", "tools") and has_program("qimg_nbd", "qimg-nbd", "nbd")):
        print("a program wasn't built", flush=True)
        parts.run("scripts", lambda: (0, len(SCRIPTS), 0))
    elif not succeeds(["tests/install.sh"]):
        parts.command(SCRIPTS[0], [SCRIPTS[0]])
        parts.run("scripts that need QEMU's tools", lambda: (0, len(SCRIPTS) - 1, 0))
    else:
        for script in SCRIPTS:
            parts.command(script, [script])


def gate(file, told, words):
    """Runs the merge gate, and writes the name of each crate that it has proved to a file. An rt that keeps nothing of earlier runs has no `--anew`."""
    has_anew = "--anew" in subprocess.run(["rt", "help"], stdout=subprocess.PIPE, stderr=subprocess.STDOUT, text=True).stdout

    def note(line):
        for name in PROVED.findall(line):
            append(file, name)

    return counts(["rt", "ci", *(words if has_anew else [])], told, note)


def append(file, line):
    """Writes a line to the end of a file."""
    with open(file, "a", encoding="utf-8") as it:
        it.write(line + "\n")


def in_turn(parts, file, words):
    """Runs the gate, and what needs no more than it has made: the scripts, how wrong bodies are tried, and the tests of the crates. Then the file of crates that are proved gets a line
    `end`."""
    try:
        parts.run("the gate", lambda: gate(file, parts.told, words))
        scripts(parts)
        parts.command("the trial of the wrong bodies", ["tests/trial.py"])
        parts.command("the tests of the crates", ["tests/units.py"])
    finally:
        append(file, "end")


def main(words):
    if words not in ([], ["--anew"]):
        sys.exit("usage: tests/all.py [--anew]")
    parts = Parts()
    with tempfile.TemporaryDirectory() as room:
        file = f"{room}/proved"
        open(file, "w", encoding="utf-8").close()
        beside = threading.Thread(target=in_turn, args=(parts, file, words))
        beside.start()
        parts.command("the wrong bodies, begun with the gate", ["tests/wrong_bodies.py", "--beside", file])
        beside.join()
    return int(parts.tell())


sys.exit(main(sys.argv[1:]))
