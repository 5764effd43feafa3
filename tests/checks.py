"""What the scripts share: running the program, what its checker says of the images that a run leaves, and counting what passed."""

import os
import re
import shutil
import subprocess
import sys
import tempfile
from contextlib import contextmanager

ROOT = os.path.dirname(os.path.dirname(os.path.abspath(__file__)))
QIMG = os.environ.get("QIMG", os.path.join(ROOT, "build", "qimg"))
USAGE = "usage: qimg create FILE SIZE CLUSTER WIDTH MODE | run FILE | check FILE | import RAW FILE CLUSTER WIDTH | export FILE RAW"


class NotTried(Exception):
    """A check can't be tried on this machine; it says why."""


class Checks:
    """Counts checks. Each runs in an empty folder of its own. One that can't be tried is told, and isn't counted."""

    def __init__(self):
        self.passed = 0
        self.failed = 0

    def run(self, name, check, *arguments):
        here = os.getcwd()
        room = tempfile.mkdtemp(prefix="qimg-")
        os.chdir(room)
        try:
            check(*arguments)
            self.passed += 1
        except NotTried as e:
            print(f"not tried: {name}: {e}", flush=True)
        except (AssertionError, OSError, subprocess.SubprocessError) as e:
            self.failed += 1
            print(f"FAILED {name}: {e}", flush=True)
        finally:
            os.chdir(here)
            shutil.rmtree(room)

    def done(self):
        print(f"{self.passed} passed, {self.failed} failed")
        sys.exit(1 if self.failed else 0)


def equal(got, want, what=""):
    if got != want:
        raise AssertionError(f"{what}: {shown(got)} and not {shown(want)}")


def shown(value):
    text = repr(value)
    return text if len(text) < 400 else text[:400] + ".."


BREACH = re.compile(r"snapshots \d+|external|unaligned (l1|reftable|l2|refblock|data) \d+|under \d+ \d+ \d+|shared \d+ \d+|copied \d+ \d+ \d+")
LEAK = re.compile(r"leak (\d+) (\d+) (\d+)")
IMAGE_WORD = {"create": 1, "run": 1, "import": 2, "export": 1}


class Report:
    """What `qimg check` says of an image: it is consistent, broken or refused, and how much more often each leaked cluster is counted than named."""

    def __init__(self, file):
        done = subprocess.run([QIMG, "check", file], stdout=subprocess.PIPE, stderr=subprocess.DEVNULL, timeout=600)
        self.lines = done.stdout.decode().splitlines()
        self.status = done.returncode
        leaks = [LEAK.fullmatch(line) for line in self.lines]
        self.surplus = {int(leak[1]): int(leak[2]) - int(leak[3]) for leak in leaks if leak}
        self.breaches = sum(bool(BREACH.fullmatch(line)) for line in self.lines)
        if not self.is_well_formed():
            raise AssertionError(f"qimg check ended with status {self.status} and {shown(self.lines)}")

    def is_well_formed(self):
        if self.is_refused():
            return self.status == 1 and len(self.lines) == 1
        last = f"broken, {self.breaches} breaches" if self.breaches else f"consistent, {len(self.surplus)} leaked"
        return self.status == (1 if self.breaches else 0) and len(self.lines) == self.breaches + len(self.surplus) + 1 and self.lines[-1] == last

    def is_refused(self):
        return bool(self.lines) and self.lines[0].startswith("refused ")

    def is_consistent(self):
        return self.status == 0


def consistent(file, leaks=None):
    """The checker finds the image consistent, and, where that is given, so many clusters leaked. Answers what it says."""
    told = Report(file)
    if not told.is_consistent() or leaks not in (None, len(told.surplus)):
        raise AssertionError(f"qimg check of {file}: {shown(told.lines)}")
    return told


def reported(file):
    return Report(file) if os.path.isfile(file) else None


@contextmanager
def kept(file):
    """What a run does to an image, whatever becomes of the run: one that is consistent stays so."""
    before = reported(file)
    yield before
    after = reported(file)
    if before and before.is_consistent() and not after.is_consistent():
        raise AssertionError(f"the image was consistent before the run: {shown(after.lines)}")


def ended_well(words, before, file):
    """A run with status 0 leaves each surplus of a consistent image, and a new image has none."""
    if words[0] in ("create", "import"):
        consistent(file, 0)
    elif before and before.is_consistent():
        equal(Report(file).surplus, before.surplus, "the surpluses")


def ran(*words, **how):
    done = subprocess.run([QIMG, *words], **how)
    return done.returncode, (done.stdout or b"").decode()


def qimg(*words, given=b"", **how):
    """Runs the program, and answers its status and the text that it printed. The checker looks at the image before and after."""
    how = {"input": given, "stdout": subprocess.PIPE, "stderr": subprocess.DEVNULL, "timeout": 600, **how}
    if "stdin" in how:
        del how["input"]
    place = IMAGE_WORD.get(words[0] if words else "")
    if place is None or len(words) <= place or not os.path.isfile(words[place]) and words[0] in ("run", "export"):
        return ran(*words, **how)
    with kept(words[place]) as before:
        status, text = ran(*words, **how)
    if status == 0 and os.path.isfile(words[place]):
        ended_well(words, before, words[place])
    return status, text


def create(file, size, cluster, width=16, mode="none"):
    equal(qimg("create", file, str(size), str(cluster), str(width), mode), (0, "created\n"), "create")


def run(file, *lines, status=0):
    """Runs lines on an image, and answers the lines that were printed."""
    got, text = qimg("run", file, given="".join(f"{line}\n" for line in lines).encode())
    equal(got, status, f"the status of {shown(lines)}, which printed {shown(text)}")
    return text.splitlines()


def answers(file, lines, status=0):
    """Runs lines on an image, each with the answer that is wanted."""
    equal(run(file, *(line for line, _ in lines), status=status), [answer for _, answer in lines], "the answers")


def contents(file):
    with open(file, "rb") as it:
        return it.read()


def number_at(data, place, length=8):
    return int.from_bytes(data[place:place + length], "big")


def put(file, place, data):
    """Writes bytes of a file at a place."""
    with open(file, "r+b") as it:
        it.seek(place)
        it.write(data)
