#!/usr/bin/env python3
"""The program is killed at random moments of a long script. The image is then consistent but for leaks, and there is a place in the script such that each byte has its value of
the last flush before it, or one written since. Seeds are fixed; the moments are not."""

import os
import random
import signal
import subprocess
import time

import checks
from checks import create, run

CLUSTER = 512
CLUSTERS = 256
SIZE = CLUSTER * CLUSTERS
COMMANDS = 12000
KILLS = 150


def commands():
    """Fills of a part of a cluster or of all of it, and flushes."""
    chosen = random.Random(3)
    steps = []
    for number in range(COMMANDS):
        if chosen.randrange(25) == 0:
            steps.append(None)
        else:
            start = chosen.choice([0, 0, 0, 128])
            steps.append((chosen.randrange(CLUSTERS) * CLUSTER + start, CLUSTER - start, number % 255 + 1))
    return steps


def text_of(steps):
    return "".join("flush\n" if step is None else f"fill {step[0]} {step[1]} {step[2]:02x}\n" for step in steps).encode()


class Allowed:
    """Which values each byte may have, for a stop in the command under way."""

    def __init__(self):
        self.disk = bytearray(SIZE)
        self.since = {}

    def give(self, step):
        at, length, value = step
        for place in range(at, at + length, 128):
            self.since.setdefault(place, {self.disk[place]}).add(value)
            self.disk[place:place + 128] = bytes([value]) * 128

    def flushed(self):
        self.since = {}

    def fits(self, found):
        return all(found[place] in self.since.get(place, ()) or (place not in self.since and found[place] == self.disk[place]) for place in range(0, SIZE, 128))


def whole_parts(found):
    """Each part of a cluster was written at once."""
    return all(found[place:place + 128] == found[place:place + 1] * 128 for place in range(0, SIZE, 128))


def may_be_found(steps, found):
    """Whether some place in the script leaves these bytes."""
    allowed = Allowed()
    if allowed.fits(found):
        return True
    for step in steps:
        if step is None:
            # A stop inside the flush still has what was allowed before it.
            allowed.flushed()
        else:
            allowed.give(step)
        if allowed.fits(found):
            return True
    return False


def bytes_of(file):
    told = run(file, f"read 0 {SIZE}")
    return bytes.fromhex(told[0].removeprefix("data "))


def killed(steps, text, seconds):
    """Runs the script on a new image, kills it after so many seconds, and looks at what is left. Answers whether it was still running."""
    create("disk", SIZE, CLUSTER, 64)
    program = subprocess.Popen([checks.QIMG, "run", "disk"], stdin=subprocess.PIPE, stdout=subprocess.DEVNULL)
    program.stdin.write(text)
    program.stdin.close()
    time.sleep(seconds)
    was_running = program.poll() is None
    program.send_signal(signal.SIGKILL)
    program.wait()
    leaks = checks.consistent("disk").surplus
    done = subprocess.run(["qemu-img", "check", "-f", "qcow2", "disk"], stdout=subprocess.PIPE, stderr=subprocess.STDOUT)
    if done.returncode not in (0, 3):
        raise AssertionError(f"after {seconds:.4f} s: qemu-img check ended with {done.returncode}: {done.stdout.decode(errors='replace')}")
    # QEMU looks for leaks only as far as the file goes: one past its end was counted, and not written yet
    seen = [cluster for cluster in leaks if cluster * CLUSTER < os.path.getsize("disk")]
    checks.equal(done.returncode, 3 if seen else 0, f"after {seconds:.4f} s: the status of qemu-img check beside {checks.shown(leaks)}")
    found = bytes_of("disk")
    if not whole_parts(found) or not may_be_found(steps, found):
        raise AssertionError(f"after {seconds:.4f} s the image shows bytes of no moment")
    return was_running


def kills():
    steps = commands()
    text = text_of(steps)
    create("disk", SIZE, CLUSTER, 64)
    start = time.monotonic()
    checks.qimg("run", "disk", given=text)
    whole = time.monotonic() - start
    chosen = random.Random(4)
    running = sum(killed(steps, text, chosen.random() * whole) for _ in range(KILLS))
    if running < KILLS // 10:
        raise AssertionError(f"the program was still running at {running} of {KILLS} kills")


def main():
    every = checks.Checks()
    every.run("kills", kills)
    every.done()


main()
