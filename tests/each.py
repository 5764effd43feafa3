#!/usr/bin/env -S python3 -B
"""Two worked scripts: each system call on the image and each growth of memory fails in turn, and the image is looked at after each write. And each byte at the begin of an image takes other
values. A call is made to fail by strace, a growth by a library that is loaded before."""

import re
import subprocess

import checks
from checks import Checks, contents, create, equal
from failing import failing, has_failed, refuser, refusing

CLUSTER = 512
S1 = [
    ("fill 0 1024 11", "ok"), ("flush", "ok"), ("prepare 0 1024 700 keep", "prepared 3584 700"), ("put 0 600 2222", "ok"), ("flush", "ok"), ("commit 0", "ok"),
    ("dback 0 512", "range 0 512"), ("fill 512 100 33", "ok"), ("zero 1024 512", "range 1024 512"), ("fill 40000 10 44", "ok"), ("map 40000 10", "raw image 4672 10 rw"),
    ("grow 98304 none", "ok"), ("shrink 600", "shrunk 98304"), ("flush", "ok"), ("read 512 4", "data 33333333"),
]
# what each line gives guest bytes: from where, how many, and the value
GIVES = {0: [(0, 1024, 0x11)], 5: [(1024, 600, 0), (1624, 2, 0x22), (1626, 98, 0)], 6: [(0, 512, 0)], 7: [(512, 100, 0x33)], 8: [(1024, 512, 0)], 9: [(40000, 10, 0x44)]}
SIZES = {11: 98304, 12: 600}
S2 = [("fill 0 1048576 11", "ok"), ("fill 1048576 1048576 22", "ok"), ("flush", "ok")]
GIVES_2 = {0: [(0, 1 << 20, 0x11)], 1: [(1 << 20, 1 << 20, 0x22)]}
MEMORY, STORAGE, FAILED = "refused 14 memory", "refused 15 storage", "refused 16 failed"
# the first write of the script, as strace shows it, with its bytes
WRITE = re.compile(r'pwrite64\(\d+, "((?:\\x[0-9a-f]{2})*)", \d+, (\d+)\)\s+= \d+')
BYTES = 2560
VALUES = (0, 1, 255)


def text(script):
    return "".join(f"{line}\n" for line, _ in script).encode()


def answers(script):
    return [answer for _, answer in script]


def refused_at(given, refusal):
    """The number of the first answer that is this refusal. That of a write has how many bytes were written behind it."""
    return next(number for number, answer in enumerate(given) if answer.startswith(refusal))


def new():
    create("disk", 65536, CLUSTER)


class Allowed:
    """Which values each guest byte may have, while a script runs: that of the last flush, and those given since; and which sizes."""

    def __init__(self, size, gives, sizes):
        self.gives, self.sizes = gives, sizes
        self.disk, self.size = bytearray(max(size, *sizes.values(), 0)), size
        self.since, self.of_size = [], {size}

    def begin(self, number):
        """A line of that number begins: what it gives may be found, and need not."""
        for at, length, value in self.gives.get(number, ()):
            self.since.append((at, length, value))
        if number in self.sizes:
            self.of_size.add(self.sizes[number])

    def end(self, number, line):
        """It has ended without a refusal."""
        if line == "flush":
            for at, length, value in self.since:
                self.disk[at:at + length] = bytes([value]) * length
            self.since = []
        if number in self.sizes:
            self.size = self.sizes[number]
            self.of_size = {self.size}

    def look(self, file, what):
        """The image is consistent, and shows what may be found."""
        checks.consistent(file)
        size = int(one(file, "size").removeprefix("size "))
        equal(size in self.of_size, True, f"{what}: the size {size}")
        found = exported(file)
        if found == self.disk[:size]:
            return
        wrong = next((at for at in range(0, size, CLUSTER) if not self.may_be(at, found[at:at + CLUSTER])), None)
        equal(wrong, None, f"{what}: the cluster with a byte that was never given there")

    def may_be(self, at, part):
        """Whether these bytes may be found from an offset on."""
        old, end = self.disk[at:at + len(part)], at + len(part)
        if part == old or any(start <= at and end <= start + length and part == bytes([value]) * len(part) for start, length, value in self.since):
            return True
        given = [(start - at, start + length - at, value) for start, length, value in self.since if start < end and at < start + length]
        return all(it == old[place] or any(start <= place < stop and it == value for start, stop, value in given) for place, it in enumerate(part))


def exported(file):
    """The bytes of the disk."""
    equal(checks.ran("export", file, "raw", stdout=subprocess.PIPE, stderr=subprocess.DEVNULL, timeout=600)[0], 0, "the status of an export")
    return contents("raw")


def one(file, line):
    """The answer to one line."""
    done = subprocess.run([checks.QIMG, "run", file], input=f"{line}\n".encode(), stdout=subprocess.PIPE, stderr=subprocess.DEVNULL, timeout=600)
    equal(done.returncode, 0, f"the status of {line}, which printed {checks.shown(done.stdout)}")
    return done.stdout.decode().strip()


def as_answered(script):
    new()
    equal(checks.run("disk", *(line for line, _ in script)), answers(script), "the answers")
    checks.consistent("disk", 0)


def second_script():
    create("disk", 4194304, CLUSTER, 64)
    equal(checks.run("disk", *(line for line, _ in S2)), answers(S2), "the answers")
    checks.consistent("disk", 0)
    equal(checks.number_at(contents("disk"), 56, 4), 2, "how many clusters the reftable has")


def each_call(call, least):
    """The line that the call fails is refused 15, those before it have their answers, and those behind it are refused 16, but for what needs no image."""
    for number in range(1, 200):
        new()
        status, output = failing("disk", call, number, ["run", "disk"], input=text(S1))
        if not has_failed():
            equal((status, output.splitlines()), (0, answers(S1)), "where none failed")
            equal(number > least, True, f"how many calls failed: {number - 1}")
            return
        given = output.splitlines()
        equal(status, 1, f"the status at call {number}")
        if given == [STORAGE]:
            Allowed(65536, {}, {}).look("disk", f"opening at call {number}")
            continue
        at = refused_at(given, STORAGE)
        equal(given[:at], answers(S1)[:at], f"the answers before call {number}")
        equal({it for it in given[at + 1:] if not it.startswith(FAILED)} - {"misuse"}, set(), f"the answers after call {number}")
        # the flush at the end is refused too, in a line of its own
        equal(len(given), len(S1) + 1, f"how many answers at call {number}")
        allowed = Allowed(65536, GIVES, SIZES)
        for line in range(at):
            allowed.begin(line)
            allowed.end(line, S1[line][0])
        allowed.begin(at)
        allowed.look("disk", f"call {number}, in line {S1[at][0]}")
    raise AssertionError("more than 199 calls")


def each_growth():
    """A line is refused 14, or nothing was called; the same line given again has its answer, where the image isn't failed."""
    library = refuser()
    met = set()
    for growth in range(1, 2000):
        new()
        status, output, came = refusing(library, growth, ["run", "disk"], text(S1))
        given = output.splitlines()
        if given == answers(S1):
            equal(status, 0, "the status where none was refused")
            if came:
                continue
            equal(len(met) > 3, True, f"the lines that were refused: {met}")
            return
        equal((status, came), (1, True), f"at growth {growth}")
        if len(given) <= 1:
            equal(given in ([], [MEMORY]), True, f"growth {growth}, where nothing was called: {given}")
            checks.consistent("disk", 0)
            continue
        at = refused_at(given, MEMORY)
        equal(given[:at], answers(S1)[:at], f"the answers before growth {growth}")
        met.add(S1[at][0])
        is_failed = any(it.startswith(FAILED) for it in given)
        checks.consistent("disk", None if is_failed else 0)
        given_again(library, growth, at)
    raise AssertionError("more than 2,000 growths")


def given_again(library, growth, at):
    """With the line twice, a growth near that one is refused in its first turn: then the second one has the answer, and so have all behind it, or the image has failed."""
    twice = S1[:at + 1] + S1[at:]
    for near in range(max(1, growth - 2), growth + 6):
        new()
        _, output, _ = refusing(library, near, ["run", "disk"], text(twice))
        given = output.splitlines()
        if len(given) > at + 1 and given[:at] == answers(S1)[:at] and given[at].startswith(MEMORY):
            if not any(it.startswith(FAILED) for it in given):
                equal(given[at + 1:], answers(S1)[at:], f"the answers after line {S1[at][0]} was refused and given again")
            return
    raise AssertionError(f"line {S1[at][0]} wasn't refused again near growth {growth}")


def recorded(script):
    """The image before the script, and each write: where it was made, and the bytes."""
    before = contents("disk")
    done = subprocess.run(["strace", "-f", "-qq", "-xx", "-s", "1048576", "-e", "trace=pwrite64", "-o", "calls", checks.QIMG, "run", "disk"], input=text(script), stdout=subprocess.PIPE, timeout=600)
    equal((done.returncode, done.stdout.decode().splitlines()), (0, answers(script)), "the answers")
    with open("calls", encoding="ascii") as calls:
        return before, [(int(at), bytes.fromhex(data.replace("\\x", ""))) for data, at in WRITE.findall(calls.read())]


def line_of(script, size, width, number):
    """The line in which the write of that number is made: the one that is refused where it fails. Past the lines it is the flush at the end."""
    create("part", size, CLUSTER, width)
    given = failing("part", "pwrite64", number, ["run", "part"], input=text(script))[1].splitlines()
    return refused_at(given, STORAGE)


def ends_of(script, size, width, count):
    """For each line how many writes were made when it ended, of so many."""
    ends, low = [], 0
    for line in range(len(script)):
        high = count
        while low < high:
            middle = (low + high) // 2
            low, high = (middle + 1, high) if line_of(script, size, width, middle + 1) <= line else (low, middle)
        ends.append(low)
    return ends


def each_stop(script, gives, sizes, size, width, every):
    """After each write the image is consistent, shows what may be found, opens for writing, and the first script runs on it. Of writes of whole clusters to new places in a row only some are
    looked at."""
    create("disk", size, CLUSTER, width)
    before, writes = recorded(script)
    ends = ends_of(script, size, width, len(writes))
    equal(ends[-1], len(writes), "how many writes there are")
    held, line, allowed, data = bytearray(before), 0, Allowed(size, gives, sizes), 0
    for number, (at, put) in enumerate(writes):
        while number >= ends[line]:
            allowed.begin(line)
            allowed.end(line, script[line][0])
            line += 1
        allowed.begin(line)
        is_data = len(put) == CLUSTER and len(set(put)) == 1 and put[0] in (0x11, 0x22) and at >= len(held)
        held.extend(bytes(max(0, at + len(put) - len(held))))
        held[at:at + len(put)] = put
        data = data + 1 if is_data else 0
        if not is_data or data % every == 1:
            with open("stopped", "wb") as it:
                it.write(held)
            allowed.look("stopped", f"after write {number + 1}, in line {script[line][0]}")
            runs_on("stopped", number + 1)


def runs_on(file, number):
    """The first script has answers, but where a range is beyond the size, or its slot is empty for that."""
    done = subprocess.run([checks.QIMG, "run", file], input=text(S1), stdout=subprocess.PIPE, stderr=subprocess.DEVNULL, timeout=600)
    refused = [it for it in done.stdout.decode().splitlines() if it.startswith("refused") and not it.startswith("refused 2 ")]
    equal(refused, [], f"the first script on the image after write {number}")
    checks.consistent(file)


def each_byte():
    """An image with a byte changed is refused, or each line has an answer, and the checker ends."""
    new()
    checks.run("disk", "fill 0 512 11", "flush")
    good = contents("disk")
    for place in range(BYTES):
        script = [it for it in S1 if it[0] != "shrink 600"] if 24 <= place <= 28 else S1
        for value in VALUES:
            if good[place] != value:
                ends_on(good[:place] + bytes([value]) + good[place + 1:], script, f"byte {place} set to {value}")


def ends_on(data, script, what):
    with open("changed", "wb") as it:
        it.write(data)
    checks.Report("changed")
    done = subprocess.run([checks.QIMG, "run", "changed"], input=text(script), stdout=subprocess.PIPE, stderr=subprocess.DEVNULL, timeout=60)
    lines = done.stdout.decode().splitlines()
    is_refused = len(lines) == 1 and lines[0].startswith("refused ")
    # a flush at the end that is refused is told too
    equal(done.returncode in (0, 1) and (is_refused or len(lines) - len(script) in (0, 1)), True, f"{what}: status {done.returncode}, {lines}")


def main():
    every = Checks()
    every.run("the first script", as_answered, S1)
    every.run("the second script", second_script)
    for call, least in (("pread64", 3), ("pwrite64", 20)):
        every.run(f"each {call}", each_call, call, least)
    every.run("each growth", each_growth)
    every.run("each stop of the first script", each_stop, S1, GIVES, SIZES, 65536, 16, 1)
    every.run("each stop of the second script", each_stop, S2, GIVES_2, {}, 4194304, 64, 16)
    every.run("each byte", each_byte)
    every.done()


main()
