#!/usr/bin/env -S python3 -B
"""Growing and shrinking on real files: what is answered, seen and written, what a stop leaves, and what is refused. Each of the system's calls and each growth of memory fails in turn. Then beside QEMU's tools: each one reads what the other one grew or shrank."""

import json
import os
import re
import resource
import subprocess
import sys

sys.path.insert(0, os.path.join(os.path.dirname(os.path.abspath(__file__)), "interop"))

from qemu import Disk, qemu_io, read_disk, same_disk, seen_by_qemu, tool, write_lines  # noqa: E402
import checks  # noqa: E402
from checks import Checks, answers, consistent, contents, create, equal, number_at, put, qimg, run  # noqa: E402
from failing import failing, has_failed, refuser, refusing  # noqa: E402
from writes import is_consistent, numbers_at  # noqa: E402

MODES = ["none", "zero", "format", "full", "write"]
TAKING = ["format", "full", "write"]
SIZE_AT = 24
CHANGE = re.compile(r'(?:pwrite64\(\d+, "((?:\\x[0-9a-f]{2})*)", (\d+), (\d+)\)|ftruncate\(\d+, (\d+)\))\s+= (\d+)')


def rows(lines, status=0, size=65536):
    """Runs lines on a new image."""
    create("disk", size, 512)
    answers("disk", lines, status)


# The changes of a file

def changed(lines):
    """Runs lines on an image, and answers what was printed and each change of its file."""
    with checks.kept("disk"):
        return changes_by("run", "disk", given="".join(f"{line}\n" for line in lines))


def changes_by(*words, given=""):
    """Runs the program, and answers what was printed and each change of a file: where, and the bytes, or None where the file was set to that length."""
    done = subprocess.run(
        ["strace", "-f", "-qq", "-xx", "-s", "4194304", "-e", "trace=pwrite64,ftruncate,fallocate", "-o", "calls", checks.QIMG, *words],
        input=given.encode(), stdout=subprocess.PIPE, stderr=subprocess.DEVNULL, timeout=600)
    made = []
    with open("calls") as calls:
        for line in calls:
            found = CHANGE.search(line)
            if found is None:
                raise AssertionError(f"a call that isn't known: {checks.shown(line)}")
            text, length, at, end, gone = found.groups()
            if text is None:
                made.append((int(end), None))
            else:
                data = bytes.fromhex(text.replace("\\x", ""))
                equal((len(data), int(gone)), (int(length), int(length)), "the length of a write")
                made.append((int(at), data))
    return done.stdout.decode().splitlines(), made


def leave(before, made):
    """Writes the file that a stop after these changes leaves."""
    held = bytearray(before)
    for at, data in made:
        end = at if data is None else at + len(data)
        held.extend(bytes(max(0, end - len(held))))
        if data is None:
            del held[end:]
        else:
            held[at:end] = data
    with open("stopped", "wb") as it:
        it.write(held)


def places(made):
    """Where the bytes of each write go: the offset, and how many."""
    return [(at, len(data)) for at, data in made if data is not None]


# What is answered and seen

def a_smaller_disk_grows():
    for mode in MODES:
        later = "aa" if mode == "none" else "00"
        rows([("fill 0 512 aa", "ok"), ("shrink 100", "shrunk 65536"), ("size", "size 100"), (f"grow 512 {mode}", "ok"), ("size", "size 512"), ("read 0 512", "data " + "aa" * 100 + later * 412), ("read 512 1", "refused 2 beyond size")], status=1)
        consistent("disk", 0)
        answers("disk", [("size", "size 512"), ("read 0 512", "data " + "aa" * 100 + later * 412)])


def zeros_reach_the_end_of_the_last_cluster():
    for mode in TAKING:
        rows([("fill 512 512 aa", "ok"), ("shrink 512", "shrunk 1024"), (f"grow 600 {mode}", "ok"), ("grow 1024 none", "ok"), ("read 512 512", "data " + "00" * 512), ("flush", "ok")], size=1024)


def the_rest_of_a_cluster_becomes_zeros():
    """The old end lies within a cluster that is data."""
    for mode in MODES:
        later = "aa" if mode == "none" else "00"
        rows([("fill 0 1024 aa", "ok"), ("shrink 600", "shrunk 1024"), (f"grow 700 {mode}", "ok"), ("grow 2048 none", "ok"), ("read 0 2048", "data " + "aa" * 600 + later * 424 + "00" * 1024), ("flush", "ok")], size=1024)


def a_longer_table_and_the_former_ones_cluster():
    create("disk", 65536, 512)
    said, made = changed(["grow 98304 none", "fill 0 512 11", "flush"])
    equal(said, ["ok", "ok", "ok"], "the answers")
    equal(places(made), [(1024, 512), (2048, 24), (36, 12), (24, 8), (1024, 512), (1536, 512), (2048, 8), (2560, 512), (1024, 512), (1536, 512)], "the writes")
    equal(made[1][1], bytes(24), "the longer L1 table")
    equal(made[2][1], bytes.fromhex("000000030000000000000800"), "its length and offset")
    equal(made[3][1], (98304).to_bytes(8, "big"), "the size")
    equal(made[6][1], bytes.fromhex("8000000000000600"), "the L1 entry")
    equal(numbers_at("disk", 1024, 1032, 1536), [0x0001000100010001, 0x0001000100000000, 0x8000000000000A00], "the counts and the L2 entry")
    answers("disk", [("map 0 512", "raw image 2560 512 rw"), ("read 65536 2", "data 0000"), ("size", "size 98304")])
    consistent("disk", 0)


def a_smaller_size_is_written_last():
    """Its second cluster is uncovered before it is counted no more."""
    create("disk", 32768, 512)
    run("disk", "fill 0 1024 aa", "flush")
    said, made = changed(["shrink 100", "flush"])
    equal(said, ["shrunk 32768", "ok"], "the answers")
    equal(places(made), [(24, 8), (2048, 512), (1024, 512)], "the writes")
    equal(made[0][1], (100).to_bytes(8, "big"), "the size")
    # The L1 table has one entry, and stands in cluster 3, the L2 table in cluster 4.
    equal(numbers_at("disk", 1032, 2048, 2056), [0x0001000100000000, 0x8000000000000A00, 0], "the counts and the L2 entries")
    answers("disk", [("read 0 100", "data " + "aa" * 100), ("map 0 512", "raw image 2560 100 rw"), ("map 100 1", "eof")])


def a_missing_table_is_made_on_the_way():
    """The second half of the disk has no L2 table: it is made in the cluster that was dropped just before, once the table that named this one is written."""
    create("disk", 65536, 512)
    run("disk", "fill 0 1024 aa", "flush")
    said, made = changed(["shrink 100", "flush"])
    equal(said, ["shrunk 65536", "ok"], "the answers")
    equal(places(made)[:5], [(2048, 512), (1024, 512), (3072, 512), (1544, 8), (24, 8)], "the writes up to the size")
    equal({at for at, _ in places(made)[5:]} & {0, 24, 36, 512, 1536, 1544}, set(), "the writes of the flush")
    answers("disk", [("read 0 100", "data " + "aa" * 100), ("size", "size 100")])
    consistent("disk", 0)


def zeros_from_the_start():
    """An image is created with no bytes and then grown, so it is made in the same way as one that is created with a mode."""
    rows([("grow 65536 zero", "ok"), ("map 0 65536", "zero 32768 explicit"), ("fill 0 512 11", "ok"), ("map 0 512", "raw image 3072 512 rw"), ("map 32768 32768", "zero 32768 explicit")], size=0)
    consistent("disk", 0)


def clusters_from_the_start():
    for mode in TAKING:
        rows([(f"grow 1024 {mode}", "ok"), ("map 0 1024", "raw image 2560 1024 rw"), ("read 0 1024", "data " + "00" * 1024), ("flush", "ok")], size=0)
        data = contents("disk")
        equal([number_at(data, 1024 + 2 * cluster, 2) for cluster in range(8)], [1, 1, 1, 1, 1, 1, 1, 0], mode)


def a_created_size_is_a_grown_one():
    create("made", 65536, 512)
    create("disk", 0, 512)
    answers("disk", [("grow 65536 none", "ok")])
    equal(contents("disk"), contents("made"), "the bytes")


def a_prepared_mapping_refuses():
    rows([
        ("prepare 0 0 512 overwrite", "prepared 2560 512"),
        ("grow 2048 zero", "refused 9 table prepared"),
        ("size", "size 1000"),
        ("shrink 500", "refused 17 mapping prepared"),
        ("drop 0", "ok"),
        ("grow 2048 zero", "ok"),
        ("map 1024 1024", "zero 1024 explicit"),
    ], status=1, size=1000)
    consistent("disk", 0)


def version_2_has_no_zeros():
    create("disk", 65536, 512)
    put("disk", 7, b"\2")
    answers("disk", [("grow 98304 zero", "refused 3 version"), ("size", "size 65536"), ("fill 0 512 11", "ok"), ("map 0 512", "raw image 2560 512 rw"), ("flush", "ok")], status=1)
    consistent("disk", 0)
    equal(numbers_at("disk", 24, 36, 40, 2048, 1536), [65536, 3 << 32, 2048, 0x8000000000000600, 0x8000000000000A00], "the size, the tables and the entries")
    for mode in ["none", *TAKING]:
        create("disk", 65536, 512)
        put("disk", 7, b"\2")
        answers("disk", [(f"grow 66000 {mode}", "ok"), ("size", "size 66000"), ("read 65536 464", "data " + "00" * 464), ("shrink 512", "shrunk 66000"), ("flush", "ok")])


# Stops

def filled(size, cluster, width):
    """A new image with data in each third cluster of its disk."""
    create("disk", size, cluster, width)
    run("disk", *[f"fill {at} {min(cluster, size - at)} {at // cluster % 255 + 1:02x}" for at in range(0, size, 3 * cluster)], "flush")
    return contents("disk")


def sizes_of_stops(before, made, size, check):
    """The size after each change, where `check` is given it and what was read up to a size. The file is consistent."""
    sizes = []
    for stop in range(len(made) + 1):
        leave(before, made[:stop])
        is_consistent("stopped", f"a stop after {stop} changes")
        told = int(run("stopped", "size")[0].removeprefix("size "))
        sizes.append(told)
        check(stop, told, read_disk("stopped", told))
    last = next(stop for stop, (at, data) in enumerate(made) if (at, data) == (SIZE_AT, size.to_bytes(8, "big")))
    return sizes, last


def stops_of_a_grow(cluster, width, mode):
    """Each stop has the old size, up to the write of the size, which is the last one of the growing itself; all bytes below the old size stay, and those above are zeros."""
    old, size = 20 * cluster - 100, 90 * cluster - 300
    before = filled(old, cluster, width)
    bytes_before = read_disk("disk", old)
    said, made = changed([f"grow {size} {mode}", "flush"])
    equal(said, ["ok", "ok"], "the answers")

    def is_kept(stop, told, found):
        equal(found, bytes_before + bytes(told - old), f"the disk after {stop} changes")
        if told == old:
            answers("stopped", [(f"grow {size} {mode}", "ok"), ("flush", "ok")])
            equal(read_disk("stopped", size), bytes_before + bytes(size - old), f"the disk that is grown again after {stop} changes")

    sizes, last = sizes_of_stops(before, made, size, is_kept)
    equal(sizes, [old] * (last + 1) + [size] * (len(made) - last), "the sizes")
    equal(contents("stopped"), contents("disk"), "the file that all changes leave")


def stops_of_a_shrink(cluster, width):
    """Each stop has the old size, up to the write of the size; what lies behind the new end is as it was or zero, cluster by cluster."""
    old, size = 90 * cluster - 300, 21 * cluster + 100
    before = filled(old, cluster, width)
    bytes_before = read_disk("disk", old)
    said, made = changed([f"shrink {size}", "flush"])
    equal(said, [f"shrunk {old}", "ok"], "the answers")

    def is_kept_or_dropped(stop, told, found):
        equal(found[:size], bytes_before[:size], f"the disk below after {stop} changes")
        for at in range(-(-size // cluster) * cluster, told, cluster):
            piece = found[at:at + cluster]
            if piece not in (bytes_before[at:at + cluster], bytes(len(piece))):
                raise AssertionError(f"the cluster at {at} after {stop} changes")

    sizes, last = sizes_of_stops(before, made, size, is_kept_or_dropped)
    equal(sizes, [old] * (last + 1) + [size] * (len(made) - last), "the sizes")
    equal(contents("stopped"), contents("disk"), "the file that all changes leave")


# Refusals

def a_size_that_is_not_another_changes_nothing():
    filled(65536, 512, 16)
    before = contents("disk")
    lines = [*((f"grow {size} {mode}", "ok") for size in (65536, 65535, 0) for mode in MODES), *((f"shrink {size}", "shrunk 65536") for size in (65536, 65537, 18446744073709551615)), ("size", "size 65536")]
    said, made = changed([line for line, _ in lines])
    equal(said, [answer for _, answer in lines], "the answers")
    equal((made, contents("disk") == before), ([], True), "the writes")


def a_size_past_the_limit_is_refused():
    filled(65536, 512, 16)
    before = contents("disk")
    for mode in MODES:
        for size in (18446744073709551615, 18446744073709551104, 137438953473):
            answers("disk", [(f"grow {size} {mode}", "refused 13 limit"), ("size", "size 65536")], status=1)
            equal(contents("disk") == before, True, f"the bytes after {size} {mode}")


def a_refused_growth_frees_nothing():
    """The cluster of a mapping that is dropped waits to be freed. The next mapping doesn't get it before a flush."""
    for mode in MODES:
        create("disk", 65536, 512)
        said = run("disk", "prepare 1 0 512 overwrite", "drop 1", f"grow 18446744073709551615 {mode}", "prepare 1 512 512 overwrite", "drop 1", "flush", "prepare 1 512 512 overwrite", "drop 1", status=1)
        host = int(said[0].split()[1])
        equal(said[1:], ["ok", "refused 13 limit", f"prepared {host + 512} 512", "ok", "ok", f"prepared {host} 512", "ok"], mode)


def the_greatest_size():
    """Its L1 table has 4,194,304 entries of eight bytes. An entry covers 512 GiB where clusters have 2 MiB."""
    size = 4194304 << 39
    create("disk", 65536, 2097152)
    lines = [(f"grow {size} none", "ok"), (f"fill {size - 1} 1 77", "ok"), (f"read {size - 2} 2", "data 0077"), (f"grow {size + 1} none", "refused 13 limit"), (f"shrink {size - 1}", f"shrunk {size}"), ("size", f"size {size - 1}")]
    status, said = checks.ran("run", "disk", input="".join(f"{line}\n" for line, _ in lines).encode(), stdout=subprocess.PIPE, stderr=subprocess.DEVNULL, timeout=600)
    equal((status, said.splitlines()), (1, [answer for _, answer in lines]), "the answers")
    equal(number_at(contents("disk"), 36, 4), 4194304, "the entries of the L1 table")
    equal(told_size("disk"), seen_by_qemu(size - 1), "the size that QEMU tells")


def a_prepared_mapping_keeps_the_size():
    filled(65536, 512, 16)
    before = read_disk("disk", 65536)
    answers("disk", [
        ("prepare 3 512 512 overwrite", "prepared " + str(host_after("disk")) + " 512"),
        *[(f"shrink {size}", "refused 17 mapping prepared") for size in (65535, 65024, 512, 0)],
        ("shrink 65536", "shrunk 65536"),
        ("size", "size 65536"),
        ("drop 3", "ok"),
        ("prepare 3 0 512 overwrite", f"existing {first_host('disk')} 512"),
        ("shrink 65535", "shrunk 65536"),
        ("grow 65536 none", "ok"),
    ], status=1)
    equal(read_disk("disk", 65536), before, "the disk")
    consistent("disk", 0)


def first_host(image):
    """Where the data of the first cluster stand."""
    return int(run(image, "map 0 512")[0].split()[2])


def host_after(image):
    """The first cluster of 512 bytes that isn't counted, in the first refblock."""
    data = contents(image)
    return 512 * next(cluster for cluster in range(256) if number_at(data, 1024 + 2 * cluster, 2) == 0)


BAD_LINES = [
    "grow", "grow 98304", "grow none", "grow none 98304", "grow 98304 None", "grow 98304 zeros", "grow 98304 falloc", "grow 98304 none ", "grow 98304  none", "grow -1 none", "grow 0x10 none",
    "grow 98304 none none", "grow 18446744073709551616 none", "Grow 98304 none", "resize 98304", "shrink", "shrink ", "shrink 1 2", "shrink -1", "shrink x", "shrink 1 none", "shrink 18446744073709551616", "Shrink 1",
]


def a_line_is_not_read(line):
    create("disk", 65536, 512)
    before = contents("disk")
    equal(qimg("run", "disk", given=f"size\n{line}\ngrow 98304 none\n".encode()), (2, "size 65536\nbad line 2\n"), line)
    equal(contents("disk") == before, True, "the bytes")


# A file that can't grow

def limited(size):
    """Has the next program's files end at a size."""
    return lambda: resource.setrlimit(resource.RLIMIT_FSIZE, (size, size))


def a_file_has_no_room(mode):
    """At each length to which the file may grow, a refused growing leaves the size, and the bytes below it."""
    size, larger = 16 * 512 - 100, 150 * 512 - 300
    before = filled(size, 512, 64)
    kept = read_disk("disk", size)
    refused = 0
    for room in range(len(before), len(before) + 400 * 512, 512):
        with open("disk", "wb") as it:
            it.write(before)
        with checks.kept("disk"):
            done = subprocess.run([checks.QIMG, "run", "disk"], input=f"grow {larger} {mode}\n".encode(), stdout=subprocess.PIPE, stderr=subprocess.DEVNULL, preexec_fn=limited(room), restore_signals=False, timeout=600)
        said = done.stdout.decode()
        if (done.returncode, said) == (0, "ok\n"):
            equal(refused > 0, True, "whether any was refused")
            answers("disk", [("size", f"size {larger}")])
            equal(read_disk("disk", larger), kept + bytes(larger - size), "the larger disk")
            return
        equal(done.returncode, 1, f"the status with room for {room} bytes")
        told = run("disk", "size")
        equal(read_disk("disk", size), kept, f"the bytes with room for {room} bytes")
        if said == "ok\nrefused 15 storage\n":
            # Only the last flush had no room.
            equal(told, [f"size {larger}"], f"the size with room for {room} bytes")
        else:
            equal((said, told), ("refused 15 storage\nrefused 16 failed\n", [f"size {size}"]), f"what is answered with room for {room} bytes")
            refused += 1
        is_consistent("disk", f"with room for {room} bytes")
    raise AssertionError("it was never done")


# One of the system's calls fails, or one growth of memory

CALLS = ["pread64", "pwrite64", "ftruncate", "lseek"]
STORAGE, MEMORY, FAILED = "refused 15 storage", "refused 14 memory", "refused 16 failed"


class Resize:
    """A resize of an image with data, behind which lines come that change nothing, whichever size the disk has then."""

    def __init__(self, old, size, line, answer, hole=range(0)):
        self.old, self.size, self.answer = old, size, answer
        create("disk", old, 512, 64)
        run("disk", *[f"fill {at} {min(512, old - at)} {at // 512 % 255 + 1:02x}" for at in range(0, old, 1536) if at not in hole], "flush")
        self.first = run("disk", "map 0 1")[0]
        self.before, self.bytes, self.surplus = contents("disk"), read_disk("disk", old), consistent("disk").surplus
        self.given = "".join(f"{it}\n" for it in [line, *(it for it, _ in self.later(old))]).encode()

    def later(self, now):
        return [("size", f"size {now}"), ("read 0 1", "data 01"), ("map 0 1", self.first), ("fill 0 1 01", "ok"), (f"grow {min(self.old, self.size)} none", "ok"), (f"shrink {max(self.old, self.size)}", f"shrunk {now}"), ("flush", "ok")]

    def begin(self):
        with open("disk", "wb") as it:
            it.write(self.before)

    def leaves(self, now, what):
        """The file is consistent and has this size, and the bytes below both sizes that it had. Behind the smaller one each cluster is as it was, or zeros."""
        is_consistent("disk", what)
        equal(run("disk", "size"), [f"size {now}"], f"the size {what}")
        kept = min(self.old, self.size)
        found = read_disk("disk", now)
        equal(found[:kept] == self.bytes[:kept], True, f"the bytes {what}")
        for at in [kept, *range(-(-kept // 512) * 512, now, 512)]:
            piece = found[at:at + 512 - at % 512]
            if piece not in (self.bytes[at:at + len(piece)], bytes(len(piece))):
                raise AssertionError(f"the cluster at {at} {what}")

    def failed(self, status, output, refusal, what):
        """What is answered and left where something failed. Answers in what: in opening, in the resize, or in a later line."""
        said = output.splitlines()
        equal(status, 1, f"the status {what}")
        if said == [refusal]:
            equal(contents("disk") == self.before, True, f"the file {what}")
            return "opening"
        is_done = said[0] == self.answer
        now = self.size if is_done else self.old
        wanted = [self.answer, *(answer for _, answer in self.later(now))]
        at = next((at for at, want in enumerate(wanted) if said[at] != want), len(wanted))
        equal(said[at], refusal, f"the first refusal {what}")
        is_marked = refusal == STORAGE or FAILED in said
        rest = wanted[at + 1:]
        if is_marked and at < len(wanted):
            rest = [*(it if it.startswith("size") else FAILED for it in rest), FAILED]
        equal(said[at + 1:], rest, f"the later answers {what}")
        self.leaves(now, what)
        if not is_marked and not is_done:
            equal(consistent("disk").surplus, self.surplus, f"the surpluses {what}")
        return "later" if is_done else "resize"

    def is_done(self, status, output):
        return (status, output.splitlines()) == (0, [self.answer, *(answer for _, answer in self.later(self.size))])


def a_grow(mode):
    return Resize(16 * 512 - 100, 150 * 512 - 300, f"grow {150 * 512 - 300} {mode}", "ok")


def a_shrink():
    """One L2 table is missing: it is made on the way."""
    return Resize(150 * 512 - 300, 21 * 512 + 100, f"shrink {21 * 512 + 100}", f"shrunk {150 * 512 - 300}", range(32768, 65536))


def each_call_fails(made, *words):
    """Each of the system's calls fails in turn: then the image is marked as failed, and the file has the old size; once the resize was answered, the new one."""
    resize = made(*words)
    met = []
    for call in CALLS:
        for number in range(1, 2000):
            resize.begin()
            status, output = failing("disk", call, number, ["run", "disk"], input=resize.given)
            if not has_failed():
                equal(resize.is_done(status, output), True, f"without a failure: {output}")
                break
            met.append(resize.failed(status, output, STORAGE, f"after {call} {number}"))
        else:
            raise AssertionError(f"more calls of {call}")
    equal(met.count("resize") > 3, True, f"how many calls failed in the resize: {met.count('resize')}")


def each_growth_fails(made, *words):
    """Each growth of memory is refused in turn. Where nothing changed before, the image isn't marked, and keeps each surplus."""
    library = refuser()
    resize = made(*words)
    met = []
    for growth in range(1, 5000):
        resize.begin()
        status, output, came = refusing(library, growth, ["run", "disk"], resize.given)
        if resize.is_done(status, output):
            # A call may do with less.
            if came:
                continue
            equal("resize" in met, True, "whether one was refused in the resize")
            return
        equal(came, True, f"whether growth {growth} was refused")
        met.append(resize.failed(status, output, MEMORY, f"after growth {growth}"))
    raise AssertionError("more growths")


# Beside QEMU

# The size of a cluster, the version, and the bits of a count.
FORMS = [(cluster, version, width) for cluster in (512, 4096, 65536) for version, width in ((2, 16), (3, 1), (3, 16), (3, 64))]
# The bits of a count, and what QEMU takes as it grows an image.
WAYS = [(1, "off"), (16, "metadata"), (16, "falloc"), (64, "full")]


class Resized(Disk):
    """A disk whose size changes. `behind` are the bytes behind its end that its last cluster has still."""

    def __init__(self, size, cluster, seed):
        super().__init__(size, seed)
        self.cluster, self.behind = cluster, b""

    def grow(self, size, mode):
        first = self.behind if mode == "none" else b""
        more = size - len(self.bytes)
        self.behind = first[more:]
        self.bytes.extend((first + bytes(more))[:more])
        return f"grow {size} {mode}", "ok"

    def shrink(self, size):
        old, end = len(self.bytes), -(-size // self.cluster) * self.cluster
        self.behind = (bytes(self.bytes[size:]) + self.behind)[:end - size]
        del self.bytes[size:]
        return f"shrink {size}", f"shrunk {old}"


def made_by_qemu(disk, version, width):
    compat = {2: "0.10", 3: "1.1"}[version]
    tool("qemu-img", "create", "-q", "-f", "qcow2", "-o", f"cluster_size={disk.cluster},compat={compat},refcount_bits={width}", "disk", str(len(disk.bytes)))


def told_size(image):
    """The size of the disk that QEMU tells."""
    return json.loads(tool("qemu-img", "info", "--output=json", "-f", "qcow2", image))["virtual-size"]


def same_sized_disk(disk):
    """Both read the disk, QEMU finds neither an error nor a leak, and both tell its size."""
    same_disk("disk", disk)
    answers("disk", [("size", f"size {len(disk.bytes)}")])
    equal(told_size("disk"), seen_by_qemu(len(disk.bytes)), "the size that QEMU tells")


def mapped_range(start, end):
    """The runs that QEMU's map has from an offset to another, cut to these."""
    runs = json.loads(tool("qemu-img", "map", "--output=json", "-f", "qcow2", "disk"))
    inside = [it for it in runs if it["start"] < end and it["start"] + it["length"] > start]
    equal(sum(min(it["start"] + it["length"], end) - max(it["start"], start) for it in inside), end - start, "how much is mapped")
    return inside


def takes_as_asked(old, size, cluster, mode):
    """QEMU's map of the new clusters: data with a place, or zeros without."""
    first = -(-old // cluster) * cluster
    for it in mapped_range(first, seen_by_qemu(size)):
        if mode == "zero":
            equal((it["zero"], it["data"], "offset" in it), (True, False, False), f"{mode}: {it}")
        elif mode == "format":
            # Its zeros may be a hole of the file, which QEMU tells as zeros that have a place.
            equal((it["present"], "offset" in it), (True, True), f"{mode}: {it}")
        elif mode in TAKING:
            equal((it["data"], it["zero"], "offset" in it), (True, False, True), f"{mode}: {it}")
        else:
            equal((it["data"], it["zero"]), (False, True), f"{mode}: {it}")


def of_qemu_resized_by_qimg(cluster, version, width):
    """An image of QEMU is grown in each mode and shrunk in between, to sizes that aren't on a cluster, and each one writes to it after each."""
    disk = Resized(10 * cluster - (512 if cluster > 512 else 0), cluster, f"of QEMU {cluster} {version} {width}")
    made_by_qemu(disk, version, width)
    qemu_io("disk", *disk.commands(8, 3 * cluster))
    for step, mode in enumerate(mode for mode in MODES if version > 2 or mode != "zero"):
        old = len(disk.bytes)
        size = old + (7 + 9 * step) * cluster + 100 * step
        answers("disk", [disk.grow(size, mode), ("flush", "ok")])
        same_sized_disk(disk)
        takes_as_asked(old, size, cluster, mode)
        first = -(-old // 512) * 512
        if not any(disk.bytes[first:]):
            qemu_io("disk", f"read -P 0 {first} {seen_by_qemu(size) - first}")
        qemu_io("disk", *disk.commands(4, 3 * cluster))
        write_lines("disk", disk.lines(4, min(3 * cluster, 1048576)))
        answers("disk", [disk.shrink(old + (2 * step + 1) * cluster - 77), ("flush", "ok")])
        same_sized_disk(disk)
        write_lines("disk", disk.lines(3, cluster))
    answers("disk", [disk.shrink(0), ("flush", "ok")])
    same_sized_disk(disk)


def resize_by_qemu(size, old, *words):
    tool("qemu-img", "resize", "-q", *(["--shrink"] if size < old else []), *words, "-f", "qcow2", "disk", str(size))


def of_qimg_resized_by_qemu(cluster, width, way):
    """An image of qimg is grown by QEMU with a preallocation, written by both, shrunk by QEMU, and grown by qimg."""
    disk = Resized(8 * cluster, cluster, f"of qimg {cluster} {width} {way}")
    create("disk", len(disk.bytes), cluster, width)
    write_lines("disk", disk.lines(6, cluster))
    resize_by_qemu(20 * cluster, len(disk.bytes), f"--preallocation={way}")
    disk.bytes.extend(bytes(12 * cluster))
    same_sized_disk(disk)
    write_lines("disk", disk.lines(6, 2 * cluster if cluster < 65536 else cluster))
    qemu_io("disk", *disk.commands(4, 2 * cluster))
    same_sized_disk(disk)
    resize_by_qemu(5 * cluster, len(disk.bytes))
    del disk.bytes[5 * cluster:]
    same_sized_disk(disk)
    answers("disk", [disk.grow(13 * cluster - 100, "zero"), ("flush", "ok"), disk.shrink(11 * cluster - 1), disk.grow(12 * cluster, "none"), ("flush", "ok")])
    same_sized_disk(disk)


def main():
    every = Checks()
    for check in (
        a_smaller_disk_grows,
        zeros_reach_the_end_of_the_last_cluster,
        the_rest_of_a_cluster_becomes_zeros,
        a_longer_table_and_the_former_ones_cluster,
        a_smaller_size_is_written_last,
        a_missing_table_is_made_on_the_way,
        zeros_from_the_start,
        clusters_from_the_start,
        a_created_size_is_a_grown_one,
        a_prepared_mapping_refuses,
        version_2_has_no_zeros,
        a_size_that_is_not_another_changes_nothing,
        a_size_past_the_limit_is_refused,
        a_refused_growth_frees_nothing,
        the_greatest_size,
        a_prepared_mapping_keeps_the_size,
    ):
        every.run(check.__name__, check)
    for cluster, width in ((512, 1), (512, 16), (512, 64), (4096, 8)):
        for mode in MODES:
            every.run(f"stops of a grow: cluster {cluster}, width {width}, {mode}", stops_of_a_grow, cluster, width, mode)
        every.run(f"stops of a shrink: cluster {cluster}, width {width}", stops_of_a_shrink, cluster, width)
    for mode in MODES:
        every.run(f"a file has no room: {mode}", a_file_has_no_room, mode)
        every.run(f"each call of a grow fails: {mode}", each_call_fails, a_grow, mode)
        every.run(f"each growth of a grow fails: {mode}", each_growth_fails, a_grow, mode)
    every.run("each call of a shrink fails", each_call_fails, a_shrink)
    every.run("each growth of a shrink fails", each_growth_fails, a_shrink)
    for cluster, version, width in FORMS:
        every.run(f"of QEMU, resized by qimg: cluster {cluster}, version {version}, width {width}", of_qemu_resized_by_qimg, cluster, version, width)
    for cluster in (512, 4096, 65536):
        for width, way in WAYS:
            every.run(f"of qimg, resized by QEMU: cluster {cluster}, width {width}, {way}", of_qimg_resized_by_qemu, cluster, width, way)
    for line in BAD_LINES:
        every.run(line, a_line_is_not_read, line)
    every.done()


if __name__ == "__main__":
    main()
