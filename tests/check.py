#!/usr/bin/env -S python3 -B
"""What the checker tells of real files: reports that are known, images that aren't consistent, and images in which random bytes were changed, beside QEMU's check. Where the two
differ, a row of docs/INTEROP.md says so."""

import collections
import os
import random
import re
import subprocess
import sys
from concurrent.futures import ThreadPoolExecutor

sys.path.insert(0, os.path.join(os.path.dirname(os.path.abspath(__file__)), "interop"))

from qemu import qemu_io, tool  # noqa: E402
from checks import QIMG, ROOT, Checks, Report, contents, create, equal, number_at, put, qimg, run, shown  # noqa: E402

IMAGES = 4000
SEED = 7


# Reports that are known

def reports(lines):
    told = Report("disk")
    equal(told.lines, lines, "the report")
    # Without its own lock and writes: a check leaves the file.
    before = contents("disk")
    equal(qimg("check", "disk"), (told.status, "".join(f"{line}\n" for line in lines)), "the report, printed")
    equal(contents("disk"), before, "the file")


def has_a_cluster(cluster=512):
    create("disk", 65536, cluster)
    run("disk", f"fill 0 {cluster} 11", "flush")


def a_new_image():
    create("disk", 65536, 512)
    reports(["consistent, 0 leaked"])


def stopped_while_it_is_created():
    with open("disk", "wb"):
        pass
    words = ["strace", "-f", "-qq", "-o", "calls", "-P", "disk", "-e", "trace=pwrite64", "-e", "inject=pwrite64:error=EIO:when=5+", QIMG, "create", "disk", "65536", "512", "16", "none"]
    equal(subprocess.run(words, stdout=subprocess.PIPE, stderr=subprocess.DEVNULL, timeout=600).stdout, b"refused 15 storage\n", "create")
    reports(["leak 3 1 0", "consistent, 1 leaked"])


def a_count_that_is_missing():
    has_a_cluster()
    put("disk", 1034, bytes(2))
    reports(["under 5 0 1", "copied 5 0 1", "broken, 2 breaches"])


# Images that aren't consistent

def a_table_that_two_entries_name():
    has_a_cluster()
    put("disk", 1544, bytes.fromhex("8000000000000800"))
    reports(["under 4 1 2", "under 5 1 2", "shared 4 2", "copied 4 1 2", "copied 5 1 2", "broken, 5 breaches"])


def a_file_that_is_cut():
    has_a_cluster()
    os.truncate("disk", 2048)
    reports(["leak 5 1 0", "consistent, 1 leaked"])


def data_off_a_cluster():
    has_a_cluster(1024)
    put("disk", 4102, b"\x16")
    reports(["unaligned data 5632", "broken, 1 breaches"])


def tables_off_a_cluster():
    """Each kind has its line, in this order. What lies off a cluster names the cluster that it lies in."""
    has_a_cluster()
    put("disk", 8192, bytes(1024))
    put("disk", 40, (8192 + 8).to_bytes(8, "big"))
    put("disk", 48, (7680 + 16).to_bytes(8, "big"))
    put("disk", 8200, (6 * 512 + 512).to_bytes(8, "big"))
    told = Report("disk").lines
    equal(told[:2], ["unaligned l1 8200", "unaligned reftable 7696"], "the first lines")
    has_a_cluster(1024)
    put("disk", 3072, (4096 + 512).to_bytes(8, "big"))
    equal(Report("disk").lines[0], "unaligned l2 4608", "an L2 table")
    has_a_cluster(1024)
    put("disk", 1024, (2048 + 512).to_bytes(8, "big"))
    equal(Report("disk").lines[0], "unaligned refblock 2560", "a refblock")


def another_data_file():
    create("disk", 65536, 512)
    put("disk", 79, b"\x04")
    reports(["external", "broken, 1 breaches"])


def snapshots():
    create("disk", 65536, 512)
    put("disk", 60, (3).to_bytes(4, "big"))
    reports(["snapshots 3", "broken, 1 breaches"])
    put("disk", 79, b"\x04")
    reports(["snapshots 3", "external", "broken, 2 breaches"])


def compressed_data():
    """A compressed cluster names each host cluster that it touches, once."""
    with open("raw", "wb") as it:
        it.write(b"".join(bytes([i % 7]) * 100 + random.Random(i).randbytes(156) for i in range(2048)))
    tool("qemu-img", "convert", "-c", "-f", "raw", "-O", "qcow2", "-o", "cluster_size=4096", "raw", "disk")
    reports(["consistent, 0 leaked"])


def one_table_many_times(count):
    """A long L1 table whose entries all name one L2 table."""
    has_a_cluster()
    put("disk", 36, count.to_bytes(4, "big") + (1 << 20).to_bytes(8, "big"))
    put("disk", 1 << 20, bytes.fromhex("0000000000000800") * count)
    done = subprocess.run([QIMG, "check", "disk"], stdout=subprocess.PIPE, timeout=120)
    equal((done.returncode, done.stdout.splitlines()[-1][:7]), (1, b"broken,"), "the report")


def what_does_not_read(place, data, answer):
    has_a_cluster()
    put("disk", place, data)
    reports([answer])


def not_an_image():
    for data in (b"", b"QFI", bytes(1024)):
        with open("disk", "wb") as it:
            it.write(data)
        reports(["refused 19 metadata"])
    equal(qimg("check", "missing"), (1, "refused 15 storage\n"), "a missing file")
    equal(qimg("check", "."), (1, "refused 15 storage\n"), "a folder")


def a_line_that_is_not_written():
    has_a_cluster()
    with open("/dev/full", "wb") as full:
        equal(qimg("check", "disk", stdout=full)[0], 1, "the status")


# Random bytes

QEMU_IMAGES = [
    "cluster_size=512", "cluster_size=4096,compat=0.10", "cluster_size=4096,refcount_bits=8", "cluster_size=512,preallocation=metadata",
    "cluster_size=65536,refcount_bits=64", "cluster_size=512,refcount_bits=1"]
OWN_IMAGES = [(512, 16), (512, 64), (512, 1), (4096, 16), (65536, 16)]


def originals():
    """Images of both programs, small and with a little of everything."""
    made = []
    for cluster, width in OWN_IMAGES:
        create("disk", 1 << 20, cluster, width)
        chosen = random.Random(cluster + width)
        run("disk", *[f"fill {chosen.randrange(2048) * 512} 512 11" for _ in range(12)], "flush")
        made.append(contents("disk"))
    for options in QEMU_IMAGES:
        tool("qemu-img", "create", "-q", "-f", "qcow2", "-o", options, "disk", "1M")
        qemu_io("disk", "write -P 1 0 64k", "write -P 2 128k 3k", "write -z 64k 16k", "discard 0 4k")
        made.append(contents("disk"))
    with open("raw", "wb") as it:
        it.write(random.Random(3).randbytes(2000) * 30)
    tool("qemu-img", "convert", "-c", "-f", "raw", "-O", "qcow2", "-o", "cluster_size=4096", "raw", "disk")
    return made + [contents("disk")]


def tables_of(data):
    """The places of the header and of the beginnings of all tables."""
    cluster = 1 << number_at(data, 20, 4)
    l1, l1_entries = number_at(data, 40), number_at(data, 36, 4)
    reftable, clusters = number_at(data, 48), number_at(data, 56, 4)
    places = [(0, 112), (l1, 8 * l1_entries), (reftable, 64)]
    places += [(number_at(data, at), min(cluster, 64)) for at in range(reftable, reftable + clusters * cluster, 8) if number_at(data, at)]
    return places + [(number_at(data, l1 + 8 * i) & 0x00fffffffffffe00, min(cluster, 256)) for i in range(l1_entries) if number_at(data, l1 + 8 * i)]


def with_changes(data, chosen):
    """One to three bytes are others: mostly in the tables."""
    changed, places = bytearray(data), tables_of(data)
    for _ in range(chosen.choice([1, 1, 1, 2, 3])):
        start, length = chosen.choice(places) if chosen.random() < 0.9 else (0, len(data))
        at = min(start + chosen.randrange(length), len(data) - 1)
        changed[at] = chosen.choice([0, 1, 2, 255, changed[at] ^ (1 << chosen.randrange(8)), chosen.randrange(256)])
    return bytes(changed)


# What QEMU's check says, and the row of docs/INTEROP.md for what the checker doesn't say so.
RESERVED_ABOVE = "reserved bits of L1 and reftable entries"
RESERVED_BELOW = "reserved bits of L2 entries"
UNMARKED = "an entry without the copied mark, although the refcount is 1"
PAST_THE_END = "mapped clusters past the end of the file"
COUNTED_PAST_THE_END = "refcounts of clusters past the end of the file"
OFF_A_CLUSTER = "unaligned offsets"
MARKED_COMPRESSED = "a compressed entry with the copied mark"
NARROW_COUNTS = "more references than a refcount can hold"
NOT_OPENED = "headers that QEMU does not open"
SHARED = "a table's cluster with two references and refcount 2"
NEEDS_REPAIR = "dirty and corrupt images"
NO_OFFSET = "an L1 entry with the copied mark and offset 0"
ROWS = [NEEDS_REPAIR, NO_OFFSET, RESERVED_ABOVE, RESERVED_BELOW, UNMARKED, PAST_THE_END, COUNTED_PAST_THE_END, OFF_A_CLUSTER, MARKED_COMPRESSED, NARROW_COUNTS, NOT_OPENED, SHARED]

KINDS = [
    (re.compile(r"ERROR found L1 entry with reserved bits|ERROR refcount table entry \d+ has reserved bits"), RESERVED_ABOVE),
    (re.compile(r"ERROR found l2 entry with reserved bits"), RESERVED_BELOW),
    (re.compile(r"ERROR OFLAG_COPIED .*_entry=[0-7]?[0-9a-f]{0,15} refcount=1$"), UNMARKED),
    (re.compile(r"ERROR: counting reference for region exceeding the end of the file|ERROR refcount block \d+ is outside image"), PAST_THE_END),
    (re.compile(r"ERROR .*(not cluster aligned|not properly aligned)"), OFF_A_CLUSTER),
    (re.compile(r"ERROR: coffset=.* copied flag must never be set"), MARKED_COMPRESSED),
    (re.compile(r"ERROR: overflow cluster"), NARROW_COUNTS),
    (re.compile(r"ERROR cluster (?P<under>\d+ refcount=\d+ reference=\d+)|Leaked cluster (?P<leak>\d+ refcount=\d+ reference=\d+)"), None),
    (re.compile(r"ERROR OFLAG_COPIED|ERROR refcount block \d+ refcount=|ERROR snapshot"), "breach"),
]
# These are breaches to both, told in other words or numbers here.
BREACHES = ["breach", OFF_A_CLUSTER, NARROW_COUNTS]


class Beside:
    """What QEMU's check says of an image."""

    def __init__(self, file):
        done = subprocess.run(["qemu-img", "check", "-f", "qcow2", file], stdout=subprocess.PIPE, stderr=subprocess.STDOUT, timeout=600)
        self.lines = done.stdout.decode(errors="replace").splitlines()
        self.is_opened = done.returncode in (0, 2, 3)
        self.kinds, self.under, self.leaks = set(), set(), set()
        for line in self.lines:
            if line.startswith(("ERROR", "Leaked")):
                self.sort(line)

    def sort(self, line):
        kind, said = next(((kind, said) for said, kind in KINDS if said.match(line)), ("unknown", None))
        if said is None:
            raise AssertionError(f"QEMU says what has no name here: {line}")
        numbers = re.findall(r"\d+", line)
        if kind:
            self.kinds.add(kind)
        elif line.startswith("ERROR"):
            self.under.add(tuple(map(int, numbers)))
        else:
            self.leaks.add(tuple(map(int, numbers)))


def numbers_of(lines, word):
    return {tuple(map(int, line.split()[1:])) for line in lines if line.split()[0] == word}


def within(lines, clusters):
    return {line for line in lines if line[0] < clusters}


def are_same(told, other, clusters):
    """The same lines within the file. Of clusters past its end QEMU tells some, and those are told here too."""
    return within(told, clusters) | (told & other) == other


def has_mark_without_offset(data):
    """Some L1 entry is marked copied, and names no table."""
    l1, l1_entries = number_at(data, 40), number_at(data, 36, 4)
    return any(number_at(data, at) and not number_at(data, at) & 0x00fffffffffffe00 for at in range(l1, min(l1 + 8 * l1_entries, len(data)), 8))


def needs_repair(data):
    """A dirty or a corrupt image, as its header says."""
    return number_at(data, 4, 4) >= 3 and number_at(data, 72) & 3 != 0


def differences(told, other, changed, clusters):
    """The rows by which the two differ; an AssertionError where no row says how."""
    if not other.is_opened:
        return {NOT_OPENED} if told.is_consistent() else set()
    if not told.is_refused() and has_mark_without_offset(changed):
        return {NO_OFFSET}
    if told.is_refused():
        if told.lines == ["refused 19 metadata"] and needs_repair(changed):
            return {NEEDS_REPAIR}
        if told.lines != ["refused 19 metadata"] or RESERVED_ABOVE not in other.kinds:
            no_row("refused")
        return {RESERVED_ABOVE}
    rows = other.kinds & {RESERVED_BELOW, UNMARKED, MARKED_COMPRESSED}
    under, leaks = numbers_of(told.lines, "under"), numbers_of(told.lines, "leak")
    rows |= {PAST_THE_END} if PAST_THE_END in other.kinds else set()
    rows |= {COUNTED_PAST_THE_END} if leaks - within(leaks, clusters) else set()
    if OFF_A_CLUSTER in other.kinds or NARROW_COUNTS in other.kinds:
        # The clusters that QEMU takes for named are others then.
        return rows | (other.kinds & {OFF_A_CLUSTER, NARROW_COUNTS}) if not told.is_consistent() else no_row("consistent")
    if not (are_same(under, other.under, clusters) and are_same(leaks, other.leaks, clusters)):
        no_row("other clusters")
    return rows | by_verdict(told, other, under)


def by_verdict(told, other, under):
    is_broken = bool(other.under or other.kinds & set(BREACHES))
    if is_broken and told.is_consistent():
        no_row("consistent")
    if told.is_consistent() or is_broken or (under and PAST_THE_END in other.kinds):
        return set()
    return {SHARED} if any(line.startswith("shared") for line in told.lines) else no_row("broken")


def no_row(what):
    raise AssertionError(what)


def compared(numbered):
    """The rows by which the two differ over one image."""
    number, data, changed = numbered
    file = f"changed{number}"
    with open(file, "wb") as it:
        it.write(changed)
    told, other = Report(file), Beside(file)
    os.remove(file)
    try:
        return differences(told, other, changed, -(-len(changed) >> number_at(data, 20, 4)))
    except AssertionError as e:
        bytes_ = [(at, data[at], changed[at]) for at in range(len(data)) if data[at] != changed[at]]
        return AssertionError(f"{e}: image {number}, bytes {shown(bytes_)}: {shown(told.lines)} beside {shown(other.lines)}")


def beside_qemu():
    made, chosen = originals(), random.Random(SEED)
    picked = [chosen.choice(made) for _ in range(IMAGES)]
    work = [(number, data, with_changes(data, chosen)) for number, data in enumerate(picked)]
    with ThreadPoolExecutor(len(os.sched_getaffinity(0))) as pool:
        found = list(pool.map(compared, work))
    wrong = [it for it in found if isinstance(it, AssertionError)]
    if wrong:
        raise AssertionError(f"{len(wrong)} of {IMAGES}: " + "\n".join(map(str, wrong[:12])))
    print(collections.Counter(row for rows in found for row in rows))


def each_row_stands():
    with open(os.path.join(ROOT, "docs", "INTEROP.md")) as it:
        text = it.read()
    for row in ROWS:
        if f"| {row} |" not in text:
            raise AssertionError(f"docs/INTEROP.md has no row: {row}")


def main():
    checks = Checks()
    for check in (
        a_new_image, stopped_while_it_is_created, a_count_that_is_missing, a_table_that_two_entries_name, a_file_that_is_cut, data_off_a_cluster, tables_off_a_cluster, another_data_file,
        snapshots, compressed_data, not_an_image, a_line_that_is_not_written, each_row_stands, beside_qemu,
    ):
        checks.run(check.__name__, check)
    checks.run("one table ten thousand times", one_table_many_times, 10000)
    checks.run("one table a million times", one_table_many_times, 1000000)
    for place, data, answer in ((1543, b"\1", "refused 19 metadata"), (36, b"\xff" * 4, "refused 13 limit"), (56, b"\xff" * 4, "refused 13 limit"), (519, b"\1", "refused 19 metadata")):
        checks.run(f"byte {place} set to {data}", what_does_not_read, place, data, answer)
    checks.done()


main()
