#!/usr/bin/env -S python3 -B
"""Zeroing and discarding on real files: what is answered and seen, which clusters are freed, in which order it is written, and what a stop leaves. Then images of QEMU: compressed ones, of version 2 and of
several widths of counts, and ones that QEMU zeroed or discarded itself. And what special reads say of them."""

import os
import subprocess
import sys

sys.path.insert(0, os.path.join(os.path.dirname(os.path.abspath(__file__)), "interop"))

from qemu import Disk, qemu_io, read_disk, same_disk, tool, write_lines  # noqa: E402
from checks import Checks, answers, consistent, contents, create, equal, number_at, put, qimg, run  # noqa: E402
from writes import is_consistent, leave, written  # noqa: E402

REFBLOCK = 1024
WAYS = ["zero", "dzero", "dany", "dback"]
ONES = "11" * 512
# At 512 bytes these are clusters of more than one L2 table.
CLUSTER_COUNTS = {512: 90, 4096: 30, 65536: 12}
# Versions, each with the bits of a count.
FORMS = {512: [(2, 16), (3, 1), (3, 8), (3, 64)], 4096: [(2, 16), (3, 1), (3, 8), (3, 64)], 65536: [(2, 16), (3, 16)]}


def rows(lines, status=0, size=65536, cluster=512):
    """Runs lines on a new image."""
    create("disk", size, cluster)
    answers("disk", lines, status)


def counts(*clusters):
    """How often clusters are counted, in the first refblock of an image with clusters of 512 bytes."""
    data = contents("disk")
    return [number_at(data, REFBLOCK + 2 * cluster, 2) for cluster in clusters]


def first_entries(count):
    """Entries of the L2 table at 2048."""
    data = contents("disk")
    return [number_at(data, 2048 + 8 * index) for index in range(count)]


# What is answered

def whole_clusters_are_touched():
    rows([("dback 100 1000", "range 512 512"), ("zero 100 0", "range 512 0"), ("dzero 100 800", "range 512 0"), ("dany 1 1023", "range 512 512"), ("zero 0 65536", "range 0 32768"), ("zero 32000 1024", "range 32256 512")])
    rows([("zero 0 1000", "range 0 1000"), ("zero 1 999", "range 512 488"), ("dback 600 400", "range 1024 0"), ("dany 1000 0", "range 1024 0")], size=1000)


def a_range_beyond_the_size_is_refused():
    beyond = "refused 2 beyond size"
    rows([("prepare 0 0 66048 overwrite", beyond), *[(f"{way} 0 66048", beyond) for way in WAYS], ("map 65536 1", "eof"), ("zero 65536 0", "range 65536 0")], status=1)


def an_offset_past_64_bits_is_refused():
    last = 18446744073709551615
    rows([*[(f"{way} {last} 0", "refused 20 overflow") for way in WAYS], *[(f"{way} {last} 1", "refused 2 beyond size") for way in WAYS], ("zero 18446744073709551104 0", "range 18446744073709551104 0")], status=1)


def the_ways_on_one_image():
    rows([
        ("map 0 65536", "zero 32768 implicit"),
        ("fill 0 512 11", "ok"),
        ("map 0 512", "raw image 2560 512 rw"),
        ("prepare 7 512 512 overwrite", "prepared 3072 512"),
        ("commit 8", "misuse"),
        ("put 7 511 2222", "misuse"),
        ("zero 0 512", "refused 9 table prepared"),
        ("drop 7", "ok"),
        ("zero 0 512", "range 0 512"),
        ("read 0 2", "data 0000"),
        ("read 65536 1", "refused 2 beyond size"),
        ("read 65536 0", "data -"),
    ], status=1)


def nothing_is_cleared_under_a_mapping():
    rows([
        ("prepare 0 0 512 overwrite", "prepared 2560 512"),
        *[(f"{way} 512 512", "refused 9 table prepared") for way in WAYS],
        ("zero 512 100", "range 512 0"),
        ("prepare 1 1024 512 overwrite", "refused 9 table prepared"),
        ("zero 32768 512", "range 32768 512"),
        (f"put 0 0 {ONES}", "ok"),
        ("commit 0", "ok"),
        ("zero 512 512", "range 512 512"),
        ("read 510 4", "data 11110000"),
    ], status=1)


# Which clusters are kept and which are freed

def zeroed_clusters_are_kept():
    rows([("fill 0 1024 11", "ok"), ("zero 0 1024", "range 0 1024"), ("read 510 4", "data 00000000"), ("map 0 1024", "zero 1024 explicit"), ("map 1024 512", "zero 512 implicit"), ("flush", "ok")])
    equal(counts(5, 6), [1, 1], "the counts")
    equal(first_entries(2), [0x8000000000000A01, 0x8000000000000C01], "the entries")
    # What is kept is dropped with the entry.
    answers("disk", [("dzero 0 512", "range 0 512"), ("dback 512 512", "range 512 512"), ("map 0 512", "zero 512 explicit"), ("map 512 512", "zero 512 implicit"), ("flush", "ok")])
    equal((counts(5, 6), first_entries(2)), ([0, 0], [1, 0]), "the counts and the entries")


def discarded_clusters_are_freed():
    rows([("fill 0 1024 11", "ok"), ("dzero 0 512", "range 0 512"), ("dany 512 512", "range 512 512"), ("map 0 1024", "zero 1024 explicit"), ("flush", "ok")])
    equal((counts(5, 6), first_entries(2)), ([0, 0], [1, 1]), "the counts and the entries")
    rows([("fill 0 1024 11", "ok"), ("dback 0 1024", "range 0 1024"), ("map 0 1024", "zero 1024 implicit"), ("fill 2048 512 22", "ok"), ("map 2048 512", "raw image 2560 512 rw"), ("flush", "ok")])
    equal((counts(5, 6), first_entries(3)), ([1, 0], [0, 0, 0]), "the counts and the entries")


def a_kept_cluster_that_does_not_follow_is_dropped():
    rows([("fill 512 512 11", "ok"), ("zero 512 512", "range 512 512"), ("prepare 0 0 1024 overwrite", "prepared 3072 1024"), ("commit 0", "ok"), ("flush", "ok")])
    equal(counts(5, 6, 7), [0, 1, 1], "the counts")


def a_cluster_that_is_shared_is_not_kept():
    create("disk", 65536, 512)
    run("disk", "fill 0 512 11", "flush")
    put("disk", 1035, b"\2")
    put("disk", 2048, b"\0")
    answers("disk", [("map 0 512", "raw image 2560 512 ro"), ("zero 0 512", "range 0 512"), ("map 0 512", "zero 512 explicit"), ("flush", "ok")])
    equal((counts(5), first_entries(1)), ([1], [1]), "the count and the entry")


def an_existing_mapping_is_outdated():
    rows([
        ("fill 0 512 11", "ok"),
        ("prepare 0 0 512 overwrite", "existing 2560 512"),
        ("dback 0 512", "range 0 512"),
        ("put 0 0 22", "refused 10 outdated mapping"),
        ("fill 0 512 33", "ok"),
        ("put 0 0 22", "ok"),
        ("commit 0", "ok"),
        ("read 0 2", "data 2233"),
    ], status=1)


def the_end_of_the_disk_is_a_whole_cluster():
    for way in WAYS:
        rows([("fill 0 1000 11", "ok"), (f"{way} 512 487", "range 512 0"), ("read 998 2", "data 1111"), (f"{way} 512 488", "range 512 488"), ("read 510 4", "data 11110000"), ("flush", "ok")], size=1000)
        equal(counts(6), [1 if way == "zero" else 0], way)


# The order of writes, and stops

def a_discard_is_written_before_its_cluster_is_used():
    create("disk", 65536, 512)
    run("disk", "fill 0 512 11", "flush")
    before = contents("disk")
    said, writes = written(["run", "disk"], b"dback 0 512\nfill 512 512 22\nflush\n")
    equal(said, "range 0 512\nok\nok\n", "the answers")
    equal([at for at, _ in writes], [2048, 2560, 1024, 2048], "the offsets")
    for stop in range(len(writes) + 1):
        leave("stopped", before, writes[:stop])
        is_consistent("stopped", f"a stop after {stop} writes")
        first, second = "00" if stop else "11", "22" if stop > 3 else "00"
        answers("stopped", [("read 0 1", f"data {first}"), ("read 512 1", f"data {second}")])


def stops_leave_old_or_given(cluster, width):
    """After each write of a run that clears and writes, the file is consistent, and each guest cluster is as flushed or as given since."""
    size = 48 * cluster
    create("disk", size, cluster, width)
    run("disk", *[f"fill {at * cluster} {cluster} {at + 1:02x}" for at in range(0, 48, 3)], "flush")
    before = contents("disk")
    given = {at: {f"{at + 1:02x}" if at % 3 == 0 else "00"} for at in range(48)}
    lines = []
    for at, way in enumerate(WAYS * 3):
        lines += [f"{way} {3 * at * cluster} {2 * cluster}", f"fill {(4 * at + 1) * cluster} {cluster} {0x80 + at:02x}"]
        for cleared in (3 * at, 3 * at + 1):
            given[cleared].add("00")
        given[4 * at + 1].add(f"{0x80 + at:02x}")
    _said, writes = written(["run", "disk"], "".join(f"{line}\n" for line in [*lines, "flush"]).encode())
    for stop in range(len(writes) + 1):
        leave("stopped", before, writes[:stop])
        is_consistent("stopped", f"a stop after {stop} writes")
        for at, line in enumerate(run("stopped", *[f"read {at * cluster} 1" for at in range(48)])):
            if line.removeprefix("data ") not in given[at]:
                raise AssertionError(f"a stop after {stop} writes: guest cluster {at} is {line}")


# Version 2

def version_2_has_no_zeros():
    create("disk", 65536, 512)
    put("disk", 7, b"\2")
    version = "refused 3 version"
    answers("disk", [
        ("fill 0 512 11", "ok"),
        ("map 0 512", "raw image 2560 512 rw"),
        ("dback 0 512", "range 0 512"),
        ("fill 512 512 22", "ok"),
        ("map 512 512", "raw image 2560 512 rw"),
        *[(f"{way} 0 512", version) for way in ("zero", "dzero", "dany")],
        ("zero 0 0", version),
        ("zero 65536 1", "refused 2 beyond size"),
        ("dback 18446744073709551615 0", "refused 20 overflow"),
    ], status=1)


# Compressed clusters

def two_compressed_clusters_share_one():
    create("disk", 65536, 512)
    run("disk", "fill 0 512 11", "flush")
    put("disk", 2048, bytes.fromhex("4000000000000a004000000000000a80"))
    put("disk", 1035, b"\2")


def a_compressed_cluster_is_overwritten():
    two_compressed_clusters_share_one()
    answers("disk", [("read 0 1", "refused 7 compressed"), ("prepare 0 100 100 overwrite", "refused 7 compressed"), ("map 0 512", "special 0 512")], status=1)
    equal(counts(5), [2], "the count")
    answers("disk", [("fill 0 512 22", "ok"), ("map 0 512", "raw image 3072 512 rw"), ("flush", "ok")])
    equal((counts(5), first_entries(2)), ([1], [0x8000000000000C00, 0x4000000000000A80]), "the count and the entries")


def a_compressed_cluster_is_cleared():
    for way in WAYS:
        two_compressed_clusters_share_one()
        kind = "implicit" if way == "dback" else "explicit"
        answers("disk", [(f"{way} 512 512", "range 512 512"), ("map 512 512", f"zero 512 {kind}"), ("map 0 512", "special 0 512"), ("flush", "ok")])
        equal(counts(5), [1], way)
        answers("disk", [(f"{way} 0 512", "range 0 512"), ("flush", "ok")])
        equal(counts(5), [0], way)
        consistent("disk", 0)


def special_reads_find_compressed_clusters():
    plain = "refused 18 not compressed"
    two_compressed_clusters_share_one()
    answers("disk", [
        ("special 0 4", "refused 7 compressed"),
        ("special 1023 1048576", "refused 7 compressed"),
        ("special 0 0", "ok"),
        ("special 1024 4", plain),
        ("fill 0 512 22", "ok"),
        ("special 0 4", plain),
        ("special 512 4", "refused 7 compressed"),
        ("special 65535 2", plain),
        ("special 65536 1", plain),
        ("special 18446744073709551615 4", plain),
        ("special 18446744073709551615 0", "ok"),
        ("read 0 2", "data 2222"),
    ], status=1)


def special_reads_find_compressed_clusters_past_the_size():
    """The size lies in the first of two compressed clusters, or before both."""
    plain = "refused 18 not compressed"
    for size in (100, 0):
        two_compressed_clusters_share_one()
        put("disk", 24, size.to_bytes(8, "big"))
        answers("disk", [
            ("map 100 1", "eof"),
            *((f"special {at} {length}", "refused 7 compressed") for at, length in ((99, 1), (100, 4), (511, 2), (512, 1048576), (1023, 1))),
            ("special 1024 1", plain),
            ("special 18446744073709551615 4", plain),
            ("special 512 0", "ok"),
        ], status=1)


def a_compressed_cluster_over_two_is_freed_in_both():
    """The data begin in the last sector of one host cluster and end in the next one; each is counted once."""
    create("disk", 65536, 4096)
    run("disk", "fill 0 8192 11", "flush")
    hosts = [number_at(contents("disk"), 16384 + 8 * index) & 0x00FFFFFFFFFFFE00 for index in range(2)]
    equal(hosts, [20480, 24576], "the host clusters")
    # For clusters of 4096 bytes the number of further sectors begins at bit 58.
    entry = 1 << 62 | 1 << 58 | (24576 - 100)
    put("disk", 16384, entry.to_bytes(8, "big") + bytes(8))
    consistent("disk", 0)
    answers("disk", [("map 0 4096", "special 0 4096"), ("dback 0 4096", "range 0 4096"), ("flush", "ok")])
    equal([number_at(contents("disk"), 8192 + 2 * cluster, 2) for cluster in (5, 6)], [0, 0], "the counts")


# Images of QEMU

class Cleared(Disk):
    """A disk with lines that zero and discard, each with the answer that is wanted."""

    def __init__(self, size, cluster, seed):
        super().__init__(size, seed)
        self.cluster, self.reach = cluster, cluster // 8 * cluster

    def touched(self, offset, length):
        """The whole clusters of a range: the last one is whole where the disk ends, and all are within one L2 table."""
        first, end = -(-offset // self.cluster) * self.cluster, offset + length
        last = -(-end // self.cluster) * self.cluster if end == len(self.bytes) else end // self.cluster * self.cluster
        return first, min(last, first - first % self.reach + self.reach)

    def clear(self, way, offset, length):
        first, last = self.touched(offset, length)
        answered = max(min(last, offset + length) - first, 0) if first < last else 0
        self.bytes[first:first + answered] = bytes(answered)
        return f"{way} {offset} {length}", f"range {first} {answered}"

    def clears(self, count, ways):
        """So many lines, each with its answer."""
        made = []
        for _ in range(count):
            offset, length = self.place(min(5 * self.cluster, len(self.bytes)))
            made.append(self.clear(self.random.choice(ways), offset, length))
        return made


def pieces(disk, first, step):
    """Some of the clusters of a disk, each with its offset and its length."""
    size = len(disk.bytes)
    return [(at, min(disk.cluster, size - at)) for at in range(first * disk.cluster, size, step * disk.cluster)]


def fills(disk, first, step):
    """Lines that write some clusters as a whole, and a flush."""
    return [*(f"fill {at} {length} {disk.fill(at, length):02x}" for at, length in pieces(disk, first, step)), "flush"]


def made_by_qemu(disk, version, width, *words):
    """Has one of QEMU's tools make an image."""
    compat = {2: "0.10", 3: "1.1"}[version]
    tool(*words[:2], "-f" if words[1] == "create" else "-O", "qcow2", "-o", f"cluster_size={disk.cluster},compat={compat},refcount_bits={width}", *words[2:])


def compressed(disk, version, width):
    """Has QEMU make a compressed image of a disk, whose clusters, but for each fifth one, have bytes that compress well."""
    for at, length in pieces(disk, 0, 1):
        if at // disk.cluster % 5 != 4:
            disk.fill(at, length)
    with open("bytes", "wb") as it:
        it.write(disk.bytes)
    made_by_qemu(disk, version, width, "qemu-img", "convert", "-c", "-f", "raw", "bytes", "disk")


def seen_by_qemu_alone(disk):
    """QEMU reads the disk, and finds neither an error nor a leak. Compressed data are read by it alone."""
    if "No errors were found" not in tool("qemu-img", "check", "-f", "qcow2", "disk"):
        raise AssertionError("qemu-img check")
    tool("qemu-img", "convert", "-f", "qcow2", "-O", "raw", "disk", "raw")
    equal(contents("raw"), bytes(disk.bytes), "the disk that QEMU reads")


def ways_of(version):
    return WAYS if version == 3 else ["dback"]


def compressed_by_qemu(cluster, version, width):
    """Of a compressed image some clusters are cleared and some overwritten, until none is compressed."""
    ways = ways_of(version)
    disk = Cleared(cluster * CLUSTER_COUNTS[cluster] - 512, cluster, f"compressed {cluster} {version} {width}")
    compressed(disk, version, width)
    equal(run("disk", f"map 0 {cluster}", "read 0 1", status=1), [f"special 0 {cluster}", "refused 7 compressed"], "a compressed cluster")
    answers("disk", [("special 0 512", "refused 7 compressed"), (f"special {4 * cluster} 512", "refused 18 not compressed")], status=1)
    answers("disk", [*disk.clears(6, ways), ("flush", "ok")])
    seen_by_qemu_alone(disk)
    write_lines("disk", fills(disk, 1, 4))
    seen_by_qemu_alone(disk)
    # The last cluster ends behind the disk: it can be cleared, and not be overwritten as a whole.
    answers("disk", [disk.clear(ways[index % len(ways)], at, length) for index, (at, length) in enumerate([*pieces(disk, 0, 2), pieces(disk, 0, 1)[-1]])])
    seen_by_qemu_alone(disk)
    write_lines("disk", fills(disk, 1, 2))
    same_disk("disk", disk)
    consistent("disk", 0)


def in_turn(cluster, version, width):
    """qimg clears and writes, and QEMU writes, in turn: both read the same after each."""
    ways = ways_of(version)
    disk = Cleared(cluster * CLUSTER_COUNTS[cluster], cluster, f"in turn {cluster} {version} {width}")
    made_by_qemu(disk, version, width, "qemu-img", "create", "-q", "disk", str(len(disk.bytes)))
    for _ in range(2):
        qemu_io("disk", *disk.commands(6, 4 * cluster))
        answers("disk", disk.clears(5, ways))
        same_disk("disk", disk)
        write_lines("disk", disk.lines(6, min(4 * cluster, 1048576)))
        answers("disk", [*disk.clears(5, ways), ("flush", "ok")])
        same_disk("disk", disk)


def cleared_by_qemu(cluster, width):
    """What QEMU zeroed, with its clusters kept or not, and what it discarded, is read, written and cleared by qimg."""
    disk = Cleared(cluster * 24, cluster, f"by QEMU {cluster} {width}")
    create("disk", len(disk.bytes), cluster, width)
    write_lines("disk", fills(disk, 0, 1))
    starts = [place * cluster for place in (1, 8, 16)]
    commands = [f"write -z {starts[0]} {4 * cluster}", f"write -z -u {starts[1]} {4 * cluster}", f"discard {starts[2]} {4 * cluster}"]
    tool("qemu-io", "-d", "unmap", "-f", "qcow2", *(word for command in commands for word in ("-c", command)), "disk")
    for start in starts:
        disk.bytes[start:start + 4 * cluster] = bytes(4 * cluster)
    same_disk("disk", disk)
    answers("disk", [(f"map {start} {4 * cluster}", f"zero {4 * cluster} explicit") for start in starts])
    answers("disk", [*(disk.clear(way, start + index * cluster, cluster) for start in starts for index, way in enumerate(WAYS)), ("flush", "ok")])
    same_disk("disk", disk)
    write_lines("disk", [*(f"fill {at} 100 {disk.fill(at, 100):02x}" for at in range(cluster, 20 * cluster, cluster)), "flush"])
    same_disk("disk", disk)
    answers("disk", [disk.clear("dback", 0, len(disk.bytes)), ("flush", "ok")])
    same_disk("disk", disk)


BAD_LINES = [f"{way}{rest}" for way in WAYS for rest in ("", " 0", " 0 512 1", " 0 512 ", " -1 512", " 0 x", "  0 512")] + ["special", "special 0", "special 0 4 4", "special 0 1048577", "special -1 4", "Zero 0 512", "discard 0 512", "zero 18446744073709551616 0"]


def a_line_is_not_read(line):
    create("disk", 65536, 512)
    equal(qimg("run", "disk", given=f"size\n{line}\nsize\n".encode()), (2, "size 65536\nbad line 2\n"), line)


def main():
    checks = Checks()
    for check in [
        whole_clusters_are_touched,
        a_range_beyond_the_size_is_refused,
        an_offset_past_64_bits_is_refused,
        the_ways_on_one_image,
        nothing_is_cleared_under_a_mapping,
        zeroed_clusters_are_kept,
        discarded_clusters_are_freed,
        a_kept_cluster_that_does_not_follow_is_dropped,
        a_cluster_that_is_shared_is_not_kept,
        an_existing_mapping_is_outdated,
        the_end_of_the_disk_is_a_whole_cluster,
        a_discard_is_written_before_its_cluster_is_used,
        version_2_has_no_zeros,
        a_compressed_cluster_is_overwritten,
        a_compressed_cluster_is_cleared,
        special_reads_find_compressed_clusters,
        special_reads_find_compressed_clusters_past_the_size,
        a_compressed_cluster_over_two_is_freed_in_both,
    ]:
        checks.run(check.__name__, check)
    for cluster, width in ((512, 1), (512, 16), (512, 64), (4096, 8)):
        checks.run(f"stops: cluster {cluster}, width {width}", stops_leave_old_or_given, cluster, width)
    for cluster, forms in FORMS.items():
        for version, width in forms:
            checks.run(f"compressed by QEMU: cluster {cluster}, version {version}, width {width}", compressed_by_qemu, cluster, version, width)
            checks.run(f"in turn: cluster {cluster}, version {version}, width {width}", in_turn, cluster, version, width)
            if version == 3:
                checks.run(f"cleared by QEMU: cluster {cluster}, width {width}", cleared_by_qemu, cluster, width)
    for line in BAD_LINES:
        checks.run(line, a_line_is_not_read, line)
    checks.done()


if __name__ == "__main__":
    main()
