#!/usr/bin/env -S python3 -B
"""Images that aren't consistent: what is refused, and what of the file stays as it was."""

import re
import resource
import subprocess

from checks import QIMG, Checks, answers, contents, create, equal, put, ran, shown

REFTABLE = 48


def a_header_that_is_not_counted():
    create("disk", 65536, 512)
    put("disk", 1024, bytes(2))
    before = contents("disk")
    answers("disk", [("fill 0 512 11", "ok"), ("map 0 512", "raw image 2560 512 rw"), ("flush", "ok")])
    equal(contents("disk")[:512], before[:512], "the first cluster")
    answers("disk", [("read 510 4", "data 11110000"), ("fill 512 512 22", "ok"), ("read 510 4", "data 11112222")])
    equal(contents("disk")[:512], before[:512], "the first cluster")


def nothing_is_counted():
    create("disk", 65536, 512)
    put("disk", 1024, bytes(512))
    before = contents("disk")
    answers("disk", [("fill 0 512 11", "ok"), ("flush", "ok")])
    equal(contents("disk")[:1024], before[:1024], "the header and the reftable")


def tables_that_are_not_counted(cluster, clusters):
    """Of an image with an L1 table of four clusters, an L2 table and a cluster of data, the counts of these clusters are 0."""
    size = 4 * cluster // 8 * (cluster // 8) * cluster
    create("disk", size, cluster)
    answers("disk", [("fill 0 512 11", "ok"), ("flush", "ok")])
    before = contents("disk")
    equal(len(before) // cluster, 9, "clusters: a header, a reftable, a refblock, an L1 table of four, an L2 table, and data")
    for each in clusters:
        put("disk", 2 * cluster + 2 * each, bytes(2))
    far = size // 2
    answers("disk", [(f"fill {cluster} {2 * cluster} 22", "ok"), (f"fill {far} 512 33", "ok"), ("flush", "ok")])
    answers("disk", [("read 0 2", "data 1111"), (f"read {cluster} 2", "data 2222"), (f"read {far} 2", "data 3333"), (f"fill {far} 512 44", "ok")])
    after = contents("disk")
    equal(after[:2 * cluster], before[:2 * cluster], "the header and the reftable")
    equal(after[3 * cluster:3 * cluster + 8], before[3 * cluster:3 * cluster + 8], "the entry of the L2 table")
    equal(after[7 * cluster:7 * cluster + 8], before[7 * cluster:7 * cluster + 8], "the entry of the data")
    equal(after[8 * cluster:9 * cluster], before[8 * cluster:9 * cluster], "the data")
    counts = [int.from_bytes(after[at:at + 2], "big") for at in range(2 * cluster, 2 * cluster + 26, 2)]
    equal(counts, [0 if each in clusters else 1 for each in range(13)], "the counts")


def a_reftable_without_clusters():
    """Nothing tells which clusters are in use, so none is taken, and a place that has one is written still."""
    create("disk", 65536, 512)
    answers("disk", [("fill 0 512 11", "ok"), ("flush", "ok")])
    put("disk", REFTABLE + 8, bytes(4))
    before = contents("disk")
    answers("disk", [("fill 512 512 22", "refused 13 limit"), ("flush", "ok")], status=1)
    equal(contents("disk"), before, "the contents")
    answers("disk", [("fill 0 512 33", "ok"), ("read 0 2", "data 3333"), ("flush", "ok")])


def a_reftable_at_offset_0():
    """The header's own cluster is where it would lie, and it has no entry."""
    create("disk", 65536, 512)
    put("disk", REFTABLE, bytes(12))
    before = contents("disk")
    answers("disk", [("fill 0 512 11", "refused 13 limit"), ("flush", "ok")], status=1)
    equal(contents("disk"), before, "the contents")


def a_first_range_without_a_refblock(cluster, width):
    create("disk", 4 * cluster, cluster, width)
    put("disk", cluster, bytes(8))
    before = contents("disk")
    answers("disk", [("fill 0 1 11", "refused 13 limit"), ("read 0 2", "data 0000"), ("flush", "ok")], status=1)
    equal(contents("disk"), before, "the contents")


def names_one_full_refblock(cluster, width, count):
    """The reftable of an image names it from its first entry on, so many times."""
    create("disk", 1 << 20, cluster, width)
    clusters = -(-8 * count // cluster)
    put("disk", 48, cluster.to_bytes(8, "big") + clusters.to_bytes(4, "big"))
    put("disk", 40, ((clusters + 2) * cluster).to_bytes(8, "big"))
    put("disk", cluster, ((clusters + 1) * cluster).to_bytes(8, "big") * count)
    put("disk", (clusters + 1) * cluster, b"\xff" * cluster)
    put("disk", (clusters + 3) * cluster - 1, bytes(1))


def one_full_refblock_many_times(cluster, width, count, told):
    """Where it names all places of a file, none is free (13); else what is free lies far behind, and the write may be a fault, which ends the run."""
    names_one_full_refblock(cluster, width, count)
    status, text = ran("run", "disk", input=b"fill 0 512 11\n", stdout=subprocess.PIPE, stderr=subprocess.DEVNULL, timeout=60)
    if status not in (0, 1) or not re.fullmatch(told, text):
        raise AssertionError(f"status {status} and {shown(text)}")


def many_leaks_in_little_memory():
    """The report has half a billion leaks, of which the first are read, in 64 MiB of address space. A file of one mebibyte names its refblock in each of 131,072 entries, and has 2,051 clusters."""
    names_one_full_refblock(512, 1, 131072)
    program = subprocess.Popen([QIMG, "check", "disk"], stdout=subprocess.PIPE, stderr=subprocess.DEVNULL, preexec_fn=lambda: resource.setrlimit(resource.RLIMIT_AS, (64 << 20, 64 << 20)))
    lines = [program.stdout.readline().decode() for _ in range(4)]
    program.stdout.close()
    program.wait(timeout=60)
    equal(lines, ["under 2049 1 131072\n", "shared 2049 131072\n", "leak 2051 1 0\n", "leak 2052 1 0\n"], "the first lines")


def an_l1_table_that_ends_past_64_bits():
    """Its last cluster is the last one that 64 bits hold, with entries for 2 MiB of the disk. Behind the file's end all entries are zero."""
    create("disk", 4 << 20, 512)
    put("disk", 40, (2 ** 64 - 512).to_bytes(8, "big"))
    before = contents("disk")
    far = 2 << 20
    answers("disk", [
        ("size", "size 4194304"),
        ("map 0 65536", "zero 32768 implicit"),
        (f"read {far - 2} 4", "data 00000000"),
        (f"fill {far} 512 11", "refused 20 overflow"),
        (f"prepare 0 {far} 512 overwrite", "refused 20 overflow"),
        (f"zero {far} 512", "refused 20 overflow"),
        (f"dzero {far} 512", "refused 20 overflow"),
        (f"dback {far} 512", "refused 20 overflow"),
        ("flush", "ok"),
    ], status=1)
    equal(contents("disk"), before, "the contents")
    answers("disk", [("shrink 3145728", "shrunk 3145728"), ("grow 8388608 none", "ok"), (f"fill {far} 512 11", "ok"), (f"read {far - 2} 4", "data 00001111"), ("flush", "ok")])


def needs_a_data_file(file):
    put(file, 72, (4).to_bytes(8, "big"))


def names_a_data_file(file):
    put(file, 104, b"DATA" + (4).to_bytes(4, "big") + b"data" + bytes(12))


def names_a_backing_file(file):
    put(file, 8, (128).to_bytes(8, "big") + (4).to_bytes(4, "big"))
    put(file, 128, b"base")


def needs_nothing(_):
    pass


def an_image_with_a_bitmap(needs, answer, bits, status):
    create("disk", 65536, 512)
    needs("disk")
    put("disk", 88, b"\xff" * 8)
    before = contents("disk")
    answers("disk", [("size", answer)], status=status)
    equal(contents("disk"), before[:88] + bits + before[96:], "the contents")


def a_tail_that_cant_be_dropped():
    """The L2 table of the tail doesn't lie on a cluster, so dropping the tail is refused. What was listed before is freed then: the next write takes its cluster."""
    create("disk", 262144, 1024)
    put("disk", 3080, (1 << 63 | 512).to_bytes(8, "big"))
    answers("disk", [
        ("prepare 0 0 1024 overwrite", "prepared 5120 1024"),
        ("drop 0", "ok"),
        ("shrink 200000", "shrunk 200000"),
        ("fill 0 1024 11", "ok"),
        ("map 0 1024", "raw image 5120 1024 rw"),
        ("flush", "ok"),
    ])


def main():
    checks = Checks()
    for check in (a_header_that_is_not_counted, nothing_is_counted, a_reftable_without_clusters, an_l1_table_that_ends_past_64_bits, a_tail_that_cant_be_dropped, many_leaks_in_little_memory):
        checks.run(check.__name__, check)
    for cluster in (512, 65536):
        for clusters in ((0,), (1,), (2,), (3,), (3, 4, 5, 6), (7,), range(8)):
            checks.run(f"tables that aren't counted, {cluster} {list(clusters)}", tables_that_are_not_counted, cluster, clusters)
    for cluster, width in ((512, 16), (512, 64), (65536, 16), (2 << 20, 1)):
        checks.run(f"a first range without a refblock, {cluster} {width}", a_first_range_without_a_refblock, cluster, width)
    none_free, any_answer = r"refused 13 limit\n", r"ok\n|refused \d+ .*\n(refused 16 failed\n)?"
    for cluster, width, count, told in ((65536, 1, 4000, any_answer), (65536, 16, 1 << 20, none_free), (65536, 2, 1 << 18, any_answer), (2 << 20, 2, 4096, none_free)):
        checks.run(f"one full refblock {count} times, {cluster} {width}", one_full_refblock_many_times, cluster, width, count, told)
    checks.run("a reftable at offset 0 without clusters", a_reftable_at_offset_0)
    for needs in (needs_a_data_file, names_a_backing_file):
        checks.run(f"an image that {needs.__name__}", an_image_with_a_bitmap, needs, "refused 12 dependency", b"\xff" * 8, 1)
    for needs in (names_a_data_file, needs_nothing):
        checks.run(f"an image that {needs.__name__}", an_image_with_a_bitmap, needs, "size 65536", bytes(8), 0)
    checks.done()


main()
