#!/usr/bin/env -S python3 -B
"""Prepared mappings on real files: where they lie, what is seen of them before and after their commit, what is left of those that are dropped, and how slots are misused."""

from checks import Checks, answers, consistent, contents, create, equal, number_at, put, qimg, run

REFBLOCK = 1024
ONES, TWOS, THREES = ("11" * 512, "22" * 512, "33" * 512)


def rows(lines, status=0, size=65536):
    """Runs lines on a new image with clusters of 512 bytes."""
    create("disk", size, 512)
    answers("disk", lines, status)


def count_of(cluster):
    return number_at(contents("disk"), REFBLOCK + 2 * cluster, 2)


def a_dropped_cluster_is_taken_again():
    rows([
        (f"write 0 {ONES}", "ok"),
        ("flush", "ok"),
        ("prepare 0 512 512 overwrite", "prepared 3072 512"),
        (f"put 0 0 {TWOS}", "ok"),
        ("read 512 2", "data 0000"),
        ("drop 0", "ok"),
        ("flush", "ok"),
        ("read 512 2", "data 0000"),
        ("prepare 0 512 512 overwrite", "prepared 3072 512"),
        (f"put 0 0 {THREES}", "ok"),
        ("commit 0", "ok"),
        ("read 512 2", "data 3333"),
        ("prepare 0 512 512 overwrite", "existing 3072 512"),
        ("drop 0", "ok"),
        ("map 512 512", "raw image 3072 512 rw"),
    ])
    equal([count_of(c) for c in (5, 6, 7)], [1, 1, 0], "the counts")


def a_part_is_prepared_with_its_cluster():
    rows([
        ("prepare 0 100 100 overwrite", "prepared 2660 412"),
        ("put 0 0 " + "44" * 100, "ok"),
        ("commit 0", "ok"),
        ("read 98 4", "data 00004444"),
        ("read 198 4", "data 44440000"),
        ("map 0 512", "raw image 2560 512 rw"),
    ])
    equal(contents("disk")[2560:3072], bytes(100) + b"\x44" * 100 + bytes(312), "the cluster")


def a_part_of_a_used_cluster_is_zeroed_whole_first():
    """Another cluster's old bytes stand where the range is prepared."""
    rows([
        (f"write 0 {ONES}", "ok"),
        ("dback 0 512", "range 0 512"),
        ("flush", "ok"),
        ("prepare 0 100 100 overwrite", "prepared 2660 412"),
        ("drop 0", "ok"),
    ])
    equal(contents("disk")[2560:3072], bytes(512), "the cluster")


def an_existing_mapping_is_written_at_once():
    rows([
        (f"write 0 {ONES}", "ok"),
        ("prepare 3 0 512 keep", "existing 2560 512"),
        ("put 3 1 22", "ok"),
        ("read 0 3", "data 112211"),
        ("commit 3", "ok"),
        ("read 0 3", "data 112211"),
    ])


def what_is_kept_is_seen_after_the_commit():
    rows([
        ("prepare 255 0 512 keep", "prepared 2560 512"),
        ("put 255 510 aabb", "ok"),
        ("read 508 4", "data 00000000"),
        ("map 0 512", "zero 512 implicit"),
        ("commit 255", "ok"),
        ("read 508 4", "data 0000aabb"),
    ])


def a_mapping_that_is_left_is_dropped():
    rows([("prepare 0 0 512 overwrite", "prepared 2560 512"), ("put 0 0 11", "ok")])
    equal(count_of(5), 0, "the count of its cluster")
    answers("disk", [("map 0 512", "zero 512 implicit"), ("read 0 2", "data 0000")])


def a_range_has_many_clusters():
    rows([
        ("prepare 0 0 1536 overwrite", "prepared 2560 1536"),
        ("put 0 0 " + "11" * 1536, "ok"),
        ("read 510 4", "data 00000000"),
        ("commit 0", "ok"),
        ("map 0 1536", "raw image 2560 1536 rw"),
        ("read 1534 4", "data 11110000"),
        ("prepare 0 0 1536 keep", "existing 2560 1536"),
    ])
    equal(contents("disk")[2560:4096], b"\x11" * 1536, "the clusters")


def a_range_goes_on_behind_copied_data():
    rows([
        (f"write 0 {ONES}", "ok"),
        ("prepare 0 100 1000 keep", "prepared 2660 1000"),
        ("put 0 411 2222", "ok"),
        ("read 510 4", "data 11220000"),
        ("put 0 998 3333", "ok"),
        ("commit 0", "ok"),
        ("read 510 4", "data 11222200"),
        ("read 1096 6", "data 000033330000"),
        ("map 0 1536", "raw image 2560 1536 rw"),
    ])


def an_l1_table_grows_while_ranges_are_prepared():
    """The L1 table has an entry for the first range alone; it grows for the second one, and for a third that is written."""
    create("disk", 131072, 512)
    put("disk", 36, (1).to_bytes(4, "big"))
    answers("disk", [
        ("prepare 0 0 1024 overwrite", "prepared 2560 1024"),
        ("put 0 0 " + "11" * 1024, "ok"),
        ("prepare 1 65536 512 overwrite", "prepared 4096 512"),
        ("put 1 0 " + TWOS, "ok"),
        ("fill 98304 512 44", "ok"),
        ("read 0 2", "data 0000"),
        ("read 65536 2", "data 0000"),
        ("read 98304 2", "data 4444"),
        ("prepare 2 65536 1024 keep", "refused 9 table prepared"),
        ("put 1 0 " + THREES, "ok"),
        ("commit 0", "ok"),
        ("commit 1", "ok"),
        ("read 1022 4", "data 11110000"),
        ("read 65536 2", "data 3333"),
        ("map 0 1024", "raw image 2560 1024 rw"),
        ("map 65536 512", "raw image 4096 512 rw"),
        ("flush", "ok"),
    ], status=1)
    equal(number_at(contents("disk"), 36, 4), 4, "how many entries the L1 table has")
    answers("disk", [("read 0 2", "data 1111"), ("read 65536 2", "data 3333"), ("read 98304 2", "data 4444")])


def a_mapping_is_dropped_after_an_l1_table_grew():
    create("disk", 65536, 512)
    put("disk", 36, (1).to_bytes(4, "big"))
    answers("disk", [
        ("prepare 0 0 512 overwrite", "prepared 2560 512"),
        ("prepare 1 32768 512 overwrite", "prepared 3584 512"),
        ("put 0 0 11", "ok"),
        ("drop 0", "ok"),
        ("drop 1", "ok"),
        ("flush", "ok"),
        ("map 0 512", "zero 512 implicit"),
        ("map 32768 512", "zero 512 implicit"),
    ])
    equal([count_of(c) for c in range(3, 8)], [1, 1, 0, 1, 0], "the counts")


def a_range_ends_for_a_cause():
    rows([
        ("prepare 0 32256 1024 overwrite", "prepared 2560 512"),
        ("drop 0", "ok"),
        ("flush", "ok"),
        (f"write 1024 {ONES}", "ok"),
        (f"write 0 {TWOS}", "ok"),
        ("map 0 512", "raw image 3072 512 rw"),
        ("prepare 0 0 1536 keep", "prepared 3072 1024"),
        ("commit 0", "ok"),
        (f"write 2048 {THREES}", "ok"),
        ("prepare 0 1024 1536 keep", "prepared 2560 512"),
        ("drop 0", "ok"),
        ("read 1534 4", "data 11110000"),
    ])


def all_clusters_of_a_dropped_range_are_freed():
    rows([
        ("prepare 0 0 1536 overwrite", "prepared 2560 1536"),
        ("put 0 500 " + "22" * 600, "ok"),
        ("drop 0", "ok"),
        ("flush", "ok"),
        ("map 0 1536", "zero 1536 implicit"),
        ("read 500 4", "data 00000000"),
    ])
    equal([count_of(c) for c in (4, 5, 6, 7)], [1, 0, 0, 0], "the counts")


def zeroed(lines):
    """Three clusters that are written and zeroed; their entries keep the host clusters at 2560, 3072 and 3584."""
    rows([("fill 0 1536 11", "ok"), ("zero 0 1536", "range 0 1536"), ("flush", "ok"), *lines])


def a_kept_cluster_comes_first():
    """It is filled with zeros before the commit, and its place stays."""
    zeroed([
        ("prepare 0 100 100 keep", "prepared 2660 412"),
        ("put 0 0 2222", "ok"),
        ("read 98 4", "data 00000000"),
        ("map 0 512", "zero 512 explicit"),
        ("commit 0", "ok"),
        ("read 98 4", "data 00002222"),
        ("map 0 512", "raw image 2560 512 rw"),
        ("flush", "ok"),
    ])
    equal(contents("disk")[2560:3072], bytes(100) + b"\x22\x22" + bytes(410), "the cluster")
    equal([count_of(c) for c in (5, 6, 7, 8)], [1, 1, 1, 0], "the counts")


def kept_clusters_follow():
    """What is announced as overwritten isn't filled: old bytes show there where they aren't put."""
    zeroed([
        ("prepare 0 500 1000 overwrite", "prepared 3060 1000"),
        ("put 0 0 " + "22" * 1000, "ok"),
        ("read 0 1536", "data " + "00" * 1536),
        ("commit 0", "ok"),
        ("read 0 1536", "data " + "00" * 500 + "22" * 1000 + "00" * 36),
        ("map 0 1536", "raw image 2560 1536 rw"),
        ("flush", "ok"),
    ])
    equal([count_of(c) for c in (5, 6, 7, 8)], [1, 1, 1, 0], "the counts")


def kept_clusters_stand_among_data_and_new_ones():
    rows([
        ("fill 0 1024 11", "ok"),
        ("zero 512 512", "range 512 512"),
        ("prepare 0 0 1536 keep", "prepared 2560 1536"),
        ("commit 0", "ok"),
        ("read 0 1536", "data " + "11" * 512 + "00" * 1024),
        ("map 0 1536", "raw image 2560 1536 rw"),
        ("flush", "ok"),
    ])
    equal([count_of(c) for c in (5, 6, 7, 8)], [1, 1, 1, 0], "the counts")


def a_kept_cluster_of_a_dropped_range_is_kept():
    zeroed([
        ("prepare 0 0 1536 keep", "prepared 2560 1536"),
        ("put 0 0 " + "22" * 1536, "ok"),
        ("drop 0", "ok"),
        ("map 0 1536", "zero 1536 explicit"),
        ("read 0 1536", "data " + "00" * 1536),
        ("flush", "ok"),
        ("prepare 0 0 512 keep", "prepared 2560 512"),
        ("commit 0", "ok"),
        ("read 0 512", "data " + "00" * 512),
    ])
    equal([count_of(c) for c in (5, 6, 7, 8)], [1, 1, 1, 0], "the counts")


def a_kept_cluster_elsewhere_is_dropped():
    """The third cluster stands where the second one's would follow, so the range ends there."""
    rows([
        ("fill 0 512 11", "ok"),
        ("fill 1024 512 11", "ok"),
        ("fill 512 512 11", "ok"),
        ("zero 0 1536", "range 0 1536"),
        ("prepare 0 0 1536 keep", "prepared 2560 512"),
        ("commit 0", "ok"),
        ("prepare 0 512 1024 keep", "prepared 3584 1024"),
        ("commit 0", "ok"),
        ("map 0 512", "raw image 2560 512 rw"),
        ("map 512 1024", "raw image 3584 1024 rw"),
        ("flush", "ok"),
    ])
    equal([count_of(c) for c in (5, 6, 7, 8, 9)], [1, 0, 1, 1, 0], "the counts")


def as_many_tables_are_prepared_as_are_kept():
    """No other table is loaded until one of them is let go."""
    create("disk", 4227072, 512)
    tables = [f"prepare {slot} {slot * 32768} 512 overwrite" for slot in range(128)]
    said = run("disk", f"write 4194304 {ONES}", *tables, "read 4194304 1", "drop 77", "read 4194304 1", status=1)
    equal({(words[0], words[2]) for words in map(str.split, said[1:129])}, {("prepared", "512")}, "the ranges")
    equal([said[0], *said[129:]], ["ok", "refused 8 everything is in use", "ok", "data 11"], "the other answers")
    consistent("disk", 0)


def slots_are_misused():
    rows([
        ("prepare 7 512 512 overwrite", "prepared 2560 512"),
        ("prepare 7 0 512 overwrite", "misuse"),
        ("commit 8", "misuse"),
        ("put 8 0 22", "misuse"),
        ("drop 8", "misuse"),
        ("put 7 511 2222", "misuse"),
        ("put 7 18446744073709551615 22", "misuse"),
        ("put 7 511 22", "ok"),
        ("commit 7", "ok"),
        ("commit 7", "misuse"),
        ("put 7 0 22", "misuse"),
        ("read 1022 2", "data 0022"),
    ], status=1)


def ranges_are_refused():
    rows([
        ("prepare 0 65536 1 keep", "refused 2 beyond size"),
        ("prepare 0 65535 2 overwrite", "refused 2 beyond size"),
        ("prepare 0 18446744073709551615 2 overwrite", "refused 2 beyond size"),
        ("prepare 0 1000000000 0 overwrite", "existing 0 0"),
        ("commit 0", "ok"),
        ("prepare 0 0 512 overwrite", "prepared 2560 512"),
        ("prepare 1 1024 512 overwrite", "refused 9 table prepared"),
        ("drop 0", "ok"),
        ("prepare 1 65535 1 overwrite", "prepared 3071 1"),
        ("commit 1", "ok"),
    ], status=1)


BAD_LINES = [
    "prepare", "prepare 0 0 512", "prepare 256 0 512 keep", "prepare 0 0 512 Keep", "prepare 0 0 512 keep ", "prepare 0 0 512 overwrite more", "prepare -1 0 512 keep",
    "put 0 0", "put 0 0 ", "put 0 0 1", "put 0 0 AA", "put 256 0 11", "commit", "commit 0 0", "commit 256", "commit x", "drop", "drop 256", "drop 0 0", "Drop 0",
]


def a_line_is_not_read(line):
    create("disk", 65536, 512)
    equal(qimg("run", "disk", given=f"size\n{line}\nsize\n".encode()), (2, "size 65536\nbad line 2\n"), line)


checks = Checks()
for check in [
    a_dropped_cluster_is_taken_again,
    a_part_is_prepared_with_its_cluster,
    a_part_of_a_used_cluster_is_zeroed_whole_first,
    an_existing_mapping_is_written_at_once,
    what_is_kept_is_seen_after_the_commit,
    a_mapping_that_is_left_is_dropped,
    a_range_has_many_clusters,
    a_range_goes_on_behind_copied_data,
    an_l1_table_grows_while_ranges_are_prepared,
    a_mapping_is_dropped_after_an_l1_table_grew,
    a_range_ends_for_a_cause,
    all_clusters_of_a_dropped_range_are_freed,
    a_kept_cluster_comes_first,
    kept_clusters_follow,
    kept_clusters_stand_among_data_and_new_ones,
    a_kept_cluster_of_a_dropped_range_is_kept,
    a_kept_cluster_elsewhere_is_dropped,
    as_many_tables_are_prepared_as_are_kept,
    slots_are_misused,
    ranges_are_refused,
]:
    checks.run(check.__name__, check)
for line in BAD_LINES:
    checks.run(line, a_line_is_not_read, line)
checks.done()
