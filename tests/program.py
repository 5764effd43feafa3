#!/usr/bin/env -S python3 -B
"""The program on real files: its words and lines, what it prints, its status, and the bytes that it leaves."""

import os
import resource
import subprocess

from checks import QIMG, USAGE, Checks, answers, contents, create, equal, number_at, put, qimg, run

CLUSTER = 512
L1_TABLE = 1536
REFBLOCK = 1024


def disk(size=65536, cluster=CLUSTER):
    """A new image."""
    create("disk", size, cluster)
    return "disk"


def disk_with_a_cluster():
    """An image whose first cluster is 512 times 0x11."""
    answers(disk(), [("fill 0 512 11", "ok"), ("flush", "ok")])
    return "disk"


def hex_of(bytes_):
    return "data " + (bytes_.hex() or "-")


# The words

def refuses_words(words):
    equal(qimg(*words), (2, USAGE + "\n"), f"{words}")
    equal(os.listdir("."), [], "the files")


BAD_WORDS = [
    [],
    ["create"],
    ["run"],
    ["run", "disk", "more"],
    ["check", "disk", "more"],
    ["check"],
    ["import"],
    ["import", "raw"],
    ["import", "raw", "disk", "512"],
    ["import", "raw", "disk", "512", "16", "none"],
    ["import", "raw", "disk", "x", "16"],
    ["import", "raw", "disk", "512", ""],
    ["export"],
    ["export", "disk"],
    ["export", "disk", "raw", "512"],
    ["Run", "disk"],
    ["create", "disk", "65536", "512", "16"],
    ["create", "disk", "65536", "512", "16", "none", "more"],
    ["create", "disk", "65536", "512", "16", "zeros"],
    ["create", "disk", "65536", "512", "16", "metadata"],
    ["create", "disk", "65536", "512", "16", "Full"],
    ["create", "disk", "65536", "512", "16", "write "],
    ["create", "disk", "65536", "512", "16", "None"],
    ["create", "disk", "65536", "512", "16", ""],
    ["create", "disk", "+65536", "512", "16", "none"],
    ["create", "disk", "-1", "512", "16", "none"],
    ["create", "disk", "", "512", "16", "none"],
    ["create", "disk", "65536 ", "512", "16", "none"],
    ["create", "disk", "64k", "512", "16", "none"],
    ["create", "disk", "0x10000", "512", "16", "none"],
    ["create", "disk", "18446744073709551616", "512", "16", "none"],
    ["create", "disk", "99999999999999999999", "512", "16", "none"],
    ["create", "disk", "65536", "+512", "16", "none"],
    ["create", "disk", "65536", "18446744073709551616", "16", "none"],
    ["create", "disk", "65536", "512", "+16", "none"],
    ["create", "disk", "65536", "512", "sixteen", "none"],
    ["create", "disk", "65536", "512", "18446744073709551616", "none"],
    ["create", "disk", "6\u0665536", "512", "16", "none"],
]


def refuses_a_word_that_is_no_text():
    done = subprocess.run([os.fsencode(QIMG), b"run", b"\xff"], stdout=subprocess.PIPE)
    equal((done.returncode, done.stdout), (2, USAGE.encode() + b"\n"))


def takes_leading_zeros():
    equal(qimg("create", "disk", "00065536", "0512", "016", "none"), (0, "created\n"))
    answers("disk", [("read 000 0002", "data 0000"), ("size", "size 65536")])


# Creating

def creates():
    data = contents(disk())
    equal(data[:4], b"QFI\xfb", "the magic")
    fields = [(4, 4), (8, 8), (16, 4), (20, 4), (24, 8), (32, 4), (36, 4), (40, 8), (48, 8), (56, 4), (60, 4), (64, 8)]
    equal([number_at(data, *field) for field in fields], [3, 0, 0, 9, 65536, 0, 2, L1_TABLE, 512, 1, 0, 0], "the header")
    equal([number_at(data, at) for at in (72, 80, 88)], [0, 0, 0], "the bits")
    equal([number_at(data, at, 4) for at in (96, 100)], [4, 104], "the counts' width and the header's length")
    equal(number_at(data, 512), REFBLOCK, "the reftable's entry")
    equal(data[REFBLOCK:REFBLOCK + 512], bytes([0, 1] * 4 + [0] * 504), "the counts")
    equal((data + bytes(16))[L1_TABLE:L1_TABLE + 16], bytes(16), "the L1 table")


def creates_over_a_file():
    with open("disk", "wb") as it:
        it.write(b"\xff" * 100000)
    data = contents(disk())
    create("other", 65536, CLUSTER)
    equal(data, contents("other"), "the image over a longer file")


def refuses_an_option(cluster, width):
    with open("disk", "wb") as it:
        it.write(b"some bytes")
    equal(qimg("create", "disk", "65536", str(cluster), str(width), "none"), (1, "refused 5 invalid option\n"))
    equal(contents("disk"), b"some bytes", "the file")


def refuses_to_create_where_no_file_can_be():
    equal(qimg("create", "no/disk", "65536", "512", "16", "none"), (1, "refused 15 storage\n"))
    equal(qimg("create", ".", "65536", "512", "16", "none"), (1, "refused 15 storage\n"))


# Running

def answers_lines():
    answers(disk(), [
        ("size", "size 65536"),
        ("map 0 65536", "zero 32768 implicit"),
        ("read 0 4", "data 00000000"),
        ("fill 0 512 11", "ok"),
        ("map 0 512", "raw image 2560 512 rw"),
        ("map 100 18446744073709551615", "raw image 2660 412 rw"),
        ("map 65536 1", "eof"),
        ("read 0 2", "data 1111"),
        ("read 510 4", "data 11110000"),
        ("write 3 00ff7f", "ok"),
        ("read 2 5", "data 1100ff7f11"),
        ("read 65536 0", "data -"),
        ("fill 65536 0 22", "ok"),
        ("flush", "ok"),
    ])


def refuses_and_goes_on():
    answers(disk(), [
        ("read 65536 1", "refused 2 beyond size"),
        ("read 18446744073709551615 1048576", "refused 2 beyond size"),
        ("write 65535 1122", "refused 2 beyond size"),
        ("fill 0 1048576 11", "refused 2 beyond size"),
        ("read 65535 1", "data 00"),
    ], status=1)


def keeps_what_was_written():
    file = disk_with_a_cluster()
    answers(file, [("read 0 512", hex_of(b"\x11" * 512)), ("read 512 2", "data 0000")])
    run(file, "write 60000 abcdef")
    answers(file, [("read 59999 5", "data 00abcdef00"), ("read 0 2", "data 1111")])
    answers(file, [("write 1022 01020304", "ok"), ("read 1020 8", "data 0000010203040000")])
    # Over the end of what the first L2 table covers.
    run(file, "write 32766 05060708", "flush")
    answers(file, [("read 32764 8", "data 0000050607080000")])


def writes_the_bytes_of_a_cluster():
    data = contents(disk_with_a_cluster())
    equal(number_at(data, L1_TABLE), 0x8000000000000800, "the L1 entry")
    equal(number_at(data, 2048), 0x8000000000000a00, "the L2 entry")
    equal(data[2056:2560], bytes(504), "the other L2 entries")
    equal(data[REFBLOCK:REFBLOCK + 14], bytes([0, 1] * 6 + [0, 0]), "the counts")
    equal(data[2560:3072], b"\x11" * 512, "the data")


def zeroes_the_rest_of_a_cluster():
    file = disk()
    answers(file, [("fill 100 100 22", "ok"), ("map 0 512", "raw image 2560 512 rw")])
    cluster = bytes(100) + b"\x22" * 100 + bytes(312)
    answers(file, [("read 0 512", hex_of(cluster))])
    equal(contents(file)[2560:3072], cluster, "the data")


def answers_a_disk_of_no_bytes():
    answers(disk(0), [("map 0 1", "eof"), ("read 0 0", "data -"), ("size", "size 0")])
    answers("disk", [("write 0 00", "refused 2 beyond size")], status=1)


def runs_nothing():
    before = contents(disk())
    equal(qimg("run", "disk"), (0, ""))
    equal(contents("disk"), before, "the file")


def runs_a_last_line_without_its_end():
    disk()
    equal(qimg("run", "disk", given=b"size\nread 0 1"), (0, "size 65536\ndata 00\n"))


def reads_the_longest_lengths():
    disk(2 ** 21, 65536)
    answers("disk", [
        ("fill 0 1048576 5a", "ok"),
        ("write 1048576 " + "00" * 200000 + "77", "ok"),
        ("read 524288 1048576", hex_of(b"\x5a" * 524288 + bytes(200000) + b"\x77" + bytes(324287))),
        ("flush", "ok"),
    ])


def keeps_a_fill_as_its_byte():
    """A script whose fills have 1 GB of bytes together, in 100 MB of addresses."""
    disk()
    count = 200000
    given = b"fill 0 5000 11\n" * count + b"read 0 2\n"
    limit = 100 << 20
    status, text = qimg("run", "disk", given=given, preexec_fn=lambda: resource.setrlimit(resource.RLIMIT_AS, (limit, limit)))
    equal((status, text == "ok\n" * count + "data 1111\n"), (0, True), "the status, and whether the answers are right")


def takes_no_bytes_at_the_last_offset():
    before = contents(disk())
    answers("disk", [
        ("fill 18446744073709551615 0 11", "ok"),
        ("read 18446744073709551615 0", "data -"),
        ("map 18446744073709551615 0", "eof"),
        ("size", "size 65536"),
    ])
    equal(contents("disk"), before, "the file")


# Lines that can't be read

BAD_LINES = [
    b"",
    b" ",
    b" size",
    b"size ",
    b"size\r",
    b"Size",
    b"size 0",
    b"siz",
    b"flush 0",
    b"read",
    b"read 0",
    b"read 0 ",
    b"read  0 1",
    b"read\t0 1",
    b"read 0 1 2",
    b"read +0 1",
    b"read -0 1",
    b"read 0 1.",
    b"read 0 0x1",
    b"read 0 1048577",
    b"read 18446744073709551616 1",
    b"read 99999999999999999999 0",
    b"read 0 18446744073709551617",
    b"map 0",
    b"map 18446744073709551616 1",
    b"map 0 18446744073709551616",
    b"map 0 0 1",
    b"write 0",
    b"write 0 ",
    b"write 0 1",
    b"write 0 111",
    b"write 0 AB",
    b"write 0 aB",
    b"write 0 0g",
    b"write 0 11 22",
    b"write +1 11",
    b"fill 0 1",
    b"fill 0 1 1",
    b"fill 0 1 1122",
    b"fill 0 1 AA",
    b"fill 0 1048577 11",
    b"fill 0 18446744073709551616 11",
    b"fill 0 1 11 ",
    b"\xff",
    b"size \xc3",
    b"size\0",
    "read \u0660 1".encode(),
    b"zero 0",
    b"dback 0 512 1",
    b"special 0 1048577",
    b"grow 98304",
    b"grow 98304 off",
    b"grow 98304 Zero",
    b"grow 18446744073709551616 none",
    b"shrink",
    b"shrink 100 none",
    b"sync 0",
    b"invalidate 0",
    b"Invalidate",
    b"leaks 0",
]


def syncs_and_counts_leaks():
    answers(disk(), [("fill 0 512 11", "ok"), ("flush", "ok"), ("sync", "ok"), ("leaks", "leaks 0"), ("read 0 2", "data 1111")])


def invalidates():
    answers(disk_with_a_cluster(), [("invalidate", "ok"), ("read 0 2", "data 1111"), ("leaks", "leaks 0"), ("size", "size 65536")])
    equal(contents("disk")[2560:3072], b"\x11" * 512, "the data")


def an_invalidation_drops_what_is_not_flushed():
    answers(disk_with_a_cluster(), [("write 0 2222", "ok"), ("fill 512 512 33", "ok"), ("invalidate", "ok"), ("read 0 2", "data 2222"), ("read 512 2", "data 0000"), ("flush", "ok")])
    answers("disk", [("read 510 4", "data 11110000")])


def refuses_to_invalidate_beside_a_prepared_mapping():
    answers(disk_with_a_cluster(), [
        ("prepare 0 512 512 overwrite", "prepared 3072 512"),
        ("invalidate", "refused 21 still in use"),
        ("put 0 0 2222", "ok"),
        ("commit 0", "ok"),
        ("invalidate", "ok"),
        ("read 0 2", "data 1111"),
        ("read 512 2", "data 0000"),
        ("prepare 1 0 2 overwrite", "existing 2560 2"),
        ("invalidate", "ok"),
        ("put 1 0 44", "ok"),
        ("read 0 2", "data 4411"),
        ("prepare 2 512 512 overwrite", "prepared 3072 512"),
        ("invalidate", "refused 21 still in use"),
        ("drop 2", "ok"),
        ("invalidate", "ok"),
    ], status=1)


def stops_at_a_bad_line(line):
    disk()
    given = b"fill 0 512 11\nsize\n" + line + b"\nfill 0 512 22\n"
    equal(qimg("run", "disk", given=given), (2, "ok\nsize 65536\nbad line 3\n"), repr(line))
    answers("disk", [("read 0 2", "data 1111")])


def stops_at_a_bad_line_without_its_end():
    disk()
    equal(qimg("run", "disk", given=b"size\nsiz"), (2, "size 65536\nbad line 2\n"))
    equal(qimg("run", "disk", given=b"\n"), (2, "bad line 1\n"))
    equal(qimg("run", "disk", given=b"size\n\xff"), (2, "size 65536\nbad line 2\n"))


def a_bad_line_goes_before_a_refusal():
    disk()
    for given in (b"read 65536 1\nno\n", b"read 65536 1\n\nsize\n"):
        equal(qimg("run", "disk", given=given), (2, "refused 2 beyond size\nbad line 2\n"))


def a_read_that_fails_is_a_bad_line():
    disk()
    folder = os.open(".", os.O_RDONLY)
    equal(qimg("run", "disk", stdin=folder), (2, "bad line 1\n"))
    os.close(folder)


# Files that can't be opened, or are no image

def leaves_the_input_where_the_file_is_missing():
    # The input stays open: a program that read it would not end.
    reading, writing = os.pipe()
    equal(qimg("run", "missing", stdin=reading, timeout=60), (1, "refused 15 storage\n"))
    equal(qimg("run", ".", stdin=reading, timeout=60), (1, "refused 15 storage\n"))
    os.close(reading)
    os.close(writing)
    equal(os.listdir("."), [], "the files")


def refuses_what_is_no_image():
    for data in (b"", b"QFI", b"QFI\xfb\0\0\0\x04" + bytes(600), bytes(1024)):
        with open("disk", "wb") as it:
            it.write(data)
        equal(qimg("run", "disk", given=b"size\n"), (1, "refused 19 metadata\n"), f"{data[:8]}")
        equal(qimg("run", "disk", given=b"size\nno\n"), (2, "refused 19 metadata\nbad line 2\n"), f"{data[:8]}")
        equal(contents("disk"), data, "the file")


def refuses_a_header_that_names_a_file():
    backing = contents(disk_with_a_cluster())
    put("disk", 8, (200).to_bytes(8, "big"))
    put("disk", 16, (8).to_bytes(4, "big"))
    put("disk", 200, b"base.raw")
    equal(qimg("run", "disk", given=b"read 0 1\n"), (1, "refused 12 dependency\n"), "a backing file")
    equal(qimg("run", "disk", given=b"no\n"), (2, "refused 12 dependency\nbad line 1\n"), "a backing file")
    with open("disk", "wb") as it:
        it.write(backing)
    put("disk", 79, b"\x04")
    equal(qimg("run", "disk", given=b"read 0 1\n"), (1, "refused 12 dependency\n"), "a data file")


def refuses_a_reftable_off_a_cluster():
    put(disk(), 48, (513).to_bytes(8, "big"))
    before = contents("disk")
    equal(qimg("run", "disk", given=b"size\n"), (1, "refused 4 unaligned table\n"))
    equal(qimg("run", "disk", given=b"size\nno\n"), (2, "refused 4 unaligned table\nbad line 2\n"))
    equal(contents("disk"), before, "the file")


def clears_the_autoclear_bits():
    before = contents(disk_with_a_cluster())
    put("disk", 88, b"\xff" * 8)
    equal(qimg("run", "disk"), (0, ""))
    equal(contents("disk"), before, "the file")


def reads_zeros_past_the_end_of_the_file():
    file = disk_with_a_cluster()
    os.truncate(file, 2560 + 3)
    answers(file, [("read 0 5", "data 1111110000")])
    os.truncate(file, 2048)
    answers(file, [("read 0 1", "data 00")])


# Output that can't be written

def says_that_a_line_was_not_written():
    with open("/dev/full", "wb") as full:
        equal(qimg(stdout=full)[0], 2, "the usage line")
        equal(qimg("create", "disk", "65536", "512", "16", "none", stdout=full)[0], 1, "create")
        equal(qimg("run", "missing", stdout=full)[0], 1, "a missing file")
        equal(qimg("run", "disk", given=b"fill 0 512 11\n", stdout=full)[0], 1, "run")
        equal(qimg("run", "disk", given=b"size\nno\n", stdout=full)[0], 2, "a bad line")
        equal(qimg("run", "disk", given=b"", stdout=full)[0], 0, "nothing to print")
    answers("disk", [("read 0 2", "data 1111")])


def main():
    checks = Checks()
    for words in BAD_WORDS:
        checks.run(f"words {words}", refuses_words, words)
    for cluster, width in ((513, 16), (256, 16), (65536, 128), (0, 16), (4194304, 16), (512, 0), (512, 3), (2 ** 64 - 1, 16)):
        checks.run(f"cluster {cluster}, width {width}", refuses_an_option, cluster, width)
    for line in BAD_LINES:
        checks.run(f"line {line}", stops_at_a_bad_line, line)
    for check in (
        refuses_a_word_that_is_no_text,
        takes_leading_zeros,
        creates,
        creates_over_a_file,
        refuses_to_create_where_no_file_can_be,
        answers_lines,
        refuses_and_goes_on,
        keeps_what_was_written,
        writes_the_bytes_of_a_cluster,
        zeroes_the_rest_of_a_cluster,
        answers_a_disk_of_no_bytes,
        runs_nothing,
        runs_a_last_line_without_its_end,
        reads_the_longest_lengths,
        keeps_a_fill_as_its_byte,
        takes_no_bytes_at_the_last_offset,
        stops_at_a_bad_line_without_its_end,
        syncs_and_counts_leaks,
        invalidates,
        an_invalidation_drops_what_is_not_flushed,
        refuses_to_invalidate_beside_a_prepared_mapping,
        a_bad_line_goes_before_a_refusal,
        a_read_that_fails_is_a_bad_line,
        leaves_the_input_where_the_file_is_missing,
        refuses_what_is_no_image,
        refuses_a_header_that_names_a_file,
        refuses_a_reftable_off_a_cluster,
        clears_the_autoclear_bits,
        reads_zeros_past_the_end_of_the_file,
        says_that_a_line_was_not_written,
    ):
        checks.run(check.__name__, check)
    checks.done()


main()
