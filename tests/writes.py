#!/usr/bin/env python3
"""The order of the program's writes on a real file, as the system's calls show it, and the file that a stop between two of them leaves."""

import os
import re
import subprocess

import checks
from checks import answers, create, equal, number_at, put, run

WRITE = re.compile(r'pwrite64\(\d+, "((?:\\x[0-9a-f]{2})*)", (\d+), (\d+)\)\s+= (\d+)')


def written(words, given=b"", leaks=0):
    """Runs the program, after which so many clusters are leaked, and answers each write to a file: where, and the bytes."""
    done = subprocess.run(
        ["strace", "-f", "-qq", "-xx", "-s", "1000000", "-e", "trace=pwrite64", "-o", "calls", checks.QIMG, *words],
        input=given, stdout=subprocess.PIPE, timeout=600)
    equal(done.returncode, 0, "status")
    checks.consistent(words[1], leaks)
    answered = []
    with open("calls") as calls:
        for text, length, at, gone in WRITE.findall(calls.read()):
            data = bytes.fromhex(text.replace("\\x", ""))
            equal((len(data), int(gone)), (int(length), int(length)), "length of a write")
            answered.append((int(at), data))
    return done.stdout.decode(), answered


def places(writes):
    return [(at, len(data)) for at, data in writes]


def content(file):
    with open(file, "rb") as f:
        return f.read()


def numbers_at(file, *places_):
    """Numbers of eight bytes in a file, 0 past its end."""
    held = content(file)
    return [number_at((held + bytes(place + 8))[place:place + 8], 0) for place in places_]


def leave(file, before, writes):
    """Writes the file that a stop after these writes leaves."""
    held = bytearray(before)
    for at, data in writes:
        held.extend(bytes(max(0, at + len(data) - len(held))))
        held[at:at + len(data)] = data
    with open(file, "wb") as f:
        f.write(held)


def is_consistent(file, what):
    """The checker and QEMU's check find leaks at worst."""
    checks.consistent(file)
    done = subprocess.run(["qemu-img", "check", "-f", "qcow2", file], stdout=subprocess.PIPE, stderr=subprocess.STDOUT)
    if done.returncode not in (0, 3):
        raise AssertionError(f"{what}: qemu-img check ended with {done.returncode}: {done.stdout.decode(errors='replace')}")


def creates_in_order():
    said, writes = written(["create", "disk", "65536", "512", "16", "none"])
    equal(said, "created\n", "output")
    equal(places(writes), [(1024, 512), (512, 512), (0, 112), (1024, 512), (1536, 16), (36, 12), (24, 8)], "writes")
    equal(writes[0][1], bytes.fromhex("000100010001") + bytes(506), "first counts")
    equal(writes[1][1], bytes.fromhex("0000000000000400") + bytes(504), "reftable")
    equal(writes[3][1], bytes.fromhex("0001000100010001") + bytes(504), "last counts")
    equal(writes[4][1], bytes(16), "L1 table")
    equal(writes[5][1], bytes.fromhex("000000020000000000000600"), "L1's length and offset")
    equal(writes[6][1], bytes.fromhex("0000000000010000"), "size")
    leave("again", b"", writes)
    equal(content("disk")[:1552], content("again")[:1552], "the writes make the file")
    # Before the header there is no image, and then one of no bytes, up to the write of the size.
    for stop in range(3):
        leave("stopped", b"", writes[:stop])
        equal(checks.qimg("run", "stopped", given=b"size\n"), (1, "refused 19 metadata\n"), f"a stop after {stop} writes")
    for stop in range(3, len(writes) + 1):
        leave("stopped", b"", writes[:stop])
        is_consistent("stopped", f"a stop after {stop} writes")
        size = 65536 if stop == len(writes) else 0
        equal(checks.qimg("run", "stopped", given=f"read {size} 1\n".encode())[1], "refused 2 beyond size\n", "past the size")
        said = checks.qimg("run", "stopped", given=f"read 0 {min(size, 4)}\n".encode())
        equal(said, (0, "data 00000000\n" if size else "data -\n"), f"read after {stop} writes")


def writes_in_order():
    create("disk", 65536, 512)
    before = content("disk")
    said, writes = written(["run", "disk"], b"fill 0 512 11\nflush\n")
    equal(said, "ok\nok\n", "output")
    equal([at for at, _ in writes], [1024, 2048, 1536, 2560, 1024, 2048], "offsets")
    equal(writes[0][1][:12], bytes.fromhex("00010001000100010001") + bytes(2), "counts before the L2 table is entered")
    equal(writes[1][1], bytes(512), "a new L2 table maps nothing")
    equal(writes[2][1], bytes.fromhex("8000000000000800"), "L1 entry")
    equal(writes[3][1], b"\x11" * 512, "guest bytes")
    equal(writes[4][1][:14], bytes.fromhex("000100010001000100010001") + bytes(2), "counts before the mapping")
    equal(writes[5][1], bytes.fromhex("8000000000000a00") + bytes(504), "L2 entry")
    l1, l2 = 0x8000000000000800, 0x8000000000000a00
    left = [(0, 0, 0), (1 << 48, 0, 0), (1 << 48, 0, 0), (1 << 48, l1, 0), (1 << 48, l1, 0), (0x10001 << 32, l1, 0), (0x10001 << 32, l1, l2)]
    for stop, numbers in enumerate(left):
        leave("stopped", before, writes[:stop])
        equal(numbers_at("stopped", 1032, 1536, 2048), list(numbers), f"the last counts and the two entries after {stop} writes")
        is_consistent("stopped", f"a stop after {stop} writes")
        value = "11" if stop == len(writes) else "00"
        equal(checks.qimg("run", "stopped", given=b"read 0 4\n"), (0, f"data {value * 4}\n"), f"a stop after {stop} writes")
    equal(numbers_at("disk", 1024), [0x0001000100010001], "the first counts")


def clears_the_autoclear_bits_by_one_write():
    create("disk", 65536, 512)
    put("disk", 88, b"\xff" * 8)
    lines = b"size\nread 0 2\nmap 0 512\nflush\n"
    answered = "size 65536\ndata 0000\nzero 512 implicit\nok\n"
    equal(written(["run", "disk"], lines), (answered, [(88, bytes(8))]), "the first run")
    equal(written(["run", "disk"], lines), (answered, []), "the second run")


def makes_refblocks_on_the_way():
    create("disk", 65536, 512, 64)
    run("disk", *[f"fill {cluster * 512} 512 44" for cluster in range(60)], "flush")
    equal(numbers_at("disk", 520, 32768, 32776, 32784), [32768, 1, 1, 0], "the second refblock")
    answers("disk", [("map 29696 512", "raw image 32256 512 rw"), ("map 30208 512", "raw image 33280 512 rw")])


def names_a_refblock_before_its_clusters_are_used():
    # With counts of 64 bits the first refblock is full then.
    create("disk", 65536, 512, 64)
    run("disk", *[f"fill {cluster * 512} 512 44" for cluster in range(59)], "flush")
    before = content("disk")
    said, writes = written(["run", "disk"], b"fill 30208 512 55\nflush\n")
    equal(said, "ok\nok\n", "output")
    equal([at for at, _ in writes], [32768, 520, 33280, 32768, 2048], "offsets")
    for stop in range(len(writes) + 1):
        leave("stopped", before, writes[:stop])
        # The refblock counts itself, then it is named, and the new cluster is counted before it is.
        numbers = [32768 if stop > 1 else 0, 1 if stop else 0, 1 if stop > 3 else 0, 0x8000000000008200 if stop > 4 else 0]
        equal(numbers_at("stopped", 520, 32768, 32776, 2520), numbers, f"entries and counts after {stop} writes")
        is_consistent("stopped", f"a stop after {stop} writes")
        value = "55" if stop == len(writes) else "00"
        equal(run("stopped", "read 30208 1"), [f"data {value}"], f"a stop after {stop} writes")


def a_shared_cluster_is_copied():
    create("disk", 65536, 512)
    run("disk", "fill 0 512 11", "flush")
    # Cluster 5 is counted twice, and its entry isn't marked copied.
    put("disk", 1035, b"\2")
    put("disk", 2048, b"\0")
    lines = [("map 0 512", "raw image 2560 512 ro"), ("write 100 22222222", "ok"), ("map 0 512", "raw image 3072 512 rw"), ("read 98 8", "data 1111222222221111"), ("flush", "ok")]
    said, writes = written(["run", "disk"], "".join(f"{line}\n" for line, _ in lines).encode(), leaks=1)
    equal(said.splitlines(), [answer for _, answer in lines], "answers")
    equal(numbers_at("disk", 1032, 2048), [0x0001000100010000, 0x8000000000000c00], "counts of clusters 4 to 7, and the entry")


def zeros_are_copied():
    create("disk", 65536, 512)
    run("disk", "fill 0 512 11", "flush")
    put("disk", 2048, (1).to_bytes(8, "big"))
    put("disk", 1034, bytes(2))
    answers("disk", [("map 0 512", "zero 512 explicit"), ("write 100 2222", "ok"), ("read 98 6", "data 000022220000"), ("flush", "ok")])
    is_consistent("disk", "a copied cluster of zeros")


def a_former_tables_cluster_takes_a_new_table():
    create("disk", 65536, 512)
    run("disk", "fill 0 512 11", "flush")
    # The L1 entry isn't marked copied any more: its table is replaced.
    put("disk", 1536, b"\0")
    run("disk", "fill 0 512 22", "flush", "fill 32768 512 33", "flush")
    equal(numbers_at("disk", 1536, 1544, 1032, 1040), [0x8000000000000c00, 0x8000000000000800, 0x0001000100010001, 0], "entries and counts")
    answers("disk", [("read 32768 1", "data 33"), ("read 0 1", "data 22")])


def a_longer_l1_table_is_named_after_its_bytes():
    create("disk", 65536, 512)
    # The L1 table has one entry, for half of the disk.
    put("disk", 36, (1).to_bytes(4, "big"))
    before = content("disk")
    said, writes = written(["run", "disk"], b"fill 32768 512 11\nflush\n")
    equal(said, "ok\nok\n", "output")
    equal([at for at, _ in writes], [1024, 2048, 36, 1024, 1536, 2056, 2560, 1024, 1536], "offsets")
    equal(writes[0][1][:12], bytes.fromhex("00010001000100010001") + bytes(2), "counts before the L1 table is named")
    equal(writes[1][1], bytes(16), "the longer L1 table")
    equal(writes[2][1], bytes.fromhex("000000020000000000000800"), "its length and offset")
    equal(writes[4][1], bytes(512), "a new L2 table, where the former L1 table was")
    equal(writes[5][1], bytes.fromhex("8000000000000600"), "L1 entry")
    for stop in range(len(writes) + 1):
        leave("stopped", before, writes[:stop])
        # QEMU doesn't open an image whose L1 table is too short.
        if stop < 3:
            checks.consistent("stopped")
        else:
            is_consistent("stopped", f"a stop after {stop} writes")
        value = "11" if stop == len(writes) else "00"
        equal(run("stopped", "read 32768 1", "read 0 1"), [f"data {value}", "data 00"], f"a stop after {stop} writes")


def an_l1_table_grows_twice():
    create("disk", 131072, 512)
    put("disk", 36, (1).to_bytes(4, "big"))
    said, writes = written(["run", "disk"], b"fill 32768 512 11\nfill 98304 512 22\nflush\n")
    equal(said, "ok\nok\nok\n", "output")
    first, second = [1024, 2048, 36, 1024, 1536, 2056, 2560], [1024, 3072, 36, 1024, 2048, 3096, 3584]
    equal([at for at, _ in writes], first + second + [1024, 2048, 1536], "offsets")
    equal(numbers_at("disk", 36, 40), [4 << 32, 3072], "length and offset")
    equal(numbers_at("disk", 3072, 3080, 3088, 3096), [0, 0x8000000000000600, 0, 0x8000000000000800], "entries")
    equal(numbers_at("disk", 1032), [0x0001000100010001], "counts of clusters 4 to 7")
    is_consistent("disk", "a table that grew twice")
    answers("disk", [("map 32768 1024", "raw image 2560 512 rw"), ("map 98304 512", "raw image 3584 512 rw"), ("map 65536 512", "zero 512 implicit")])


def stops_leave_leaks_at_worst(size, cluster, width, lines, is_old_or_given):
    """Stops after each write of some commands: the file is consistent, and each guest cluster is as flushed or as given."""
    create("disk", size, cluster, width)
    before = content("disk")
    said, writes = written(["run", "disk"], lines)
    equal(set(said.split()), {"ok"}, "output")
    for stop in range(len(writes) + 1):
        leave("stopped", before, writes[:stop])
        is_consistent("stopped", f"a stop after {stop} writes")
        reads = b"".join(b"read %d 1\n" % at for at in range(0, size, cluster))
        status, text = checks.qimg("run", "stopped", given=reads)
        equal(status, 0, "status")
        values = [line.removeprefix("data ") for line in text.splitlines()]
        for index, value in enumerate(values):
            if not is_old_or_given(index, value):
                raise AssertionError(f"a stop after {stop} writes: guest cluster {index} reads {value}")


def main():
    tests = checks.Checks()
    tests.run("creates in order", creates_in_order)
    tests.run("writes in order", writes_in_order)
    tests.run("clears the autoclear bits by one write", clears_the_autoclear_bits_by_one_write)
    tests.run("makes refblocks on the way", makes_refblocks_on_the_way)
    tests.run("names a refblock before its clusters are used", names_a_refblock_before_its_clusters_are_used)
    tests.run("a shared cluster is copied", a_shared_cluster_is_copied)
    tests.run("zeros are copied", zeros_are_copied)
    tests.run("a former table's cluster takes a new table", a_former_tables_cluster_takes_a_new_table)
    tests.run("a longer L1 table is named after its bytes", a_longer_l1_table_is_named_after_its_bytes)
    tests.run("an L1 table grows twice", an_l1_table_grows_twice)
    for width in (1, 8, 16, 64):
        tests.run(f"stops, width {width}", stops_leave_leaks_at_worst, 65536, 512, width,
                  b"".join(b"fill %d 512 %02x\n" % (at * 512, at + 1) for at in range(0, 128, 9)) + b"flush\nfill 0 512 99\nflush\n",
                  lambda index, value: value == "00" or (index % 9 == 0 and value in {f"{index + 1:02x}"} | ({"99"} if index == 0 else set())))
    tests.done()


if __name__ == "__main__":
    main()
