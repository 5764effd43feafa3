#!/usr/bin/env -S python3 -B
"""Creating images in each mode on real files: what they show, what stands for their clusters, the place that they take, and what a stop or a full file leaves. QEMU's own images of the like modes stand beside them."""

import json
import os
import resource
import subprocess
import sys

sys.path.insert(0, os.path.join(os.path.dirname(os.path.abspath(__file__)), "interop"))

from qemu import qemu_io, read_disk, seen_by_qemu, tool  # noqa: E402
import checks  # noqa: E402
from checks import USAGE, Checks, Report, answers, consistent, contents, create, equal, number_at, qimg, run  # noqa: E402
from resizing import MODES, TAKING, changes_by, leave, limited  # noqa: E402

# What QEMU calls the like modes.
OF_QEMU = {"none": "off", "format": "metadata", "full": "falloc", "write": "full"}
CLUSTERS = [512, 4096, 65536]
WIDTHS = [1, 16, 64]
# Larger disks are read by QEMU alone.
READ = 4194304


def sizes(cluster):
    """No byte, one, few, whole clusters, an end within a cluster, and more than one L2 table covers."""
    table = cluster // 8 * cluster
    return [0, 1, 1000, 3 * cluster, 5 * cluster + 77, table + 2 * cluster, table + cluster + 700]


def covering(size, cluster):
    """The clusters that a disk of this size has."""
    return -(-size // cluster)


# What they show

def shows_zeros(size):
    """Both read zeros alone, and QEMU finds neither an error nor a leak."""
    said = tool("qemu-img", "check", "-f", "qcow2", "disk")
    if "No errors were found" not in said or "leak" in said.lower():
        raise AssertionError(f"qemu-img check: {said}")
    consistent("disk", 0)
    answers("disk", [("size", f"size {size}")])
    if size <= READ:
        equal(read_disk("disk", size), bytes(size), "the disk that qimg reads")
    if size >= 512:
        with open("zeros", "wb") as it:
            it.truncate(seen_by_qemu(size))
        equal(tool("qemu-img", "compare", "-f", "qcow2", "-F", "raw", "disk", "zeros").strip(), "Images are identical.", "qemu-img compare")
        qemu_io("disk", f"read -P 0 0 {seen_by_qemu(min(size, READ))}")


def mapped(image, fields):
    """The runs of QEMU's map that are alike in these fields: where each begins, how long it is, and what they are."""
    runs = []
    for it in json.loads(tool("qemu-img", "map", "--output=json", "-f", "qcow2", image)):
        kind = tuple(it[field] for field in fields)
        if runs and runs[-1][2] == kind:
            runs[-1][1] += it["length"]
        else:
            runs.append([it["start"], it["length"], kind])
    return runs


def is_mapped_as_by_qemu(size, cluster, width, mode):
    """QEMU maps the image as it maps its own one of the like mode. Where no place is taken for zeros, whether the file has a hole there is left open."""
    if mode == "zero":
        wanted = [[0, seen_by_qemu(size), (False, True, False)]] if size >= 512 else []
        found = [[start, length, kind] for start, length, kind in mapped("disk", ("data", "zero")) if length]
        equal([[start, length, (*kind, any("offset" in it for it in json.loads(tool("qemu-img", "map", "--output=json", "-f", "qcow2", "disk"))))] for start, length, kind in found], wanted, "the map of zeros")
        return
    fields = ("data", "present") if mode == "format" else ("data", "zero", "present")
    options = f"cluster_size={cluster},refcount_bits={width},preallocation={OF_QEMU[mode]}"
    tool("qemu-img", "create", "-q", "-f", "qcow2", "-o", options, "by_qemu", str(seen_by_qemu(size)))
    equal(mapped("disk", fields), mapped("by_qemu", fields), "the map")


def is_mapped_as_asked(size, cluster, mode):
    """What qimg maps: no clusters, zeros without clusters, or clusters of their own."""
    said = run("disk", *(f"map {at} {size - at}" for at in range(0, size, max(cluster, size // 40 // cluster * cluster))))
    for line in said:
        words = line.split()
        if mode == "none":
            equal((words[0], words[-1]), ("zero", "implicit"), line)
        elif mode == "zero":
            equal((words[0], words[-1]), ("zero", "explicit"), line)
        else:
            equal((words[0], words[1], words[-1]), ("raw", "image", "rw"), line)


def takes_place(size, cluster, width, mode):
    """The file is as long as its clusters, and its place is taken where the mode asks for that. With wide counts a refblock comes to lie behind the first clusters, and zeros before the file's end are written."""
    told = os.stat("disk")
    clusters = covering(size, cluster)
    least = clusters * cluster if mode in TAKING else 0
    equal(told.st_size >= least, True, f"the length {told.st_size} for {clusters} clusters")
    taken = told.st_blocks * 512
    if mode in ("full", "write"):
        equal(taken >= least, True, f"the place {taken} that {clusters} clusters take")
    elif cluster >= 4096 and size >= 1048576 and (mode != "format" or width < 64):
        equal(taken < size // 2, True, f"the place {taken} that {clusters} clusters don't take")
    if mode in ("none", "zero"):
        equal(told.st_size <= 16 * cluster + size // 16 + 65536, True, f"the length {told.st_size} of a file without clusters")


def an_image_of_a_mode(size, cluster, width, mode):
    create("disk", size, cluster, width, mode)
    shows_zeros(size)
    is_mapped_as_by_qemu(size, cluster, width, mode)
    is_mapped_as_asked(size, cluster, mode)
    takes_place(size, cluster, width, mode)


def an_image_is_written_to(cluster, width, mode):
    """Data that are written to its clusters are read back by both, and no cluster leaks."""
    size = 40 * cluster + 512
    create("disk", size, cluster, width, mode)
    before = os.stat("disk").st_size
    answers("disk", [(f"fill {cluster - 100} 200 5a", "ok"), (f"fill {size - 512} 512 a5", "ok"), ("flush", "ok")])
    qemu_io("disk", f"read -P 0x5a {cluster - 100} 200", f"read -P 0xa5 {size - 512} 512", f"read -P 0 {2 * cluster} {30 * cluster}", f"write -P 0x11 {3 * cluster} {2 * cluster}")
    equal(run("disk", f"read {3 * cluster} 2", f"read {5 * cluster} 2"), ["data 1111", "data 0000"], "what QEMU wrote")
    consistent("disk", 0)
    if mode in TAKING:
        equal(os.stat("disk").st_size, before, "the length of the file")


def a_mode_is_like_a_growing(size, cluster, width, mode):
    """An image of no bytes that grows in a mode has the same bytes."""
    create("made", size, cluster, width, mode)
    create("disk", 0, cluster, width)
    answers("disk", [(f"grow {size} {mode}", "ok"), ("flush", "ok")])
    equal(contents("disk") == contents("made"), True, "the bytes")


def zeros_have_no_clusters():
    create("disk", 65536, 512, 16, "zero")
    answers("disk", [("map 0 65536", "zero 32768 explicit"), ("fill 0 512 11", "ok"), ("map 0 512", "raw image 3072 512 rw"), ("map 32768 32768", "zero 32768 explicit")])
    consistent("disk", 0)


def clusters_follow_the_tables():
    for mode in TAKING:
        create("disk", 1024, 512, 16, mode)
        answers("disk", [("map 0 1024", "raw image 2560 1024 rw"), ("read 0 1024", "data " + "00" * 1024)])
        data = contents("disk")
        equal([number_at(data, 1024 + 2 * cluster, 2) for cluster in range(8)], [1, 1, 1, 1, 1, 1, 1, 0], mode)


def an_older_image_is_dropped(mode):
    """What stood in the file is gone."""
    create("disk", 200000, 4096, 16, "write")
    run("disk", "fill 0 200000 77", "flush")
    create("disk", 100000, 512, 1, mode)
    shows_zeros(100000)


# Stops

def a_stop(size, stop):
    """What stands is nothing that is taken for an image; or it is consistent, has no bytes or all of them, and shows zeros. Answers its size, or None."""
    if contents("stopped")[:4] != b"QFI\xfb":
        equal((Report("stopped").is_refused(), qimg("run", "stopped", given=b"size\n")[0]), (True, 1), f"what opens after {stop} changes")
        return None
    consistent("stopped")
    told = int(run("stopped", "size")[0].removeprefix("size "))
    equal(told in (0, size), True, f"the size {told} after {stop} changes")
    equal(read_disk("stopped", told), bytes(told), f"the disk after {stop} changes")
    if told == 0 and size > 0:
        # The bytes behind its end are zeros too.
        equal(run("stopped", f"grow {size} none", f"read 0 {min(size, 1000000)}")[1], "data " + "00" * min(size, 1000000), f"the disk that is grown after {stop} changes")
    return told


def stops_of_creating(size, cluster, width, mode):
    """No image, then one of no bytes, then one of all. The size is written once."""
    said, made = changes_by("create", "disk", str(size), str(cluster), str(width), mode)
    equal(said, ["created"], "the answer")
    told = []
    for stop in range(len(made) + 1):
        leave(b"", made[:stop])
        told.append(a_stop(size, stop))
    order = [None, 0, size]
    equal([told[0], told[-1]], [None, size], "the first and the last")
    equal(told, sorted(told, key=order.index), "what stands after each change")
    leave(b"", made)
    equal(contents("stopped") == contents("disk"), True, "the file that all changes leave")


def a_file_has_no_room(size, cluster, mode):
    """At each length to which a file that is there may grow, a refused creating leaves no image, or one of no bytes or all of them, which are zeros."""
    refused = 0
    for room in range(0, 300 * cluster, cluster):
        for file in ("disk", "stopped"):
            if os.path.exists(file):
                os.remove(file)
        with open("disk", "wb"):
            pass
        done = subprocess.run([checks.QIMG, "create", "disk", str(size), str(cluster), "16", mode], stdout=subprocess.PIPE, stderr=subprocess.DEVNULL, preexec_fn=limited(room), restore_signals=False, timeout=600)
        if done.returncode == 0:
            equal(done.stdout, b"created\n", f"what is told with room for {room} bytes")
            equal(refused > 0, True, "whether any was refused")
            shows_zeros(size)
            return
        equal((done.returncode, done.stdout), (1, b"refused 15 storage\n"), f"what is told with room for {room} bytes")
        refused += 1
        os.rename("disk", "stopped")
        a_stop(size, f"the {room} bytes that the file had room for, and all")
    raise AssertionError("it was never done")


# Refusals

def a_word_is_no_mode(word):
    """The words are read before the file is touched."""
    equal(qimg("create", "disk", "65536", "512", "16", word), (2, f"{USAGE}\n"), word)
    equal(os.path.exists("disk"), False, "whether a file was made")
    create("disk", 1024, 512)
    before = contents("disk")
    equal(qimg("create", "disk", "65536", "512", "16", word), (2, f"{USAGE}\n"), word)
    equal(contents("disk") == before, True, "the bytes")


def a_layout_is_refused(mode):
    for cluster, width in ((513, 16), (256, 16), (4194304, 16), (512, 128), (512, 3), (512, 0)):
        create("disk", 1024, 512)
        before = contents("disk")
        equal(qimg("create", "disk", "65536", str(cluster), str(width), mode), (1, "refused 5 invalid option\n"), f"{cluster} {width}")
        equal(contents("disk") == before or contents("disk") == b"", True, "the bytes")


def a_size_past_the_limit_is_refused(mode):
    """What was there stays."""
    for size in (18446744073709551615, 18446744073709551104, 137438953473):
        create("disk", 1024, 512)
        before = contents("disk")
        equal(qimg("create", "disk", str(size), "512", "16", mode), (1, "refused 13 limit\n"), str(size))
        equal(contents("disk") == before, True, "the bytes")


def a_great_disk_of_zeros():
    """One of 1 GiB has tables alone."""
    size = 1 << 30
    create("disk", size, 65536, 16, "zero")
    answers("disk", [("size", f"size {size}"), (f"map {size - 65536} 65536", "zero 65536 explicit"), (f"read {size - 2} 2", "data 0000")])
    consistent("disk", 0)
    equal(os.stat("disk").st_blocks * 512 < 1 << 20, True, "the place that it takes")


BAD_WORDS = ["", "None", "ZERO", "zeros", "format ", " full", "falloc", "metadata", "off", "writes", "0", "none none"]


def main():
    every = Checks()
    for check in (zeros_have_no_clusters, clusters_follow_the_tables, a_great_disk_of_zeros):
        every.run(check.__name__, check)
    for mode in MODES:
        for cluster in CLUSTERS:
            for width in WIDTHS:
                for size in sizes(cluster):
                    every.run(f"an image: size {size}, cluster {cluster}, width {width}, {mode}", an_image_of_a_mode, size, cluster, width, mode)
                every.run(f"written to: cluster {cluster}, width {width}, {mode}", an_image_is_written_to, cluster, width, mode)
        for cluster, width in ((512, 1), (512, 64), (4096, 16)):
            for size in sizes(cluster):
                every.run(f"like a growing: size {size}, cluster {cluster}, width {width}, {mode}", a_mode_is_like_a_growing, size, cluster, width, mode)
        for size, cluster, width in ((0, 512, 16), (1000, 512, 16), (40000, 512, 16), (40000, 512, 1), (70000, 512, 64), (300000, 4096, 16)):
            every.run(f"stops of creating: size {size}, cluster {cluster}, width {width}, {mode}", stops_of_creating, size, cluster, width, mode)
        for size, cluster in ((40000, 512), (100000, 4096)):
            every.run(f"a file has no room: size {size}, cluster {cluster}, {mode}", a_file_has_no_room, size, cluster, mode)
        every.run(f"an older image: {mode}", an_older_image_is_dropped, mode)
        every.run(f"a refused layout: {mode}", a_layout_is_refused, mode)
        every.run(f"a size past the limit: {mode}", a_size_past_the_limit_is_refused, mode)
    for word in BAD_WORDS:
        every.run(f"a word that is no mode: {word!r}", a_word_is_no_mode, word)
    every.done()


if __name__ == "__main__":
    main()
