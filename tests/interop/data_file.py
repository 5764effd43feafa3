#!/usr/bin/env -S python3 -B
"""Images whose guests' data are in a data file, of QEMU and of a program over the library: each side reads, writes and checks what the other one made. The program runs from its source,
data_file.rs, with each index and sum checked. It works on copies of the files, and prints what it leaves in them."""

import json
import os
import random
import shutil
import subprocess
import sys
import tempfile

sys.path.insert(0, os.path.dirname(os.path.dirname(os.path.abspath(__file__))))
from checks import ROOT, Checks, contents, equal
from qemu import qemu_io, tool

SIZE = 70144
# what the program writes first, behind the clearing, and behind the resizing: at an offset, so many bytes of a value
WRITES = [(0, 3, 0x11), (700, 10, 0x66), (12188, 9000, 0x77), (65000, 1000, 0x88), (70143, 1, 0x99)]
SECOND_WRITES = [(5000, 100, 0x22), (17000, 50, 0x23)]
LAST_WRITES = [(80000, 384, 0x31), (100000, 5000, 0x32)]
# the ranges that the program clears: an offset, a length, and whether the disk below shows there then
CLEARED = [(4000, 9000, False), (16384, 8192, False), (30000, 10000, True)]
LAST_SIZE = 105472
BELOW = 40000
# what QEMU writes into an image at first, and into what the program left
FIRST = ["write -P 1 5000 100", "write -P 2 16384 30000", "write -z 32768 4096", "write -P 3 69632 512"]
FURTHER = ["write -P 7 300 2000", "write -z 20480 8192", "discard 65536 4096", "write -P 8 104960 512"]
FILLED = [f"write -P 9 0 {SIZE}", "discard 8192 16384"]
# the cluster size of each image that QEMU makes, its other options, whether there is a disk below it, and what QEMU writes into it
IMAGES = [
    (4096, "", False, FIRST),
    (512, "", False, FIRST),
    (65536, "lazy_refcounts=on", False, FIRST),
    (4096, "data_file_raw=on", False, FIRST),
    (512, "data_file_raw=on,refcount_bits=64", False, FILLED),
    (65536, "data_file_raw=on", False, []),
    (512, "", True, FIRST),
    (2097152, "refcount_bits=1", False, FILLED),
    (4096, "preallocation=metadata", False, FIRST),
]
# the cluster size of each image that the program makes
CREATED = [512, 4096, 65536, 4096]
LINES = 7


def some_bytes(numbers):
    """Bytes of the disk below, in runs of equal ones."""
    return b"".join(bytes([numbers.randint(1, 255)]) * numbers.randint(1, 1000) for _ in range(BELOW // 500))


def made(number, cluster, options, is_over, commands):
    """An image with a data file, as QEMU makes it, and the names of its files."""
    image, data, below = f"image{number}", f"data{number}", f"below{number}"
    options = f"compat=1.1,cluster_size={cluster},data_file={data}" + (f",{options}" if options else "")
    if is_over:
        with open(below, "wb") as it:
            it.write(some_bytes(random.Random(number)))
        options += f",backing_file={below},backing_fmt=raw"
    tool("qemu-img", "create", "-q", "-f", "qcow2", "-o", options, image, str(SIZE))
    if commands:
        qemu_io(image, *commands)
    return [image, data] + ([below] if is_over else [])


def program(room):
    """A crate of the program among copies of the repository's own."""
    shutil.copytree(f"{ROOT}/crates", f"{room}/crates", ignore=shutil.ignore_patterns("out", "must-fail", "tests"))
    shutil.copy(f"{ROOT}/HANDLES", room)
    os.makedirs(f"{room}/crates/data_file/src")
    shutil.copy(f"{ROOT}/tests/interop/data_file.rs", f"{room}/crates/data_file/src/main.rt")
    with open(f"{ROOT}/crates.txt", encoding="utf-8") as it, open(f"{room}/crates.txt", "w", encoding="utf-8") as to:
        to.write(it.read() + "data_file: file_storage qcow2_session qcow2_image image_access\n")
    return f"{room}/crates/data_file"


def ran(crate, place, files, count, *words):
    """The lines of bytes that the program prints, of which there are so many."""
    given = [word for file in files for word in ("--data", f"{file}={place}/{file}")]
    done = subprocess.run(["rt", "try", "--seconds", "300", *given, *words], cwd=crate, stdin=subprocess.DEVNULL, stdout=subprocess.PIPE, stderr=subprocess.PIPE, text=True)
    lines = done.stdout.split("\n")[:-1]
    told = lines[-1][:60] if lines else ""
    equal((done.returncode, len(lines)), (0, count), f"the program, which told {told} and {done.stderr[-400:]}")
    return [b"".join(bytes([int(value, 16)]) * int(length) for length, value in (run.split("x") for run in line.split())) for line in lines]


def as_qemu_reads(image):
    """The disk of an image, with its data file and the disk below it."""
    tool("qemu-img", "convert", "-f", "qcow2", "-O", "raw", image, "read")
    return contents("read")


def left(number, image, data):
    """Puts what the program left in the place of the files that it was given."""
    for file, bytes_ in ((f"image{number}", image), (f"data{number}", data)):
        with open(file, "wb") as it:
            it.write(bytes_)


def is_sound(image, disk, is_raw=False):
    """QEMU finds no error and no leak in an image, reads the disk, and names the data file."""
    check = tool("qemu-img", "check", "-f", "qcow2", image)
    if "No errors were found" not in check:
        raise AssertionError(f"qemu-img check: {check}")
    equal(as_qemu_reads(image), disk, "the disk that QEMU reads")
    told = json.loads(tool("qemu-img", "info", "--output=json", "-f", "qcow2", image))["format-specific"]["data"]
    equal((told["data-file"], told["data-file-raw"]), (image.replace("image", "data"), is_raw), "the data file that QEMU names")


def written(disk, writes):
    """A disk with the bytes that the program writes."""
    disk = bytearray(disk)
    for offset, count, value in writes:
        disk[offset:offset + count] = bytes([value]) * count
    return bytes(disk)


def changed(disk, cluster, below):
    """A disk after the program cleared, resized and wrote it."""
    disk = bytearray(disk)
    for offset, length, shows_below in CLEARED:
        start, end = -(-offset // cluster) * cluster, (offset + length) // cluster * cluster
        if start < end:
            disk[start:end] = (below if shows_below else b"")[start:end].ljust(end - start, b"\0")
    disk = written(disk, SECOND_WRITES).ljust(LAST_SIZE, b"\0")
    return written(disk, LAST_WRITES)


def is_as_it_must_be(number, cluster, before, below, is_raw, lines):
    """What the program told of an image, beside what QEMU reads in it, before and in the bytes that it left."""
    first, second, image, data, third, last_image, last_data = lines
    equal(first, before, "the disk before")
    equal(second, written(before, WRITES), "the disk after the writes")
    left(number, image, data)
    is_sound(f"image{number}", second)
    if is_raw:
        equal(data[:SIZE], second, "the raw disk")
    equal(third, changed(second, cluster, below), "the disk after all changes")
    left(number, last_image, last_data)
    is_sound(f"image{number}", third)


def of_qemu(number, lines):
    """An image that QEMU made."""
    cluster, options, is_over, _ = IMAGES[number]
    before = as_qemu_reads(f"image{number}")
    is_raw = "raw" in options
    is_sound(f"image{number}", before, is_raw)
    if is_raw:
        # the raw disk may end with a whole cluster
        equal(contents(f"data{number}")[:SIZE], before, "the raw disk before")
    below = contents(f"below{number}") if is_over else b""
    is_as_it_must_be(number, cluster, before, below, is_raw, lines)


def of_program(number, lines):
    """An image that the program made."""
    is_as_it_must_be(number, CREATED[number - len(IMAGES)], bytes(SIZE), b"", False, lines)


def further(number):
    """QEMU writes into what the program left, and finds it sound: the disk then."""
    image = f"image{number}"
    qemu_io(image, "read -P 0x31 80000 384", *FURTHER)
    disk = as_qemu_reads(image)
    equal(len(disk), LAST_SIZE, "the size")
    is_sound(image, disk)
    return disk


def main():
    every = Checks()
    with tempfile.TemporaryDirectory(prefix="qimg-") as room:
        crate, place = program(room), f"{room}/files"
        os.mkdir(place)
        here = os.getcwd()
        os.chdir(place)
        files = [file for number, image in enumerate(IMAGES) for file in made(number, *image)]
        count = len(IMAGES) + len(CREATED)
        lines = ran(crate, place, files, LINES * count)
        disks = {}
        for number in range(count):
            mine = lines[LINES * number:LINES * number + LINES]
            name = f"QEMU's {IMAGES[number][:3]}" if number < len(IMAGES) else f"the program's {CREATED[number - len(IMAGES)]}"
            judge = of_qemu if number < len(IMAGES) else of_program
            every.run(name, lambda: (os.chdir(place), judge(number, mine)))
            every.run(f"QEMU goes on with {name}", lambda: (os.chdir(place), disks.update({number: further(number)})))
        files += [f"{kind}{number}" for number in range(len(IMAGES), count) for kind in ("image", "data")]
        again = ran(crate, place, files, count, "--", "read")
        for number in range(count):
            every.run(f"what QEMU wrote into image {number}", lambda: equal(again[number], disks.get(number), "the disk that the program reads"))
        os.chdir(here)
    every.done()


main()
