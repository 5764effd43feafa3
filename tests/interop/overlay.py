#!/usr/bin/env -S python3 -B
"""Images that QEMU made over raw disks, of both versions: a program over the library opens each with the disk below it handed in, reads the whole disk, writes and reads again. QEMU reads the same
before and after, and finds no error. The program runs from its source, overlay.rs, with each index and sum checked."""

import os
import random
import shutil
import subprocess
import sys
import tempfile

sys.path.insert(0, os.path.dirname(os.path.dirname(os.path.abspath(__file__))))
import checks
from checks import ROOT, Checks, contents, equal
from qemu import tool

SIZE = 32768
# what the program writes: at an offset, so many bytes of a value
WRITES = [(700, 10, 0x66), (12188, 9000, 0x77), (30000, 1, 0x88), (32767, 1, 0x99)]
# the options of each image, the bytes of the disk below it, and what QEMU wrote into it
IMAGES = [
    ("compat=1.1,cluster_size=4096", SIZE, ["write -P 1 5000 100"]),
    ("compat=0.10,cluster_size=512", 20000, ["write -P 2 512 1024", "write -P 3 31000 100"]),
    ("compat=1.1,cluster_size=16384,lazy_refcounts=on", 10001, []),
    ("compat=1.1,cluster_size=512,refcount_bits=64", SIZE, ["write -P 4 10240 4096", "write -z 12288 1024", "write -z 20480 512"]),
]


def made(number, options, size, commands):
    """An image over a raw disk, as QEMU makes it."""
    overlay, below = f"overlay{number}", f"below{number}"
    with open(below, "wb") as it:
        it.write(random.Random(number).randbytes(size))
    tool("qemu-img", "create", "-q", "-f", "qcow2", "-o", f"{options},backing_file={below},backing_fmt=raw", overlay, str(SIZE))
    for command in commands:
        tool("qemu-io", "-f", "qcow2", "-c", command, overlay)
    return overlay, below


def program(room):
    """A crate of the program among copies of the repository's own."""
    shutil.copytree(f"{ROOT}/crates", f"{room}/crates", ignore=shutil.ignore_patterns("out", "must-fail", "tests"))
    shutil.copy(f"{ROOT}/HANDLES", room)
    os.makedirs(f"{room}/crates/overlay/src")
    shutil.copy(f"{ROOT}/tests/interop/overlay.rs", f"{room}/crates/overlay/src/main.rt")
    with open(f"{ROOT}/crates.txt", encoding="utf-8") as it, open(f"{room}/crates.txt", "w", encoding="utf-8") as to:
        to.write(it.read() + "overlay: guide file_storage qcow2_session qcow2_image image_access\n")
    return f"{room}/crates/overlay"


def as_qemu_reads(overlay):
    """The disk of an image, with the one below it."""
    tool("qemu-img", "convert", "-f", "qcow2", "-O", "raw", overlay, "read")
    return contents("read")


def written(disk):
    """A disk with the bytes that the program writes."""
    disk = bytearray(disk)
    for offset, count, value in WRITES:
        disk[offset:offset + count] = bytes([value]) * count
    return bytes(disk)


def is_as_qemu_has_it(number, lines):
    """What the program told of an image, beside what QEMU reads in it before, and in the bytes that it left."""
    before, after, image = (bytes.fromhex(line) for line in lines)
    equal(before, as_qemu_reads(f"overlay{number}"), "the disk before")
    equal(after, written(before), "the disk after")
    with open("left", "wb") as it:
        it.write(image)
    tool("qemu-img", "check", "-q", "-f", "qcow2", "left")
    equal(as_qemu_reads("left"), after, "the disk that QEMU reads after")
    checks.consistent("left", 0)


def main():
    every = Checks()
    with tempfile.TemporaryDirectory(prefix="qimg-") as room:
        crate, place = program(room), f"{room}/files"
        os.mkdir(place)
        here = os.getcwd()
        os.chdir(place)
        files = [file for number, image in enumerate(IMAGES) for file in made(number, *image)]
        words = [word for file in files for word in ("--data", f"{file}={place}/{file}")]
        done = subprocess.run(["rt", "try", "--seconds", "300", *words], cwd=crate, stdin=subprocess.DEVNULL, stdout=subprocess.PIPE, stderr=subprocess.PIPE, text=True)
        os.chdir(here)
        lines = done.stdout.split()
        equal((done.returncode, len(lines)), (0, 3 * len(IMAGES)), f"the program, which told {done.stderr[-400:]}")
        for number, (options, _, _) in enumerate(IMAGES):
            every.run(options, lambda: (os.chdir(place), is_as_qemu_has_it(number, lines[3 * number:3 * number + 3])))
    every.done()


main()
