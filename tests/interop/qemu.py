"""QEMU's tools on an image, and the disk that an image must have."""

import json
import os
import random
import re
import subprocess
import sys
from contextlib import contextmanager

sys.path.insert(0, os.path.dirname(os.path.dirname(os.path.abspath(__file__))))

from checks import contents, equal, run  # noqa: E402

CLUSTERS = [512, 4096, 65536, 2097152]
LONGEST_READ = 1048576


def tool(*words):
    """Runs a tool of QEMU, which must succeed, and answers what it printed."""
    done = subprocess.run(words, stdin=subprocess.DEVNULL, stdout=subprocess.PIPE, stderr=subprocess.STDOUT, timeout=600)
    text = done.stdout.decode(errors="replace")
    if done.returncode:
        raise AssertionError(f"{' '.join(words)[:300]} ended with status {done.returncode}: {text[-600:]}")
    return text


def qemu_io(image, *commands):
    words = [word for command in commands for word in ("-c", command)]
    text = tool("qemu-io", "-f", "qcow2", *words, image)
    if re.search(r"failed|error|invalid", text, re.I):
        raise AssertionError(f"qemu-io {commands}: {text}")
    return text


@contextmanager
def opened_by_qemu(file):
    """QEMU has a file open for writing as long as the block runs."""
    opened = subprocess.Popen(["qemu-io", file], stdin=subprocess.PIPE, stdout=subprocess.PIPE)
    try:
        opened.stdin.write(b"read 0 512\n")
        opened.stdin.flush()
        opened.stdout.readline()
        yield
    finally:
        opened.communicate(b"quit\n", timeout=60)


def seen_by_qemu(size):
    """QEMU takes whole sectors of 512 bytes alone: the rest of a disk is missing there."""
    return size // 512 * 512


class Disk:
    """The bytes that a disk must have. Each change answers the line that makes it with qimg, or the command with qemu-io."""

    def __init__(self, size, seed):
        self.bytes = bytearray(size)
        self.random = random.Random(seed)

    def place(self, longest):
        """A random place on the disk: often at a boundary of 512 bytes, or small."""
        length = self.random.choice([1, 512, longest, self.random.randint(1, longest)])
        length = min(length, len(self.bytes))
        offset = self.random.randint(0, len(self.bytes) - length)
        if self.random.random() < 0.5:
            offset -= offset % 512
        return offset, length

    def fill(self, offset, length):
        byte = self.random.randint(0, 255)
        self.bytes[offset:offset + length] = bytes([byte]) * length
        return byte

    def fill_line(self, longest):
        offset, length = self.place(longest)
        return f"fill {offset} {length} {self.fill(offset, length):02x}"

    def write_line(self, longest):
        offset, length = self.place(longest)
        some = self.random.randbytes(length)
        self.bytes[offset:offset + length] = some
        return f"write {offset} {some.hex()}"

    def lines(self, count, longest):
        """So many lines that write, and a flush."""
        kinds = [lambda: self.fill_line(longest), lambda: self.write_line(min(longest, 3000))]
        return [self.random.choice(kinds)() for _ in range(count)] + ["flush"]

    def commands(self, count, longest):
        """So many commands of qemu-io that write."""
        made = []
        for _ in range(count):
            offset, length = self.place(longest)
            length = min(length, max(seen_by_qemu(len(self.bytes)) - offset, 0))
            if length:
                made.append(f"write -P {self.fill(offset, length)} {offset} {length}")
        return made


def write_lines(image, lines):
    equal(run(image, *lines), ["ok"] * len(lines), "the answers")


def read_disk(image, size):
    """The bytes of an image's disk, as qimg reads them."""
    starts = range(0, size, LONGEST_READ)
    printed = run(image, *(f"read {at} {min(LONGEST_READ, size - at)}" for at in starts))
    return b"".join(bytes.fromhex(line.removeprefix("data ")) for line in printed)


def mapped_by_qimg(image, size, cluster):
    """The host offset of each cluster's first byte, or None where it reads as zeros, as qimg's `map` has it."""
    offsets = []
    printed = run(image, *(f"map {at} {cluster}" for at in range(0, size, cluster)))
    for line in printed:
        words = line.split()
        offsets.append(int(words[2]) if words[0] == "raw" else None)
    return offsets


def mapped_by_qemu(image, size, cluster):
    offsets = [None] * -(-size // cluster)
    for run_ in json.loads(tool("qemu-img", "map", "--output=json", "-f", "qcow2", image)):
        if "offset" in run_:
            # a run may begin within a cluster, where the file has a hole before it
            first = run_["start"] - run_["start"] % cluster
            for at in range(first, run_["start"] + run_["length"], cluster):
                offsets[at // cluster] = run_["offset"] + at - run_["start"]
    return offsets


def same_disk(image, disk):
    """qimg and QEMU read the bytes of the disk, and QEMU finds no error and no leak."""
    size = len(disk.bytes)
    equal(read_disk(image, size), bytes(disk.bytes), "the disk that qimg reads")
    check = tool("qemu-img", "check", "-f", "qcow2", image)
    if "No errors were found" not in check:
        raise AssertionError(f"qemu-img check: {check}")
    tool("qemu-img", "convert", "-f", "qcow2", "-O", "raw", image, "raw")
    equal(contents("raw"), bytes(disk.bytes[:seen_by_qemu(size)]), "the disk that QEMU reads")
    if size >= 512:
        compare = tool("qemu-img", "compare", "-f", "qcow2", "-F", "raw", image, "raw")
        equal(compare.strip(), "Images are identical.", "qemu-img compare")
