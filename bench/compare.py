#!/usr/bin/env python3
"""qimg beside QEMU's tools on the same work, as a table of ratios, ours to theirs: of processor time, and of peak memory behind it.

Both run in turn, each on a new copy of the same file, and the least of some runs counts: that is what a busy computer changes least. qemu-io runs with the cache mode `unsafe`, so a flush hands
the tables to the operating system, as qimg's does, and doesn't wait for the device. The rows under "alone" are qimg beside itself: what more tables in memory, or a larger image, cost it.

Words choose rows by their first word (`compare.py check export`), and numbers choose sizes of clusters (`compare.py check 4096`). With --least N a figure is the least of N runs."""

import argparse
import os
import random
import resource
import shutil
import socket
import subprocess
import sys
import tempfile
import time
from dataclasses import dataclass, field

ROOT = os.path.dirname(os.path.dirname(os.path.abspath(__file__)))
QIMG = os.environ.get("QIMG", os.path.join(ROOT, "build", "qimg"))
QIMG_NBD = os.environ.get("QIMG_NBD", os.path.join(ROOT, "build", "qimg-nbd"))
MIB = 1048576
SIZES = (65536, 4096, 512)
LEAST = 3
PEAK = ["/usr/bin/time", "-q", "-f", "%M", "-o", "memory"]


@dataclass
class Side:
    """A program's words, the lines that it reads, the file that it makes, or of which file it changes a copy under that name, and the statuses that are right."""

    words: list
    lines: list = field(default_factory=list)
    made: str = ""
    of: str = ""
    statuses: tuple = (0,)

    def run(self):
        """Seconds of a processor, seconds by the clock, and peak memory in KiB."""
        if self.made and os.path.exists(self.made):
            os.remove(self.made)
        if self.of:
            shutil.copyfile(self.of, self.made)
        with open("lines", "w", encoding="utf-8") as it:
            it.writelines(f"{line}\n" for line in self.lines)
        with open("lines", "rb") as given:
            before, start = resource.getrusage(resource.RUSAGE_CHILDREN), time.monotonic()
            done = subprocess.run([*PEAK, *self.words], stdin=given, stdout=subprocess.DEVNULL, stderr=subprocess.DEVNULL)
            seconds, after = time.monotonic() - start, resource.getrusage(resource.RUSAGE_CHILDREN)
        if done.returncode not in self.statuses:
            raise AssertionError(f"{' '.join(self.words)} ended with status {done.returncode}")
        with open("memory", encoding="utf-8") as it:
            return after.ru_utime + after.ru_stime - before.ru_utime - before.ru_stime, seconds, int(it.read())


@dataclass
class Server:
    """A block server of a copy of a file on the socket `s`, the words of which begin with those given, and how qemu-img works on it. Only the server's own figures count."""

    words: list
    work: list
    of: str
    takes_socket: bool = False

    def run(self):
        """As of a side: seconds of a processor, seconds by the clock, and peak memory in KiB."""
        shutil.copyfile(self.of, "disk")
        start = time.monotonic()
        server = self.listening() if self.takes_socket else self.accepting()
        subprocess.run(["qemu-img", "bench", "-f", "raw", *map(str, self.work), "nbd+unix:///?socket=s"], check=True, stdout=subprocess.DEVNULL)
        _, status, used = os.wait4(server, 0)
        if status != 0:
            raise AssertionError(f"{' '.join(self.words)} ended with status {status}")
        with open("memory", encoding="utf-8") as it:
            return used.ru_utime + used.ru_stime, time.monotonic() - start, int(it.read())

    def accepting(self):
        """Starts a server that speaks on its standard input and output, once a client has come, as socat and inetd do."""
        listener = socket.socket(socket.AF_UNIX)
        listener.bind("s")
        listener.listen()
        child = os.fork()
        if child == 0:
            taken, _ = listener.accept()
            os.unlink("s")
            os.dup2(taken.fileno(), 0)
            os.dup2(taken.fileno(), 1)
            os.execvp(PEAK[0], [*PEAK, *self.words])
        listener.close()
        return child

    def listening(self):
        """Starts a server that makes the socket itself."""
        server = subprocess.Popen([*PEAK, *self.words]).pid
        while not os.path.exists("s"):
            time.sleep(0.001)
        return server


def served(cluster, *work):
    """The same requests of qemu-img to qimg-nbd and to qemu-nbd, over an image of 256 MiB of data."""
    image = full(cluster, 256 * MIB)
    return [Server([QIMG_NBD, "disk"], work, image), Server(["qemu-nbd", "-f", "qcow2", "--cache=unsafe", "-k", os.path.abspath("s"), "disk"], work, image, takes_socket=True)]


def random_requests(cluster, *work):
    """Requests of 4 KiB, each 1,052,672 bytes behind the one before, and around."""
    return served(cluster, "-c", 40000, "-d", 1, "-s", 4096, "-S", MIB + 4096, *work)


def qimg(*words, **more):
    return Side([QIMG, *map(str, words)], **more)


def qemu_img(*words, **more):
    return Side(["qemu-img", *map(str, words)], **more)


def scripts(own, other, of):
    """Lines for qimg run and for qemu-io, each on a copy of an image."""
    return qimg("run", "disk", lines=own, made="disk", of=of), Side(["qemu-io", "-f", "qcow2", "-t", "unsafe", "by_qemu"], lines=other, made="by_qemu", of=of)


def amount(cluster, large, small):
    """So many bytes, and fewer in the smallest clusters, where QEMU takes long."""
    return small if cluster == 512 else large


def empty(cluster, size):
    """An image without data."""
    qimg("create", "image", size, cluster, 16, "none").run()
    return "image"


def full(cluster, size):
    """An image of random bytes, and the raw disk that it was made of."""
    chosen = random.Random(size)
    with open("raw", "wb") as it:
        for _ in range(size // MIB):
            it.write(chosen.randbytes(MIB))
    qimg("import", "raw", "image", cluster, 16).run()
    return "image"


def random_places(count, size, step=4096):
    chosen = random.Random(count)
    return [chosen.randrange(size // step) * step for _ in range(count)]


def writes(cluster, flush_each):
    places = random_places(1000 if flush_each else 4000, 1024 * MIB)
    own, other = [], []
    for number, at in enumerate(places):
        own.append(f"fill {at} 4096 {number % 255 + 1:02x}")
        other.append(f"write -q -P {number % 255 + 1} {at} 4096")
        if flush_each:
            own.append("flush")
            other.append("flush")
    return scripts([*own, "flush"], [*other, "flush"], empty(cluster, 1024 * MIB))


def in_order(cluster):
    size = amount(cluster, 256 * MIB, 64 * MIB)
    own = [f"fill {at} {MIB} {at // MIB % 255 + 1:02x}" for at in range(0, size, MIB)]
    other = [f"write -q -P {at // MIB % 255 + 1} {at} {MIB}" for at in range(0, size, MIB)]
    return scripts([*own, "flush"], [*other, "flush"], empty(cluster, size))


def reads(cluster, count, for_qemu):
    size = amount(cluster, 512 * MIB, 128 * MIB)
    places = random_places(20000, size)
    return scripts([f"read {at} {count}" for at in places], [f"read -q {at} {for_qemu}" for at in places], full(cluster, size))


def cleared(cluster, own, other):
    """A mebibyte at a time, or what an L2 table covers."""
    size, piece = amount(cluster, 512 * MIB, 128 * MIB), min(MIB, cluster // 8 * cluster)
    places = range(0, size, piece)
    return scripts([*(f"{own} {at} {piece}" for at in places), "flush"], [*(f"{other} {at} {piece}" for at in places), "flush"], full(cluster, size))


def check(cluster):
    full(cluster, amount(cluster, 512 * MIB, 128 * MIB))
    return qimg("check", "image"), qemu_img("check", "-f", "qcow2", "image")


def hostile(cluster, width, times):
    """A reftable that names one full refblock many times. Each cluster under it is leaked, and QEMU's check sees the file's own alone."""
    clusters = -(-8 * times // cluster)
    qimg("create", "image", MIB, cluster, width, "none").run()
    with open("image", "r+b") as it:
        it.seek(40)
        it.write(((clusters + 2) * cluster).to_bytes(8, "big") + cluster.to_bytes(8, "big") + clusters.to_bytes(4, "big"))
        it.seek(cluster)
        it.write(((clusters + 1) * cluster).to_bytes(8, "big") * times)
        it.seek((clusters + 1) * cluster)
        it.write(b"\xff" * cluster)
        it.truncate((clusters + 3) * cluster)
    return qimg("check", "image", statuses=(0, 1)), qemu_img("check", "-f", "qcow2", "image", statuses=(0, 1, 2, 3))


def imported(cluster):
    full(cluster, amount(cluster, 256 * MIB, 64 * MIB))
    own = qimg("import", "raw", "disk", cluster, 16, made="disk")
    return own, qemu_img("convert", "-f", "raw", "-O", "qcow2", "-o", f"cluster_size={cluster}", "raw", "by_qemu", made="by_qemu")


def exported(image):
    return qimg("export", image, "back", made="back"), qemu_img("convert", "-f", "qcow2", "-O", "raw", image, "back_by_qemu", made="back_by_qemu")


def created(cluster, mode, way):
    size = amount(cluster, 1024 * MIB, 128 * MIB)
    own = qimg("create", "disk", size, cluster, 16, mode, made="disk")
    return own, qemu_img("create", "-q", "-f", "qcow2", "-o", f"cluster_size={cluster},preallocation={way}", "by_qemu", size, made="by_qemu")


def full_beside_written(cluster):
    size = amount(cluster, 1024 * MIB, 128 * MIB)
    return [qimg("create", "disk", size, cluster, 16, mode, made="disk") for mode in ("full", "write")]


def flushes(cluster):
    """A write and a flush, 40,000 times in one table, with 128 tables in memory and with four: so often that what it takes to load them counts little."""
    covered, image = cluster // 8 * cluster, "tables"
    os.replace(empty(cluster, 128 * covered), image)
    qimg("run", image, lines=[*(f"fill {table * covered} 1 01" for table in range(128)), "flush"]).run()
    each = [line for number in range(40000) for line in (f"fill {number % 64 * cluster} 1 {number % 255 + 1:02x}", "flush")]
    sides = [[f"read {number % tables * covered} 1" for number in range(128)] for tables in (128, 4)]
    return [qimg("run", "disk", lines=[*held, *each], made="disk", of=image) for held in sides]


def larger(cluster):
    """2,000 random writes over an image of 1 GiB and over one of 64 MiB."""
    sides = []
    for name, size in (("large", 1024 * MIB), ("small", 64 * MIB)):
        os.replace(empty(cluster, size), name)
        lines = [f"fill {at} 4096 11" for at in random_places(2000, size)]
        sides.append(qimg("run", "disk", lines=[*lines, "flush"], made="disk", of=name))
    return sides


# Each row's name, the sizes of clusters, and what makes the two sides of one.
ROWS = [
    ("writes of 4 KiB at random places of 1 GiB, one flush", SIZES, lambda cluster: writes(cluster, False)),
    ("writes of 4 KiB, a flush after each", SIZES, lambda cluster: writes(cluster, True)),
    ("order: 1 MiB writes, one after the other", SIZES, in_order),
    ("reads of 4 KiB at random places, 20,000 (ours prints hex)", SIZES, lambda cluster: reads(cluster, 4096, 4096)),
    ("reads of 1 byte (theirs 512)", SIZES, lambda cluster: reads(cluster, 1, 512)),
    ("check of 512 MiB of data (128 MiB at 512)", SIZES, check),
    ("hostile: check of a full refblock named 1,000 times", (512,), lambda cluster: hostile(cluster, 1, 1000)),
    ("zeroing, 1 MiB at a time", SIZES, lambda cluster: cleared(cluster, "zero", "write -q -z")),
    ("discarding, 1 MiB at a time", SIZES, lambda cluster: cleared(cluster, "dback", "discard -q")),
    ("import of random data", SIZES, imported),
    ("export of random data", SIZES, lambda cluster: exported(full(cluster, amount(cluster, 256 * MIB, 64 * MIB)))),
    ("thin: export of an empty disk of 10 TiB", (65536,), lambda cluster: exported(empty(cluster, 10 * 1024 * 1024 * MIB))),
    ("create of 1 GiB (128 MiB at 512): `zero` beside `off`", SIZES, lambda cluster: created(cluster, "zero", "off")),
    ("create: `format` beside `metadata`", SIZES, lambda cluster: created(cluster, "format", "metadata")),
    ("create: `full` beside `falloc`", SIZES, lambda cluster: created(cluster, "full", "falloc")),
    ("create: `write` beside `full`", SIZES, lambda cluster: created(cluster, "write", "full")),
    ("nbd: reads of 64 KiB in order, over a socket", (65536, 4096), lambda cluster: served(cluster, "-c", 4000, "-d", 1, "-s", 65536)),
    ("nbd: writes of 64 KiB in order", (65536, 4096), lambda cluster: served(cluster, "-c", 4000, "-d", 1, "-s", 65536, "-w")),
    ("nbd: reads of 4 KiB here and there", (65536, 4096), random_requests),
    ("nbd: writes of 4 KiB here and there", (65536, 4096), lambda cluster: random_requests(cluster, "-w")),
    ("alone: create `full`, beside `write`", SIZES, full_beside_written),
    ("alone: write and flush with 128 tables in memory, beside 4", (65536, 4096), flushes),
    ("alone: random writes over 1 GiB, beside 64 MiB", (65536, 4096), larger),
]


def compared(sides, least):
    """The ratios of two sides that run in turn: processor time, time by the clock, peak memory."""
    runs = [[side.run() for side in sides] for _ in range(least)]
    own, other = ([min(column) for column in zip(*side)] for side in zip(*runs))
    print(f"    qimg {own[0]:.3f} s, {own[1]:.3f} s by the clock, {own[2] / 1024:.1f} MiB; beside it {other[0]:.3f} s, {other[1]:.3f} s, {other[2] / 1024:.1f} MiB", file=sys.stderr, flush=True)
    return [a / max(b, 1e-3) for a, b in zip(own, other)]


def cell(make, cluster, least):
    """What the table says of a row at one size of clusters. The work is done in a new folder, which is gone in the end."""
    here, room = os.getcwd(), tempfile.mkdtemp(prefix="qimg-bench-")
    os.chdir(room)
    try:
        processor, _, memory = compared(make(cluster), least)
        return f"{processor:.2f}, {memory:.1f}"
    finally:
        os.chdir(here)
        shutil.rmtree(room)


def main():
    if not os.access("/usr/bin/time", os.X_OK):
        print("/usr/bin/time is missing: install the package time")
        sys.exit(1)
    parser = argparse.ArgumentParser(description=__doc__, formatter_class=argparse.RawDescriptionHelpFormatter)
    parser.add_argument("chosen", nargs="*")
    parser.add_argument("--least", type=int, default=LEAST)
    given = parser.parse_args()
    sizes = [int(it) for it in given.chosen if it.isdigit()] or SIZES
    words = [it for it in given.chosen if not it.isdigit()]
    print("| Work | " + " | ".join(f"{size:,}" for size in SIZES) + " |\n|---|---|---|---|")
    for name, of_sizes, make in ROWS:
        if words and name.split()[0].rstrip(":,") not in words:
            continue
        print(f"  {name}", file=sys.stderr, flush=True)
        cells = [cell(make, size, given.least) if size in of_sizes and size in sizes else "" for size in SIZES]
        print(f"| {name} | " + " | ".join(cells) + " |", flush=True)


main()
