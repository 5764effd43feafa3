#!/usr/bin/env python3
"""The block server `qimg-nbd` with the clients of others: nbdinfo, nbdcopy, qemu-img and qemu-io over a socket that socat makes, and libnbd, which starts the server itself. Random work
over it gives the bytes of a model, and the image stays consistent, also where the server is killed."""

import json
import os
import random
import signal
import subprocess
import time
from contextlib import contextmanager

import checks
from checks import Checks, consistent, create, equal, shown

SERVER = os.environ.get("QIMG_NBD", os.path.join(checks.ROOT, "build", "qimg-nbd"))
PYTHON = "/usr/bin/python3"
CLUSTERS = (512, 4096, 65536)
URI = "nbd+unix:///?socket=s"
SECONDS = 60


def tool(*words):
    """What a tool printed, which ended well."""
    done = subprocess.run([*map(str, words)], stdout=subprocess.PIPE, stderr=subprocess.STDOUT, timeout=600)
    text = done.stdout.decode(errors="replace")
    if done.returncode != 0:
        raise AssertionError(f"{shown(words)} ended with {done.returncode}: {shown(text)}")
    return text


@contextmanager
def served(file, *options):
    """A server of a file on the socket `s`, one process for each client. Behind it none is left."""
    words = " ".join([SERVER, *options, file])
    process = subprocess.Popen(["socat", "UNIX-LISTEN:s,fork", f"EXEC:{words}"], start_new_session=True)
    try:
        began = time.monotonic()
        while not os.path.exists("s"):
            if time.monotonic() - began > SECONDS:
                raise AssertionError("socat made no socket")
            time.sleep(0.01)
        yield process
    finally:
        ended(process, file)


def ended(process, file):
    """Waits until the servers of a file let it go, and ends socat."""
    began = time.monotonic()
    while subprocess.run(["flock", "-n", file, "true"]).returncode != 0 and time.monotonic() - began < SECONDS:
        time.sleep(0.01)
    if process.poll() is None:
        os.killpg(process.pid, signal.SIGKILL)
    process.wait()
    if os.path.exists("s"):
        os.remove("s")


def image_with_runs(cluster):
    """An image of 16 clusters: data, explicit zeros, and nothing."""
    create("disk", 16 * cluster, cluster)
    checks.run("disk", f"fill 0 {2 * cluster} 11", f"zero {4 * cluster} {cluster}", f"fill {8 * cluster} {cluster} 22")


def maps(cluster):
    """Data and zeros as nbdinfo is told them."""
    image_with_runs(cluster)
    with served("disk", "-r"):
        told = json.loads(tool("nbdinfo", "--json", "--map", URI))
    runs = [(run["offset"] // cluster, run["length"] // cluster, run["type"] & 2) for run in told]
    merged = []
    for start, count, zero in runs:
        if merged and merged[-1][2] == zero:
            merged[-1] = (merged[-1][0], merged[-1][1] + count, zero)
        else:
            merged.append((start, count, zero))
    equal(merged, [(0, 2, 0), (2, 6, 2), (8, 1, 0), (9, 7, 2)], "the map")


def says_its_size(cluster):
    create("disk", 100 * cluster, cluster)
    with served("disk"):
        equal(int(tool("nbdinfo", "--size", URI)), 100 * cluster, "the size")
        told = tool("nbdinfo", URI)
        for wanted in ("can_flush: true", "can_fua: true", "can_trim: true", "can_zero: true", "is_read_only: false", "base:allocation"):
            equal(wanted in told, True, wanted)
    with served("disk", "-r"):
        equal("is_read_only: true" in tool("nbdinfo", URI), True, "read-only")


def copies(cluster):
    """A raw disk in and out by nbdcopy, and out by qemu-img."""
    size = 64 * cluster + 512
    with open("raw", "wb") as it:
        it.write(random.Random(cluster).randbytes(size))
    create("disk", size, cluster)
    with served("disk"):
        tool("nbdcopy", "--flush", "raw", URI)
    consistent("disk", 0)
    with served("disk", "-r"):
        tool("nbdcopy", URI, "back")
        tool("qemu-img", "convert", "-f", "raw", "-O", "raw", URI, "converted")
    for name in ("back", "converted"):
        tool("cmp", "raw", name)


def qemu_io(*commands, options=()):
    return tool("qemu-io", *options, "-f", "raw", *[word for command in commands for word in ("-c", command)], URI)


def reads_what_qemu_wrote(cluster):
    create("disk", 32 * cluster, cluster)
    with served("disk"):
        qemu_io(f"write -P 5 {cluster - 100} 300", f"write -f -P 6 {3 * cluster} {cluster}", "flush")
        told = qemu_io(f"read -P 5 {cluster - 100} 300", f"read -P 6 {3 * cluster} {cluster}", f"read -P 0 {2 * cluster} {cluster}")
    equal("Pattern verification failed" in told, False, "the patterns")
    consistent("disk", 0)


class Model:
    """A disk's bytes, and random commands that change them."""

    def __init__(self, size, seed):
        self.bytes, self.random = bytearray(size), random.Random(seed)

    def place(self, most):
        start = self.random.randrange(len(self.bytes) // 512) * 512
        return start, min(self.random.randrange(1, most), len(self.bytes) - start)

    def commands(self, count, most):
        """Writes, zeroes and reads. A discard says nothing of the bytes, and is read before it counts."""
        made = []
        for _ in range(count):
            start, length = self.place(most)
            kind = self.random.choice(["write", "write", "write -f", "write -z", "write -z -u", "flush", "read"])
            value = self.random.randrange(1, 256)
            if kind == "flush":
                made.append("flush")
            elif kind == "read":
                made.append(f"read {start} {length}")
            elif "-z" in kind:
                self.bytes[start:start + length] = bytes(length)
                made.append(f"{kind} {start} {length}")
            else:
                self.bytes[start:start + length] = bytes([value]) * length
                made.append(f"{kind} -P {value} {start} {length}")
        return made


def same_bytes(model):
    with served("disk", "-r"):
        tool("nbdcopy", URI, "raw")
    with open("raw", "rb") as it:
        equal(it.read() == bytes(model.bytes), True, "the bytes of the model")
    os.remove("raw")


def create_version(version, size, cluster):
    tool("qemu-img", "create", "-q", "-f", "qcow2", "-o", f"cluster_size={cluster},compat={version}", "disk", size)


def random_work(cluster, version):
    size = 40 * cluster - 512 if cluster > 512 else 40 * cluster
    create_version(version, size, cluster)
    model = Model(size, f"{cluster} {version}")
    for _ in range(4):
        with served("disk"):
            qemu_io(*model.commands(40, 3 * cluster))
        consistent("disk", 0)
        tool("qemu-img", "check", "-f", "qcow2", "disk")
        same_bytes(model)


def killed(cluster, version):
    """A server that is killed at work leaves a consistent image, which has what was flushed."""
    create_version(version, 256 * cluster, cluster)
    for turn in range(4):
        value = turn + 1
        with served("disk"):
            qemu_io(f"write -P {value} 0 {8 * cluster}", "flush")
        process = subprocess.Popen(["socat", "UNIX-LISTEN:s", f"EXEC:{SERVER} disk,nofork"], start_new_session=True)
        while not os.path.exists("s"):
            time.sleep(0.01)
        words = [word for number in range(100) for word in ("-c", f"write -P 9 {(8 + number % 200) * cluster} {cluster}")]
        client = subprocess.Popen(["qemu-io", "-f", "raw", *words, URI], stdout=subprocess.DEVNULL, stderr=subprocess.DEVNULL)
        time.sleep(0.02 * (turn + 1))
        process.kill()
        process.wait()
        client.wait()
        if os.path.exists("s"):
            os.remove("s")
        consistent("disk")
        with served("disk", "-r"):
            told = qemu_io(f"read -P {value} 0 {8 * cluster}", options=["-r"])
        equal("Pattern verification failed" in told, False, "what was flushed")


# What libnbd's own tests would ask, in Python of the system, whose module it is.
SCRIPT = """
import errno, nbd, sys
server, cluster = sys.argv[1], int(sys.argv[2])

def opened(*options):
    h = nbd.NBD()
    h.set_strict_mode(0)
    h.add_meta_context('base:allocation')
    h.connect_command([server, *options, 'disk'])
    return h

def refused(number, call):
    try:
        call()
    except nbd.Error as e:
        assert e.errnum == number, (e.errnum, number)
        return
    raise AssertionError(f'not refused with {number}')

h = opened()
size = h.get_size()
h.pwrite(b'abc', 5)
assert h.pread(8, 3) == b'\\0\\0abc\\0\\0\\0'
h.pwrite(b'x' * cluster, 2 * cluster, nbd.CMD_FLAG_FUA)
h.zero(cluster + 100, cluster, nbd.CMD_FLAG_NO_HOLE)
assert h.pread(cluster, 2 * cluster) == bytes(100) + b'x' * (cluster - 100)
h.pwrite(b'y' * (3 * cluster), 4 * cluster)
h.trim(2 * cluster, 4 * cluster + cluster // 2)
assert h.pread(cluster // 2, 4 * cluster) == b'y' * (cluster // 2)
assert h.pread(cluster, 6 * cluster) == b'y' * cluster
h.cache(cluster, 0)
h.flush()
seen = []
h.block_status(size, 0, lambda context, at, extents, error: seen.extend(extents) or 0)
assert sum(seen[::2]) == size, seen
seen = []
h.block_status(size, 0, lambda context, at, extents, error: seen.extend(extents) or 0, nbd.CMD_FLAG_REQ_ONE)
assert len(seen) == 2, seen
refused(errno.EINVAL, lambda: h.pread(2, size - 1))
refused(errno.ENOSPC, lambda: h.pwrite(b'ab', size - 1))
refused(errno.ENOSPC, lambda: h.zero(2, size - 1))
refused(errno.EINVAL, lambda: h.trim(2, size - 1))
assert h.pread(3, 5) == b'abc'
h.shutdown()

h = opened('-r')
assert h.is_read_only()
assert h.pread(3, 5) == b'abc'
refused(errno.EPERM, lambda: h.pwrite(b'ab', 0))
refused(errno.EPERM, lambda: h.zero(2, 0))
refused(errno.EPERM, lambda: h.trim(2, 0))
h.shutdown()
"""


def started_by_libnbd(cluster):
    create("disk", 64 * cluster, cluster)
    tool(PYTHON, "-c", SCRIPT, SERVER, cluster)
    consistent("disk", 0)


def hostile_bytes(cluster):
    """Whatever a client sends, the server ends or waits, and the image stays consistent."""
    create("disk", 16 * cluster, cluster)
    chosen = random.Random(cluster)
    begun = (1).to_bytes(4, "big") + b"IHAVEOPT" + (1).to_bytes(4, "big") + bytes(4)
    for number in range(40):
        sent = chosen.randbytes(chosen.randrange(400))
        if number % 2:
            head = (0x25609513).to_bytes(4, "big") + chosen.randrange(32).to_bytes(2, "big") + chosen.randrange(10).to_bytes(2, "big")
            sent = begun + head + bytes(8) + chosen.randrange(20 * cluster).to_bytes(8, "big") + chosen.randrange(3 * cluster).to_bytes(4, "big") + sent
        done = subprocess.run([SERVER, "disk"], input=sent, stdout=subprocess.DEVNULL, stderr=subprocess.DEVNULL, timeout=SECONDS)
        equal(done.returncode in (0, 1), True, f"the status {done.returncode}")
        consistent("disk", 0)


def refuses_words():
    done = subprocess.run([SERVER], stdout=subprocess.PIPE, stderr=subprocess.PIPE, timeout=SECONDS)
    equal((done.returncode, done.stdout), (2, b""), "no words")
    done = subprocess.run([SERVER, "absent"], stdin=subprocess.DEVNULL, stdout=subprocess.PIPE, stderr=subprocess.PIPE, timeout=SECONDS)
    equal((done.returncode, done.stdout), (1, b""), "no file")


def main():
    every = Checks()
    every.run("words", refuses_words)
    for cluster in CLUSTERS:
        for name, check in (("map", maps), ("size", says_its_size), ("copies", copies), ("qemu-io", reads_what_qemu_wrote), ("libnbd", started_by_libnbd), ("hostile", hostile_bytes)):
            every.run(f"{name} {cluster}", check, cluster)
        for version in ("0.10", "1.1"):
            every.run(f"random work {cluster} {version}", random_work, cluster, version)
            every.run(f"killed {cluster} {version}", killed, cluster, version)
    every.done()


main()
