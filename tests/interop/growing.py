#!/usr/bin/env -S python3 -B
"""An image that needs more refblocks than its first reftable has room for: the reftable grows on the way, what is written is read back, and QEMU's check finds no error."""

from qemu import qemu_io, tool
import checks
from checks import create, number_at, run

MIB = 1048576
SIZE = 64 * MIB
CLUSTER = 512
# With counts of 64 bits a refblock counts 64 clusters, so that a reftable of one cluster reaches 2 MiB of the file.
WIDTH = 64


def byte_of(part):
    return part % 255 + 1


def reftable_clusters(file):
    with open(file, "rb") as it:
        return number_at(it.read(CLUSTER), 56, 4)


def filled():
    create("disk", SIZE, CLUSTER, WIDTH)
    checks.equal(reftable_clusters("disk"), 1, "the clusters of the first reftable")
    parts = SIZE // MIB
    lines = [f"fill {part * MIB} {MIB} {byte_of(part):02x}" for part in range(parts)]
    checks.equal(set(run("disk", *lines, "flush")), {"ok"}, "the answers")
    # 64 MiB of data need more than 2,048 refblocks, so at least 32 clusters of the reftable and one for the rest.
    if reftable_clusters("disk") < 33:
        raise AssertionError(f"a reftable of {reftable_clusters('disk')} clusters")
    tool("qemu-img", "check", "-q", "-f", "qcow2", "disk")
    # QEMU reads the same.
    tool("qemu-img", "convert", "-f", "qcow2", "-O", "raw", "disk", "raw")
    with open("raw", "rb") as it:
        for part in range(parts):
            if it.read(MIB) != bytes([byte_of(part)]) * MIB:
                raise AssertionError(f"QEMU reads other bytes in part {part}")
    # So does a new run, which writes some parts again, in place.
    told = run("disk", *[f"read {part * MIB} {MIB}" for part in range(parts)])
    for part, line in enumerate(told):
        if line != "data " + f"{byte_of(part):02x}" * MIB:
            raise AssertionError(f"part {part} reads {checks.shown(line)}")
    run("disk", *[f"fill {part * MIB + 1000} {CLUSTER} aa" for part in range(0, parts, 7)])
    tool("qemu-img", "check", "-q", "-f", "qcow2", "disk")


def in_turn():
    """QEMU writes on into an image whose reftable has grown, and the driver after it."""
    create("disk", 8 * MIB, CLUSTER, WIDTH)
    run("disk", *[f"fill {part * MIB} {MIB} 11" for part in range(3)])
    before = reftable_clusters("disk")
    if before < 2:
        raise AssertionError("the reftable has not grown")
    qemu_io("disk", f"write -q -P 0x22 {3 * MIB} {2 * MIB}")
    tool("qemu-img", "check", "-q", "-f", "qcow2", "disk")
    run("disk", *[f"fill {part * MIB} {MIB} 33" for part in range(5, 8)])
    tool("qemu-img", "check", "-q", "-f", "qcow2", "disk")
    tool("qemu-img", "convert", "-f", "qcow2", "-O", "raw", "disk", "raw")
    checks.equal(checks.contents("raw") == b"\x11" * (3 * MIB) + b"\x22" * (2 * MIB) + b"\x33" * (3 * MIB), True, "the bytes")


def main():
    every = checks.Checks()
    every.run("filled", filled)
    every.run("in turn", in_turn)
    every.done()


main()
