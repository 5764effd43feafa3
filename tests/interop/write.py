#!/usr/bin/env -S python3 -B
"""Images that qimg makes: QEMU finds no error in them, reads what was written, and writes on into them."""

import json

from qemu import CLUSTERS, Disk, mapped_by_qemu, mapped_by_qimg, qemu_io, same_disk, tool, write_lines
from checks import Checks, create, equal


def disk_sizes(cluster):
    """Sizes of some clusters: whole ones, and ones that end within a cluster or a sector."""
    count = {512: 100, 4096: 40, 65536: 20, 2097152: 3}[cluster]
    return [cluster * count, cluster * count - 512, cluster * (count - 1) + 1300, 512, 1]


def qimg_writes(cluster, size):
    """Writes of qimg alone."""
    disk = Disk(size, f"{cluster} {size}")
    create("disk", size, cluster)
    same_disk("disk", disk)
    for _ in range(3):
        write_lines("disk", disk.lines(12, min(3 * cluster, 1048576)))
        same_disk("disk", disk)


def qemu_reads_the_header(cluster, size):
    create("disk", size, cluster)
    told = json.loads(tool("qemu-img", "info", "--output=json", "-f", "qcow2", "disk"))
    own = told["format-specific"]["data"]
    equal((told["virtual-size"], told["cluster-size"]), (size // 512 * 512, cluster), "the sizes")
    equal((own["compat"], own["refcount-bits"], own["corrupt"]), ("1.1", 16, False), "the header")
    equal("backing-filename" in told, False, "a backing name")


def qemu_writes_on(cluster, size):
    """Writes of qimg and of QEMU in turn."""
    disk = Disk(size, f"on {cluster} {size}")
    create("disk", size, cluster)
    for _ in range(3):
        write_lines("disk", disk.lines(6, min(3 * cluster, 1048576)))
        qemu_io("disk", *disk.commands(6, 3 * cluster))
        same_disk("disk", disk)


def zeroed_by_qemu(cluster, size):
    """Clusters that QEMU made zero read as zeros."""
    disk = Disk(size, f"zeros {cluster} {size}")
    create("disk", size, cluster)
    write_lines("disk", disk.lines(12, min(3 * cluster, 1048576)))
    start, length = cluster, max(size // cluster - 2, 0) * cluster
    qemu_io("disk", f"write -z {start} {length}")
    disk.bytes[start:start + length] = bytes(length)
    same_disk("disk", disk)


def mapped_alike(cluster, size):
    """Each cluster is at the same place of the file for qimg and for QEMU."""
    disk = Disk(size, f"map {cluster} {size}")
    create("disk", size, cluster)
    write_lines("disk", disk.lines(12, min(3 * cluster, 1048576)))
    equal(mapped_by_qimg("disk", size, cluster), mapped_by_qemu("disk", size, cluster), "the host offsets")


def main():
    checks = Checks()
    for cluster in CLUSTERS:
        for size in disk_sizes(cluster):
            checks.run(f"qimg writes: cluster {cluster}, size {size}", qimg_writes, cluster, size)
            checks.run(f"QEMU reads the header: cluster {cluster}, size {size}", qemu_reads_the_header, cluster, size)
            checks.run(f"QEMU writes on: cluster {cluster}, size {size}", qemu_writes_on, cluster, size)
        whole = disk_sizes(cluster)[0]
        checks.run(f"QEMU zeroes: cluster {cluster}", zeroed_by_qemu, cluster, whole)
        checks.run(f"mapped alike: cluster {cluster}", mapped_alike, cluster, whole)
    checks.done()


main()
