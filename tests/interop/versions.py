#!/usr/bin/env -S python3 -B
"""Images of both versions and of every width of counts, that QEMU or qimg made, and images with snapshots: qimg and QEMU write in turn, and both read the same."""

from qemu import CLUSTERS, Disk, qemu_io, same_disk, tool, write_lines
from checks import Checks, answers, contents, create, equal, number_at

WIDTHS = [1, 2, 4, 8, 16, 32, 64]
CLUSTER_COUNTS = {512: 90, 4096: 30, 65536: 8, 2097152: 2}


def version_of(image):
    return number_at(contents(image)[:104], 4, 4)


def written_in_turn(disk, cluster):
    """Writes of qimg and of QEMU in turn on an image, and both read the same after each."""
    write_lines("disk", disk.lines(8, min(2 * cluster, 1048576)))
    same_disk("disk", disk)
    qemu_io("disk", *disk.commands(4, 2 * cluster))
    same_disk("disk", disk)


def of_version(version, cluster, width):
    disk = Disk(cluster * CLUSTER_COUNTS[cluster], f"version {version} {cluster} {width}")
    compat = {2: "0.10", 3: "1.1"}[version]
    tool("qemu-img", "create", "-q", "-f", "qcow2", "-o", f"cluster_size={cluster},compat={compat},refcount_bits={width}", "disk", str(len(disk.bytes)))
    equal(version_of("disk"), version, "the version")
    written_in_turn(disk, cluster)
    equal(version_of("disk"), version, "the version after writes")


def made_by_qimg(cluster, width):
    disk = Disk(cluster * CLUSTER_COUNTS[cluster], f"made by qimg {cluster} {width}")
    create("disk", len(disk.bytes), cluster, width)
    written_in_turn(disk, cluster)


def with_snapshot(version, cluster):
    """Clusters that a snapshot shares stay as they are: what qimg writes beside them is not in the snapshot."""
    disk = Disk(cluster * 40, f"snapshot {version} {cluster}")
    compat = {2: "0.10", 3: "1.1"}[version]
    tool("qemu-img", "create", "-q", "-f", "qcow2", "-o", f"cluster_size={cluster},compat={compat}", "disk", str(len(disk.bytes)))
    qemu_io("disk", f"write -P 5 0 {3 * cluster}")
    disk.bytes[:3 * cluster] = bytes([5]) * (3 * cluster)
    tool("qemu-img", "snapshot", "-c", "before", "disk")
    before = bytes(disk.bytes)
    answers("disk", [(f"map 0 {cluster}", f"raw image {host_of_first('disk', cluster)} {cluster} ro"), (f"fill {20 * cluster} 100 22", "ok"), ("flush", "ok")])
    disk.bytes[20 * cluster:20 * cluster + 100] = bytes([0x22]) * 100
    same_disk("disk", disk)
    tool("qemu-img", "snapshot", "-a", "before", "disk")
    disk.bytes[:] = before
    same_disk("disk", disk)


def host_of_first(image, cluster):
    """Where the first guest cluster's data stand, by the L1 table and the first L2 table."""
    data = contents(image)
    table = number_at(data, number_at(data, 40)) & 0x00FFFFFFFFFFFE00
    return number_at(data, table) & 0x00FFFFFFFFFFFE00


def main():
    checks = Checks()
    for cluster in CLUSTERS:
        checks.run(f"version 2: cluster {cluster}", of_version, 2, cluster, 16)
        for width in WIDTHS:
            checks.run(f"version 3: cluster {cluster}, width {width}", of_version, 3, cluster, width)
            checks.run(f"made by qimg: cluster {cluster}, width {width}", made_by_qimg, cluster, width)
    for version in (2, 3):
        for cluster in (512, 4096, 65536):
            checks.run(f"with a snapshot: version {version}, cluster {cluster}", with_snapshot, version, cluster)
    checks.done()


main()
