#!/usr/bin/env -S python3 -B
"""Images that QEMU makes: qimg opens, writes and reads them, and QEMU finds no error in them afterwards."""

from qemu import CLUSTERS, Disk, qemu_io, same_disk, tool, write_lines
from checks import Checks, answers, contents, equal, number_at

CLUSTER_COUNTS = {512: 100, 4096: 40, 65536: 20, 2097152: 3}
COMPATIBLE = {2: "0.10", 3: "1.1"}
LAYOUTS = [(2, 16), (3, 1), (3, 64)]


def layout_of(image):
    """The version of an image, and the bits of a count. In version 2 the header has no number of bits."""
    header = contents(image)[:104]
    version = number_at(header, 4, 4)
    return version, 16 if version == 2 else 1 << number_at(header, 96, 4)


def words_of(layout, cluster, *options):
    version, width = layout
    return ",".join([f"cluster_size={cluster}", f"compat={COMPATIBLE[version]}", f"refcount_bits={width}", *options])


def qimg_writes_on(cluster, size, options, layout=(3, 16)):
    """Writes of QEMU and of qimg in turn."""
    disk = Disk(size, f"{cluster} {size} {options}")
    tool("qemu-img", "create", "-q", "-f", "qcow2", "-o", words_of(layout, cluster, *options), "disk", str(size))
    equal(layout_of("disk"), layout, "the version and the bits of a count")
    answers("disk", [("size", f"size {size}"), ("read 0 2", "data 0000")])
    same_disk("disk", disk)
    for _ in range(3):
        write_lines("disk", disk.lines(8, min(3 * cluster, 1048576)))
        same_disk("disk", disk)
        qemu_io("disk", *disk.commands(4, 3 * cluster))
        same_disk("disk", disk)
    equal(layout_of("disk"), layout, "the version and the bits of a count, after writes")


def converted(cluster, size, layout=(3, 16)):
    """An image that QEMU made of the bytes of a disk."""
    disk = Disk(size, f"converted {cluster}")
    disk.lines(12, min(3 * cluster, 1048576))
    with open("bytes", "wb") as it:
        it.write(disk.bytes)
    tool("qemu-img", "convert", "-f", "raw", "-O", "qcow2", "-o", words_of(layout, cluster), "bytes", "disk")
    equal(layout_of("disk"), layout, "the version and the bits of a count")
    same_disk("disk", disk)
    write_lines("disk", disk.lines(8, min(3 * cluster, 1048576)))
    same_disk("disk", disk)


def in_other_layouts(checks, cluster, count):
    """Smaller disks than in the usual layout."""
    count = count // 2
    for version, width in LAYOUTS:
        for options in ((), ("preallocation=metadata",)):
            name = f"made by QEMU: version {version}, width {width}, cluster {cluster}, {','.join(options) or 'plain'}"
            checks.run(name, qimg_writes_on, cluster, cluster * (count - 1) + 1024, options, (version, width))
        name = f"converted by QEMU: version {version}, width {width}, cluster {cluster}"
        checks.run(name, converted, cluster, cluster * count - 512, (version, width))


def main():
    checks = Checks()
    for cluster in CLUSTERS:
        count = CLUSTER_COUNTS[cluster]
        for size in (cluster * count, cluster * (count - 1) + 1024, 512):
            for options in ((), ("preallocation=metadata",), ("preallocation=full",), ("lazy_refcounts=on",)):
                name = f"made by QEMU: cluster {cluster}, size {size}, {','.join(options) or 'plain'}"
                checks.run(name, qimg_writes_on, cluster, size, options)
        checks.run(f"converted by QEMU: cluster {cluster}", converted, cluster, cluster * count - 512)
        in_other_layouts(checks, cluster, count)
    checks.done()


main()
