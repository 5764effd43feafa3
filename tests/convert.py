#!/usr/bin/env -S python3 -B
"""Import of raw disks and export to them: each byte comes back, zeros take no cluster, and what can't be done is refused with the other file as it was."""

import fcntl
import os
import random
import shutil
import signal
import subprocess
import sys
import time

sys.path.insert(0, os.path.join(os.path.dirname(os.path.abspath(__file__)), "interop"))

from qemu import opened_by_qemu, tool  # noqa: E402
from checks import QIMG, Checks, NotTried, answers, consistent, contents, create, equal, kept, put, qimg  # noqa: E402

ROW = b"\x11" * 512 + b"\x00" * 512 + b"\x22" * 276
STORAGE = (1, "refused 15 storage\n")


def has(file, data):
    with open(file, "wb") as it:
        it.write(data)


def imported(data, cluster, width):
    """An image of these bytes, and the file that they come back to."""
    has("raw", data)
    equal(qimg("import", "raw", "disk", str(cluster), str(width)), (0, f"imported {len(data)}\n"), "import")
    equal(contents("raw"), data, "the raw disk, which stays")
    has("back", b"what was there before" * 1000)
    equal(qimg("export", "disk", "back"), (0, f"exported {len(data)}\n"), "export")
    equal(contents("back"), data, "what came back")


def is_clean(image):
    """The checker and QEMU find no error and no leak."""
    consistent(image, 0)
    check = tool("qemu-img", "check", "-f", "qcow2", image)
    if "No errors were found" not in check:
        raise AssertionError(f"qemu-img check: {check}")


def compares(data):
    """QEMU finds the image equal to the raw disk. It takes whole sectors of 512 bytes alone."""
    if data and len(data) % 512 == 0:
        equal(tool("qemu-img", "compare", "-f", "qcow2", "-F", "raw", "disk", "raw").strip(), "Images are identical.", "qemu-img compare")


def the_row():
    imported(ROW, 512, 16)
    answers("disk", [("map 0 1300", "raw image 2560 512 rw"), ("map 512 788", "zero 512 implicit"), ("map 1024 276", "raw image 3072 276 rw")])
    is_clean("disk")


def of_size(size, cluster):
    data = bytes(i % 251 + 1 for i in range(size))
    imported(data, cluster, 16)
    answers("disk", [("size", f"size {size}")])
    is_clean("disk")
    compares(data)


def of_zeros(size, cluster):
    """No cluster is mapped, and the file has no more clusters than an image without data."""
    imported(bytes(size), cluster, 16)
    length = min(size, cluster * cluster // 8)
    answers("disk", [(f"map 0 {size}", f"zero {length} implicit")])
    create("empty", size, cluster)
    equal(os.path.getsize("disk"), os.path.getsize("empty"), "the length of the file")
    is_clean("disk")


def of_runs(cluster, width):
    """Random runs of zeros and of bytes, there and back."""
    chosen = random.Random(f"{cluster} {width}")
    size = min(60 * cluster, 6 * 1048576) + chosen.choice([0, 1, 511, 512, cluster // 2])
    data = bytearray()
    while len(data) < size:
        length = chosen.choice([1, 511, 512, cluster, chosen.randint(1, 3 * cluster)])
        data += bytes(length) if chosen.random() < 0.5 else chosen.randbytes(length)
    data = bytes(data[:size])
    imported(data, cluster, width)
    is_clean("disk")
    compares(data)
    tool("qemu-img", "convert", "-f", "qcow2", "-O", "raw", "disk", "by_qemu")
    equal(contents("by_qemu"), data[:size // 512 * 512], "the disk that QEMU reads")


def of_an_image_by_qemu(options):
    """An image that QEMU made is exported as QEMU converts it."""
    has("raw", random.Random(options).randbytes(300000) + bytes(200000) + b"\x33" * 12000)
    tool("qemu-img", "convert", "-f", "raw", "-O", "qcow2", "-o", options, "raw", "disk")
    equal(qimg("export", "disk", "back"), (0, "exported 512000\n"), "export")
    equal(contents("back"), contents("raw"), "what came back")


def a_compressed_image():
    """A compressed cluster isn't read: it is refused, and the image stays."""
    has("raw", b"\x33" * 65536)
    tool("qemu-img", "convert", "-c", "-f", "raw", "-O", "qcow2", "-o", "cluster_size=4096", "raw", "disk")
    before = contents("disk")
    equal(qimg("export", "disk", "back"), (1, "refused 7 compressed\n"), "export")
    equal(contents("disk"), before, "the image")


def a_raw_disk_that_is_not_opened():
    """The raw disk is opened first, so no image is made, and one that is there stays."""
    equal(qimg("import", "missing", "disk", "512", "16"), STORAGE, "a missing one")
    equal(qimg("import", ".", "disk", "512", "16"), STORAGE, "a folder")
    equal(os.listdir("."), [], "the files")
    create("disk", 65536, 512)
    before = contents("disk")
    equal(qimg("import", "missing", "disk", "512", "16"), STORAGE, "a missing one")
    equal(contents("disk"), before, "the image")


def an_image_that_is_not_opened():
    """The image is opened first, so no raw disk is made, and one that is there stays."""
    equal(qimg("export", "missing", "raw"), STORAGE, "a missing one")
    equal(qimg("export", ".", "raw"), STORAGE, "a folder")
    equal(os.listdir("."), [], "the files")
    has("raw", ROW)
    equal(qimg("export", "missing", "raw"), STORAGE, "a missing one")
    equal(contents("raw"), ROW, "the raw disk")


def what_is_no_image():
    """It is refused, and the raw disk stays."""
    has("raw", ROW)
    for data, answer in ((b"no image" * 100, "refused 19 metadata\n"), (b"", "refused 19 metadata\n")):
        has("disk", data)
        equal(qimg("export", "disk", "raw"), (1, answer), "export")
        equal((contents("disk"), contents("raw")), (data, ROW), "the files")


def an_image_that_needs_another_file():
    has("raw", ROW)
    create("disk", 65536, 512)
    put("disk", 79, b"\x04")
    equal(qimg("export", "disk", "raw"), (1, "refused 12 dependency\n"), "export")
    equal(contents("raw"), ROW, "the raw disk")


def one_file_for_both():
    """A file that is read isn't written at the same time, also where another name of it is given."""
    has("raw", ROW)
    equal(qimg("import", "raw", "raw", "512", "16"), STORAGE, "import")
    equal(contents("raw"), ROW, "the raw disk")
    create("disk", 65536, 512)
    before = contents("disk")
    equal(qimg("export", "disk", "disk"), STORAGE, "export")
    os.symlink("disk", "link")
    equal(qimg("export", "disk", "link"), STORAGE, "export")
    equal(contents("disk"), before, "the image")


def files_that_may_not_be_written():
    """A raw disk to be imported and an image to be exported are only read."""
    imported(ROW, 512, 16)
    os.chmod("raw", 0o444)
    os.chmod("disk", 0o444)
    unprivileged = {} if os.getuid() else {"user": 65534}
    os.chmod(".", 0o777)
    equal(qimg("import", "raw", "other", "512", "16", **unprivileged), (0, "imported 1300\n"), "import")
    equal(qimg("export", "disk", "another", **unprivileged), (0, "exported 1300\n"), "export")
    equal(contents("another"), ROW, "what came back")


def clusters_that_no_image_has():
    has("raw", ROW)
    has("disk", b"some bytes")
    for cluster, width in (("513", "16"), ("256", "16"), ("4194304", "16"), ("512", "3"), ("512", "128")):
        equal(qimg("import", "raw", "disk", cluster, width), (1, "refused 5 invalid option\n"), f"import {cluster} {width}")
    equal(contents("disk"), b"some bytes", "the file")


def full_devices():
    has("raw", ROW)
    equal(qimg("import", "raw", "/dev/full", "512", "16"), STORAGE, "import")
    imported(ROW, 512, 16)
    equal(qimg("export", "disk", "/dev/full"), STORAGE, "export")
    answers("disk", [("read 0 4", "data 11111111")])


def full_devices_for_output():
    """A line that can't be written is status 1; the work is done."""
    has("raw", ROW)
    with open("/dev/full", "wb") as full:
        equal(qimg("import", "raw", "disk", "512", "16", stdout=full)[0], 1, "import")
        equal(qimg("export", "disk", "back", stdout=full)[0], 1, "export")
    equal(contents("back"), ROW, "what came back")


def with_calls_that(inject, file, *words):
    """The status and the output of the program while its system calls on a file are made to fail or to stop."""
    words = ["strace", "-f", "-qq", "-o", "calls", "-P", file, "-e", f"inject={inject}", QIMG, *words]
    done = subprocess.run(words, stdout=subprocess.PIPE, stderr=subprocess.DEVNULL, timeout=600)
    return done.returncode, done.stdout.decode()


PART = ".disk.qimg-part"
BEFORE = b"what was there before"


def stays(what):
    """The file has what it had, and nothing is left beside it."""
    equal((contents("disk"), os.path.exists(PART)), (BEFORE, False), what)


def each_read_of_the_raw_disk_fails():
    """The file is then as it was."""
    has("raw", b"\x11" * 512 * 6)
    for number in range(1, 8):
        has("disk", BEFORE)
        equal(with_calls_that(f"pread64:error=EIO:when={number}", "raw", "import", "raw", "disk", "512", "16"), STORAGE, f"read {number}")
        stays(f"read {number}")


def each_write_of_the_image_fails():
    """The file is then as it was: what is written has another name until it is whole."""
    has("raw", ROW)
    for number in range(1, 40):
        has("disk", BEFORE)
        status, text = with_calls_that(f"pwrite64:error=ENOSPC:when={number}", os.path.abspath(PART), "import", "raw", "disk", "512", "16")
        if status == 0:
            break
        equal((status, text), STORAGE, f"write {number}")
        equal(contents("raw"), ROW, "the raw disk")
        stays(f"write {number}")
    equal((status, text, number > 3), (0, "imported 1300\n", True), "where none failed")
    is_clean("disk")


def each_way_to_the_name_fails():
    """A file that can't be synced doesn't get the name, nor one that can't be renamed, and the line of the work isn't printed."""
    has("raw", ROW)
    for call in ("fsync", "rename"):
        has("disk", BEFORE)
        equal(with_calls_that(f"{call}:error=EIO:when=1", os.path.abspath(PART), "import", "raw", "disk", "512", "16"), STORAGE, call)
        stays(call)
        equal(in_the_record("INJECTED"), True, "the failure")


def each_write_of_an_export_fails():
    imported(ROW, 512, 16)
    before = contents("disk")
    for number in range(1, 20):
        has("back", BEFORE)
        status, text = with_calls_that(f"pwrite64:error=ENOSPC:when={number}", os.path.abspath(".back.qimg-part"), "export", "disk", "back")
        equal(contents("disk"), before, "the image")
        if status == 0:
            break
        equal((status, text, contents("back"), os.path.exists(".back.qimg-part")), (*STORAGE, BEFORE, False), f"write {number}")
    equal((number, text, contents("back")), (3, "exported 1300\n", ROW), "where none failed")


def each_long_read_fails():
    """Reads ahead fail as others do."""
    data = random.Random(8).randbytes(700 * 1024)
    has("raw", data)
    for number in range(1, 100):
        has("disk", BEFORE)
        status, text = with_calls_that(f"pread64:error=EIO:when={number}", "raw", "import", "raw", "disk", "4096", "16")
        if status == 0:
            break
        equal((status, text), STORAGE, f"read {number}")
        stays(f"read {number}")
    equal((text, number < 40), (f"imported {len(data)}\n", True), "where none failed")


def each_long_write_fails():
    """Writes that are joined fail as others do: nothing is told as done, and the file is as it was."""
    data = random.Random(9).randbytes(700 * 1024)
    has("raw", data)
    for number in range(1, 100):
        has("disk", BEFORE)
        status, text = with_calls_that(f"pwrite64:error=ENOSPC:when={number}+", os.path.abspath(PART), "import", "raw", "disk", "4096", "16")
        if status == 0:
            break
        equal((status, text), STORAGE, f"write {number}")
        stays(f"write {number}")
    equal((text, 5 < number < 40), (f"imported {len(data)}\n", True), "where none failed")
    for number in range(1, 100):
        status, text = with_calls_that(f"pwrite64:error=ENOSPC:when={number}", os.path.abspath(".back.qimg-part"), "export", "disk", "back")
        if status == 0:
            break
        equal((status, text), STORAGE, f"write {number} of an export")
    equal((text, 1 < number < 10, contents("back")), (f"exported {len(data)}\n", True, data), "where none failed")


def stopped_in_a_read(count):
    """An import that stands still in a read of its raw disk, so many after the first."""
    words = ["strace", "-f", "-qq", "-o", "calls", "-P", "raw", "-e", f"inject=pread64:signal=SIGSTOP:when={count}", QIMG, "import", "raw", "disk", "512", "16"]
    traced = subprocess.Popen(words, stdout=subprocess.PIPE, stderr=subprocess.DEVNULL)
    limit = time.monotonic() + 60
    while time.monotonic() < limit:
        for child in children_of(traced.pid):
            if state_of(child) in ("T", "t") and in_the_record("stopped by SIGSTOP"):
                return traced, child
        time.sleep(0.01)
    traced.kill()
    raise AssertionError("the import didn't stop")


def children_of(pid):
    with open(f"/proc/{pid}/task/{pid}/children") as it:
        return it.read().split()


def state_of(pid):
    """The state of a process as its letter; None of one that has ended, such as strace's own first child."""
    try:
        with open(f"/proc/{pid}/stat") as it:
            return it.read().rsplit(")", 1)[1].split()[0]
    except (FileNotFoundError, ProcessLookupError):
        return None


def in_the_record(words):
    """Whether strace's record has these words. It makes the record once it has begun."""
    try:
        with open("calls") as it:
            return words in it.read()
    except FileNotFoundError:
        return False


def a_raw_disk_that_is_cut():
    """A raw disk that is cut while it is read is no longer what was to be imported: it is refused, and the file is as it was."""
    has("raw", b"\x11" * 512 * 8)
    has("disk", BEFORE)
    traced, child = stopped_in_a_read(4)
    os.truncate("raw", 512 * 5)
    os.kill(int(child), signal.SIGCONT)
    text = traced.communicate(timeout=60)[0].decode()
    equal((traced.returncode, text), (1, "refused 5 invalid option\n"), "import")
    stays("a raw disk that is cut")


def an_import_that_is_killed():
    """The file is as it was. While it is written no other run writes it, and what the killed run left the next one removes."""
    data = b"\x11" * 512 * 8
    has("raw", data)
    has("disk", BEFORE)
    traced, child = stopped_in_a_read(4)
    equal((contents("disk"), os.path.exists(PART)), (BEFORE, True), "while it is written")
    equal(qimg("import", "raw", "disk", "512", "16"), STORAGE, "another import")
    equal(qimg("create", "disk", "512", "512", "16", "none"), STORAGE, "a new image")
    os.kill(int(child), signal.SIGKILL)
    traced.communicate(timeout=60)
    equal((contents("disk"), os.path.exists(PART)), (BEFORE, True), "what the killed run leaves")
    imported(data, 512, 16)
    equal(os.path.exists(PART), False, "what is left")


def two_imports_to_a_new_name():
    """The second one is refused while the first one writes, and the first one ends well."""
    has("raw", b"\x11" * 512 * 8)
    traced, child = stopped_in_a_read(4)
    equal(qimg("import", "raw", "disk", "512", "16"), STORAGE, "the second import")
    equal((os.path.exists("disk"), os.path.exists(PART)), (False, True), "the files")
    os.kill(int(child), signal.SIGCONT)
    text = traced.communicate(timeout=60)[0].decode()
    equal((traced.returncode, text), (0, "imported 4096\n"), "the first import")
    is_clean("disk")


def what_is_left_is_no_file():
    """What has the other name and is no file of a run isn't written, nor removed."""
    has("raw", ROW)
    has("other", BEFORE)
    os.symlink("other", PART)
    equal(qimg("import", "raw", "disk", "512", "16"), STORAGE, "import")
    equal((contents("other"), os.path.islink(PART), os.path.exists("disk")), (BEFORE, True, False), "the files")


def the_rights_of_the_file():
    """A file that is replaced keeps its rights, and a link stays one to it."""
    has("raw", ROW)
    has("disk", BEFORE)
    os.chmod("disk", 0o600)
    os.symlink("disk", "link")
    equal(qimg("import", "raw", "link", "512", "16"), (0, "imported 1300\n"), "import")
    equal((oct(os.stat("disk").st_mode & 0o7777), os.path.islink("link")), (oct(0o600), True), "the rights, and the link")
    is_clean("disk")


def an_image_that_qemu_has_open():
    """It is refused to whoever would write it, and stays as it is; the image that is made of it is another file."""
    has("raw", ROW)
    create("disk", 65536, 512)
    before = contents("disk")
    with opened_by_qemu("disk"):
        for words in (["create", "disk", "512", "512", "16", "none"], ["run", "disk"], ["import", "raw", "disk", "512", "16"], ["export", "disk2", "disk"]):
            shutil.copy("disk", "disk2")
            done = subprocess.run([QIMG, *words], input=b"size\n", capture_output=True, timeout=600)
            equal((done.returncode, done.stdout), (1, b"refused 15 storage\n"), f"{words}")
            if b"qimg: disk: another program, such as QEMU, has it open" not in done.stderr:
                raise AssertionError(f"{words} doesn't say why: {done.stderr}")
        equal(contents("disk"), before, "the image")
    equal(qimg("import", "raw", "disk", "512", "16"), (0, "imported 1300\n"), "once QEMU has closed it")


def locked_bytes(kind):
    """A program that holds such a lock on the bytes that QEMU locks, as its process names them in the list of locks."""
    with open("disk", "r+b") as it:
        fcntl.lockf(it, kind, 1, 100)
        done = subprocess.run([QIMG, "run", "disk"], input=b"size\n", capture_output=True, timeout=600)
    equal((done.returncode, done.stdout), (1, b"refused 15 storage\n"), "the run")
    equal(done.stderr.decode(), f"qimg: disk: process {os.getpid()} has it open\n", "the message")


def a_process_that_locks_bytes():
    """The process is named where the list tells it; a lock on other bytes is none of QEMU's."""
    create("disk", 65536, 512)
    locked_bytes(fcntl.LOCK_SH)
    locked_bytes(fcntl.LOCK_EX)
    with open("disk", "r+b") as it:
        fcntl.lockf(it, fcntl.LOCK_EX, 100, 0)
        fcntl.lockf(it, fcntl.LOCK_EX, 0, 300)
        answers("disk", [("size", "size 65536")])


def a_device_that_is_too_small():
    """A device that can't hold the disk stays as it is, and one that can gets it."""
    data = random.Random(1).randbytes(1 << 20)
    has("device", data)
    create("disk", (1 << 20) + 1, 512)
    create("disk2", 1 << 20, 512)
    device = loop_device("device")
    try:
        done = subprocess.run([QIMG, "export", "disk", device], capture_output=True, timeout=600)
        equal((done.returncode, done.stdout), (1, b"refused 15 storage\n"), "export")
        equal(done.stderr.decode(), f"qimg: {device}: it can hold 1048576 bytes, and the disk has 1048577\n", "the message")
        equal(contents(device) == data, True, "the device")
        equal(qimg("export", "disk2", device), (0, "exported 1048576\n"), "export")
        equal(any(contents(device)), False, "the device")
    finally:
        subprocess.run(["losetup", "--detach", device], check=True)


def loop_device(file):
    done = subprocess.run(["losetup", "--find", "--show", file], capture_output=True, check=False) if shutil.which("losetup") else None
    if done is None or done.returncode:
        raise NotTried("no block device can be made here")
    return done.stdout.decode().strip()


def files_past_a_limit():
    """A run that would make a file too large is refused as by a full disk, and isn't ended by the system's signal."""
    has("raw", random.Random(2).randbytes(9000))
    imported(contents("raw"), 512, 16)
    has("back", BEFORE)
    for words, given in ((["import", "raw", "other", "512", "16"], b""), (["export", "disk", "back"], b""), (["create", "other", "1000000", "512", "16", "full"], b"")):
        done = subprocess.run(["prlimit", "--fsize=6000", QIMG, *words], input=given, capture_output=True, timeout=600)
        equal((done.returncode, done.stdout), (1, b"refused 15 storage\n"), f"{words}")
        equal((contents("back"), sorted(os.listdir("."))), (BEFORE, ["back", "disk", "raw"]), "the files")
    create("other", 65536, 512)
    done = subprocess.run(["prlimit", "--fsize=6000", QIMG, "run", "other"], input=b"fill 0 512 11\nfill 0 65536 22\nread 0 1\n", capture_output=True, timeout=600)
    lines = done.stdout.decode().splitlines()
    equal((done.returncode, lines[0], lines[1][:18]), (1, "ok", "refused 15 storage"), "the answers")
    consistent("other")


def main():
    checks = Checks()
    checks.run("the row", the_row)
    for cluster in (512, 65536):
        for size in (0, 1, 512, 513, 65535, 65536, 65537):
            checks.run(f"size {size}, clusters of {cluster}", of_size, size, cluster)
    for size, cluster in ((1, 512), (100000, 512), (1048576, 4096), (5000000, 2097152)):
        checks.run(f"zeros: {size}, clusters of {cluster}", of_zeros, size, cluster)
    for cluster in (512, 4096, 65536, 2097152):
        for width in (1, 16, 64):
            checks.run(f"runs: clusters of {cluster}, counts of {width}", of_runs, cluster, width)
    for options in ("cluster_size=512", "cluster_size=4096,compat=0.10", "cluster_size=65536,refcount_bits=1", "preallocation=metadata"):
        checks.run(f"made by QEMU: {options}", of_an_image_by_qemu, options)
    for check in (
        a_compressed_image, a_raw_disk_that_is_not_opened, an_image_that_is_not_opened, what_is_no_image, an_image_that_needs_another_file, one_file_for_both,
        files_that_may_not_be_written, clusters_that_no_image_has, full_devices, full_devices_for_output, each_read_of_the_raw_disk_fails, each_write_of_the_image_fails,
        each_way_to_the_name_fails, each_write_of_an_export_fails, each_long_read_fails, each_long_write_fails, a_raw_disk_that_is_cut, an_import_that_is_killed, two_imports_to_a_new_name,
        what_is_left_is_no_file, the_rights_of_the_file, an_image_that_qemu_has_open, a_process_that_locks_bytes, a_device_that_is_too_small, files_past_a_limit,
    ):
        checks.run(check.__name__, check)
    checks.done()


main()
