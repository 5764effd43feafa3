#!/usr/bin/env -S python3 -B
"""What the program says on standard error: why the system refused, and which line of a script failed. Devices too."""

import fcntl
import os
import shutil
import subprocess

from checks import QIMG, Checks, NotTried, answers, consistent, contents, create, equal, kept, run

STORAGE = "refused 15 storage\n"


def said(*words, given=b""):
    """The status of the program, what it printed, and what it said on standard error."""
    with kept(words[1] if len(words) > 1 else ""):
        done = subprocess.run([QIMG, *words], input=given, capture_output=True, timeout=600)
    return done.returncode, done.stdout.decode(), done.stderr.decode()


def says(want, *words, given=b""):
    """Compares status, output and messages; each message is one line that begins as is wanted."""
    status, output, messages = said(*words, given=given)
    equal((status, output), want[:2], f"{words}")
    lines = messages.splitlines()
    equal(len(lines), len(want[2]), f"the messages {lines}")
    for line, start in zip(lines, want[2]):
        equal(line[:len(start)], start, "a message")


def makes(file, size="65536"):
    return "create", file, size, "512", "16", "none"


def a_missing_file():
    says((1, STORAGE, ["qimg: missing: No such file or directory"]), "run", "missing")
    says((1, STORAGE, ["qimg: no/disk: No such file or directory"]), *makes("no/disk"))
    equal(os.listdir("."), [], "the files")


def a_folder():
    says((1, STORAGE, ["qimg: .: Is a directory"]), "run", ".")
    says((1, STORAGE, ["qimg: .: Is a directory"]), *makes("."))


def a_file_below_a_file():
    create("disk", 65536, 512)
    says((1, STORAGE, ["qimg: disk/more: Not a directory"]), "run", "disk/more")


def a_full_device():
    says((1, STORAGE, ["qimg: /dev/full: No space left on device"]), *makes("/dev/full"))


def a_file_that_is_open():
    create("disk", 65536, 512)
    held = (1, STORAGE, [f"qimg: disk: process {os.getpid()} has it open"])
    for how in (fcntl.LOCK_EX, fcntl.LOCK_SH):
        with open("disk", "rb") as it:
            fcntl.flock(it, how)
            says(held, "run", "disk", given=b"size\n")
            says(held, *makes("disk"))
    answers("disk", [("size", "size 65536")])


def the_line_of_a_refusal():
    create("disk", 65536, 512)
    refused = "refused 2 beyond size\n"
    says((1, "size 65536\n" + refused + refused, ["qimg: line 2: refused 2 beyond size"]),
         "run", "disk", given=b"size\nread 65536 1\nread 65537 1\n")


def the_line_that_is_bad():
    create("disk", 65536, 512)
    says((2, "size 65536\nbad line 2\n", ["qimg: line 2: bad line"]), "run", "disk", given=b"size\nno\n")
    says((2, "refused 2 beyond size\nbad line 2\n", ["qimg: line 1: refused 2 beyond size", "qimg: line 2: bad line"]),
         "run", "disk", given=b"read 65536 1\nno\n")


def nothing_where_all_is_well():
    says((0, "created\n", []), *makes("disk"))
    says((0, "size 65536\n", []), "run", "disk", given=b"size\n")


def a_file_that_may_not_grow():
    create("disk", 65536, 512)
    limited = ["bash", "-c", 'trap "" XFSZ; ulimit -f 4; exec "$0" run disk', QIMG]
    done = subprocess.run(limited, input=b"size\nfill 0 32768 11\n", capture_output=True, timeout=600)
    output, messages = done.stdout.decode().splitlines(), done.stderr.decode().splitlines()
    equal(done.returncode, 1, "the status")
    equal((output[0], output[1][:18]), ("size 65536", "refused 15 storage"), "the output")
    equal(messages[0][:32], "qimg: line 2: refused 15 storage", "the line")
    equal(messages[1][:26], "qimg: disk: File too large", "the cause")
    consistent("disk")


def the_line_that_the_system_refused():
    """It is named beside the first refused line, so that the system's cause isn't taken for that one's."""
    create("disk", 65536, 512)
    limited = ["prlimit", "--fsize=4096", QIMG, "run", "disk"]
    done = subprocess.run(limited, input=b"read 65536 1\nsize\nfill 0 32768 11\n", capture_output=True, timeout=600)
    equal((done.returncode, done.stdout.decode().splitlines()[:2]), (1, ["refused 2 beyond size", "size 65536"]), "the answers")
    lines = [line.split(" after")[0].split(" (os")[0] for line in done.stderr.decode().splitlines()]
    equal(lines, ["qimg: line 1: refused 2 beyond size", "qimg: line 3: refused 15 storage", "qimg: disk: File too large"], "the messages")


def an_image_that_is_not_made():
    """A file that was made for it is removed; one that was there stays."""
    bad = ("create", "disk", "65536", "513", "16", "none")
    says((1, "refused 5 invalid option\n", []), *bad)
    equal(os.listdir("."), [], "the files")
    with open("disk", "wb") as it:
        it.write(b"some bytes")
    says((1, "refused 5 invalid option\n", []), *bad)
    equal(contents("disk"), b"some bytes", "the file")


def an_output_that_is_full():
    """It is said why no answer could be printed. The work is done."""
    create("disk", 65536, 512)
    with open("/dev/full", "wb") as full:
        for words in (makes("other"), ("check", "disk"), ("run", "disk"), ("export", "disk", "raw"), ("import", "raw", "more", "512", "16")):
            done = subprocess.run([QIMG, *words], input=b"size\n", stdout=full, stderr=subprocess.PIPE, timeout=600)
            equal((done.returncode, done.stderr.decode()), (1, "qimg: standard output: No space left on device (os error 28)\n"), f"{words}")
    equal(sorted(os.listdir(".")), ["disk", "more", "other", "raw"], "the files")
    consistent("more", 0)
    consistent("other", 0)


def an_image_taken_as_a_raw_disk():
    """It is done, since a guest can write such bytes to its disk, and it is said."""
    create("disk", 65536, 512)
    note = "qimg: disk: it begins as a qcow2 image, and its bytes become the disk of another"
    says((0, "imported 1552\n", [note]), "import", "disk", "other", "512", "16")


def a_file_that_is_read_and_written():
    create("disk", 65536, 512)
    says((1, STORAGE, ["qimg: disk: it is the file that is read"]), "export", "disk", "disk")


NOBODY = 65534


def as_nobody():
    """Has the next program run by a user to whom permissions apply: they don't apply to root."""
    if os.geteuid() == 0:
        return {"user": NOBODY, "group": NOBODY, "extra_groups": []}
    return {}


def said_to_nobody(*words, given=b""):
    """The status of a copy of the program that such a user runs, what it printed, and what it said on standard error."""
    try:
        done = subprocess.run(["./qimg", *words], input=given, capture_output=True, timeout=600, **as_nobody())
    except PermissionError as e:
        raise NotTried(f"no other user can run the program: {e}") from e
    return done.returncode, done.stdout.decode(), done.stderr.decode()


def refuses_nobody(file, *words):
    status, output, messages = said_to_nobody(*words)
    equal((status, output), (1, STORAGE), f"{words}")
    equal(messages[:len(f"qimg: {file}: Permission denied")], f"qimg: {file}: Permission denied", f"the message to {words}")


def without_permission(mode):
    """An image that another user has no permission for but this, in a folder where that user finds it."""
    create("disk", 65536, 512)
    os.chmod("disk", mode)
    os.chmod(".", 0o755)
    shutil.copy(QIMG, "qimg")
    os.chmod("qimg", 0o755)
    with open("raw", "wb") as it:
        it.write(bytes(512))
    os.chmod("raw", 0o644)


def a_file_that_may_not_be_read():
    """What may be read is read, so that it is the file's permission that is refused."""
    without_permission(0o644)
    equal(said_to_nobody("check", "disk"), (0, "consistent, 0 leaked\n", ""), "a file that may be read")
    os.chmod("disk", 0o200)
    before = contents("disk") if os.geteuid() == 0 else None
    refuses_nobody("disk", "check", "disk")
    refuses_nobody("disk", "run", "disk")
    refuses_nobody("disk", "export", "disk", "back")
    refuses_nobody("disk", *makes("disk"))
    refuses_nobody("disk", "import", "raw", "disk", "512", "16")
    refuses_nobody("disk", "import", "disk", "other", "512", "16")
    equal(sorted(os.listdir(".")), ["disk", "qimg", "raw"], "the files")
    os.chmod("disk", 0o600)
    equal(contents("disk"), before or contents("disk"), "the file")
    consistent("disk", 0)


def a_file_that_may_not_be_written():
    without_permission(0o444)
    before = contents("disk")
    equal(said_to_nobody("check", "disk"), (0, "consistent, 0 leaked\n", ""), "a file that is only read")
    refuses_nobody("disk", "run", "disk")
    refuses_nobody("disk", *makes("disk"))
    refuses_nobody("disk", "import", "raw", "disk", "512", "16")
    equal(contents("disk"), before, "the file")


def a_folder_that_may_not_be_written():
    without_permission(0o644)
    os.mkdir("folder")
    os.chmod("folder", 0o555)
    refuses_nobody("folder/disk", *makes("folder/disk"))
    refuses_nobody("folder/back", "export", "disk", "folder/back")
    equal(os.listdir("folder"), [], "the files")


def loop_device(size):
    """A block device of so many bytes, none of them zero."""
    with open("device", "wb") as it:
        it.write(b"\xff" * size)
    if shutil.which("losetup") is None:
        raise NotTried("there is no losetup")
    done = subprocess.run(["losetup", "--find", "--show", "device"], capture_output=True, check=False)
    if done.returncode:
        raise NotTried(f"no block device can be made here: {done.stderr.decode(errors='replace').strip()}")
    return done.stdout.decode().strip()


def a_block_device():
    device = loop_device(1 << 20)
    try:
        create(device, 65536, 512)
        run(device, "fill 100 100 22", "flush")
        answers(device, [("size", "size 65536"), ("read 99 2", "data 0022"), ("read 199 2", "data 2200"), ("read 65535 1", "data 00")])
        says((1, STORAGE, [f"qimg: {device}: No space left on device"]), *makes(device, str(1 << 34)))
    finally:
        subprocess.run(["losetup", "--detach", device], check=True)
    equal(len(contents("device")), 1 << 20, "the size of the device")


def main():
    checks = Checks()
    for check in (
        a_missing_file,
        a_folder,
        a_file_below_a_file,
        a_full_device,
        a_file_that_is_open,
        the_line_of_a_refusal,
        the_line_that_is_bad,
        nothing_where_all_is_well,
        a_file_that_may_not_grow,
        the_line_that_the_system_refused,
        an_image_that_is_not_made,
        an_output_that_is_full,
        an_image_taken_as_a_raw_disk,
        a_file_that_is_read_and_written,
        a_file_that_may_not_be_read,
        a_file_that_may_not_be_written,
        a_folder_that_may_not_be_written,
        a_block_device,
    ):
        checks.run(check.__name__, check)
    checks.done()


main()
