#!/usr/bin/env -S python3 -B
"""The program `qimg-tools` on real files, beside QEMU's tools: what it tells of images, its statuses, and the files that it makes."""

import json
import os
import random
import re
import shutil
import subprocess
import sys

sys.path.insert(0, os.path.join(os.path.dirname(os.path.abspath(__file__)), "interop"))

from qemu import opened_by_qemu, qemu_io, tool  # noqa: E402
from checks import ROOT, Checks, NotTried, consistent, contents, create, equal, put, run  # noqa: E402

TOOLS = os.environ.get("QIMG_TOOLS", os.path.join(ROOT, "build", "qimg-tools"))
LAYOUTS = [
    "cluster_size=512", "cluster_size=4096,compat=0.10", "cluster_size=65536,refcount_bits=64", "cluster_size=2M,refcount_bits=1", "cluster_size=4096,refcount_bits=8,lazy_refcounts=on",
]


def tools(*words, **how):
    """Runs the program, and answers its status and what it printed on both outputs."""
    done = subprocess.run([TOOLS, *words], stdin=subprocess.DEVNULL, stdout=how.pop("stdout", subprocess.PIPE), stderr=subprocess.PIPE, timeout=600, **how)
    return done.returncode, (done.stdout or b"").decode(), done.stderr.decode()


def told(*words):
    """What a run without a refusal printed."""
    status, text, messages = tools(*words)
    equal((status, messages), (0, ""), f"{words}")
    return text


def qemu_image(layout, size="5M"):
    """An image of QEMU with a little of everything."""
    tool("qemu-img", "create", "-q", "-f", "qcow2", "-o", layout, "disk", size)
    zeros = [] if "compat=0.10" in layout else ["write -z 2M 64k"]
    qemu_io("disk", "write -P 1 0 64k", "write -P 2 1M 3k", *zeros, "write -P 3 3M 200k", "write -P 4 64k 64k")


# What an image is

def info_is_as_qemu_says(layout):
    qemu_image(layout)
    ours, theirs = json.loads(told("info", "--output=json", "disk")), json.loads(tool("qemu-img", "info", "--output=json", "disk"))
    equal(ours, {key: value for key, value in theirs.items() if key in ours}, "info")
    equal(sorted(set(theirs) - set(ours) - {"children"}), [], "keys that are missing")


def info_names_the_backing_file():
    tool("qemu-img", "create", "-q", "-f", "qcow2", "a \"base\" \\ é", "1M")
    tool("qemu-img", "create", "-q", "-f", "qcow2", "-b", "a \"base\" \\ é", "-F", "qcow2", "disk")
    ours, theirs = json.loads(told("info", "--output", "json", "disk")), json.loads(tool("qemu-img", "info", "--output=json", "disk"))
    for key in ("backing-filename", "backing-filename-format", "virtual-size"):
        equal(ours[key], theirs[key], key)
    if "backing file: a \"base\" \\ é\nbacking file format: qcow2\n" not in told("info", "disk"):
        raise AssertionError("the backing file isn't named")


def info_lines(layout):
    """The lines are those of qemu-img, which rounds alike where a size has few digits."""
    qemu_image(layout, "1G")
    theirs = tool("qemu-img", "info", "disk")
    mine = told("info", "disk")
    ours = [line for line in mine.splitlines() if not line.startswith("disk size")]
    equal(ours, [line for line in theirs.splitlines() if line in ours], "lines")


def control_characters_in_names():
    """A name in an image can't speak to the terminal: it is told by numbers, and as JSON it is whole."""
    name = "base\x1b[2J\x07\x7f\u009b"
    tool("qemu-img", "create", "-q", "-f", "qcow2", name, "1M")
    tool("qemu-img", "create", "-q", "-f", "qcow2", "-b", name, "-F", "qcow2", "disk")
    text = told("info", "disk")
    equal([line for line in text.splitlines() if line.startswith("backing file:")], ["backing file: base\\x1b[2J\\x07\\x7f\\x9b"], "the name")
    equal(json.loads(told("info", "--output=json", "disk"))["backing-filename"], name, "the name as JSON")


def sizes_as_qemu_rounds_them():
    """The size is told as by qemu-img, also where it is near a round number, or as near to two of them."""
    near = [unit * count + more for unit in (1 << 10, 1 << 20, 1 << 30, 1 << 40) for count in (1, 9, 10, 99, 100, 999, 1000, 1001, 1023) for more in (-512, 0, 512)]
    halves = [count << shift for shift in (9, 19, 29) for count in (2001, 1125, 1999, 2007, 511, 513, 1023, 1535)] + [1152 << 10, 1664 << 10, (1 << 30) + (1 << 27), 102912 << 10]
    tool("qemu-img", "create", "-q", "-f", "qcow2", "disk", "1100T")
    for size in sorted({0, 512, 999 << 9, *near, *halves}):
        put("disk", 24, max(size, 0).to_bytes(8, "big"))
        theirs = [line for line in tool("qemu-img", "info", "disk").splitlines() if line.startswith("virtual size")]
        equal([line for line in told("info", "disk").splitlines() if line.startswith("virtual size")], theirs, f"a size of {size}")


def sizes_for_people():
    for size, text in ((0, "0 B"), (512, "512 B"), (65536, "64 KiB"), (1 << 20, "1 MiB"), (1536 << 10, "1.5 MiB"), ((10 << 30) + (1 << 29), "10.5 GiB"), (1 << 40, "1 TiB"), (1245184, "1.19 MiB")):
        told("create", "disk", str(size))
        equal(told("info", "disk").splitlines()[2], f"virtual size: {text} ({size} bytes)", "the size")


# What its disk is mapped to

def mapped(runs):
    """What stands at each offset where something changes."""
    return [(it["start"], it["length"], it["present"], it["zero"], it["data"], it.get("offset") if it["data"] else None) for it in runs]


def map_is_as_qemu_says(layout):
    qemu_image(layout)
    equal(mapped(json.loads(told("map", "--output=json", "disk"))), mapped(json.loads(tool("qemu-img", "map", "--output=json", "disk"))), "map")
    equal(told("map", "disk").split(), tool("qemu-img", "map", "disk").split(), "the table")


def map_of_an_overlay():
    """What the image leaves to its backing file is neither present nor zero."""
    tool("qemu-img", "create", "-q", "-f", "qcow2", "base", "1M")
    tool("qemu-img", "create", "-q", "-f", "qcow2", "-b", "base", "-F", "qcow2", "disk")
    qemu_io("disk", "write 64k 64k")
    runs = json.loads(told("map", "--output=json", "disk"))
    equal([it["data"] or it["zero"] or it["present"] for it in runs], [False, True, False], "the runs")


def map_of_compressed_data():
    with open("raw", "wb") as it:
        it.write(b"some text " * 20000)
    tool("qemu-img", "convert", "-c", "-f", "raw", "-O", "qcow2", "raw", "disk")
    runs = json.loads(told("map", "--output=json", "disk"))
    equal([(it["data"], it["compressed"], "offset" in it) for it in runs if it["present"]], [(True, True, False)], "the runs")


def map_of_nothing():
    told("create", "disk", "0")
    equal(json.loads(told("map", "--output=json", "disk")), [], "the map")


# Whether it is consistent

def checked(status, lines, corruptions, leaks):
    before = contents("disk")
    equal(tools("check", "disk"), (status, "".join(f"{line}\n" for line in lines), ""), "the report")
    got, text, _ = tools("check", "--output=json", "disk")
    done = subprocess.run(["qemu-img", "check", "--output=json", "-f", "qcow2", "disk"], stdout=subprocess.PIPE, stderr=subprocess.DEVNULL, timeout=600)
    ours, theirs = json.loads(text), json.loads(done.stdout)
    equal((got, done.returncode), (status, status), "the statuses, of both programs")
    equal((ours["corruptions"], ours["leaks"], ours["check-errors"]), (corruptions, leaks, 0), "the numbers")
    equal((ours["corruptions"] > 0, ours["leaks"]), (theirs.get("corruptions", 0) > 0, theirs.get("leaks", 0)), "beside QEMU")
    equal((ours["filename"], ours["format"]), (theirs["filename"], theirs["format"]), "the names")
    equal(contents("disk"), before, "the file")


def check_of_a_consistent_image():
    create("disk", 65536, 512)
    run("disk", "fill 0 512 11", "flush")
    checked(0, ["consistent, 0 leaked"], 0, 0)


def check_of_a_leak():
    check_of_a_consistent_image()
    put("disk", 1536, bytes(8))
    checked(3, ["leak 4 1 0", "leak 5 1 0", "consistent, 2 leaked"], 0, 2)


def check_of_a_missing_count():
    check_of_a_consistent_image()
    put("disk", 1034, bytes(2))
    checked(2, ["under 5 0 1", "copied 5 0 1", "broken, 2 breaches"], 2, 0)


def what_is_no_image():
    for command, status in (("info", 1), ("map", 1), ("check", 63)):
        with open("raw", "wb") as it:
            it.write(bytes(1024))
        said = "qimg-tools: raw: refused 19 metadata\nqimg-tools: raw: it doesn't begin as a qcow2 image: it may be a raw disk\n"
        equal(tools(command, "raw"), (status, "", said), command)
        got, text, messages = tools(command, "missing")
        equal((got, text), (1, ""), command)
        if "missing: No such file or directory" not in messages:
            raise AssertionError(f"{command} doesn't say why: {messages}")
    equal(subprocess.run(["qemu-img", "check", "raw"], capture_output=True, timeout=600).returncode, 63, "the status of QEMU's check")


def explains(reason, *more):
    """Each command that reads the disk or the tables is refused 19, and says why."""
    for command in (["map", "--output=json", "disk"], ["check", "disk"], ["vet", "disk"], ["convert", "disk", "raw"]):
        status, text, messages = tools(*command)
        equal((status in (1, 63), text), (True, ""), f"{command}, with {messages}")
        lines = messages.splitlines()
        equal((lines[0], len(lines)), ("qimg-tools: disk: refused 19 metadata", 2), f"the messages to {command}")
        for words in (reason, *more):
            if words not in lines[1]:
                raise AssertionError(f"{command} doesn't say {words!r}: {messages}")
    equal(os.path.exists("raw"), False, "the raw disk")


def info_of(*layout):
    """What the header says is told as by QEMU, also where the image isn't read."""
    tool("qemu-img", "create", "-q", "-f", "qcow2", *layout, "disk", "1M")
    told_of_the_header()


def encrypted():
    """An image that QEMU encrypts, by LUKS. Where the processor's time can't be told well enough for its keys, by AES."""
    key = ["--object", "secret,id=s,data=abc", "-o", "encrypt.key-secret=s"]
    by_luks = ["qemu-img", "create", "-q", "-f", "qcow2", *key, "-o", "encrypt.format=luks,encrypt.iter-time=10", "disk", "1M"]
    ran = subprocess.run(by_luks, capture_output=True, text=True)
    if ran.returncode and "CPU usage" in ran.stderr:
        tool("qemu-img", "create", "-q", "-f", "qcow2", *key, "-o", "encrypt.format=aes", "disk", "1M")
    else:
        equal((ran.returncode, ran.stderr), (0, ""), "an image encrypted by LUKS")


def told_of_the_header():
    ours, theirs = json.loads(told("info", "--output=json", "disk")), json.loads(tool("qemu-img", "info", "--output=json", "disk"))
    for it in (ours, theirs):
        it["format-specific"]["data"].pop("encrypt", None)
    equal(ours, {key: value for key, value in theirs.items() if key in ours}, "info")
    equal(sorted(set(theirs) - set(ours) - {"children"}), [], "keys that are missing")
    lines = [line for line in told("info", "disk").splitlines() if not line.startswith("disk size")]
    equal(lines, [line for line in tool("qemu-img", "info", "disk").splitlines() if line in lines], "lines")


def info_of_what_is_not_read():
    info_of("-o", "extended_l2=on")
    info_of("-o", "compression_type=zstd")
    encrypted()
    told_of_the_header()
    tool("qemu-img", "create", "-q", "-f", "qcow2", "-u", "-b", "some base", "-F", "raw", "disk", "1M")
    put("disk", 72, (1).to_bytes(8, "big"))
    equal(json.loads(told("info", "--output=json", "disk"))["backing-filename"], "some base", "the backing file of a dirty image")
    for bits in (1, 2, 3):
        tool("qemu-img", "create", "-q", "-f", "qcow2", "disk", "1M")
        put("disk", 72, bits.to_bytes(8, "big"))
        told_of_the_header()


def why_an_image_is_refused():
    """What qemu-img makes and this program doesn't read is named, and so is a header that QEMU marks."""
    tool("qemu-img", "create", "-q", "-f", "qcow2", "-o", "extended_l2=on", "disk", "1M")
    explains("extended L2", "qemu-img convert")
    tool("qemu-img", "create", "-q", "-f", "vmdk", "disk", "1M")
    explains("VMDK", "qemu-img convert")
    encrypted()
    explains("encrypted")
    compressed("zstd")
    os.remove("raw")
    explains("zlib", "qemu-img convert")
    tool("qemu-img", "create", "-q", "-f", "qcow2", "disk", "1M")
    for bits, words in ((1, "dirty"), (2, "corrupt"), (3, "corrupt"), (8, "zlib"), (32, "doesn't know"), (1 << 40, "doesn't know")):
        put("disk", 72, bits.to_bytes(8, "big"))
        explains(words)
    put("disk", 72, bytes(8))
    put("disk", 4, (4).to_bytes(4, "big"))
    explains("version")
    with open("disk", "wb"):
        pass
    explains("empty")


def names_what_the_lines_say():
    report = json.loads(tools("check", "--output=json", "disk")[1])
    lines = tools("check", "disk")[1].splitlines()
    named = [" ".join(str(value) for key, value in it.items() if "guest-ranges" not in key) for it in report["breaches"] + report["leaked-clusters"]]
    equal((named, report["corruptions"], report["leaks"]), (lines[:-1], len(report["breaches"]), len(report["leaked-clusters"])), "what is named")
    return report


def check_names_each_breach():
    """Each line of the report stands in the JSON too, with its kind and its numbers."""
    check_of_a_consistent_image()
    equal(names_what_the_lines_say()["breaches"], [], "a consistent image")
    put("disk", 1536, bytes(8))
    equal(names_what_the_lines_say()["leaked-clusters"], [{"kind": "leak", "cluster": at, "count": 1, "named": 0} for at in (4, 5)], "leaks")
    check_of_a_consistent_image()
    put("disk", 1034, bytes(2))
    equal(names_what_the_lines_say()["breaches"], [{"kind": kind, "cluster": 5, "count": 0, "named": 1, "guest-ranges": [{"start": 0, "length": 512}]} for kind in ("under", "copied")], "a missing count")
    put("disk", 60, (2).to_bytes(4, "big"))
    report = json.loads(tools("check", "--output=json", "disk")[1])
    equal((report["not-covered"]["snapshots"], [it["kind"] for it in report["breaches"]], report["leaked-clusters"]), (2, ["under", "copied"], None), "beside snapshots")


def touches(ranges, *more):
    """The first breach touches these ranges of the disk."""
    breach = names_what_the_lines_say()["breaches"][0]
    equal([(it["start"], it["length"]) for it in breach["guest-ranges"]], ranges, f"the ranges of {breach}")
    equal(("more-guest-ranges" in breach, *more), (len(ranges) == 16, *more), "whether there are more")


def ranges_that_breaches_touch():
    """Each breach of a cluster names the ranges that stand on it: of data, of an L2 table, of the L1 table, and none of a refblock."""
    for cluster, ranges in ((5, [(0, 512)]), (4, [(0, 32768)]), (3, [(0, 65536)]), (2, [])):
        check_of_a_consistent_image()
        put("disk", 1024 + 2 * cluster, bytes(2))
        equal(tools("check", "disk")[1].splitlines()[0], f"under {cluster} 0 1", "the breach")
        touches(ranges)
    check_of_a_consistent_image()
    entry = contents("disk")[2048:2056]
    put("disk", 2056, entry)
    touches([(0, 1024)])
    for at in range(0, 64, 2):
        put("disk", 2048 + 8 * at, entry + bytes(8))
    touches([(at * 512, 512) for at in range(0, 32, 2)])


def ranges_of_unaligned_offsets():
    """The disk ends within the range of its last table."""
    create("disk", (1 << 20) + 512, 4096)
    run("disk", "fill 12288 4096 11", "flush")
    table = int.from_bytes(contents("disk")[40:48], "big")
    l2 = int.from_bytes(contents("disk")[table + 1:table + 8], "big")
    whole = contents("disk")
    put("disk", l2 + 8 * 3, ((1 << 63) | 0x5200).to_bytes(8, "big"))
    equal("unaligned data 20992" in tools("check", "disk")[1], True, "the breach")
    touches([(12288, 4096)])
    with open("disk", "wb") as it:
        it.write(whole)
    put("disk", table, ((1 << 63) | l2 + 512).to_bytes(8, "big"))
    equal(f"unaligned l2 {l2 + 512}" in tools("check", "disk")[1], True, "the breach")
    touches([(0, (1 << 20) + 512)])


def with_a_snapshot():
    qemu_image("cluster_size=4096")
    tool("qemu-img", "snapshot", "-c", "one", "disk")
    qemu_io("disk", "write -P 5 0 300k")


def with_a_data_file():
    qemu_image("cluster_size=4096,data_file=data,data_file_raw=on")


def with_a_bitmap():
    qemu_image("cluster_size=4096")
    tool("qemu-img", "bitmap", "--add", "disk", "b")


def with_lazy_counts():
    qemu_image("lazy_refcounts=on")


def preallocated():
    tool("qemu-img", "create", "-q", "-f", "qcow2", "-o", "preallocation=metadata", "disk", "5M")


def compressed(how):
    with open("raw", "wb") as it:
        it.write(b"some text " * 20000 + bytes(480))
    tool("qemu-img", "convert", "-c", "-f", "raw", "-O", "qcow2", "-o", f"compression_type={how}", "raw", "disk")


def chained():
    tool("qemu-img", "create", "-q", "-f", "qcow2", "base", "1M")
    tool("qemu-img", "create", "-q", "-f", "qcow2", "-b", "base", "-F", "qcow2", "disk")
    qemu_io("disk", "write -P 6 64k 64k")


def no_false_alarm(make, lines, uncovered):
    """Where QEMU finds no error, none is told; what isn't covered is named, and leaked clusters aren't told then."""
    make()
    done = subprocess.run(["qemu-img", "check", "-f", "qcow2", "disk"], capture_output=True, timeout=600)
    equal(done.returncode, 0, f"the status of QEMU's check, with {done.stderr}")
    equal(tools("check", "disk"), (0, "".join(f"{line}\n" for line in lines), ""), "the report")
    report = json.loads(told("check", "--output=json", "disk"))
    equal((report["corruptions"], report["breaches"], report.get("not-covered")), (0, [], uncovered), "the report as JSON")


UNTOLD = "no errors, leaked clusters are not told"


def images_without_errors():
    """What `check` says of each variant of QEMU's images that it reads."""
    for make, lines, uncovered in (
        (with_a_snapshot, ["not covered: snapshots 1", UNTOLD], {"snapshots": 1, "bitmaps": False, "data-file": False}),
        (with_a_bitmap, ["not covered: bitmaps", UNTOLD], {"snapshots": 0, "bitmaps": True, "data-file": False}),
        (with_a_data_file, ["not covered: the data file", UNTOLD], {"snapshots": 0, "bitmaps": False, "data-file": True}),
        (with_lazy_counts, ["consistent, 0 leaked"], None),
        (preallocated, ["consistent, 0 leaked"], None),
        (lambda: compressed("zlib"), ["consistent, 0 leaked"], None),
        (chained, ["consistent, 0 leaked"], None),
    ):
        no_false_alarm(make, lines, uncovered)
        for file in os.listdir("."):
            os.remove(file)


def errors_beside_what_is_not_covered():
    """An error is told also where something isn't covered, with the status of a broken image."""
    for make in (with_a_snapshot, with_a_data_file):
        make()
        table = int.from_bytes(contents("disk")[40:48], "big")
        block = int.from_bytes(contents("disk")[int.from_bytes(contents("disk")[48:56], "big"):][:8], "big")
        put("disk", block + 2 * (table // 4096), bytes(2))
        status, text, messages = tools("check", "disk")
        equal((status, messages, any(line.startswith(f"under {table // 4096} 0 ") for line in text.splitlines()), text.splitlines()[-1].startswith("broken, ")), (2, "", True, True), f"the report: {text}")
        equal(subprocess.run(["qemu-img", "check", "disk"], capture_output=True, timeout=600).returncode, 2, "the status of QEMU's check")
        os.remove("disk")


def a_map_that_cannot_be_finished():
    """Nothing of it is printed."""
    create("disk", 1 << 20, 512)
    run("disk", "fill 0 512 11", "fill 524288 512 22", "flush")
    table = int.from_bytes(contents("disk")[40:48], "big")
    put("disk", table + 8 * 16, ((1 << 63) | 0x1100).to_bytes(8, "big"))
    for words in (["map", "disk"], ["map", "--output=json", "disk"]):
        equal(tools(*words)[:2], (1, ""), f"{words}")


# Whether a stranger's image may be taken in

def vets(status, lines, *words):
    before = contents("disk")
    equal(tools("vet", *words, "disk"), (status, "".join(f"{line}\n" for line in lines), ""), "what is told")
    got, text, _ = tools("vet", "--json", *words, "disk")
    equal((got, json.loads(text)["passes"]), (status, status == 0), "the same as JSON")
    equal(contents("disk"), before, "the image")


UNFIT = "it may not be taken in"


def images_that_may_be_taken_in():
    for make in (lambda: qemu_image("cluster_size=4096"), with_lazy_counts, preallocated, lambda: compressed("zlib")):
        make()
        vets(0, ["it may be taken in"])
        size = json.loads(told("info", "--output=json", "disk"))["virtual-size"]
        vets(0, ["it may be taken in"], "--max-size", str(size))
        vets(2, [f"its disk has {size} bytes, and {size - 1} are allowed", UNFIT], f"--max-size={size - 1}")


def images_that_may_not_be_taken_in():
    """One that names a file of the host is found out, whatever else it is; so is one that isn't consistent."""
    tool("qemu-img", "create", "-q", "-u", "-f", "qcow2", "-b", "/etc/passwd", "-F", "raw", "disk", "1M")
    named = "it names a backing file, whose bytes would be taken in with it"
    vets(2, [named, UNFIT])
    vets(2, [named, "its disk has 1048576 bytes, and 65536 are allowed", UNFIT], "--max-size", "64k")
    report = json.loads(tools("vet", "--output=json", "--max-size", "64k", "disk")[1])
    equal(report, {"filename": "disk", "passes": False, "virtual-size": 1 << 20, "too-large": True, "backing-file": True, "data-file": False, "snapshots": False, "corruptions": 0}, "the report")
    with_a_snapshot()
    vets(2, ["it has snapshots, whose bytes aren't looked at", UNFIT])
    os.remove("disk")
    with_a_data_file()
    vets(2, ["its data stand in another file, whose bytes would be taken in with it", UNFIT])
    os.remove("disk")
    check_of_a_missing_count()
    vets(2, ["it isn't consistent: qimg-tools check names 2 breaches", UNFIT])


def a_hostile_image_in_little_memory():
    """One file of a mebibyte names a full refblock in each of 131,072 entries of its reftable, so half a billion clusters are leaked."""
    told("create", "-o", "cluster_size=512,refcount_bits=1", "disk", "1M")
    put("disk", 40, (2050 * 512).to_bytes(8, "big") + (512).to_bytes(8, "big") + (2048).to_bytes(4, "big"))
    put("disk", 512, (2049 * 512).to_bytes(8, "big") * 131072 + b"\xff" * 512 + bytes(512))
    process = subprocess.Popen([TOOLS, "vet", "disk"], stdin=subprocess.DEVNULL, stdout=subprocess.DEVNULL)
    ended, used = os.wait4(process.pid, 0)[1:]
    process.returncode = os.waitstatus_to_exitcode(ended)
    equal((process.returncode, used.ru_maxrss < 64 * 1024), (2, True), f"the status, and whether {used.ru_maxrss} KiB are few")


def what_cannot_be_vetted():
    with open("disk", "wb") as it:
        it.write(bytes(1024))
    equal(tools("vet", "disk"), (1, "", "qimg-tools: disk: refused 19 metadata\nqimg-tools: disk: it doesn't begin as a qcow2 image: it may be a raw disk\n"), "a raw disk")
    equal(tools("vet", "missing")[:2], (1, ""), "a missing file")


# Whether two disks are the same

def compared(status, line, *words):
    """Both programs find the same, which is a line and a status."""
    done = subprocess.run(["qemu-img", "compare", *words], capture_output=True, timeout=600)
    equal((done.returncode, done.stdout.decode()), (status, f"{line}\n"), "QEMU's")
    equal(tools("compare", *words), (status, f"{line}\n", ""), "ours")
    equal(tools("compare", "-q", *words), (status, "", ""), "ours, without words")


def comparisons():
    qemu_image("cluster_size=4096")
    tool("qemu-img", "convert", "-f", "qcow2", "-O", "raw", "disk", "raw")
    told("convert", "-O", "qcow2", "-o", "cluster_size=2M", "raw", "other")
    for words in (["disk", "raw"], ["raw", "disk"], ["disk", "other"], ["raw", "raw"], ["-f", "qcow2", "-F", "raw", "disk", "raw"]):
        compared(0, "Images are identical.", *words)
    put("raw", (5 << 20) - 1, b"\x77")
    equal(tools("compare", "disk", "raw"), (1, f"Content mismatch at offset {(5 << 20) - 1}!\n", ""), "the last byte")
    equal(subprocess.run(["qemu-img", "compare", "disk", "raw"], capture_output=True, timeout=600).returncode, 1, "QEMU's status")
    put("raw", 65536, b"\x99")
    compared(1, "Content mismatch at offset 65536!", "disk", "raw")
    os.truncate("raw", 4 << 20)
    done = subprocess.run(["qemu-img", "compare", "-s", "disk", "raw"], capture_output=True, timeout=600)
    equal(tools("compare", "disk", "raw"), (done.returncode, done.stdout.decode(), ""), "other sizes, strictly")
    equal(done.returncode, 1, "the status")


def disks_that_cannot_be_compared():
    """The status isn't that of disks which differ, and the file that can't be read is named."""
    qemu_image("cluster_size=4096")
    chained()
    for words, named in ((["missing", "base"], "missing"), (["base", "missing"], "missing"), (["base", "disk"], "disk"), (["disk", "base"], "disk")):
        status, text, messages = tools("compare", *words)
        equal((status, text, messages.startswith(f"qimg-tools: {named}: ")), (2, "", True), f"{words}, with {messages}")
    if "refused 12 dependency" not in messages or "backing file" not in messages:
        raise AssertionError(f"it isn't said why: {messages}")
    for words in (["base"], ["base", "base", "base"], ["--json", "base", "base"]):
        equal(tools("compare", *words)[0], 2, f"{words}")


# Other sizes

def resized(words, size):
    """The program and QEMU give an image the same size, and the bytes below both sizes stay."""
    shutil.copy("disk", "theirs")
    tool("qemu-img", "resize", "-q", "-f", "qcow2", *words[:-1], "theirs", words[-1])
    equal(told("resize", *words[:-1], "disk", words[-1]), "Image resized.\n", f"{words}")
    told_size = json.loads(tool("qemu-img", "info", "--output=json", "disk"))["virtual-size"]
    equal(told_size, size, f"the size after {words}")
    consistent("disk", 0)
    equal(tool("qemu-img", "compare", "disk", "theirs").strip(), "Images are identical.", f"the disk after {words}")


def sizes_of_disks():
    qemu_image("cluster_size=4096")
    for words, size in ((["+1M"], 6 << 20), (["8M"], 8 << 20), (["--shrink", "-7M"], 1 << 20), (["--shrink", "68k"], 69632), (["+2k"], 71680), (["1M"], 1 << 20)):
        resized(words, size)
    told("resize", "--preallocation=metadata", "disk", "+256k")
    consistent("disk", 0)
    told("convert", "disk", "raw")
    equal((len(contents("raw")), any(contents("raw")[1 << 20:])), (1310720, False), "new bytes, in clusters that are taken at once")
    before = contents("disk")
    equal(tools("resize", "disk", "64k"), (1, "", "qimg-tools: disk: its last 1245184 bytes would be lost: --shrink allows it\n"), "a smaller disk")
    equal(tools("resize", "--shrink", "disk", "-2M"), (1, "", "qimg-tools: disk: no disk has such a size\n"), "less than nothing")
    equal(tools("resize", "disk", "+16383P")[0], 1, "a size past the longest table")
    equal(json.loads(told("info", "--output=json", "disk"))["virtual-size"], 1310720, "the size")
    told("resize", "-q", "--", "disk", "+0")
    equal(contents("disk"), before, "the image")


def bytes_that_come_back():
    """A disk that is made smaller within a cluster and then larger has zeros behind the smaller size."""
    create("disk", 65536, 65536)
    run("disk", "fill 0 65536 11", "flush")
    told("resize", "--shrink", "disk", "1k")
    told("resize", "disk", "128k")
    told("convert", "disk", "raw")
    equal(contents("raw"), b"\x11" * 1024 + bytes(130048), "the disk")


def an_overlay_is_not_resized():
    chained()
    before = contents("disk")
    status, text, messages = tools("resize", "disk", "+1M")
    equal((status, text, messages.splitlines()[0], contents("disk")), (1, "", "qimg-tools: disk: refused 12 dependency", before), "the refusal")


# New images, and conversions

def preallocations():
    """Each of QEMU's modes takes the clusters that it names, and gives zeros."""
    for mode, takes in (("off", False), ("metadata", True), ("falloc", True), ("full", True)):
        told("create", "-o", f"cluster_size=4k,preallocation={mode}", "disk", "1M")
        consistent("disk", 0)
        runs = json.loads(tool("qemu-img", "map", "--output=json", "disk"))
        equal(sum(it["length"] for it in runs if it["present"]), (1 << 20) * takes, f"the map of {mode}")
        equal(sum(it["length"] for it in json.loads(told("map", "--json", "disk")) if it["data"]), (1 << 20) * takes, f"what {mode} takes")
        told("convert", "disk", "raw")
        equal(contents("raw") == bytes(1 << 20), True, f"the bytes of {mode}")
    equal(os.stat("disk").st_blocks * 512 >= 1 << 20, True, "the room that a full image takes")
    equal(tools("create", "-o", "preallocation=some", "disk", "1M")[0], 1, "another mode")


def overlays():
    """An image over a backing file is QEMU's: it has that one's size, or the size that is asked for, and shows its bytes."""
    qemu_image("cluster_size=4096")
    os.rename("disk", "base")
    tool("qemu-img", "convert", "-f", "qcow2", "-O", "raw", "base", "raw")
    os.mkdir("folder")
    for words, size in ((["-b", "base", "-F", "qcow2", "disk"], 5 << 20), (["-b", "raw", "-F", "raw", "-o", "cluster_size=512", "disk"], 5 << 20), (["-b", "../base", "-F", "qcow2", "folder/disk", "6M"], 6 << 20), (["-F", "raw", "-b", os.path.abspath("raw"), "folder/disk"], 5 << 20)):
        told("create", *words)
        file = next(word for word in words if word.endswith("disk"))
        theirs = json.loads(tool("qemu-img", "info", "--output=json", file))
        below = (words[words.index("-b") + 1], words[words.index("-F") + 1])
        equal((theirs["virtual-size"], theirs["backing-filename"], theirs["backing-filename-format"]), (size, *below), f"{words}")
        equal(tool("qemu-img", "compare", "raw", file).strip().splitlines()[-1], "Images are identical.", f"the disk of {words}")
        equal(tools("check", file)[:2], (0, "consistent, 0 leaked\n"), f"the check of {words}")
        os.remove(file)
    for words, named in ((["-b", "missing", "-F", "raw", "disk"], "missing"), (["-b", "raw", "-F", "qcow2", "disk"], "raw"), (["-b", "base", "-F", "qcow2", "-o", "preallocation=full", "disk"], "disk")):
        status, text, messages = tools("create", *words)
        equal((status, text, messages.startswith(f"qimg-tools: {named}: "), os.path.exists("disk")), (1, "", True, False), f"{words}, with {messages}")


def images_of_images():
    """An image of an image has the same disk, in the layout that is asked for."""
    qemu_image("cluster_size=4096,refcount_bits=64")
    for words, layout in (([], (65536, 16)), (["-o", "cluster_size=512,refcount_bits=1"], (512, 1)), (["-f", "qcow2", "--verify", "-o", "cluster_size=2M"], (2 << 20, 16))):
        equal(told("convert", "-O", "qcow2", *words, "disk", "other"), "", "what is printed")
        consistent("other", 0)
        theirs = json.loads(tool("qemu-img", "info", "--output=json", "other"))
        equal((theirs["cluster-size"], theirs["format-specific"]["data"]["refcount-bits"]), layout, "the layout")
        equal(tool("qemu-img", "compare", "disk", "other").strip(), "Images are identical.", f"the disk of {words}")
    equal(rises(told("convert", "-p", "-O", "qcow2", "disk", "other")), [0, 100], "the percents")
    with_a_snapshot()
    told("convert", "-O", "qcow2", "disk", "other")
    consistent("other", 0)
    equal(told("compare", "disk", "other"), "Images are identical.\n", "the disk of an image with a snapshot")


def images_of_what_cannot_be_read():
    """The source is named, with what can be done, and no file is made."""
    for make, number, words in ((chained, 12, "qemu-img convert"), (lambda: compressed("zlib"), 7, "compressed")):
        make()
        before = sorted(os.listdir("."))
        for target in (["-O", "qcow2"], []):
            status, text, messages = tools("convert", *target, "disk", "other")
            equal((status, text, messages.startswith(f"qimg-tools: disk: refused {number} ")), (1, "", True), f"{target}, with {messages}")
            equal((words in messages, sorted(os.listdir("."))), (True, before), f"what is said, and the files: {messages}")


def conversions_that_are_verified():
    """A write that is lost is found out before the file has its name."""
    create("disk", 262144, 65536)
    run("disk", "fill 0 262144 22", "flush")
    told("convert", "--verify", "disk", "other")
    with open("other", "wb") as it:
        it.write(BEFORE)
    part = os.path.abspath(".other.qimg-part")
    for words, status in (([], 0), (["--verify"], 1)):
        done = subprocess.run(["strace", "-f", "-qq", "-o", "calls", "-P", part, "-e", "inject=pwrite64:retval=65536:when=2", TOOLS, "convert", *words, "disk", "other"], capture_output=True, timeout=600)
        if "INJECTED" not in contents("calls").decode():
            raise AssertionError("no write was lost")
        equal((done.returncode, done.stdout, os.path.exists(part)), (status, b"", False), f"{words}, with {done.stderr}")
        if status:
            equal((done.stderr, contents("other")), (b"qimg-tools: other: it was written, and reads otherwise than the source\n", BEFORE), "what is told, and the file")
        with open("other", "wb") as it:
            it.write(BEFORE)


# Images over others

BELOW = ["--backing", "upper", "--backing", "middle", "--backing", "lowest"]


def stacked():
    """A raw disk, and three images over it, of other sizes and clusters. Each shows bytes and zeros of its own, and hides some below."""
    with open("lowest", "wb") as it:
        it.write(random.Random(7).randbytes((1 << 20) + 512))
    for name, layout, below, size, *lines in (
        ("middle", "cluster_size=4096", "lowest", "3M", "write -P 1 64k 64k", "write -z 256k 64k", "write -P 2 2M 5120", "write -P 9 2900k 4k"),
        ("upper", "cluster_size=512", "middle", "2M", "write -P 3 128k 512", "write -P 4 1900k 512", "write -z 300k 1k"),
        ("disk", "cluster_size=65536", "upper", "4M", "write -P 5 0 64k", "write -z 512k 128k", "write -P 6 3M 64k", "write -P 7 700k 512"),
    ):
        tool("qemu-img", "create", "-q", "-f", "qcow2", "-o", layout, "-b", below, "-F", "raw" if below == "lowest" else "qcow2", name, size)
        qemu_io(name, *lines)


def images_over_others():
    """They are flattened as by qemu-img, into a raw disk and into an image, and each layer stays as it is."""
    stacked()
    tool("qemu-img", "convert", "-f", "qcow2", "-O", "raw", "disk", "theirs")
    before = [contents(name) for name in ("disk", "upper", "middle", "lowest")]
    equal(told("convert", "--verify", *BELOW, "disk", "raw"), "", "what is printed")
    equal(contents("raw") == contents("theirs"), True, "the raw disk")
    for layout in ("cluster_size=512", "cluster_size=2M,refcount_bits=1"):
        told("convert", "--verify", "-F", "raw", *BELOW, "-O", "qcow2", "-o", layout, "disk", "other")
        consistent("other", 0)
        equal(tool("qemu-img", "compare", "disk", "other").strip(), "Images are identical.", f"the image of {layout}")
    told("convert", "--backing=middle", "--backing", "lowest", "upper", "raw")
    equal(contents("raw") == open_by_qemu("upper"), True, "a part of the layers")
    equal(rises(told("convert", "-p", *BELOW, "disk", "raw")), [0, 100], "the percents")
    equal([contents(name) for name in ("disk", "upper", "middle", "lowest")] == before, True, "the layers")


def open_by_qemu(image):
    tool("qemu-img", "convert", "-f", "qcow2", "-O", "raw", image, "by-qemu")
    return contents("by-qemu")


def names_in_images_are_not_followed():
    """What lies below an image is what the words name, wherever it lies, and whatever the header names."""
    stacked()
    wanted = open_by_qemu("disk")
    os.mkdir("folder")
    for name in ("upper", "middle", "lowest"):
        os.rename(name, os.path.join("folder", f"my {name}"))
    with open("lowest", "wb") as it:
        it.write(b"\x99" * (1 << 20))
    words = [word for name in ("upper", "middle", "lowest") for word in ("--backing", f"folder/my {name}")]
    told("convert", *words, "disk", "raw")
    equal(contents("raw") == wanted, True, "the disk")
    middle = "folder/my middle"
    place = int.from_bytes(contents(middle)[100:104], "big")
    equal(contents(middle)[place:place + 4], b"\xe2\x79\x2a\xca", "the extension for the format")
    put(middle, place, b"\x12\x34\x56\x78")
    equal(tools("convert", *words, "disk", "raw"), (1, "", f"qimg-tools: {middle}: it doesn't say the format of its backing file: -F is to say it\n"), "a format that isn't known")
    told("convert", "-F", "raw", *words, "disk", "raw")
    equal(contents("raw") == wanted, True, "the disk, with the format in words")


def layers_that_are_refused():
    """What is missing, too much, or can't be read is named, and no file is made."""
    stacked()
    shutil.copy("lowest", "more")
    before = {name: contents(name) for name in os.listdir(".")}
    names = "names no backing file: --backing is given too often"
    for words, named, said in (
        (["disk"], "disk", "refused 12 dependency"), (BELOW[:2] + ["disk"], "upper", "refused 12 dependency"), (BELOW[:4] + ["disk"], "middle", "refused 12 dependency"),
        ([*BELOW, "--backing", "more", "disk"], "lowest", names), (["--backing", "more", "-F", "qcow2", "upper"], "more", "refused 19 metadata"),
        (["--backing", "missing", "disk"], "missing", "No such file"), (["--backing", ".", "disk"], ".", ""), (["-f", "raw", "--backing", "lowest", "disk"], "disk", "a raw disk lies over no backing file"),
        (["--backing", "middle", "--backing", "upper", "--backing", "lowest", "disk"], "upper", names), ([*BELOW, "-F", "qcow2", "disk"], "lowest", "refused 19 metadata"),
    ):
        for target in (["-O", "qcow2"], []):
            status, text, messages = tools("convert", *target, *words, "other")
            equal((status, text, messages.startswith(f"qimg-tools: {named}: "), said in messages), (1, "", True, True), f"{words}, with {messages}")
    equal(tools("convert", *BELOW, "disk", "middle"), (1, "", "qimg-tools: middle: it is a file that is read\n"), "a layer as the target")
    equal({name: contents(name) for name in os.listdir(".")} == before, True, "the files")


def a_layer_that_fails():
    """The layer that can't be read is named, with the system's words, and the target stays."""
    stacked()
    compressed("zlib")
    os.rename("disk", "packed")
    tool("qemu-img", "create", "-q", "-f", "qcow2", "-b", "packed", "-F", "qcow2", "over")
    with open("other", "wb") as it:
        it.write(BEFORE)
    for target in (["-O", "qcow2"], []):
        status, _, messages = tools("convert", *target, "--backing", "packed", "over", "other")
        equal((status, messages.splitlines()[0], contents("other")), (1, "qimg-tools: packed: refused 7 compressed", BEFORE), "a compressed layer")
    stacked()
    done = subprocess.run(["strace", "-f", "-qq", "-o", "calls", "-P", os.path.abspath("lowest"), "-e", "inject=pread64:error=EIO:when=2", TOOLS, "convert", *BELOW, "disk", "other"], capture_output=True, timeout=600)
    if "INJECTED" not in contents("calls").decode():
        raise AssertionError("no read failed")
    wanted = "qimg-tools: lowest: refused 15 storage\nqimg-tools: lowest: Input/output error (os error 5)\n"
    equal((done.returncode, done.stderr.decode(), contents("other")), (1, wanted, BEFORE), "a layer on a bad device")


# Large and thin disks

def within(seconds, *words):
    """The program ends in time, and answers its status, what it printed, and its messages."""
    done = subprocess.run([TOOLS, *words], capture_output=True, timeout=seconds, check=False)
    return done.returncode, done.stdout.decode(), done.stderr.decode()


def thin_disks():
    """An empty disk of ten tebibytes is exported by its tables, and takes no room."""
    told("create", "disk", "10T")
    equal(within(120, "convert", "disk", "raw"), (0, "", ""), "the export")
    equal((os.path.getsize("raw"), os.stat("raw").st_blocks < 100), (10 << 40, True), "the raw disk")
    equal(tool("qemu-img", "compare", "-f", "raw", "-F", "qcow2", "raw", "disk").strip(), "Images are identical.", "its bytes")


def thin_disks_from_image_to_image():
    """What no table maps isn't read: an image of a large thin disk takes little time, alone or over others, and has the same bytes."""
    told("create", "empty", "10T")
    equal(within(120, "convert", "-O", "qcow2", "empty", "disk"), (0, "", ""), "an empty disk")
    equal(tool("qemu-img", "compare", "empty", "disk").strip(), "Images are identical.", "the empty disk")
    told("create", "far", "2T")
    qemu_io("far", "write -P 0x11 1900G 4k")
    equal(within(120, "convert", "-O", "qcow2", "-o", "cluster_size=1M", "far", "disk"), (0, "", ""), "a cluster far out")
    equal(tool("qemu-img", "compare", "far", "disk").strip(), "Images are identical.", "the cluster far out")
    equal([(it["start"], it["length"]) for it in json.loads(told("map", "--json", "disk")) if it["data"]], [(1900 << 30, 1 << 20)], "what is mapped")
    consistent("disk", 0)
    tool("qemu-img", "create", "-q", "-f", "qcow2", "-o", "cluster_size=4k", "-b", "far", "-F", "qcow2", "middle", "3T")
    qemu_io("middle", "write -z 1900G 2k", "write -P 0x22 2500G 3k", "write -z 2501G 1M")
    tool("qemu-img", "create", "-q", "-f", "qcow2", "-b", "middle", "-F", "qcow2", "top", "4T")
    qemu_io("top", "write -P 0x33 1G 100k")
    equal(within(120, "convert", "-O", "qcow2", "--backing", "middle", "--backing", "far", "top", "disk"), (0, "", ""), "three layers")
    equal(tool("qemu-img", "compare", "top", "disk").strip(), "Images are identical.", "the layers' disk")
    equal(sum(it["length"] for it in json.loads(told("map", "--json", "disk")) if it["data"]), 4 << 16, "what is mapped of it")


def a_disk_that_no_table_maps():
    """A small file may claim a disk of 2 ^ 63 bytes. Its map ends where its tables do, and no raw disk is made of it."""
    told("create", "-o", "cluster_size=512", "disk", "64k")
    put("disk", 24, (1 << 63).to_bytes(8, "big"))
    equal(json.loads(within(60, "map", "--json", "disk")[1]), [{"start": 0, "length": 1 << 63, "depth": 0, "present": False, "zero": True, "data": False}], "the map")
    before = sorted(os.listdir("."))
    status, text, messages = within(60, "convert", "disk", "raw")
    equal((status, text, messages.startswith("qimg-tools: raw: "), sorted(os.listdir("."))), (1, "", True, before), f"the export, with {messages}")
    put("disk", 24, (1 << 60).to_bytes(8, "big"))
    equal(within(60, "convert", "-O", "qcow2", "-o", "cluster_size=2M", "disk", "thin"), (0, "", ""), "an image of it")
    equal(json.loads(told("info", "--output=json", "thin"))["virtual-size"], 1 << 60, "the size of the image")
    equal(within(60, "vet", "--max-size", "1T", "disk")[0], 2, "whether it may be taken in")


def sparse_raw_disks():
    """Holes of a raw disk take no cluster of an image, and no room of a raw disk that comes back. What is written stays, also the last byte."""
    size = 1 << 30
    with open("raw", "wb") as it:
        it.truncate(size)
    for place, count in ((300 << 20, 4096), ((600 << 20) + 12345, 70000), (size - 1, 1)):
        put("raw", place, b"\x11" * count)
    for words in ([], ["--verify"]):
        equal(within(120, "convert", "-O", "qcow2", *words, "raw", "disk"), (0, "", ""), "the import")
    equal([(it["start"], it["length"]) for it in json.loads(told("map", "--json", "disk")) if it["data"]], [(300 << 20, 65536), (600 << 20, 131072), (size - 65536, 65536)], "what is mapped")
    equal(os.path.getsize("disk") < 1 << 20, True, "the size of the image")
    consistent("disk", 0)
    compared(0, "Images are identical.", "-f", "raw", "-F", "qcow2", "raw", "disk")
    told("convert", "disk", "again")
    equal((os.path.getsize("again"), os.stat("again").st_blocks * 512 <= 4 * 65536), (size, True), "the raw disk that came back")
    equal(told("compare", "-f", "raw", "-F", "raw", "raw", "again"), "Images are identical.\n", "its bytes")
    os.truncate("again", size - 1)
    equal(tools("compare", "raw", "again")[:2], (1, "Strict mode: Image size mismatch!\n"), "a disk without the last byte")


# Each kind of image that QEMU makes

def zstd_compressed():
    compressed("zstd")


def zlib_compressed():
    compressed("zlib")


def extended():
    tool("qemu-img", "create", "-q", "-f", "qcow2", "-o", "extended_l2=on", "disk", "1M")


def plain():
    qemu_image("cluster_size=4096")


# What each command answers: `info`, `check`, `vet` and `convert`, and what is said where a conversion is refused.
KINDS = [
    (plain, 0, 0, 0, 0, ""), (preallocated, 0, 0, 0, 0, ""), (with_lazy_counts, 0, 0, 0, 0, ""), (with_a_snapshot, 0, 0, 2, 0, ""), (with_a_bitmap, 0, 0, 0, 0, ""),
    (chained, 0, 0, 2, 1, "names a backing file"), (with_a_data_file, 0, 0, 2, 1, "a data file"), (zlib_compressed, 0, 0, 0, 1, "compressed"), (zstd_compressed, 0, 1, 1, 1, "otherwise than by zlib"),
    (extended, 0, 1, 1, 1, "extended L2"), (encrypted, 0, 1, 1, 1, "encrypted"),
]


def a_kind_of_image(make, info, check, vet, convert, said):
    make()
    before = contents("disk")
    for command, status in (("info", info), ("check", check), ("vet", vet)):
        got, text, messages = tools(command, "disk")
        equal((got, bool(text)), (status, status != 1), f"{command}, with {messages}")
        equal(said in messages or status != 1, True, f"what is said: {messages}")
    for target in ([], ["-O", "qcow2"]):
        got, _, messages = tools("convert", "--verify", *target, "disk", "made")
        equal((got, said in messages, os.path.exists("made")), (convert, True, convert == 0), f"convert {target}, with {messages}")
        if convert == 0:
            equal(tool("qemu-img", "compare", *(["-F", "qcow2"] if target else ["-F", "raw"]), "-f", "qcow2", "disk", "made").strip(), "Images are identical.", "what was made")
            os.remove("made")
    equal(contents("disk") == before, True, "the image")


def created(words, layout):
    told("create", *words, "disk", "10M")
    consistent("disk", 0)
    theirs = json.loads(tool("qemu-img", "info", "--output=json", "disk"))
    equal((theirs["virtual-size"], theirs["cluster-size"], theirs["format-specific"]["data"]["refcount-bits"]), (10 << 20, *layout), "the image")


def sizes():
    """Sizes are those of qemu-img, also with a fraction, which is rounded down."""
    for word, size in (("0", 0), ("512", 512), ("64k", 65536), ("64K", 65536), ("3M", 3 << 20), ("10G", 10 << 30), ("2t", 2 << 40), ("1.5G", 3 << 29), ("0.5k", 512), ("2.250m", 9 << 18), ("0.00048828125M", 512), ("1.0G", 1 << 30)):
        told("create", "disk", word)
        tool("qemu-img", "create", "-q", "-f", "qcow2", "theirs", word)
        for file in ("disk", "theirs"):
            equal(json.loads(told("info", "--output=json", file))["virtual-size"], size, f"{file} of {word}")
    for bound, status in (("1.1M", 2), ("0.0000000000000000001E", 2), ("1023.9999999999999999M", 2), ("15.9999999999999999999E", 0)):
        equal(tools("vet", "--max-size", bound, "disk")[0], status, f"a bound of {bound}")
    told("resize", "disk", "+0.5k")
    equal(json.loads(told("info", "--output=json", "disk"))["virtual-size"], (1 << 30) + 512, "a larger disk")
    os.remove("disk")
    for word in ("", "k", "10x", "-1", "+1", "1kk", "0x10", "16E", "18446744073709551616", "1 k", "é", "1.5", ".5G", "1.G", "1.", ".", "1.5.5G", "1.-5G", "1.5kk", "15.9999999999999999999999E", "0.00000000000000000000k", "16.0E"):
        status, text, messages = tools("create", "disk", word)
        equal((status, text, os.path.exists("disk")), (1, "", False), f"a size of {word!r}, with {messages}")


def layouts_that_images_do_not_have():
    for layout in ("cluster_size=100", "refcount_bits=3", "cluster_size=4M"):
        equal(tools("create", "-o", layout, "disk", "1M"), (1, "", "qimg-tools: disk: refused 5 invalid option\n"), layout)
        equal(os.listdir("."), [], "the files")
    with open("disk", "wb") as it:
        it.write(b"some bytes")
    equal(tools("create", "-o", layout, "disk", "1M")[0], 1, layout)
    equal(contents("disk"), b"some bytes", "a file that was there")


def formats_that_are_given():
    """The format of an image may be said, as QEMU's users do, where it is qcow2."""
    told("create", "-f", "qcow2", "disk", "1M")
    for command in ("info", "check", "map"):
        equal(told(command, "-f", "qcow2", "disk"), told(command, "disk"), command)
        equal(tools(command, "-f", "raw", "disk"), (1, "", "qimg-tools: raw: the only format here is qcow2\nqimg-tools --help lists the options\n"), command)


def parts_of_sectors():
    """A disk that ends in a part of a sector is made, and it is said that QEMU takes the whole ones alone."""
    for words in (["create", "disk", "1000"], ["convert", "-O", "qcow2", "raw", "disk"]):
        with open("raw", "wb") as it:
            it.write(b"\x11" * 1000)
        equal(tools(*words), (0, "", "qimg-tools: disk: the disk ends in a part of a sector: QEMU doesn't see its last 488 bytes\n"), f"{words}")
        equal(json.loads(tool("qemu-img", "info", "--output=json", "disk"))["virtual-size"], 512, "what QEMU sees")
    equal(tools("create", "disk", "1024"), (0, "", ""), "whole sectors")


def rises(text):
    """What `-p` printed: percents from 0 to 100 in the form of qemu-img, each more than the one before but for the last, which may be told twice. They are answered."""
    found = re.findall(r" {4}\((\d+\.\d\d)/100%\)[\r\n]", text)
    equal(text, "".join(f"    ({it}/100%)\r" for it in found[:-1]) + "    (100.00/100%)\n", "the form of the progress")
    percents = [float(it) for it in found]
    equal((percents[0], percents[-1], len(percents) <= 102), (0, 100, True), "its beginning, its end and its length")
    before = percents[:-1]
    equal(before, sorted(set(before)), "the percents")
    return percents


def progress_as_qemu_shows_it():
    """Of 5 MiB without zeros each of 80 clusters is 1.25 percent, on the way to an image and back."""
    with open("raw", "wb") as it:
        it.write(b"\x11" * (5 << 20))
    wanted = [at * 1.25 for at in range(81)] + [100]
    for words in (["-f", "raw", "-O", "qcow2", "raw", "disk"], ["-f", "qcow2", "-O", "raw", "disk", "again"]):
        percents = rises(told("convert", "-p", *words))
        equal(percents, wanted, "the percents")
        theirs = [float(it) for it in re.findall(r"\((\d+\.\d\d)/100%\)", tool("qemu-img", "convert", "-p", *words[:-1], "theirs"))]
        equal((percents[0], percents[-2:]), (theirs[0], theirs[-2:]), "beside QEMU")


def progress_of_little_and_of_much():
    """A disk of no bytes has a beginning and an end; one of many clusters no more than one line for each percent."""
    for size in (0, 512, 64 << 20):
        with open("raw", "wb") as it:
            it.truncate(size)
        percents = rises(told("convert", "-p", "-f", "raw", "-O", "qcow2", "-o", "cluster_size=4k", "raw", "disk"))
        equal(len(percents) > 90, size > 512, f"the percents of {size} bytes")
        equal(rises(told("convert", "-p", "disk", "again")), [0, 100], "the percents of zeros, which aren't written")


def there_and_back(size, layout):
    chosen = random.Random(size)
    disk = bytearray(size)
    for _ in range(8):
        at = chosen.randrange(size)
        some = chosen.randbytes(min(9000, size - at))
        disk[at:at + len(some)] = some
    with open("raw", "wb") as it:
        it.write(disk)
    rises(told("convert", "-p", "-f", "raw", "-O", "qcow2", "-o", layout, "raw", "disk"))
    consistent("disk", 0)
    equal(contents("raw"), bytes(disk), "the raw disk that was read")
    equal(tool("qemu-img", "compare", "-f", "raw", "-F", "qcow2", "raw", "disk").strip(), "Images are identical.", "qemu-img compare")
    equal(told("convert", "disk", "again"), "", "what is printed")
    equal(contents("again"), bytes(disk), "the raw disk that came back")
    equal(told("convert", "-O", "qcow2", "again", "disk2"), "", "what is printed")


def conversions_that_are_refused():
    create("disk", 65536, 512)
    os.truncate("disk", 2048)
    equal(tools("convert", "-f", "raw", "disk", "other"), (1, "", "qimg-tools: disk: a raw disk of a raw disk is a copy, as cp makes it\n"), "a raw disk of a raw disk")
    equal(os.listdir("."), ["disk"], "the files")
    told("convert", "-f", "raw", "-O", "qcow2", "disk", "other")
    told("convert", "other", "again")
    equal(contents("again"), contents("disk"), "the image in an image")
    with open("raw", "wb") as it:
        it.write(bytes(1024))
    status, _, messages = tools("convert", "raw", "again")
    equal((status, messages.splitlines()[0]), (1, "qimg-tools: raw: refused 19 metadata"), "no image")
    equal(tools("convert", "disk", "disk"), (1, "", "qimg-tools: disk: it is the file that is read\n"), "a file into itself")
    equal(tools("convert", "missing", "none")[0], 1, "a missing file")
    equal(os.path.exists("none"), False, "the file that wasn't made")


def the_file_that_failed():
    """Where the target fails it is named, and not the source."""
    create("disk", 65536, 512)
    with open("raw", "wb") as it:
        it.write(b"\x11" * 4096)
    wanted = "qimg-tools: /dev/full: refused 15 storage\nqimg-tools: /dev/full: No space left on device (os error 28)\n"
    equal(tools("convert", "-O", "qcow2", "raw", "/dev/full"), (1, "", wanted), "convert")
    equal(tools("convert", "-O", "qcow2", "-o", "cluster_size=100", "raw", "other"), (1, "", "qimg-tools: other: refused 5 invalid option\n"), "a layout")
    equal(sorted(os.listdir(".")), ["disk", "raw"], "the files")
    equal(tools("convert", "disk", "missing/other"), (1, "", "qimg-tools: missing/other: No such file or directory (os error 2)\n"), "a missing folder")


BEFORE = b"what was there before"


def files_past_a_limit():
    """A conversion that would make a file too large is refused, and what was there stays; the system's signal doesn't end it."""
    data = random.Random(3).randbytes(9000 // 512 * 512)
    with open("raw", "wb") as it:
        it.write(data)
    told("convert", "-O", "qcow2", "-o", "cluster_size=512", "raw", "disk")
    for words in (["convert", "-O", "qcow2", "raw", "other"], ["convert", "disk", "other"]):
        with open("other", "wb") as it:
            it.write(BEFORE)
        done = subprocess.run(["prlimit", "--fsize=6000", TOOLS, *words], capture_output=True, timeout=600)
        equal((done.returncode, contents("other"), sorted(os.listdir("."))), (1, BEFORE, ["disk", "other", "raw"]), f"{words}, with {done.stderr}")
    equal(done.stderr.decode(), "qimg-tools: other: it can hold 6000 bytes, and the disk has 8704\n", "the message")
    done = subprocess.run(["prlimit", "--fsize=6000", TOOLS, "create", "-o", "cluster_size=512,preallocation=full", "new", "64k"], capture_output=True, timeout=600)
    equal((done.returncode, b"refused 15 storage" in done.stderr, os.path.exists("new")), (1, True, False), f"a new image, with {done.stderr}")


def an_error_that_comes_late():
    """The system may report only when a file is synced that it lost bytes. Then a new image is removed, and nothing is told as done."""
    for words in (["create", "disk", "1M"], ["create", "-b", "base", "-F", "raw", "disk", "1M"], ["resize", "disk", "2M"]):
        with open("base", "wb") as it:
            it.write(bytes(512))
        if words[0] == "resize":
            told("create", "disk", "1M")
        done = subprocess.run(["strace", "-f", "-qq", "-o", "calls", "-P", os.path.abspath("disk"), "-e", "inject=fsync:error=EIO:when=1", TOOLS, *words], capture_output=True, timeout=600)
        said = b"qimg-tools: disk: refused 15 storage\nqimg-tools: disk: Input/output error (os error 5)\n"
        equal((done.returncode, done.stdout, done.stderr, os.path.exists("disk")), (1, b"", said, words[0] == "resize"), f"{words}")


def a_device_that_is_too_small():
    """It is refused, and stays as it is."""
    data = random.Random(1).randbytes(1 << 20)
    with open("device", "wb") as it:
        it.write(data)
    told("create", "disk", "2M")
    made = subprocess.run(["losetup", "--find", "--show", "device"], capture_output=True, check=False) if shutil.which("losetup") else None
    if made is None or made.returncode:
        raise NotTried("no block device can be made here")
    device = made.stdout.decode().strip()
    try:
        equal(tools("convert", "disk", device), (1, "", f"qimg-tools: {device}: it can hold 1048576 bytes, and the disk has 2097152\n"), "convert")
        equal(contents(device) == data, True, "the device")
        told("create", "disk", "1M")
        told("convert", "disk", device)
        equal(any(contents(device)), False, "the device once it was written")
    finally:
        subprocess.run(["losetup", "--detach", device], check=True)


def an_image_that_qemu_has_open():
    """It is refused to whoever would write it, and stays as it is."""
    told("create", "disk", "1M")
    told("create", "other", "1M")
    before = contents("disk")
    with opened_by_qemu("disk"):
        for words in (["create", "disk", "2M"], ["resize", "disk", "2M"], ["convert", "other", "disk"], ["convert", "-f", "raw", "-O", "qcow2", "other", "disk"]):
            equal(tools(*words), (1, "", "qimg-tools: disk: another program, such as QEMU, has it open\n"), f"{words}")
        equal(contents("disk"), before, "the image")
    told("create", "disk", "2M")


def a_conversion_that_is_stopped():
    """The name has what it had until the file is whole, and where that fails nothing is left."""
    told("create", "disk", "64k")
    for call in ("fsync", "rename"):
        with open("other", "wb") as it:
            it.write(BEFORE)
        part = os.path.abspath(".other.qimg-part")
        done = subprocess.run(["strace", "-f", "-qq", "-o", "calls", "-P", part, "-e", f"inject={call}:error=EIO:when=1", TOOLS, "convert", "disk", "other"], capture_output=True, timeout=600)
        equal((done.returncode, contents("other"), os.path.exists(part)), (1, BEFORE, False), call)
        if "INJECTED" not in contents("calls").decode():
            raise AssertionError(f"{call} didn't fail")
    told("convert", "disk", "other")
    equal(contents("other"), bytes(65536), "the raw disk")


def a_conversion_that_is_killed():
    """The name has what it had, and what is left of the killed run is removed by the next one."""
    with open("raw", "wb") as it:
        it.write(b"\x11" * (1 << 20))
    told("convert", "-O", "qcow2", "raw", "disk")
    part = os.path.abspath(".other.qimg-part")
    for words in (["-O", "qcow2", "raw", "other"], ["-O", "qcow2", "disk", "other"], ["disk", "other"]):
        with open("other", "wb") as it:
            it.write(BEFORE)
        killed = subprocess.run(["strace", "-f", "-qq", "-o", "calls", "-P", part, "-e", "inject=pwrite64:signal=KILL:when=2", TOOLS, "convert", *words], capture_output=True, timeout=600)
        equal((killed.returncode != 0, contents("other"), os.path.exists(part)), (True, BEFORE, True), f"{words} killed")
        told("convert", *words)
        equal((contents("other") != BEFORE, os.path.exists(part)), (True, False), f"{words} again")


def a_full_device():
    create("disk", 65536, 512)
    with open("/dev/full", "wb") as full:
        for words in (["info", "disk"], ["map", "disk"], ["check", "disk"], ["--help"]):
            status, _, messages = tools(*words, stdout=full)
            equal(status, 1, f"{words}")
            if "No space left on device" not in messages:
                raise AssertionError(f"{words} doesn't say why: {messages}")


# The words

BAD_WORDS = [
    ([], "a command is missing"), (["info"], "a file is missing"), (["info", "disk", "more"], "more"), (["info", "-p", "disk"], "-p"), (["info", "--output=xml", "disk"], "--output=xml"),
    (["info", "--output"], "--output"), (["map"], "a file is missing"), (["check"], "a file is missing"), (["check", "-f", "raw", "disk"], "raw"), (["convert", "disk"], "a second word is missing"),
    (["convert", "a", "b", "c"], "c"), (["convert", "-O", "vmdk", "a", "b"], "vmdk"), (["create", "disk"], "a second word is missing"), (["create", "-o", "size=1", "disk", "1M"], "size=1"),
    (["create", "-o", "cluster_size=x", "disk", "1M"], "cluster_size=x"), (["create", "-o"], "-o"), (["create", "-O", "raw", "disk", "1M"], "-O"), (["Info", "disk"], "Info"), (["--help", "more"], "more"),
    (["--version", "-p"], "-p"), (["create", "disk", "1x"], "1x"), (["create", "disk", "1.5"], "1.5"), (["convert", "-o", "cluster_size=4k", "-O", "raw", "a", "b"], "-o"), (["convert", "-o", "cluster_size=4k", "a", "b"], "-o"),
    (["info", "--frob", "disk"], "--frob"), (["vet"], "a file is missing"), (["vet", "--max-size", "x", "disk"], "x"), (["vet", "-o", "disk"], "-o"), (["resize", "disk"], "a second word is missing"),
    (["resize", "disk", "+"], "+"), (["resize", "--preallocation=some", "disk", "1M"], "--preallocation=some"), (["resize", "--shrink=1", "disk", "1M"], "--shrink=1"), (["resize", "-F", "raw", "disk", "1M"], "-F"),
    (["convert", "--verify=yes", "a", "b"], "--verify=yes"), (["convert", "-o", "preallocation=full", "-O", "qcow2", "a", "b"], "preallocation=full"), (["create", "--shrink", "disk", "1M"], "--shrink"),
    (["create", "-b", "base", "disk", "1M"], "-b"), (["create", "-F", "raw", "disk", "1M"], "-F"), (["convert", "-b", "base", "disk", "other"], "-b"), (["convert", "-F", "raw", "disk", "other"], "-F"), (["convert", "--backing"], "--backing"), (["map", "--backing", "base", "disk"], "--backing"), (["info", "-1", "disk"], "-1"), (["info", "--", "-1", "disk"], "disk"),
    (["check", "-r", "leaks", "disk"], "-r"), (["convert", "-c", "a", "b"], "-c"), (["convert", "-n", "a", "b"], "-n"), (["convert", "-l", "one", "a", "b"], "-l"), (["info", "--backing-chain", "disk"], "--backing-chain"), (["create", "-u", "disk", "1M"], "-u"),
    (["info", "--image-opts", "disk"], "--image-opts"), (["info", "-U", "disk"], "-U"), (["snapshot", "-l", "disk"], "snapshot"), (["create", "-f", "raw", "disk", "1M"], "raw"),
]


def refuses_words(words, named):
    """The word that can't be read is named, and nothing is done."""
    status, text, messages = tools(*words)
    equal((status, text, len(messages.splitlines())), (1, "", 2), f"{words}, with {messages}")
    equal(messages.startswith((f"qimg-tools: {named}: ", f"qimg-tools: {named}\n")), True, f"what is named: {messages}")
    equal(os.listdir("."), [], "the files")


def help_and_version():
    if not told("--help").startswith("usage: qimg-tools info"):
        raise AssertionError("no help")
    equal(told("--version").split()[0], "qimg-tools", "the version")
    for command in ("info", "map", "check", "vet", "compare", "convert", "create", "resize"):
        equal((told(command, "--help"), told(command, "-h", "disk")), (told("--help"), told("--help")), f"{command} --help")
    equal(os.listdir("."), [], "the files")


def words_of_qemu():
    """What QEMU's users type first is taken."""
    told("create", "-q", "-f", "qcow2", "--", "disk", "1M")
    for command in ("info", "map", "check"):
        for words in (["--json"], ["--output", "json"], ["-f", "qcow2", "--output=json"]):
            equal(told(command, *words, "disk"), told(command, "--output=json", "disk"), f"{command} {words}")
        equal(told(command, "--output=human", "disk"), told(command, "disk"), command)
    equal((told("-V"), told("-h")), (told("--version"), told("--help")), "short words")
    equal((tools("compare", "disk", "disk")[0], tools("compare", "-s", "disk", "disk")[:2]), (0, (2, "")), "a comparison, and a word that is refused")


def words_that_are_no_text():
    """A name that isn't UTF-8 is refused, and it is said."""
    done = subprocess.run([TOOLS, "info", b"\xff"], capture_output=True, timeout=600)
    equal((done.returncode, done.stdout, done.stderr[:18]), (1, b"", b"qimg-tools: words:"), "a name")


def main():
    checks = Checks()
    for layout in LAYOUTS:
        checks.run(f"info of {layout}", info_is_as_qemu_says, layout)
        checks.run(f"the lines of info of {layout}", info_lines, layout)
        checks.run(f"map of {layout}", map_is_as_qemu_says, layout)
    for check in (
        info_names_the_backing_file, control_characters_in_names, sizes_as_qemu_rounds_them, sizes_for_people, map_of_an_overlay, map_of_compressed_data, map_of_nothing, check_of_a_consistent_image, check_of_a_leak, check_of_a_missing_count, what_is_no_image,
        why_an_image_is_refused, check_names_each_breach, a_map_that_cannot_be_finished, formats_that_are_given, parts_of_sectors, the_file_that_failed, files_past_a_limit, an_error_that_comes_late, a_device_that_is_too_small,
        an_image_that_qemu_has_open, a_conversion_that_is_stopped, a_conversion_that_is_killed, words_that_are_no_text, words_of_qemu, a_hostile_image_in_little_memory,
        info_of_what_is_not_read, images_without_errors, errors_beside_what_is_not_covered, images_that_may_be_taken_in, images_that_may_not_be_taken_in, what_cannot_be_vetted, comparisons, disks_that_cannot_be_compared,
        ranges_that_breaches_touch, ranges_of_unaligned_offsets, images_over_others, names_in_images_are_not_followed, layers_that_are_refused, a_layer_that_fails, thin_disks, thin_disks_from_image_to_image, a_disk_that_no_table_maps, sparse_raw_disks,
        overlays, sizes_of_disks, bytes_that_come_back, an_overlay_is_not_resized, preallocations, images_of_images, images_of_what_cannot_be_read, conversions_that_are_verified,
        sizes, layouts_that_images_do_not_have, progress_as_qemu_shows_it, progress_of_little_and_of_much, conversions_that_are_refused, a_full_device, help_and_version,
    ):
        checks.run(check.__name__, check)
    for make, *answers in KINDS:
        checks.run(f"an image of QEMU, {make.__name__}", a_kind_of_image, make, *answers)
    for words, layout in (([], (65536, 16)), (["-o", "cluster_size=4k"], (4096, 16)), (["-o", "refcount_bits=1,cluster_size=2M"], (2 << 20, 1)), (["-o", "cluster_size=512", "-o", "refcount_bits=64"], (512, 64))):
        checks.run(f"create {words}", created, words, layout)
    for size, layout in ((1 << 20, "cluster_size=512"), (5 << 20, "cluster_size=64k,refcount_bits=1"), (100000 // 512 * 512, "cluster_size=4096")):
        checks.run(f"{size} bytes to an image of {layout} and back", there_and_back, size, layout)
    for words, named in BAD_WORDS:
        checks.run(f"the words {words}", refuses_words, words, named)
    checks.done()


main()
