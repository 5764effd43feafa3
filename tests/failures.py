#!/usr/bin/env -S python3 -B
"""System calls of the program and growths of its memory fail in turn: what it prints then, and its status. A call is made to fail by strace, a growth by a library that is loaded before."""

import resource
import shutil
import subprocess

import checks
from checks import Checks, contents, create, equal
from failing import failing, has_failed, refuser, refusing

STORAGE = "refused 15 storage\n"
FAILED = "refused 16 failed\n"
MEMORY = "refused 14 memory\n"


def each(call, words, given=b""):
    """What the program answers where its first call of a kind fails, then the second, and so on, up to the run in which none failed."""
    told = []
    for number in range(1, 60):
        told.append(failing("disk", call, number, words, input=given))
        if not has_failed():
            return told
    raise AssertionError(f"more than {len(told)} calls of {call}")


def put_nothing(file):
    """A file of no bytes: strace follows only a file that is there."""
    with open(file, "wb"):
        pass


def disk():
    create("disk", 65536, 512)


MAGIC = b"QFI\xfb"
OLD = b"no image" * 250


def put_old():
    with open("disk", "wb") as it:
        it.write(OLD)


def may_be_left(told):
    """After a refused create the file is as it was, no image, or a consistent image of no bytes or of the size that was asked for, which shows zeros."""
    left = contents("disk")
    if left == OLD or left[:4] != MAGIC:
        return
    checks.consistent("disk")
    size = int(checks.run("disk", "size")[0].removeprefix("size "))
    equal(size in (0, 65536), True, f"the size {size} after {told}")
    if size:
        equal(checks.run("disk", "read 0 65536"), ["data " + "00" * 65536], f"the disk after {told}")


def creating(mode):
    return ["create", "disk", "65536", "512", "16", mode]


def each_call_of_creating(call, mode, least):
    """Over a file that has other bytes: each call of the kind fails in turn, of which there are so many at least."""
    for number in range(1, 200):
        put_old()
        told = failing("disk", call, number, creating(mode))
        if not has_failed():
            equal(told, (0, "created\n"), "where none failed")
            equal(number > least, True, f"how many calls failed: {number - 1}")
            return
        equal(told, (1, STORAGE), f"at call {number}")
        may_be_left(f"call {number}")
    raise AssertionError(f"more than 199 calls of {call}")


def each_growth_of_creating(mode):
    """Each growth is refused in turn: some before the file changes, and some afterwards."""
    library = refuser()
    refused = set()
    for growth in range(1, 2000):
        put_old()
        status, output, came = refusing(library, growth, creating(mode), b"")
        if (status, output) == (0, "created\n"):
            checks.consistent("disk", 0)
            # a call may do with less
            if came:
                continue
            equal(refused, {False, True}, "whether the file had changed as growths were refused")
            return
        equal((status, output, came), (1, MEMORY, True), f"at growth {growth}")
        refused.add(contents("disk") != OLD)
        may_be_left(f"growth {growth}")
    raise AssertionError("more than 2,000 growths")


def each_call_that_clears_the_autoclear_bits():
    """One write clears them. Where it fails, opening is refused, and the file is as it was."""
    disk()
    checks.put("disk", 88, b"\xff" * 8)
    before = contents("disk")
    equal(failing("disk", "pwrite64", 1, ["run", "disk"], input=b"size\n"), (1, STORAGE), "where the write fails")
    equal(contents("disk"), before, "the file after the write that failed")
    equal(failing("disk", "pwrite64", 2, ["run", "disk"], input=b"size\n"), (0, "size 65536\n"), "where a second write would fail")
    equal(has_failed(), False, "whether there was a second write")
    equal(contents("disk"), before[:88] + bytes(8) + before[96:], "the file")


def each_read_of_opening():
    disk()
    told = each("pread64", ["run", "disk"], b"size\n")
    equal(told[-1], (0, "size 65536\n"), "where none failed")
    equal(told[:-1], [(1, STORAGE)] * 4, "where one failed")


def each_write_of_creating():
    put_nothing("disk")
    told = each("pwrite64", creating("none"))
    equal(told[-1], (0, "created\n"), "where none failed")
    equal(told[:-1], [(1, STORAGE)] * 7, "where one failed")


def each_write_of_a_write():
    """The first four writes are those of the command, and the last two those of the flush at the end."""
    of_the_command, of_the_flush = (1, STORAGE + FAILED), (1, "ok\n" + STORAGE)
    for number, want in enumerate([of_the_command] * 4 + [of_the_flush] * 2 + [(0, "ok\n")], 1):
        disk()
        equal(failing("disk", "pwrite64", number, ["run", "disk"], input=b"fill 0 512 11\n"), want, f"at write {number}")
        equal(checks.qimg("run", "disk", given=b"read 0 1\n")[1], "data 11\n" if number == 7 else "data 00\n", f"at write {number}")


RANGES = [
    ("prepare 0 100 1000 keep", "prepared 2660 1000"), ("put 0 0 " + "11" * 1000, "ok"), ("commit 0", "ok"), ("flush", "ok"),
    ("prepare 1 2048 1536 overwrite", "prepared 4096 1536"), ("put 1 0 " + "22" * 1536, "ok"), ("drop 1", "ok"), ("flush", "ok"),
]


def each_write_of_ranges():
    """Two ranges of three clusters, one that is committed and one that is dropped. What stands afterwards has the first as a whole or not at all, and nothing of the second."""
    given = "".join(f"{line}\n" for line, _ in RANGES).encode()
    wanted = [answer for _, answer in RANGES]
    for number in range(1, 60):
        disk()
        status, output = failing("disk", "pwrite64", number, ["run", "disk"], input=given)
        answers = output.splitlines()
        if answers == wanted:
            equal((status, number > 8), (0, True), "where none failed")
            return
        equal(status, 1, f"the status at write {number}")
        failed = answers.index(STORAGE.strip())
        equal(answers[:failed], wanted[:failed], f"before write {number}")
        later = [answer for (line, _), answer in zip(RANGES[failed + 1:], answers[failed + 1:]) if not line.startswith("drop")]
        equal(set(later + answers[len(RANGES):]) - {FAILED.strip(), "misuse"}, set(), f"after write {number}")
        checks.consistent("disk")
        told = checks.qimg("run", "disk", given=b"read 0 100\nread 100 1000\nread 1100 4000\n")[1].splitlines()
        equal((told[0], told[2]), ("data " + "00" * 100, "data " + "00" * 4000), f"the other bytes after write {number}")
        equal(told[1] in ("data " + "00" * 1000, "data " + "11" * 1000), True, f"the range after write {number}")
        equal(told[1] == "data " + "11" * 1000, failed > 3, f"whether the range is there after write {number}")
    raise AssertionError("more than 60 writes")


def mixed():
    """Copied data, two clusters that zero entries keep, data that another entry is counted for, and a new cluster stand in a range."""
    disk()
    equal(checks.qimg("run", "disk", given=b"fill 0 2048 11\nzero 512 1024\n")[0], 0, "the status")
    checks.put("disk", 1024 + 2 * 8 + 1, b"\2")
    checks.put("disk", 2048 + 8 * 3, b"\0")


MIXED = [
    ("prepare 0 100 1400 keep", "prepared 2660 1400"), ("put 0 0 " + "22" * 1400, "ok"), ("commit 0", "ok"), ("flush", "ok"),
    ("prepare 1 1600 900 keep", "prepared 4672 900"), ("put 1 0 " + "33" * 900, "ok"), ("drop 1", "ok"), ("flush", "ok"),
]
BEFORE_MIXED = "11" * 512 + "00" * 1024 + "11" * 512 + "00" * 512


def mixed_ranges_failed(number, status, output, refusal=STORAGE):
    """What is answered where one call of mixed ranges failed, and what stands then: what the second range had is as it was, and of the first one the private bytes are seen all or not at all. Whether none failed."""
    given = [answer for _, answer in MIXED]
    answered = output.splitlines()
    if answered == given:
        equal(status, 0, "where none failed")
        return True
    equal(status, 1, f"the status at call {number}")
    refused = next((i for i, (a, w) in enumerate(zip(answered, given)) if a != w), min(len(answered) - 1, len(given)))
    equal(answered[refused], refusal.strip(), f"the first refusal at call {number}")
    later = [answer for answer in answered[refused + 1:] if refusal != MEMORY or not answer.startswith("prepared ")]
    equal(set(later) - {FAILED.strip(), "misuse", "ok"}, set(), f"after call {number}")
    checks.consistent("disk")
    told = checks.qimg("run", "disk", given=b"read 0 2560\n")[1].split()[1]
    in_place = told[2 * 100:2 * 512]
    equal(in_place in ("11" * 412, "22" * 412), True, f"the bytes in place after call {number}")
    private = told[2 * 512:2 * 1500]
    equal(private in ("00" * 988, "22" * 988), True, f"the private bytes after call {number}")
    equal(told[:2 * 100] + told[2 * 1500:], BEFORE_MIXED[:2 * 100] + BEFORE_MIXED[2 * 1500:], f"the other bytes after call {number}")
    return False


def each_call_of_mixed_ranges(call):
    given = "".join(f"{line}\n" for line, _ in MIXED).encode()
    for number in range(1, 60):
        mixed()
        if mixed_ranges_failed(number, *failing("disk", call, number, ["run", "disk"], input=given)):
            equal(number > 6, True, "how many calls failed")
            return
    raise AssertionError(f"more than 60 calls of {call}")


NEEDS_NO_MEMORY = ("put", "commit", "drop")


def each_growth_of_mixed_ranges():
    """Writing what is prepared, committing and dropping it takes no memory. An image that isn't marked as failed keeps each surplus."""
    library = refuser()
    given = "".join(f"{line}\n" for line, _ in MIXED).encode()
    met = set()
    for growth in range(1, 2000):
        mixed()
        before = checks.Report("disk").surplus
        status, output, came = refusing(library, growth, ["run", "disk"], given)
        if mixed_ranges_failed(growth, status, output, MEMORY):
            # a call may do with less
            if came:
                continue
            equal(met, {"open", "prepare"}, "what was refused for want of memory")
            return
        lines = output.splitlines()
        refused = lines.index(MEMORY.strip())
        word = MIXED[refused][0].split()[0] if len(lines) > 1 and refused < len(MIXED) else "open"
        met.add(word)
        equal((came, word in NEEDS_NO_MEMORY), (True, False), f"whether growth {growth} was refused, and in a call that takes none")
        if FAILED.strip() not in lines:
            equal(checks.Report("disk").surplus, before, f"the surpluses after growth {growth}")
    raise AssertionError("more than 2,000 growths")


# Each call stands twice, so that one that is refused is given again.
CALLS = [
    "read 1048576 16", "map 0 4096", "fill 0 512 22", "zero 40960 1024", "dany 131072 65536", "fill 131072 4096 33", "fill 1900544 212992 44",
    "flush", "fill 3145728 512 55", "dback 0 512", "sync",
]
GIVEN_TWICE = "".join(f"{line}\n" * 2 for line in CALLS).encode()


def nearly_full():
    """With counts of 64 bits the first reftable counts 4,096 clusters, of which few are free: the calls make a longer one."""
    create("full", 4 * 1048576, 512, 64)
    checks.run("full", "fill 0 1048576 11", "fill 1048576 851968 11")


def runs_with_a_refused_growth(full, given):
    """Runs a script on copies of an image, each time with another growth refused: the number of the growth, the status, the answers, the number of the first one that is refused for want of
    memory, or None, and whether there was such a growth."""
    library = refuser()
    for growth in range(1, 4000):
        shutil.copy(full, "disk")
        status, output, came = refusing(library, growth, ["run", "disk"], given)
        answers = output.splitlines()
        yield growth, status, answers, next((i for i, it in enumerate(answers) if it.startswith(MEMORY.strip())), None), came
    raise AssertionError("more than 4,000 growths")


def each_growth_of_calls_given_twice():
    """A call whose growth is refused changes nothing, and given again it is done: its answer and the file are as they are without. A call that takes or frees clusters may fail the
    image, where memory is asked for once a count has changed."""
    nearly_full()
    shutil.copy("full", "disk")
    status, output = checks.qimg("run", "disk", given=GIVEN_TWICE)
    wanted, whole = output.splitlines(), contents("disk")
    equal((status, checks.number_at(whole, 56, 4) > 1), (0, True), "the calls, and whether the reftable grew")
    met = set()
    for growth, status, answers, refused, came in runs_with_a_refused_growth("full", GIVEN_TWICE):
        if refused is None:
            equal((status, answers, contents("disk") == whole), (0, wanted, True), f"at growth {growth}, where nothing was refused")
            # a call may do with less
            if came:
                continue
            equal(met >= {"open", "read", "fill", "zero", "dany", "dback"}, True, f"the calls that were refused: {met}")
            return
        if refused + 1 == len(answers):
            # opening is refused, or reading a line, or what is done at the end
            equal(answers[:refused], wanted[:refused], f"before growth {growth}, where the program ended")
            checks.consistent("disk")
            if not refused:
                equal(contents("disk") == contents("full"), True, f"whether opening, refused at growth {growth}, left the file")
                met.add("open")
            continue
        word = CALLS[refused // 2].split()[0]
        met.add(word)
        if FAILED.strip() in answers:
            equal(word in ("fill", "zero", "dany", "dback", "flush"), True, f"the call that failed the image at growth {growth}: {word}")
            checks.consistent("disk")
            continue
        answers[refused] = wanted[refused]
        equal((answers, contents("disk") == whole), (wanted, True), f"after growth {growth} in {word}")


# Every other cluster is freed, so that each is a free run of its own, and clusters of the runs are taken again.
SCATTERED = [
    "fill 65536 512 22", *(f"dany {at} 512" for at in range(512, 40960, 1024)), "flush", "dback 0 40960",
    "fill 66048 512 33", "fill 69632 1536 44", "fill 512 512 55", "fill 73728 4096 66", "flush",
]
SCATTERED_TWICE = "".join(f"{line}\n" * 2 for line in SCATTERED).encode()


def half_full():
    """With counts of 64 bits a refblock counts 64 clusters, so the clusters that are freed lie in several ranges."""
    create("half", 131072, 512, 64)
    checks.run("half", "fill 0 65536 11")


def each_growth_of_scattered_runs():
    """Without memory for a run of free clusters its range is forgotten, and answers and the file are as they are with it. A call that is refused is done where it is given again, unless it
    failed the image."""
    half_full()
    shutil.copy("half", "disk")
    status, output = checks.qimg("run", "disk", given=SCATTERED_TWICE)
    wanted, whole = output.splitlines(), contents("disk")
    equal((status, set(wanted) <= {"ok", *(it for it in wanted if it.startswith("range "))}), (0, True), "the calls")
    unseen, met = 0, set()
    for growth, status, answers, refused, came in runs_with_a_refused_growth("half", SCATTERED_TWICE):
        if refused is None:
            equal((status, answers, contents("disk") == whole), (0, wanted, True), f"at growth {growth}, where nothing was refused")
            if came:
                unseen += 1
                continue
            equal((unseen > 0, met >= {"fill", "dany"}), (True, True), f"{unseen} growths that no answer shows, and the calls that were refused: {met}")
            return
        checks.consistent("disk")
        if refused + 1 < len(answers):
            met.add(SCATTERED[refused // 2].split()[0])
        if refused + 1 < len(answers) and FAILED.strip() not in answers:
            answers[refused] = wanted[refused]
            equal((answers, contents("disk") == whole), (wanted, True), f"after growth {growth} in {SCATTERED[refused // 2]}")


def with_a_short_table():
    """The L1 table has one entry, for half of the disk."""
    disk()
    checks.put("disk", 36, (1).to_bytes(4, "big"))


def each_write_of_a_longer_table():
    """The first seven writes are those of the command, the third of them the pointer to the longer table."""
    of_the_command, of_the_flush = (1, STORAGE + FAILED), (1, "ok\n" + STORAGE)
    for number, want in enumerate([of_the_command] * 7 + [of_the_flush] * 2 + [(0, "ok\n")], 1):
        with_a_short_table()
        equal(failing("disk", "pwrite64", number, ["run", "disk"], input=b"fill 32768 512 11\n"), want, f"at write {number}")
        entries = checks.number_at(contents("disk"), 36, 4)
        equal(entries, 2 if number > 3 else 1, f"how many entries the L1 table has after write {number}")
        equal(checks.qimg("run", "disk", given=b"read 32768 1\n")[1], "data 11\n" if number == 10 else "data 00\n", f"at write {number}")
        equal(checks.qimg("run", "disk", given=b"fill 32768 512 22\nread 32768 1\n")[1], "ok\ndata 22\n", f"after write {number}")


def each_read_of_a_longer_table():
    told = []
    while not told or told[-1] != (0, "ok\n"):
        with_a_short_table()
        told.append(failing("disk", "pread64", len(told) + 1, ["run", "disk"], input=b"fill 32768 512 11\n"))
    equal(set(told[:-1]), {(1, STORAGE), (1, STORAGE + FAILED)}, "where one failed")


def a_failed_image_answers_little():
    disk()
    given = b"fill 0 512 11\nread 0 1\nflush\nsize\n"
    equal(failing("disk", "pwrite64", 1, ["run", "disk"], input=given), (1, STORAGE + FAILED * 2 + "size 65536\n" + FAILED), "the answers")


def a_read_of_the_script_fails():
    disk()
    with open("script", "wb") as it:
        it.write(b"size\nsi")
    for error, number, want in [("EIO", 1, (2, "bad line 1\n")), ("ENOMEM", 1, (1, "refused 14 memory\n")), ("ENOMEM", 2, (1, "refused 14 memory\n")), ("EIO", 2, (2, "size 65536\nbad line 2\n"))]:
        with open("script", "rb") as script:
            equal(failing("script", "read", number, ["run", "disk"], error, stdin=script), want, f"{error} at read {number}")


def limited(size):
    """Has the next program's files end at a size."""
    return lambda: resource.setrlimit(resource.RLIMIT_FSIZE, (size, size))


def a_line_that_has_no_room():
    disk()
    for room, given, want in [(11, b"size\n", 0), (10, b"size\n", 1), (0, b"no\n", 2)]:
        with open("output", "wb") as output:
            done = subprocess.run([checks.QIMG, "run", "disk"], input=given, stdout=output, stderr=subprocess.DEVNULL, preexec_fn=limited(room), restore_signals=False, timeout=600)
        equal(done.returncode, want, f"{given} with room for {room} bytes")
        checks.consistent("disk", 0)


def main():
    every = Checks()
    for check in (
        each_read_of_opening,
        each_write_of_creating,
        each_write_of_a_write,
        each_write_of_ranges,
        each_write_of_a_longer_table,
        each_read_of_a_longer_table,
        a_failed_image_answers_little,
        a_read_of_the_script_fails,
        a_line_that_has_no_room,
        each_growth_of_mixed_ranges,
        each_growth_of_calls_given_twice,
        each_growth_of_scattered_runs,
        each_call_that_clears_the_autoclear_bits,
    ):
        every.run(check.__name__, check)
    for call in ("openat", "flock", "statx"):
        every.run(f"each {call} of creating", each_call_of_creating, call, "none", 1)
    for mode in ("none", "zero", "format", "full"):
        for call, least in (("pwrite64", 7), ("pread64", 4), ("ftruncate", 1), ("lseek", 2)):
            every.run(f"each {call} of creating in mode {mode}", each_call_of_creating, call, mode, least)
        every.run(f"each growth of creating in mode {mode}", each_growth_of_creating, mode)
    for call in ("pwrite64", "pread64"):
        every.run(f"each {call} of mixed ranges", each_call_of_mixed_ranges, call)
    every.done()


main()
