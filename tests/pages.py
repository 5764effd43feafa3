#!/usr/bin/env python3
"""Checks the repository's pages (README.md, docs/*.md, crates/*/README.md): links lead to files and headings; files, names and make targets that stand as code exist; each row of
docs/WRONG_BODIES.md is a wrong body with its function and clause; the refusals of docs/DRIVER.md and the default numbers are the code's; examples are quoted from the code. Of the proofs it
checks that they build no moment outside the files whose words are for that. It needs no program. The last line counts the checks that found nothing, and the failures."""

import os
import re
import sys

from bodies import LIST, bodies_of
from promises import read

ROOT = os.path.dirname(os.path.dirname(os.path.abspath(__file__)))
SPAN = re.compile(r"`([^`\n]+)`")
LINK = re.compile(r"\[[^\]]*\]\(([^)\s]+)\)")
CODE = re.compile(r"^```\w*\n([\s\S]*?)\n```$|(?<=\n\n)((?:    .*\n)+)", re.MULTILINE)
NAME = re.compile(r"[A-Za-z_]\w*((::|\.)[A-Za-z_]\w*)*")
PATH = re.compile(r"[\w./-]*\w[\w./-]*(\.(rt|rs|antt|md|py|txt|sh)|/)|[\w.-]+/[\w./-]+")
# words that stand for any name in a path, what is built, devices, and a file of QEMU's sources
NO_FILE = re.compile(r"\b(CRATE|NAME|PATH)\b|^(/|build/|out/|docs/interop/)")
# the pages whose names are all names of this repository; the others name imago's, QEMU's and the format's too
OF_THE_CODE = re.compile(r"README\.md|crates/.*|docs/(ARCHITECTURE|PROOFS|WRONG_BODIES|GUIDE|DRIVER)\.md")
ROW = re.compile(r"^\|[^|]*\| `(\w+)` \| \[`(\w+)`\]\(\.\./crates/(\w+)/([^)]*)\) \| (?:`(\w+)`|.*) ?\|$", re.MULTILINE)
# the files whose words build moments: those of storages, runs and calls, of steps, of an image's file and its caches, of creating, of larger disks, and of images that are only read
WORDS_OF_MOMENTS = re.compile(r"""crates/(image_access/proofs/EachMomentSince|qcow2_disk/proofs/(Compose|RunSteps)|qcow2_laws/proofs/SafeSteps|qcow2_alloc/proofs/(FileSteps|HeaderClusters|KeptTables/\w+)
    |qcow2_image/proofs/(Create/\w+|Grow/GrownByParts|Invalidate/Reading|Map/Unmodified|Resize/RecordedChanges))\.antt$""", re.VERBOSE)
# a record with its moments, one of `EachMomentSince`, and a record that is taken over with other contents
MOMENT = re.compile(r"\b(moments|later) = |\brecord [^{}]*[\w)] \{[^{}]*\b(contents) = ")
# a number in the words of a page, the file that has it, and how it is written there: # stands for the number
DEFAULTS = [
    ("# L2 tables and", "qcow2_image/src/image.rt", "L2_TABLES: usize = #;"),
    ("# refblocks are cached", "qcow2_image/src/image.rt", "REFBLOCKS: usize = #;"),
    ("by default, clusters have # bytes", "qcow2_image/src/builder.rt", "cluster_size: #,"),
    ("by default, clusters have # bytes", "qimg_tools/src/words.rt", "cluster_size: #,"),
    ("and refcounts # bits", "qcow2_image/src/builder.rt", "refcount_width: #,"),
    ("and refcounts # bits", "qimg_tools/src/words.rt", "refcount_bits: #,"),
    ("L1 tables of at most # entries", "qcow2_metadata/src/limits.rt", "MAX_L1_ENTRIES: usize = #;"),
    ("reftables of at most # entries", "qcow2_metadata/src/limits.rt", "MAX_REFTABLE_ENTRIES: usize = #;"),
    ("host offsets up to #", "qcow2_metadata/src/limits.rt", "MAX_HOST_OFFSET: u64 = #;"),
    ("There are # slots", "qcow2_session/src/slots.rt", "with_capacity(alloc, #)"),
    ("take at most # bytes", "qimg/src/lines.rt", "LONGEST: u64 = #;"),
    ("reads ahead after # reads", "file_storage/src/streamed.rt", "IN_A_ROW: u32 = #;"),
    ("joins adjacent writes into one of up to # bytes", "file_storage/src/streamed.rt", "ROOM: usize = #;"),
]
NUMBER = r"(0x\w+|\d[\d,_]*)"

walked = [(os.path.relpath(folder, ROOT), files) for folder, _, files in os.walk(ROOT) if not re.search(r"/(out|build|\.git|__pycache__)(/|$)", folder)]
FILES = {os.path.normpath(f"{folder}/{it}") for folder, files in walked for it in files} | {f"{folder}/" for folder, _ in walked}
TEXTS = {it: read(f"{ROOT}/{it}") for it in FILES if it.endswith((".rt", ".rs", ".antt", ".py", "Makefile", "crates.txt"))}
PAGES = {it: read(f"{ROOT}/{it}") for it in sorted(FILES) if re.fullmatch(r"README\.md|docs/\w+\.md|crates/\w+/README\.md", it)}
BODIES = {(crate, it.name): it for crate in (it.split("/")[1] for it in FILES if re.fullmatch(rf"crates/\w+/{LIST}", it)) for it in bodies_of(f"{ROOT}/crates/{crate}")}
WORDS = {word for it, text in TEXTS.items() if it != "tests/pages.py" for word in re.findall(r"\w+", f"{text} {it}")} | {name for _, name in BODIES}


def has(page, path):
    """Whether there is a file that a path in a page means: from the top, from the page, among the crates, or by its end alone."""
    tried = {os.path.normpath(os.path.join(base, path)) for base in ("", os.path.dirname(page), "crates")}
    return any({it, it + "/", it + ".antt"} & FILES for it in tried) or any(it.endswith("/" + path) for it in FILES)


def lines():
    """The lines of the pages that aren't code: the page, the line's number, and its text."""
    for page, text in PAGES.items():
        plain = CODE.sub(lambda it: "\n" * it[0].count("\n"), text)
        yield from ((page, number, line) for number, line in enumerate(plain.split("\n"), 1))


def dead_links():
    for page, number, line in lines():
        for path, _, anchor in [it.partition("#") for it in LINK.findall(SPAN.sub("code", line)) if "://" not in it]:
            at = os.path.normpath(os.path.join(os.path.dirname(page), path)) if path else page
            headings = [re.sub(r"[^\w -]", "", it.lower()).replace(" ", "-") for it in re.findall(r"^#+ (.*)$", PAGES.get(at, ""), re.MULTILINE)]
            if not {at, at + "/"} & FILES or anchor and anchor not in headings:
                yield f"{page}:{number}", f"a link to {at} {anchor}, which isn't there"


def missing_names():
    for page, number, line in lines():
        for span in SPAN.findall(line):
            is_path = PATH.fullmatch(span)
            if is_path and not NO_FILE.search(span) and not has(page, span):
                yield f"{page}:{number}", f"{span} isn't there"
            if not is_path and OF_THE_CODE.fullmatch(page) and NAME.fullmatch(span) and not set(re.findall(r"\w+", span)) <= WORDS:
                yield f"{page}:{number}", f"{span} is no name of the code"
            if re.match(r"make \w", span) and f"\n{span.split()[1]}:" not in TEXTS["Makefile"]:
                yield f"{page}:{number}", f"the Makefile has no {span.split()[1]}"


def other_bodies():
    for name, function, crate, path, clause in ROW.findall(PAGES["docs/WRONG_BODIES.md"]):
        body = BODIES.get((crate, name))
        if not body or (body.own_name(), body.file, body.clause) != (function, path, clause):
            yield "docs/WRONG_BODIES.md", f"{path} of {crate} has no wrong body {name} of {function} for the clause {clause or 'without a name'}"


def other_refusals():
    code = TEXTS["crates/qcow2_alloc/src/error.rt"]
    named = dict(re.findall(r'ImageError::(\w+).* => "(.*)"', code))
    wanted = {(number, named.get(case)) for case, number in re.findall(r"ImageError::(\w+).* => (\d+),", code)}
    for it in wanted ^ set(re.findall(r"^\| (\d+) \| ([a-z0-9 -]+) \|", PAGES["docs/DRIVER.md"], re.MULTILINE)):
        yield "docs/DRIVER.md", f"the code and the page don't both have the refusal {it}"


def other_code():
    for page, start in (("docs/GUIDE.md", "crates/guide/src/"), ("docs/PROOFS.md", "crates/")):
        quoted = " ".join(" ".join(text.split()) for it, text in TEXTS.items() if it.startswith(start))
        for found in CODE.finditer(PAGES[page]):
            if not found[0].startswith("```\n") and " ".join((found[1] or found[2]).split()) not in quoted:
                yield f"{page}:{PAGES[page].count(chr(10), 0, found.start()) + 1}", "an example that isn't in the code it quotes"


def other_numbers():
    for words, path, written in DEFAULTS:
        in_page, in_code = (re.escape(it).replace(r"\#", NUMBER) for it in (words, written))
        value = re.search(in_code, TEXTS[f"crates/{path}"])
        told = [(page, it) for page, text in PAGES.items() for it in re.findall(in_page, " ".join(text.split()))]
        for page, it in told or [("every page", "")]:
            if not value or not it or int(it.replace(",", ""), 0) != int(value[1], 0):
                yield page, f"{path} says {value and value[1]}, not {it or 'nothing'}: {words}"


def moments_by_hand():
    for path, text in TEXTS.items():
        if re.match(r"crates/\w+/proofs/.*\.antt$", path) and not WORDS_OF_MOMENTS.match(path):
            for found in MOMENT.finditer(re.sub(r"--.*", lambda it: " " * len(it[0]), text)):
                yield f"{path}:{text.count(chr(10), 0, found.end()) + 1}", f"a moment is built here: {found[found.lastindex]}"


def main():
    passed = failed = 0
    for check in (dead_links, missing_names, other_bodies, other_refusals, other_code, other_numbers, moments_by_hand):
        found = list(check())
        for place, what in found:
            print(f"{place}: FAILED: {what}")
        passed, failed = passed + (not found), failed + len(found)
    print(f"{passed} passed, {failed} failed")
    return int(failed > 0)


if __name__ == "__main__":
    sys.exit(main())
