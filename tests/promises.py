"""Takes the promises of a crate as they stand: in its copy each function, and each lemma, is stated as in the crate, and a hole stands for its proof. A function's body does nothing there, so
that nothing is read that it calls. The gate proves them all; what is tried over them is only whether a wrong body is refused, so that a proof of what it calls would say nothing more."""

import os
import re

STARTED = re.compile(r"(?:pub(?:\([^)]*\))? )?(?:const )?fn (\w+)")
INHERENT = re.compile(r"impl(?:<.*?>)? (\w+)(?:<.*>)? \{")
TYPE = re.compile(r"^(?:pub(?:\([^)]*\))? )?(?:struct|enum) (\w+)", re.MULTILINE)
LEMMA = re.compile(r"(?:pub )?([^\s:(]+) : ")
FILES_OF_A_PROOF = ("Proof.antt", "Answers.antt", "Invariants.antt")


def read(path):
    """The text of a file."""
    with open(path, encoding="utf-8") as it:
        return it.read()


def files_below(folder, ending):
    """The paths of the files with an ending, from a folder on."""
    found = [os.path.relpath(os.path.join(top, name), folder) for top, _, names in os.walk(folder) for name in names]
    return sorted(it for it in found if it.endswith(ending))


def module_of(file):
    """The path of the module that a file of a crate's text is, part by part."""
    return [it for it in os.path.splitext(file)[0].split("/") if it not in ("lib", "main", "mod")]


def written_functions(folder):
    """The functions that a crate's text has at the top of a file, and as methods of a type: their paths, and for each its file and the number of its line with `fn`, from 0. Not those of a
    trait, whose paths the text doesn't show."""
    texts = {it: read(f"{folder}/src/{it}") for it in files_below(f"{folder}/src", ".rt")}
    types = {name: [*module_of(file), name] for file, text in texts.items() for name in TYPE.findall(text)}
    found = {}
    for file, text in texts.items():
        above = module_of(file)
        for number, line in enumerate(text.split("\n")):
            if line[:1].strip():
                begun = INHERENT.fullmatch(line)
                above = types.get(begun[1]) if begun else module_of(file)
            is_method = above is not None and above != module_of(file)
            started = STARTED.match(line.removeprefix("    ") if is_method else line)
            if started and above is not None:
                found["/".join([*above, started[1]])] = (file, number)
    return found


def without_body(lines, first):
    """The lines of a file where the body of a function, which begins with this line, does nothing. There are as many as before."""
    margin = lines[first][: len(lines[first]) - len(lines[first].lstrip())]
    # at its margin stand its first line, the end of its parameters, and the braces of its body
    opened = next(i for i in range(first, len(lines)) if lines[i].endswith(("{", "}", ";")) and lines[i].startswith(margin) and not lines[i].startswith(margin + " "))
    if not lines[opened].endswith("{"):
        return lines
    closed = lines.index(margin + "}", opened)
    empty = [margin + "    unreachable!()"] + [""] * (closed - opened - 2) if closed > opened + 1 else []
    return [*lines[: opened + 1], *empty, *lines[closed:]]


def take_bodies_out(folder, functions):
    """Takes the bodies of functions out of a crate's text."""
    for path, (file, first) in written_functions(folder).items():
        if path in functions:
            lines = without_body(read(f"{folder}/src/{file}").split("\n"), first)
            with open(f"{folder}/src/{file}", "w", encoding="utf-8") as it:
                it.write("\n".join(lines))


def proved_functions(folder):
    """The paths of the functions whose proofs have files."""
    names = {name for file in files_below(f"{folder}/src", ".rt") for name in re.findall(r"\bfn (\w+)", read(f"{folder}/src/{file}"))}
    found = {os.path.dirname(it) for it in files_below(f"{folder}/proofs", ".antt") if os.path.basename(it) in FILES_OF_A_PROOF}
    return {it for it in found if os.path.basename(it) in names}


def stated(crate, function):
    """A proof of a function that is a hole."""
    return f"use Rattle.{crate}.proofs.{function.replace('/', '.')}.Statement.{{statement}}\n\npub {os.path.basename(function)}_spec : {{M : Type 1}} → statement M\n{os.path.basename(function)}_spec = ?\n"


def blocks(text):
    """A text of lemmas, part by part: each begins with a line at the margin that doesn't go on with what stands above it."""
    found, name = [[]], None
    for line in text.split("\n"):
        begun = LEMMA.match(line)
        goes_on = not line[:1].strip() or line[0] in ")]}" or name and re.match(rf"(unfolding|{re.escape(name)})(\s|$)", line)
        if not goes_on:
            found.append([])
            name = begun[1] if begun else None
        found[-1].append(line)
    return found


def without_proof(block, opened):
    """A part of a text of lemmas, whose proof is a hole where it is a lemma that none unfolds."""
    begun = LEMMA.match(block[0]) if block else None
    if not begun or begun[1] in opened:
        return block
    end = next((i for i, line in enumerate(block) if i and re.match(rf"(unfolding|{re.escape(begun[1])})(\s|$)", line)), None)
    return block if end is None else [*block[:end], f"{begun[1]} = ?", ""]


def take_promises(crate, room, proved):
    """Takes the promises as they stand in the copy of a crate in a folder, but for some functions, whose proofs are looked at."""
    kept = {it.replace("::", "/") for it in proved}
    functions = (set(written_functions(room)) | proved_functions(room)) - kept
    take_bodies_out(room, functions)
    for function in functions:
        folder = f"{room}/proofs/{function}"
        os.makedirs(folder, exist_ok=True)
        for name in FILES_OF_A_PROOF:
            if os.path.isfile(f"{folder}/{name}"):
                os.remove(f"{folder}/{name}")
        with open(f"{folder}/Proof.antt", "w", encoding="utf-8") as it:
            it.write(stated(crate, function))
    texts = {it: read(f"{room}/proofs/{it}") for it in files_below(f"{room}/proofs", ".antt")}
    opened = {name for text in texts.values() for names in re.findall(r"^\s*unfolding (.*)$", text, re.MULTILINE) for name in names.split()}
    for path, text in texts.items():
        if os.path.basename(path) not in FILES_OF_A_PROOF or os.path.dirname(path) not in functions | kept:
            with open(f"{room}/proofs/{path}", "w", encoding="utf-8") as it:
                it.write("\n".join(line for block in blocks(text) for line in without_proof(block, opened)))
