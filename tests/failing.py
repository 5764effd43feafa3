"""A run of the program in which one of its system's calls fails, or one growth of its memory. A call is made to fail by strace, a growth by a library that is loaded before."""

import os
import subprocess

import checks


def failing(file, call, number, words, error="EIO", **how):
    """The status and the output of the program where its call of that number on a file fails."""
    strace = ["strace", "-f", "-qq", "-o", "calls", "-P", file, "-e", f"trace={call}", "-e", f"inject={call}:error={error}:when={number}"]
    with checks.kept(file):
        done = subprocess.run([*strace, checks.QIMG, *words], stdout=subprocess.PIPE, stderr=subprocess.DEVNULL, timeout=600, **how)
    return done.returncode, done.stdout.decode()


def has_failed():
    """Whether a call failed in the last run."""
    with open("calls") as calls:
        return "INJECTED" in calls.read()


def refuser():
    """The library that refuses a growth of memory."""
    library = os.path.abspath("refused_memory.so")
    subprocess.run(["cc", "-shared", "-fPIC", "-o", library, f"{checks.ROOT}/tests/refused_memory.c"], check=True)
    return library


def refusing(library, growth, words, given):
    """The status and the output of the program where its growth of memory of that number is refused, and whether it came to it."""
    if os.path.isfile("refused"):
        os.remove("refused")
    done = subprocess.run([checks.QIMG, *words], input=given, stdout=subprocess.PIPE, stderr=subprocess.DEVNULL, env={"LD_PRELOAD": library, "REFUSED_GROWTH": str(growth)}, timeout=600)
    return done.returncode, done.stdout.decode(), os.path.isfile("refused")
