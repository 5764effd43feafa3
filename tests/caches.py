#!/usr/bin/env python3
"""More L2 tables and refblocks than the program keeps in memory: what is written is read back, and QEMU's check finds no error."""

import random
import subprocess

import checks
from checks import create, run

CLUSTER = 512
# With counts of 64 bits a refblock counts 64 clusters, and an L2 table covers 64 clusters too.
TABLES = 200
CLUSTERS_OF_A_TABLE = 11


def is_clean(file):
    checks.consistent(file, 0)
    done = subprocess.run(["qemu-img", "check", "-f", "qcow2", file], stdout=subprocess.PIPE, stderr=subprocess.STDOUT)
    if done.returncode != 0:
        raise AssertionError(f"qemu-img check ended with {done.returncode}: {done.stdout.decode(errors='replace')}")


def reads(file, bytes_at):
    """Reads each cluster, in an order in which hardly a table is found in the cache."""
    places = list(bytes_at)
    random.Random(2).shuffle(places)
    told = run(file, *[f"read {at} {CLUSTER}" for at in places])
    for at, line in zip(places, told):
        wanted = f"data {bytes_at[at]:02x}" + f"{bytes_at[at]:02x}" * (CLUSTER - 1)
        if line != wanted:
            raise AssertionError(f"at {at}: {checks.shown(line)}")


def counts(file):
    """How many L2 tables and refblocks the file has."""
    with open(file, "rb") as f:
        data = f.read()
    number = lambda at: int.from_bytes(data[at:at + 8], "big")
    l1_entries, l1 = int.from_bytes(data[36:40], "big"), number(40)
    reftable, clusters = number(48), int.from_bytes(data[56:60], "big")
    tables = sum(1 for i in range(l1_entries) if number(l1 + 8 * i) != 0)
    blocks = sum(1 for i in range(clusters * CLUSTER // 8) if number(reftable + 8 * i) != 0)
    return tables, blocks


def many_tables():
    size = TABLES * 64 * CLUSTER
    create("disk", size, CLUSTER, 64)
    chosen = random.Random(1)
    places = [(table * 64 + place) * CLUSTER for table in range(TABLES) for place in chosen.sample(range(64), CLUSTERS_OF_A_TABLE)]
    chosen.shuffle(places)
    bytes_at = {}
    lines = []
    for number, at in enumerate(places):
        bytes_at[at] = number % 255 + 1
        lines.append(f"fill {at} {CLUSTER} {bytes_at[at]:02x}")
    if any(line != "ok" for line in run("disk", *lines)):
        raise AssertionError("a write was refused")
    tables, blocks = counts("disk")
    if tables <= 128 or blocks <= 32:
        raise AssertionError(f"{tables} L2 tables and {blocks} refblocks are too few for this test")
    is_clean("disk")
    reads("disk", bytes_at)
    # Written again, in place, with a flush now and then.
    lines = []
    for number, at in enumerate(chosen.sample(places, 600)):
        bytes_at[at] = (number + 100) % 255 + 1
        lines.append(f"fill {at} {CLUSTER} {bytes_at[at]:02x}")
        if number % 97 == 0:
            lines.append("flush")
    run("disk", *lines)
    is_clean("disk")
    reads("disk", bytes_at)


def main():
    every = checks.Checks()
    every.run("many tables", many_tables)
    every.done()


main()
