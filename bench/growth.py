#!/usr/bin/env python3
"""Counts how the work of `rt1553-tool` grows with what it is given.

    python3 bench/growth.py TOOL

TOOL is the program, bin/rt1553-tool. Each input is made in four sizes, each twice the one before, and callgrind (of
valgrind) counts the instructions of each run. Linear work is 2.00 times that of half the size; a line that is over 2.20 is
marked, and then the status is 1.
"""
import os
import re
import subprocess
import sys
import tempfile

# times the work of half the size, at most
MOST = 2.20
# four sizes, each twice the one before
ENTRIES = 32, 64, 128, 256
TABLES = 250, 500, 1000, 2000
SCRIPTS = 250, 500, 1000, 2000


def wrong_rules(n):
    """Rules with three faults each: an unknown key, a wrong range and a count that is none."""
    rule = '[[rule]]\ndirection = "receive"\nsubaddresses = "1-31"\ncounts = 33\nsubadress = 4\n\n'
    return "address = 5\n" + rule * n


def wrong_words(n):
    """Initial entries, each with a word that is none at its end."""
    return "address = 5\n" + "".join(f"[[initial]]\nsubaddress = {k % 30 + 1}\nwords = [1, 2, 65536]\n" for k in range(n))


def rules(n):
    """Rules of which half have no effect."""
    return "address = 5\n" + "".join(f'[[rule]]\ndirection = "both"\nsubaddresses = "1-{k % 30 + 1}"\ncounts = "{k % 16 + 1}-{k % 16 + 17}"\n' for k in range(n))


def modes(n):
    """Mode entries of which nearly all have no effect."""
    return "address = 5\n" + "".join(f'[[mode]]\ncodes = "{k % 9}-{k % 9 + 10}"\nlegal = {str(k % 7 > 0).lower()}\n' for k in range(n - 1)) + '[[mode]]\ncodes = "0-8"\n'


def initials(n):
    """Initial entries of 32 words, at subaddresses that transmit."""
    words = ", ".join(str(k) for k in range(1, 33))
    return 'address = 5\n[[rule]]\ndirection = "transmit"\nsubaddresses = "1-30"\n' + "".join(f"[[initial]]\nsubaddress = {k % 30 + 1}\nwords = [{words}]\n" for k in range(n))


def deep_tables(n):
    """Tables with names of 80 parts, before six keys of the root that are unknown."""
    keys = "".join(f"key{k} = {k}\n" for k in range(6))
    return keys + "address = 5\n" + "".join(f"[{'.'.join('abcdefgh'[(k + d) % 8] for d in range(79))}.t{k}]\n" for k in range(n))


# what is linted: a name, how it is made, and the sizes
PROFILES = [
    ("rules with three faults each", wrong_rules, ENTRIES),
    ("initial entries with a wrong word", wrong_words, ENTRIES),
    ("rules without faults", rules, ENTRIES),
    ("mode entries without faults", modes, ENTRIES),
    ("initial entries of 32 words", initials, ENTRIES),
    ("tables with names of 80 parts", deep_tables, TABLES),
]


def instructions(room, *words):
    """How many instructions a run takes. Its status is no matter: what is wrong is found."""
    log = f"{room}/valgrind"
    how = {"stdin": subprocess.DEVNULL, "stdout": subprocess.DEVNULL, "stderr": subprocess.DEVNULL, "cwd": room}
    subprocess.run(["valgrind", "--tool=callgrind", "--callgrind-out-file=/dev/null", f"--log-file={log}", *words], check=False, **how)
    with open(log, encoding="utf-8") as file:
        return int(re.search(r"Collected : (\d+)", file.read())[1])


def told(name, sizes, counts):
    """Prints a line, and tells whether the work grows no faster than it may."""
    ratios = [after / before for before, after in zip(counts, counts[1:])]
    shown = "  ".join(f"{it / 1e6:9.1f}" for it in counts)
    mark = "" if max(ratios) <= MOST else "   OVER"
    print(f"{name:36} {sizes[0]:6} to {sizes[-1]:5}  {shown}   " + " ".join(f"{it:.2f}" for it in ratios) + mark, flush=True)
    return not mark


def write(path, text):
    with open(path, "w", encoding="ascii") as file:
        file.write(text)


def linted(tool, room, name, make, sizes):
    """Whether the work of `lint` grows so with this input."""
    counts = []
    for size in sizes:
        write(f"{room}/p.toml", make(size))
        counts.append(instructions(room, tool, "lint", "p.toml"))
    return told(f"lint: {name}", sizes, counts)


def summed(tool, room):
    """Whether the work of `verify --summary` grows so with the number of scripts, each with two clauses of the plan."""
    write(f"{room}/p.toml", "address = 5\n")
    counts = []
    for size in SCRIPTS:
        names = [f"s{k}" for k in range(size)]
        for k, it in enumerate(names):
            write(f"{room}/{it}", f"# Plan: {k % 97}.1, {k}.2\nA c 2c02\nA gap\nslot\n#> A s 2800\n")
        counts.append(instructions(room, tool, "verify", "--summary", "p.toml", *names))
    return told("verify --summary: scripts", SCRIPTS, counts)


def main():
    if len(sys.argv) != 2:
        sys.exit(__doc__)
    tool = os.path.realpath(sys.argv[1])
    print("millions of instructions at four sizes, and each by the one before")
    with tempfile.TemporaryDirectory() as room:
        are_linear = [linted(tool, room, *it) for it in PROFILES] + [summed(tool, room)]
    return 0 if all(are_linear) else 1


if __name__ == "__main__":
    sys.exit(main())
