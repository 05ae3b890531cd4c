#!/usr/bin/env python3
"""Writes the families of the protocol tests as scripts that state their answers: generate.py FOLDER

Each family is a script; the first line of a script names its profile, which is one of examples/validation/profiles or
one that is written to FOLDER/profiles.
"""

import pathlib
import sys

import broadcast
import errors
import optional
import required
import responses
import switching
import transfers

PARTS = (responses, errors, required, transfers, switching, optional, broadcast)


def families():
    for part in PARTS:
        yield from part.families()


def write(folder):
    (folder / "profiles").mkdir(parents=True, exist_ok=True)
    for address in range(31):
        (folder / "profiles" / f"address_{address:02}.toml").write_text(f"address = {address}\n")
    for script in families():
        with open(folder / f"{script.name}.script", "x", encoding="ascii") as file:
            file.write(script.text())


if __name__ == "__main__":
    write(pathlib.Path(sys.argv[1]))
