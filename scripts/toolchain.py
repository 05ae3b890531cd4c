"""The toolchain at hand: the line that names it, sums by which it is told from others, and what it states of its own crates."""

import functools
import glob
import hashlib
import os
import re
import subprocess
import sys
from pathlib import Path

# the file of a program's source in which the build names the toolchain, and the name that stands there in its place
NAMED_IN, UNNAMED = "crates/rt1553_tool_args/src/versions.rt", "a toolchain that the build did not name"


def sum_of(*parts):
    """A sum of these."""
    return hashlib.sha256(repr(parts).encode()).hexdigest()


def asked(*words):
    """What `rt` prints in a line."""
    try:
        return subprocess.check_output(["rt", *words], text=True, stderr=subprocess.DEVNULL).strip()
    except (OSError, subprocess.CalledProcessError):
        sys.exit(f"`rt {' '.join(words)}` fails: the Rattle toolchain is missing, damaged or too old. README.md, 'What it needs and what it costs'.")


class Toolchain:
    """The toolchain: the line that `rt version` prints, the logic that it proves in, and its folder."""

    def __init__(self):
        self.line, first_page = asked("version"), asked("doc")
        if not (named := re.fullmatch(r'[^"\\]+ logic ([0-9a-f]+)', self.line)) or not os.path.isfile(first_page):
            sys.exit(f"`rt version` prints '{self.line}', which names no toolchain with a logic: it is damaged or too old.")
        # the toolchain's first page stands at its top
        self.logic, self.folder = named[1], os.path.dirname(first_page)

    @functools.cached_property
    def sum(self):
        """A sum that tells it from any other."""
        whole = hashlib.sha256(self.line.encode())
        for it in [*sorted(glob.glob(f"{self.folder}/WHAT*")), f"{self.folder}/bin/rattle"]:
            whole.update(Path(it).read_bytes())
        return whole.hexdigest()

    @functools.lru_cache(maxsize=None)
    def statements(self, name):
        """A sum of what a crate of the toolchain states, contracts and definitions, and those that it stands on."""
        at = Path(self.folder, "rlibs", f"{name}.rlib")
        files = [it for part in ("interface/lang", "lang/antt/specs") for it in sorted((at / part).rglob("*")) if it.is_file()]
        own = [(str(it.relative_to(at)), it.read_bytes()) for it in [*files, *at.glob("lang/antt/specs.antt")]]
        below = re.findall(r"^dep (\S+)$", (at / "format").read_text(encoding="utf-8"), re.M)
        return sum_of(self.logic, own, [self.statements(it) for it in below])

    def named(self, path, text):
        """The bytes of a file of the repository, with the line of this toolchain in the one that names it."""
        return text.replace(UNNAMED.encode(), self.line.encode()) if path == NAMED_IN else text
