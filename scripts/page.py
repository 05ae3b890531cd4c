#!/usr/bin/env python3
"""Links the module of the proved calls, and joins it with what is in page/ and the examples into one file: page.py ARCHIVE TO

The JavaScript modules are joined to one script, in the order of their imports, which the page and its worker have. All share one scope,
so no name may stand in two modules. The policy of the page admits its own script alone, by its sum.
"""
import base64
import gzip
import hashlib
import json
import re
import subprocess
import sys
import tempfile
from pathlib import Path

TOP = Path(__file__).resolve().parent.parent
PAGE = TOP / "page"
IMPORT = re.compile(r"^import [^;]* from '\./([^']*)';\n", re.M)
NAMED = re.compile(r"^(?:export )?(?:async )?(?:function\*?|const|let|class) (\w+)", re.M)


def joined(root):
    """A module and those that it imports, each after those that it imports itself."""
    parts, owners = {}, {}

    def visit(name):
        if name in parts:
            return
        parts[name] = None
        text = (PAGE / name).read_text(encoding="utf-8")
        for it in IMPORT.findall(text):
            visit(it)
        for it in NAMED.findall(text):
            if owners.setdefault(it, name) != name:
                sys.exit(f"page/{name} and page/{owners[it]} both name {it}")
        # what is visited last moves behind what it imports
        del parts[name]
        parts[name] = re.sub(r"^export ", "", IMPORT.sub("", text), flags=re.M)

    visit(root)
    return "\n".join(f"// {name}\n{text.strip()}\n" for name, text in parts.items())


def examples():
    """The scripts of examples/scripts, each with the canonical text of its profile."""
    for path in sorted((TOP / "examples/scripts").glob("*.script")):
        script = path.read_text(encoding="utf-8")
        profile = re.search(r"^# Profile: (.*)\.toml$", script, re.M)[1]
        text = (TOP / f"examples/canonical/{profile}.rt1553").read_text(encoding="utf-8")
        yield {"name": f"{path.stem} ({profile})".replace("_", " "), "text": text, "script": script}


def module_of(archive):
    """The WebAssembly module of an archive."""
    # the toolchain's first page stands at its top
    kit = Path(subprocess.check_output(["rt", "doc"], text=True).strip()).parent
    with tempfile.TemporaryDirectory() as folder:
        words = ["--target", "wasm64-unknown-unknown", "--toolchain", kit / "toolchain", "-o", f"{folder}/module", archive]
        subprocess.run([kit / "bin/rattle-link", *words], check=True)
        return Path(folder, "module").read_bytes()


def page_of(module):
    """The page, with this module."""
    packed = base64.b64encode(gzip.compress(module, 9, mtime=0)).decode()
    words = [json.dumps(it) for it in (packed, list(examples()))]
    script = f"'use strict';\n(async () => {{\n{joined('main.js')}await start({', '.join(words)});\n}})();\n"
    # nothing in it may end the element that holds it
    script = re.sub(r"<(?=/script|!--)", r"\\x3c", script, flags=re.I)
    parts = {"/*STYLE*/": (PAGE / "style.css").read_text(encoding="utf-8"), "/*SCRIPT*/": script,
             "SCRIPT-SUM": "sha256-" + base64.b64encode(hashlib.sha256(script.encode()).digest()).decode()}  # fmt: skip
    page = (PAGE / "page.html").read_text(encoding="utf-8")
    return re.sub("|".join(map(re.escape, parts)), lambda it: parts[it[0]], page)


def main():
    archive, to = sys.argv[1:]
    Path(to).write_text(page_of(module_of(archive)), encoding="utf-8")


if __name__ == "__main__":
    main()
