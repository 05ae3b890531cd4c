#!/usr/bin/env python3
"""Writes the wheel of the package: wheel.py FROM TO VERSION PLATFORM

FROM is the folder with the package `rt1553` and its library. The wheel is written to TO. PLATFORM is, for example,
manylinux_2_17_x86_64. A wheel is a zip file of the package and a folder that describes it, so only Python is needed. The
same files make the same wheel, to the byte.
"""

import base64
import hashlib
import pathlib
import sys
import zipfile

PARTS = ["__init__.py", "bus.py", "py.typed", "librt1553.so"]
METADATA = """Metadata-Version: 2.1
Name: rt1553
Version: {version}
Summary: A proved remote terminal of MIL-STD-1553B, and the canonical texts of its profiles
Requires-Python: >=3.9
"""
WHEEL = """Wheel-Version: 1.0
Generator: rt1553
Root-Is-Purelib: false
Tag: py3-none-{platform}
"""


def digest(data):
    """The hash of a file, in the form that a wheel's record uses."""
    return base64.urlsafe_b64encode(hashlib.sha256(data).digest()).rstrip(b"=").decode()


def files_of(folder, version, platform):
    """Each file of the wheel with its bytes. The record of them all comes last."""
    about = f"rt1553-{version}.dist-info"
    files = {f"rt1553/{part}": (folder / "rt1553" / part).read_bytes() for part in PARTS}
    files[f"{about}/METADATA"] = METADATA.format(version=version).encode()
    files[f"{about}/WHEEL"] = WHEEL.format(platform=platform).encode()
    lines = [f"{name},sha256={digest(data)},{len(data)}\n" for name, data in files.items()]
    files[f"{about}/RECORD"] = "".join([*lines, f"{about}/RECORD,,\n"]).encode()
    return files


def main(folder, to, version, platform):
    path = pathlib.Path(to, f"rt1553-{version}-py3-none-{platform}.whl")
    with zipfile.ZipFile(path, "w", zipfile.ZIP_DEFLATED) as wheel:
        for name, data in files_of(pathlib.Path(folder), version, platform).items():
            entry = zipfile.ZipInfo(name, (1980, 1, 1, 0, 0, 0))
            entry.external_attr = (0o755 if name.endswith(".so") else 0o644) << 16
            entry.compress_type = zipfile.ZIP_DEFLATED
            wheel.writestr(entry, data)


if __name__ == "__main__":
    sys.exit(main(*sys.argv[1:]) if len(sys.argv) == 5 else __doc__)
