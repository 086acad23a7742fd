#!/usr/bin/env python3
"""Makes a wheel of the package for Python, with the library in it: wheel.py FOLDER PACKAGE LIBRARY

PACKAGE is the folder of the package and LIBRARY the shared library, as they are installed. The path
of the wheel in FOLDER is printed. From the same files it is the same to the byte each time.
"""

import base64
import hashlib
import re
import sys
import zipfile
from pathlib import Path

TAG = "py3-none-manylinux_2_17_x86_64"

METADATA = """\
Metadata-Version: 2.1
Name: carawaybrick
Version: {version}
Summary: Plans block transfers between transputer modules, and moves the blocks
Requires-Python: >=3.8

`python3 -m pydoc exchange` says what each call gives.
"""

WHEEL = f"Wheel-Version: 1.0\nGenerator: wheel.py\nRoot-Is-Purelib: false\nTag: {TAG}\n"


def digest(text):
    found = base64.urlsafe_b64encode(hashlib.sha256(text).digest()).rstrip(b"=").decode()
    return f"sha256={found},{len(text)}"


def main(folder, package, library):
    files = [Path(package, "__init__.py"), Path(package, "py.typed"), Path(library)]
    inside = {f"exchange/{it.name}": it.read_bytes() for it in files}
    version = re.search(rb'(?m)^__version__ = "(.*)"$', inside["exchange/__init__.py"])[1].decode()
    about = f"carawaybrick-{version}.dist-info"
    inside[f"{about}/METADATA"] = METADATA.format(version=version).encode()
    inside[f"{about}/WHEEL"] = WHEEL.encode()
    record = [f"{name},{digest(text)}\n" for name, text in inside.items()]
    inside[f"{about}/RECORD"] = "".join([*record, f"{about}/RECORD,,\n"]).encode()
    path = f"{folder}/carawaybrick-{version}-{TAG}.whl"
    with zipfile.ZipFile(path, "w", zipfile.ZIP_DEFLATED) as wheel:
        for name, text in inside.items():
            entry = zipfile.ZipInfo(name)
            entry.external_attr = 0o644 << 16
            wheel.writestr(entry, text, zipfile.ZIP_DEFLATED)
    print(path)


if __name__ == "__main__":
    main(*sys.argv[1:])
