"""make_wheel.py LIBRARY FOLDER: writes the wheel of the module, with the shared library beside it, to a folder, and prints its path.

A wheel is an archive with three files on what is in it (the Python Packaging Authority's "binary distribution format", 1.0). It is written by Python alone,
so that to make one asks for no download; the same files give the same bytes.
"""

import base64
import hashlib
import re
import sys
import zipfile
from pathlib import Path

SOURCE = Path(__file__).parent / "zilqumet"
VERSION = re.search(r'^__version__ = "(.+)"$', (SOURCE / "__init__.py").read_text(), re.M)[1]
TAG = "py3-none-manylinux_2_17_x86_64"
METADATA = f"""Metadata-Version: 2.1
Name: zilqumet
Version: {VERSION}
Summary: An HTML parser that no page can make hang, or grow past a known limit
License: MIT OR Apache-2.0
Requires-Python: >=3.9
"""
WHEEL = f"""Wheel-Version: 1.0
Generator: make_wheel.py
Root-Is-Purelib: false
Tag: {TAG}
"""


def main():
    library, folder = map(Path, sys.argv[1:])
    about = f"zilqumet-{VERSION}.dist-info"
    files = {f"zilqumet/{name}": (SOURCE / name).read_bytes() for name in ("__init__.py", "__main__.py", "batch.py", "py.typed")}
    files[f"zilqumet/{library.name}"] = library.read_bytes()
    files |= {f"{about}/METADATA": METADATA.encode(), f"{about}/WHEEL": WHEEL.encode()}
    sums = {name: base64.urlsafe_b64encode(hashlib.sha256(data).digest()).rstrip(b"=").decode() for name, data in files.items()}
    record = "".join(f"{name},sha256={sums[name]},{len(data)}\n" for name, data in files.items()) + f"{about}/RECORD,,\n"
    path = folder / f"zilqumet-{VERSION}-{TAG}.whl"
    with zipfile.ZipFile(path, "w", zipfile.ZIP_DEFLATED) as archive:
        for name, data in (files | {f"{about}/RECORD": record.encode()}).items():
            entry = zipfile.ZipInfo(name)
            entry.external_attr, entry.compress_type = 0o644 << 16, zipfile.ZIP_DEFLATED
            archive.writestr(entry, data)
    print(path)


if __name__ == "__main__":
    main()
