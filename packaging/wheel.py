#!/usr/bin/env python3
"""Makes a wheel for Python of an installed library, and prints its path.

    packaging/wheel.py FOLDER OUT

FOLDER is what `./install.sh --library FOLDER` has made. The wheel is for the oldest glibc that the library runs with.
$HOMEPAGE is the address of the project, $SOURCE that of its source, if it is another one.
"""
import base64
import hashlib
import os
import re
import subprocess
import sys
import zipfile

NAME = "markdown_proved"
top = os.path.dirname(os.path.dirname(os.path.realpath(__file__)))
folder, out = sys.argv[1:]


def read(path: str) -> bytes:
    with open(path, "rb") as file:
        return file.read()


def digest(data: bytes) -> str:
    return base64.urlsafe_b64encode(hashlib.sha256(data).digest()).rstrip(b"=").decode()


library = f"{folder}/lib/libmarkdown-proved.so"
header = read(f"{folder}/include/markdown.h").decode()
version = re.search(r'MARKDOWN_VERSION_TEXT "(.*)"', header)[1]
symbols = subprocess.run(["objdump", "-T", library], capture_output=True, text=True, check=True).stdout
glibc = max([int(minor) for minor in re.findall(r"GLIBC_2\.(\d+)", symbols)] + [17])
tag = f"py3-none-manylinux_2_{glibc}_{os.uname().machine}"
info = f"{NAME}-{version}.dist-info"

metadata = f"""\
Metadata-Version: 2.1
Name: markdown-proved
Version: {version}
Summary: Markdown to HTML and to events, by a proved converter
License: MIT
Keywords: markdown,commonmark,gfm,html
Requires-Python: >=3.8
Classifier: License :: OSI Approved :: MIT License
Classifier: Operating System :: POSIX :: Linux
Classifier: Programming Language :: Python :: 3
Classifier: Topic :: Text Processing :: Markup :: Markdown
Classifier: Typing :: Typed
"""
homepage = os.environ.get("HOMEPAGE")
source = os.environ.get("SOURCE") or homepage
for name, address in (("Homepage", homepage), ("Source", source)):
    if address:
        metadata += f"Project-URL: {name}, {address}\n"
metadata += "Description-Content-Type: text/markdown\n\n" + read(f"{top}/packaging/python/README.md").decode()
wheel = f"Wheel-Version: 1.0\nGenerator: wheel.py\nRoot-Is-Purelib: false\nTag: {tag}\n"
modules = f"{top}/packaging/python/{NAME}"
files = {f"{NAME}/{name}": read(f"{modules}/{name}") for name in sorted(os.listdir(modules)) if name.endswith((".py", ".typed"))}
if f'__version__: Final = "{version}"'.encode() not in files[f"{NAME}/_library.py"]:
    sys.exit(f"wheel.py: _library.py has another version than {version}")
files[f"{NAME}/libmarkdown-proved.so"] = read(library)
files[f"{info}/METADATA"] = metadata.encode()
files[f"{info}/WHEEL"] = wheel.encode()
files[f"{info}/entry_points.txt"] = f"[console_scripts]\nmarkdown-proved = {NAME}.__main__:main\n".encode()
files[f"{info}/LICENSE"] = read(f"{top}/LICENSE")
files[f"{info}/NOTICES"] = read(f"{folder}/share/doc/markdown-proved/NOTICES")
rows = [f"{name},sha256={digest(data)},{len(data)}" for name, data in files.items()]
files[f"{info}/RECORD"] = ("\n".join([*rows, f"{info}/RECORD,,"]) + "\n").encode()

path = f"{out}/{NAME}-{version}-{tag}.whl"
with zipfile.ZipFile(path, "w", zipfile.ZIP_DEFLATED) as archive:
    for name, data in files.items():
        entry = zipfile.ZipInfo(name, (1980, 1, 1, 0, 0, 0))
        entry.external_attr = 0o100644 << 16
        entry.compress_type = zipfile.ZIP_DEFLATED
        archive.writestr(entry, data)
print(path)
