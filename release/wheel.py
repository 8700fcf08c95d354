#!/usr/bin/env python3
"""Looks at a wheel: whether its tag is true of the library in it, whether it has the modules of its programs, and
whether its RECORD says what it holds.

    python3 release/wheel.py WHEEL
"""
import base64
import csv
import hashlib
import io
import re
import subprocess
import sys
import tempfile
import zipfile
from pathlib import Path

# What a manylinux wheel may lean on of all that a library may need, and that a C library on its own does.
SYSTEM = {"libc.so.6", "libm.so.6", "libgcc_s.so.1"}


def fail(text):
    sys.exit(f"wheel.py: {text}")


def tags_of(name):
    """The glibc versions that the platforms of a wheel's name ask for, and the tags that it is to say."""
    platforms = name[: -len(".whl")].split("-")[-1].split(".")
    asked = []
    for platform in platforms:
        found = re.fullmatch(r"manylinux_(\d+)_(\d+)_x86_64", platform.replace("manylinux2014_", "manylinux_2_17_"))
        if not found:
            fail(f"{platform} is no platform of manylinux")
        asked.append((int(found[1]), int(found[2])))
    return min(asked), {f"py3-none-{platform}" for platform in platforms}


def needs_of(library):
    """The shared libraries that a library needs, and the versions of glibc that have its symbols."""
    with tempfile.TemporaryDirectory() as made:
        path = Path(made) / "library.so"
        path.write_bytes(library)
        dynamic, symbols = (subprocess.run(["objdump", word, path], stdout=subprocess.PIPE, check=True,
                                           encoding="utf-8").stdout for word in ("-p", "-T"))
    versions = re.findall(r"\*UND\*.*\((?:GLIBC_)([0-9.]+)\)", symbols)
    others = set(re.findall(r"\*UND\*.*\(([^)]*)\)", symbols)) - {f"GLIBC_{version}" for version in versions}
    if others - {name for name in others if name.startswith("GCC_")}:
        fail(f"the library needs {others}")
    return set(re.findall(r"NEEDED +(\S+)", dynamic)), [tuple(map(int, version.split("."))) for version in versions]


def main():
    if len(sys.argv) != 2:
        sys.exit(__doc__)
    path = Path(sys.argv[1])
    asked, tags = tags_of(path.name)
    with zipfile.ZipFile(path) as wheel:
        files = {name: wheel.read(name) for name in wheel.namelist()}
    info = next(name.split("/")[0] for name in files if ".dist-info/" in name)
    said = set(re.findall(r"^Tag: (.*)$", files[f"{info}/WHEEL"].decode(), re.M))
    if said != tags:
        fail(f"WHEEL says {said}, and the name says {tags}")
    modules = re.findall(r"^[\w-]+ = ([\w.]+):\w+$", files[f"{info}/entry_points.txt"].decode(), re.M)
    if not modules or any(f"{module.replace('.', '/')}.py" not in files for module in modules):
        fail(f"entry_points.txt names {modules}, and not all are in the wheel")
    needed, versions = needs_of(files["sdjwt/libsdjwt.so"])
    if not needed <= SYSTEM:
        fail(f"the library needs {needed - SYSTEM}")
    if max(versions)[:2] > asked:
        fail(f"the library needs glibc {max(versions)}, and the name asks for {asked}")
    for name, digest, size in csv.reader(io.StringIO(files[f"{info}/RECORD"].decode())):
        content = files.pop(name)
        due = base64.urlsafe_b64encode(hashlib.sha256(content).digest()).rstrip(b"=").decode()
        if name != f"{info}/RECORD" and (digest != f"sha256={due}" or int(size) != len(content)):
            fail(f"RECORD is wrong of {name}")
    if files:
        fail(f"RECORD does not have {sorted(files)}")
    print(f"for glibc {'.'.join(map(str, asked))}, and the library needs {'.'.join(map(str, max(versions)))}")


if __name__ == "__main__":
    main()
