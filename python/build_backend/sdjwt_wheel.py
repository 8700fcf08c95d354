"""Builds the wheel: the files of src/sdjwt, with the library of c/out. It needs nothing but Python.

This is a build backend (PEP 517), so that `pip install ./python` needs no network. The library is that of `sh
c/build.sh`, or the one that SDJWT_LIBRARY names. Whether the first is proved says its record, `c/out/record`, where it
has its sum, but if SDJWT_NOT_PROVED says that it is not; of the second nothing is known. A wheel whose library is not
proved has `+not.proved` behind its version, so that the last line of pip says it.

For a release SDJWT_PLATFORM names the platforms that the wheel is for, with a dot between two, as
manylinux_2_17_x86_64; else it is for the machine at hand. The files in it have the date SOURCE_DATE_EPOCH, or one that
is always the same.
"""
import base64
import hashlib
import importlib.util
import io
import json
import os
import platform
import re
import tarfile
import time
import zipfile
from pathlib import Path

HERE = Path(__file__).resolve().parent.parent
LIBRARY = "libsdjwt.so"
RECORDED = "sha256 c/out/lib/libsdjwt.so.1"
LICENCES = ("LICENSE-APACHE", "LICENSE-MIT")
# The notices of what is linked into the library.
NOTICES = "THIRD-PARTY.txt"
# The manual page and the completions of the program, with where each is found below the folder of an installation.
SHARED = {
    "docs/sdjwt-keys.1": "share/man/man1/sdjwt-keys.1",
    "completions/sdjwt-keys.bash": "share/bash-completion/completions/sdjwt-keys",
    "completions/_sdjwt-keys": "share/zsh/site-functions/_sdjwt-keys",
    "completions/sdjwt-keys.fish": "share/fish/vendor_completions.d/sdjwt-keys.fish",
}
TAG = "py3-none"
# the beginning of 2020
FIRST_DATE = 1_577_836_800


def _field(name):
    text = (HERE / "pyproject.toml").read_text(encoding="utf-8")
    return re.search(rf'^{name} = "(.*)"$', text, re.M)[1]


def _extras():
    """The lines of what may be installed beside the package."""
    text = (HERE / "pyproject.toml").read_text(encoding="utf-8").partition("[project.optional-dependencies]\n")[2]
    lines = []
    for name, needed in re.findall(r'^(\w+) = \["(.*)"\]$', text, re.M):
        lines += [f"Provides-Extra: {name}\n", f"Requires-Dist: {needed}; extra == '{name}'\n"]
    return "".join(lines)


def _scripts():
    """The programs, as entry points."""
    text = (HERE / "pyproject.toml").read_text(encoding="utf-8").partition("[project.scripts]\n")[2].partition("\n[")[0]
    named = re.findall(r'^([\w-]+) = "(.*)"$', text, re.M)
    return "".join(["[console_scripts]\n", *(f"{name} = {function}\n" for name, function in named)])


def _library():
    path = Path(os.environ.get("SDJWT_LIBRARY") or HERE.parent / "c/out/lib" / LIBRARY)
    if not path.is_file():
        raise SystemExit(f"sdjwt: there is no library {path}: run 'sh c/build.sh' first, or set SDJWT_LIBRARY")
    return path.read_bytes()


def _of_top(name):
    """A file at the top of the repository, or beside pyproject.toml in a source distribution."""
    return next(path for path in (HERE / name, HERE.parent / name) if path.is_file())


def _of_release(name):
    """A module of the folder release, which stands in the repository and in no source distribution."""
    source = importlib.util.spec_from_file_location(f"sdjwt_{name}", HERE.parent / f"release/{name}.py")
    module = importlib.util.module_from_spec(source)
    source.loader.exec_module(module)
    return module


def _notices():
    """The notices, which a source distribution has as a file."""
    kept = HERE / NOTICES
    return kept.read_bytes() if kept.is_file() else _of_release("linked").notices().encode()


def _record():
    """What the record of c/build.sh says, by its names, and nothing where there is none that is whole."""
    if not (HERE.parent / "c/out/record").is_file():
        return {}
    record = _of_release("record")
    try:
        return record.read(HERE.parent / "c/out/record")
    except record.Fault:
        return {}


def _proved(sum_of_library):
    """Whether the library is proved, and None where nobody says it of this one."""
    if os.environ.get("SDJWT_NOT_PROVED"):
        return False
    said = {} if os.environ.get("SDJWT_LIBRARY") else _record()
    return said["proved"] == "yes" if said.get(RECORDED) == sum_of_library else None


def _built():
    """What the wheel says of itself: its version, whether its library is proved, and the SHA-256 of that."""
    found = hashlib.sha256(_library()).hexdigest()
    proved = _proved(found)
    return {
        "version": _field("version") + ("+not.proved" if proved is False else ""),
        "proved": proved,
        "sha256": found,
    }


def _version():
    return _built()["version"]


def _files():
    """The files of the wheel, by their names in it."""
    found = {f"sdjwt/{path.name}": path.read_bytes() for path in sorted((HERE / "src/sdjwt").iterdir())
             if path.suffix in (".py", ".json", ".typed") or path.name == "py.typed"}
    found[f"sdjwt/{LIBRARY}"] = _library()
    found["sdjwt/built.json"] = json.dumps(_built()).encode()
    info = f"sdjwt-{_version()}.dist-info"
    found[f"{info}/METADATA"] = (
        f"Metadata-Version: 2.4\nName: sdjwt\nVersion: {_version()}\nSummary: {_field('description')}\n"
        f"License-Expression: {_field('license')}\nLicense-File: LICENSE-APACHE\nLicense-File: LICENSE-MIT\n"
        f"License-File: {NOTICES}\n"
        f"Requires-Python: {_field('requires-python')}\n{_extras()}Description-Content-Type: text/markdown\n\n"
    ).encode() + (HERE / "README.md").read_bytes()
    found[f"{info}/WHEEL"] = b"Wheel-Version: 1.0\nGenerator: sdjwt_wheel\nRoot-Is-Purelib: false\n"
    found[f"{info}/WHEEL"] += "".join(f"Tag: {TAG}-{name}\n" for name in _platforms().split(".")).encode()
    found[f"{info}/entry_points.txt"] = _scripts().encode()
    for name, target in SHARED.items():
        found[f"sdjwt-{_version()}.data/data/{target}"] = _of_top(name).read_bytes()
    for name in LICENCES:
        found[f"{info}/licenses/{name}"] = _of_top(name).read_bytes()
    found[f"{info}/licenses/{NOTICES}"] = _notices()
    return info, found


def _platforms():
    return os.environ.get("SDJWT_PLATFORM") or f"linux_{platform.machine()}"


def _date():
    """The date of the files in the wheel. A zip file has none before 1980."""
    seconds = int(os.environ.get("SOURCE_DATE_EPOCH") or FIRST_DATE)
    return time.gmtime(max(seconds, FIRST_DATE))[:6]


def _hash(content):
    return base64.urlsafe_b64encode(hashlib.sha256(content).digest()).rstrip(b"=").decode()


def build_wheel(wheel_directory, config_settings=None, metadata_directory=None):
    info, files = _files()
    lines = [f"{name},sha256={_hash(content)},{len(content)}" for name, content in files.items()]
    files[f"{info}/RECORD"] = "\n".join([*lines, f"{info}/RECORD,,", ""]).encode()
    name = f"sdjwt-{_version()}-{TAG}-{_platforms()}.whl"
    with zipfile.ZipFile(Path(wheel_directory) / name, "w") as wheel:
        for path, content in files.items():
            entry = zipfile.ZipInfo(path, _date())
            entry.external_attr = 0o100644 << 16
            wheel.writestr(entry, content, zipfile.ZIP_DEFLATED, 9)
    print({True: "sdjwt: the library in it is proved", False: "sdjwt: the library in it is NOT PROVED",
           None: "sdjwt: whether the library in it is proved is not known"}[_built()["proved"]], flush=True)
    return name


def build_sdist(sdist_directory, config_settings=None):
    name = f"sdjwt-{_field('version')}"
    with tarfile.open(Path(sdist_directory) / f"{name}.tar.gz", "w:gz") as archive:
        for path in ("pyproject.toml", "README.md", "build_backend", "src", "tests"):
            archive.add(HERE / path, f"{name}/{path}", filter=lambda i: None if "__pycache__" in i.name else i)
        for other in (*LICENCES, *SHARED):
            archive.add(_of_top(other), f"{name}/{other}")
        notices = tarfile.TarInfo(f"{name}/{NOTICES}")
        notices.size = len(_notices())
        archive.addfile(notices, io.BytesIO(_notices()))
    return f"{name}.tar.gz"
