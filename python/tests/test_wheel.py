"""The wheel of a release: its platforms, its dates, that it is the same each time, and what it says of its library."""
import base64
import csv
import hashlib
import importlib.util
import io
import json
import os
import platform
import re
import shutil
import subprocess
import sys
import tarfile
import time
import zipfile
from pathlib import Path

import pytest

import sdjwt

TOP = Path(__file__).resolve().parent.parent.parent
COMMIT = 1_790_000_000


def loaded(path):
    source = importlib.util.spec_from_file_location(path.stem + "_in_test", path)
    module = importlib.util.module_from_spec(source)
    source.loader.exec_module(module)
    return module


def record(folder, proved, library=b"a library"):
    """Writes a record of a library, as c/build.sh does."""
    sums = {f"sha256 c/out/lib/{name}": hashlib.sha256(library).hexdigest() for name in ("libsdjwt.a", "libsdjwt.so.1")}
    loaded(TOP / "release/record.py").write(folder / "c/out/record", {"proved": proved, **sums})


@pytest.fixture
def backend(tmp_path, monkeypatch):
    """The backend of a copy of the package, whose library is a text that counts as proved."""
    for name in ("SDJWT_LIBRARY", "SDJWT_NOT_PROVED", "SDJWT_PLATFORM", "SOURCE_DATE_EPOCH"):
        monkeypatch.delenv(name, raising=False)
    shutil.copytree(TOP / "python", tmp_path / "python", ignore=shutil.ignore_patterns("__pycache__"))
    shutil.copytree(TOP / "release", tmp_path / "release", ignore=shutil.ignore_patterns("__pycache__", "out"))
    for name in ("LICENSE-APACHE", "LICENSE-MIT"):
        shutil.copy(TOP / name, tmp_path)
    for name in ("completions", "docs"):
        shutil.copytree(TOP / name, tmp_path / name, ignore=shutil.ignore_patterns("*.md", "*.png"))
    (tmp_path / "c/out/lib").mkdir(parents=True)
    (tmp_path / "c/out/lib/libsdjwt.so").write_bytes(b"a library")
    record(tmp_path, "yes")
    return loaded(tmp_path / "python/build_backend/sdjwt_wheel.py")


def built(backend, folder):
    folder.mkdir()
    return folder / backend.build_wheel(folder)


def read(path):
    with zipfile.ZipFile(path) as wheel:
        return {entry.filename: (entry, wheel.read(entry)) for entry in wheel.infolist()}


def test_it_is_for_the_platforms_that_are_named_and_else_for_this_machine(backend, tmp_path, monkeypatch):
    here = f"linux_{platform.machine()}"
    for number, named in enumerate((None, "", "manylinux_2_28_x86_64", "manylinux_2_17_x86_64.manylinux2014_x86_64")):
        if named is not None:
            monkeypatch.setenv("SDJWT_PLATFORM", named)
        path = built(backend, tmp_path / str(number))
        version = backend._version()
        assert path.name == f"sdjwt-{version}-py3-none-{named or here}.whl"
        said = re.findall(r"^Tag: (.*)$", read(path)[f"sdjwt-{version}.dist-info/WHEEL"][1].decode(), re.M)
        assert said == [f"py3-none-{one}" for one in (named or here).split(".")]


def test_its_files_have_the_date_that_is_given_and_else_one_that_is_always_the_same(backend, tmp_path, monkeypatch):
    first = backend.FIRST_DATE
    for number, (said, due) in enumerate(((None, first), ("5", first), (str(COMMIT), COMMIT))):
        if said is not None:
            monkeypatch.setenv("SOURCE_DATE_EPOCH", said)
        entries = [entry for entry, _ in read(built(backend, tmp_path / str(number))).values()]
        assert {entry.date_time for entry in entries} == {time.gmtime(due)[:6]}
        assert {entry.external_attr >> 16 for entry in entries} == {0o100644}


def test_it_is_the_same_each_time(backend, tmp_path, monkeypatch):
    monkeypatch.setenv("SOURCE_DATE_EPOCH", str(COMMIT))
    first = built(backend, tmp_path / "first")
    for path in (tmp_path / "python/src/sdjwt").iterdir():
        path.touch()
        path.chmod(0o600)
    second = built(backend, tmp_path / "second")
    assert first.name == second.name and first.read_bytes() == second.read_bytes()


def test_its_record_has_each_file_with_its_sum(backend, tmp_path):
    files = read(built(backend, tmp_path / "made"))
    info = f"sdjwt-{backend._version()}.dist-info"
    rows = {name: (digest, size) for name, digest, size in csv.reader(io.StringIO(files[f"{info}/RECORD"][1].decode()))}
    assert list(rows) == list(files) and rows.pop(f"{info}/RECORD") == ("", "")
    for name, said in rows.items():
        content = files[name][1]
        digest = base64.urlsafe_b64encode(hashlib.sha256(content).digest()).rstrip(b"=").decode()
        assert said == (f"sha256={digest}", str(len(content))), name
    assert files["sdjwt/libsdjwt.so"][1] == b"a library"
    assert {"sdjwt/__init__.py", "sdjwt/py.typed", "sdjwt/built.json", f"{info}/licenses/LICENSE-MIT"} <= set(files)


def test_it_has_the_program_with_its_manual_page_and_its_completions(backend, tmp_path):
    files = read(built(backend, tmp_path / "made"))
    name = f"sdjwt-{backend._version()}"
    assert files[f"{name}.dist-info/entry_points.txt"][1] == b"[console_scripts]\nsdjwt-keys = sdjwt._program:main\n"
    assert "sdjwt/_program.py" in files and "sdjwt/__main__.py" in files
    for source, target in backend.SHARED.items():
        assert files[f"{name}.data/data/{target}"][1] == (TOP / source).read_bytes() != b""
    with tarfile.open(tmp_path / backend.build_sdist(tmp_path)) as source:
        assert {f"sdjwt-0.2.0/{name}" for name in backend.SHARED} <= set(source.getnames())


def test_it_has_the_notices_of_what_is_linked_also_from_a_source_distribution(backend, tmp_path, monkeypatch):
    notices = loaded(TOP / "release/linked.py").notices().encode()
    assert b"Copyright (c) 2015 Andrew Gallant" in notices
    info = f"sdjwt-{backend._version()}.dist-info"

    def held(path):
        files = read(path)
        named = re.findall(r"^License-File: (.*)$", files[f"{info}/METADATA"][1].decode(), re.M)
        assert {f"{info}/licenses/{name}" for name in named} == {name for name in files if "/licenses/" in name}
        return files[f"{info}/licenses/THIRD-PARTY.txt"][1]

    assert held(built(backend, tmp_path / "made")) == notices
    apart = tmp_path / "apart"
    apart.mkdir()
    with tarfile.open(tmp_path / backend.build_sdist(tmp_path)) as source:
        source.extractall(apart)
    monkeypatch.setenv("SDJWT_LIBRARY", str(tmp_path / "c/out/lib/libsdjwt.so"))
    other = loaded(next(apart.iterdir()) / "build_backend/sdjwt_wheel.py")
    assert held(built(other, tmp_path / "other")) == notices


def without_end(text):
    return text[:-1]


def twice(text):
    return text + text


def by_hand(text):
    return text.replace(b"proved: no", b"proved: yes")


def empty(text):
    return b""


def as_it_is(text):
    return text


@pytest.mark.parametrize(
    "said, changed, proved",
    [
        ("yes", as_it_is, True),
        ("no", as_it_is, False),
        ("no: libsdjwt.a was compiled without proofs", as_it_is, False),
        ("yes", without_end, None),
        ("yes", twice, None),
        ("yes", empty, None),
        ("no", by_hand, None),
        (None, as_it_is, None),
    ],
)
def test_what_a_wheel_says_of_its_library(said, changed, proved, backend, tmp_path, monkeypatch, capsys):
    kept = tmp_path / "c/out/record"
    if said is None:
        kept.unlink()
    else:
        record(tmp_path, said)
        kept.write_bytes(changed(kept.read_bytes()))
    for number, (name, proved) in enumerate(((None, proved), ("SDJWT_LIBRARY", None), ("SDJWT_NOT_PROVED", False))):
        with monkeypatch.context() as patch:
            if name:
                patch.setenv(name, str(tmp_path / "c/out/lib/libsdjwt.so"))
            files = read(built(backend, tmp_path / str(number)))
        said = json.loads(files["sdjwt/built.json"][1])
        assert said["proved"] is proved and said["version"].endswith("+not.proved") == (proved is False)
        assert said["sha256"] == hashlib.sha256(b"a library").hexdigest()
        assert f"sdjwt-{said['version']}.dist-info/METADATA" in files
        assert ("NOT PROVED" in capsys.readouterr().out) == (proved is False)


@pytest.mark.parametrize("library", [b"", b"a library that is another", b"a library\n"])
def test_a_record_says_nothing_of_another_library(library, backend, tmp_path):
    (tmp_path / "c/out/lib/libsdjwt.so").write_bytes(library)
    assert json.loads(read(built(backend, tmp_path / "made"))["sdjwt/built.json"][1])["proved"] is None


def proved_by(folder, **more):
    """What the package below a folder says of the library that it loads."""
    environment = {name: value for name, value in os.environ.items() if name != "SDJWT_LIBRARY"}
    environment.update(PYTHONPATH=str(folder), PYTHONDONTWRITEBYTECODE="1", **more)
    ran = subprocess.run([sys.executable, "-c", "import sdjwt; print(sdjwt.__file__, sdjwt.proved)"], env=environment,
                         capture_output=True, text=True, check=True, cwd=folder)
    file, said = ran.stdout.split()
    assert file.startswith(str(folder))
    return said


@pytest.mark.parametrize("said", [True, False])
def test_what_is_proved_is_the_library_that_the_package_was_built_with(said, backend, tmp_path):
    library = Path(sdjwt._library.PATH).read_bytes()
    (tmp_path / "c/out/lib/libsdjwt.so").write_bytes(library)
    record(tmp_path, "yes" if said else "no", library)
    installed = tmp_path / "installed"
    with zipfile.ZipFile(built(backend, tmp_path / "made")) as wheel:
        wheel.extractall(installed)
    assert proved_by(installed) == str(said)
    inside, kept = installed / "sdjwt/libsdjwt.so", tmp_path / "kept.so"
    shutil.copy(inside, kept)
    # another library is another, wherever it is loaded from
    inside.write_bytes(library + b"\n")
    assert proved_by(installed) == "None"
    assert proved_by(installed, SDJWT_LIBRARY=str(kept)) == "None"
    # as is one in a link, but if it is the same
    inside.unlink()
    inside.symlink_to(kept)
    assert proved_by(installed) == str(said)
    kept.write_bytes(library + b"\n")
    assert proved_by(installed) == "None"
    # nothing is said where the package does not know with which it was built
    inside.unlink()
    inside.write_bytes(library)
    (installed / "sdjwt/built.json").write_text(json.dumps({"version": "0", "proved": said}), encoding="utf-8")
    assert proved_by(installed) == "None"
    (installed / "sdjwt/built.json").unlink()
    assert proved_by(installed) == "None"
