"""The program of an adopter: it runs, and the readers of types have nothing to say of it."""
import importlib.util
import os
import shutil
import subprocess
import sys
import typing
from pathlib import Path

import pytest

import sdjwt

ADOPTER = Path(__file__).resolve().parent / "adopter.py"
PACKAGE = Path(sdjwt.__file__).resolve().parent


def ran(*words, cwd):
    return subprocess.run(words, cwd=cwd, capture_output=True, text=True)


def test_the_program_runs(tmp_path):
    pytest.importorskip("cryptography")
    run = ran(sys.executable, "-W", "error", str(ADOPTER), cwd=tmp_path)
    assert (run.returncode, run.stdout, run.stderr) == (0, "admitted\n", "")


def faulty(folder):
    """A program with a fault in each of the lines that are marked by the comment `wrong`."""
    program = folder / "faulty.py"
    program.write_text(
        "import sdjwt\n"
        "policy = sdjwt.Policy({})\n"
        "a: str = sdjwt.convert('flat', '')  # wrong\n"
        "b: str = policy.verify('')  # wrong\n"
        "policy.verify('', nonce=b'4711')  # wrong\n"
        "sdjwt.convert('other', '')  # wrong\n"
        "async def check(question: sdjwt.Question) -> bool:\n"
        "    return question.asks == 'issuer'\n"
        "sdjwt.verify({}, '', check=check)  # wrong\n"
        "sdjwt.Policy({}, check=check)\n"
        "c: int = policy.check('').claims  # wrong\n", encoding="utf-8")
    return program


@pytest.mark.parametrize("checker", ["mypy", "pyright"])
def test_the_readers_of_types(checker, tmp_path):
    words = {
        "mypy": [sys.executable, "-m", "mypy", "--strict", "--cache-dir", str(tmp_path / "cache")],
        "pyright": ["pyright"],
    }[checker]
    if (importlib.util.find_spec("mypy") if checker == "mypy" else shutil.which("pyright")) is None:
        pytest.skip(f"no {checker}")
    # where the package is not installed, its source says the types
    environment = {"MYPYPATH": str(PACKAGE.parent)} if PACKAGE.parent.name == "src" else {}
    program = faulty(tmp_path)
    run = subprocess.run(
        [*words, str(ADOPTER), str(program)],
        cwd=tmp_path,
        capture_output=True,
        text=True,
        env={**os.environ, **environment},
    )
    said = [line for line in run.stdout.splitlines() if "error" in line and ".py:" in line]
    wrong = [
        number
        for number, line in enumerate(program.read_text(encoding="utf-8").splitlines(), 1)
        if line.endswith("# wrong")
    ]
    assert [line for line in said if "adopter.py" in line] == [], run.stdout
    told = {int(line.split("faulty.py:")[1].split(":")[0]) for line in said if "faulty.py:" in line}
    assert told == set(wrong), run.stdout


def test_the_names_of_types_are_there_when_the_program_runs():
    for name in (
        "Bytes",
        "Json",
        "Keys",
        "KeysFunction",
        "AsyncKeysFunction",
        "CheckFunction",
        "AsyncCheckFunction",
        "SignFunction",
        "AsyncSignFunction",
        "Moment",
        "PrivateKey",
        "PublicKey",
    ):
        assert name in sdjwt.__all__ and getattr(sdjwt, name) is not None
    assert set(typing.get_type_hints(sdjwt.Question)) == {"asks", "alg", "kid", "typ", "text", "signature", "payload"}
    assert set(typing.get_type_hints(sdjwt.Verified)) == {"claims", "header", "disclosed", "binding", "key"}
    assert set(typing.get_type_hints(sdjwt.SkippedKey)) == {"where", "index", "kid", "reason"}


def test_all_names_are_there():
    assert len(set(sdjwt.__all__)) == len(sdjwt.__all__)
    for name in sdjwt.__all__:
        assert hasattr(sdjwt, name)
