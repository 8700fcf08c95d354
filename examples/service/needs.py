"""Finds the packages that the service needs, or says how to get them."""
from __future__ import annotations

import importlib.util
import os
import sys
from pathlib import Path

TOP = Path(__file__).resolve().parents[2]
PACKAGE = TOP / "python" / "src"
LIBRARY = TOP / "c" / "out" / "lib" / "libsdjwt.so"

NO_PACKAGE = """service.py: the package sdjwt is not installed, and this is no checkout that has it. Install it:
    pip install ./sdjwt-*.whl             the wheel of a release, which contains the library
    sh c/build.sh && pip install ./python       from source, at the top of the repository"""
NO_LIBRARY = """service.py: the package sdjwt is here, but its library could not be loaded:
    {fault}
Build it at the top of the repository, then start the service again:
    sh c/build.sh --look                  in two minutes, without proofs
    sh c/build.sh                         with the proofs"""
NO_CRYPTOGRAPHY = """service.py: the package cryptography is not installed for {python}.
The office signs with ES256, and the door checks these signatures, with this package. Install version 38 or later:
    pip install cryptography
    apt install python3-cryptography      on Debian, for /usr/bin/python3"""


def find_packages() -> None:
    """Makes `import sdjwt` work, with the installed package or that of this checkout. Else it ends the program."""
    if importlib.util.find_spec("sdjwt") is None:
        _use_checkout()
    try:
        import sdjwt  # noqa: F401
    except ImportError as fault:
        sys.exit(NO_LIBRARY.format(fault=fault))
    if importlib.util.find_spec("cryptography") is None:
        sys.exit(NO_CRYPTOGRAPHY.format(python=sys.executable))


def _use_checkout() -> None:
    if not (PACKAGE / "sdjwt").is_dir():
        sys.exit(NO_PACKAGE)
    sys.path.append(str(PACKAGE))
    if not (PACKAGE / "sdjwt" / "libsdjwt.so").exists():
        os.environ.setdefault("SDJWT_LIBRARY", str(LIBRARY))
