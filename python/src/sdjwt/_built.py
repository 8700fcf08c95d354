"""As what the package was built. `built.json` beside this file says so, which is written into the wheel."""
from __future__ import annotations

import hashlib
import json
import os
from pathlib import Path
from typing import Any

from sdjwt._library import PATH

_FILE = Path(__file__).resolve().parent / "built.json"
_SAID: dict[str, Any] = json.loads(_FILE.read_text(encoding="utf-8")) if _FILE.is_file() else {}

VERSION: str = _SAID.get("version", "unknown")


def _proved() -> bool | None:
    if os.environ.get("SDJWT_LIBRARY") or "sha256" not in _SAID:
        return None
    proved: bool | None = _SAID["proved"]
    return proved if hashlib.sha256(Path(PATH).read_bytes()).hexdigest() == _SAID["sha256"] else None


# Whether the library was built of proved crates. None where nobody said so of just these bytes, as of one that
# SDJWT_LIBRARY names, or that took the place of the package's own.
PROVED: bool | None = _proved()
