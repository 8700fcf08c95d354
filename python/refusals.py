#!/usr/bin/env python3
"""Writes what the packages for Python, JavaScript and Rust say of refusals from docs/REFUSALS.md, or checks that it is
what that page says, by --check."""
import json
import sys
from pathlib import Path

import explain

HERE = Path(__file__).resolve().parent
RUST_HEAD = """//! What docs/REFUSALS.md says of each line, written by python/refusals.py.

/// The texts of an entry.
pub(crate) struct Entry {
    heading: &'static str,
    pub(crate) explanation: &'static str,
    pub(crate) cause: &'static str,
    pub(crate) remedy: &'static str,
}

/// The entry of a heading, such as `refused 10 badSignature` or `unreadable notJson`.
pub(crate) fn find(heading: &str) -> Option<&'static Entry> {
    ENTRIES.binary_search_by(|entry| entry.heading.cmp(heading)).ok().map(|at| &ENTRIES[at])
}

/// In the order of their headings.
#[rustfmt::skip]
"""


def as_json(entries):
    return json.dumps(entries, indent=1, ensure_ascii=False) + "\n"


def as_rust(entries):
    """The entries as a table that is searched by halves."""
    rows = [f"static ENTRIES: [Entry; {len(entries)}] = ["]
    for heading, said in sorted(entries.items()):
        rows.append(f"    Entry {{ heading: {quoted(heading)},")
        rows += [f"        {part}: {quoted(said.get(part, ''))}," for part in ("explanation", "cause", "remedy")]
        rows.append("    },")
    return RUST_HEAD + "\n".join([*rows, "];", ""])


def quoted(text):
    """A text as Rust writes it: JSON has the same marks, but for characters outside ASCII, which stand as they are."""
    return json.dumps(text, ensure_ascii=False)


def main():
    entries = explain.sections(explain.PAGE.read_text(encoding="utf-8"))
    files = {f"{folder}/refusals.json": as_json(entries) for folder in ("python/src/sdjwt", "node")}
    files["rust/src/refusals.rs"] = as_rust(entries)
    for name, written in files.items():
        file = HERE.parent / name
        if sys.argv[1:] != ["--check"]:
            file.write_text(written, encoding="utf-8")
        elif not file.is_file() or file.read_text(encoding="utf-8") != written:
            sys.exit(f"{name} is not what docs/REFUSALS.md says: run python3 python/refusals.py")


if __name__ == "__main__":
    main()
