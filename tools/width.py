#!/usr/bin/env python3
"""Whether the lines of src/ and specs/ fit a page: prints those of more than 100 columns, status 1 where there is one.

    python3 tools/width.py

What is not to be broken is let be: texts between quotes, tests, whose texts are whole tokens, and what `rt fmt` lays on
one line, which are `use` lines, `#[tactic(..)]` and ghost fields.
"""
import re
import sys
from pathlib import Path

TOP = Path(__file__).resolve().parent.parent
COLUMNS = 100
ON_ONE_LINE = re.compile(r"\s*((pub )?(ghost )?use |#\[tactic\(|pub ghost \w+: )")
QUOTED = re.compile(r'"(\\.|[^"\\])*"')


def is_too_wide(line):
    return not ON_ONE_LINE.match(line) and len(line) > COLUMNS and len(QUOTED.sub("", line)) > COLUMNS


def main():
    wide = 0
    for path in sorted(TOP.glob("crates/*/s*/**/*.*t")):
        if path.suffix not in (".rt", ".antt") or path.stem.endswith("_tests"):
            continue
        for number, line in enumerate(path.read_text(encoding="utf-8").splitlines(), 1):
            if is_too_wide(line):
                wide += 1
                print(f"{path.relative_to(TOP)}:{number} has {len(line)} columns")
    return 1 if wide else 0


if __name__ == "__main__":
    sys.exit(main())
