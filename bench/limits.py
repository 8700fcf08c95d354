#!/usr/bin/env python3
"""Time and memory at the greatest inputs, of sdjwt and of the plain program.

    python3 bench/limits.py SDJWT TOOLS [WORD]

tests/worst_json.py makes the tokens of the first table: each fills a token file with what nobody signs, such as deep
arrays in `header`. tests/limits.py makes the files of the second: each has a list at its limit. With WORD only the
lines with this word are measured.
"""
import re
import subprocess
import sys

from machine import TOP, Skipped, plain_folder, table

COMMANDS = ("verify", "present", "show", "convert")


def worst(program, *words):
    """For each text the peak memory in MB and the seconds of the four commands."""
    run = subprocess.run([sys.executable, str(TOP / "tests/worst_json.py"), program, *words], check=True,
                         stdout=subprocess.PIPE, text=True)
    found = {}
    for line in run.stdout.split("\n")[1:]:
        cells = re.findall(r"([\d,]+) +([\d.]+)s", line[34:])
        if len(cells) == len(COMMANDS):
            found[line[:34].strip()] = [(int(memory.replace(",", "")), float(seconds)) for memory, seconds in cells]
    return found


def worst_table(ours, plain):
    """Verify and convert of both, and the greatest memory of present and show."""
    def cell(figures, which):
        memory, seconds = figures[which]
        return f"{memory:,} MB, {seconds:.1f} s"
    rows = [(name, cell(own, 0), cell(plain[name], 0) if name in plain else "", cell(own, 3),
             cell(plain[name], 3) if name in plain else "") for name, own in ours.items()]
    return table(("Contents", "`verify`", "`verify` of plain Rust", "`convert`", "`convert` of plain Rust"), rows)


def files(sdjwt, tools, *words):
    """The table that tests/limits.py prints."""
    run = subprocess.run([sys.executable, str(TOP / "tests/limits.py"), sdjwt, tools, *words], stdout=subprocess.PIPE,
                         text=True)
    lines = [line for line in run.stdout.split("\n") if line.startswith("|")]
    if len(lines) < 3 and not words:
        sys.exit(f"limits.py: tests/limits.py ended with status {run.returncode}")
    return "\n".join(lines)


def main():
    if len(sys.argv) not in (3, 4):
        sys.exit(__doc__.strip())
    sdjwt, tools, *words = sys.argv[1:]
    try:
        plain = worst(str(plain_folder() / "plain"), *words)
    except Skipped as word:
        print(f"limits.py: skipped for plain Rust: {word}")
        plain = {}
    print(worst_table(worst(sdjwt, *words), plain))
    print()
    print(files(sdjwt, tools, *words))


if __name__ == "__main__":
    main()
