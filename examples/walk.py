#!/usr/bin/env python3
"""Follows a walk: runs its commands, shows what they print, and compares that with what the page says.

    python3 examples/walk.py PROGRAM      PROGRAM is sdjwt (as demo.sh or look.sh builds it) or sdjwt-keys

The walk of sdjwt is docs/WALK.md, and that of sdjwt-keys is the section "A walk" of README.md. A line after `$ ` in a
block of `console` is a command, which goes on after a backslash at its end and inside single quotes, and the lines
below it are its output. The commands run in an empty folder, or in a copy of examples/walk if the page says how to make
one. In an output `..` stands for the rest of a base64 string, and a line `..` for any lines.
"""
import os
import re
import shutil
import subprocess
import sys
import tempfile
from pathlib import Path

TOP = Path(__file__).resolve().parent.parent
# Of each program the page with its walk, and the heading of the walk.
WALKS = {"sdjwt": ("docs/WALK.md", "# "), "sdjwt-keys": ("README.md", "## A walk\n")}


def walk_of(name):
    """The walk of a program."""
    page, heading = WALKS[name]
    text = (TOP / page).read_text(encoding="utf-8")
    walk = text[text.index(heading):]
    level = heading.split(" ")[0]
    return re.split(rf"^{level} ", walk, maxsplit=2, flags=re.M)[1]


def is_open(command):
    """Whether a command goes on in the next line."""
    return command.endswith("\\") or command.count("'") % 2 == 1


def steps(text):
    """Each command with the lines that it prints."""
    found, fenced = [], False
    for line in text.splitlines():
        if line.startswith("```"):
            fenced = line == "```console"
        elif fenced and line.startswith("$ "):
            found.append((line[2:], []))
        elif fenced and not found[-1][1] and is_open(found[-1][0]):
            found[-1] = (found[-1][0] + "\n" + line, [])
        elif fenced:
            found[-1][1].append(line)
    return found


def agrees(said, lines):
    """Whether the lines that were printed are those that the page says."""
    def form(line):
        return r"(?:.*\n)*" if line == ".." else re.escape(line).replace(r"\.\.", r"[A-Za-z0-9_.-]+") + r"\n"
    return re.fullmatch("".join(map(form, said)), "".join(f"{line}\n" for line in lines)) is not None


def run(words, folder, home):
    """What a command prints on both streams, and its status."""
    path = f"{home / 'bin'}:{os.environ.get('PATH', os.defpath)}"
    return subprocess.run(["sh", "-c", words], cwd=folder, env={**os.environ, "HOME": str(home), "PATH": path},
                          stdin=subprocess.DEVNULL, stdout=subprocess.PIPE, stderr=subprocess.STDOUT, encoding="utf-8",
                          timeout=120)


def follow(name, program, walk, home):
    """How many commands there are, and how many of them print something else."""
    (home / "bin").mkdir()
    (home / "bin" / name).symlink_to(program)
    copy = re.search(r"^(cp -r examples/walk .*)$", walk, re.M)
    folder = run(f"{copy[1] if copy else 'mkdir ~/walk; cd ~/walk'} && pwd", TOP, home).stdout.strip()
    wrong, all_steps = 0, steps(walk)
    for command, said in all_steps:
        came = run(command, folder, home)
        print(f"$ {command}\n{came.stdout}", end="", flush=True)
        due = 1 if any(line.startswith("refused ") for line in said) else 0
        if not agrees(said, came.stdout.splitlines()) or came.returncode != due:
            wrong += 1
            told = f"walk.py: status {came.returncode}, and the page says {due} and"
            print("\n".join([told, *said]), file=sys.stderr)
    return len(all_steps), wrong


def main():
    if len(sys.argv) != 2:
        sys.exit(__doc__)
    program = shutil.which(sys.argv[1])
    if program is None:
        sys.exit(f"walk.py: there is no program {sys.argv[1]}")
    name = "sdjwt-keys" if Path(program).name == "sdjwt-keys" else "sdjwt"
    with tempfile.TemporaryDirectory() as home:
        count, wrong = follow(name, Path(program).absolute(), walk_of(name), Path(home))
    print(f"\n{count} commands of {WALKS[name][0]}, {wrong} print something else")
    return 1 if wrong or count == 0 else 0


if __name__ == "__main__":
    sys.exit(main())
