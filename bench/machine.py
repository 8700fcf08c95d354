"""What the measurements stand on: runs of programs, what they cost, and the machine."""
import os
import re
import shutil
import statistics
import subprocess
import sys
import tempfile
import time
from pathlib import Path

HERE = Path(__file__).resolve().parent
TOP = HERE.parent


class Skipped(Exception):
    """Something that a measurement needs is missing; the text says what."""


def need(name):
    """The whole name of a program, or a word on what is missing."""
    found = shutil.which(name)
    if found is None:
        raise Skipped(f"there is no {name}")
    return os.path.abspath(found)


def plain_folder():
    """The folder of the plain programs, which are built if they are not there or older than their sources."""
    out = Path(os.environ.get("PLAIN_OUT", HERE / "out"))
    sources = [*HERE.glob("plain/src/*.rs"), HERE / "plain/Cargo.toml"]
    wanted = [out / name for name in ("plain", "floor", "runner", "soft/plain")]
    newest = max(path.stat().st_mtime for path in sources)
    if all(path.exists() and path.stat().st_mtime >= newest for path in wanted):
        return out
    print("machine.py: cargo builds the plain program", file=sys.stderr)
    built = subprocess.run(["sh", str(HERE / "build.sh")], stdout=subprocess.PIPE, stderr=subprocess.PIPE, text=True)
    if built.returncode == 3:
        raise Skipped(built.stderr.strip().splitlines()[-1])
    if built.returncode != 0:
        sys.exit(f"{built.stderr}machine.py: bench/build.sh ended with status {built.returncode}")
    return out


def answer(program, words, source=None):
    """The status, the standard output and the standard error of a run."""
    with open(source or os.devnull, "rb") as standard_input:
        run = subprocess.run([program, *words], stdin=standard_input, stdout=subprocess.PIPE, stderr=subprocess.PIPE)
    return run.returncode, run.stdout, run.stderr


def same_answer(first, second, words, source=None):
    """Whether two programs answer the same. A key binding token tells the second, so some tries are given."""
    for _ in range(5):
        ours, theirs = (answer(program, words, source) for program in (first, second))
        if ours == theirs:
            return True
        if words[0] != "present":
            return False
    return False


def in_turn(runner, commands, rounds, source=None):
    """For each command the costs of its runs, which take turns with those of the others: microseconds of the
    processor, nanoseconds by the clock, and peak memory in kB."""
    words = [runner, str(rounds), source or os.devnull]
    for command in commands:
        words += ["::", *command]
    lines = subprocess.run(words, check=True, stdout=subprocess.PIPE, text=True).stdout.split("\n")
    costs = [[] for _ in commands]
    for number, processor, clock, memory, _ in (map(int, line.split()) for line in lines if line):
        costs[number].append((processor, clock, memory))
    return costs


def median_quotient(ours, theirs):
    """The median of the quotients of neighboring runs, which slow and fast spells of a machine disturb little."""
    return statistics.median(own[0] / max(other[0], 1) for own, other in zip(ours, theirs))


def instructions(program, words, source=None, profile=None):
    """How many instructions a run takes, as callgrind counts them."""
    valgrind = need("valgrind")
    with tempfile.TemporaryDirectory() as made, open(source or os.devnull, "rb") as standard_input:
        out = profile or os.path.join(made, "profile")
        command = [valgrind, "--tool=callgrind", f"--callgrind-out-file={out}", program, *words]
        run = subprocess.run(command, stdin=standard_input, stdout=subprocess.DEVNULL, stderr=subprocess.PIPE,
                             text=True)
    found = re.search(r"Collected : (\d+)", run.stderr)
    if not found:
        raise Skipped(f"valgrind counts nothing: {run.stderr.strip().splitlines()[-1]}")
    return int(found.group(1))


def processor():
    """The name of the processor, how many cores there are, and whether it has SHA instructions."""
    try:
        text = Path("/proc/cpuinfo").read_text(encoding="utf-8")
    except OSError:
        text = ""
    name = re.search(r"model name\s*:\s*(.*)", text)
    flags = set(re.search(r"(?:flags|Features)\s*:\s*(.*)", text + "\nflags: ").group(1).split())
    return name.group(1) if name else "unknown", os.cpu_count() or 1, bool({"sha_ni", "sha2"} & flags)


def commit():
    """The commit that is checked out, and whether something was changed since."""
    def git(*words):
        return subprocess.run(["git", "-C", str(TOP), *words], stdout=subprocess.PIPE, text=True).stdout.strip()
    changed = git("status", "--porcelain", "--", "crates", "c", "bench", "python")
    return git("rev-parse", "--short=8", "HEAD") + (", with changes" if changed else "")


def heading():
    """One sentence on what the figures were measured with."""
    name, cores, has_sha = processor()
    load = f"{os.getloadavg()[0]:.1f}" if hasattr(os, "getloadavg") else "unknown"
    sha = "with" if has_sha else "without"
    return (f"Measured at commit {commit()} on {time.strftime('%Y-%m-%d', time.gmtime())}, on {cores} cores of {name}, "
            f"{sha} SHA instructions; the load of the machine at the beginning was {load}.")


def table(heads, rows):
    """A table in Markdown."""
    lines = ["| " + " | ".join(heads) + " |", "|" + "---|" * len(heads)]
    return "\n".join(lines + ["| " + " | ".join(str(cell) for cell in row) + " |" for row in rows])
