#!/usr/bin/env python3
"""Judges files of tokens, one a line, by the workers of a Dask cluster.

    python3 examples/scale/dask_feed.py SCHEDULER POLICY TOKENS ..

The verdicts on a file come to TOKENS.verdicts beside it: what `sdjwt_tools feed POLICY MOST <TOKENS` prints. For that a
file is cut at line ends into parts, and a worker judges a part by a feed of its own. Workers and this program see
policy and tokens under the same names, as in a folder that they share.

The answer on a part is written under a name that no other has and is then renamed, so it is there whole or not at all.
Where a worker dies Dask gives what it had to others: a part may then be judged twice, and has one answer all the same.
A feed judges at the moment at which it starts, so each part has a moment of its own. With --now all have the same one:
then the Python package, which each worker has to have, judges instead of the program. It gives the verdicts of a feed,
which knows shared keys alone, although the package can check signatures of public keys as well.
"""
import argparse
import json
import os
import shutil
import signal
import subprocess
import sys
import tempfile
import time
import uuid
from contextlib import ExitStack
from pathlib import Path

from dask import bag
from dask.distributed import Client

MOST = 1 << 30
RETRIES = 3
SHARED = ("HS256", "HS384", "HS512")


def words():
    parser = argparse.ArgumentParser(description="Judges files of tokens by the workers of a Dask cluster.")
    parser.add_argument("scheduler", help="its address, as tcp://192.0.2.1:8786")
    parser.add_argument("policy", type=Path, help="the policy file")
    parser.add_argument("tokens", type=Path, nargs="+", help="a file of tokens, one a line")
    parser.add_argument("--block", type=int, default=4 << 20, help="how many bytes a part has, to the end of a line")
    parser.add_argument("--program", default="sdjwt_tools", help="its name on the path of the workers, or its whole name")
    parser.add_argument("--now", type=int, help="judges by the Python package, all at this moment (seconds since 1970)")
    given = parser.parse_args()
    if given.block < 1:
        parser.error("--block is to be 1 or more")
    if given.now is not None and not 0 <= given.now < 1 << 64:
        parser.error("--now is to be from 0 to 2^64 - 1")
    return given


def cuts(tokens, block):
    """Where the parts of a file begin and end. Each has whole lines and, but for the last, at least so many bytes."""
    start, size = 0, tokens.stat().st_size
    with tokens.open("rb") as file:
        while start < size:
            file.seek(min(start + block, size) - 1)
            file.readline()
            yield start, file.tell()
            start = file.tell()


def parts_of(tokens, folder, block):
    """The parts of a file, in their order, each with the name of its answer."""
    return [(tokens, *cut, folder / f"{number:08}") for number, cut in enumerate(cuts(tokens, block))]


def by_program(lines, answer, policy, program):
    """Puts the verdicts of a feed into a file, without its last line, and says their number."""
    feed = subprocess.run([program, "feed", policy, str(MOST)], input=lines, stdout=answer, stderr=subprocess.PIPE)
    if feed.returncode != 0:
        line = feed.stderr.decode(errors="replace").strip()
        raise RuntimeError(f"{program} ended with status {feed.returncode}: {line}")
    size = answer.seek(0, os.SEEK_END)
    answer.seek(max(0, size - 32))
    said = answer.read()
    last = said[said.rindex(b"lines "):]
    answer.truncate(size - len(last))
    return int(last.split()[1])


def of_shared_keys(policy):
    """A policy file without the algorithms of public keys in `algs`: a feed takes no token that is signed by one.

    A feed refuses `algs` in `binding`, which the package takes: what stands there becomes what the package refuses too.
    """
    try:
        # -0 is to stay what the library refuses
        asked = json.loads(policy.decode(), parse_int=lambda digits: -0.0 if digits == "-0" else int(digits))
    except (ValueError, RecursionError):
        return policy
    if not isinstance(asked, dict):
        return policy
    changed = {}
    if isinstance(asked.get("algs"), list):
        changed["algs"] = [alg for alg in asked["algs"] if not isinstance(alg, str) or alg in SHARED]
    if isinstance(asked.get("binding"), dict) and "algs" in asked["binding"]:
        changed["binding"] = {**asked["binding"], "algs": None}
    return policy if all(asked[name] == value for name, value in changed.items()) else \
        json.dumps({**asked, **changed}).encode()


def by_package(lines, answer, policy, now):
    """Puts the verdicts of the Python package at a moment into a file, as a feed prints them, and says their number."""
    import sdjwt
    asked = sdjwt.Policy(of_shared_keys(policy.read_bytes()))
    tokens = lines.removesuffix(b"\n").split(b"\n")
    for token in tokens:
        try:
            claims = asked.verify(token, now, most=MOST)
            line = "accepted " + json.dumps(claims, ensure_ascii=False, separators=(",", ":"))
        except sdjwt.Refused as refused:
            line = refused.line
        answer.write(line.encode() + b"\n")
    return len(tokens)


def judge(part, policy, program, now):
    """What a worker does: writes the answer on a part, and says how many lines it has."""
    tokens, start, end, target = part
    with tokens.open("rb") as file:
        file.seek(start)
        lines = file.read(end - start)
    written = target.with_name(f"{target.name}.{uuid.uuid4().hex}")
    with written.open("w+b") as answer:
        if now is None:
            count = by_program(lines, answer, policy, program)
        else:
            count = by_package(lines, answer, policy, now)
    os.replace(written, target)
    return count


def put_together(tokens, folder, answers, lines):
    """Writes TOKENS.verdicts: the answers in their order, and how many lines they have."""
    whole = folder / "whole"
    with whole.open("wb") as file:
        for answer in answers:
            with answer.open("rb") as part:
                shutil.copyfileobj(part, file, 1 << 20)
        file.write(b"lines %d\n" % lines)
    os.replace(whole, f"{tokens}.verdicts")


def feed(client, given, files, folders):
    """Judges all parts, puts their answers together, and says how many parts and lines there were."""
    parts = [parts_of(tokens, folder, given.block) for tokens, folder in zip(files, folders)]
    every = [part for own in parts for part in own]
    counts = []
    if every:
        tasks = bag.from_sequence(every, partition_size=1)
        judged = tasks.map(judge, policy=given.policy, program=given.program, now=given.now)
        counts = client.compute(judged, retries=RETRIES).result()
    left = iter(counts)
    for tokens, folder, own in zip(files, folders, parts):
        lines = sum(next(left) for _ in own)
        put_together(tokens, folder, [answer for _, _, _, answer in own], lines)
    return len(every), sum(counts)


def folder_for(tokens, stack):
    """A folder beside a file for the answers on its parts, which is removed behind the run with all that is in it."""
    folder = tempfile.mkdtemp(prefix=f"{tokens.name}.parts.", dir=tokens.parent)
    stack.callback(shutil.rmtree, folder, ignore_errors=True)
    return Path(folder)


def file_of(name):
    """The whole name of a file that can be read."""
    if not name.is_file() or not os.access(name, os.R_OK):
        sys.exit(f"dask_feed.py: {name} is no file that can be read")
    return name.resolve()


def main():
    given = words()
    files = [file_of(tokens) for tokens in given.tokens]
    given.policy = file_of(given.policy)
    # so that what is told to end takes its folders away
    signal.signal(signal.SIGTERM, lambda *_: sys.exit("dask_feed.py: ended by SIGTERM"))
    with ExitStack() as stack:
        folders = [folder_for(tokens, stack) for tokens in files]
        client = stack.enter_context(Client(given.scheduler))
        began = time.monotonic()
        parts, lines = feed(client, given, files, folders)
        print(f"dask_feed.py: {lines} lines in {parts} parts, {time.monotonic() - began:.2f} s")
    return 0


if __name__ == "__main__":
    sys.exit(main())
