#!/usr/bin/env python3
"""Compares sdjwt with the plain program: answers first, then instructions, time and memory.

    python3 bench/programs.py SDJWT [--only WORD] [--rounds 15] [--instructions] [--growth] [--plain PROGRAM]

SDJWT is a built sdjwt. Without --instructions both run in turn; a quotient of times is the median of the quotients of
neighboring runs. With it callgrind counts, which does not depend on what else the machine does. If an answer differs
the status is 1, and nothing is measured. PROGRAM replaces the plain program that bench/build.sh builds.
"""
import argparse
import math
import statistics
import sys
import tempfile

import workloads
from machine import Skipped, answer, in_turn, instructions, median_quotient, plain_folder, same_answer, table

GROWTH = (512, 1024, 2048, 4096, 8192, 16384, 32768)


def refused(folder, program):
    """Names and words of runs that are refused, or end with an error."""
    files = workloads.Files(folder, "small", workloads.small, program)
    for number, (name, text) in enumerate(workloads.broken(files.path("shown").read_bytes())):
        path = files.path(f"broken{number}")
        path.write_text(text, encoding="utf-8")
        for words in (["verify", str(files.path("policy"))], ["present", str(files.path("ask"))], ["show"], ["split"],
                      ["convert", "general"]):
            yield f"{words[0]}: {name}", [*words, str(path)]
    yield "verify: a token for the policy", ["verify", str(files.path("token")), str(files.path("token"))]
    yield "issue: a short seed", ["issue", str(files.path("order")), "/dev/null"]
    yield "issue: no file", ["issue", "nowhere", "nowhere"]
    yield "gen: too many", ["gen", "3001"]


def differences(ours, plain, runs):
    """The names of the runs that the two programs answer in another way."""
    return [name for name, words in runs if not same_answer(ours, plain, words)]


def compared(ours, plain, folder, only=""):
    """The workloads, after both programs gave the same answers to them and to what is refused."""
    runs = list(workloads.all_of(folder, ours, only))
    if not runs:
        raise Skipped(f"no workload has the word {only}")
    bad = list(refused(folder, ours))
    differ = differences(ours, plain, runs + bad)
    if differ:
        sys.exit("programs.py: the answers differ: " + "; ".join(differ))
    failed = [name for name, words in runs if answer(ours, words)[0] != 0]
    if failed:
        sys.exit("programs.py: a workload is refused: " + "; ".join(failed))
    print(f"programs.py: both answer {len(runs)} workloads and {len(bad)} refused runs the same", file=sys.stderr)
    return runs


def count(ours, plain, runs):
    """For each workload the instructions of both, in millions, without those of the start, and the quotients without
    and with it."""
    first, second = (instructions(program, []) for program in (ours, plain))
    for name, words in runs:
        own, other = (instructions(program, words) for program in (ours, plain))
        yield name, (own - first) / 1e6, (other - second) / 1e6, (own - first) / (other - second), own / other


def times(ours, plains, runs, runner, rounds):
    """For each workload the median milliseconds of the program, its quotients with the plain ones, and peaks in kB."""
    for name, words in runs:
        costs = in_turn(runner, [[program, *words] for program in (ours, *plains)], rounds)
        quotients = [median_quotient(costs[0], other) for other in costs[1:]]
        middle = statistics.median(cost[0] for cost in costs[0]) / 1000
        yield name, middle, quotients, [max(cost[2] for cost in own) for own in costs[:2]]


def growth(ours, plain, runner, rounds, sizes=GROWTH):
    """For verify, issue and present the milliseconds of both programs at each number of disclosures."""
    points = {command: [] for command in ("verify", "issue", "present")}
    for size in sizes:
        with tempfile.TemporaryDirectory() as folder:
            files = workloads.Files(folder, "flat", lambda: workloads.flat(size), ours)
            for command, own in points.items():
                costs = in_turn(runner, [[program, *files.words(command)] for program in (ours, plain)], rounds)
                own.append((size, *(statistics.median(cost[0] for cost in each) / 1000 for each in costs)))
    return points


def exponent(points):
    """The slope of the time over the size, both as logarithms, between the last sizes."""
    (size, time), (last, end) = points[len(points) // 2][:2], points[-1][:2]
    return math.log(max(end, 1e-3) / max(time, 1e-3)) / math.log(last / size)


def instruction_table(rows):
    cells = [(name, f"{own:.2f}", f"{other:.2f}", f"{quotient:.3f}", f"{whole:.3f}")
             for name, own, other, quotient, whole in rows]
    return table(("Workload", "`sdjwt`, million", "plain Rust, million", "Quotient", "with the start"), cells)


def time_table(rows):
    cells = [(name, f"{middle:.2f}", *(f"{each:.2f}" for each in quotients), f"{own:,}; {other:,}")
             for name, middle, quotients, (own, other) in rows]
    heads = ("Workload", "`sdjwt`, ms", "Quotient of times", "the same, plain Rust without SHA instructions",
             "Peak memory of `sdjwt`; of plain Rust, kB")
    return table(heads, cells)


def main():
    parser = argparse.ArgumentParser(description=__doc__, formatter_class=argparse.RawDescriptionHelpFormatter)
    parser.add_argument("sdjwt")
    parser.add_argument("--only", default="")
    parser.add_argument("--rounds", type=int, default=15)
    parser.add_argument("--instructions", action="store_true")
    parser.add_argument("--growth", action="store_true")
    parser.add_argument("--plain")
    given = parser.parse_args()
    try:
        built = plain_folder()
        plain, runner = given.plain or str(built / "plain"), str(built / "runner")
        with tempfile.TemporaryDirectory() as folder:
            runs = compared(given.sdjwt, plain, folder, given.only)
            if given.instructions:
                print(instruction_table(count(given.sdjwt, plain, runs)))
            else:
                plains = (plain, str(built / "soft/plain"))
                print(time_table(times(given.sdjwt, plains, runs, runner, given.rounds)))
        if given.growth:
            for command, points in growth(given.sdjwt, plain, runner, given.rounds).items():
                print(f"{command}: exponent {exponent(points):.2f}; size, ms, ms of plain Rust: {points}")
    except Skipped as word:
        print(f"programs.py: skipped: {word}")


if __name__ == "__main__":
    main()
