#!/usr/bin/env python3
"""Measures everything, and writes the tables of docs/SCALE.md and the pictures docs/pictures/*.svg.

    python3 bench/report.py [--only a,b] [--quick]

The sections are heading, programs, growth, shares, feeds, dask, calls, worst and limits. Each replaces what stands in
docs/SCALE.md between its two markers; the others stay. Run it on a machine that does nothing else: it takes about an
hour. What is missing (valgrind, cargo, GNU parallel, Dask, libsdjwt.so, other libraries) is told and skipped, and its
section stays as it was.

With --quick all workloads are small, and the document and the pictures go to bench/out/quick: this only shows that
everything runs. --sdjwt, --tools and --library name other programs than those in crates/*/out and c/out.
"""
import argparse
import os
import re
import shutil
import sys
import tempfile
from pathlib import Path

import functions
import limits
import pictures
import programs
import scale
import workloads
from machine import HERE, TOP, Skipped, heading, in_turn, median_quotient, plain_folder, table

SHARED = "flat 4,096"


class Report:
    """What the sections are made from, and where they go."""

    def __init__(self, given):
        self.quick, self.sdjwt, self.tools, self.library = given.quick, given.sdjwt, given.tools, given.library
        self.out = HERE / "out/quick" if given.quick else TOP / "docs"
        (self.out / "pictures").mkdir(parents=True, exist_ok=True)
        self.document = self.out / "SCALE.md"
        if given.quick:
            shutil.copy(TOP / "docs/SCALE.md", self.document)
        self.rounds = 2 if given.quick else 15
        self.only = "small" if given.quick else ""

    def plain(self, name="plain"):
        return str(plain_folder() / name)

    def draw(self, name, text, says):
        """Writes a picture, and returns how the document shows it."""
        (self.out / f"pictures/{name}.svg").write_text(text, encoding="utf-8")
        return f"![{says}](pictures/{name}.svg)"

    def put(self, name, text):
        """Replaces a section of the document."""
        start, end = f"<!-- bench: {name} -->", f"<!-- end of bench: {name} -->"
        whole = self.document.read_text(encoding="utf-8")
        if whole.count(start) != 1 or whole.count(end) != 1:
            sys.exit(f"report.py: {self.document} needs {start} and {end} once each")
        before, rest = whole.split(start)
        self.document.write_text(f"{before}{start}\n{text.strip()}\n{end}{rest.split(end)[1]}", encoding="utf-8")


def of_heading(report):
    return wrapped(heading())


def wrapped(text, width=120):
    """A paragraph in lines of at most so many columns."""
    import textwrap
    return "\n".join(textwrap.wrap(text, width, break_long_words=False, break_on_hyphens=False))


BESIDE = ("`sdjwt` next to the program `bench/plain`, which does the same in plain Rust, without proofs. Times are "
          "those of the processor: the median of the runs of `sdjwt`, and the median of the quotients of neighboring "
          "runs. `flat` has that many disclosures side by side, `nested` one inside the other, `lists` hides elements "
          "of arrays, `long` has disclosures of 10 kB, and `plain` hides nothing.")
COUNTED = ("Instructions, without those of the start. The processor of valgrind has no SHA instructions, so neither "
           "program uses them here:")
CALLS = ("A token with ten disclosures, all of which are shown, by `python3 python/speed.py`. The other Python "
         "libraries check only the signature of the same JWT, and PyJWT also `exp`; they look at no disclosure.")
DASK = ("The rate is that of judging alone. The workers of Dask read their parts of the file by themselves, while "
        "`cores.sh` passes all tokens through one pipe, and its rate includes the start of GNU parallel.")


def of_programs(report):
    """Instructions, times and memory of each workload beside plain Rust."""
    plain, soft, runner = report.plain(), report.plain("soft/plain"), report.plain("runner")
    with tempfile.TemporaryDirectory() as folder:
        runs = programs.compared(report.sdjwt, plain, folder, report.only)
        parts = [wrapped(BESIDE),
                 programs.time_table(programs.times(report.sdjwt, (plain, soft), runs, runner, report.rounds))]
        try:
            counts = programs.instruction_table(programs.count(report.sdjwt, plain, runs))
            parts += [wrapped(COUNTED), counts]
        except Skipped as word:
            print(f"report.py: programs: no instructions: {word}")
    return "\n\n".join(parts)


def of_growth(report):
    """Time over the number of disclosures."""
    sizes = (64, 128, 256) if report.quick else programs.GROWTH
    points = programs.growth(report.sdjwt, report.plain(), report.plain("runner"), report.rounds, sizes)
    series = {}
    for command, own in points.items():
        series[command] = [(size, time) for size, time, _ in own]
        series[f"{command}, plain Rust"] = [(size, time) for size, _, time in own]
    shown = report.draw("growth", pictures.curves("Time by the number of disclosures", "disclosures", "ms", series),
                        "Time of verify, issue and present by the number of disclosures")
    slopes = ", ".join(f"{programs.exponent(own):.2f} for `{command}`" for command, own in points.items())
    return shown + "\n\n" + wrapped(f"The time grows with the number of disclosures to the power of {slopes}.")


def of_shares(report):
    """What a verification is made of, beside the floor."""
    shape = workloads.small if report.quick else workloads.SHAPES[SHARED]
    with tempfile.TemporaryDirectory() as folder:
        files = workloads.Files(folder, "shared", shape, report.sdjwt)
        runs = {"floor": (report.plain("floor"), [str(files.path("shown"))]),
                "plain Rust": (report.plain(), files.words("verify")), "sdjwt": (report.sdjwt, files.words("verify"))}
        sums = {name: functions.shares(functions.own_costs(*run)) for name, run in runs.items()}
    millions = {name: {kind: cost / 1e6 for kind, cost in own.items()} for name, own in sums.items()}
    title = "Instructions of verify" + ("" if report.quick else f" with {SHARED.split()[1]} disclosures")
    shown = report.draw("shares", pictures.bars(title, "million", millions),
                        "Instructions of a verification by kind of work, beside the floor")
    floor = sum(sums["floor"].values())
    heads = ("Program", *sums["floor"], "All, million", "Of the floor")
    rows = [(name, *(f"{cost / sum(own.values()):.0%}" for cost in own.values()), f"{sum(own.values()) / 1e6:.1f}",
             f"{sum(own.values()) / floor:.2f}") for name, own in sums.items()]
    says = ("The floor is a program that only decodes the parts of the token, and hashes its disclosures and what the "
            "issuer signed.")
    return "\n\n".join([shown, wrapped(says), table(heads, rows)])


def feed_beside_plain(report, tokens):
    """The processor time of a feed over that of the plain one, on the same tokens."""
    with tempfile.TemporaryDirectory() as made:
        path = Path(made) / "tokens"
        with path.open("wb") as out:
            import subprocess
            subprocess.run([sys.executable, str(scale.SCALE / "tokens.py"), str(tokens)], stdout=out, check=True)
        words = ["feed", str(scale.SCALE / "policy.json"), str(1 << 30)]
        feeds = [[program, *words] for program in (report.tools, report.plain(), report.plain("soft/plain"))]
        costs = in_turn(report.plain("runner"), feeds, report.rounds, str(path))
    return [median_quotient(costs[0], other) for other in costs[1:]]


def of_feeds(report):
    tokens = 1000 if report.quick else 500_000
    found = scale.feeds(report.sdjwt, report.tools, tokens, 1 if report.quick else 5)
    rows = [(name, f"{middle:,}", f"{least:,}, {most:,}") for name, (middle, least, most) in found.items()]
    parts = [table(("How", "Tokens a second", "From, to"), rows)]
    cores = {re.search(r"\d+", name).group(): {"tokens": middle} for name, (middle, *_) in found.items()
             if "processes" in name}
    drawn = pictures.bars("Tokens a second by processes of cores.sh", "tokens a second", cores)
    parts.append(report.draw("cores", drawn, "Tokens a second with 1, 2 and 4 processes"))
    runner = report.plain("runner")
    peaks = [scale.feed_memory(report.tools, runner, count) for count in (1000, 2000 if report.quick else 1_000_000)]
    parts.append(wrapped(f"**Memory does not grow with the number of tokens**: the peak is {peaks[0]:,} kB for 1,000 "
                         f"tokens, and {peaks[1]:,} kB for {'2,000' if report.quick else 'a million'}."))
    hard, soft = feed_beside_plain(report, tokens)
    parts.append(wrapped(f"Per token, `sdjwt_tools feed` takes {hard:.2f} times the processor time of the feed of "
                         f"`bench/plain`, and {soft:.2f} times that of the same without SHA "
                         "instructions."))
    return "\n\n".join(parts)


def of_dask(report):
    found = scale.dask(report.tools, 2000 if report.quick else 1_000_000, (1, 2) if report.quick else scale.WORKERS)
    rows = [(workers, f"{own['rate']:,.0f}", f"{own['judging']:.2f}", f"{own['around']:.2f}", f"{own['cluster']:.2f}")
            for workers, own in found.items()]
    heads = ("Workers of Dask", "Tokens a second", "Judging, s", "Starting `dask_feed.py`, s",
             "Starting the cluster, s")
    return table(heads, rows) + "\n\n" + wrapped(DASK)


def of_calls(report):
    seconds = 0.01 if report.quick else 2.0
    figures, left = scale.python_calls(report.library, seconds)
    rows = [(name, f"{own['us']:.0f}", *(f"{own[count]:,.0f}" if count in own else "" for count in ("1", "2", "4")))
            for name, own in figures.items()]
    heads = ("Call from Python", "µs of the processor", "Calls a second on 1 thread", "2 threads", "4 threads")
    parts = [wrapped(CALLS), table(heads, rows)]
    if left:
        parts.append(wrapped(f"Not installed, and so not measured: {', '.join(left)}."))
    rates = scale.c_calls(report.library, seconds)
    cells = [[f"{rate:,}" for rate in rates.values()]]
    parts.append(wrapped("`sdjwt_policy_verify` from C, with a handle for each thread, in calls a second:"))
    parts.append(table([f"{count} thread{'s' if count > 1 else ''}" for count in rates], cells))
    return "\n\n".join(parts)


def of_worst(report):
    words = ["empty lists"] if report.quick else []
    return limits.worst_table(limits.worst(report.sdjwt, *words), limits.worst(report.plain(), *words))


def of_limits(report):
    return limits.files(report.sdjwt, report.tools, *(["algs"] if report.quick else []))


SECTIONS = {"heading": of_heading, "programs": of_programs, "growth": of_growth, "shares": of_shares, "feeds": of_feeds,
            "dask": of_dask, "calls": of_calls, "worst": of_worst, "limits": of_limits}


def main():
    parser = argparse.ArgumentParser(description=__doc__, formatter_class=argparse.RawDescriptionHelpFormatter)
    parser.add_argument("--only", default=",".join(SECTIONS))
    parser.add_argument("--quick", action="store_true")
    parser.add_argument("--sdjwt", default=str(TOP / "crates/sdjwt/out/sdjwt"))
    parser.add_argument("--tools", default=str(TOP / "crates/sdjwt_tools/out/sdjwt_tools"))
    parser.add_argument("--library", default=str(TOP / "c/out/lib/libsdjwt.so"))
    given = parser.parse_args()
    names = given.only.split(",")
    if not set(names) <= set(SECTIONS):
        parser.error(f"the sections are {', '.join(SECTIONS)}")
    for program in (given.sdjwt, given.tools):
        if not os.access(program, os.X_OK):
            sys.exit(f"report.py: there is no program {program}: sh prove.sh makes it")
    report = Report(given)
    for name in names:
        try:
            report.put(name, SECTIONS[name](report))
            print(f"report.py: {name}: written to {report.document}")
        except Skipped as word:
            print(f"report.py: {name}: skipped: {word}")


if __name__ == "__main__":
    main()
