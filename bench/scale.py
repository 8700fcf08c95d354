#!/usr/bin/env python3
"""Tokens a second of feeds by cores, of a Dask cluster on this machine, and of calls from C and Python.

    python3 bench/scale.py feeds SDJWT TOOLS [TOKENS]      by examples/scale/measure.sh
    python3 bench/scale.py dask TOOLS [TOKENS]             by examples/scale/dask_feed.py, with 1 to 4 workers
    python3 bench/scale.py c LIBRARY [SECONDS]             by bench/calls.c, on 1 to 4 threads
    python3 bench/scale.py python LIBRARY [SECONDS]        by python/speed.py, on 1, 2 and 4 threads

SDJWT and TOOLS are the built programs, and LIBRARY is libsdjwt.so.
"""
import ctypes
import json
import os
import re
import subprocess
import sys
import tempfile
import time
from pathlib import Path

import workloads
from machine import HERE, TOP, Skipped, need

SCALE = TOP / "examples/scale"
WORKERS = (1, 2, 3, 4)


def feeds(sdjwt, tools, tokens=100_000, rounds=5):
    """Tokens a second of each way of examples/scale/measure.sh: the median, the least and the greatest."""
    need("parallel")
    surroundings = {**os.environ, "SDJWT": os.path.abspath(sdjwt), "SDJWT_TOOLS": os.path.abspath(tools)}
    run = subprocess.run(["sh", str(SCALE / "measure.sh"), str(tokens), str(rounds)], env=surroundings, check=True,
                         stdout=subprocess.PIPE, text=True)
    found = re.findall(r"^(.*): (\d+) tokens a second, from (\d+) to (\d+)$", run.stdout, re.M)
    return {name: tuple(map(int, figures)) for name, *figures in found}


def feed_memory(tools, runner, tokens):
    """The peak memory in kB of a feed of so many tokens."""
    from machine import in_turn
    with tempfile.TemporaryDirectory() as made:
        path = Path(made) / "tokens"
        with path.open("wb") as out:
            subprocess.run([sys.executable, str(SCALE / "tokens.py"), str(tokens)], stdout=out, check=True)
        words = [tools, "feed", str(SCALE / "policy.json"), str(1 << 30)]
        return in_turn(runner, [words], 1, str(path))[0][0][2]


def python_with_dask():
    """A Python that has Dask and its scheduler."""
    for name in (sys.executable, "/usr/bin/python3"):
        if Path(name).exists() and subprocess.run([name, "-c", "import dask.bag, distributed"],
                                                  stderr=subprocess.DEVNULL).returncode == 0:
            return name
    raise Skipped("there is no Python with dask and distributed (python3-dask, python3-distributed)")


def wait_for(port_file, process):
    for _ in range(6000):
        if port_file.exists() and port_file.stat().st_size:
            return json.loads(port_file.read_text(encoding="utf-8"))["address"]
        if process.poll() is not None:
            raise Skipped("the scheduler of Dask does not start")
        time.sleep(0.1)
    raise Skipped("the scheduler of Dask does not start in ten minutes")


class Cluster:
    """A scheduler and some workers of one thread each, on this machine alone."""

    def __init__(self, python, folder, workers):
        self.started = []
        begun = time.monotonic()
        told = Path(folder) / "scheduler"
        quiet = {"stdout": subprocess.DEVNULL, "stderr": subprocess.DEVNULL, "cwd": folder}
        self.start([python, "-m", "distributed.cli.dask_scheduler", "--host", "127.0.0.1", "--port", "0",
                    "--no-dashboard", "--scheduler-file", str(told)], quiet)
        self.address = wait_for(told, self.started[0])
        for _ in range(workers):
            self.start([python, "-m", "distributed.cli.dask_worker", self.address, "--nthreads", "1", "--no-nanny",
                        "--no-dashboard"], quiet)
        waits = (f"from distributed import Client\nclient = Client('{self.address}')\n"
                 f"client.wait_for_workers({workers}, timeout=600)")
        subprocess.run([python, "-c", waits], check=True, stderr=subprocess.DEVNULL)
        self.seconds = time.monotonic() - begun

    def start(self, words, quiet):
        self.started.append(subprocess.Popen(words, **quiet))

    def __enter__(self):
        return self

    def __exit__(self, *_):
        for process in reversed(self.started):
            process.terminate()
        for process in self.started:
            process.wait()


def dask(tools, tokens=1_000_000, counts=WORKERS):
    """For each number of workers the tokens a second, and the seconds of judging, of the program around it, and of
    starting the cluster."""
    python = python_with_dask()
    results = {}
    with tempfile.TemporaryDirectory() as made:
        path = Path(made) / "tokens"
        with path.open("wb") as out:
            subprocess.run([sys.executable, str(SCALE / "tokens.py"), str(tokens)], stdout=out, check=True)
        for workers in counts:
            with Cluster(python, made, workers) as cluster:
                begun = time.monotonic()
                words = [python, str(SCALE / "dask_feed.py"), cluster.address, str(SCALE / "policy.json"), str(path),
                         "--program", os.path.abspath(tools)]
                run = subprocess.run(words, check=True, stdout=subprocess.PIPE, text=True)
                whole = time.monotonic() - begun
            judging = float(re.search(r"parts, ([\d.]+) s", run.stdout).group(1))
            results[workers] = {"rate": tokens / judging, "judging": judging, "around": whole - judging,
                                "cluster": cluster.seconds}
    return results


def of_ten(folder, library):
    """The policy and the token of python/speed.py: ten disclosures, all shown."""
    import importlib
    sys.path[:0] = [str(TOP / "python/src"), str(TOP / "python")]
    os.environ["SDJWT_LIBRARY"] = os.path.abspath(library)
    speed = importlib.import_module("speed")
    token = speed.sdjwt.issue(speed.ORDER, seed=workloads.SEED)
    shown = speed.sdjwt.present({"keys": speed.POLICY["keys"], "want": speed.ORDER["hide"]}, token)
    (folder / "policy").write_text(json.dumps(speed.POLICY), encoding="utf-8")
    (folder / "token").write_text(shown, encoding="utf-8")


def proved_library(library):
    """The whole path of a proved library. One of c/build.sh --look has checks at run time, and is many times slower."""
    library = os.path.abspath(library)
    if not os.path.exists(library):
        raise Skipped(f"there is no {library}: sh c/build.sh makes it")
    if not ctypes.CDLL(library).sdjwt_is_proved():
        raise Skipped(f"{library} is not proved: sh c/build.sh makes one that is")
    return library


def c_calls(library, seconds=2.0, counts=WORKERS):
    """Calls of sdjwt_policy_verify a second, by threads."""
    compiler, library = need(os.environ.get("CC", "cc")), proved_library(library)
    with tempfile.TemporaryDirectory() as made:
        folder = Path(made)
        of_ten(folder, library)
        program = folder / "calls"
        subprocess.run([compiler, "-O2", "-pthread", "-I", str(TOP / "c"), str(HERE / "calls.c"), library,
                        f"-Wl,-rpath,{os.path.dirname(library)}", "-o", str(program)], check=True)
        rates = {}
        for threads in counts:
            words = [str(program), str(folder / "policy"), str(folder / "token"), str(seconds), str(threads)]
            rates[threads] = int(subprocess.run(words, check=True, stdout=subprocess.PIPE, text=True).stdout)
    return rates


def python_calls(library, seconds=2.0):
    """What python/speed.py measures, under the names that it prints; and what it skips.

    If a library is missing, Debian's Python is asked for it too; what only that one has is marked by its version.
    """
    library = proved_library(library)
    figures, skipped = {}, {"all"}
    surroundings = {**os.environ, "PYTHONPATH": str(TOP / "python/src"), "SDJWT_LIBRARY": library}
    for python in dict.fromkeys([sys.executable, "/usr/bin/python3"]):
        if not skipped or not Path(python).exists():
            continue
        with tempfile.TemporaryDirectory() as made:
            words = [python, str(TOP / "python/speed.py"), "--seconds", str(seconds), "--json", f"{made}/figures"]
            run = subprocess.run(words, env=surroundings, check=True, stdout=subprocess.PIPE, text=True)
            found = json.loads(Path(f"{made}/figures").read_text(encoding="utf-8"))
        skipped = set(re.findall(r"^skipped: (\w+)", run.stdout, re.M))
        version = subprocess.run([python, "-V"], check=True, stdout=subprocess.PIPE, text=True).stdout.strip()
        added = f" ({version})" if figures else ""
        figures.update((name + added, figure) for name, figure in found.items() if name not in figures)
        skipped = {name for name in skipped if not any(name in known for known in figures)}
    return figures, sorted(skipped - {"all"})


def number(word):
    """The number that a word is, or else the word, such as a path."""
    for kind in (int, float):
        try:
            return kind(word)
        except ValueError:
            continue
    return word


def main():
    names = {"feeds": feeds, "dask": dask, "c": c_calls, "python": python_calls}
    if len(sys.argv) < 3 or sys.argv[1] not in names:
        sys.exit(__doc__.strip())
    words = [number(word) for word in sys.argv[2:]]
    try:
        print(json.dumps(names[sys.argv[1]](*words), indent=1))
    except Skipped as word:
        print(f"scale.py: skipped: {word}")


if __name__ == "__main__":
    main()
