#!/usr/bin/env python3
"""Which functions make up a run, by callgrind.

    python3 bench/functions.py PROGRAM WORDS ..    the functions with the most instructions of their own, with shares
    python3 bench/functions.py --shares PROGRAM WORDS ..    the shares of hashing, base64, JSON and the rest

Names are those of the symbol table: a program without one gives only addresses.
"""
import re
import shutil
import subprocess
import sys
import tempfile
from collections import Counter

from machine import Skipped, instructions, need

# What a function does, by words of its name; the first that fits counts.
KINDS = (
    ("hash", r"sha2|sha256|sha512|hmac|compress|Sha256|Sha512|digest::core_api"),
    ("base64", r"base64|b64|encode_config|decode_config|decode_helper|word_len|^floor::main"),
    ("JSON", r"serde_json|json|claim_tree|write_text|write_members|Deserializer|Reader|visit_(seq|map)|utf8|itoa"),
    ("index", r"indexmap|hashbrown|digest_index|[Ss]ip|hash_one"),
    ("memory", r"malloc|free|realloc|calloc|memcpy|memmove|memset|_int_|alloc|drop_in_place|unlink_chunk|memcmp"),
)


def own_costs(program, words, source=None):
    """The instructions of each function itself."""
    need("callgrind_annotate")
    with tempfile.TemporaryDirectory() as made:
        profile = f"{made}/profile"
        instructions(program, words, source, profile)
        words = ["callgrind_annotate", "--auto=no", "--threshold=100", profile]
        text = subprocess.run(words, check=True, stdout=subprocess.PIPE, text=True).stdout
    costs = Counter()
    for line in text.split("\n"):
        found = re.match(r"\s*([\d,]+) \([ \d.]+%\)\s+(\S+?):(.*?)(?: \[[^\]]*\])?$", line)
        if found:
            costs[found.group(3).strip()] += int(found.group(1).replace(",", ""))
    return costs


def demangled(names):
    """The names as sources have them, if there is a tool that knows."""
    tool = shutil.which("c++filt") or shutil.which("rustfilt")
    if tool is None:
        return names
    text = subprocess.run([tool], input="\n".join(names), stdout=subprocess.PIPE, text=True, check=True).stdout
    return text.rstrip("\n").split("\n")


def kind(name):
    for word, pattern in KINDS:
        if re.search(pattern, name):
            return word
    return "rest"


def shares(costs):
    """What part of the instructions each kind of work takes."""
    sums = Counter()
    for name, cost in costs.items():
        sums[kind(name)] += cost
    return {word: sums[word] for word in [*(word for word, _ in KINDS), "rest"]}


def main():
    words = sys.argv[1:]
    by_kind = words[:1] == ["--shares"]
    program, *words = words[1:] if by_kind else words
    try:
        costs = own_costs(program, words)
    except Skipped as word:
        sys.exit(f"functions.py: skipped: {word}")
    total = sum(costs.values())
    if by_kind:
        rows = list(shares(costs).items())
    else:
        chosen = costs.most_common(25)
        rows = list(zip(demangled([name for name, _ in chosen]), (cost for _, cost in chosen)))
    print(f"{total:,} instructions")
    for name, cost in rows:
        print(f"{cost / total:6.1%} {cost:>14,}  {name[:110]}")


if __name__ == "__main__":
    if len(sys.argv) < 3:
        sys.exit(__doc__.strip())
    main()
