#!/usr/bin/env python3
"""Holds what documents, completions and manual pages say to the definitions of specs/, and prints what differs.

    python3 tools/facts.py        status 1 where something differs

The numbers and names of conditions and refusals are those of one table, `Condition` and `Refusal` of refusals,
wherever a document, a script, a test or a vector says them; docs/SPECIFICATION.md, docs/REFUSALS.md, refusals.json of
the Python package and tests/reference have each. The limits are those of `Limits` of sd_outside, the words of commands
those of `Command`, `Forms` and the tools, and the members of files those of their tables. A name of code in a page for
whoever reads the code (OF_CODE) stands in the code, and so does the code that LIBRARY.md and C.md show. The crates of
whose calls LIBRARY.md has a table are handed on by sdjwt_lib. tools/links.py
checks the links.
"""
import json
import re
import runpy
import sys
from pathlib import Path

TOP = Path(__file__).resolve().parent.parent
PAGES = [TOP / name for name in ("README.md", "CHANGELOG.md", "CONTRIBUTING.md", "python/README.md")]
PAGES += [TOP / "vectors/README.md", TOP / "rust/README.md", TOP / "node/README.md"]
PAGES += sorted((TOP / "docs").glob("*.md")) + sorted((TOP / "docs").glob("*.1"))
OF_CODE = [TOP / f"docs/{name}.md" for name in ("ARCHITECTURE", "PROVED", "DECISIONS", "LIBRARY", "SECURITY", "C")]
OF_CODE += [TOP / "CONTRIBUTING.md"]
# What these name of Rust and of the kit, and a claim.
KNOWN = {"BTreeMap", "Vec", "Value", "Deserialize", "From", "Ord", "String", "Err", "Some", "None", "Drop", "Fn"}
KNOWN |= {"over_18"}
# Where a limit is said besides the specification: the file, how it says it, the limit, and what is added to it.
LIMITS = [
    ("README.md", r"from 1 to ([\d,]+)", "members_max", 0),
    ("docs/sdjwt.1", r"from 1 to (\d+)", "members_max", 0),
    ("docs/sdjwt.1", r"at most ([\d,]+) bytes", "file_max", 0),
    ("docs/sdjwt_tools.1", r"from 1 to (\d+)", "feed_max", 0),
    ("docs/REFUSALS.md", r"with N members, from 1 to ([\d,]+)", "members_max", 0),
    ("completions/_sdjwt", r"1 to (\d+)", "members_max", 0),
    ("completions/_sdjwt_tools", r"1 to (\d+)", "feed_max", 0),
    ("completions/_sdjwt_tools", r"<4-(\d+)>", "tokens_max", 3),
    ("python/src/sdjwt/_detail.py", r"^FILE_MAX = ([\d_]+)", "file_max", 0),
]
# The tables of files: the heading of FILES.md, what it is the table of, and where its definition stands.
TABLES = [
    ("Order", "an order", "issuer_core", "OrderFile", "order_table"),
    ("Present order", "a present order", "holder_core", "PresentFile", "present_table"),
    ("Query", "a query", "wallet_core", "QueryFile", "query_table"),
    ("Policy", "a policy", "verifier_core", "PolicyFile", "policy_table"),
]
# Where numbers of refusals are said besides pages.
FOLDERS = ("c", "completions", "crates/sd_vectors/data", "docs", "examples", "python", "tests", "tools", "vectors")
SUFFIXES = (".bash", ".c", ".h", ".json", ".md", ".py", ".rows", ".sh", ".txt", ".1", "")
# The ranges of the sections of REFUSALS.md that manual pages say.
RANGES = [("docs/sdjwt.1", r"\((\d+) to (\d+)\)", 3), ("docs/sdjwt_tools.1", r"(8\d) to (\d+)", 1)]
# Where the version of python/pyproject.toml is said once more. The C library is built with that one.
VERSIONS = [
    ("rust/Cargo.toml", r'^version = "(.*)"$'),
    ("rust/README.md", r"sdjwt-(\d+\.\d+\.\d+)"),
    ("node/package.json", r'^  "version": "(.*)",$'),
    ("node/README.md", r"sdjwt-(\d+\.\d+\.\d+)"),
    ("README.md", r"^\*\*Status\*\*: version (\S+)\. "),
]
# The numbers of c/sdjwt.h that the packages for Rust and JavaScript write out: the file, how, and the prefix there.
NUMBERS = [
    ("rust/src/call.rs", r"^(?:pub\(crate\) )?const (\w+): u8 = (\d+);$"),
    ("rust/src/wallet.rs", r"^pub const (\w+)_MAX: usize = (\d+);$"),
    ("node/calls.js", r"\b([A-Z_]+) = (\d+)\b"),
]
RUNS = [("audit_core", "AuditRun"), ("wallet_core", "WalletRun"), ("feed_core", "FeedRun")]


def text_of(name):
    return (TOP / name).read_text(encoding="utf-8")


def specs(crate, module):
    return text_of(f"crates/{crate}/specs/{module}.antt")


def number(text):
    return int(re.sub("[,_]", "", text))


def rows():
    """The name of each number, in their order."""
    both = specs("refusals", "Condition") + specs("refusals", "Refusal")
    return {int(no): name for no, name in re.findall(r'^\w+_row \S+ = \((\d+), codes "(\w+)"\)$', both, re.M)}


def limits():
    return {name: int(value) for name, value in re.findall(r"^(\w+) = (\d+)$", specs("sd_outside", "Limits"), re.M)}


def check_numbers():
    names = rows()
    number_of = {name: no for no, name in names.items()}
    table = re.findall(r"^(?:\| |- \*\*)(\d+)(?: \| | `)(\w+)(?: \||`\*\*)", text_of("docs/SPECIFICATION.md"), re.M)
    said = {int(no): name for no, name in table}
    for no, name in names.items():
        if said.get(no) != name:
            yield f"SPECIFICATION.md has no row of {no} {name}"
    entries = re.findall(r'^### refused (\d+) (\w+) <a id="(\d+)"></a>$', text_of("docs/REFUSALS.md"), re.M)
    if [(int(no), name) for no, name, anchor in entries if no == anchor] != sorted(names.items()):
        yield "the entries of REFUSALS.md are not the numbers and names of specs/"
    lines = [line.split() for line in json.loads(text_of("python/src/sdjwt/refusals.json")) if line[:8] == "refused "]
    if [(int(no), name) for _, no, name in lines] != sorted(names.items()):
        yield "the lines of refusals.json are not the numbers and names of specs/"
    if runpy.run_path(str(TOP / "tests/reference/outcome.py"))["NAMES"] != names:
        yield "tests/reference/outcome.py has other numbers and names than specs/"
    yield from check_ranges()
    for page in PAGES:
        text = page.read_text(encoding="utf-8")
        for count in re.findall(r"(?<!first )\b(\d+) (?:stated )?conditions\b", text):
            if page.name != "CHANGELOG.md" and int(count) != specs("refusals", "Condition").count("codes \""):
                yield f"{page.relative_to(TOP)} says that there are {count} conditions"
    others = [path for folder in FOLDERS for path in sorted((TOP / folder).glob("**/*")) if path.suffix in SUFFIXES]
    for path in dict.fromkeys(PAGES + [path for path in others if path.is_file() and "out" not in path.parts]):
        text = path.read_text(encoding="utf-8", errors="replace")
        for no, name in re.findall(r"\brefused (\d+) ([a-z]\w+)", text):
            if names.get(int(no)) != name and (name in number_of or path in PAGES):
                yield f"{path.relative_to(TOP)} says {no} {name}"
        for no, name in re.findall(r"\b(\d+) (`\w+`|[a-z]+[A-Z]\w*)", text):
            if number_of.get(name.strip("`"), int(no)) != int(no):
                yield f"{path.relative_to(TOP)} says {no} {name}"


def check_ranges():
    """Whether the sections of REFUSALS.md, and the ranges of manual pages, are those of the entries in them."""
    known = set()
    for section in re.split(r"^## ", text_of("docs/REFUSALS.md"), flags=re.M)[1:]:
        inside = [int(no) for no in re.findall(r"^### refused (\d+) ", section, re.M)]
        said = [int(no) for no in re.findall(r"\d+", section.split("\n")[0].split(": ")[-1])] if inside else []
        known.add((said[0], said[-1]) if said else ())
        if inside and [said[0], said[-1]] != [inside[0], inside[-1]]:
            yield f"a heading of REFUSALS.md has another range than its entries: {section.splitlines()[0]}"
    for file, pattern, count in RANGES:
        found = [(int(first), int(last)) for first, last in re.findall(pattern, text_of(file))]
        if len(found) != count or not known.issuperset(found):
            yield f"{file} has other ranges of numbers than REFUSALS.md"


def check_limits():
    known = limits()
    table = re.findall(r"^\| [^|]+ \| ([\d,]+)[^|]* \| `(\w+)` \|$", text_of("docs/SPECIFICATION.md"), re.M)
    if {name: number(value) for value, name in table} != known:
        yield "the limits of SPECIFICATION.md are not those of Limits"
    for file, pattern, limit, more in LIMITS:
        for value in re.findall(pattern, text_of(file), re.M) or ["0"]:
            if number(value) != known[limit] + more:
                yield f"{file} says {value} for {limit}"


def words_of_programs():
    """The words of each program, and the forms of `convert`."""
    command_of = specs("sdjwt_cli", "Command").split("command_of :")[1].split("\n--")[0]
    found = re.compile(r'codes "(\w+)"').findall
    tools = {re.search(r'words(?:_are : words)? ≡ codes "(\w+)"', specs(*run))[1] for run in RUNS}
    return {"sdjwt": set(found(command_of)), "sdjwt_tools": tools}, set(found(specs("sdjwt_cli", "Forms")))


def check_words():
    programs, forms = words_of_programs()
    readme = text_of("README.md")
    for program, words in programs.items():
        bash, zsh = f"completions/{program}.bash", f"completions/_{program}"
        manual = f"docs/{program}.1"
        synopsis = text_of(manual).split(".Sh SYNOPSIS")[1].split(".Sh")[0]
        said = {
            bash: re.search(r"1,\*\)\s+\S+ -W '([^']*)'", text_of(bash))[1].split(),
            zsh: re.findall(r"^        '(\w+):", text_of(zsh).split("forms=")[0], re.M),
            manual: re.findall(r"^\.Nm\n\.Cm (\w+)", synopsis, re.M),
        }
        yield from (f"{file} has other words than {program}" for file, its in said.items() if set(its) != words)
        yield from (f"README.md does not say the words of {word}" for word in words if f"`{word} " not in readme)
    table = re.findall(r"^\| `(sdjwt\w*) (\w+)[^`]*` \|", text_of("docs/REFUSALS.md"), re.M)
    if set(table) != {(program, word) for program, words in programs.items() for word in words}:
        yield "the table of commands in REFUSALS.md has other words than the programs"
    bash = re.search(r"2,convert\)\s+\S+ -W '([^']*)'", text_of("completions/sdjwt.bash"))[1].split()
    zsh = re.findall(r"^        '(\w+):", text_of("completions/_sdjwt").split("forms=")[1], re.M)
    if set(bash) != forms or set(zsh) != forms:
        yield "the completions have other forms of convert than the program"


def check_members():
    words = re.findall(r'^field_word Field\.(\w+) = codes "(\w+)"', specs("file_members", "FileWords"), re.M)
    word_of = dict(words)
    for title, one, crate, module, name in TABLES:
        body = re.search(rf"^{name}(?: \w+)? =(.*?)∷ \[\]$", specs(crate, module), re.M | re.S)[1]
        found = re.findall(r"(required|optional) (?:Field\.)?(\w+)", body)
        entries = [(word_of[field], "yes" if kind == "required" else "no") for kind, field in found]
        section = re.search(rf"^## {title}: .*?(?=^## )", text_of("docs/FILES.md"), re.M | re.S)[0]
        if re.findall(r"^\| `(\w+)` \| (yes|no) \|", section, re.M) != entries:
            yield f"FILES.md has another table of {one} than {name}"


def check_names():
    folders = ("crates", "python", "tests", "c", "examples", "docs", "tools")
    paths = [path for folder in folders for path in (TOP / folder).glob("**/*.*")]
    code = [path.read_text(encoding="utf-8") for path in paths if path.suffix in (".rt", ".antt", ".py", ".h", ".sh")]
    words = set(re.findall(r"\w+", "\n".join(code))) | {path.stem for path in paths} | KNOWN
    words |= {path.name for path in (TOP / "crates").iterdir()}
    for page in OF_CODE:
        named = re.findall(r"`(?:\w+::)*([A-Z][a-z]\w+|[a-z]+_\w+)(?:::\w+)*`", page.read_text(encoding="utf-8"))
        for name in sorted(set(named) - words):
            yield f"{page.relative_to(TOP)} names {name}, which is nowhere in the code"


def check_code():
    """Whether the code that LIBRARY.md and C.md show stands in the sources, but for the first program in C. A line `..`
    stands for what is left out."""
    def plain(text):
        unmarked = re.sub(r"^\s*(///|//|--) ", "", text, flags=re.M)
        return re.sub(r"\s+", "", unmarked).replace(",)", ")")

    def pieces(page, language):
        for block in re.findall(rf"^ *```{language}\n(.*?)^ *```$", text_of(page), re.M | re.S):
            yield from re.split(r"\n\n(?=  -- )|^ *\.\.\n", block, flags=re.M)

    files = [path for path in (TOP / "crates").glob("*/*/**/*.*t") if path.suffix in (".rt", ".antt")]
    of_c = [plain(path.read_text(encoding="utf-8")) for path in (TOP / "c/examples").glob("*.c")]
    shown = [("docs/LIBRARY.md", "(?:rust|antt)", [plain(path.read_text(encoding="utf-8")) for path in files])]
    for page, language, sources in [*shown, ("docs/C.md", "c", of_c)]:
        for piece in pieces(page, language):
            if not piece.startswith("#include") and not any(plain(piece) in source for source in sources):
                yield f"{page} shows code that stands nowhere: {piece.strip().splitlines()[0]}"


def check_handed_on():
    """Whether sdjwt_lib hands on each crate of the first table of LIBRARY.md, in code, in contracts and in proofs."""
    table = re.search(r"^\| Job \|.*?\n\n", text_of("docs/LIBRARY.md"), re.M | re.S)[0]
    named = set(re.findall(r"\w+", table)) & {path.name for path in (TOP / "crates").iterdir()} - {"sdjwt_lib"}
    handed_on = {
        "src/lib.rt": r"^pub use (\w+);$",
        "specs/Lib.antt": r"^pub use Rattle\.(\w+)\.specs as \1$",
        "proofs/Lemmas.antt": r"^pub use Rattle\.(\w+)\.proofs as \1$",
    }
    for file, line in handed_on.items():
        found = set(re.findall(line, text_of(f"crates/sdjwt_lib/{file}"), re.M))
        yield from (f"{file} of sdjwt_lib does not hand on {name}" for name in sorted(named - found))


def check_versions():
    """Whether all packages have one version, and the numbers of sdjwt.h."""
    version = re.search(r'^version = "(.*)"$', text_of("python/pyproject.toml"), re.M)[1]
    for file, pattern in VERSIONS:
        for said in re.findall(pattern, text_of(file), re.M) or ["none"]:
            if said != version:
                yield f"{file} says the version {said}, and python/pyproject.toml {version}"
    due = dict(re.findall(r"^#define SDJWT_(\w+) (\d+)$", text_of("c/sdjwt.h"), re.M))
    for file, pattern in NUMBERS:
        for name, said in re.findall(pattern, text_of(file), re.M) or [("none", "")]:
            if due.get(name) != said and name != "NO_STACK":
                yield f"{file} says {said} for {name}, which c/sdjwt.h does not"


def main():
    checks = (check_versions, check_numbers, check_limits, check_words, check_members, check_names, check_code,
              check_handed_on)
    wrong = [line for check in checks for line in check()]
    counts = f"{len(rows())} numbers, {len(limits())} limits"
    print("\n".join(wrong) or f"documents, completions and manual pages agree with specs/: {counts}")
    return bool(wrong)


if __name__ == "__main__":
    sys.exit(main())
