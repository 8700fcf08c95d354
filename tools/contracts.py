#!/usr/bin/env python3
"""Writes docs/CONTRACTS.md from the sources: each crate with its public calls, its laws and its definitions, and the
trusted core, which tools/core.py finds.

    python3 tools/contracts.py           writes the page
    python3 tools/contracts.py --check   status 1 where the page is not what the sources say

Of a crate it has what the first lines of its library say, and the crates on which it stands. Of a public function, of a
trait, and of a type with functions it has the first sentence of its comment, and the definitions that its clauses cite
by name, beside limits and views of types; of a type of errors its cases; of a law the whole comment. Of a module of
specs/ it has the first sentence, and those of its definitions that some public clause cites. Modules are left out that
say in their first line that they are for private functions, models, conversions or the prover.
"""
import re
import sys
import textwrap
from pathlib import Path

sys.dont_write_bytecode = True  # nothing is written beside the sources but the page
import core  # noqa: E402

TOP = Path(__file__).resolve().parent.parent
PAGE = TOP / "docs/CONTRACTS.md"
# Crates of tests alone.
TESTS = {"table_rows", "sd_vectors", "base_tests", "library_tests", "command_tests"}
HEAD_LINE = re.compile(r'( *)pub (?:const |unsafe |extern "C" )*fn (\w+)')
TYPE = re.compile(r"((?:^(?:///.*|#\[.*\])\n)*)^pub (struct|enum|trait) (\w+)", re.M)
IMPL = re.compile(r"^impl(?:<[^\n]*?>)? (\w+)(?:<[^\n]*>)? \{$(.*?)^\}", re.M | re.S)
CLAUSE = re.compile(r"^ +(?:requires|ensures)\b(.*?)(?=^ +(?:requires|ensures)\b|\Z)", re.M | re.S)

# Modules whose definitions are not named: the types of the code, limits, and views of types.
BESIDE = ("declared", "Limits", "View", "ListViews", "Views")

HEAD = """\
# Contracts, crate by crate

This page is written by `python3 tools/contracts.py` from the sources, and is for looking up: which calls a crate has, by
which definitions their contracts speak, what its laws say, and in which module a definition stands. How to read a
contract tells [LIBRARY.md](LIBRARY.md#how-to-read-a-contract). A crate `c` stands in `crates/c`: its code in `src/`,
and the module `M` of its definitions in `specs/M.antt`.

Behind a call stand the definitions that its clauses cite: those of *Ok* say what is so where it succeeds, those of
*Err* what is so where it refuses. Every call is safe and returns on each input that meets what it requires; an error
for want of memory has no cause in a clause. Of a type its calls are named, and what they cite together. Errors stand
with their cases, which their comments in the code explain.

"""

CORE = """\
## The trusted core

The definitions that have to be believed for the promises of the programs, as `tools/core.py` finds them; how it does,
and what they are, says [PROVED.md](PROVED.md#what-is-trusted). A number is that of the lines of a module that are
reached, comments included. In reading order: the crates from the top down, and in each the modules as the citations
come to them. "Types" are the structs, enums and traits of `src/` that definitions name.
"""

HEADLINE = """\
### The two halves of the headline as calls

The same for the calls `issue_present_verify` and `verify_payload` alone.
"""


def sentence(comment):
    """The first sentence of a comment, up to its colon; whole, or with the next, where it begins with "The same"."""
    text = paragraphs(re.split(r"^ *///$", comment, flags=re.M)[0])
    sentences = re.split(r"(?<=\.) (?=[A-Z`])", text)
    if text.startswith("The same"):
        return " ".join(sentences[:2 if sentences[0] == "The same." else 1])
    return re.split(r":(?= )", sentences[0])[0].rstrip(".") + "."


def paragraphs(comment):
    lines = [line.strip()[3:].strip() for line in comment.split("\n") if line.strip().startswith("///")]
    return re.sub(r"\[(`[^`]+`)\](?:\([^)]*\))?", r"\1", " ".join(lines)).strip()


def words(names):
    return ", ".join(f"`{name}`" for name in names)


def filled(text, first="", other=""):
    return textwrap.fill(text, 120, initial_indent=first, subsequent_indent=other, break_long_words=False,
                         break_on_hyphens=False)


def listed(text):
    """An entry of a list, in lines of at most 120 characters."""
    return filled(text, "- ", "  ")


def opens_body(line, indent, is_head):
    begins = is_head or line.startswith((indent + "{", indent + ")"))
    return begins and line.endswith(("{", "}"))


def functions(text):
    """The public functions of a text: comment, indent, name, and all that stands before the body."""
    lines = text.split("\n")
    for number, line in enumerate(lines):
        head = HEAD_LINE.match(line)
        if head:
            indent, begin, end = head[1], number, number
            while begin and re.match(r" *(//|#\[)|.*\)\]$", lines[begin - 1]):
                begin -= 1
            while not opens_body(lines[end], indent, end == number):
                end += 1
            yield "\n".join(lines[begin:number]), indent, head[2], "\n".join(lines[number:end + 1])


class Crate:
    def __init__(self, name, stands_on):
        self.name, self.stands_on = name, stands_on
        self.source = TOP / "crates" / name / "src"
        library = self.source / "lib.rt"
        self.text = (library if library.exists() else self.source / "main.rt").read_text(encoding="utf-8")
        self.public = set(re.findall(r"^pub mod (\w+)", self.text, re.M))
        # a public module may hand on what others have
        texts = [self.text] + [self.module(name) for name in self.public]
        uses = [use for text in texts for use in re.findall(r"^pub use ([^;]*);", text, re.M | re.S)]
        self.exported = set(re.findall(r"\w+", " ".join(uses)))

    def module(self, name):
        path = self.source / (name + ".rt")
        return path.read_text(encoding="utf-8") if path.exists() else ""

    def purpose(self):
        lines = [line[3:].strip() for line in self.text.split("\n") if line.startswith("//!")]
        end = lines.index("") if "" in lines else len(lines)
        return re.sub(r"\[(`[^`]+`)\]", r"\1", " ".join(lines[:end]))

    def files(self):
        """The files whose functions can be called from outside, without laws and tests."""
        order = re.findall(r"^(?:pub )?mod (\w+)", self.text, re.M)
        for module in ["lib", *order]:
            path = self.source / (module + ".rt")
            if path.exists() and module != "laws" and not module.endswith("tests"):
                yield module, core.File(path)

    def calls(self):
        """Each public function, and type with functions: name, comment, functions, and what is cited (`cited`)."""
        for module, file in self.files():
            inside = [(found.start(2), found.end(2), found.group(1)) for found in IMPL.finditer(file.text)]
            for comment, kind, name in TYPE.findall(file.text):
                if name in self.exported or module in self.public:
                    methods, cited = [], set()
                    for begin, end, owner in inside:
                        if owner == name:
                            for _, _, method, head in functions(file.text[begin:end]):
                                methods.append(method)
                                cited |= set().union(*self.cited(file, head))
                    if methods or kind == "trait":
                        yield name, comment, methods, (set(), set(), cited)
            for comment, indent, name, head in functions(file.text):
                if not indent and (name in self.exported or module in self.public or "no_mangle" in comment):
                    yield name, comment, None, self.cited(file, head)

    def errors(self):
        """Each public type of errors, with its comment and its cases."""
        for module, file in self.files():
            for comment, kind, name in TYPE.findall(file.text):
                is_public = name in self.exported or module in self.public
                if is_public and re.search(r"(Error|.Fault|Short|^NoMemory)$", name):
                    body = re.search(rf"^pub {kind} {name}\b(.*?)(?:^\}}|;$)", file.text, re.M | re.S)[1]
                    yield name, comment, re.findall(r"^    (\w+)(?=\(| \{|,$)", body, re.M) if kind == "enum" else []

    def cited(self, file, head):
        """The definitions of this repository that clauses cite: those of Ok, those of Err, and the others."""
        good, bad, other = set(), set(), set()
        for clause in CLAUSE.findall(head):
            names = {word.split(".")[0] for word in core.WORD.findall(clause)} & set(file.imports)
            ours = {file.imports[name] for name in names if ours_is(file.imports[name][0])}
            if re.search(r"\b(IfErr|OnErr|IsErrOf|Err)\b", clause):
                bad |= ours
            elif re.search(r"\b(IfOk|OnOk|Ok)\b", clause):
                good |= ours
            else:
                other |= ours
        return good, bad - good, other - good - bad

    def laws(self):
        path = self.source / "laws.rt"
        if path.exists():
            for comment, _, name, _ in functions(path.read_text(encoding="utf-8")):
                yield name, paragraphs(comment)

    def modules(self):
        """The modules of specs/ that are to be read, in the order in which the library names them."""
        library = TOP / "crates" / self.name / "specs/Lib.antt"
        text = library.read_text(encoding="utf-8") if library.exists() else ""
        for module in re.findall(r"^pub mod (\w+)", text, re.M):
            text = (library.parent / (module + ".antt")).read_text(encoding="utf-8")
            if not text.startswith("-- For "):
                first = " ".join(line[3:] for line in text.split("\nuse ")[0].split("\n") if line.startswith("-- "))
                first = re.sub(r"^Not needed to believe the program's promises: ", "", first)
                yield module, first[0].upper() + first[1:]


def ours_is(module):
    """Whether a module has definitions of this repository, beside the limits and the views of types."""
    top, *parts = module.split(".")
    return top == "Rattle" and parts[0] in core.CRATES and parts[2] not in BESIDE


def names_of(cited):
    return sorted({name for _, name in cited if name[0].isalpha()}, key=lambda name: (name[0].islower(), name))


def entry(name, comment, methods, cited):
    text = f"`{name}`: {sentence(comment)}"
    if methods:
        text += f" Calls: {words(methods)}."
    titled = zip(("*Ok* ", "*Err* ", ""), cited)
    parts = [title + words(names_of(some)) for title, some in titled if some]
    return listed(text + (f" ({'; '.join(parts)})" if parts else ""))


def crates():
    lines = (TOP / "crates.txt").read_text(encoding="utf-8")
    every = {name: names.split() for name, names in re.findall(r"^(\w+)(?: staticlib)?:(.*)$", lines, re.M)}

    def below(name):
        return set(every.get(name, ())).union(*(below(other) for other in every.get(name, ())))

    for name, names in every.items():
        yield Crate(name, [other for other in names if not any(other in below(one) for one in names if one != other)])


def page():
    found = list(crates())
    calls = {crate.name: [] if crate.name in TESTS else list(crate.calls()) for crate in found}
    cited = {one for rows in calls.values() for row in rows for some in row[3] for one in some}
    for crate in found:
        path = crate.source / "laws.rt"
        if path.exists():
            file = core.File(path)
            for _, _, _, head in functions(file.text):
                cited |= set().union(*crate.cited(file, head))
    yield HEAD
    for crate in found:
        yield f"## {crate.name}\n"
        on = f" Stands on {words(crate.stands_on)}." if crate.stands_on else ""
        yield filled(crate.purpose() + on) + "\n"
        if calls[crate.name]:
            yield "\n".join(entry(*row) for row in calls[crate.name]) + "\n"
        errors = [] if crate.name in TESTS else list(crate.errors())
        if errors:
            texts = [f"`{name}`: {sentence(comment)}" for name, comment, _ in errors]
            cases = [f" Cases: {words(its)}." if its else "" for _, _, its in errors]
            yield "**Errors**\n\n" + "\n".join(map(listed, map("".join, zip(texts, cases)))) + "\n"
        laws = [listed(f"`{name}`: {text}") for name, text in crate.laws()]
        if laws:
            yield "**Laws**\n\n" + "\n".join(laws) + "\n"
        modules = []
        for module, first in crate.modules():
            names = names_of({one for one in cited if one[0] == f"Rattle.{crate.name}.specs.{module}"})
            modules.append(listed(f"`{module}`: {first.rstrip('.')}." + (f" ({words(names)})" if names else "")))
        if modules:
            yield "**Definitions**\n\n" + "\n".join(modules) + "\n"
    yield CORE
    yield "\n".join(map(listed, core.table(core.Core(core.ROOTS)))) + "\n"
    yield HEADLINE
    yield "\n".join(map(listed, core.table(core.Core(core.HEADLINE))))


def main():
    written = "\n".join(page()) + "\n"
    if sys.argv[1:] != ["--check"]:
        PAGE.write_text(written, encoding="utf-8")
    elif not PAGE.is_file() or PAGE.read_text(encoding="utf-8") != written:
        sys.exit("docs/CONTRACTS.md is not what the sources say: run python3 tools/contracts.py")
    else:
        print("docs/CONTRACTS.md is what the sources say")


if __name__ == "__main__":
    main()
