#!/usr/bin/env python3
"""Prints the trusted core: the definitions that a reader has to believe for what stands at the top.

    python3 tools/core.py            for the clauses of `run`, and for the laws `presented` and `no_forgery`
    python3 tools/core.py WORD ..    for other roots: a function, as verifier_core::verdict::verify, one of its clauses,
                                    as verifier_core::verdict::verify::accepted, or a definition, as
                                    sdjwt_cli::specs::Answers::VerifyAnswers
    python3 tools/core.py --headline for the two halves of the headline, as calls of the libraries have them
    python3 tools/core.py --names    besides, the definitions of each module with their lines
    python3 tools/core.py --left     besides, what is not reached of modules that are
    python3 tools/core.py --table    the crates, as tools/contracts.py writes them into CONTRACTS.md
    python3 tools/core.py --check    whether each module of specs/ says in its first line whether it is of the core, and
                                    docs/PROVED.md has the totals; status 1 where not

It takes the words of the clauses of each root, finds by the `use` lines where each word is defined, and goes on with
the words of those definitions: so it follows definitions, and not whole modules. A module under `declared` is the
view of a type of src/; the type is counted where it stands, and so is a trait in which a root is generic. What the kit
defines is named at the end, and not followed; nor is a module of proofs, which begins with "For the prover".

A definition has the lines from its comment to its end, without blank ones. A word that a definition binds anywhere
counts as bound in all of it; --names tells where such a word is the name of a definition too.
"""
import re
import sys
from pathlib import Path

TOP = Path(__file__).resolve().parent.parent
CRATES = re.findall(r"^(\w+)(?: staticlib)?:", (TOP / "crates.txt").read_text(encoding="utf-8"), re.M)
ROOTS = ["sdjwt_cli::top::run", "sdjwt_cli::laws::presented", "sdjwt_cli::laws::no_forgery",
         "tools_cli::tools::run_tools", "feed_core::laws::any_cut", "cli_parts::host::exit_code"]
# The same for who takes the libraries for themselves.
HEADLINE = [
    "sdjwt_lib::end_to_end::issue_present_verify::shown",
    "verifier_core::verdict::verify_payload::accepted",
    "verifier_core::verdict::verify_payload::refused",
]

WORD = re.compile(r"[^\W\d][\w'-]*(?:\.[^\W\d][\w'-]*)*")
USE = re.compile(r"^\s*(?:ghost )?use ([A-Za-z_][\w.]*?)(?:\.\{(.*?)\}| as (\w+))?;?\s*$", re.M)
HEAD = re.compile(r"(?:abbrev |unfoldable )*(?:pub )?(?:(record|data) )?([^\s:({]+)(?= |$)")
# A module that another crate hands on, behind the name of its own.
HANDED_ON = re.compile(r"^Rattle\.\w+\.specs\.(%s)(?=\.)" % "|".join(CRATES))


class File:
    """What a file imports, by the names that it has for it; and what it defines, where it is a module of specs/."""

    def __init__(self, path):
        self.text = path.read_text(encoding="utf-8")
        self.imports, self.aliases, self.defined, self.order = {}, {}, {}, []
        for module, names, alias in USE.findall(self.text):
            module = HANDED_ON.sub(r"Rattle.\1.specs", module)
            if alias:
                self.aliases[alias] = module
            for name in filter(None, map(str.strip, names.split(","))):
                theirs, _, ours = name.partition(" as ")
                self.imports[ours or theirs] = (module, theirs)


class Definition:
    """A definition of specs/, or a type or a trait of src/ with the lines that tell as what contracts see it."""

    def __init__(self, crate, module, name, file, kind):
        self.crate, self.module, self.name, self.file, self.kind = crate, module, name, file, kind
        self.lines, self.seen, self.doubtful = [], [], set()

    def code(self):
        return [re.sub(r"(^|\s)(--|//).*|^\s*#.*", "", line) for line in self.seen or self.lines]

    def size(self):
        return sum(1 for line in self.lines if line.strip())


def parse_specs(path, crate):
    """The definitions of a module in their order. A constructor leads to its type."""
    file, base, comment, now = File(path), 0, [], None
    for line in file.text.split("\n"):
        text, indent = line.strip(), len(line) - len(line.lstrip())
        if not text or re.match(r"(pub )?(use|mod) ", text):
            comment = []
        elif re.fullmatch(r"(abbrev )?mutual", line):
            base, now, comment = 2, None, comment + [line]
        elif text.startswith("--") and not (now and indent > base):
            comment.append(line)
        else:
            base = base if indent else 0
            head = HEAD.match(text) if indent == base and not text.startswith("--") else None
            begins = head and (head.group(1) or text[head.end():].startswith(" :"))
            if begins:
                now = Definition(crate, path.stem, head.group(2), file, head.group(1))
                now.lines, comment = comment, []
                file.defined[now.name] = now
                file.order.append(now)
            now.lines.append(line)
            case = re.match(r"([^\s:({]+) :", text)
            if now.kind == "data" and case and not begins:
                file.defined.setdefault(case.group(1), now)
    return file


def parse_type(path, crate, name):
    """The type or trait of this name, where the file has it; of one with a model, the value is what contracts see."""
    text = path.read_text(encoding="utf-8")
    found = re.search(r"^(?:(?:///|#\[).*\n)*(?:pub(?:\(crate\))? )?(?:struct|enum|trait) %s\b" % name, text, re.M)
    if not found:
        return None
    now = Definition(crate, "src/" + path.name, name, File(path), "type")
    for line in text[found.start():].split("\n"):
        now.lines.append(line)
        if line == "}" or line.endswith(";") and not line.startswith((" ", "/", "#")):
            break
    model = re.search(r"^impl(?:<.*>)? Model for %s\b.*?^\}" % name, text, re.M | re.S)
    now.seen = re.findall(r"^ *ghost Value = .*", model.group(0), re.M) if model else []
    now.lines += now.seen
    return now


def bound_words(now, is_case):
    """The words that a definition binds: `(x y : T)`, `λ x y.`, `let x`, fields, and variables of equations."""
    code = "\n".join(now.code())
    bound = set(re.findall(r"\blet ([\w'-]+)", code))
    for words in re.findall(r"[({]((?:[\w'-]+ )+): |λ ([^.(]*)\.", code):
        bound.update(" ".join(words).split())
    if now.kind == "record":
        bound.update(re.findall(r"^\s+pub ([\w'-]+) :", code, re.M))
    for left in re.findall(r"^ *%s (.*?) =(?: |$)" % re.escape(now.name), code, re.M):
        bound.update(word for word in WORD.findall(left) if not is_case(word))
    return bound


class Core:
    """The walk: what was reached, by module, and what is cited of the kit."""

    def __init__(self, roots):
        self.files, self.reached, self.kit = {}, {}, {}
        queue = [now for root in roots for now in self.root(root)]
        while queue:
            now = queue.pop(0)
            if isinstance(now, Definition):
                module = self.reached.setdefault((now.crate, now.module), [])
                if now not in module:
                    module.append(now)
                    queue.extend(self.cites(now))
            elif now:
                self.kit.setdefault(now[0], set()).add(now[1])

    def specs(self, crate, name):
        path = TOP / "crates" / crate / "specs" / (name.replace(".", "/") + ".antt")
        if path not in self.files:
            self.files[path] = parse_specs(path, crate)
        return self.files[path]

    def source(self, crate, name):
        if (crate, name) not in self.files:
            paths = sorted((TOP / "crates" / crate / "src").glob("*.rt"))
            self.files[crate, name] = next(filter(None, (parse_type(path, crate, name) for path in paths)), None)
        return self.files[crate, name]

    def target(self, module, name):
        """The definition that a name of a module is, or the module and the name where they are the kit's."""
        top, *parts = module.split(".")
        if top != "Rattle" or parts[0] not in CRATES:
            return module, name
        if parts[2] == "declared":
            return self.source(parts[0], parts[4])
        file = self.specs(parts[0], ".".join(parts[2:]))
        return None if file.text.startswith("-- For the prover") else file.defined.get(name)

    def meaning(self, file, word):
        """What a word of specs/ or of a clause is: its own definition, an import, or one behind an alias."""
        first, *rest = word.split(".")
        if word in file.defined:
            return file.defined[word]
        if first in file.aliases:
            return self.target(file.aliases[first], rest[0] if rest else first)
        if first in file.imports:
            return self.target(*file.imports[first])
        return file.defined.get(first)

    def type_named(self, crate, file, word):
        """The type or trait that a word of src/ names, by the `use` lines of Rust."""
        for line in re.findall(r"^use ([^;]*);", file.text, re.M):
            owners = [name for name in line.split("::") if name in CRATES]
            if owners and re.search(r"\b%s\b" % word, line):
                return self.source(owners[-1], word)
        return self.source(crate, word)

    def cites(self, now):
        words = set(WORD.findall("\n".join(now.code())))
        if now.kind == "type":
            return [
                self.meaning(now.file, word) if word in now.file.imports else self.type_named(now.crate, now.file, word)
                for word in sorted(words)
                if word in now.file.imports or word[:1].isupper() and "." not in word
            ]

        def is_case(word):
            what = self.meaning(now.file, word)
            if isinstance(what, Definition):
                return what.name != word.split(".")[-1] or what.kind == "type"
            return what is not None

        bound = bound_words(now, is_case)
        free = {word for word in words if word.split(".")[0] not in bound or word.split(".")[0] in now.file.aliases}
        now.doubtful = {word for word in words - free if isinstance(self.meaning(now.file, word), Definition)}
        return [self.meaning(now.file, word) for word in sorted(free)]

    def root(self, word):
        """What the clauses of a function cite, or its conditions and one clause, with the traits in which it is generic
        and the types of its file that it takes; or a definition."""
        try:
            crate, module, *rest = word.split("::")
            if module == "specs":
                return [self.specs(crate, rest[0]).defined[rest[1]]]
            file = File(TOP / "crates" / crate / "src" / (module + ".rt"))
            head = re.search(r"^(?:pub(?:\(crate\))? )?fn %s\b(.*?)^\{" % rest[0], file.text, re.M | re.S).group(1)
            signature, *clauses = re.split(r"^(?=    (?:requires|ensures)\b)", head, flags=re.M)
            if rest[1:]:
                wanted = ("    requires", "    ensures %s " % rest[1])
                clauses = [clause for clause in clauses if clause.startswith(wanted)]
                assert any(clause.startswith(wanted[1]) for clause in clauses)
        except (OSError, ValueError, LookupError, AttributeError, AssertionError):
            sys.exit(f"core.py: there is no {word}")
        here = set(re.findall(r"^pub struct (\w+)", file.text, re.M))
        types = re.findall(r"\w+: (\w+)", signature.split("(")[0]) + sorted(here & set(WORD.findall(signature)))
        cited = sorted(set(WORD.findall("".join(clauses))) & set(file.imports))
        return [self.meaning(file, name) for name in cited] + [self.type_named(crate, file, name) for name in types]

    def modules(self):
        """The modules that are reached: crates from the top down, and in each as the walk came to them."""
        for crate in reversed(CRATES):
            for (owner, module), reached in self.reached.items():
                if owner == crate:
                    every = reached if module.startswith("src/") else self.specs(crate, module).order
                    yield crate, module, reached, every


def lines_of(definitions):
    return sum(now.size() for now in definitions)


def table(core):
    """The list in docs/CONTRACTS.md: a crate each with its lines and those of its modules, and what they come to."""
    for crate in reversed(CRATES):
        rows = [row for row in core.modules() if row[0] == crate]
        cells, types = [], sum(lines_of(reached) for _, module, reached, _ in rows if module.startswith("src/"))
        for _, module, reached, every in rows:
            some, whole = lines_of(reached), lines_of(every)
            if not module.startswith("src/"):
                cells.append(f"`{module}` {some}" + ("" if some == whole else f" of {whole}"))
        if types:
            cells.append(f"types {types}")
        if cells:
            yield f"`{crate}`, {sum(lines_of(row[2]) for row in rows)} lines: {', '.join(cells)}"
    specs, types = (totals(core, where) for where in ("specs", "src"))
    sums = f"{specs[0]} definitions in {specs[1]} lines, {types[0]} types and traits in {types[1]}"
    yield f"In all {specs[1] + types[1]}: {sums}"


def totals(core, where):
    """How many definitions are reached in specs/ or in src/, their lines, and how many files have them."""
    rows = [row for row in core.modules() if row[1].startswith("src/") == (where == "src")]
    return sum(len(row[2]) for row in rows), sum(lines_of(row[2]) for row in rows), len(rows)



def mistold(core):
    """The modules of specs/ that are of the core and say that they are not, or are not and do not say so."""
    inside = {(crate, module) for crate, module, _, _ in core.modules()}
    for crate in CRATES:
        for path in sorted((TOP / "crates" / crate / "specs").glob("*.antt")):
            says_so = path.read_text(encoding="utf-8").startswith(("-- For ", "-- Not needed to believe "))
            if path.stem != "Lib" and says_so == ((crate, path.stem) in inside):
                is_so = "of the core, and says that it is not" if says_so else "not of the core, and does not say so"
                yield f"{crate} {path.stem} is {is_so}"


def check():
    """Whether modules say whether they are of the core, and docs/PROVED.md the totals; prints what is wrong."""
    text = " ".join((TOP / "docs/PROVED.md").read_text(encoding="utf-8").split())
    core, headline = Core(ROOTS), Core(HEADLINE)
    wrong = list(mistold(core))
    specs, types = (totals(headline, where)[1] for where in ("specs", "src"))
    both = sum(totals(core, where)[1] for where in ("specs", "src"))
    of_headline = f"some {specs // 10 * 10:,} lines of definitions, and {round(types, -2)} of types"
    for said in (of_headline, f"some {both // 100 * 100:,} lines"):
        if said not in text:
            wrong.append(f"docs/PROVED.md does not say: {said}")
    print("\n".join(wrong) or "the modules say whether they are of the trusted core, and docs/PROVED.md how much it is")
    return 1 if wrong else 0


def print_modules(core, options):
    for crate, module, reached, every in core.modules():
        some, whole = lines_of(reached), lines_of(every)
        count = f"{len(reached):3} of {len(every):3} definitions, {some:4} of {whole:4} lines"
        print(f"{crate:15} {module:18} {count}, {100 * some // whole:3} %")
        if "--names" in options:
            for now in reached:
                doubt = f"  (binds {', '.join(sorted(now.doubtful))})" if now.doubtful else ""
                print(f"    {now.size():3} {now.name}{doubt}")
        left = [f"{now.name} {now.size()}" for now in every if now not in reached]
        if "--left" in options and left:
            print("    not reached: " + ", ".join(left))


def print_totals(core):
    for where in ("specs", "src"):
        print("in %s: %d definitions, %d lines, in %d files" % (where, *totals(core, where)))
    print("of the kit:")
    for module, names in sorted(core.kit.items()):
        print(f"    {module}: {' '.join(sorted(names))}")


def main():
    options = {word for word in sys.argv[1:] if word.startswith("--")}
    if "--check" in options:
        sys.exit(check())
    roots = HEADLINE if "--headline" in options else ROOTS
    core = Core([word for word in sys.argv[1:] if word not in options] or roots)
    if "--table" in options:
        print("\n".join(table(core)))
    else:
        print_modules(core, options)
        print_totals(core)


if __name__ == "__main__":
    main()
