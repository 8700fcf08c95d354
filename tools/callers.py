#!/usr/bin/env python3
"""Lists the public functions that nothing calls: no program, no row of a table, no test, no function of the C library.

    python3 tools/callers.py           lists them
    python3 tools/callers.py --tests   besides, those that only tests call, which are for programs of others
    python3 tools/callers.py --check   status 1 where there is one that nothing calls

It reads bodies by their words, and knows no types. A call by a path counts for the type or the module of the path. A
method counts for each type that has one of this name and that the file speaks of: by its name, by a field of a type of
which it speaks, or by the answer of a function that it calls. Laws, which do nothing, and what a trait asks for count
as called.
"""
import re
import sys
from collections import defaultdict
from pathlib import Path

TOP = Path(__file__).resolve().parent.parent
TEXTS = re.compile(r'r#".*?"#|"(?:[^"\\]|\\.)*"|//[^\n]*|\'(?:[^\'\\\n]|\\.)\'', re.S)
HEAD = re.compile(r"^( *)(pub(?:\([a-z]+\))? )?(?:const )?(?:extern \"C?\" )?fn (\w+)", re.M)
IMPL = re.compile(r"^impl(?:<[^\n]*?>)? (?:(?P<trait>[\w:]+)(?:<[^\n]*>)? for )?(?P<type>\w+)(?:<[^\n]*>)? \{$", re.M)
ALIAS = re.compile(r"^(?:pub(?:\([a-z]+\))? )?type (\w+) = (\w+)", re.M)
TYPE = re.compile(r"^(?:pub(?:\([a-z]+\))? )?(?:struct|enum) (\w+)([^\n]*;$|.*?^\})", re.M | re.S)


class Function:
    """A function of src/: where it stands, what its signature and its body say, and what calls it."""

    def __init__(self, file, owner, name, is_public, is_root, is_test, head, body):
        self.file, self.owner, self.name, self.is_public = file, owner, name, is_public
        self.is_root, self.is_test, self.head, self.body = is_root, is_test, head, body

    def __str__(self):
        crate = self.file.parts[0]
        return f"{crate}: {self.owner}::{self.name}" if self.owner else f"{crate}: {self.name}"

    def is_law(self):
        return "laws" in self.file.name and not self.body.strip()


def plain(text):
    """The text without comments, and with empty texts and characters."""
    return TEXTS.sub(lambda found: "" if found.group(0).startswith("//") else '""', text)


def owners(text):
    """For each `impl` block its begin, its end, its type, and whether it is that of a trait."""
    found = []
    for impl in IMPL.finditer(text):
        end = text.find("\n}", impl.start())
        found.append((impl.start(), end, impl["type"], impl["trait"] is not None))
    return found


def functions_of(path, crate):
    text = plain(path.read_text(encoding="utf-8"))
    blocks = owners(text)
    tests = "/tests" in str(path) or path.stem.endswith("tests")
    for head in HEAD.finditer(text):
        inside = ((t, trait) for begin, end, t, trait in blocks if begin < head.start() < end)
        owner, of_trait = next(inside, (None, False))
        indent = head[1]
        opens = re.compile(r"^%s\{$|^(?! *(?:ensures|requires|ghost)\b).*\{$" % indent, re.M)
        begin = opens.search(text, head.start())
        semicolon = re.compile(r";$", re.M).search(text, head.start())
        if begin is None or semicolon and semicolon.start() < begin.start():
            continue
        end = text.find(f"\n{indent}}}", begin.end() - 1)
        before = text[max(0, head.start() - 80):head.start()]
        is_test = tests or before.rstrip().endswith("#[test]")
        is_root = of_trait or head[3] == "main" or "no_mangle" in before
        yield Function(Path(crate) / path.name, owner, head[3], (head[2] or "").strip() == "pub", is_root, is_test,
                       text[head.start():begin.start()], text[begin.end():end])


class Files:
    """All functions, and the types that each file speaks of."""

    def __init__(self):
        self.functions, self.fields, self.texts, self.aliases = [], defaultdict(set), {}, {}
        for crate in sorted((TOP / "crates").iterdir()):
            for path in sorted((crate / "src").glob("**/*.rt")):
                self.functions += functions_of(path, crate.name)
                text = plain(path.read_text(encoding="utf-8"))
                self.texts[Path(crate.name) / path.name] = text
                self.aliases.update(ALIAS.findall(text))
                for name, inside in TYPE.findall(text):
                    self.fields[name] |= set(re.findall(r"\w+", inside))
        self.by_name = defaultdict(list)
        for function in self.functions:
            self.by_name[function.name].append(function)
        self.types = set(self.fields)
        self.spoken = {file: self.speaks(text) for file, text in self.texts.items()}

    def speaks(self, text):
        words = set(re.findall(r"\w+", text))
        words |= {self.aliases[word] for word in words & set(self.aliases)}
        for name in list(words):
            for function in self.by_name.get(name, ()):
                words |= set(re.findall(r"\w+", function.head))
        known, new = set(), words & self.types
        while new:
            known |= new
            new = set().union(*(self.fields[name] for name in new)) & self.types - known
        return known

    def called(self, caller):
        """The functions that a body may call."""
        for path, dot, name in re.findall(r"(?:(\w+)(?:::<[^()]*?>)?::|(\.))?\b([a-z_]\w*)\b", caller.body):
            for function in self.by_name.get(name, ()):
                owner = caller.owner if path == "Self" else self.aliases.get(path, path)
                if dot:
                    is_called = function.owner in self.spoken[caller.file]
                elif function.owner:
                    is_called = function.owner == owner
                else:
                    is_called = True
                if is_called:
                    yield function

    def reached(self, roots):
        found, new = set(roots), list(roots)
        while new:
            for function in self.called(new.pop()):
                if function not in found:
                    found.add(function)
                    new.append(function)
        return found


def main():
    files = Files()
    public = [f for f in files.functions if f.is_public and not f.is_test and not f.is_law()]
    by_programs = files.reached([f for f in files.functions if f.is_root and not f.is_test])
    by_all = files.reached([f for f in files.functions if f.is_root or f.is_test])
    left = [f for f in public if f not in by_all]
    for function in left:
        print(function)
    if "--tests" in sys.argv[1:]:
        print("only tests call:")
        for function in public:
            if function in by_all and function not in by_programs:
                print(f"  {function}")
    print(f"{len(public)} public functions, {len(left)} that nothing calls")
    return bool(left) and "--check" in sys.argv[1:]


if __name__ == "__main__":
    sys.exit(main())
