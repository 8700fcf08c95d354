#!/usr/bin/env python3
"""Checks that sdjwt.h declares what crates/sdjwt_c exports and c/built.c adds, with parameters that fit, and no more.

A slice is a pointer and a length to C, an allocator is nothing, and a handle is a struct of one pointer. The table of
docs/C.md has to have each function once. With libraries as its arguments, it also checks that they export just these
names. With --calls it prints, in Rattle, a `main` of that crate that calls each function once: c/build.sh --look has it
compiled, and with it the functions.
"""
import pathlib
import re
import subprocess
import sys

TOP = pathlib.Path(__file__).resolve().parent.parent
SEEN_BY_C = {
    "Global": [],
    "u8": ["uint8_t"],
    "u32": ["uint32_t"],
    "u64": ["uint64_t"],
    "&[u8]": ["const uint8_t *", "size_t"],
    "&[usize]": ["const size_t *", "size_t"],
    "&mut [u8]": ["uint8_t *", "size_t"],
    "&mut usize": ["size_t *"],
    "&mut SdjwtPolicy": ["sdjwt_policy *"],
    None: ["void"],
}
RESULTS = {"uint8_t": "sdjwt_status"}
ARGUMENTS = {
    "Global": "alloc",
    "u8": "0",
    "u64": "0",
    "&[u8]": 'b""',
    "&[usize]": "&[]",
    "&mut [u8]": "&mut room",
    "&mut usize": "&mut len",
    "&mut SdjwtPolicy": "&mut policy",
}


def functions():
    """What the crate exports: the path of each function in it, the types of its parameters, and that of its result."""
    for file in sorted((TOP / "crates/sdjwt_c/src").glob("*.rt")):
        pattern = (r'#\[unsafe\(no_mangle\)\]\s*pub extern "C" fn (\w+)\((.*?)\)'
                   r'(?:\s*->\s*(\w+))?\s*(?:\n\s*ensures|\{)')
        for name, parameters, result in re.findall(pattern, file.read_text(), re.S):
            types = [p.split(":", 1)[1].strip() for p in parameters.split(",") if p.strip()]
            yield f"{file.stem}::{name}", types, result


def exported():
    """The same for each name: its result and its parameters, as C sees them."""
    found = {}
    for path, types, result in functions():
        result = SEEN_BY_C[result or None][0]
        parameters = [c for t in types for c in SEEN_BY_C[t]] or ["void"]
        found[path.split("::")[1]] = (RESULTS.get(result, result), parameters)
    return found


def added():
    """What c/built.c defines that is not of the crate, or in the place of what is: its result and its parameters."""
    text = (TOP / "c/built.c").read_text()
    found = re.findall(r"^((?:const )?\w+) (\*?)(sdjwt_\w+)\(([^)]*)\) \{", text, re.M)
    return {name: (result + (" *" if star else ""), seen(parameters)) for result, star, name, parameters in found}


def calls():
    """A `main` that calls each function."""
    lines = [f"    let _ = {path}({', '.join(ARGUMENTS[t] for t in types)});" for path, types, _ in functions()]
    return "\n".join(["", "fn main(rt: HostRuntime) {", "    let alloc = rt.alloc();", "    let mut room = [0u8; 64];",
                      "    let mut len = 0usize;", "    let mut policy = handle::SdjwtPolicy::none(alloc);", *lines, "}"])


def seen(parameters):
    """The types of the parameters of a function in C."""
    words = [re.fullmatch(r"\s*((?:const )?\w+)\s*(\*?)\s*\w*\s*", parameter) for parameter in parameters.split(",")]
    return [word[1] + (" *" if word[2] else "") for word in words]


def declared():
    """What the header declares."""
    text = re.sub(r"/\*.*?\*/", "", (TOP / "c/sdjwt.h").read_text(), flags=re.S)
    text = re.sub(r"^#.*$", "", text, flags=re.M)
    found = re.findall(r"((?:const )?\w+)\s+(\*?)(sdjwt_\w+)\(([^)]*)\);", text)
    return {name: (result + (" *" if star else ""), seen(parameters)) for result, star, name, parameters in found}


def of_library(path):
    """The names that a library defines for others."""
    shared = ["-D"] if ".so" in pathlib.Path(path).name else []
    words = ["nm", "-g", "--defined-only", *shared, path]
    lines = subprocess.run(words, check=True, capture_output=True, text=True).stdout.splitlines()
    return {line.split()[-1] for line in lines if len(line.split()) == 3}


def main():
    if sys.argv[1:] == ["--calls"]:
        print(calls())
        return
    code, header = {**exported(), **added()}, declared()
    faults = [f"{name}: the library has {code.get(name)}, the header {header.get(name)}"
              for name in sorted({*code, *header}) if code.get(name) != header.get(name)]
    listed = re.findall(r"^\| `(sdjwt_\w+)` \|", (TOP / "docs/C.md").read_text(encoding="utf-8"), re.M)
    faults += [f"docs/C.md: the table of the functions has {name} {listed.count(name)} times"
               for name in sorted({*header, *listed}) if listed.count(name) != (name in header)]
    for library in sys.argv[1:]:
        names = of_library(library)
        # a shared library exports nothing else; an archive also has the code below
        extra = names - set(code) if ".so" in library else {n for n in names - set(code) if n.startswith("sdjwt_")}
        faults += [f"{library}: it lacks {name}" for name in sorted(set(code) - names)]
        faults += [f"{library}: it exports {name} too" for name in sorted(extra)]
    if faults:
        sys.exit("\n".join(faults))
    print(f"sdjwt.h: {len(code)} functions, as the library exports them")


if __name__ == "__main__":
    main()
