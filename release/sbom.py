#!/usr/bin/env python3
"""Looks at the list of what is linked (SPDX 2.3) in an archive: whether it is whole, and true of the files beside it.

    python3 release/sbom.py FOLDER
    python3 release/sbom.py --source FOLDER    of sources, into which nothing is linked
"""
import hashlib
import json
import sys
from pathlib import Path

WANTED = {"packages": ("name", "SPDXID", "downloadLocation", "licenseDeclared", "licenseConcluded", "copyrightText"),
          "files": ("fileName", "SPDXID", "checksums")}
# What leaves names where it is linked. The code of others may become part of its callers, as that of itoa does.
LINKED = {"base64", "indexmap", "rand_chacha", "sha2", "Rattle kit"}


def faults(folder, due=LINKED):
    said = json.loads((folder / "sdjwt.spdx.json").read_text(encoding="utf-8"))
    if (said["spdxVersion"], said["dataLicense"], said["SPDXID"]) != ("SPDX-2.3", "CC0-1.0", "SPDXRef-DOCUMENT"):
        yield "it is no document of SPDX 2.3"
    ids = {"SPDXRef-DOCUMENT": "the document"}
    for kind, fields in WANTED.items():
        for entry in said[kind]:
            yield from (f"{entry} has no {field}" for field in fields if not entry.get(field))
            if entry["SPDXID"] in ids:
                yield f"there are two of {entry['SPDXID']}"
            ids[entry["SPDXID"]] = entry.get("name", entry.get("fileName"))
    links = {(link["spdxElementId"], link["relationshipType"], link["relatedSpdxElement"])
             for link in said["relationships"]}
    yield from (f"{link} leads nowhere" for link in links if not {link[0], link[2]} <= set(ids))
    for entry in said["files"]:
        content = (folder / entry["fileName"]).read_bytes()
        sums = [{"algorithm": word, "checksumValue": hashlib.new(word, content).hexdigest()}
                for word in ("SHA1", "SHA256")]
        if entry["checksums"] != sums:
            yield f"it has other sums of {entry['fileName']}"
    linked = {ids[other] for _, kind, other in links if kind == "STATIC_LINK"}
    yield from (f"{name} is linked into nothing" for name in sorted(due - linked))
    notices = (folder / "THIRD-PARTY.txt").read_text(encoding="utf-8")
    yield from (f"there is no notice of {package['name']}" for package in said["packages"]
                if package["name"] not in ("sdjwt", "libsdjwt") and package["name"] not in notices)


def main():
    *options, folder = sys.argv[1:] or [""]
    if not folder or options not in ([], ["--source"]):
        sys.exit(__doc__)
    wrong = list(faults(Path(folder), set() if options else LINKED))
    print("\n".join(wrong) or "the list is whole, and true of the files")
    return bool(wrong)


if __name__ == "__main__":
    sys.exit(main())
