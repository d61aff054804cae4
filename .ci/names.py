#!/usr/bin/env python3
"""The names of docs/DEFINITIONS.md are those of the definitions in specs/, crate by crate and file by file, and crates.txt
lists for each crate only libraries that a file of it cites."""
import glob
import os
import re
import sys

DEFINITION = re.compile(
    r"^(?:pub (?:record |data )?|\s+(?:pub (?:record|data)|abbrev pub|unfoldable pub) |(?:abbrev|unfoldable) pub )(\S+)"
)


def read(path):
    with open(path, encoding="utf-8") as file:
        return file.read()


def defined():
    """The definitions, each with its crate and its file."""
    found = set()
    for path in glob.glob("crates/*/specs/*.antt"):
        crate, file = path.split("/")[1], os.path.basename(path)[: -len(".antt")]
        for line in read(path).splitlines():
            match = DEFINITION.match(line)
            if match and match.group(1) not in ("mod", "use"):
                found.add((crate, file, match.group(1)))
    return found


def named():
    """The names of the page, each with the crate of its heading and the file of its row."""
    found, crate = set(), None
    for line in read("docs/DEFINITIONS.md").splitlines():
        heading = re.match(r"## (?:`(\w+)`)?", line)
        if heading:
            crate = heading.group(1)
        row = re.match(r"\| (`.*?) \| (\w+) \|", line)
        if crate and row:
            found.update((crate, row.group(2), name) for name in re.findall(r"`([^`]+)`", row.group(1)))
    return found


def idle():
    """The libraries of crates.txt that no file of their crate cites."""
    for line in read("crates.txt").splitlines():
        crate, colon, libraries = line.split("#")[0].partition(":")
        if not colon:
            continue
        name = crate.split()[0]
        files = [path for kind in ("rt", "antt") for path in glob.glob(f"crates/{name}/**/*.{kind}", recursive=True)]
        text = "\n".join(read(path) for path in files if "/out/" not in path)
        for library in libraries.split():
            if not re.search(r"\b(?:Rattle\.)?" + library + r"(?:::|\.|;| as )|\buse " + library + r"\b", text):
                yield name, library


def main():
    told = []
    definitions, names = defined(), named()
    for crate, file, name in sorted(definitions - names):
        told.append(f"docs/DEFINITIONS.md does not name {name} of crates/{crate}/specs/{file}.antt")
    for crate, file, name in sorted(names - definitions):
        told.append(f"docs/DEFINITIONS.md names {name}, which crates/{crate}/specs/{file}.antt has not")
    for crate, library in idle():
        told.append(f"crates.txt lists {library} for {crate}, and no file of it cites it")
    for line in told:
        print(f"check: {line}")
    return 1 if told else 0


if __name__ == "__main__":
    sys.exit(main())
