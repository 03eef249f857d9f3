#!/usr/bin/env python3
"""Lists the lines at which docs/DESIGN-PASS.md looks, point by point.

    python3 tools/places.py [FOLDER]           how many lines there are for each point
    python3 tools/places.py [FOLDER] POINT     the lines of that point

FOLDER is a checkout, this one where none is given. A line is listed where a place may be; which of them are places is said in the page.
"""
import pathlib
import re
import sys

numbers = [word for word in sys.argv[1:] if word.isdigit()]
folders = [word for word in sys.argv[1:] if not word.isdigit()]
root = pathlib.Path(folders[0]) if folders else pathlib.Path(__file__).resolve().parent.parent


def sources(tests):
    for path in sorted(root.glob("crates/*/src/*.rt")):
        if tests or not path.parts[-3].endswith("_tests"):
            yield path


def lines(pattern, tests=True):
    for path in sources(tests):
        for at, line in enumerate(path.read_text().splitlines(), 1):
            if re.search(pattern, line) and not line.lstrip().startswith("//"):
                yield f"{path.relative_to(root)}:{at}: {line.strip()}"


def signatures():
    """Each function of the library with its file, its name and its parameters."""
    for path in sources(False):
        text = re.sub(r"//[^\n]*", "", path.read_text())
        for found in re.finditer(r"\bfn (\w+)(?:<[^>]*>)?\(([^)]*)\)", text):
            parameters = [word for word in re.sub(r"<[^>]*>", "", found[2]).split(",") if word.strip()]
            yield path.relative_to(root), found[1], parameters


def twins():
    names = [(name, path) for path, name, _ in signatures()]
    for name, path in names:
        if sum(other == name for other, _ in names) > 1:
            yield f"{path}: fn {name}"
    yield from lines(r"^ *(pub(\(crate\))? )?(const|static) ")
    yield from lines(r"^(pub(\(crate\))? )?(enum|struct|type) ", tests=False)


def together():
    yield from lines(r"^ *requires\b", tests=False)
    for path, name, parameters in signatures():
        if len(parameters) > 3:
            yield f"{path}: fn {name} with {len(parameters)} parameters"


def proofs():
    for path in sorted(root.glob("crates/*/proofs/**/*.antt")) + sorted(root.glob("crates/*/specs/*.antt")):
        for at, line in enumerate(path.read_text().splitlines(), 1):
            answer = "/proofs/" in str(path) and re.search(r"^(abbrev )?pub [^ ]+ : goal\.", line)
            lemma = re.search(r"^ *(pub )?[a-zA-Z_'-]+ : .*(≡|<|≤)", line) and ("/proofs/" in str(path) or "pub record" not in path.read_text())
            if answer or lemma:
                yield f"{path.relative_to(root)}:{at}: {line.strip()[:140]}"


points = {
    1: lambda: lines(r"\benum [A-Z]|^ *[0-9]+ => |=> [0-9]+,$|\bnumber: (u8|[0-9])|fn number\b|^ +[0-9]+,?$"),
    2: twins,
    3: lambda: lines(r"\bfor [^<{]* in [^}]*\{$|\bwhile |\bloop \{|\+= 1\b"),
    4: lambda: lines(
        r"^ *impl\b.* for |fn (refusal|number|same|\w+_text|\w+_line|\w+_name)\b|\bas (u8|u16|u32|u64|usize)\b|from_le_bytes|to_le_bytes|format!|write!"
    ),
    5: together,
    6: lambda: lines(r": &?(mut )?\[|\[[\w:()]+; ", tests=False),
    7: lambda: lines(r"\|[\w, ()&]*\| ?[\w&(!*{]|\bdyn\b|\bimpl Fn|: fn\(", tests=False),
    8: proofs,
}

for point in [int(number) for number in numbers] or points:
    found = list(points[point]())
    if numbers:
        print("\n".join(found))
    else:
        print(f"{point}: {len(found)}")
