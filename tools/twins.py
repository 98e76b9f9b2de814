"""Lists the functions, types and impl blocks of src/ that have one shape: the same tokens, names and numbers apart.

Usage: python3 tools/twins.py [FOLDER], from the root. Comments and contracts are left out, and items of fewer than
20 tokens, which are too short to say anything.
"""

import collections
import pathlib
import re
import sys

KEPT = set(
    "as break const continue dyn else enum false fn for if impl in let loop match mod move mut pub ref return self Self"
    " static struct trait true type use where while Ok Err Some None Result Option Vec Box".split()
)
TOKEN = re.compile(r"b?\"(?:[^\"\\]|\\.)*\"|b?'(?:[^'\\]|\\.)'|'\w+|\w+|[^\s\w]")
ITEM = re.compile(r"^( *)(?:pub(?:\([a-z]+\))? )?(?:fn|struct|enum|impl)\b", re.M)


def items(text):
    """Each item with its first line, up to the line that closes it at its own indentation."""
    for found in ITEM.finditer(text):
        lines = []
        for line in text[found.start():].split("\n"):
            lines.append(line)
            if re.match(found[1] + r"[})]?[;}]|" + found[1] + r"\}", line) and len(lines) > 1:
                break
            if len(lines) == 1 and line.endswith((";", "{}")):
                break
        yield text.count("\n", 0, found.start()) + 1, "\n".join(lines)


def shape(item):
    """The tokens of an item, each name, number and text replaced."""
    item = re.sub(r"//.*", "", item)
    item = re.sub(r"^\s*(requires|ensures|ghost)\b.*\n?", "", item, flags=re.M)
    tokens = []
    for token in TOKEN.findall(item):
        if token in KEPT or not (token[0].isalnum() or token[0] in "_\"'"):
            tokens.append(token)
        else:
            tokens.append("x")
    return tuple(tokens)


def main():
    root = pathlib.Path(sys.argv[1] if len(sys.argv) > 1 else "crates")
    groups = collections.defaultdict(list)
    for path in sorted(root.glob("*/src/**/*.rt")):
        for line, item in items(path.read_text()):
            form = shape(item)
            if len(form) >= 20:
                groups[form].append(f"{path}:{line}: {item.splitlines()[0].strip()}")
    alike = [places for places in groups.values() if len(places) > 1]
    for places in alike:
        print("\n".join(places), end="\n\n")
    print(f"{len(alike)} groups of items with one shape")


main()
