#!/usr/bin/env python3
"""Brings the repository's own names in specs, proofs and clauses to the library's spelling: words in snake case.

usage: python3 tools/respell.py [FOLDER]      in the repository, once, after the kit's port.py: rewrites crates/ in place
       python3 tools/respell.py --list [FOLDER]      prints old and new names, and rewrites nothing

Types, facts, modules and Rust's own names keep their spelling. A name that would fall together with another is reported, and nothing is written.
"""
import collections
import pathlib
import re
import sys

WORD = re.compile(r"[^\s(){}\[\],;.\"]+")
HEAD = re.compile(r"^(?:(?:abbrev|unfoldable|pub|ruleset)\s+)*([^\s:(){}]+)\s*[:({]", re.M)
PART = re.compile(r"^[ \t]+(?:pub[ \t]+)?([^\s:(){}]+)(?:[ \t]+\([^)\n]*\))*[ \t]*:[ \t](?!goal\.)", re.M)
LOCAL = re.compile(r"\blet ([^\s:(){}=]+)")
# A lemma whose name would fall together with a definition's; one about a call goes by both names.
OTHER = {
    "bit-or": "bit-bit_or", "bit-xor": "bit-bit_xor", "in-range": "modulo_in_range",
    "clears-writers": "clears_writers_lem", "in-force": "in_force_lem", "joins-early": "joins_early_lem", "keyword-text": "keyword_text_lem",
    "moves-nothing": "moves_nothing_lem", "one-inputs": "one_inputs_lem", "one-outputs": "one_outputs_lem", "operand-by": "operand_by_lem",
    "expression-by": "expression_by_lem", "name-at": "name_at_lem", "number-at": "number_at_lem", "with-prefix": "with_prefix_lem",
    "sleeps-past": "sleeps_past_lem", "stuck-early": "stuck_early_lem",
}
# Names that the kit's script has turned already, and that fall together with another, or with a tactic.
TURNED = {
    "charts": {"first_of": "first_line_of"},
    "lines": {"first_of": "first_of_operand", "same_key": "same_key_lem", "same_sign": "same_sign_lem"},
    "rules": {"no_step": "no_step_lem"},
    "words": {"no_sign": "no_sign_lem", "sign_text": "sign_text_lem"},
}
# What may share a word: parts of two records that say the same, a name within one file or proof, and a module of a function's name.
SHARED = {"noneReads", "codeLength", "keywordOf", "lower-first", "masked-first", "line-fault", "lineFault", "not-above", "notAbove"}
CAMEL = re.compile(r"(?<=[a-z0-9'])(?=[A-Z])")
GOAL = re.compile(r":\s*goal\.")


def snake(name):
    return CAMEL.sub("_", name).replace("-", "_").lower() if re.fullmatch(r"[A-Za-z0-9_'\-]+", name) else name.replace("-", "_")


def wants(name):
    return name[0].islower() and (CAMEL.search(name) or "-" in name)


def logic(top):
    for folder in ("specs", "proofs"):
        yield from sorted(top.glob(f"crates/*/{folder}/**/*.antt"))


def own(top):
    """The names that the files define, each with the files."""
    names = collections.defaultdict(set)
    for path in logic(top):
        text = path.read_text()
        for line in text.split("\n"):
            if line.startswith(("use ", "pub use ", "mod ", "pub mod ", "--")):
                continue
            found = HEAD.match(line)
            if found and not GOAL.search(line):
                names[found.group(1)].add(path)
        for local in LOCAL.finditer(text):
            names[local.group(1)].add(path)
        for part in PART.finditer(text):
            names[part.group(1)].add(path)
        for w in WORD.findall(text):
            if w[0].islower() and re.fullmatch(r"[A-Za-z0-9']+", w) and CAMEL.search(w):
                names[w].add(path)
    return {n: f for n, f in names.items() if wants(n)}


def imported(top):
    """The names that files take from elsewhere than this repository."""
    crates = {p.name for p in (top / "crates").iterdir()}
    names = set()
    for path in list(logic(top)) + sorted(top.glob("crates/*/src/**/*.rt")):
        for m in re.finditer(r"^(?:ghost )?(?:pub )?use ([\w.+\-·]+?)\.\{([^}]*)\}", path.read_text(), re.M):
            part = m.group(1).split(".")
            if not (part[0] == "Rattle" and len(part) > 1 and part[1] in crates):
                names |= {w.split(" as ")[-1].strip() for w in m.group(2).split(",")}
                names |= {w.split(" as ")[0].strip() for w in m.group(2).split(",")}
    return names


def clause_spans(text):
    """Where a source file speaks antt: ghost items and clauses."""
    for m in re.finditer(r"^\s*(?:ghost|requires|ensures)\b", text, re.M):
        at, depth, opened = m.start(), 0, False
        while at < len(text):
            ch = text[at]
            if ch == "{":
                depth, opened = depth + 1, True
            elif ch == "}":
                depth -= 1
                if opened and depth == 0:
                    at += 1
                    break
            elif ch == ";" and depth == 0:
                break
            at += 1
        yield m.start(), at


def turn(text, names):
    def word(m):
        w = m.group(0)
        if w not in names:
            return w
        behind = text[m.start() - 1] if m.start() else ""
        if behind == "." and "-" in w and w not in dotted:
            return w
        return names[w]
    dotted = names["."]
    return WORD.sub(word, text)


def turned(path, top):
    """A file's text with the names of its crate in TURNED at their new spelling."""
    text = path.read_text()
    table = TURNED.get(path.relative_to(top).parts[1], {})
    if path.suffix != ".antt" or not table:
        return text
    return WORD.sub(lambda m: table.get(m.group(0), m.group(0)), text)


def main():
    args = [a for a in sys.argv[1:] if a != "--list"]
    top = pathlib.Path(args[0] if args else ".")
    defined = own(top)
    foreign = imported(top)
    names, bad = {".": set()}, []
    present = collections.defaultdict(set)
    texts = {path: turned(path, top) for path in list(logic(top)) + sorted(top.glob("crates/*/src/**/*.rt"))}
    for path in logic(top):
        for w in WORD.findall(texts[path]):
            present[w].add(path)
    for n in sorted(defined):
        if n in foreign:
            bad.append(f"{n} is also taken from elsewhere")
            continue
        names[n] = OTHER.get(n) or snake(n)
    back = collections.defaultdict(list)
    for n, new in names.items():
        if n != ".":
            back[new].append(n)
    for new, olds in sorted(back.items()):
        if len(set(olds) - SHARED) > 1:
            bad.append(f"{' and '.join(olds)} fall together as {new}")
        for old in olds:
            both = present[old] & present[new]
            if both and old not in SHARED:
                bad.append(f"{old}: {new} stands already in {' '.join(str(p) for p in sorted(both))}")
    # parts of records and what a module holds come after a dot, as do the checker's own names, which have dashes too
    for path in logic(top):
        names["."] |= {p.group(1) for p in PART.finditer(path.read_text())}
    if "--list" in sys.argv:
        for n, new in names.items():
            if n != ".":
                print(n, new)
    for b in bad:
        print("respell: " + b, file=sys.stderr)
    if bad and "--list" not in sys.argv:
        raise SystemExit(1)
    if "--list" in sys.argv:
        return
    for path in logic(top):
        path.write_text(turn(texts[path], names))
    for path in sorted(top.glob("crates/*/src/**/*.rt")):
        text = texts[path]
        made, last = [], 0
        for a, b in clause_spans(text):
            if a < last:
                continue
            made += [text[last:a], turn(text[a:b], names)]
            last = b
        made.append(text[last:])
        path.write_text("".join(made))


if __name__ == "__main__":
    main()
