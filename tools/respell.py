#!/usr/bin/env python3
"""Gives the repository's own definitions and lemmas today's spelling, once, after port.py of the toolchain.

usage: tools/respell.py [FOLDER]     FOLDER is the top of a checkout, this one if left out

The rules: words are in snake case; a dash stays between two parts of a lemma's name that are names themselves (length-drop) and is an underscore else (add_comm);
a lemma that would have a definition's name gets _lem;
a name of specs/ has no dash; a prime is an apostrophe; types, modules and the labels that the toolchain makes keep their spelling; a proof's name is its function's with _spec.
It writes tools/respelled.tsv, a row for each name, and stops before it writes anything where two names would fall together in a file.
"""
import collections
import glob
import os
import re
import sys

TOP = sys.argv[1] if len(sys.argv) > 1 else os.path.dirname(os.path.dirname(os.path.abspath(__file__)))
DECLARED = re.compile(r"^( *)((?:(?:abbrev|unfoldable|data|record|ruleset|pub|constructor) +)*)([^\s(){}.;,@\"«»:=]+)(?: \{[^{}\n]*\})* : ?(.*)", re.M)
RULESET = re.compile(r"^(?:pub )?ruleset ([^\s=]+) *=", re.M)
WORD = re.compile(r'[^\s(){}.;,@"«»`\[\]|]+')
LIBRARY = "length take drop set get_or append map reverse sum count filter concat split min max mod div nat bool list cond".split()
# Names that a script of the toolchain left and that have another word today.
WORDS = {"getD": "get_or"}


def read(path):
    with open(path, encoding="utf-8") as f:
        return f.read()


def files(*patterns):
    return sorted(p for q in patterns for p in glob.glob(os.path.join(TOP, q), recursive=True) if "/out/" not in p)


def snake(part):
    if part in WORDS:
        return WORDS[part]
    if part[:1].isupper() or not re.search(r"[a-z0-9][A-Z]", part):
        return part
    return re.sub(r"(?<=[a-z0-9])([A-Z])", lambda m: "_" + m.group(1).lower(), part)


specs = files("crates/*/specs/**/*.antt")
proofs = files("crates/*/proofs/**/*.antt")
rust = files("crates/*/src/**/*.rt")
of_specs, of_proofs, labels, proof_names = set(), set(), set(), {}
for path in specs + proofs:
    text = read(path)
    for m in DECLARED.finditer(text):
        name, kind = m.group(3), m.group(4)
        if "tie." in kind:
            labels.add(name)
        elif "statement M" in kind:
            proof_names[path, name] = os.path.basename(os.path.dirname(path)) + "_spec"
        else:
            (of_specs if "/specs/" in path else of_proofs).add(name)
    for m in RULESET.finditer(text):
        of_proofs.add(m.group(1))
functions = {m.group(1) for path in rust for m in re.finditer(r"\bfn (\w+)", read(path))}
named = {snake(n).replace("-", "_") for n in of_specs} | {snake(n[:1].lower() + n[1:]) for n in of_specs if n[:1].isupper()} | functions | set(LIBRARY)


def new_name(name):
    if "′" in name:
        name = name.replace("′", "'")
    parts = [snake(p) for p in name.split("-")]
    if name in of_specs_only:
        return "_".join(parts)
    out = parts[0]
    for left, right in zip(parts, parts[1:]):
        out += ("-" if left in named and right in named else "_") + right
    return out


of_specs_only = of_specs - of_proofs
table = {}
for name in of_specs | of_proofs:
    if name[:1].isupper() and "-" not in name or not re.match(r"[\w]", name):
        continue
    if name in labels and name not in of_specs:
        continue
    to = new_name(name)
    if to != name:
        table[name] = to

# ---- names that would fall together: a lemma gives way to a definition, and anything else is a stop. A path, what stands behind a dot and a function of src/ are no such names.
texts = {p: read(p) for p in specs + proofs + rust}
plain = {p: set(WORD.findall(re.sub(r"--[^\n]*|[\w'-]+(?:\.[\w'+-]+)+(?=[.\s]|$)|\.[\w'-]+", " ", t))) for p, t in texts.items() if not p.endswith(".rt")}


def together():
    by_new = collections.defaultdict(set)
    for old, to in table.items():
        by_new[to].add(old)
    for path, words in plain.items():
        for old in sorted(words & table.keys()):
            if table[old] in words - table.keys() or len(by_new[table[old]] & words) > 1:
                yield path, old


for path, old in list(together()):
    if "-" in old and not table[old].endswith("_lem"):
        table[old] += "_lem"
    elif table[old] in of_proofs - of_specs:
        table[table[old]] = table[old] + "_lem"
bad = ["falls together: %s: %s -> %s" % (os.path.relpath(path, TOP), old, table[old]) for path, old in together()]
if bad:
    print("\n".join(bad))
    sys.exit(1)


# ---- writing
def turned(text, path, comments):
    """The text with its names turned; in comments and pages only what stands in backticks turns."""
    # In src/ only a name that no Rust has turns: what is written with underscores may be a function there. Behind a dot of a proof stands a call's label.
    def word(m):
        name = m.group(0)
        if path.endswith(".rt") and re.fullmatch(r"[a-z_0-9]+", name):
            return name
        to = proof_names.get((path, name)) or table.get(name, name)
        behind_dot = m.start() > 0 and m.string[m.start() - 1] == "."
        return to.removesuffix("_lem") if behind_dot and path.endswith("Proof.antt") else to

    def words(part):
        return WORD.sub(word, part)

    def spans(part):
        return re.sub(r"`[^`\n]*`", lambda m: words(m.group(0)), part)

    if comments is None:
        return spans(text)
    out = []
    for line in text.split("\n"):
        at = line.find(comments)
        if at < 0:
            out.append(words(line))
        else:
            out.append(words(line[:at]) + spans(line[at:]))
    return "\n".join(out)


count = 0
for path, text in texts.items():
    to = turned(text, path, "//" if path.endswith(".rt") else "--")
    if to != text:
        open(path, "w", encoding="utf-8").write(to)
        count += 1
for path in files("*.md", "docs/*.md", "docs/statements", "examples/*.md"):
    if os.path.basename(path) == "PORT.md":
        continue
    text = read(path)
    to = turned(text, path, None)
    if to != text:
        open(path, "w", encoding="utf-8").write(to)
        count += 1
where = os.path.join(os.path.dirname(os.path.abspath(__file__)), "respelled.tsv")
if os.path.abspath(TOP) == os.path.dirname(os.path.dirname(os.path.abspath(__file__))):
    with open(where, "w", encoding="utf-8") as f:
        for old in sorted(table):
            f.write("%s\t%s\n" % (old, table[old]))
print("%d names, %d files" % (len(table), count))
