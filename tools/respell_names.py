#!/usr/bin/env python3
"""Spells this repository's own definitions and lemmas in snake case: types and modules keep their camel case.

usage: tools/respell_names.py          at the top of the repository, right after the kit's port.py; a second run changes nothing

It reads which names specs/ and proofs/*.antt declare, turns camelCase and dashes of these to snake_case, and rewrites them in
.antt files, in the clauses of .rt files, in the lines old: and new: of must-fail edits, and between backticks in comments, README and docs.
Names of src/, of the kit and of what the kit makes stay, as do strings. It stops, and writes nothing, where two names would fall together.
"""
import collections
import glob
import re
import sys

# Where the plain rule would give a lemma the name of the definition that it is about, or of one of the library's.
APART = {"record-line": "record_line_lem", "bit-xor": "bit_xor_lem"}
# Names that two crates declare apart, in files that never meet: a lemma of one, a definition of the other.
MEET_NOWHERE = {"too_long", "no_byte"}

WORD = r"[^\s(){}.;,@\"«»\[\]\\:]+"
MARKS = r"(?:pub\s+|abbrev\s+|unfoldable\s+|ruleset\s+)*"
# One name or, as for the cases of a data type, several; levels in braces may follow.
DECLARED = re.compile(r"^\s*" + MARKS + r"(" + WORD + r"(?:\s+" + WORD + r")*)(?:\s+\{[^}]*\})?\s*:(?:\s|$)")
TOKEN = re.compile(r"--[^\n]*|\"(?:[^\"\\\n]|\\.)*\"|" + WORD)
RUST_TOKEN = re.compile(r"//[^\n]*|b?'(?:[^'\\\n]|\\.)'|\"(?:[^\"\\\n]|\\.)*\"|" + WORD)
QUOTED = re.compile(r"`([^`\n]+)`")


def read(path):
    with open(path, encoding="utf-8") as file:
        return file.read()


def spelled(name):
    if name in APART:
        return APART[name]
    name = name.replace("-", "_")
    if name[0].islower():
        name = re.sub(r"([a-z0-9])([A-Z])", lambda m: m.group(1) + "_" + m.group(2).lower(), name)
    return name


def declared():
    names = set()
    for path in glob.glob("crates/*/specs/**/*.antt", recursive=True) + glob.glob("crates/*/proofs/*.antt"):
        for line in read(path).split("\n"):
            found = DECLARED.match(line)
            if found:
                names.update(found.group(1).split())
    return names


def table(names):
    if "withTwo" in names:
        # The script of the kit has spelled the lemma `with-two` already.
        names = names - {"with_two"}
    new_names = {name: spelled(name) for name in names if spelled(name) != name}
    if "withTwo" in names:
        new_names["with_two"] = "with_two_lem"
    olds = collections.defaultdict(set)
    for name in names:
        olds[spelled(name)].add(name)
    clashes = {new: old for new, old in olds.items() if len(old) > 1 and new not in MEET_NOWHERE}
    if clashes:
        print("these would fall together:", clashes)
        sys.exit(1)
    return new_names


def turned(text, new_names, token):
    def quoted(m):
        return "`" + re.sub(WORD, lambda w: new_names.get(w.group(0), w.group(0)), m.group(1)) + "`"

    def one(m):
        word = m.group(0)
        if word.startswith(("--", "//")):
            return QUOTED.sub(quoted, word)
        if word.startswith('"') or "'" in word[:2]:
            return word
        return new_names.get(word, word)

    return token.sub(one, text)


def edit_turned(text, new_names):
    lines = text.split("\n")
    spec = any(line.startswith("file: ") and line.rstrip().endswith(".antt") for line in lines)
    token = TOKEN if spec else RUST_TOKEN
    for i, line in enumerate(lines):
        if line.startswith(("old:", "new:")):
            lines[i] = line[:4] + turned(line[4:], new_names, token)
    return "\n".join(lines)


def page_turned(text, new_names):
    return QUOTED.sub(lambda m: "`" + re.sub(WORD, lambda w: new_names.get(w.group(0), w.group(0)), m.group(1)) + "`", text)


def main():
    new_names = table(declared())
    count = 0
    for path in sorted(glob.glob("crates/**/*", recursive=True) + ["README.md"] + glob.glob("docs/*.md")):
        if "/out/" in path:
            continue
        if path.endswith(".antt"):
            turn = lambda text: turned(text, new_names, TOKEN)
        elif path.endswith(".rt"):
            turn = lambda text: turned(text, new_names, RUST_TOKEN)
        elif path.endswith(".edit"):
            turn = lambda text: edit_turned(text, new_names)
        elif path.endswith(".md"):
            turn = lambda text: page_turned(text, new_names)
        else:
            continue
        before = read(path)
        after = turn(before)
        if after != before:
            count += 1
            with open(path, "w", encoding="utf-8") as file:
                file.write(after)
    print(f"{len(new_names)} names, {count} files")


main()
