#!/usr/bin/env python3
"""Brings the repository's own definitions and lemmas to today's spelling: words in snake case, types in camel case.

Run once at the top of the repository, after the toolchain's own port script. It renames what specs/ and proofs/
define and nothing else: names of src/, goals and steps that the check makes, and names of the library stay.
"""
import collections
import glob
import re
import sys

NAME = r"[A-Za-z_][A-Za-z0-9_']*(?:-[A-Za-z0-9_']+)*"
TOKEN = re.compile(rf"(?<![A-Za-z0-9_'\-]){NAME}(?![A-Za-z0-9_'\-])")
SIGNATURE = re.compile(rf"(?:^|record {{|;)\s*(?:(?:abbrev|unfoldable|pub|private)\s+)*({NAME}(?: {NAME})*) ?:(?=\s)")
DECLARATION = re.compile(rf"^\s*(?:pub\s+)?(?:record|data|ruleset)\s+({NAME})")
IMPORT = re.compile(r"^\s*(?:ghost )?use (Rattle\.[\w.+'-]+?)\.\{([^}]*)\}", re.M)

# Names that would fall together with another one in their scope, or that the rule misses.
OTHERWISE = {"No-cell": "NoCellFree", "getD-counters": "get_or_counters"}

# Constructors, which no signature shows: the folder in which each is spelled so.
CONSTRUCTORS = {"crates/rules/": {"Fits": "fits_in", "Outvotes": "outvotes", "Loses": "loses"}}


def code_of(line, comment):
    """The part of a line before its comment, and the comment."""
    at = re.search(rf"(?:^|(?<=\s)){comment}", line)
    return (line[: at.start()], line[at.start():]) if at else (line, "")


def files(pattern):
    return sorted(glob.glob(pattern, recursive=True))


def proof_texts():
    return files("crates/*/specs/**/*.antt") + files("crates/*/proofs/**/*.antt")


def own_names():
    """What specs/ and proofs/ define, but for goals: each name with the files that define it."""
    goals, own = set(), collections.defaultdict(set)
    for path in proof_texts():
        text = open(path).read()
        goals |= set(re.findall(rf"goal\.({NAME})", text))
    for path in proof_texts():
        for line in open(path):
            code, _ = code_of(line, r"--(?=\s|$)")
            names = [n for it in SIGNATURE.finditer(code) for n in it.group(1).split()]
            names += DECLARATION.findall(code)
            for name in names:
                if name not in goals:
                    own[name].add(path)
    return own


def respelled(name):
    if name in OTHERWISE:
        return OTHERWISE[name]
    if name[0].isupper():
        return "".join(it[:1].upper() + it[1:] for it in name.split("-"))
    snake = re.sub(r"(?<=[a-z])([A-Z])(?=[a-z])", lambda it: "_" + it.group(1).lower(), name)
    return snake.replace("-", "_")


def from_elsewhere(text):
    """Names that a file brings in from the library."""
    found = set()
    for module, names in IMPORT.findall(text):
        if module.startswith("Rattle.std."):
            found |= {it.strip().split(" as ")[-1] for it in names.split(",")}
    return found


def turned(code, names, skip):
    def turn(it):
        name = it.group(0)
        if name not in names or name in skip:
            return name
        before = re.search(r"[\w.'+\-]*\.$", code[: it.start()])
        if before and re.match(r"(?:c|w|l|goal)\.", before.group(0)):
            return name
        return names[name]

    return TOKEN.sub(turn, code)


def in_ticks(text, names):
    return re.sub(r"`[^`\n]*`", lambda it: turned(it.group(0), names, set()), text)


def respell(path, names):
    text = open(path).read()
    skip = from_elsewhere(text)
    for folder, constructors in CONSTRUCTORS.items():
        if path.startswith(folder):
            names = names | constructors
    out = []
    for line in text.splitlines(keepends=True):
        if path.endswith(".antt"):
            code, comment = code_of(line, r"--(?=\s|$)")
        elif path.endswith(".rt"):
            code, comment = code_of(line, r"//")
        elif path.endswith(".edit"):
            code, comment = (line, "") if re.match(r"(?:old|new):", line) else ("", line)
        else:
            code, comment = "", line
        out.append(turned(code, names, skip) + in_ticks(comment, names))
    new = "".join(out)
    if new != text:
        open(path, "w").write(new)
        return 1
    return 0


def main():
    own = own_names()
    names = {it: respelled(it) for it in own if respelled(it) != it}
    clashes = []
    for path in proof_texts() + files("crates/*/src/**/*.rt"):
        text = open(path).read()
        tokens = set()
        for line in text.splitlines():
            code, _ = code_of(line, r"--(?=\s|$)" if path.endswith(".antt") else r"//")
            tokens |= set(TOKEN.findall(code))
        for name in tokens & set(names):
            if names[name] in tokens:
                clashes.append(f"{path}: {name} and {names[name]} fall together")
    seen = collections.defaultdict(set)
    for name, new in names.items():
        seen[new].add(name)
    clashes += [f"{sorted(olds)} fall together as {new}" for new, olds in seen.items() if len(olds) > 1]
    if clashes:
        print("\n".join(clashes))
    if "--dry" in sys.argv:
        print(len(names), "names")
        return
    texts = proof_texts() + files("crates/*/src/**/*.rt") + files("crates/*/must-fail/*.edit")
    texts += files("docs/*.md") + files("README.md")
    print(len(names), "names in", sum(respell(path, names) for path in texts), "files")


main()
