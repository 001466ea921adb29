#!/usr/bin/env python3
"""Spells this repository's own definitions and lemmas as the library does: words in snake case, types and facts in camel case.

    python3 tools/spelling.py          write
    python3 tools/spelling.py list     print each old name with its new one, and what would fall together

Names that come from the source of a function (goals, invariants, measures) keep their spelling, and so does everything in code.
"""
import glob
import re
import sys

DEFINED = re.compile(r"^(\s*)((?:abbrev |unfoldable |pub )*)([^\s(){}:;,.\[\]|λ→`\"]+)\s*:\s(.*)$")
BLOCK = re.compile(r"^\s*(?:pub |abbrev |unfoldable )*(record|data|ruleset)\s+([^\s(){}:]+)")
TOKEN = re.compile(r"(?<![\w'\-₀-₉])(tie\.|goal\.)?([A-Za-z][\w'₀-₉]*(?:-[\w'₀-₉]+)*)")
# Lemmas that the toolchain's own script had already put into snake case, beside definitions of the same name.
ALONE = {
    "first_byte", "in_order", "is_greater", "new_line", "no_line", "on_room", "one_byte", "right_of", "same_word"
}
MADE = ("invariant-", "decreases-", "the-", "ghost-")


def files(kinds):
    found = []
    for kind in kinds:
        found += glob.glob("crates/*/" + kind, recursive=True)
    return sorted(found)


def snake(word):
    return re.sub(r"(?<=[a-z0-9'])([A-Z])", r"_\1", word).lower() if not word[0].isupper() else word


def camel(name):
    parts = re.split(r"[-_]", name)
    return "".join(p[0].upper() + p[1:] for p in parts)


def respelled(name, kind, text):
    if name.startswith(MADE):
        return name
    if name.startswith("getD-"):
        return "get_or_" + name[5:]
    if kind in ("record", "data") or re.search(r"(→|^)\s*Type 0$", text):
        return camel(name) if "-" in name or name[0].islower() else name
    parts = [snake(p) for p in name.split("-")]
    out = parts[0]
    for before, part in zip(parts, parts[1:]):
        out += ("-" if before[0].isupper() or part[0].isupper() else "_") + part
    return out


def collect():
    names = {}
    for path in files(["specs/*.antt", "proofs/**/*.antt"]):
        for line in open(path):
            if line.lstrip().startswith("--") or line.startswith("use "):
                continue
            block = BLOCK.match(line)
            defined = None if block else DEFINED.match(line)
            if block:
                names[block.group(2)] = respelled(block.group(2), block.group(1), "")
            elif defined and defined.group(3)[0].isalpha():
                name = defined.group(3)
                if name not in names or names[name] == name:
                    names[name] = respelled(name, "", defined.group(4).strip())
    return {a: b for a, b in names.items() if a != b}


def lemmas(names):
    """A lemma that would have the name of a definition gets `_lem`."""
    definitions = {b for a, b in names.items() if "-" not in a} | {"left_of", "line_at", "new_line"}
    found = {a: b + "_lem" if "-" in a and b in definitions else b for a, b in names.items()}
    found.update({name: name + "_lem" for name in ALONE})
    return found


def turned(text, names, proofs):
    def one(match):
        name = match.group(2)
        alone = name in ALONE and (not proofs or text[:match.start()].endswith("."))
        return match.group(0) if match.group(1) or alone else names.get(name, name)
    return TOKEN.sub(one, text)


def main():
    names = lemmas(collect())
    if sys.argv[1:] == ["list"]:
        words = {}
        for path in files(["specs/*.antt", "proofs/**/*.antt", "src/*.rt"]):
            for match in TOKEN.finditer(open(path).read()):
                words.setdefault(match.group(2), set()).add(path)
        for old, new in sorted(names.items()):
            print(old, new)
        targets = {}
        for old, new in names.items():
            targets.setdefault(new, []).append(old)
        for new, olds in sorted(targets.items()):
            if len(olds) > 1:
                print("TOGETHER", new, olds)
            if new in words:
                print("ALREADY", new, olds, sorted(words[new])[:4])
        return
    for path in files(["specs/*.antt", "proofs/**/*.antt", "src/*.rt", "must-fail/*.edit"]):
        before = open(path).read()
        after = turned(before, names, path.endswith(".antt"))
        if after != before:
            open(path, "w").write(after)


main()
