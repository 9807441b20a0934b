#!/usr/bin/env python3
"""Brings the repository's own words and lemmas to the spelling of today's Rattle: snake case.

usage: python3 tools/respell.py        at the top of the repository, once, after the toolchain's port.py

    putU16, withBit, kept-wider, length-countFile   ->   put_u16, with_bit, kept_wider, length_count_file

Only names that a file of specs/ or proofs/ declares are respelled, wherever they are cited: in specs/, proofs/ and the clauses of src/.
Types and modules keep their capitals, names of the library and the names that Rattle makes for proofs stay as they are, and no
function of src/, no string and no code changes. It stops before it writes where two names of one file would fall together.
"""

import glob
import re
import sys

TOKEN = re.compile(r"--[^\n]*|//[^\n]*|\"(?:[^\"\\]|\\.)*\"|[^\s(){}.;,@\"«»\[\]\\:]+")
DECLARED = re.compile(r"^\s*(?:(?:pub|abbrev|unfoldable|record|data|ruleset)\s+)*([^\s(){}.;,@\"«»\[\]\\:]+)(?:\s*:(?!=)|\s+[{(])")
NO_NAMES = {"use", "module", "let", "in", "where", "_", "elim", "rw", "ghost", "if", "then", "else"}


def respelled(name):
    parts = []
    for part in name.split("-"):
        if re.match(r"[a-z].*[A-Z]", part):
            part = re.sub(r"(?<=[a-z0-9])([A-Z])", lambda it: "_" + it.group(1).lower(), part)
            part = part[0] + re.sub(r"[A-Z]+", lambda it: it.group(0).lower(), part[1:])
        parts.append(part)
    return "_".join(parts)


def read(path):
    with open(path, encoding="utf-8") as it:
        return it.read()


def of_functions(path):
    """Whether the file belongs to one function's proof: there, a name behind a dot is one that Rattle made."""
    return re.match(r"crates/[^/]+/proofs/[^/]+/", path) is not None


def main():
    antt = sorted(p for part in ("specs", "proofs") for p in glob.glob(f"crates/*/{part}/**/*.antt", recursive=True))
    source = sorted(glob.glob("crates/*/src/**/*.rt", recursive=True))
    names, fields = {}, set()
    for path in antt:
        if of_functions(path):
            continue
        in_record = False
        for line in read(path).splitlines():
            if re.match(r"\s*(?:pub )?record ", line):
                in_record = True
            elif line.strip() == "":
                in_record = False
            found = DECLARED.match(line)
            if found and found.group(1) not in NO_NAMES and not found.group(1).startswith("--"):
                name = found.group(1)
                if respelled(name) != name and re.match(r"[A-Za-z]", name):
                    names[name] = respelled(name)
                    if in_record:
                        fields.add(name)
    # A lemma that would have the name of its function gets "_lem".
    words = {new for name, new in names.items() if "-" not in name}
    plain = {found.group(1) for path in antt if not of_functions(path) for found in map(DECLARED.match, read(path).splitlines()) if found}
    taken = words | {name for name in plain if "-" not in name and name not in names}
    names = {name: new + "_lem" if "-" in name and new in taken else new for name, new in names.items()}
    lemmas = {name: name + "_lem" for name in plain if name in words}
    out, clashes = {}, []
    for path in antt + source:
        text = read(path)
        of_function, is_source = of_functions(path), path.endswith(".rt")
        imported = set()
        for words in re.findall(r"^(?:pub )?(?:ghost )?use (?!Rattle\.(?:" + "|".join(sorted({p.split("/")[1] for p in antt})) + r")\.)[^{\n]*\{([^}]*)\}", text, re.M):
            imported.update(re.split(r"[\s,]+", words))
        before = {}

        def turn(it):
            word = it.group(0)
            if word[0] == '"' or word[:2] in ("--", "//"):
                if word[0] == '"':
                    return word
                return re.sub(r"(?<![\w-])[a-z]\w*[A-Z]\w*(?![\w-])", lambda w: names.get(w.group(0), w.group(0)), word)
            behind_dot = it.start() > 0 and text[it.start() - 1] == "."
            if word in lemmas and not is_source and not behind_dot and word not in imported:
                return lemmas[word]
            if word in imported or word not in names:
                if not behind_dot and not is_source:
                    before.setdefault(word, set()).add(word)
                return word
            if is_source and "-" in word and not in_clause(text, it.start()):
                return word
            if of_function and behind_dot and word not in fields:
                return word
            before.setdefault(names[word], set()).add(word)
            return names[word]

        new = TOKEN.sub(turn, text)
        clashes += [f"{path}: {', '.join(sorted(olds))} would all be {name}" for name, olds in before.items() if len(olds) > 1]
        if new != text:
            out[path] = new
    if clashes:
        print("\n".join(clashes))
        print(f"respell: {len(clashes)} names fall together: nothing was written")
        return 1
    for path, text in out.items():
        with open(path, "w", encoding="utf-8") as it:
            it.write(text)
    print(f"respell: {len(names)} names, {len(out)} files")
    return 0


def in_clause(text, at):
    """Whether the place is in a clause or an import of a ghost name: on a line of its own kind, or in a block that such a line opened."""
    start = text.rfind("\n\n", 0, at)
    return re.search(r"(?:requires|ensures|ghost)\b", text[max(start, 0):at]) is not None


sys.exit(main())
