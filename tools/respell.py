#!/usr/bin/env python3
"""Respells the repository's own definitions, lemmas and fields: snake case for words, camel case for types.

Run once at the top, right after /opt/rattle/port/port.py. Names that Rattle makes (goals, steps) and names from its
library keep their spelling, as do functions of src/, strings, inputs and outputs.
"""
import collections
import glob
import re
import sys

# A name that a declaration gives: of a definition, a lemma, a field, or an argument or alias beside one.
TOKEN = r"[^\s:=(){}\[\];.,|λ→×⊎∷&*!<>\"`/]+"
DECLARED = re.compile(r"^\s*(?:\|\s*)?(?:(?:abbrev|unfoldable|pub|record|data|module|let)\s+)*(" + TOKEN + r")\s*(?:[({].*)?:(.*)")
ALIAS = re.compile(r"\bas\s+(" + TOKEN + r")")
MADE = re.compile(r"\s*(goal|need|given)\.")


def antt_files():
    return sorted(glob.glob("crates/*/specs/**/*.antt", recursive=True) + glob.glob("crates/*/proofs/**/*.antt", recursive=True))


def source_files():
    return sorted(glob.glob("crates/*/src/**/*.rt", recursive=True))


def code_of(line):
    return line.split("--")[0]


def parted(path, line):
    """The part of a line that names definitions, and the rest of it: a comment, or code of src/, which stays."""
    if path.endswith(".antt"):
        return code_of(line), line[len(code_of(line)):]
    if path.endswith(".rt") and (re.match(r"\s*//", line) or not re.search(r"ghost |requires|ensures|invariant", line)):
        return "", line
    return line, ""


def own_names():
    """The names with a dash that the repository declares, with the files that do."""
    own, made = collections.defaultdict(set), set()
    for path in antt_files():
        parts = path.split("/")
        of_function = parts[2] == "proofs" and len(parts) > 4
        for line in open(path, encoding="utf-8"):
            code = code_of(line)
            if code.lstrip().startswith("use "):
                continue
            found = DECLARED.match(code)
            if found and dashed(found.group(1)):
                if of_function and MADE.match(found.group(2)):
                    made.add(found.group(1))
                else:
                    own[found.group(1)].add(path)
    for path in antt_files() + source_files():
        for line in open(path, encoding="utf-8"):
            if re.match(r"\s*(ghost )?use ", line):
                for name in ALIAS.findall(line):
                    if dashed(name):
                        own[name].add(path)
    return own, made


def dashed(name):
    if not re.match(r"^[A-Za-z]", name) or name.endswith("-"):
        return False
    return "-" in name or (name[0].isupper() and "_" in name and not name.isupper())


def respelt(name):
    if name[0].isupper():
        return "".join(part[:1].upper() + part[1:] for part in re.split("[-_]", name))
    return name.replace("-", "_")


def imported(text, crates):
    """What a file brings in from elsewhere than the repository."""
    names = set()
    for found in re.finditer(r"use\s+(?:Rattle\.)?([A-Za-z_]+)\.[^\s{]*?\.?\{([^}]*)\}", text):
        if found.group(1) not in crates:
            names.update(part.strip() for part in re.split(r",|\sas\s", found.group(2)))
    return names


def main():
    crates = {line.split(":")[0] for line in open("crates.txt", encoding="utf-8") if re.match(r"[a-z_]+", line)}
    own, made = own_names()
    both = set(own) & made
    if both:
        sys.exit(f"declared, and made by Rattle: {sorted(both)}")
    new = {name: respelt(name) for name in own}
    fallen = collections.defaultdict(set)
    for name, spelling in new.items():
        fallen[spelling].add(name)
    for spelling, names in fallen.items():
        if len(names) > 1:
            sys.exit(f"these would fall together as {spelling}: {sorted(names)}")
    token = re.compile(r"(?<![^\s:=(){}\[\];.,|λ→×⊎∷&*!<>\"`/])(" + "|".join(re.escape(n) for n in sorted(new, key=len, reverse=True)) + r")(?![^\s:=(){}\[\];.,|λ→×⊎∷&*!<>\"`/])")
    changed = 0
    for path in antt_files() + source_files() + sorted(glob.glob("crates/*/must-fail/*.edit") + glob.glob("crates/*/compile-refused/*.edit")):
        text = open(path, encoding="utf-8").read()
        outside = imported(text, crates)
        taken = {n for n in outside if n in new}
        if taken:
            print(f"{path}: keeps {sorted(taken)}, which come from elsewhere")
        lines = []
        for line in text.split("\n"):
            code, comment = parted(path, line)
            lines.append(token.sub(lambda m: m.group(1) if m.group(1) in taken else new[m.group(1)], code) + comment)
        after = "\n".join(lines)
        if after != text:
            open(path, "w", encoding="utf-8").write(after)
            changed += 1
    print(f"{len(new)} names respelt in {changed} files")


main()
