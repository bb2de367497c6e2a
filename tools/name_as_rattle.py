#!/usr/bin/env python3
"""name_as_rattle.py: spells this repository's own definitions and lemmas as today's Rattle does, once, after the kit's port.py.

A word is in snake case, a type and a module in camel case. So `rowCountAt` becomes `row_count_at`, and `every-stop` `every_stop`. Names that the
repository imports from elsewhere stay, and so do the functions of src/, exported names, strings, inputs and outputs. Where two of our names would
fall together, the lemma or the field (the name with a dash) gets `_lem`. Run it at the top of the repository; it prints what fell together."""
import collections
import glob
import re
import sys

OWN_CRATES = {path.split("/")[1] for path in glob.glob("crates/*/src")}
LEMMA_FILES = sorted(glob.glob("crates/*/specs/*.antt") + glob.glob("crates/*/proofs/*.antt"))
PROOF_FILES = sorted(set(glob.glob("crates/*/proofs/**/*.antt", recursive=True)) - set(LEMMA_FILES))
SOURCE_FILES = sorted(glob.glob("crates/*/src/**/*.rt", recursive=True))
EDIT_FILES = sorted(glob.glob("crates/*/must-fail/*.edit"))
PAGES = sorted(glob.glob("*.md") + glob.glob("docs/*.md") + glob.glob("docs/*/*.md"))

TOKEN = re.compile(r"[A-Za-z_][A-Za-z0-9_'-]*[A-Za-z0-9_']")
# The documents' own words and words of the library that are not imported by name.
STAYS = {"dP", "rP", "and-true", "not-nil", "suc-add", "lt_of_not-le"}
# The library's `getD` is `get_or` now.
GIVEN = {"getD-series": "get_or_series", "getD-table": "get_or_table", "rateIs": "rate_is"}


def read(path):
    with open(path, encoding="utf-8") as file:
        return file.read()


def write(path, text):
    with open(path, "w", encoding="utf-8") as file:
        file.write(text)


def has_old_spelling(name):
    return name[0].islower() and ("-" in name or re.search(r"[a-z0-9][A-Z]", name) is not None)


def snake(name):
    return re.sub(r"(?<=[a-z0-9])[A-Z]", lambda match: "_" + match.group(0).lower(), name.replace("-", "_"))


def without_comments(text):
    return re.sub(r"(?m)^\s*--.*$", "", text)


def imported_from_elsewhere():
    names = set()
    for path in LEMMA_FILES + PROOF_FILES + SOURCE_FILES:
        for module, list_of_names in re.findall(r"(?m)^(?:ghost |pub )*use ([^\s{;]+?)\.\{([^}]*)\}", read(path)):
            crate = re.match(r"Rattle\.(\w+)", module)
            if crate is None or crate.group(1) not in OWN_CRATES:
                names.update(name.strip() for name in list_of_names.split(","))
    return names


def spelling():
    elsewhere = imported_from_elsewhere()
    here = collections.Counter()
    for path in LEMMA_FILES:
        here.update(TOKEN.findall(without_comments(read(path))))
    old = [name for name in here if has_old_spelling(name) and name not in elsewhere and name not in STAYS]
    by_new = collections.defaultdict(list)
    for name in old:
        if name not in GIVEN:
            by_new[snake(name)].append(name)
    new = dict(GIVEN)
    for spelled, names in sorted(by_new.items()):
        taken = len(names) > 1 or spelled in here or spelled in elsewhere
        for name in names:
            new[name] = spelled
            if taken and "-" in name:
                new[name] = spelled + "_lem"
                print(f"fell together: {name} is now {new[name]}")
            elif spelled in elsewhere:
                sys.exit(f"{name} would fall together with {spelled}")
            elif spelled in here:
                new[spelled] = spelled + "_lem"
                print(f"fell together: {spelled} is now {new[spelled]}")
    return new


def respelled(text, new, stays=frozenset()):
    return TOKEN.sub(lambda match: match.group(0) if match.group(0) in stays else new.get(match.group(0), match.group(0)), text)


def main():
    new = spelling()
    for path in LEMMA_FILES + SOURCE_FILES + EDIT_FILES:
        text = read(path)
        parts = re.split(r'("(?:[^"\\\n]|\\.)*")', text) if path.endswith(".rt") else [text]
        write(path, "".join(part if part.startswith('"') else respelled(part, new) for part in parts))
    for path in PROOF_FILES:
        text = read(path)
        labels = frozenset(re.findall(r"(?m)^(\S+) : tie\.", text))
        text = re.sub(r"tie\.\S+", lambda match: match.group(0).replace("-", "\0"), text)
        write(path, respelled(text, new, labels).replace("\0", "-"))
    for path in PAGES:
        text = read(path)
        write(path, re.sub(r"`[^`\n]*`", lambda match: respelled(match.group(0), new), text))
    print(f"name_as_rattle: {len(new)} names")


main()
