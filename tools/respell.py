#!/usr/bin/env python3
# Brings the repository's own definitions, lemmas and fields to the spelling of today's Rattle: words in snake case. Run once, at the top,
# after port.py. Names of functions, types and modules stay, and so do the names that the toolchain makes in proofs/FUNCTION/.
import collections
import glob
import re

TOKEN = re.compile(r"[^\s(){}\[\];,.:\"`@λ→⌜⌝]+")
SIGNATURE = re.compile(r"^\s*(?:(?:abbrev|unfoldable|pub)\s+)*([^\s(){}\[\];,.:\"`@λ→]+)\s+:\s")
IMPORT = re.compile(r"\s*(?:pub )?use\s+([^\s{]+?)\.\{(.*)\}")

# Two names that would read alike, other than by the rules below.
BY_HAND = {
    "has-blocks": "blocks_given",
    "has-loops": "loops_given",
    "same_row": "same_row_lem",
    "by_name": "by_name_lem",
    "one_less": "one_less_lem",
    "in_rows": "in_rows_lem",
    "add-one": "add-one",
    "and-true": "and-true",
}


def snake(name):
    if not name[0].islower():
        return name.replace("-", "_")
    return re.sub(r"([a-z0-9])([A-Z])", lambda m: m.group(1) + "_" + m.group(2).lower(), name).replace("-", "_")


def is_camel(name):
    return name[0].islower() and re.search(r"[a-z0-9][A-Z]", name) and "-" not in name


def own_names(files):
    names = set()
    for path in files:
        for line in open(path, encoding="utf-8"):
            found = SIGNATURE.match(line)
            if found and not line.lstrip().startswith("--"):
                names.add(found.group(1))
    return names - {"use", "let", "in", "where"}


def foreign_names(files):
    names = set()
    for path in files:
        for line in open(path, encoding="utf-8"):
            found = IMPORT.match(line)
            if found and not re.match(r"Rattle\.(?!std\b|core\b)", found.group(1)):
                names.update(word.strip() for word in found.group(2).split(","))
    return names


def spellings():
    laws = glob.glob("crates/*/specs/*.antt") + glob.glob("crates/*/proofs/*.antt")
    every = glob.glob("crates/*/specs/*.antt") + glob.glob("crates/*/proofs/**/*.antt", recursive=True)
    own, foreign = own_names(laws), foreign_names(every)
    odd = {name for name in own if ("-" in name or is_camel(name)) and name not in foreign}
    taken = (own - odd) | foreign | {snake(name) for name in odd if is_camel(name)}
    table = {}
    for name in sorted(odd):
        new = snake(name)
        # A lemma that would have its function's name gets `_lem`.
        table[name] = new + "_lem" if not is_camel(name) and new in taken else new
    table.update({name: new for name, new in BY_HAND.items() if name in own})
    return table


def main():
    table = spellings()
    together = collections.Counter(table.values())
    for new, count in together.items():
        if count > 1:
            print("fall together:", new, [name for name in table if table[name] == new])
    paths = glob.glob("crates/*/specs/*.antt") + glob.glob("crates/*/proofs/**/*.antt", recursive=True)
    paths += glob.glob("crates/*/src/*.rt") + glob.glob("crates/*/must-fail/*.edit")
    for path in paths:
        text = open(path, encoding="utf-8").read()
        # In code only the definitions that clauses name.
        words = {name: new for name, new in table.items() if path.endswith(".antt") or is_camel(name) or "-" in name}
        new = TOKEN.sub(lambda m: words.get(m.group(0), m.group(0)), text)
        if new != text:
            open(path, "w", encoding="utf-8").write(new)
    print(len(table), "names")


if __name__ == "__main__":
    main()
