#!/usr/bin/env python3
# The repository's own choice by a test, `if◌then◌else◌`, gets the name `when◌then◌else◌`, since today the library has an operator of the old
# name with another precedence. Run at the top, as often as is wanted.
import glob
import re

WORD = re.compile(r"(?<![\w◌'.-])if(?![\w◌'.-])")


def turned(line):
    return line if line.lstrip().startswith("--") else WORD.sub("when", line)


for path in glob.glob("crates/*/specs/*.antt") + glob.glob("crates/*/proofs/**/*.antt", recursive=True):
    text = open(path, encoding="utf-8").read()
    if not re.search(r"(use Rattle\.lists\.specs\.Search\.\{[^\n]*|infixr 1 )(if|when)◌then◌else◌", text):
        continue
    lines = text.replace("if◌then◌else◌", "when◌then◌else◌").split("\n")
    open(path, "w", encoding="utf-8").write("\n".join(map(turned, lines)))

for path in glob.glob("crates/*/must-fail/*.edit"):
    text = open(path, encoding="utf-8").read()
    if not re.search(r"(?m)^file: (specs|proofs)/", text):
        continue
    lines = text.replace("if◌then◌else◌", "when◌then◌else◌").split("\n")
    kept = [WORD.sub("when", it) if it.startswith(("old:", "new:")) else it for it in lines]
    open(path, "w", encoding="utf-8").write("\n".join(kept))

for path in glob.glob("crates/*/src/*.rt"):
    text = open(path, encoding="utf-8").read()
    if not re.search(r"lists\.specs\.Search\.\{(if|when)◌then◌else◌", text):
        continue
    lines = text.replace("if◌then◌else◌", "when◌then◌else◌").split("\n")
    kept = [WORD.sub("when", it) if re.match(r"\s*(requires|ensures)\b", it) else it for it in lines]
    open(path, "w", encoding="utf-8").write("\n".join(kept))
