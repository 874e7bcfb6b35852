#!/usr/bin/env python3
"""Takes names that a file uses nowhere out of its `use` lines: `uses.py FILE..`, or `uses.py --check`, which looks at every crate, changes
nothing and fails if there is such a name."""
import glob
import os
import re
import sys

CRATES = os.path.join(os.path.dirname(__file__), "../crates/")
# `use PATH.{a, b as c}` and `use PATH as c` in specs, proofs and, after `ghost`, in code; `use path::{A, B}` and `use path::C` in code
NAMES = re.compile(r"((?:ghost )?use [^{]*(?:\.|::)\{)(.*)(\};?)$")
MODULE = re.compile(r"(?:ghost )?use \S+ as (\S+?);?$")
ITEM = re.compile(r"use [\w:]+::(\w+);$")


def words_of(text):
    """the words of a text: a field (`.left`) is none, and of `a.b` the first part is one, of `Net<'_>` and `a..b` each"""
    words = set()
    for word in re.split(r"(?:\.\.|[\s(){}\[\],;`⌜⌝«»])+", text):
        word = word.split(".")[0]
        words.update([word], re.split(r"[:&!?<>]+", word))
    return words


def used(text):
    """the text with the names it uses in its `use` lines, and no others; a `use` over several lines that loses one is on one line then"""
    whole = re.sub(r"(?m)^use [^;{]*\{\n[^;]*\};$", lambda m: re.sub(r"\s*\n\s*", " ", m[0]).replace("{ ", "{").replace(", }", "}"), text)
    left = used_in_lines(whole)
    return text if left == whole else left


def used_in_lines(text):
    lines = text.split("\n")
    comment = "//" if any(line.startswith("//") for line in lines) else "--"
    body = "\n".join(line.split(comment)[0] for line in lines if not re.match(r"(ghost |pub )?use ", line))
    words = words_of(body)
    words.update(line.split("use ")[1].split("::")[0] for line in lines if line.startswith("use ") and "::" in line)

    def has(name):
        if name == "[]":
            return name in body
        return name in words or "◌" in name and all(part in words for part in name.split("◌") if part)

    kept = []
    for line in lines:
        names, module, item = NAMES.match(line), MODULE.match(line), ITEM.match(line)
        if names:
            left = [n for n in names[2].split(", ") if has(n.split(" as ")[-1].strip())]
            if left:
                kept.append(names[1] + ", ".join(left) + names[3])
        elif module or item:
            if has((module or item)[1]):
                kept.append(line)
        else:
            kept.append(line)
    return "\n".join(kept)


def main():
    check = sys.argv[1:] == ["--check"]
    files = sys.argv[1:]
    if check:
        files = [f for kind in ("rt", "antt") for f in glob.glob(CRATES + "**/*." + kind, recursive=True) if "/out/" not in f]
    bad = 0
    for file in files:
        with open(file) as f:
            text = f.read()
        left = used(text)
        if left == text:
            continue
        if check:
            print("uses: names that are used nowhere:", os.path.relpath(file, CRATES + ".."))
            bad += 1
        else:
            with open(file, "w") as f:
                f.write(left)
    if check:
        print("uses: %d files, %d with names that are used nowhere" % (len(files), bad))
    sys.exit(1 if bad else 0)


if __name__ == "__main__":
    main()
