#!/usr/bin/env python3
"""Brings the names of definitions and lemmas to one spelling: types, modules and facts in upper camel case, all else in snake case, a dash
only between the two names that a lemma joins. So `placementRoom` becomes `placement_room`, and a field or a case `area-is` becomes `area_is`.
The source's own names, strings, inputs and outputs are not touched.

    tools/spelling.py           respells every file of specs/, proofs/ and src/ below crates/
    tools/spelling.py --check   lists the names that would fall together, and changes nothing
"""
import glob
import re
import sys

WORD = re.compile(r"[A-Za-z_0-9'ℕℤ₀-₉-]+")
CAMEL = re.compile(r"[a-z][a-z0-9]*([A-Z][a-z0-9]*)+'*$")
STRING = re.compile(r'"(?:[^"\\\n]|\\.)*"')
BLOCK = re.compile(r"^( *)(?:pub |abbrev |unfoldable |deriving )*(?:record|data)\b.*\bwhere$")
MEMBER = re.compile(r"^( +)(?:pub )?([a-z][A-Za-z0-9'_]*(?:-[A-Za-z0-9'_]+)+) :")

# names whose snake case is taken: a parameter and a field are called `row_words` and `type_words`, and these fields would hide a definition
# of the same name
TAKEN = {"rowWords": "words_a_row", "typeWords": "words_a_type"}
HIDING = {
    "types-room": "types_fit",
    "rows-room": "rows_fit",
    "due-room": "due_fits",
    "list-room": "list_at_room",
    "is-type": "of_type",
    "is-driver": "of_driver",
    "is-point": "of_point",
    "is-sink": "of_sink",
}


def files():
    for pattern in ("crates/*/specs/**/*.antt", "crates/*/proofs/**/*.antt", "crates/*/src/**/*.rt"):
        yield from sorted(glob.glob(pattern, recursive=True))


def members(text):
    """The fields of records and the cases of data that have a dash."""
    depth = None
    for line in text.split("\n"):
        if not line.strip() or line.strip().startswith("--"):
            continue
        indent = len(line) - len(line.lstrip())
        if depth is not None and indent <= depth:
            depth = None
        block = BLOCK.match(line)
        if block:
            depth = len(block.group(1))
        elif depth is not None and MEMBER.match(line):
            yield MEMBER.match(line).group(2)


def snake(part):
    if part in TAKEN:
        return TAKEN[part]
    if not CAMEL.match(part):
        return part
    return re.sub(r"[A-Z]", lambda c: "_" + c.group().lower(), part)


def respelled(word, dashed):
    if word in HIDING:
        return HIDING[word]
    if word in dashed:
        return word.replace("-", "_").lower()
    return "-".join(snake(part) for part in word.split("-"))


def main():
    check = "--check" in sys.argv
    texts = {path: open(path, encoding="utf-8").read() for path in files()}
    dashed = {name for path, text in texts.items() if path.endswith(".antt") for name in members(text)}
    words = {}
    for path, text in texts.items():
        spell = lambda w: respelled(w.group(), dashed)
        parts = STRING.split(text)
        kept = STRING.findall(text) + [""]
        new = "".join(WORD.sub(spell, part) + string for part, string in zip(parts, kept))
        for word in WORD.findall(text):
            words.setdefault(word, set()).add(path)
        if not check and new != text:
            open(path, "w", encoding="utf-8").write(new)
    if check:
        same = {}
        for word in sorted(words):
            same.setdefault(respelled(word, dashed), []).append(word)
        for new, old in sorted(same.items()):
            if len(old) > 1:
                both = len(set.intersection(*(words[word] for word in old)))
                print(f"{new}: {', '.join(f'{word} in {len(words[word])} files' for word in old)}, {both} of them with all")


if __name__ == "__main__":
    main()
