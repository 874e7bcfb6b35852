#!/usr/bin/env python3
"""The nets of the program storages. `nets.py` writes crates/storages/stdin: the paper's examples, the nets of crates/vectors/stdin
that are planned, the largest nets among them, and texts that are refused. `nets.py OUTPUT` holds what the program wrote to
crates/vectors/stdout: both storages alike, and the figures, placements and lists those of the vectors."""
import os
import sys

HERE = os.path.join(os.path.dirname(os.path.abspath(__file__)), "../crates/")
# P1 and P8 have no repeater: net A and net B with no type to place.
BARE = [
    ("p1", "D\t20\nW\t0\t4\t5\t1\nS\t1\t6\t7\t0\t8\t1000\n", "slack 430 load 20"),
    ("p8", "D\t20\nW\t0\t4\t5\t0\nS\t1\t6\t7\t1\t8\t1000\nS\t1\t0\t3\t1\t30\t950\n", "slack -362 load 53"),
]
# P1 to P9: nets A and B give more than one each.
FIRST = ["p1", "net-a", "net-a-driver-0", "net-a-equal-slack", "net-b", "p8", "least-net"]
LARGE = ["largest"]
REFUSED = [("empty", "", None), ("spaces", "D 20\n", None), ("itself", "D\t20\nS\t1\t0\t0\t0\t8\t1000\n", None)]


def planned():
    """the cases whose text is read and planned: (name, text)"""
    lines = open(HERE + "vectors/stdin", "rb").read()
    at, name, text, found = 0, None, b"", []
    while at < len(lines):
        end = lines.index(b"\n", at)
        word, *numbers = lines[at:end].decode("latin-1").split(" ")
        at = end + 1
        if word == "case":
            name, text = numbers[0], b""
        elif word == "text":
            text = b""
        elif word == "bytes":
            times, length = map(int, numbers)
            text += lines[at:at + length] * times
            at += length + 1
        elif word in ("types", "rows", "due"):
            name = None
            at = lines.index(b"\n", at) + 1 if numbers != ["0"] else at
        elif (word == "plan" or name in LARGE) and name and text.startswith((b"T", b"D")) and (name, text) not in found:
            found.append((name, text))
    return found


def expected():
    """what the vectors say of a case: slack and load, marks, the lists by their rows"""
    says = {}
    for line in open(HERE + "vectors/stdout", encoding="latin-1"):
        name, rest = line.rstrip("\n").split(" ", 1)
        if ": " not in rest:
            continue
        asked, told = rest.split(": ", 1)
        about = says.setdefault(name, {})
        if asked == "plan 4 768 768 3072":
            about["plan"] = told.split(" kept")[0]
        elif asked == "marks":
            about["marks"] = told
        elif asked.startswith("list ") and asked.endswith(" 257 257 768 768 3072"):
            row = asked.split(" ")[1]
            about[row] = f"at {row}: " + told.split(" kept")[0].replace("length", "list", 1)
    return says


def nets():
    found = BARE + [(n, t.decode("latin-1"), None) for n, t in planned()]
    return sorted(found, key=lambda x: FIRST.index(x[0]) if x[0] in FIRST else len(FIRST)) + REFUSED


def check(output):
    says, blocks, block = expected(), [], []
    for line in open(output):
        block.append(line.rstrip("\n"))
        if block[-1] in ("same", "differ"):
            blocks.append(block)
            block = []
    all_ = nets()
    assert not block and len(blocks) == len(all_), (len(blocks), len(all_))
    figures = marks = lists = 0
    for (name, _, plan), b in zip(all_, blocks):
        assert b[-1] == "same", name
        if b[0].startswith("text "):
            b = b[1:]
        told = b[:-2]
        assert [x.replace("records", "columns", 1) for x in told[1::2]] == told[::2], name
        of = says.get(name, {})
        plan = plan or of.get("plan")
        if plan:
            assert b[0].startswith(f"columns {plan} marks"), (name, b[0], plan)
            figures += 1
        if "marks" in of and "plan" in of:
            assert b[0].endswith(f" marks {of['marks']}"), (name, b[0], of)
            marks += 1
        for x in told[2::2]:
            row = x.split(" ")[2].rstrip(":")
            if row in of:
                assert x == f"columns {of[row]}", (name, x, of)
                lists += 1
    print(f"{len(blocks)} nets alike; as the vectors have them: {figures} figures, {marks} placements, {lists} lists")


if len(sys.argv) > 1:
    check(sys.argv[1])
else:
    with open(HERE + "storages/stdin", "w", encoding="latin-1", newline="") as f:
        f.write("\n".join(t for _, t, _ in nets()))
