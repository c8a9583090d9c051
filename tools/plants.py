#!/usr/bin/env python3
"""Tries the planted bugs of plants/CRATE.txt, as the gate tries a crate's must-fail edits, and says what became of each.

usage: tools/plants.py [--only WORD] CRATE..

A plant is a line '# what is wrong' and then the lines of a must-fail edit: 'file:', 'old:' and 'new:'. Where it has
'in: NAME', what is old needs to stand just once in the function of that name. It works in a copy of the repository,
$PLANTS or /tmp/plants, which is kept between runs. Of a plant that is proved, nothing above the crate is tried.
"""
import os
import re
import subprocess
import sys

ROOT = os.path.dirname(os.path.dirname(os.path.abspath(__file__)))
COPY = os.environ.get("PLANTS", "/tmp/plants")


def plants(crate):
    """The plants of a crate: each a name, and a list of changes, each a file, a function or None, an old and a new text."""
    found = []
    with open(f"{ROOT}/plants/{crate}.txt", encoding="utf-8") as text:
        for line in text.read().split("\n"):
            if line.startswith("# "):
                found.append((line[2:], []))
                file = function = None
            elif line.startswith("file: "):
                file, function = line[6:], None
            elif line.startswith("in: "):
                function = line[4:]
            elif line.startswith("old: "):
                found[-1][1].append([file, function, line[5:], ""])
            elif line.startswith("new:"):
                found[-1][1][-1][3] = line[5:]
    return found


def span(text, function):
    """Where a function begins, with its attributes, and where it ends."""
    start = re.search(rf"^[ ]*(pub(\(crate\))? )?fn {function}\b", text, re.M).start()
    while re.match(r"\s*#\[", text[:start].rstrip("\n").rsplit("\n", 1)[-1]):
        start = text.rstrip("\n").rfind("\n", 0, start - 1) + 1
    end = text.index("\n" + re.match(r"[ ]*", text[start:])[0] + "}\n", start)
    end = text.index("}", end) + 1
    return start, end


def unique(text, piece):
    return text.count(piece) == 1


def edit(folder, changes):
    """The lines of a must-fail edit. What does not stand just once in its file is changed with its function: the new text
    comes before the old one, and that into a comment or, in a file's last function, under another name."""
    lines = []
    for file, function, old, new in changes:
        lines.append(f"file: {file}")
        with open(f"{folder}/{file}", encoding="utf-8") as source:
            text = source.read()
        if function is None or unique(text, old):
            lines += [f"old: {old}", f"new: {new}"]
            continue
        start, end = span(text, function)
        body = text[start:end]
        if not unique(body, old):
            raise ValueError(f"{function} has not just one '{old}'")
        head = next(l for l in body.split("\n") if re.search(rf"\bfn {function}\b", l)).strip()
        if not unique(text, head):
            raise ValueError(f"no line to name for {function}")
        # the attributes stay where they are, before the new text
        flat = " ".join(re.sub(r"^\s*//.*$|\s// .*$", "", body, flags=re.M).replace(old, new).split())
        flat = flat[flat.index(head.split("(")[0]) :]
        behind = text[end:].split("\n}\n")[0].split("\n")
        after = [l.strip() for l in behind if len(l.strip()) > 3 and unique(text, l.strip())]
        if after:
            lines += [f"old: {head}", f"new: {flat} /* {head}", f"old: {after[0]}", f"new: */ {after[0]}"]
        else:
            lines += [f"old: {head}", f"new: {flat} {head.replace('pub ', 'pub(crate) ').replace(function, function + '_left')}"]
    return "\n".join(lines) + "\n"


def main():
    arguments = sys.argv[1:]
    only = ""
    if arguments[:1] == ["--only"]:
        only, arguments = arguments[1], arguments[2:]
    os.makedirs(COPY, exist_ok=True)
    for crate in arguments:
        subprocess.run(f"tar -c --exclude=.git --exclude=out . | tar -x -C {COPY}", shell=True, check=True, cwd=ROOT)
        folder = f"{COPY}/crates/{crate}"
        subprocess.run(f"rm -rf {folder}/must-fail; mkdir {folder}/must-fail", shell=True, check=True)
        for number, (name, changes) in enumerate(plants(crate)):
            if only not in name:
                continue
            file = re.sub(r"[^A-Za-z0-9]+", "_", name)
            try:
                lines = edit(folder, changes)
            except (ValueError, AttributeError) as reason:
                print(f"{crate}: {name}: not planted: {reason}")
                continue
            with open(f"{folder}/must-fail/{number:03}_{file}.edit", "w", encoding="utf-8") as out:
                out.write(lines)
        subprocess.run(f"(cd crates/{crate} && rt check) > {COPY}/{crate}.check 2>&1", shell=True, cwd=COPY)
        subprocess.run(["rt", "must-fail", crate], cwd=COPY)


main()
