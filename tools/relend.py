#!/usr/bin/env python3
"""Writes what a lent slice holds as today's clauses say it: `was s` becomes `s.old` or `s.now`, `became s` becomes `s.new`.

usage: tools/relend.py             once, at the top of the repository, after tools/respell.py

A `&mut` parameter has `.old` and `.new`, a `&` has `.now`. `at_entry p current file buffer` takes the words instead of the slices. Only clauses
of src/ are rewritten. A second run changes nothing.
"""

import glob
import re

HEAD = re.compile(r"\bfn\s+\w+[^(;{]*\(")


def parameters(text, at):
    """The parameters' types by their names, and the place behind the closing bracket."""
    depth, k = 1, at
    while depth:
        depth += {"(": 1, ")": -1}.get(text[k], 0)
        k += 1
    inside = text[at : k - 1]
    found = dict(re.findall(r"(\w+)\s*:\s*(&mut|&)", inside))
    me = re.search(r"(&mut|&)\s*self\b", inside)
    if me:
        found["self"] = me.group(1)
    return found, k


def clauses(text, types):
    held = lambda name: name + (".old" if types[name] == "&mut" else ".now")
    text = re.sub(r"\(was (\w+)\)", lambda m: held(m.group(1)) if m.group(1) in types else m.group(0), text)
    text = re.sub(r"\bwas (\w+)\b(?!\.)", lambda m: held(m.group(1)) if m.group(1) in types else m.group(0), text)
    text = re.sub(r"\(became (\w+)\)", lambda m: m.group(1) + ".new" if m.group(1) in types else m.group(0), text)
    text = re.sub(r"\bbecame (\w+)\b(?!\.)", lambda m: m.group(1) + ".new" if m.group(1) in types else m.group(0), text)
    return re.sub(
        r"\bat_entry (\S+) (\S+) (\w+) (\w+)\b(?![.\w])",
        lambda m: f"at_entry {m.group(1)} {m.group(2)} {held(m.group(3))} {held(m.group(4))}" if m.group(3) in types and m.group(4) in types else m.group(0),
        text,
    )


def turned(text):
    out, last = [], 0
    for m in HEAD.finditer(text):
        if m.start() < last:
            continue
        types, behind = parameters(text, m.end())
        line = text.index("\n", behind)
        end = re.compile(r"^[ \t]*\{", re.M).search(text, line)
        stop = line if text[behind:line].endswith("{") else end.start() if end else len(text)
        out += [text[last:behind], clauses(text[behind:stop], types)]
        last = stop
    text = "".join(out) + text[last:]
    for word in ("was", "became"):
        body = re.sub(r"(?m)^ghost use .*$", "", text)
        if not re.search(r"\b" + word + r"\b", re.sub(r"//[^\n]*", "", body)):
            text = re.sub(r"(?m)^(ghost use .*Slices\.\{.*?)\b" + word + r"\b(, )?", r"\1", text)
            text = re.sub(r"(?m)^(ghost use .*Slices\.\{.*?), \}", r"\1}", text)
            text = re.sub(r"(?m)^ghost use .*Slices\.\{\};\n", "", text)
    return text


def main():
    for path in sorted(glob.glob("crates/*/src/**/*.rt", recursive=True)):
        with open(path, encoding="utf-8") as f:
            text = f.read()
        new = turned(text)
        if new != text:
            with open(path, "w", encoding="utf-8") as f:
                f.write(new)
            print(path)


if __name__ == "__main__":
    main()
