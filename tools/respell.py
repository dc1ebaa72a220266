#!/usr/bin/env python3
"""Spells the repository's own definitions and lemmas in snake case, as today's Rattle does: `keyLt` becomes `key_lt`.

usage: tools/respell.py            once, at the top of the repository, right after the kit's port.py

Only names in camel case that begin with a small letter are turned; functions of src/, exported C names, strings and outputs have none. A lemma
or a field that would fall together with a definition of that name gets `_lem` first. Files of specs/, proofs/ and src/ and the must-fail edits
are rewritten in place. A second run changes nothing.
"""

import glob
import re

TOKEN = re.compile(r"--(?: |$)[^\n]*|\"(?:[^\"\\]|\\.)*\"|[^\s(){}.;,@\"«»\[\]\\]+")

# Lemmas and fields whose name a definition takes now; the files that hold something else of that spelling stand beside them.
FALL = {
    "all_words": ("register/proofs/moves/kept/",),
    "at_last": (),
    "at_rest": (),
    "block_in": (),
    "chain_head": (),
    "chain_held": (),
    "copy_done": (),
    "entry_row": (),
    "goes_on": (),
    "has_room": ("drum/proofs/",),
    "is_open": (),
    "key_in": (),
    "last_or": (),
    "last_row": (),
    "leaves_at": (),
    "leaves_of": (),
    "left_by": (),
    "next_row": (),
    "no_room": (),
    "none_is": (),
    "none_left": (),
    "none_made": (),
    "none_of": (),
    "one_more": (),
    "open_done": (),
    "passed_over": (),
    "row_words": (),
    "rows_in": (),
    "same_key": (),
    "split_moves": (),
    "too_large": (),
    "value_on": (),
    "wrong_size": (),
}


def is_camel(word):
    return re.match(r"[a-z]\w*$", word) and re.search(r"[a-z0-9][A-Z]", word)


def snake(word):
    word = word.replace("getD", "get_or")
    word = re.sub(r"([A-Z])([A-Z]+)", lambda m: m.group(1) + m.group(2).lower(), word)
    return re.sub(r"(?<=[a-z0-9])([A-Z])", lambda m: "_" + m.group(1), word).lower()


def turned(name):
    return "-".join(snake(part) if is_camel(part) else part for part in name.split("-"))


def kept_apart(path, text):
    """Lemmas and fields of FALL get their `_lem`; names of functions, as steps of a proof or as modules, stay."""

    def one(m):
        word = m.group(0)
        if word not in FALL or any(part in path for part in FALL[word]):
            return word
        line = text[text.rfind("\n", 0, m.start()) + 1 : m.start()]
        if text[m.end() : m.end() + 1] == "." or (line.startswith("use ") and text[m.start() - 1] == "."):
            return word
        return word + "_lem"

    return TOKEN.sub(one, text)


def spelled(text):
    """Comments and `use` lines too, but for the rules' own letters hD and hI that a comment quotes."""
    return re.sub(r"[^\s(){}.;,@\"«»\[\]\\`:]+", lambda m: turned(m.group(0)), text)


def main():
    antt = sorted(glob.glob("crates/*/specs/**/*.antt", recursive=True) + glob.glob("crates/*/proofs/**/*.antt", recursive=True))
    rest = sorted(glob.glob("crates/*/src/**/*.rt", recursive=True) + glob.glob("crates/*/must-fail/*.edit"))
    read = lambda path: open(path, encoding="utf-8").read()
    if not any(is_camel(part) for f in antt for m in TOKEN.finditer(read(f)) if not m.group(0).startswith("--") for part in m.group(0).split("-")):
        print("respell: nothing to do")
        return
    for path in antt + rest:
        text = read(path)
        new = spelled(kept_apart(path, text) if path.endswith(".antt") else text)
        if new != text:
            with open(path, "w", encoding="utf-8") as f:
                f.write(new)
            print(path)


if __name__ == "__main__":
    main()
