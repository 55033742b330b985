#!/usr/bin/env python3
"""Brings the names of this repository's own definitions, fields and lemmas to the library's spelling.

Words are in snake case, also where a dash or a capital joined them; a dash stays where it joins the names of two
definitions, as in `laid-laid`. Names that say a fact (they end in a type) are in upper camel case. Only names that some
specs/ or proofs/ file declares are turned: the names of src/, of the library and of goals stay, and so do strings.

usage: python3 tools/respell.py [--list]    at the top of the repository, once, after the library's own script"""
import os
import re
import sys

NAME = re.compile(r"[A-Za-z_][A-Za-z0-9_'-]*")
DECLARED = re.compile(
    r"^(\s*)((?:abbrev |unfoldable |pub |record |data )*)([A-Za-z_][A-Za-z0-9_'-]*)\s*((?:[({][^(){}]*(?:\([^()]*\)[^(){}]*)*[)}]\s*)*):\s*(.*)$"
)

# Lemmas that are named after the definitions that they join.
JOINED = {
    "laid-laid", "put_mid-laid", "length-encode", "length-joined", "joined-append", "spelled-append", "over-laid",
    "length-laid", "length-words",
}

# New names where the plain respelling would be the name of something else in the same place.
OTHER = {
    "encodedStands": "EncodedStands",
    "numbersStand": "NumbersStand",
    "after_items": "after_items_lem",
    "bits-at": "bits_at_lem",
    "drop-ink": "drop_ink_lem",
    "encoded-end": "encoded_end_lem",
    "lawful-area": "lawful_area_lem",
    "one_byte": "one_byte_lem",
    "or-none": "or_none_lem",
    "real-date": "real_date_lem",
    "real-time": "real_time_lem",
    "take-ink": "take_ink_lem",
    "text-from": "text_from_lem",
}


def respelled(name):
    """The name in snake case."""
    if name in OTHER:
        return OTHER[name]
    if not name[0].islower():
        return name
    snake = re.sub(r"(?<=[a-z0-9])([A-Z])", lambda m: "_" + m[1].lower(), name)
    return snake if snake in JOINED else snake.replace("-", "_")


def antt_files(root):
    for folder, _, files in os.walk(os.path.join(root, "crates")):
        for file in sorted(files):
            if file.endswith((".antt", ".rt")) and "/out/" not in folder + "/":
                yield os.path.join(folder, file)


def declared(root):
    """The names that specs/ and proofs/ declare, but for answers to goals: those at the margin or in a module, and fields."""
    names, fields = set(), set()
    for path in antt_files(root):
        with open(path, encoding="utf-8") as file:
            lines = file.read().split("\n")
        for line in lines:
            if re.match(r"(ghost )?use Rattle\b", line):
                names |= {name for name in re.findall(r" as ([a-z][A-Za-z0-9_'-]*)", line) if name != "goal"}
        if not path.endswith(".antt"):
            continue
        record = False
        for line in lines:
            found = DECLARED.match(line)
            if line.strip() and not line.startswith(" "):
                record = bool(re.match(r"(pub )?record ", line))
            if not found or found[5].startswith("goal.") or found[3] == "goal":
                continue
            names.add(found[3])
            if found[1] and record:
                fields.add(found[3])
    return names, fields


def turned(text, names, fields, rust):
    """The text with each of the names respelled, outside strings and goals."""
    out, at = [], 0
    skip = re.compile(r'"(?:\\.|[^"\\])*"' + (r"|'(?:\\.|[^'\\])'" if rust else ""))
    while at < len(text):
        quoted = skip.match(text, at)
        if quoted:
            out.append(quoted[0])
            at = quoted.end()
            continue
        word = NAME.match(text, at)
        if not word:
            out.append(text[at])
            at += 1
            continue
        name, before = word[0], text[max(0, at - 5):at]
        known = name in (fields if before.endswith(".") and not before.endswith("..") else names)
        out.append(respelled(name) if known and not before.endswith("goal.") else name)
        at = word.end()
    return "".join(out)


def main():
    root = "."
    names, fields = declared(root)
    changed = {n for n in names if respelled(n) != n}
    together = {}
    for name in names:
        together.setdefault(respelled(name), set()).add(name)
    for new, olds in sorted(together.items()):
        if len(olds) > 1:
            print("fall together:", new, "<-", ", ".join(sorted(olds)))
    if "--list" in sys.argv:
        for name in sorted(changed):
            print(name, "->", respelled(name), "(field)" if name in fields else "")
        return
    for path in antt_files(root):
        with open(path, encoding="utf-8") as file:
            text = file.read()
        new = turned(text, changed, changed & fields, path.endswith(".rt"))
        if new != text:
            with open(path, "w", encoding="utf-8") as file:
                file.write(new)
    print(len(changed), "names respelled")


if __name__ == "__main__":
    main()
