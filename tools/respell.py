#!/usr/bin/env python3
"""Brings this repository's own names to today's spelling, after the kit's port.py: definitions, lemmas and variables of the
proof language that stood in lower camel case stand in snake case, a fact in upper camel case, and the theorem of a function f is f_spec.

Run once, at the top: tools/respell.py. It goes over the crates' .antt and .rt files, the must-fail edits, and the pages that name definitions.
Code's own names are in snake case already and are not touched. Where a lemma would get its function's name, it gets _lem.
"""
import os
import re

TOKEN = re.compile(r"(?<![\w'₀-₉])[A-Za-z_][\w'₀-₉-]*")
FACTS = {"markBytes": "MarkBytes", "startsBy": "StartsBy"}
ODD = {"rulesBut15": "rules_but_15", "describedBut15": "described_but_15", "in32Bits": "in_32_bits"}
LEMMAS = {
    "salvage_laws": ["plain_row"],
    "block_laws": ["plain_row"],
    "slow_places": ["plain_row"],
    "any_building_laws": ["one_more"],
    "fill": ["flag_by"],
    "utf8": ["eq_bool"],
    "slow": ["shown_of"],
    "plain": ["same_bytes", "same_int"],
    "sheet_writer": ["laid_out"],
    "printing": ["next_row"],
    "used": ["entry_row"],
    "repaired_keys": ["entry_row"],
    "building_laws": ["look_up"],
}


def files(top, *endings):
    for folder, inner, names in os.walk(top):
        inner[:] = sorted(d for d in inner if d not in ("out", "target", ".git"))
        for name in sorted(names):
            if name.endswith(endings):
                yield os.path.join(folder, name)


def read(path):
    with open(path, encoding="utf-8") as f:
        return f.read()


def write(path, text):
    with open(path, "w", encoding="utf-8") as f:
        f.write(text)


def is_camel(part):
    return re.match(r"[a-z]", part) and re.search(r"[A-Z]", part)


def snake(part):
    if part in FACTS:
        return FACTS[part]
    if part in ODD:
        return ODD[part]
    part = re.sub(r"([a-z0-9])([A-Z])", r"\1_\2", part)
    return re.sub(r"([A-Z])([A-Z][a-z])", r"\1_\2", part).lower()


def turned(name):
    return "-".join(snake(p) if is_camel(p) else p for p in name.split("-"))


def main():
    code = list(files("crates", ".antt", ".rt"))
    known = {}
    for path in code:
        for name in TOKEN.findall(read(path)):
            if turned(name) != name:
                known[name] = turned(name)
                for part in name.split("-"):
                    if is_camel(part):
                        known[part] = snake(part)

    def lemmas(path, text):
        for name in LEMMAS.get(path.split(os.sep)[1], []) if "/proofs/" in path else []:
            text = re.sub(r"(?<![\w.:'-])" + name + r"(?![\w.'-])", name + "_lem", text)
        return text

    def respelled(text, all_names=False):
        return TOKEN.sub(lambda m: known.get(m.group(0), turned(m.group(0)) if all_names else m.group(0)), text)

    for path in code:
        text = read(path)
        new = respelled(lemmas(path, text))
        if path.endswith("/Proof.antt"):
            function = os.path.basename(os.path.dirname(path))
            named = re.search(r"^pub ([\w'-]+)[-_]spec :", new, re.M)
            if named:
                old = named.group(0)[4:-2]
                new = re.sub(r"(?<![\w.'-])" + re.escape(old) + r"(?![\w'-])", function + "_spec", new)
        if new != text:
            write(path, new)
    pages = list(files("crates", ".edit")) + list(files("docs", ".md")) + ["README.md", "samples/README.md"]
    for path in pages:
        text = read(path)
        new = respelled(text, all_names=True)  # names that port.py turned in the code stand there in camel case still
        if new != text:
            write(path, new)


main()
