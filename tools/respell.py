#!/usr/bin/env python3
"""Brings the names of this repository's own definitions and lemmas to the spelling of today's Rattle: snake case for all but types and modules, where a dash
joins the names of two definitions.

usage: tools/respell.py [--list] [FOLDER]     once, after port.py, at the top of the repository (or in FOLDER)

It rewrites whole names in crates/: all of .antt files, and of .rt files and must-fail edits what is neither a string nor a comment, and in comments what stands
in backquotes. --list prints the old and new names and writes nothing.
"""

import os
import re
import sys

NAME = re.compile(r"[^\s(){};,.:\"`\[\]&|]+")
DECLARED = re.compile(r"^(\s*)((?:(?:pub|abbrev|unfoldable|record|data)\s+)*)([^\s(){};,.:=λ]+)\s+(?:\([^:]*:.*\)\s*|\{[^:]*:.*\}\s*)*:\s")
# Words of the library that a lemma's name is made of.
LIBRARY = set("length map append take drop replicate replicate_at at not and or add sub mul div mod min max le lt eq zero suc cond ltb leb eqb mem cons nil refl".split())
# Where two names fall together, by the name of a function of src/, of another definition or of the library.
INSTEAD = {}
# A lemma that would have its function's name ends in _lem; these four port.py has respelled.
LEMMAS = ("fresh_on", "header_read", "same_answer", "read_answer")


def files(root):
    for folder, dirs, found in os.walk(os.path.join(root, "crates")):
        dirs[:] = sorted(d for d in dirs if d != "out")
        for f in sorted(found):
            if f.endswith((".antt", ".rt", ".edit")):
                yield os.path.join(folder, f)


def read(path):
    with open(path, encoding="utf-8") as f:
        return f.read()


def declared(texts):
    """The names that are declared, those in specs/, and those of definitions."""
    all_names, in_specs, definitions = set(), set(), set()
    for path, text in texts.items():
        if not path.endswith(".antt"):
            continue
        for line in text.split("\n"):
            m = DECLARED.match(line)
            if m and not line.lstrip().startswith("--"):
                all_names.add(m[3])
                if "/specs/" in path:
                    in_specs.add(m[3])
                    if "unfoldable" in m[2] or "abbrev" in m[2]:
                        definitions.add(m[3])
    return all_names, in_specs, definitions


def snake(name):
    return re.sub(r"(?<=[a-z0-9])([A-Z])(?=[a-z]|$)", lambda m: "_" + m[1].lower(), name)


def is_camel(name):
    return bool(re.match(r"[a-z]", name)) and bool(re.search(r"[a-z0-9][A-Z]", name))


def joined(name, definitions):
    """The name with a dash only between the names of two definitions."""
    parts = name.split("-")
    out = parts[0]
    for i, part in enumerate(parts[1:], 1):
        left, right = "-".join(parts[:i]), "-".join(parts[i:])
        both = (left in definitions or parts[i - 1] in definitions) and (right in definitions or part in definitions)
        out += ("-" if both or re.match(r"[A-Z≡≤<≢+*]", part) or re.match(r"[A-Z]", parts[i - 1]) else "_") + part
    return out


def plan(texts):
    all_names, in_specs, definitions = declared(texts)
    definitions = {snake(d) for d in definitions if "-" not in d} | LIBRARY
    used = set()
    for path, text in texts.items():
        for t in NAME.findall(text):
            used.add(t)
    new = {}
    for name in sorted(all_names):
        head = name.split("-")[0]
        camel = any(is_camel(p) for p in name.split("-"))
        if "-" in name and name not in in_specs and not camel:
            continue
        if not camel and "-" not in name:
            continue
        parts = [snake(p) if is_camel(p) else p for p in name.split("-")]
        to = "-".join(parts)
        if name in in_specs and "-" in name:
            to = joined(to, definitions)
        if to != name:
            new[name] = to
    return new, used


def main(argv):
    listing = "--list" in argv
    argv = [a for a in argv if a != "--list"]
    root = argv[0] if argv else "."
    texts = {p: read(p) for p in files(root)}
    new, used = plan(texts)
    for to in {t for n, t in new.items() if is_camel(n)}:
        for name in [n for n, t in new.items() if t == to and not is_camel(n)]:
            new[name] = to + "_lem"
    new.update({n: n + "_lem" for n in LEMMAS})
    new.update({a: b for a, b in INSTEAD.items() if a in new or a in used})
    for path, text in texts.items():
        words = set(NAME.findall(re.sub(r"(--|//)[^\n]*", "", text)))
        for name in sorted(words & set(new)):
            if (new[name] in words and new[name] not in new) or any(new[o] == new[name] and o != name for o in words & set(new)):
                print(f"falls together: {path}: {name} is now {new[name]}")
    if listing:
        for name, to in sorted(new.items()):
            print(f"{name} {to}")
        return 0
    for path, text in texts.items():
        turned = turn(path, text, new)
        if turned != text:
            with open(path, "w", encoding="utf-8") as f:
                f.write(turned)
    return 0


def names(text, new):
    return NAME.sub(lambda m: new.get(m[0], m[0]), text)


def turn(path, text, new):
    if path.endswith(".antt"):
        pieces = re.split(r"(--[^\n]*)", text)
    else:
        pieces = re.split(r'(//[^\n]*|b?"(?:[^"\\\n]|\\.)*"|^#[^\n]*)', text, flags=re.M)
    for i, piece in enumerate(pieces):
        if i % 2 == 0:
            pieces[i] = names(piece, new)
        elif not piece.startswith(('"', 'b"')):
            pieces[i] = re.sub(r"`[^`\n]*`", lambda m: names(m[0], new), piece)
    return "".join(pieces)


if __name__ == "__main__":
    raise SystemExit(main(sys.argv[1:]))
