#!/usr/bin/env python3
"""Brings the repository's own definitions and lemmas to one spelling: values and lemmas in snake case, types and theorems in camel case.

usage: python3 tools/respell.py [--list] [ROOT]

Run once, after the kit's port.py, at the top of the repository. Names of the source (src/), of the library, and of goals keep their spelling.
"""

import os
import re
import sys

WORD = r"[A-Za-z0-9_'₀-₉\-]+"
TOKEN = re.compile(r"(?<![A-Za-z0-9_'₀-₉\-·])(" + WORD + r")(?![A-Za-z0-9_'₀-₉\-·])")
SIGNED = re.compile(r"^\s*(?:(?:pub|abbrev|unfoldable)\s+)*(" + WORD + r")\s*:(?!\s*goal\.)")
DECLARED = re.compile(r"^\s*(?:(?:pub|abbrev)\s+)*(?:data|record)\s+(?:pub\s+)?(" + WORD + r")\b")
# Where two names would fall together, or one with a name of the source in the same file.
APART = {
    "as-ty": "as_ty_holds",
    "badByte": "first_bad_byte",
    "builtIn": "built_in_list",
    "head_at": "head_at_holds",
    "is-of": "is_of_holds",
    "leaf-head": "leaf_head_cut",
    "letterOf": "letter_of_kind",
    "of-type": "type_held",
    "of_row": "row_held",
    "one-gives": "one_gives_holds",
    "plainNames": "plain_name_list",
    "record_of": "record_calls",
    "row-of": "row_of_holds",
    "same-sort": "same_sort_holds",
    "shown-at": "shown_at_holds",
    "sort-at": "sort_at_known",
    "sortOf": "sort_in",
    "taken-by": "taken_by_holds",
    "with-form": "with_form_left",
}
GOALS = re.compile(r"(\bgoal\." + WORD + r"|\bgiven\." + WORD + r"|^use Rattle\.[^{]*\.(?:Goals|Given)\.\{[^}]*\})", re.M)


def files(root):
    for folder, dirs, names in os.walk(os.path.join(root, "crates")):
        dirs[:] = sorted(d for d in dirs if d != "out")
        for name in sorted(names):
            yield os.path.join(folder, name)


def read(path):
    with open(path, encoding="utf-8") as f:
        return f.read()


def snake(name):
    name = re.sub(r"([a-z0-9])([A-Z])", r"\1_\2", name).replace("-", "_")
    return name.lower() if not name.isupper() else name


def camel(name):
    return "".join(part[:1].upper() + part[1:] for part in name.split("-"))


def spelled(name):
    if name in APART:
        return APART[name]
    return camel(name) if name[0].isupper() else snake(name)


def own_names(root):
    """The names that the repository's .antt files define, but for the answers to goals."""
    defined, answers = {}, set()
    for path in files(root):
        if not path.endswith(".antt"):
            continue
        for line in read(path).split("\n"):
            m = re.match(r"^\s*(?:(?:pub|abbrev)\s+)*(" + WORD + r")\s*:\s*(?:goal|given)\.", line)
            if m:
                answers.add(m.group(1))
                continue
            m = SIGNED.match(line) or DECLARED.match(line)
            if m and m.group(1) not in ("let", "use", "mod", "record", "data", "pub"):
                defined.setdefault(m.group(1), []).append(path)
    return {n: ps for n, ps in defined.items() if spelled(n) != n and re.match(r"[A-Za-z]", n)}, answers


def turned(text, names):
    """The text with each name respelled; what a goal is called stays."""
    parts = GOALS.split(text)
    return "".join(p if GOALS.fullmatch(p) else TOKEN.sub(lambda m: names.get(m.group(1), m.group(1)), p) for p in parts)


def main():
    args = [a for a in sys.argv[1:] if a != "--list"]
    root = args[0] if args else "."
    defined, answers = own_names(root)
    names = {n: spelled(n) for n in defined}
    if "--list" in sys.argv:
        for n in sorted(names):
            print(n, names[n], len(defined[n]), "ANSWER" if n in answers else "")
        return
    for path in files(root):
        if path.endswith((".antt", ".rt")):
            old = read(path)
            new = turned(old, names)
            if new != old:
                with open(path, "w", encoding="utf-8") as f:
                    f.write(new)


main()
