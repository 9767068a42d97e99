#!/usr/bin/env python3
"""Brings the repository's own definitions, fields, constructors and lemmas to snake case.

Run once, at the top, on what port.py of the kit left. A name is turned where a line of specs/ or proofs/ declares
it, or where an import gives it that name with `as`. Types and modules keep their capitals; functions of src/, exported
names and strings keep their names. Comments follow the code, since they speak of it.
"""
import glob
import re

FILES = sorted(
    glob.glob("crates/*/specs/**/*.antt", recursive=True)
    + glob.glob("crates/*/proofs/**/*.antt", recursive=True)
    + glob.glob("crates/*/src/**/*.rt", recursive=True)
)
TOKEN = re.compile(r"[A-Za-z_◌ℕ][\w◌'\-≤≢]*")
DECLARED = re.compile(r"^\s*(?:(?:pub|abbrev|unfoldable|record|data)\s+)*([^\s:(){};,]+)\s+:\s")
ALIAS = re.compile(r"\bas ([a-z]\w*)")
# a lemma that would have its function's name
LEMMAS = {"array_back": "array_back_lem"}


def snake(name):
    """The name in snake case, with the library's word for getD."""
    name = name.replace("getD", "get_or")
    return re.sub(r"(?<=[a-z0-9])([A-Z])(?=[a-z0-9]|$|-|_)", lambda m: "_" + m.group(1).lower(), name)


def turned():
    """Each old name that is declared or given in an import, with its new one."""
    found = dict(LEMMAS)
    for path in FILES:
        for line in open(path, encoding="utf-8"):
            names = ALIAS.findall(line)
            if path.endswith(".antt"):
                names += DECLARED.findall(line)
            for name in names:
                if name[0].islower() and snake(name) != name:
                    found[name] = snake(name)
    return found


def main():
    names = turned()
    for path in FILES:
        text = open(path, encoding="utf-8").read()
        after = TOKEN.sub(lambda m: names.get(m.group(0), m.group(0)), text)
        if after != text:
            with open(path, "w", encoding="utf-8") as out:
                out.write(after)
    for old in sorted(names):
        print(old, names[old])


if __name__ == "__main__":
    main()
