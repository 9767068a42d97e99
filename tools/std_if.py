#!/usr/bin/env python3
"""Takes `if◌then◌else◌` from the library in place of the law book's own, which today's gate refuses.

Run once, at the top, after snake_names.py. The library's word has the same two equations.
"""
import os
import re

WORD = "if◌then◌else◌"
OWN = "crates/rules/specs/Lists.antt"
IMPORT = re.compile(r"^((?:ghost )?)use Rattle\.rules\.specs\.Lists\.\{([^}]*)\}(;?)\n", re.M)
PRELUDE = re.compile(r"^(?:ghost )?use Rattle\.std\.specs\.Prelude\.\{([^}]*)\}", re.M)


def turned(text):
    """The text with the word imported from the library, where it was imported from the law book."""
    own = IMPORT.search(text)
    if not own or WORD not in own[2]:
        return text
    rest = [name.strip() for name in own[2].split(",") if name.strip() != WORD]
    line = f"{own[1]}use Rattle.rules.specs.Lists.{{{', '.join(rest)}}}{own[3]}\n" if rest else ""
    text = text[: own.start()] + line + text[own.end() :]
    prelude = PRELUDE.search(text)
    if prelude:
        return text[: prelude.end() - 1] + ", " + WORD + text[prelude.end() - 1 :]
    first = re.search(r"^(?:ghost )?use ", text, re.M)
    return text[: first.start()] + f"{own[1]}use Rattle.std.specs.Prelude.{{{WORD}}}{own[3]}\n" + text[first.start() :]


def main():
    for folder, folders, files in os.walk("crates"):
        folders[:] = [name for name in folders if name != "out"]
        for name in files:
            if name.endswith((".antt", ".rt")):
                path = os.path.join(folder, name)
                text = open(path, encoding="utf-8").read()
                after = turned(text)
                if after != text:
                    with open(path, "w", encoding="utf-8") as out:
                        out.write(after)
    text = open(OWN, encoding="utf-8").read()
    begin = text.index("module _ {A : Type 0} where\n  infixr")
    end = text.index("module _ {A : Type 0} where\n  -- some element")
    text = (text[:begin] + text[end:]).replace("[], ◌∷◌}", f"[], ◌∷◌, {WORD}}}", 1)
    with open(OWN, "w", encoding="utf-8") as out:
        out.write(text)


if __name__ == "__main__":
    main()
