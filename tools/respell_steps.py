#!/usr/bin/env python3
"""Gives the steps and goals that proof files cite the spelling of rattle-kit-13f: a name from the source keeps its underscores.

usage: python3 tools/respell_steps.py [CRATE..]

It is run once in each crate, after tools/respell_names.py: `c.as-slice-lines` becomes `c.as_slice-lines` where the code calls `as_slice`.
Names that a file imports from a library are left alone.
"""
import os
import re
import sys

WORD = r"[A-Za-z][\w']*(?:-[\w']+)+"
TOKEN = re.compile(r"(?<![\w'◌ℕ≤<+*-])" + WORD + r"(?![\w'◌ℕ-])")
FROM_LIBRARY = re.compile(r"use ((?:Rattle\.std|mathlib|lib|borrow|Prim|logic|denote)[\w.]*)\.\{([^}]*)\}")
OF_RATTLE = ["in_ok", "in_err", "in_default", "from_residual", "type_inv", "overflow_add", "overflow_sub", "overflow_mul", "overflow_cast", "slice_bounds", "nonzero_div", "nonzero_rem", "invariant_of", "copy_within", "to_bits", "from_bits"]


def source_words(top):
    words = set(OF_RATTLE)
    for folder, dirs, files in os.walk(os.path.join(top, "crates")):
        dirs[:] = [d for d in dirs if d != "out"]
        for name in files:
            if name.endswith(".rt"):
                with open(os.path.join(folder, name), encoding="utf-8") as file:
                    for line in file:
                        words |= set(re.findall(r"\b[a-z]\w*_\w+", line.split("//")[0]))
    return words


def main(top, crates):
    words = {it.replace("_", "-"): it for it in source_words(top)}
    ordered = sorted(words, key=len, reverse=True)
    joined = re.compile(r"(?<![\w'])(" + "|".join(map(re.escape, ordered)) + r")(?![\w'])")
    for crate in crates or sorted(os.listdir(os.path.join(top, "crates"))):
        for folder, dirs, files in os.walk(os.path.join(top, "crates", crate, "proofs")):
            for name in files:
                if name not in ("Answers.antt", "Invariants.antt", "Proof.antt"):
                    continue
                path = os.path.join(folder, name)
                with open(path, encoding="utf-8") as file:
                    text = file.read()
                library = {it.strip() for found in FROM_LIBRARY.finditer(text) for it in re.split(r",| as ", found.group(2))}

                def word(found):
                    return found.group() if found.group() in library else joined.sub(lambda it: words[it.group(1)], found.group())

                new = TOKEN.sub(word, text)
                if new != text:
                    with open(path, "w", encoding="utf-8") as file:
                        file.write(new)


if __name__ == "__main__":
    main(".", sys.argv[1:])
