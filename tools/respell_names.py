#!/usr/bin/env python3
"""Gives the repository's own definitions and lemmas the spelling of rattle-kit-13f.

usage: python3 tools/respell_names.py [TOP]

It is run once, after /opt/rattle/port/port.py: a word with dashes becomes snake case (`greatest-size`, `greatest_size`), and a type or a fact
becomes camel case (`Parts-law`, `PartsLaw`). What counts as own is what a file of specs/ or a lemma file of proofs/ defines, a field or a
parameter that it names included, and that is not also imported from a library. Edits and documents get the names that port.py gave, too. Names that Rattle makes for goals and steps are left alone, as are
functions of src/, strings and comments, but for names in backticks. The table of what was renamed is printed.
"""
import os
import re
import sys

WORD = r"[A-Za-zℕ][\w'ℕ]*(?:-[\w'ℕ]+)*"
DEFINES = re.compile(r"\s*(?:(?:pub|abbrev|unfoldable|data|record)\s+)*(" + WORD + r")\s*(?:\{[^}]*\}\s*)?(?::|\()")
FROM_LIBRARY = re.compile(r"use ((?:Rattle\.std|mathlib|lib|borrow|Prim|logic|denote)[\w.]*)\.\{([^}]*)\}")
BINDS = re.compile(r"[({]((?:" + WORD + r"\s+)*" + WORD + r")\s*:")
RENAMED = re.compile(r"\bas (" + WORD + ")")
TOKEN = re.compile(r"(?<![\w'◌ℕ≤<+*-])" + WORD + r"(?![\w'◌ℕ-])")


def texts(top):
    for folder, dirs, files in os.walk(os.path.join(top, "crates")):
        dirs[:] = sorted(d for d in dirs if d not in ("out", "target"))
        for name in sorted(files):
            if name.endswith((".rt", ".antt", ".edit")):
                yield os.path.join(folder, name)
    for folder in (top, os.path.join(top, "docs")):
        if os.path.isdir(folder):
            for name in sorted(os.listdir(folder)):
                if name.endswith(".md"):
                    yield os.path.join(folder, name)


def code_of(line, path):
    return line.split("--")[0] if path.endswith(".antt") else line


def own_names(all_texts):
    own, library = set(), set()
    for path, text in all_texts.items():
        for found in FROM_LIBRARY.finditer(text):
            library |= {it.strip().split(" as ")[0] for it in found.group(2).split(",")}
        lemma_file = "/specs/" in path or re.search(r"/proofs/[A-Z]\w*\.antt$", path)
        if not path.endswith(".antt") or not lemma_file:
            continue
        for line in text.split("\n"):
            found = DEFINES.match(code_of(line, path))
            if found:
                own.add(found.group(1))
            own |= {it for names in BINDS.findall(code_of(line, path)) for it in names.split()}
        own |= {it for line in text.split("\n") for it in RENAMED.findall(code_of(line, path))}
    return own - library


def turned(name):
    if name[0].isupper():
        return "".join(it[0].upper() + it[1:] for it in name.split("-"))
    return name.replace("-", "_")


def respell(text, path, table, given):
    def word(found):
        name = found.group()
        if name in table:
            return table[name]
        return turned(name) if path.endswith((".md", ".edit")) and "-" in name and turned(name) in given else name

    def outside_backticks(line):
        return TOKEN.sub(word, line)

    def inside_backticks(line):
        return re.sub(r"`[^`]*`", lambda it: TOKEN.sub(word, it.group()), line)

    lines = []
    for line in text.split("\n"):
        if path.endswith(".md"):
            lines.append(inside_backticks(line))
        elif path.endswith(".antt"):
            code, mark, comment = line.partition("--")
            lines.append(outside_backticks(code) + mark + inside_backticks(comment))
        else:
            parts = re.split(r'("(?:[^"\\]|\\.)*"|//.*)', line)
            lines.append("".join(inside_backticks(it) if i % 2 and it.startswith("//") else it if i % 2 else outside_backticks(it) for i, it in enumerate(parts)))
    return "\n".join(lines)


def main(top):
    all_texts = {}
    for path in texts(top):
        with open(path, encoding="utf-8") as file:
            all_texts[path] = file.read()
    own = own_names(all_texts)
    table = {name: turned(name) for name in own if "-" in name}
    given = own - set(table)
    targets = {}
    for name, to in sorted(table.items()):
        if to in targets:
            sys.exit(f"{name} and {targets[to]} fall together as {to}")
        targets[to] = name
    for path, text in all_texts.items():
        new = respell(text, path, table, given)
        if new != text:
            with open(path, "w", encoding="utf-8") as file:
                file.write(new)
    for name, to in sorted(table.items()):
        print(f"{name}\t{to}")


if __name__ == "__main__":
    main(sys.argv[1] if len(sys.argv) > 1 else ".")
