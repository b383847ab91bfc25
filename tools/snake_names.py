#!/usr/bin/env python3
"""Turns the names of this repository's definitions and lemmas to snake case, once, after the spelling of an older Rattle was turned.

usage: python3 tools/snake_names.py        at the top of the repository

A name with a dash is turned where it is declared in specs/, in proofs/*.antt or in a clause, and wherever it is used: in those files, in src/, in
proofs of functions and in must-fail edits. Names of the library keep their dashes, and so do the names that a function's own proof file declares,
since Rattle makes those.
"""
import os
import re
import sys

NAME = re.compile(r"(?<![\w'₀-₉ℤℕ*+→◌-])[^\W\d][\w'₀-₉]*(?:-[\w'₀-₉*+→ℤ]+)+(?![\w'-])")
IMPORT = re.compile(r"use ([\w.'+-]+)\.\{([^}]*)\}")


def files():
    for folder, folders, names in os.walk("crates"):
        folders[:] = sorted(f for f in folders if f != "out")
        for name in sorted(names):
            if name.endswith((".antt", ".rt", ".edit")):
                yield os.path.join(folder, name)


def is_function_proof(path):
    parts = path.split(os.sep)
    return parts[2] == "proofs" and len(parts) > 4


def code_and_comment(path, line):
    """The line in pieces that are code, strings and comments."""
    mark = r"//" if path.endswith(".rt") else r"(?:(?<=\s)|^)--(?=\s|$)"
    if path.endswith(".edit"):
        if not re.match(r"(old|new): ", line):
            return [("comment", line)]
        mark = r"(?!)"
    pieces, rest = [], line
    while rest:
        found = re.search(r"b'[^']'|" + r'"(?:[^"\\]|\\.)*"|' + mark, rest)
        if not found:
            pieces.append(("code", rest))
            break
        pieces.append(("code", rest[: found.start()]))
        if found.group()[-1] in "\"'":
            pieces.append(("string", found.group()))
            rest = rest[found.end() :]
        else:
            pieces.append(("comment", rest[found.start() :]))
            break
    return pieces


def main():
    texts = {path: open(path, encoding="utf-8").read() for path in files()}
    library = set()
    for path, text in texts.items():
        for module, names in IMPORT.findall(text):
            if not re.match(r"Rattle\.(?!std\.)", module):
                for name in names.split(","):
                    library.update(word.strip() for word in name.split(" as "))
    own = set()
    for path, text in texts.items():
        if path.endswith(".edit") or is_function_proof(path):
            continue
        for line in text.splitlines():
            for kind, piece in code_and_comment(path, line):
                if kind == "code":
                    own.update(NAME.findall(piece))
    own -= library
    for path, text in texts.items():
        kept = set()
        if is_function_proof(path):
            kept = set(re.findall(r"(?m)^(?:abbrev )?(?:pub )?([^\W\d][\w'-]*) :", text))

        def turned(found):
            name = found.group()
            return name.replace("-", "_") if name in own and name not in kept else name

        lines = []
        for line in text.split("\n"):
            pieces = []
            for kind, piece in code_and_comment(path, line):
                if kind == "code":
                    piece = NAME.sub(turned, piece)
                elif kind == "comment":
                    piece = re.sub(r"`[^`]*`", lambda quoted: NAME.sub(turned, quoted.group()), piece)
                pieces.append(piece)
            lines.append("".join(pieces))
        after = "\n".join(lines)
        if after != text:
            with open(path, "w", encoding="utf-8") as f:
                f.write(after)
    print(f"{len(own)} names turned")
    return 0


if __name__ == "__main__":
    sys.exit(main())
