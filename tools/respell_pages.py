#!/usr/bin/env python3
"""respell_pages.py: brings the names that README and the pages of docs/ and tests/ have between backquotes to the spelling of the sources.

Run at the top of the repository, after the sources were respelled, and again after any later renaming. A name, or the last part of one with dots, that stands
nowhere in crates/ and whose spelling in snake case does, is replaced by that. It prints each page with what it replaced, and `left` for each name that has no such
spelling: those are of definitions that are gone (pages on earlier landings name some). Lines that become too long are shown by tests/documents.sh."""
import glob
import os
import re

words = set()
for at, folders, files in os.walk("crates"):
    folders[:] = [it for it in folders if it != "out"]
    for name in files:
        if name.endswith((".antt", ".rt")):
            with open(f"{at}/{name}", encoding="utf-8") as it:
                words |= set(re.findall(r"[^\s(){}\[\];.,:@`\"\\|]+", it.read()))


def snake(name):
    return re.sub(r"([a-z0-9])([A-Z])", lambda m: f"{m[1]}_{m[2].lower()}", name).replace("-", "_")


for page in ["README.md", "tests/README.md", *sorted(glob.glob("docs/*.md")), *sorted(glob.glob("docs/landings/*.md"))]:
    with open(page, encoding="utf-8") as it:
        text = it.read()
    done = {}

    def replaced(found):
        token = found[1]
        head, dot, last = token.rpartition(".")
        if not re.fullmatch(r"[A-Za-z_0-9.'→?-]+", token) or not re.match("[a-z]", last) or last in words or snake(last) == last:
            return found[0]
        if snake(last) not in words:
            print(f"left: {page}: {token}")
            return found[0]
        done[token] = head + dot + snake(last)
        return f"`{done[token]}`"

    made = re.sub(r"`([^`\n]+)`", replaced, text)
    if done:
        print(f"{page}: {done}")
        with open(page, "w", encoding="utf-8") as it:
            it.write(made)
