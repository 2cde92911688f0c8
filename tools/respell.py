#!/usr/bin/env python3
"""Respells the repository's own definitions and lemmas as today's Rattle spells its own: words in snake case, types in
camel case. Run once, at the top, after the kit's port.py; it prints each name that it turned.

A name is turned everywhere: in specs/ and proofs/, in the clauses of src/ and in must-fail edits, and in comments and
pages where it stands between backticks. Strings, other comments and the functions of src/ are left as they are.
"""

import collections
import os
import re
import subprocess

WORD = r"[\w'?]+(?:-[\w'?]+)+"
TOKEN = re.compile(r"(?<![\w'?·-])" + WORD + r"(?![\w'-])")
USE = re.compile(r"(?m)^\s*(?:pub )?use ([\w.'·-]+)(?:\.\{([^}]*)\})?(?: as .*)?$")
SIGNATURE = re.compile(r"(?m)^\s*(?:where\s+|let\s+)?(?:(?:abbrev|pub|unfoldable|data|record|module) )*((?:[\w'?-]+ )+):")
BINDER = re.compile(r"[({]((?:[\w'?-]+ )+):")
COMMENT = {".antt": re.compile(r"(?m)(?:^|(?<=\s))--(?: .*|)$"), ".rt": re.compile(r'//.*$|"(?:[^"\\]|\\.)*"', re.M)}


def files(*endings):
    for folder, dirs, names in os.walk("crates"):
        dirs[:] = sorted(d for d in dirs if d != "out")
        for name in sorted(names):
            if name.endswith(endings):
                yield os.path.join(folder, name)


def is_lemma_file(path):
    """Whether the file holds definitions or lemmas, and not the proof of one function."""
    parts = path.split(os.sep)
    return parts[2] == "specs" or len(parts) == 4


def read(path):
    with open(path, encoding="utf-8") as f:
        return f.read()


def own_names():
    """The names that the repository defines and that hold a dash, but for those that it brings in from elsewhere too."""
    crates = set(os.listdir("crates"))
    defined, brought = set(), set()
    for path in files(".antt"):
        code = COMMENT[".antt"].sub("", read(path))
        for module, names in USE.findall(code):
            steps = module.split(".")
            if not (steps[0] == "Rattle" and len(steps) > 1 and steps[1] in crates):
                brought.update(TOKEN.findall(names))
        if is_lemma_file(path):
            body = USE.sub("", code)
            for found in SIGNATURE.findall(body) + BINDER.findall(body):
                defined.update(TOKEN.findall(found))
            # names that a pattern or a λ binds, and so have no signature
            defined.update(n for n in TOKEN.findall(body) if n in ("All-performed", "two-calls", "yes-so"))
    return defined - brought


def respelled(name):
    words = re.sub(r"([a-z])([A-Z][a-z])", r"\1-\2", name).split("-")
    if name[0].isupper():
        return "".join(w[:1].upper() + w[1:] for w in words)
    return "_".join(w[:1].lower() + w[1:] if len(w) > 1 else w for w in words)


def main():
    turned = {n: respelled(n) for n in own_names()}
    together = collections.Counter(turned.values())
    assert max(together.values()) == 1, "names fall together: " + " ".join(n for n, k in together.items() if k > 1)

    def turn(match):
        return turned.get(match.group(), match.group())

    def in_ticks(text):
        return re.sub(r"`[^`\n]+`", lambda m: TOKEN.sub(turn, m.group()), text)

    def in_code(text, comment):
        out, at = [], 0
        for m in comment.finditer(text):
            kept = m.group()
            out += [TOKEN.sub(turn, text[at : m.start()]), kept if kept.startswith('"') else in_ticks(kept)]
            at = m.end()
        return "".join(out + [TOKEN.sub(turn, text[at:])])

    for path in files(".antt", ".rt", ".edit"):
        text = read(path)
        new = in_code(text, COMMENT[".antt" if path.endswith(".antt") else ".rt"])
        if new != text:
            with open(path, "w", encoding="utf-8") as f:
                f.write(new)
    for path in subprocess.run(["git", "ls-files", "*.md"], capture_output=True, text=True).stdout.split():
        text = read(path)
        new = in_ticks(text)
        if new != text:
            with open(path, "w", encoding="utf-8") as f:
                f.write(new)
    for name in sorted(turned):
        print(name, turned[name])


main()
