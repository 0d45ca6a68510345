#!/usr/bin/env python3
"""Spells the project's own names anew, by names.tsv beside this file: a row is the old spelling, a tab, the new one.

usage: tools/spell_names.py [--check]      at the top of the checkout

Turns whole words of the texts of specs/ and proofs/, of the clauses in src/, of the must-fail edits, and of README.md and docs/*.md.
In prose (comments, pages) a spelling with a dash turns only between backticks or quotes, since it may be plain English there.
Strings stay. It is run once: some old spellings are new ones of other names.
"""
import os
import re
import sys

HERE = os.path.dirname(os.path.realpath(__file__))
WORD = re.compile(r'[^\s(){}.;,@"«»\[\]`]+')
COMMENT = re.compile(r"(?<!\S)//[^\n]*")
REMARK = re.compile(r"(?<!\S)--[^\n]*")
# names that a text of Rust's has under the same spelling
RUST_HAS = {"in_use", "kept_if", "live_below", "small_plain", "with_rows"}


def table():
    with open(os.path.join(HERE, "names.tsv"), encoding="utf-8") as f:
        return dict(line.rstrip("\n").split("\t") for line in f if line.strip())


def words(text, names):
    return WORD.sub(lambda m: names.get(m[0], m[0]), text)


def quoted(text, names):
    """Strings stay."""
    return "".join(part if i % 2 else words(part, names) for i, part in enumerate(re.split(r'("(?:[^"\\\n]|\\.)*")', text)))


def page(text, names):
    """Prose: names in camel case anywhere, the others between backticks."""
    plain = {k: v for k, v in names.items() if "-" not in k and k not in RUST_HAS}
    out = []
    for i, part in enumerate(re.split(r"(`[^`\n]+`|(?<!\w)'[^'\n ]+'(?!\w))", text)):
        out.append(words(part, names if i % 2 else plain))
    return "".join(out)


def code(text, names, comment):
    out, at = [], 0
    for m in comment.finditer(text):
        out += [quoted(text[at : m.start()], names), page(m[0], names)]
        at = m.end()
    return "".join(out) + quoted(text[at:], names)


def source(text, names):
    return code(text, {k: v for k, v in names.items() if k not in RUST_HAS}, COMMENT)


def antt(text, names):
    return code(text, names, REMARK)


def edit(text, names):
    out, of_source = [], False
    for line in text.split("\n"):
        if line.startswith("file: "):
            of_source = line.strip().endswith(".rt")
        elif line.startswith(("old:", "new:")):
            line = line[:4] + (source if of_source else antt)(line[4:], names)
        out.append(line)
    return "\n".join(out)


def main(check):
    names, changed = table(), []
    for folder, dirs, files in os.walk("."):
        dirs[:] = sorted(d for d in dirs if d not in (".git", "out", "target", "tools"))
        for name in sorted(files):
            path = os.path.join(folder, name)
            turn = {".antt": antt, ".rt": source, ".edit": edit, ".md": page}.get(os.path.splitext(name)[1])
            if not turn or name == "PORT.md":
                continue
            with open(path, encoding="utf-8") as f:
                text = f.read()
            new = turn(text, names)
            if new != text:
                changed.append(path)
                if not check:
                    with open(path, "w", encoding="utf-8") as f:
                        f.write(new)
    print(f"{len(changed)} files {'would change' if check else 'changed'}")
    return bool(check and changed)


if __name__ == "__main__":
    raise SystemExit(main("--check" in sys.argv[1:]))
