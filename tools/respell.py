#!/usr/bin/env python3
"""Brings the repository's own definitions, lemmas and proof labels to the spelling of today's Rattle, after port.py has run.

usage: python3 tools/respell.py [ROOT]

respell.tsv beside this script has a row for each name: old, a tab, new. Words and fields are in snake case, types in camel case; a dash stays in a lemma's name
where it joins two defined words. Whole words alone turn, in .antt files and in the ghost text of .rt files (no Rust name is spelled as a row is); comments of .rt
files and strings stay. In proof files the labels that Rattle makes of the source (as overflow_add-x, in_ok-x, a function's or a variable's own spelling) follow.
A second run changes nothing more.
"""
import os
import re
import sys

HERE = os.path.dirname(os.path.realpath(__file__))
WORD = re.compile(r"[^\s(){}\[\].;,@\"«»]+")
MADE = ("goal", "c", "l", "w", "given")
QUIET = re.compile(r'"(?:[^"\\\n]|\\.)*"|(?<![^\s(){};,])//[^\n]*')
SHELL = re.compile(r"[a-z][a-z0-9]*(?:_[a-z0-9]+)+")


def table():
    rows = {}
    with open(os.path.join(HERE, "respell.tsv"), encoding="utf-8") as f:
        for line in f:
            old, new = line.rstrip("\n").split("\t")
            rows[old] = new
    return rows


def files(root, ending):
    for folder, dirs, names in os.walk(os.path.join(root, "crates")):
        dirs[:] = sorted(d for d in dirs if d not in ("out", ".git"))
        for name in sorted(names):
            if name.endswith(ending):
                yield os.path.join(folder, name)


def respelled(text, rows, made):
    """The text with each whole word that is a row turned, but for labels behind the heads of made."""
    out, end = [], 0
    for m in WORD.finditer(text):
        word = m.group()
        new = rows.get(word)
        if new is None:
            continue
        before = text[: m.start()]
        if made and before.endswith(tuple(h + "." for h in MADE)) and re.search(r"(?:^|[^\w.'-])(?:" + "|".join(MADE) + r")\.$", before[-12:]):
            continue
        out.append(text[end : m.start()])
        out.append(new)
        end = m.end()
    return "".join(out) + text[end:]


def ghost(text, rows):
    """A .rt file: strings and comments stay."""
    out, end = [], 0
    for m in QUIET.finditer(text):
        out.append(respelled(text[end : m.start()], rows, False))
        out.append(m.group())
        end = m.end()
    return "".join(out) + respelled(text[end:], rows, False)


def spellings(root):
    """For each crate, its source's names with underscores, by their parts; the longest first."""
    all_names = {}
    for path in files(root, ".rt"):
        crate = os.path.relpath(path, os.path.join(root, "crates")).split(os.sep)[0]
        with open(path, encoding="utf-8") as f:
            all_names.setdefault(crate, set()).update(SHELL.findall(f.read()))
    return {c: sorted((tuple(n.split("_")) for n in names), key=lambda p: (-len(p), p)) for c, names in all_names.items()}


def label(word, names):
    """A label's parts, joined again as the source spells them."""
    word = re.sub(r"^(overflow|nonzero|bounds|slice|offset)-(add|sub|mul|shl|shr|cast|step|div|rem|bounds)(?=-|$)", r"\1_\2", word)
    word = re.sub(r"^in-(ok|err|default)(?=-|$)", r"in_\1", word)
    word = re.sub(r"-in-(ok|err|default)(?=-|$)", r"-in_\1", word)
    parts, out, i = word.split("-"), [], 0
    while i < len(parts):
        for name in names:
            if len(name) > 1 and tuple(parts[i : i + len(name)]) == name:
                out.append("_".join(name))
                i += len(name)
                break
        else:
            out.append(parts[i])
            i += 1
    return "-".join(out)


def labelled(text, names, own):
    """A proof file: labels are the names of its goals and what stands behind c., l., w. and goal."""

    def turn(m):
        return m.group(1) + label(m.group(2), names)

    text = re.sub(r"((?<![\w.'-])(?:goal|c|l|w)\.)([\w'-]+)", turn, text)
    heads = re.findall(r"^(?:abbrev )?(?:pub )([\w'-]+) : goal\.", text, re.M)
    for head in sorted(set(heads), key=len, reverse=True):
        new = label(head, names)
        if new != head:
            text = re.sub(r"(?<![\w.'-])" + re.escape(head) + r"(?![\w'-])", new, text)
    return text


def main(argv):
    root = argv[0] if argv else "."
    rows = table()
    names = spellings(root)
    for path in list(files(root, ".antt")) + list(files(root, ".rt")):
        with open(path, encoding="utf-8") as f:
            text = f.read()
        if path.endswith(".rt"):
            new = ghost(text, rows)
        else:
            answers = bool(re.search(r"/proofs/.*/(Answers|Invariants)\.antt$", path))
            new = respelled(text, rows, answers)
            if answers:
                crate = os.path.relpath(path, os.path.join(root, "crates")).split(os.sep)[0]
                new = labelled(new, names.get(crate, []), rows)
        if new != text:
            with open(path, "w", encoding="utf-8") as f:
                f.write(new)
    return 0


if __name__ == "__main__":
    raise SystemExit(main(sys.argv[1:]))
