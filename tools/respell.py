#!/usr/bin/env python3
"""Brings the names of this repository's definitions and lemmas to snake case.

usage: tools/respell.py        at the top, once, behind port.py and before any edit by hand

port.py respells a name only where a library has the same spelling. This turns the others: `receivedMeaning` and `code-room` become
`received_meaning` and `code_room`, in specs/, in proofs/, and in the clauses, imports and comments of src/ and must-fail/. Types, modules,
functions of src/, strings, inputs and outputs keep their names. Where a definition and a lemma would get one name, the lemma gets `_lem`
behind it. It prints each such pair, and says where a new name was there before.
"""

import glob
import re
import sys

NAME = r"[A-Za-z_ℕ⊎μλ₀-₉'][\w'₀-₉]*(?:-[\w'₀-₉+*^≤<≡]+)*"
# Comments, strings and characters, then names; a number in hexadecimal is no name.
TOKEN = re.compile(r'--[^\n]*|//[^\n]*|"(?:[^"\\\n]|\\(?:.|\n))*"|b?\'(?:[^\'\\\n]|\\x..|\\.)\'|0x[0-9a-fA-F_]+|(?<![\w\'])' + NAME)
CAMEL = re.compile(r"^[a-z][a-z0-9]*(?:[A-Z0-9][a-z0-9]*)*[A-Z]")


def snake(name):
    return re.sub(r"(?<=[a-z0-9])([A-Z])", lambda m: "_" + m.group(1).lower(), name).replace("-", "_")


def files(pattern):
    return sorted(glob.glob(pattern, recursive=True))


def code(text):
    """The names of a file's text, without those of comments and strings."""
    for m in TOKEN.finditer(text):
        word = m.group()
        if not word.startswith(("--", "//", '"', "0x", "'", "b'")):
            yield word


def edited(text, respelled):
    """An edit's lines for a definition get the form that port.py gives specs/: paths, tight fields and the library's word. Others only names."""
    lines, antt = [], False
    for line in text.split("\n"):
        if line.startswith("file:"):
            antt = line.endswith(".antt")
        if line.startswith(("old:", "new:")):
            line = line.replace("getD", "get_or")
            line = line[:4] + respelled(line[4:], True)
            if antt:
                line = re.sub(r"Rattle·(\w+)·specs\.specs\.", r"Rattle.\1.specs.", line).replace("Rattle·", "Rattle.")
                line = re.sub(r"\((\w+)((?: \.[\w«»]+)+)\)", lambda m: m.group(1) + m.group(2).replace(" ", ""), line)
                line = re.sub(r"(?<=[\w»)]) (?=\.[\w«])", "", line)
        lines.append(line)
    return "\n".join(lines)


def main():
    crates = {line.split(":")[0].split()[0] for line in open("crates.txt") if line.strip() and not line.startswith("#")}
    lemmas = files("crates/*/specs/**/*.antt") + files("crates/*/proofs/*.antt")
    every = files("crates/*/specs/**/*.antt") + files("crates/*/proofs/**/*.antt")
    texts = {f: open(f, encoding="utf-8").read() for f in every}

    library = set()
    for text in texts.values():
        for m in re.finditer(r"^use ([^\s{]+)\.\{([^}]*)\}", text, re.M):
            parts = m.group(1).split(".")
            if not (parts[0] == "Rattle" and parts[1] in crates):
                library |= {n.strip().split(" ")[0] for n in m.group(2).split(",")}

    own, before = set(), set()
    for f in lemmas:
        for name in code(texts[f]):
            before.add(name)
            if name in library or name[0].isupper():
                continue
            if "-" in name or CAMEL.match(name):
                own.add(name)
    turned = {}
    for name in sorted(own):
        turned[name] = snake(name)
    groups = {}
    for name, to in turned.items():
        groups.setdefault(to, []).append(name)
    for to, names in sorted(groups.items()):
        there = [n for n in names if "-" not in n] + ([to] if to in before and to not in turned else [])
        hyphens = [n for n in names if "-" in n]
        if len(there) > 1 and to not in crates:
            turned[to] = to + "_lem"
            print(f"{to} becomes {to}_lem, beside {', '.join(n for n in there if n != to)}")
        elif len(there) > 1:
            print(f"{', '.join(n for n in there if n != to)} becomes {to}, as a crate is called")
        if there and hyphens or len(hyphens) > 1:
            for n in hyphens:
                turned[n] = to + "_lem"
            print(f"{', '.join(hyphens)} becomes {to}_lem, beside {', '.join(there)}")

    def respelled(text, edit):
        def one(m):
            word = m.group()
            if word.startswith(("--", "//")):
                return re.sub(r"(?<=`)" + NAME + r"(?=`)", lambda n: turned.get(n.group(), n.group()), word)
            if word.startswith(('"', "0x", "'", "b'")):
                return word
            # port.py leaves the edits as they are, so the names that it turned are turned here.
            return turned.get(word, snake(word) if edit and CAMEL.match(word) else word)

        return TOKEN.sub(one, text)

    changed = 0
    for f in every + files("crates/*/src/**/*.rt") + files("crates/*/must-fail/*.edit"):
        text = open(f, encoding="utf-8").read()
        new = edited(text, respelled) if f.endswith(".edit") else respelled(text, False)
        if new != text:
            open(f, "w", encoding="utf-8").write(new)
            changed += 1
    print(f"{len(turned)} names, {changed} files")
    return 0


if __name__ == "__main__":
    sys.exit(main())
