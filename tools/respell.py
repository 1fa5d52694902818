#!/usr/bin/env python3
"""Spells this repository's own definitions and lemmas in snake case, by the table names.tsv beside this file.

usage: tools/respell.py [ROOT]            rewrites crates/ below ROOT (default: the current folder)
       tools/respell.py --table ROOT      prints the table for a tree: each declared name of specs/ and of lemma files, and its new spelling

Run once, after /opt/rattle/port/port.py. A row of names.tsv is an old name, a tab, a new name.
A walk, proofs/F/Proof.antt, names labels that Rattle makes: there a name with a dash behind a dot stays, and so does one that the file declares.
"""

import os
import re
import sys

HERE = os.path.dirname(os.path.realpath(__file__))
TOKEN = re.compile(r"[^\s(){}.;,@\"«»`:⟨⟩\[\]|λ]+")
DEFINES = re.compile(r"^\s*((?:abbrev |pub |unfoldable )*)((?!(?:use|module|data|record|mod|open|let|in) )[^\s(){}.;,@\"«»]+)((?: \{[^{}]*\}| \([^()]*\))*) :(?= |$)")


def files(root, endings):
    for folder, dirs, names in os.walk(os.path.join(root, "crates")):
        dirs[:] = sorted(d for d in dirs if d != "out")
        for n in sorted(names):
            if n.endswith(endings):
                yield os.path.join(folder, n)


def code(text):
    return re.sub(r"(?m)(?<![^\s(){};,])--.*$", "", text)


def declared(text):
    for line in code(text).split("\n"):
        m = DEFINES.match(line)
        if m:
            yield m.group(2)


def snake(name):
    if name[0].isupper():
        return name
    name = re.sub(r"([a-z0-9])([A-Z])", lambda m: m.group(1) + "_" + m.group(2).lower(), name)
    return name.replace("-", "_")


def is_walk(path):
    return os.path.basename(path) == "Proof.antt"


def table(root):
    names = set()
    for p in files(root, ".antt"):
        if not is_walk(p):
            with open(p) as f:
                names.update(declared(f.read()))
    new = {n: snake(n) for n in names}
    at = {}
    for n, s in new.items():
        at.setdefault(s, []).append(n)
    for s, olds in sorted(at.items()):
        if len(olds) > 1:
            print("meets:", s, olds, file=sys.stderr)
    return {n: s for n, s in new.items() if n != s}


def respell(path, text, names):
    own = set(declared(text)) if is_walk(path) else set()
    walk = is_walk(path)

    def word(m):
        w = m.group(0)
        new = names.get(w)
        if new is None:
            return w
        plain = re.fullmatch("[a-z_]+", w)
        if plain and path.endswith(".rt"):
            return w
        if ("-" in w or plain) and walk and (w in own or text[m.start() - 1 : m.start()] == "."):
            return w
        return new

    def in_comment(m):
        # only what no English word looks like
        return word(m) if re.search("[a-z][A-Z]", m.group(0)) or text[m.start() - 1 : m.start()] == "`" else m.group(0)

    done = []
    for line in text.splitlines(keepends=True):
        m = re.search(r"(?<![^\s(){};,])--|//", line)
        cut = m.start() if m else len(line)
        text = line[:cut]
        done.append(TOKEN.sub(word, text))
        text = line[cut:]
        done.append(TOKEN.sub(in_comment, text))
    return "".join(done)


def main(argv):
    if argv[:1] == ["--table"]:
        for n, s in sorted(table(argv[1]).items()):
            print(f"{n}\t{s}")
        return
    root = argv[0] if argv else "."
    with open(os.path.join(HERE, "names.tsv")) as f:
        names = dict(line.rstrip("\n").split("\t") for line in f if line.strip())
    for p in files(root, (".antt", ".rt")):
        with open(p) as f:
            text = f.read()
        new = respell(p, text, names)
        if new != text:
            with open(p, "w") as f:
                f.write(new)


main(sys.argv[1:])
