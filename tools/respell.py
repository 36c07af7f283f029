#!/usr/bin/env python3
"""Spells the repository's own definitions and lemmas in snake case, in place. Run at the top, once.

Usage: tools/respell.py        after port.py has turned the language's own spelling

A name is one that a file of specs/ or a file of proofs/ declares, files of one function's proof
aside: a definition, a lemma, a field, a constructor. `yardOf` becomes `yard_of` and `plan-fits`
becomes `plan_fits`. Types and modules keep their names, and so do names of src/, exported names,
strings, inputs and outputs. A definition whose new name a function, a variable or a module of src/
has keeps its old one. Where a lemma and a definition would fall together, the lemma gets `_law`
behind its name.

It also writes the line `#![tactic(auto)]` at the head of each crate's root.
"""

import collections
import glob
import os
import re

ID = r"[^\s(){}.;,@\"«»:]+"
TOKEN = re.compile(r"[^\s(){}.;,@\"«»]+")
RUST_TOKEN = re.compile(r"[A-Za-z_][\w']*(?:-[A-Za-z]\w*)*")


def read(path):
    with open(path, encoding="utf-8") as file:
        return file.read()


def write(path, text):
    if read(path) != text:
        with open(path, "w", encoding="utf-8") as file:
            file.write(text)


def files(pattern):
    return sorted(glob.glob("crates/" + pattern, recursive=True))


def of_one_function(path):
    folder, name = os.path.split(path)
    return name in ("Proof.antt", "Answers.antt", "Invariants.antt") and os.path.basename(folder) != "proofs"


def snake(name):
    words = re.sub(r"(?<=[a-z0-9ℕℤ′'])([A-Z])", lambda m: "_" + m[1].lower(), name)
    return words.replace("-", "_")


def declared(paths):
    names = set()
    for path in paths:
        text = re.sub(r"--.*", "", read(path))
        for m in re.finditer(rf"(?m)^ *(?:abbrev |unfoldable |pub |\| )*({ID})((?: {ID})*) :(?= )", text):
            names |= {m[1], *m[2].split()}
    return names


def fields_of(paths):
    names = set()
    for path in paths:
        text = re.sub(r"--.*", "", read(path))
        for m in re.finditer(r"(?m)^(?:pub )?record .*\n((?: +.*\n|\n)+)", text):
            for f in re.finditer(rf"(?m)^ +(?:pub )?({ID})((?: {ID})*) :(?= )", m[1]):
                names |= {f[1], *f[2].split()}
    return names


def rust_names():
    names = set()
    for path in files("*/src/**/*.rt"):
        text = read(path)
        names |= set(re.findall(r"\b(?:fn|mod|const|static|let|let mut) (\w+)", text))
        names |= set(re.findall(r"(\w+):", text))
    return names


def table():
    paths = [p for p in files("*/specs/**/*.antt") + files("*/proofs/**/*.antt") if not of_one_function(p)]
    names = declared(paths)
    old = {n for n in names if re.match(r"[a-z]", n) and (re.search(r"[A-Z]", n) or "-" in n)}
    rust = rust_names()
    turned, groups = {}, collections.defaultdict(set)
    for n in names:
        groups[snake(n) if n in old else n].add(n)
    for new, group in sorted(groups.items()):
        camel = sorted(n for n in group if n in old and "-" not in n)
        lemmas = sorted(n for n in group if n in old and "-" in n)
        for n in camel:
            if new not in rust and new not in names and len(camel) == 1:
                turned[n] = new
        for n in lemmas:
            alone = new not in names and not camel and len(lemmas) == 1
            turned[n] = new if alone else new + "_law"
    return turned, fields_of(paths)


def turn_antt(text, turned, fields, here=frozenset()):
    out = []
    for line in text.split("\n"):
        code, mark, comment = line.partition("--") if line.lstrip().startswith("--") or " -- " in line else (line, "", "")

        def one(m):
            word, before = m[0], code[: m.start()]
            bare = word
            if bare not in turned or bare in here:
                return word
            if before.endswith("."):
                owner = re.search(r"([^\s(){}.;,@\"«»]*)\.$", before)[1]
                if not re.match(r"[A-Z]", owner) and bare not in fields:
                    return word
            return turned[bare]

        out.append(TOKEN.sub(one, code) + mark + turn_comment(comment, turned))
    return "\n".join(out)


def turn_comment(text, turned):
    def quoted(m):
        return "`" + TOKEN.sub(lambda w: turned.get(w[0], w[0]), m[1]) + "`"

    text = re.sub(r"`([^`\n]+)`", quoted, text)
    return re.sub(r"\b[a-z]\w*[A-Z]\w*\b", lambda m: turned.get(m[0], m[0]), text)


def turn_rust(text, turned):
    def one(m):
        if m[0].startswith(("b\"", "\"")):
            return m[0]
        if m[0].startswith("//"):
            return turn_comment(m[0], turned)
        return turned.get(m[0], m[0])

    return re.sub(r"b?\"(?:\\.|[^\"\\])*\"|//.*|" + RUST_TOKEN.pattern, one, text)


def turn_edit(text, turned, fields):
    out, is_antt = [], False
    for line in text.split("\n"):
        if line.startswith("file:"):
            is_antt = line.endswith(".antt")
        head = re.match(r"(old|new):", line)
        if head and is_antt:
            line = head[0] + turn_antt(line[4:], turned, fields)
        elif head:
            line = head[0] + turn_rust(line[4:], turned)
        elif not line.startswith("file:"):
            line = turn_comment(line, turned)
        out.append(line)
    return "\n".join(out)


def borrowed(text):
    """The names that a file takes from a library: they stay, whatever is declared here."""
    own = set(os.listdir("crates"))
    names = set()
    for m in re.finditer(r"\buse ([^\s;{]+)\.\{([^}]*)\}", text):
        steps = m[1].split(".")
        if steps[0] != "Rattle" or steps[1] not in own:
            names |= {n.split(" as ")[0].strip() for n in m[2].split(",")}
    return names


def main():
    turned, fields = table()
    goals = re.compile(rf"(?m)^(?:pub )?({ID}) : tie\.")
    for path in files("*/specs/**/*.antt") + files("*/proofs/**/*.antt"):
        text = read(path)
        here = borrowed(text) | (set(goals.findall(text)) if of_one_function(path) else set())
        write(path, turn_antt(text, turned, fields, here))
    for path in files("*/src/**/*.rt"):
        write(path, turn_rust(read(path), turned))
    for path in files("*/must-fail/*.edit"):
        write(path, turn_edit(read(path), turned, fields))
    for path in files("*/src/lib.rt") + files("*/src/main.rt"):
        text = read(path)
        if "#![tactic(auto)]" not in text:
            comment = re.match(r"(?://.*\n)*", text)[0]
            write(path, comment + "#![tactic(auto)]\n\n" + text[len(comment) :].lstrip("\n"))
    os.makedirs("tools", exist_ok=True)
    with open("tools/respelled.tsv", "w", encoding="utf-8") as file:
        file.writelines(f"{a}\t{b}\n" for a, b in sorted(turned.items()))
    print(f"{len(turned)} names")


main()
