#!/usr/bin/env python3
"""Turns what contracts say of lent lists to today's words, in place. Run at the top, once.

Usage: tools/lent.py        after respell.py

`was x` and `became x` named what a lent list held before and after the call. Today a clause says
`x.now` of a `&`, and `x.old` and `x.new` of a `&mut`. `given`, `handed` and `read_from` took the
loans themselves, for which there are two types now, and take the lists.
"""

import glob
import re

HEAD = re.compile(r"(?m)^ *(?:pub(?:\(crate\))? |unsafe |const |extern \"C\" )*fn \w+")
GIVEN = ["crates/model/specs/Given.antt", "crates/yard/specs/Given.antt"]


def closing(text, at, opens, closes):
    deep = 0
    for k in range(at, len(text)):
        deep += (text[k] == opens) - (text[k] == closes)
        if not deep:
            return k
    return len(text)


def lent(params):
    kinds = {}
    for m in re.finditer(r"(\w+): &(?:'\w+ )?(mut )?", params):
        kinds[m[1]] = "old" if m[2] else "now"
    if re.search(r"&mut self\b", params):
        kinds["self"] = "old"
    elif re.search(r"&self\b", params):
        kinds["self"] = "now"
    return kinds


def turn_clause(text, kinds):
    def before(name):
        return f"{name}.{kinds[name]}" if name in kinds else name

    def yard(m):
        return m[1] + "".join(" " + before(name) for name in m[2].split())

    text = re.sub(r"\b(given|handed)((?: \w+){4})", yard, text)
    text = re.sub(r"\b(given_bare|handed_bare|Alike)((?: \w+){3})", yard, text)
    text = re.sub(r"\b(read_from)((?: \w+){5})", yard, text)
    text = re.sub(r"\(was (\w+)\)|\bwas (\w+)", lambda m: before(m[1] or m[2]), text)
    return re.sub(r"\(became (\w+)\)|\bbecame (\w+)", lambda m: (m[1] or m[2]) + ".new", text)


def turn_function(text):
    """The head of a function, from its `fn` on: its clauses."""
    opens = text.index("(", re.search(r"\bfn \w+", text).end())
    end = closing(text, opens, "(", ")")
    kinds = lent(text[opens:end])
    out, at = text[:end], end
    while True:
        m = re.compile(r"\b(?:requires|ensures)\*? ?\w* ?\{").search(text, at)
        body = re.compile(r"(?m)^ *\{$").search(text, at)
        if not m or body and body.start() < m.start():
            break
        stop = closing(text, m.end() - 1, "{", "}")
        out += text[at : m.end()] + turn_clause(text[m.end() : stop], kinds)
        at = stop
    return out + text[at:]


def turn(text):
    starts = [m.start() for m in HEAD.finditer(text)] + [len(text)]
    out = text[: starts[0]]
    for a, b in zip(starts, starts[1:]):
        out += turn_function(text[a:b])

    def imports(m):
        names = [n.strip() for n in m[2].split(",") if n.strip() not in ("was", "became")]
        return m[1] + "{" + ", ".join(names) + "};\n" if names else ""

    return re.sub(r"(ghost use Rattle\.model\.specs\.Given\.)\{([^}]*)\};\n", imports, out)


def main():
    for path in sorted(glob.glob("crates/*/src/**/*.rt", recursive=True)):
        with open(path, encoding="utf-8") as file:
            text = file.read()
        if "specs.Given" in text:
            with open(path, "w", encoding="utf-8") as file:
                file.write(turn(text))
    for path in GIVEN:
        with open(path, encoding="utf-8") as file:
            text = file.read()
        text = re.sub(r"(?s)\n-- a lent list, in one word for an `ensures`.*", "", text)
        text = re.sub(r"use (?:Rattle\.std\.specs\.Borrow|denote\.Triple\.Both)\..*\n", "", text)
        text = re.sub(r"\{[A-Z ]+ : Type 0\} → ", "", text)
        text = re.sub(r"Both \(Bor \(List ℕ\)\) [A-Z]|Bor \(List ℕ\)", "List ℕ", text)
        text = text.replace(".entry.now", "").replace(".now", "")
        with open(path, "w", encoding="utf-8") as file:
            file.write(text)


main()
