#!/usr/bin/env python3
"""Respells this repository's own definitions and lemmas: words in snake case, facts and types in camel case.

usage: python3 tools/respell.py          at the top of the repository: rewrites the .rt and .antt files below crates/ in place
       python3 tools/respell.py --list   prints the names, old and new, and where two names would fall together

A name of the repository's own is one that a file of specs/ or proofs/ declares: a definition, a lemma, a field, a constructor, a
parameter or a `let`. Names that the toolchain makes (goals, steps) and names of the library keep their spelling.
"""
import os
import re
import sys

CRATES = "crates"
# names that the rule for dashes does not reach: variables of patterns, and words of the older library
OTHER = {
    "no-begin": "no_begin",
    "not-here": "not_here",
    "some-open": "some_open",
    "yes-one": "yes_one",
    "getD_same": "get_or_same",
    "getD_byte_labels": "get_or_byte_labels",
}
# facts that were spelled as words: each is turned in its module and where it is imported from there
FACTS = {
    ("Rattle.rules.specs.Reading", "has_part"): "HasPart",
    ("Rattle.tables.specs.Table", "leads"): "Leads",
    ("Rattle.tables.specs.Files", "marked"): "Marked",
}

NAME = r"[^\s(){}\[\].,;:=λ→×∙≡\"|]+"
TOKEN = re.compile(NAME)
KEYWORDS = {"use", "where", "module", "let", "in", "elim", "as", "pub", "abbrev", "unfoldable", "record", "data", "unfolding", "ruleset", "mod", "open"}
DECLARED = re.compile(r"^\s*(?:(?:pub|abbrev|unfoldable|package)\s+)*(" + NAME + r") :(?=\s|$)")
HEAD = re.compile(r"^\s*(?:pub\s+)?(?:record|data|ruleset|module)\s+(" + NAME + r")")
LET = re.compile(r"\blet\s+(" + NAME + r")\s*(?::|=)")
BINDER = re.compile(r"[({]((?:" + NAME + r"\s+)*" + NAME + r") :\s")
ALIAS = re.compile(r"\bas (" + NAME + r")")
LAMBDA = re.compile(r"λ\s+((?:" + NAME + r"\s*)+)\.")
GOAL = re.compile(r"^\s*(?:(?:pub|abbrev)\s+)*(" + NAME + r") : (?:goal|given)\.")
GHOST = re.compile(r"^\s*ghost use ")
CLAUSE = re.compile(r"^\s*(?:requires|ensures|ghost)\b")


def files():
    for folder, dirs, names in os.walk(CRATES):
        dirs[:] = sorted(d for d in dirs if d != "out")
        for name in sorted(names):
            if name.endswith((".rt", ".antt")):
                yield os.path.join(folder, name)


def read(path):
    with open(path, encoding="utf-8") as f:
        return f.read()


def bare(line):
    return line.split("--")[0] if line.lstrip().startswith("--") else line


def is_ours(name):
    return "-" in name.strip("-") and re.match(r"^[A-Za-zμΣΓ]", name) and not re.search(r"[+*<≤&|◌]", name)


def respelled(name):
    if name in OTHER:
        return OTHER[name]
    if name[0].isupper():
        return "".join(part[:1].upper() + part[1:] for part in name.split("-"))
    return name.replace("-", "_")


def declared():
    found, goals = set(), set()
    for path in files():
        for line, turns in pieces(path, read(path)):
            if not turns:
                continue
            if not path.endswith(".antt"):
                if GHOST.match(line):
                    found.update(m.group(1) for m in ALIAS.finditer(line))
                continue
            goal = GOAL.match(line)
            if goal:
                goals.add((path, goal.group(1)))
                continue
            for pattern in (DECLARED, HEAD):
                m = pattern.match(line)
                if m and m.group(1) not in KEYWORDS:
                    found.add(m.group(1))
            for pattern in (LET, BINDER, LAMBDA, ALIAS):
                for m in pattern.finditer(line):
                    found.update(m.group(1).split())
    return {n for n in found if is_ours(n)} | set(OTHER), goals


IMPORTED = re.compile(r"^\s*(?:ghost )?use (?:Rattle\.(?P<crate>[a-z_]+)|(?P<lib>[A-Za-z]+))\S*?\.\{(?P<names>[^}]*)\}")


def foreign(text, crates):
    """The names that a file imports from the library."""
    names = set()
    for line in text.split("\n"):
        m = IMPORTED.match(line)
        if m and (m.group("crate") or "") not in crates:
            for item in m.group("names").split(","):
                words = item.split()
                if words:
                    names.add(words[-1])
    return names


def pieces(path, text):
    """The text in parts, each with whether names in it are of the proof language."""
    if path.endswith(".antt"):
        for line in text.split("\n"):
            yield line, not line.lstrip().startswith("--")
        return
    depth = 0
    for line in text.split("\n"):
        if line.lstrip().startswith("//"):
            yield line, False
        elif depth > 0 or GHOST.match(line) or CLAUSE.match(line):
            yield line, True
            depth += line.count("{") - line.count("}")
            depth = max(depth, 0)
        else:
            yield line, False


def turned(path, text, ours, goals, crates):
    kept = foreign(text, crates) | {n for p, n in goals if p == path}
    answers = os.path.basename(path) in ("Answers.antt", "Invariants.antt", "Proof.antt")
    out = []
    for line, turns in pieces(path, text):
        if not turns:
            out.append(line)
            continue

        def one(m):
            name = m.group(0)
            before = line[: m.start()]
            if name not in ours or name in kept:
                return name
            # in an answer `c.STEP` is a step of the code, which the toolchain names
            if answers and re.search(r"(?<![\w'])[clw]\.$", before):
                return name
            if answers and before.endswith("goal."):
                return name
            return respelled(name)

        out.append(TOKEN.sub(one, line))
    return "\n".join(out)


def facts(path, text):
    for (module, old), new in FACTS.items():
        home = os.path.join(CRATES, *module.split(".")[1:]) + ".antt"
        if path != home and not re.search(re.escape(module) + r"\.\{[^}]*\b" + old + r"\b", text):
            continue
        word = re.compile(r"(?<![\w'-])" + old + r"(?![\w'-])")
        text = "\n".join(word.sub(new, line) if turns else line for line, turns in pieces(path, text))
    return text


def main():
    crates = {c for c in os.listdir(CRATES)}
    ours, goals = declared()
    if "--list" in sys.argv:
        for name in sorted(ours):
            print(name, respelled(name))
        by = {}
        for name in ours:
            by.setdefault(respelled(name), set()).add(name)
        print("== fall together:", [v for v in by.values() if len(v) > 1])
        for path in files():
            text = read(path)
            code = "\n".join(l for l in text.split("\n") if not l.lstrip().startswith(("--", "//")))
            tokens = set(TOKEN.findall(code))
            kept = foreign(text, crates)
            for name in sorted(tokens & ours - kept):
                if respelled(name) in tokens:
                    print("== in one file:", path, name, respelled(name))
        return
    for path in files():
        text = read(path)
        new = facts(path, turned(path, text, ours, goals, crates))
        if new != text:
            with open(path, "w", encoding="utf-8") as f:
                f.write(new)


main()
