#!/usr/bin/env python3
"""Brings the proof files of a crate to the names that the check makes today.

usage: python3 tools/mend_goals.py CRATE..     at the top of the repository

A name of a goal or a step is today's where it is the old one but for `_` and `-`: `returns-in-err-step` is `returns-in_err-step`.
"""
import json
import os
import re
import subprocess
import sys
import tempfile

NAME = r"[^\s(){}\[\].,;:=λ→×∙≡\"|]+"


def strings(x, out):
    if isinstance(x, str):
        if x and not x.startswith("."):
            out.add(x)
        elif x:
            out.update(w.lstrip(".") for w in x.split())
    elif isinstance(x, list):
        for y in x:
            strings(y, out)
    elif isinstance(x, dict):
        for k, y in x.items():
            out.add(k)
            strings(y, out)


def plain(name):
    return name.replace("_", "-")


def mend(crate):
    folder = os.path.join("crates", crate)
    with tempfile.TemporaryDirectory() as to:
        subprocess.run(["rt", "check", "--generated", to, "--old-names"], cwd=folder, capture_output=True)
        with open(os.path.join(to, "names.json")) as f:
            names = json.load(f)
    for key, of in names.items():
        m = re.match(r"Rattle-%s-proofs\.(.*)\.Lts(-\w+)?$" % re.escape(crate), key)
        if not m:
            continue
        home = os.path.join(folder, "proofs", *m.group(1).split("."))
        valid = set()
        strings({k: of[k] for k in of if k not in ("text",)}, valid)
        new = {}
        for v in valid:
            new.setdefault(plain(v), set()).add(v)
        for name in ("Answers.antt", "Invariants.antt", "Proof.antt"):
            path = os.path.join(home, name)
            if not os.path.exists(path):
                continue
            with open(path, encoding="utf-8") as f:
                text = f.read()

            def today(word):
                last = os.path.basename(home)
                if last.startswith("+") and plain(word) == "decreases-" + plain(last[1:]):
                    return "decreases-" + last[1:]
                if word in valid or plain(word) not in new:
                    return word
                options = new[plain(word)]
                if len(options) > 1:
                    print("look:", path, word, sorted(options))
                    return word
                return next(iter(options))

            lines = []
            goals = set(re.findall(r"\bgoal\.(" + NAME + r")", text))
            for line in text.split("\n"):
                if line.startswith("use ") and ".Goals." not in line and ".Given." not in line:
                    lines.append(line)
                    continue
                line = re.sub(r"(?<=[\w'})\]-])\.(" + NAME + r")", lambda m: "." + today(m.group(1)), line)
                line = re.sub(r"^((?:pub |abbrev pub )?)(" + NAME + r")(?=[ :])", lambda m: m.group(1) + (today(m.group(2)) if m.group(2) in goals else m.group(2)), line)
                line = re.sub(r"(?<=[\[|] )(" + NAME + r")(?= \w+ ↦| ↦)", lambda m: today(m.group(1)), line)
                if line.startswith("use "):
                    line = re.sub(r"(?<=[{,\s])(" + NAME + r")(?=[,}])", lambda m: today(m.group(1)), line)
                lines.append(line)
            mended = "\n".join(lines)
            if mended != text:
                with open(path, "w", encoding="utf-8") as f:
                    f.write(mended)
                print("mended", path)


for crate in sys.argv[1:]:
    mend(crate)
