#!/usr/bin/env python3
"""Counts forms of code in the src/ folders of a checkout: tools/count_forms.py [CHECKOUT] [-v]

-v lists the places. The counts are a place to look, not a verdict: docs/DESIGN-PASS.md says what was found in them."""
import difflib
import glob
import itertools
import os
import re
import sys

verbose = '-v' in sys.argv
words = [w for w in sys.argv[1:] if w != '-v']
os.chdir(words[0] if words else os.path.join(os.path.dirname(os.path.abspath(__file__)), '..'))
files = {f: open(f).read() for f in sorted(glob.glob('crates/*/src/**/*.rt', recursive=True))}


def show(name, places):
    print(f'{name}: {len(places)}')
    if verbose:
        for place in places:
            print('   ', place)


def lines(pattern, but=None):
    """The lines of code, no comments, that a pattern is found in."""
    found = []
    for f, text in files.items():
        for n, line in enumerate(text.split('\n'), 1):
            if line.lstrip().startswith('//') or not re.search(pattern, line):
                continue
            if but and re.search(but, line):
                continue
            found.append(f'{f[7:]}:{n}: {line.strip()}')
    return found


def functions():
    """Each function: where it stands, its parameters, its clauses and its body."""
    for f, text in files.items():
        for m in re.finditer(r'\bfn (\w+)(?:<[^(]*>)?\(((?:[^()]|\((?:[^()]|\([^()]*\))*\))*)\)', text):
            rest = text[m.end():]
            start = re.search(r'^ *\{\s*$|\{\}\s*$|^ *\{ .* \}$', rest, re.M)
            semi = re.search(r';\s*$', rest, re.M)
            if not start or (semi and semi.start() < start.start()):
                continue
            depth, end = 0, len(rest)
            for k in range(start.start(), len(rest)):
                depth += {'{': 1, '}': -1}.get(rest[k], 0)
                if depth == 0 and rest[k] == '}':
                    end = k + 1
                    break
            parameters = [p for p in re.split(r',(?![^<\[(]*[>\])])', m.group(2)) if p.strip()]
            line = text[:m.start()].count('\n') + 1
            yield f'{f[7:]}:{line} {m.group(1)}', parameters, rest[:start.start()], rest[start.start():end]


KEYWORDS = {'if', 'else', 'match', 'for', 'while', 'loop', 'return', 'let', 'mut', 'in', 'as', 'break', 'Some', 'None', 'Ok', 'Err', 'true', 'false', 'self'}


def shape(body):
    """The tokens of a body, without names, numbers and texts."""
    body = re.sub(r'//.*', '', body)
    out = []
    for token in re.findall(r'b?"[^"]*"|b?\'[^\']*\'|\w+|[^\s\w]', body):
        if re.match(r'\w', token) and token not in KEYWORDS:
            token = '0' if token[0].isdigit() else 'x'
        elif '"' in token or "'" in token:
            token = 's'
        out.append(token)
    return out


def twins():
    all_functions = [(where, shape(body)) for where, _, _, body in functions()]
    long = [(w, t) for w, t in all_functions if len(t) >= 30]
    pairs = []
    for (a, s), (b, t) in itertools.combinations(long, 2):
        if min(len(s), len(t)) * 10 < max(len(s), len(t)) * 8:
            continue
        matcher = difflib.SequenceMatcher(None, s, t, autojunk=False)
        if matcher.real_quick_ratio() > 0.85 and matcher.quick_ratio() > 0.85 and matcher.ratio() > 0.85:
            pairs.append(f'{a} ~ {b}')
    return pairs


def repeated_clauses():
    """Clauses that stand three times and more in a crate, but for the names of times."""
    seen = {}
    for f, text in files.items():
        for m in re.finditer(r'^ *(?:requires|ensures)(?: \w+)? \{ (.*) \}$', text, re.M):
            clause = re.sub(r'\.(now|old|new|entry)\b', '', m.group(1))
            seen.setdefault((f.split('/')[1], clause), []).append(f)
    return [f'{crate}: {len(at)} times {clause}' for (crate, clause), at in sorted(seen.items()) if len(at) >= 3]


show('1a enums', lines(r'^(pub(\(crate\))? )?enum '))
show('1b flags in structs', lines(r'^ +(pub(\(crate\))? )?[a-z_]+: bool,'))
show('1c numbers and dummies for none, found or a kind', lines(r'short > 0|=> \d+,$|steps: 0|index: 0,|order (==|>) 0|start > 1|Ok\(0\)|found: (true|false),'))
show('2 pairs of functions alike in shape', twins())
show('3a while and loop', lines(r'^ *(while|loop)\b'))
RANGE = r'\bfor [^{]* in [^\[{]*\.\.'
show('3b for over a range', lines(RANGE))
show('3c for over items', lines(r'\bfor [^{]* in ', RANGE + r'|^ *impl'))
show('4a refusals put together by fields', lines(r'Fault \{$'))
show('4b matches that map, take apart or forget', lines(r'Some\(\w+\) => Some\(|None => None,|Err\(\w+\) => Err\(|None => 0,|Err\(_\) => 0,|let _ = '))
show('4c conversions and printing by hand', lines(r'fn (number|sign_of|infix_level|left_level|right_level|constant_byte|prefix_byte|emit_infix|push_decimal|hex|marks|hex_digit|hex_bytes|cause_words|verdict|word|label)\('))
show('5a functions of five parameters and more', [f'{w} {len(p)}' for w, p, _, _ in functions() if len(p) >= 5])
show('5b clauses that stand three times and more in a crate', repeated_clauses())
show('6a arrays of fixed length in structs', lines(r'^ +(pub(\(crate\))? )?[a-z_]+: \[.*; [0-9A-Z]+\],'))
show('6b places in a buffer passed on', lines(r'\b(at|to|from|start): usize[,)]|^ +(at|to|from|start): usize,'))
show('7 chains of tests on a name, and kinds of steps', lines(r'== b"|Goal::'))
show('8a answers in proofs/', re.findall(r'^pub \S+ : goal\.', '\n'.join(open(f).read() for f in glob.glob('crates/*/proofs/**/Answers.antt', recursive=True)), re.M))
show('8b lines of proofs/', [line for f in glob.glob('crates/*/proofs/**/*.antt', recursive=True) for line in open(f)])
