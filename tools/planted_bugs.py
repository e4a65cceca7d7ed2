#!/usr/bin/env python3
"""Writes the table of must-fail edits at the end of docs/PROMISES.md anew."""
import glob
import os

os.chdir(os.path.join(os.path.dirname(os.path.abspath(__file__)), '..'))
crates = [line.split(':')[0].split()[0] for line in open('crates.txt') if line.strip() and not line.startswith('#')]
rows = []
for crate in crates:
    for path in sorted(glob.glob(f'crates/{crate}/must-fail/*.edit')):
        old, new = [], []
        for line in open(path):
            word, _, text = line.rstrip('\n').partition(':')
            text = '`' + text.strip().replace('|', '\\|') + '`'
            if word == 'old':
                old.append(text)
            elif word == 'new':
                new.append(text)
        rows.append(f'| `{crate}/{os.path.basename(path)[:-5]}` | {"; ".join(old)} | {"; ".join(new)} |')
head = '| edit | the code | the bug |\n|---|---|---|\n'
page = open('docs/PROMISES.md').read()
start = page.index(head) + len(head)
with open('docs/PROMISES.md', 'w') as out:
    out.write(page[:start] + '\n'.join(rows) + '\n')
print(len(rows), 'edits')
