#!/usr/bin/env python3
# Prints the table of docs/REFUSALS.md from the Rust's own source. Usage: tools/refusals.py PATH/TO/rustls-webpki/src/error.rs
# Names, ranks and which of them end a search are read from that file; only the numbers are ours, from crates/refusal/src/lib.rt.
import pathlib, re, sys

if len(sys.argv) != 2:
    sys.exit('usage: tools/refusals.py PATH/TO/rustls-webpki/src/error.rs')
rust = re.sub(r'//.*', '', pathlib.Path(sys.argv[1]).read_text())
ours = (pathlib.Path(__file__).resolve().parent.parent / 'crates/refusal/src/lib.rt').read_text()


def body(start):
    """The text between the braces that follow `start`."""
    at = rust.index('{', rust.index(start))
    depth, end = 1, at + 1
    while depth:
        depth += {'{': 1, '}': -1}.get(rust[end], 0)
        end += 1
    return rust[at + 1:end - 1]


variants = re.findall(r'^    ([A-Z]\w*)', body('pub enum Error'), flags=re.M)
types = re.findall(r'^    ([A-Z]\w*)', body('pub enum DerTypeId'), flags=re.M)
ranks = {}
for names, rank in re.findall(r'((?:Self::.*?))=>\s*(\d+)', body('fn rank('), flags=re.S):
    for name in re.findall(r'Self::(\w+)', names):
        ranks[name] = int(rank)
fatal = set(re.findall(r'Self::(\w+)', body('fn is_fatal(')))

rows, used = [], set()
for name, number in re.findall(r'^ *pub const (\w+): Refusal = Refusal\((\d+)\);', ours, flags=re.M):
    name = ''.join(word.capitalize() for word in name.split('_'))
    shown, variant = name, name
    if name.startswith('Trailing'):
        shown, variant = f'TrailingData({name[8:]})', 'TrailingData'
        if name[8:] not in types:
            sys.exit(f'{name}: the Rust has no such type')
    elif name + 'Context' in variants:  # the form without context is deprecated and never produced
        shown = variant = name + 'Context'
        used.add(name)
    if variant not in ranks:
        sys.exit(f'{name}: the Rust has no such refusal')
    used.update((variant, shown))
    rows.append((int(number), shown, ranks[variant], 'yes' if variant in fatal else 'no'))
missing = (set(variants) | {f'TrailingData({t})' for t in types}) - used
if missing or [r[0] for r in rows] != list(range(1, len(rows) + 1)):
    sys.exit(f'not numbered from 1 without a gap, or without a number: {sorted(missing)}')

print('| number | refusal | rank | ends the search |')
print('|---:|---|---:|---|')
for row in rows:
    print('| %d | %s | %d | %s |' % row)
