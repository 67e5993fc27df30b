#!/usr/bin/env python3
# What a file of crates/ brings in by `use` and does not mention. Usage: tools/unused.py
# Prints a line each; the exit status is 1 where there is one. A field or a variable of the same name counts as a mention, a comment does not.
import pathlib, re, sys

top = pathlib.Path(__file__).resolve().parent.parent
LIST = re.compile(r'^(?:ghost )?use [^{]*(?:\.|::)\{(.*)\};?$')  # use A.B.{c, d as e} and use a::{B, C};
ONE = re.compile(r'^(?:ghost )?use \S*?([^\s.:;]+)(?: as ([^\s;]+))?;?$')  # use a::B; and use A.B as c
NAME = r"[\w'-]"                                               # what can stand in a name, so that no part of a longer one counts


def brought(line):
    if m := LIST.match(line):
        return [name.split(' as ')[-1] for name in m[1].split(', ')]
    m = ONE.match(line)
    return [m[2] or m[1]] if m else []


def mentioned(name, text):
    return all(sign == '[]' and sign in text or stands(sign, text) for sign in name.split('◌') if sign)


def stands(sign, text):
    if re.search(r'\w', sign):
        return re.search(f'(?<!{NAME}){re.escape(sign)}(?!{NAME})', text)
    return re.search(rf'(?<![^\s(◌]){re.escape(sign)}(?![^\s)◌])', text)


unused = []
files = sorted(p for p in (top / 'crates').rglob('*') if p.suffix in ('.antt', '.rt') and 'out' not in p.relative_to(top).parts)
if not files:
    sys.exit('no file below crates/')
for file in files:
    lines = file.read_text().splitlines()
    rest = '\n'.join(line for line in lines if not re.match(r'\s*(--|//)|(ghost )?use ', line))
    unused += [f'{file.relative_to(top)}: {name}' for line in lines for name in brought(line) if not mentioned(name, rest)]
print('\n'.join(unused), end='\n' if unused else '')
sys.exit(1 if unused else 0)
