#!/usr/bin/env python3
# Writes the tables of docs/THEOREMS.md that are counted: those between `<!-- NAME: begin -->` and `<!-- NAME: end -->`. Usage: tools/tables.py
import pathlib, re, subprocess

top = pathlib.Path(__file__).resolve().parent.parent
document = top / 'docs/THEOREMS.md'
text = document.read_text()
for name, tool in {'lines': 'count.sh', 'believed': 'believed.py'}.items():
    table = subprocess.run([top / 'tools' / tool], capture_output=True, text=True, check=True).stdout
    text, places = re.subn(rf'(<!-- {name}: begin -->\n).*?(<!-- {name}: end -->)', lambda m: m[1] + table + m[2], text, flags=re.S)
    assert places == 1, name
document.write_text(text)
