#!/usr/bin/env python3
# Holds docs/DIFFERENCES.md against the recorded cases and the definitions. Usage: tools/check_differences.py
# Prints a line for each fault; the exit status is 1 where there is one. Checked is:
# - The rows are numbered D1, D2, .. and O1, O2, .. without a gap.
# - The last column of a row names recorded cases: `NAME`, .. of tests/differences.txt, or `FILE`: `NAME`, ..; a semicolon stands between two files. Each case
#   is there, with its answer. The name of a vector is its line.
# - The bytes of a row stand in its cases, and each refusal that a case got stands in the row.
# - Each case of tests/differences.txt is named by the row of its number.
# - "(stricter, D49)" in a definition names rows that say stricter, and never none. Every number in a comment there is a row.
import pathlib, re, sys

top = pathlib.Path(__file__).resolve().parent.parent
CASES = 'tests/differences.txt'
BYTE = '[0-9a-f]{2}'
quoted = re.compile('`([^`]+)`').findall
faults, rows, files, named, marks = [], {}, {}, set(), 0


def recorded(file):
    """The cases of a file by name, each with its text and its answer."""
    if not (top / file).is_file():
        return {}
    if file.endswith('.txt'):
        texts = re.findall(r'^case .*\n(?:.+\n)*', (top / file).read_text(), re.M)
        answers = re.findall(r'^.*\n(?:= .*\n)*', (top / file).with_suffix('.answers').read_text(), re.M)
        pairs = [(text.partition('\n')[0].removeprefix('case '), text, answer) for text, answer in zip(texts, answers)]
        return {name: (text, answer) for name, text, answer in pairs if answer.startswith(name + ' | ')}
    lines, answers = ((top / file).with_name(name).read_text().splitlines() for name in ('stdin', 'stdout'))
    return {line: (line, answer) for line, answer in zip(lines, answers)}


def cases(row, cell):
    """The cases that a row names, of all files, with their answers."""
    for group in cell.split(';'):
        file, colon, names = group.rpartition(': ')
        file = ''.join(quoted(file)) if colon else CASES
        known = files.setdefault(file, recorded(file))
        for name in quoted(names):
            if file == CASES:
                named.add((row, name))
            if name in known:
                yield known[name]
            else:
                faults.append(f'{row}: {file} has no {name}')


for line in (top / 'docs/DIFFERENCES.md').read_text().splitlines():
    if m := re.match(r'\| ([DO]\d+) \| (.*) \|$', line):
        if m[1] in rows:
            faults.append(f'{m[1]}: twice')
        rows[m[1]] = m[2].split(' | ')
for kind in 'DO':
    numbers = [int(row[1:]) for row in rows if row[0] == kind]
    if not numbers or numbers != list(range(1, len(numbers) + 1)):
        faults.append(f'{kind}1, {kind}2, ..: not all, or not in order')

for row, cells in rows.items():
    if len(cells) != (5 if row[0] == 'D' else 4):
        faults.append(f'{row}: {len(cells)} cells')
    shown = list(cases(row, cells[-1]))
    if not shown or not quoted(cells[0]):
        faults.append(f'{row}: no case, or no bytes')
    for value in quoted(cells[0]):
        digits = value.replace(' ', '')
        pattern = f'(?:{BYTE})*?' + digits.replace('..', f'(?:{BYTE})*')
        if not re.fullmatch(rf'(?:{BYTE}|\.\.)+', digits) or not any(re.match(pattern, word) for text, _ in shown for word in text.split()):
            faults.append(f'{row}: no case has {value}')
    for refusal in {refusal for _, answer in shown for refusal in re.findall(r'\berr ([^ ,\n]+)', answer)}:
        if not re.search(rf'\b{re.escape(refusal)}(?!\w)', ' '.join(cells[1:-1])):
            faults.append(f'{row}: does not say {refusal}')
for name in files.get(CASES, {}):
    if (name.partition('-')[0], name) not in named:
        faults.append(f'{CASES}: no row names {name}')

for file in sorted(top.glob('crates/*/specs/*.antt')):
    comments = ' '.join(re.findall(r'-- ?(.*)', file.read_text()))
    where = file.relative_to(top)
    for mark in re.findall(r'\(stricter[^)]*\)', comments):
        marks += 1
        of = [f'D{n}' for first, last in re.findall(r', D(\d+)(?: to D(\d+))?', mark) for n in range(int(first), int(last or first) + 1)]
        if not of or not all('stricter' in ''.join(rows[row][3:4]) for row in of if row in rows):
            faults.append(f'{where}: {mark} names no row, or one that does not say stricter')
    faults += [f'{where}: no row {row}' for row in re.findall(r'\b[DO]\d+\b', comments) if row not in rows]
if not rows or not marks:
    faults.append('nothing to check: no row, or no mark (stricter, ..)')

print(*faults, sep='\n', end='\n' if faults else '')
sys.exit(bool(faults))
