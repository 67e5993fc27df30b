#!/usr/bin/env python3
# What a reader of the statements must believe: every definition that they reach, counted by file, as a Markdown table. Usage: tools/believed.py [FILE:NAME..]
# Without arguments: a column for each group of statements below; exit status 1 where a statement of the standard's side reaches a model.
# Counted are lines that are neither blank nor comment. Definitions are followed by name, through records, their fields and constructors; types that the
# code declares stand in the code.
import pathlib, re, sys

top = pathlib.Path(__file__).resolve().parent.parent
LENDS = 'conditions/specs/Conditions.antt:Lends'
GROUPS = {
    'the decision': ['judge/specs/Decides.antt:Decides', 'judge/specs/Asks.antt:Asks', LENDS],
    '6.1 accepts': ['conditions/specs/RfcAccepts.antt:AcceptsType'],
    'the account': ['judge/specs/Accounts.antt:Accounts', LENDS],
}
NO_MODEL = {'the decision', '6.1 accepts'}
START = re.compile(r'\s*(?:abbrev |unfoldable )*(?:pub )?(?:record |data )?([^\s:(){}]+)(?: *[({].*)? +:|\s*(?:pub )?(?:record|data) (\S+)')
WORD = re.compile(r"[^\s(){}.,;:«»λ→]+")


class File:
    def __init__(self, path):
        self.path, self.of, self.text, self.far = path, {}, {}, {}
        now, level = None, 0
        for line in path.read_text().splitlines():
            if not line.strip() or line.lstrip().startswith('--'):
                continue
            if u := re.match(r'use Rattle\.(\w+?)\.specs\.([\w.]+?)\.\{(.*)\}', line):
                file = top / 'crates' / u[1] / 'specs' / (u[2].split('.')[-1] + '.antt')
                for name in u[3].split(','):
                    said, _, known = name.strip().partition(' as ')
                    if file.exists() and 'declared' not in u[2]:
                        self.far[known or said] = (file, said)
                continue
            indent = len(line) - len(line.lstrip())
            if line.lstrip().startswith(('use ', 'module ')):
                now = None
                continue
            started = re.match(r'\s*(abbrev |unfoldable |pub )', line) and START.match(line)
            if started and (now is None or indent <= level):
                now, level = started[1] or started[2], indent
                self.text[now] = []
            if now:
                self.text[now].append(line)
                inner = re.match(r'\s+(?:pub )?([^\s:(){}]+) :', line)
                for name in {now} | ({inner[1]} if inner and indent > level else set()):
                    self.of.setdefault(name, now)


files = {}


def believed(statements):
    """The lines of every definition that the statements reach, by file."""
    reached, count = set(), {}
    todo = [(top / 'crates' / f, n) for f, n in (a.removeprefix('crates/').split(':') for a in statements)]
    while todo:
        path, name = todo.pop()
        file = files.setdefault(path, None) or files.update({path: File(path)}) or files[path]
        whole = file.of.get(name)
        if whole is None:
            sys.exit(f'{path.relative_to(top)} defines no {name}')
        if (path, whole) in reached:
            continue
        reached.add((path, whole))
        count[path] = count.get(path, 0) + len(file.text[whole])
        for word in set(WORD.findall('\n'.join(file.text[whole]))):
            if word in file.of:
                todo.append((path, word))
            elif word in file.far:
                todo.append(file.far[word])
    return count


crates = [l.split(':')[0].split()[0] for l in (top / 'crates.txt').read_text().splitlines() if ':' in l and not l.startswith('#')]
groups = {'lines': sys.argv[1:]} if sys.argv[1:] else GROUPS
counts = {name: believed(statements) for name, statements in groups.items()}
print('| file |' + ''.join(f' {name} |' for name in counts) + '\n|---|' + '---:|' * len(counts))
for path in sorted(set().union(*counts.values()), key=lambda f: (-crates.index(f.parts[-3]), f.name)):
    print(f'| `{path.relative_to(top)}` |' + ''.join(f' {c.get(path, "")} |' for c in counts.values()))
print('| together |' + ''.join(f' {sum(c.values())} |' for c in counts.values()))
bad = [f'{name}: {path.relative_to(top)}' for name, c in counts.items() if name in NO_MODEL for path in c if 'Model' in path.name]
for line in bad:
    print(f'a model is reached by {line}', file=sys.stderr)
sys.exit(bool(bad))
