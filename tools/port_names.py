#!/usr/bin/env python3
"""Respells this repository's own definitions and lemmas: snake case for functions, lemmas, fields and constructors, camel case for types.

It was run once, after the kit's port.py, on what that had made: docs/PORT.md. Functions of src/ keep their names.
Usage: tools/port_names.py ROOT [--inner] [--dry] [--map FILE]
"""
import collections, json, pathlib, re, sys

root = pathlib.Path(sys.argv[1])
dry = '--dry' in sys.argv
TOKEN = re.compile(r"[A-Za-z_][\w'-]*")
DECLARED = re.compile(r"^((?:abbrev |unfoldable |pub )*)(record |data |ruleset )?([A-Za-z_][\w'-]*) *(?:[({].*)?:(.*)$")
FIELD = re.compile(r"^  (?:pub )?([a-z][\w'-]*)((?: [a-z][\w'-]*)*) :")
INNER = re.compile(r"^ +(?:abbrev |unfoldable |pub )*([a-z][\w'-]*)((?: [a-z][\w'-]*)*) *(?:[({].*)?:")  # with --inner: in modules, and what is declared there
inner = '--inner' in sys.argv
TYPES = re.compile(r"(→|:) Type 0\s*$")


def snake(name):
    return re.sub(r'(?<=[a-z0-9])([A-Z]+)', lambda m: '_' + m[1].lower(), name).replace('-', '_')


def camel(name):
    return ''.join(part[:1].upper() + part[1:] for part in re.split('[-_]', name))


def files():
    for crate in sorted((root / 'crates').iterdir()):
        for path in sorted(crate.rglob('*')):
            if path.suffix in ('.antt', '.rt') and 'out' not in path.parts:
                yield path


own, where = {}, {}
for path in files():
    if path.suffix != '.antt' or path.name in ('Proof.antt', 'Invariants.antt') or path.name == 'Answers.antt' and 'proofs' in path.parts:
        continue
    for line in path.read_text().split('\n'):
        if inner and (m := re.match(r'\s*use .*\{(.*)\}', line)):
            for name in re.findall(r' as ([a-z][\w]*-[\w-]*)', m[1]):
                own[name] = snake(name)
        if re.match(r'\s*(--|(pub )?(use|mod) |unfolding )', line) or not line:
            continue
        if (m := DECLARED.match(line)) and not line.startswith(' '):
            name = m[3]
            if not name[0].isupper():
                own[name] = camel(name) if TYPES.search(line) and not m[2] else snake(name)
                where.setdefault(name, path)
        elif m := (INNER if inner else FIELD).match(line):
            for name in [m[1], *m[2].split()]:
                own.setdefault(name, snake(name))
                where.setdefault(name, path)
own = {a: b for a, b in own.items() if a != b}

# A lemma that would have its function's name ends in `_lem`; the other names below would fall together too.
camels = {snake(a) for a in own if '-' not in a}
own |= {a: snake(a) + '_lem' for a in own if '-' in a and snake(a) in camels}
own |= {name: snake(name) + '_lem' for name in ('is-yes', 'kind-of', *([] if inner else ['go_on', 'same_parts']))}
own |= {'accepts-type': 'AcceptsType', 'cRLDistributionPoints': 'crl_distribution_points', **({'c_rldistribution_points': 'crl_distribution_points'} if inner else {}), 'of-certificate': 'from_certificate', 'authority-key': 'authority_key', 'authorityKey': 'authority_key_extension', 'subject-key': 'subject_key',
        'subjectKey': 'subject_key_extension', 'of-kind': 'has_kind', 'constraints-in': 'constraints_in', 'known-at': 'known_is', **({} if inner else {'list_at': 'list_is'}),
        'on-path': 'is_on_path', 'key-at': 'key_place'}
ANTT_ONLY = {'go_on', 'same_parts', 'list_at'}

# what the files bring in from elsewhere keeps its name
foreign = set()
for path in files():
    for line in path.read_text().split('\n'):
        if re.match(r'(pub |ghost )?use ', line) and not re.search(r'\buse Rattle\.(?!std)', line) and '{' in line:
            foreign |= {w.split(' as ')[0].strip() for w in line[line.index('{') + 1:line.rindex('}')].split(',')}
clash = sorted(set(own) & foreign)
if clash:
    print('also of a library, kept:', clash)
    for name in clash:
        del own[name]
back = collections.defaultdict(set)
for a, b in own.items():
    back[b].add(a)
print(len(own), 'names;', 'fall together:', {b: a for b, a in back.items() if len(a) > 1})

for path in files():
    text = path.read_text()
    tokens = set(TOKEN.findall(text))
    for a in tokens & set(own):
        if own[a] in tokens:
            print(f'look: {path.relative_to(root)}: {a} beside {own[a]}')
    new = TOKEN.sub(lambda m: m[0] if m[0] in ANTT_ONLY and (path.suffix == '.rt' or path.name == 'Proof.antt') else own.get(m[0], m[0]), text)
    if new != text and not dry:
        path.write_text(new)

if '--map' in sys.argv:
    pathlib.Path(sys.argv[sys.argv.index('--map') + 1]).write_text(json.dumps(own, indent=0, sort_keys=True, ensure_ascii=False))
