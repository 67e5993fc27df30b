#!/usr/bin/env python3
"""Turns proofs by hand (Proof.antt) of an older Rattle into invariants and answers, for a crate.

It was run once, crate by crate: docs/PORT.md. NAMES is names.json of `rt check --generated DIR --old-names` in the crate without proof files.
Usage: tools/port_proofs.py ROOT CRATE NAMES [--keep-trivial]"""
import json, pathlib, re, sys

root, crate, names = pathlib.Path(sys.argv[1]), sys.argv[2], json.loads(pathlib.Path(sys.argv[3]).read_text())
keep = '--keep-trivial' in sys.argv
TRIVIAL = {'search rules', 'search needs'}
START = {'args', 'ranges', 'requires', 'well_formed', 'lifetimes'}
base = root / 'crates' / crate / 'proofs'


def norm(name):
    name = re.sub(r'_lem$', '', name.replace('-', '_').lower()).replace('is_on_path', 'on_path')
    name = re.sub(r'^(overflow|nonzero)_', '', name)
    name = re.sub(r'^slice_bounds_', 'part_', name)
    name = re.sub(r'^(array_read|element_copy_out|shared_slice_read|slice_read|shared_slice_copy_out|slice_copy_out|bounds)_', 'read_', name)
    name = name.replace('loop_holds', 'loop_init').replace('loop_less', 'loop_smaller').replace('loop_again', 'loop_preserved')
    return name


def blocks(text):
    """The declarations of a file: the comment above, the signature's name and type, the line `unfolding`, and the body."""
    lines, out, i = text.split('\n'), [], 0
    note = []
    while i < len(lines):
        line = lines[i]
        if not line.strip():
            i += 1
            continue
        if line.startswith('--'):
            note.append(line)
            i += 1
            continue
        j = i + 1
        while j < len(lines) and (lines[j].startswith(' ') or not lines[j].strip()):
            j += 1
        out.append([note, '\n'.join(lines[i:j]).rstrip()])
        note, i = [], j
    return out


def convert(function, path, info, short):
    text = path.read_text()
    head, uses, decls = [], [], []
    parts = blocks(text)
    k = 0
    while k < len(parts):
        note, it = parts[k]
        if it.startswith('use '):
            head += note
            if not re.search(r'\.(Statement|Tie)\b', it):
                uses.append(it)
            k += 1
            continue
        m = re.match(r'((?:abbrev |pub |unfoldable )*)([^\s:]+) *(.*?):\s(.*)$', it, re.S)
        group = [note, m[2] if m else None, it, None, []]
        k += 1
        while k < len(parts):
            n2, i2 = parts[k]
            if i2.startswith('unfolding '):
                group[3] = i2
            elif m and re.match(re.escape(m[2]) + r'\s', i2) and not re.match(re.escape(m[2]) + r' *(\{.*\} *)?:', i2):
                group[4].append(i2)
            else:
                break
            k += 1
        decls.append(group)
    said = []
    places = {p[0]: n for n, p in enumerate(info['places'])}
    needs = {}
    for n, (old, new) in enumerate(info['needs']):
        needs[norm(old)] = n

    def chain(place):
        while place is not None:
            yield place
            place = info['places'][places[place]][1]

    def resolve(place, comps):
        """The new path of an old one that starts at the context of a goal asked at `place`."""
        comps = list(comps)
        at = place
        while comps and comps[0] == 'before':
            comps.pop(0)
            at = info['places'][places[at]][1] if at else None
        if not comps:
            return None
        step, rest = comps[0], comps[1:]
        if step in START:
            return '.'.join(['c', step, *rest])
        if step == 'type_inv' or step == 'auto':
            return '.'.join(['c', step, *rest])
        for p in chain(place):
            n = places[p]
            old, new = info['places'][n][2]
            if norm(old) == norm(step) and old:
                for n2 in [n] + [q for q in range(len(info['places'])) if q != n]:
                    arm = info['arms'][n2] if info['arms'] else None
                    if arm:
                        best = None
                        for label, s, where in arm[2]:
                            if norm(s) == norm(old) and rest[:len(where)] == where and (best is None or len(where) > len(best[1])):
                                if any(info['places'][n2][0] == q for q in chain(place)):
                                    best = (label, where)
                        if best:
                            return '.'.join(['c', arm[0], best[0], *rest[len(best[1]):]])
                return '.'.join(['c', new, *rest])
        said.append(f'{function}: no step {step} above {place}')
        return '.'.join(['c', step, *rest])

    def body_of(body, place):
        # names for contexts, as in `let arm = c.before.before in`
        alias = {'c': []}
        while True:
            m = re.search(r'let ([\w\']+) = (\w+)((?:\.before)+) in\s*', body)
            if not m or m[2] not in alias:
                break
            alias[m[1]] = alias[m[2]] + ['before'] * m[3].count('.before')
            body = body[:m.start()] + body[m.end():]
            body = re.sub(rf'(?<![\w.\'-]){re.escape(m[1])}(?=\.)', 'c' + '.before' * len(alias[m[1]]), body)

        def turn(m):
            return resolve(place, m[1][1:].split('.')) or m[0]
        return re.sub(r"(?<![\w.'-])c((?:\.[\w'-]+)+)", turn, body)

    answers, invariants, helpers = [], [], []
    for note, name, sig, unfold, bodies in decls:
        m = re.search(r':\s*tie\.(?!Start)(Need-)?([^\s]+)', sig)
        if re.match(r'pub \S+[-_]spec :', sig):
            continue
        if not m:
            helpers.append('\n'.join(note + [sig] + ([unfold] if unfold else []) + bodies))
            continue
        if not m[1]:
            kind = re.match(r'(invariant|decreases)-(loop\d*|\S+)$', m[2])
            loop = None
            for n, ((old, new), variables) in enumerate(info['loops']):
                if kind and norm(old) == norm(kind[2]):
                    loop = (new, variables, info['changed'][n])
            if not loop:
                said.append(f'{function}: no loop for {m[2]}')
                continue
            new, variables, changed = loop
            b = bodies[0]
            left, right = b.split(' =', 1)
            given = left.split()[1:]
            want = []
            for v, ch in zip(variables, changed):
                want.append(f'l.initial.{v}' if ch else f'l.{v}')
            want += [f'l.{v}' for v, ch in zip(variables, changed) if ch]
            if len(given) != len(want):
                said.append(f'{function}: {m[2]} takes {given}, today {variables} {changed}')
                want += ['l.?'] * len(given)
            table = {g: w for g, w in zip(given, want) if g != '_'}
            right = re.sub(r"(?<![\w.'-])([^\W\d][\w'₀]*)", lambda q: table.get(q[1], q[1]), right)
            invariants.append(f'abbrev pub {kind[1]}-{new} : goal.{kind[1]}-{new}\n' + (unfold + '\n' if unfold else '') + f'{kind[1]}-{new} l ={right}')
            continue
        n = needs.get(norm(m[2]), needs.get(norm(name)))
        if n is None:
            said.append(f'{function}: no goal {m[2]} today')
            continue
        new = info['needs'][n][1]
        place = info['asked_at'][n][0]
        b = bodies[0]
        left, right = b.split(' =', 1)
        if right.strip() in TRIVIAL and not keep and not unfold:
            continue
        right = body_of(right, place)
        answers.append('\n'.join(note + [f'pub {new} : goal.{new}'] + ([unfold] if unfold else []) + [' '.join([new, 'c', *(w for w in left.split()[2:] if w != 'κs')]) + f' ={right}']))
    here = path.parent
    module = f'Rattle.{crate}.proofs.' + '.'.join(path.parent.relative_to(base).parts)

    def write(file, kind, chunks):
        if not chunks:
            return
        text = '\n\n'.join(chunks)
        used = []
        for u in uses:
            m = re.match(r'use (\S+?)\.\{(.*)\}$', u)
            if m:
                ns = [x for x in m[2].split(', ') if mentioned(x.split(' as ')[-1], text)]
                if ns:
                    used.append(f'use {m[1]}.{{{", ".join(ns)}}}')
            else:
                used.append(u)
        used.append(f'use {module}.{kind} as goal')
        (here / file).write_text('\n'.join(head + used) + '\n\n' + text + '\n')

    def mentioned(name, text):
        signs = [s for s in name.split('◌') if s]
        return all(s in text for s in signs) if '◌' in name else re.search(rf"(?<![\w'-]){re.escape(name)}(?![\w'-])", text) is not None

    path.unlink()
    write('Invariants.antt', 'Given', invariants)
    write('Answers.antt', 'Goals', helpers + answers if answers or helpers else [])
    if not any(here.iterdir()):
        here.rmdir()
    for s in said:
        print(s)


done = set()
for key, info in names.items():
    if not isinstance(info, dict) or not key.startswith(f'Rattle-{crate}-proofs.') or not key.endswith('.Lts'):
        continue
    function = key[len(f'Rattle-{crate}-proofs.'):-len('.Lts')]
    path = base / pathlib.Path(*function.split('.')) / 'Proof.antt'
    if path.exists():
        convert(function, path, info, None)
for path in base.rglob('Proof.antt'):
    print('left:', path)
