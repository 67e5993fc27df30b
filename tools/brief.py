#!/usr/bin/env python3
# Shortens what the prover says: no notes, no text of proved functions, short names. Usage, in a crate's folder: rt check 2>&1 | ../../tools/brief.py
# A line is cut at CUT characters (600 where it is not set).
import os, re, sys

TOP = os.path.dirname(os.path.dirname(os.path.abspath(__file__)))
SHORT = ('Prim.Native.Nat.', 'lib.ListN.', 'lib.Dec.', 'mir.Val.', 'mir.Syntax.', 'denote.Ref.', 'mathlib.Core.', TOP + '/crates/', TOP + '/')


def shorten(line):
    for name in SHORT:
        line = line.replace(name, '')
    line = re.sub(r'Rattle\.\w+\.(?:proofs|specs)\.', '', line)
    line = re.sub(r'(?:\.before){3,}', lambda m: '.before^%d' % (len(m.group()) // 7), line)
    return line[:int(os.environ.get('CUT', '600'))]


def brief(lines):
    skip = False
    for line in lines:
        line = line.rstrip('\n')
        if re.match(r'(note: |help: write|logic /|library |statements |crate \w+: modules |rt: chose |(enum|struct) .*: proved|\s*\(computed from:)', line):
            skip = True
        elif re.match(r'fn .*(: proved|: no holes)$', line):
            skip = False
        elif not skip or (line.strip() and not line.startswith('  ')):
            skip = False
            yield shorten(line)


if __name__ == '__main__':
    for line in brief(sys.stdin):
        print(line)
