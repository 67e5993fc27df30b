#!/usr/bin/env python3
"""Turns a copy of rustls-webpki 0.103.16 into the traced one (trace.rs). Usage: trace.py SRC (the crate's folder src)

The crate is known by names alone: its fields, functions and types are looked for, and what stands around them is not. Where a name is not
found as often as it must be, nothing is guessed: the program stops."""
import os, re, shutil, sys

BUDGETS = ('signatures', 'build_chain_calls', 'name_constraint_comparisons')
WRAPPER = '''
pub(crate) fn verify_signed_data(%(parameters)s) -> Result<(), Error> {
    let answer = verify_signed_data_unlogged(%(arguments)s);
    crate::trace::question(%(key)s.as_slice_less_safe(), %(signed)s.data.as_slice_less_safe(), &answer);
    answer
}
'''
AT_THE_END = '''
impl Drop for Budget {
    fn drop(&mut self) {
        crate::trace::rest([%s])
    }
}
''' % ', '.join('self.' + b for b in BUDGETS)


def replaced(pattern, new, text, times):
    text, count = re.subn(pattern, new, text)
    if count != times:
        sys.exit('trace.py: %r stands there %d times, not %d' % (pattern, count, times))
    return text


def edit(path, change):
    with open(path) as f:
        text = f.read()
    with open(path, 'w') as f:
        f.write(change(text))


def budgets_and_distrust(text):
    code, tests, rest = text.partition('\nmod tests')
    for i, name in enumerate(BUDGETS):
        code = replaced(r'\b%s: [0-9_]+,' % name, '%s: crate::trace::limit(%d),' % (name, i), code, 1)
    code = replaced(r'self\s*\.distrusted_spkis', 'crate::trace::distrusted(self.distrusted_spkis)', code, 2)
    return code + tests + rest + AT_THE_END


def questions(text):
    found = re.findall(r'fn verify_signed_data\(([^{]*)\) -> Result', text)
    if len(found) != 1:
        sys.exit('trace.py: verify_signed_data is not one function')
    names = re.findall(r'(\w+): ', found[0])
    wrapper = WRAPPER % {'parameters': found[0], 'arguments': ', '.join(names), 'key': names[1], 'signed': names[2]}
    return replaced(r'pub\(crate\) fn verify_signed_data\(', 'fn verify_signed_data_unlogged(', text, 1) + wrapper


def main(src):
    shutil.copy(os.path.join(os.path.dirname(os.path.abspath(__file__)), 'trace.rs'), src)
    edit(os.path.join(src, 'lib.rs'), lambda text: text + '\npub mod trace;\n')
    edit(os.path.join(src, 'verify_cert.rs'), budgets_and_distrust)
    edit(os.path.join(src, 'signed_data.rs'), questions)


if __name__ == '__main__':
    if len(sys.argv) != 2:
        sys.exit(__doc__)
    main(sys.argv[1])
