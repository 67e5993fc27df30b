#!/usr/bin/env python3
"""Name constraints of paths, and what the oracle says of them: `cases` prints the input, `answers ORACLE` reads it and prints the answers.

A line of the input is a path under the anchor R, as crates/constraints_vectors/src/main.rt reads it. The oracle (docs/ORACLE.md) is given
the same certificates, whose signatures are right, and the same number of comparisons. Every other path that it could try fails at a signature,
with a refusal of lower rank than any of name constraints and before any comparison; so its answer is that of the one path, and the third
number that it says is used counts this path's comparisons.
Usage: tools/record_constraints.py cases > crates/constraints_vectors/stdin
       tools/record_constraints.py answers ORACLE < crates/constraints_vectors/stdin > crates/constraints_vectors/stdout"""
import random
import sys

sys.dont_write_bytecode = True
from vectors import ask, main, outcome
from toy import NC, anchor, bc, cert, directory, dns, ext, ip, mail, mail_subject, nc_value, other, registered, san, seq, subtree, tlv, uri


def certificate(subject, issuer, own, signer, names=None, constraints=None, authority=False, **kw):
    """own, signer: a key's text and its scheme."""
    extensions = [bc()] if authority else []
    if names is not None:
        extensions.append(san(*names))
    if constraints is not None:
        extensions.append(ext(NC, seq(constraints), True))
    return cert(subject, issuer, own[0], signer[0], extensions or None, alg=signer[1], key_alg=own[1], **kw)


# ---- general names and entries
X400 = tlv(0xa3, b'')
EDI = tlv(0xa5, tlv(0x81, b'x'))
UNKNOWN = tlv(0x89, b'')


def permitted(*bases): return nc_value(bases)
def excluded(*bases): return nc_value(None, bases)


ROOT = ('kr', 'A')


def line(left, anchor, end, *intermediates):
    """anchor: the content of its constraints or None. intermediates from below up."""
    field = lambda b: len(b).to_bytes(2, 'big') + b
    head = left.to_bytes(3, 'big') + bytes([anchor is not None, len(intermediates)])
    return (head + b''.join(field(b) for b in (anchor or b'', end) + intermediates)).hex()


def leaf(names=None, subject='E', issuer='R', signer=ROOT, constraints=None, **kw):
    return certificate(subject, issuer, ('ke', 'A'), signer, names, constraints, **kw)


def middle(subject, issuer, own, signer, names=None, constraints=None):
    return certificate(subject, issuer, own, signer, names, constraints, True)


MANY = 1000


def cases():
    # one issuer, one certificate: each pair of a constraint and names
    P, X = permitted, excluded
    for constraint, names in [
        (P(dns('a.b')), [dns('a.b')]), (P(dns('a.b')), [dns('c.a.b')]), (P(dns('a.b')), [dns('xa.b')]), (P(dns('a.b')), [dns('A.B')]),
        (P(dns('.a.b')), [dns('a.b')]), (P(dns('.a.b')), [dns('c.a.b')]), (P(dns('')), [dns('a.b')]), (X(dns('')), [dns('a.b')]),
        (P(dns('a.b')), [dns('*.a.b')]), (P(dns('c.a.b')), [dns('*.a.b')]), (P(dns('.a.b')), [dns('*.a.b')]), (X(dns('a.b')), [dns('*.a.b')]),
        (X(dns('c.a.b')), [dns('*.a.b')]), (X(dns('.c.a.b')), [dns('*.a.b')]), (X(dns('.a.b')), [dns('a.b')]), (X(dns('.a.b')), [dns('c.a.b')]),
        (X(dns('d.c.a.b')), [dns('*.a.b')]), (X(dns('b')), [dns('*.a.b')]),
        # malformed: the name, the entry, both; and neither of a kind that is compared
        (P(dns('a.b')), [dns('-')]), (P(dns('-')), [dns('a.b')]), (P(dns('-')), [dns('*')]), (P(ip([10, 0, 0, 0, 255, 0, 0, 0])), [dns('-'), ip([10, 1, 1, 1])]),
        # addresses: inside, outside, the other family, broken masks before and after the deciding byte, sizes that are none
        (P(ip([10, 0, 0, 0, 255, 0, 0, 0])), [ip([10, 1, 2, 3])]), (P(ip([10, 0, 0, 0, 255, 0, 0, 0])), [ip([11, 1, 2, 3])]),
        (X(ip([10, 0, 0, 0, 255, 0, 0, 0])), [ip([10, 1, 2, 3])]), (X(ip([10, 0, 0, 0, 255, 0, 0, 0])), [ip([11, 1, 2, 3])]),
        (P(ip([10, 0, 0, 0, 255, 0, 0, 0])), [ip(range(16))]), (X(ip([10, 0, 0, 0, 255, 0, 0, 0])), [ip(range(16))]), (P(ip([0] * 32)), [ip(range(16))]),
        (P(ip([10, 0, 0, 0, 0, 255, 0, 0])), [ip([10, 0, 0, 1])]), (X(ip([11, 0, 0, 0, 255, 1, 0, 0])), [ip([10, 0, 0, 1])]),
        (P(ip([10, 0, 0])), [ip([10, 0, 0, 1])]), (P(ip([10, 0, 0, 0, 255, 0, 0, 0])), [ip([10])]),
        # a match, then a broken entry; the same the other way round; a miss and a hit
        (P(dns('a.b'), dns('-')), [dns('a.b')]), (P(dns('-'), dns('a.b')), [dns('a.b')]), (P(dns('c.d'), dns('a.b')), [dns('a.b')]),
        (P(dns('a.b'), UNKNOWN), [dns('a.b')]), (P(UNKNOWN), []), (tlv(0xa0, subtree(dns('a.b')) + b'\x05\0'), [dns('a.b')]),
        (tlv(0xa0, subtree(dns('a.b'), tlv(0x80, b'\0'))), [dns('a.b')]), (tlv(0xa0, subtree(mail('a@b'), tlv(0x81, b'\1'))), [dns('a.b')]),
        (tlv(0xa0, tlv(0x31, dns('a.b'))), [dns('a.b')]), (tlv(0xa0, b'\x30'), [dns('a.b')]),
        # names that cannot be read, before and after one that is refused
        (P(dns('a.b')), [UNKNOWN]), (P(dns('a.b')), [dns('a.b'), UNKNOWN]), (P(dns('a.b')), [dns('x'), UNKNOWN]), (b'', [UNKNOWN]), (b'', [b'\x82']),
        # empty: no list, empty lists, no names
        (b'', [dns('a.b')]), (P(), [dns('a.b')]), (X(), [dns('a.b')]), (P() + X(), [dns('a.b')]), (P(dns('a.b')), []), (P(dns('a.b')), None),
        # permitted and excluded; the wrong order, twice, and what is left over, which only shows once nothing else refuses
        (P(dns('a.b')) + X(dns('c.a.b')), [dns('a.b')]), (P(dns('a.b')) + X(dns('c.a.b')), [dns('d.c.a.b')]),
        (X(dns('c')) + P(dns('a.b')), [dns('a.b')]), (X(dns('c')) + P(dns('a.b')), [dns('c')]), (P(dns('a.b')) + P(dns('a.b')), [dns('a.b')]),
        (P(dns('a.b')) + b'\x05\0', [dns('a.b')]), (P(dns('a.b')) + b'\x05\0', [dns('x')]), (P(dns('a.b')) + b'\xff', [dns('a.b')]), (b'\xa0\x05', []), (b'\xa1\x80', []),
        (X(dns('a.b'), UNKNOWN), [dns('a.b')]), (X(dns('c.d'), UNKNOWN), [dns('a.b')]),
    ]:
        yield line(MANY, constraint, leaf(names))
    # every kind against every kind, permitted and excluded
    kinds = [dns('a.b'), ip([10, 0, 0, 1]), uri('http://a.b/'), mail('m@a.b'), directory('E'), other(), X400, EDI, registered()]
    for base in [dns('a.b'), ip([10, 0, 0, 0, 255, 0, 0, 0]), uri('a.b'), mail('a.b'), directory('E'), other(), X400, EDI, registered()]:
        for subtrees in (permitted(base), excluded(base)):
            for n in kinds:
                if n[0] == base[0] or n is kinds[0]:
                    yield line(MANY, subtrees, leaf([n]))
    # an empty subject under a directory entry; a mail address in the subject under a mail entry, where the RFC has it compared
    yield line(MANY, permitted(directory('E')), leaf([dns('a.b')], subject=''))
    yield line(MANY, permitted(mail('a.b')), leaf(None, subject_raw=mail_subject('m@elsewhere')))
    # budgets: exactly enough, one too few, none; the same before a refusal and before what is left over
    three = permitted(dns('a.b'), dns('c.d')) + excluded(mail('m@a.b'))
    for left in (0, 1, 5, 6, 8, 9, 10):
        yield line(left, three, leaf([dns('a.b'), dns('c.d')]))
    for left in (0, 1, 2, 3):
        yield line(left, permitted(dns('a.b'), UNKNOWN), leaf([dns('a.b')]))
        yield line(left, permitted(dns('c.d')) + excluded(dns('a.b')), leaf([dns('a.b')]))
        yield line(left, permitted(dns('a.b')) + b'\x05\0', leaf([dns('a.b')]))
    # two and three issuers: the anchor's constraints reach every certificate, an intermediate's those below it and not its own names
    i, j = ('ki', 'A'), ('kj', 'A')
    ab, cd = permitted(dns('a.b')), permitted(dns('c.d'))
    for anchor, upper, lower, own, upper_names, lower_names, names in [
        (ab, None, None, None, None, None, [dns('a.b')]), (ab, None, None, None, [dns('x.a.b')], [dns('y.a.b')], [dns('a.b')]),
        (ab, None, None, None, [dns('x')], None, [dns('a.b')]), (ab, None, None, None, None, [dns('x')], [dns('a.b')]), (ab, None, None, None, None, None, [dns('x')]),
        (None, ab, None, None, [dns('x')], [dns('a.b')], [dns('a.b')]), (None, ab, None, None, [dns('x')], [dns('x')], [dns('a.b')]),
        (None, ab, None, None, [dns('x')], None, [dns('x')]), (None, None, ab, None, [dns('x')], [dns('x')], [dns('a.b')]), (None, None, ab, None, None, None, [dns('x')]),
        (ab, cd, None, None, None, None, [dns('a.b')]), (ab, cd, None, None, None, None, [dns('a.b'), dns('c.d')]), (cd, None, ab, None, None, None, [dns('a.b')]),
        (ab, ab, ab, None, [dns('a.b')], [dns('a.b')], [dns('a.b')]), (ab, excluded(dns('c.a.b')), None, None, None, None, [dns('c.a.b')]),
        (None, None, None, cd, None, None, [dns('a.b')]), (None, None, None, b'\xff', None, None, [dns('a.b')]), (None, b'\xff', None, None, None, None, [dns('a.b')]),
        (ab, b'\xff', None, None, None, None, [dns('x')]), (None, permitted(directory('J')), None, None, None, None, None),
    ]:
        for left in (MANY, 4, 5):
            yield line(left, anchor, leaf(names, 'E', 'I', i, own), middle('I', 'J', i, j, lower_names, lower), middle('J', 'R', j, ROOT, upper_names, upper))
    # self-issued: the lower certificate renews the upper one's key. The upper key is of another scheme, so that it cannot have signed the end entity.
    k = ('kk', 'B')
    for upper_names, lower_names, names in [(None, None, [dns('a.b')]), (None, [dns('x.a.b')], [dns('a.b')]), (None, [dns('x')], [dns('a.b')]), ([dns('x')], None, [dns('a.b')])]:
        for anchor, upper in [(ab, None), (None, ab), (ab, ab)]:
            yield line(MANY, anchor, leaf(names, 'E', 'I', i), middle('I', 'I', i, k, lower_names), middle('I', 'R', k, ROOT, upper_names, upper))
    # six intermediates
    six = [('k%d' % n, 'A') for n in range(7)] + [ROOT]
    title = ['N%d' % n for n in range(7)] + ['R']
    for left, names in ((MANY, [dns('a.b')]), (MANY, [dns('x')]), (112, [dns('a.b')]), (111, [dns('a.b')])):
        chain = [middle(title[n], title[n + 1], six[n], six[n + 1], names, permitted(dns('a.b'), mail('q'))) for n in range(1, 7)]
        yield line(left, permitted(dns('a.b'), mail('q')), certificate(title[0], title[1], six[0], six[1], names), *chain)
    # what comes up at random
    random.seed(5280)
    bases = [dns('a.b'), dns('*.a.b'), dns('c.a.b'), dns('a.b.'), dns(''), dns('.a.b'), dns('b'), ip([10, 0, 0, 1]), ip([10, 0, 0, 0, 255, 0, 0, 0]), ip([10, 0, 0, 0, 0, 255, 0, 0]), uri('a.b'), mail('a@b')]
    likely = [dns('a.b'), dns('c.a.b'), dns('*.a.b'), ip([10, 0, 0, 1])]

    def some(what, most): return [random.choice(what) for _ in range(random.randint(0, most))]

    def content():
        if random.random() < .3:
            return None
        parts = [permitted(*some(bases, 3)) if random.random() < .6 else b'', excluded(*some(bases, 2)) if random.random() < .5 else b'']
        return b''.join(parts if random.random() < .95 else parts[::-1])

    for _ in range(120):
        yield line(random.choice((MANY, MANY, 3, 9)), content(), leaf(some(likely, 3), 'E', 'I', i), middle('I', 'R', i, ROOT, some(likely, 1), content()))


def read(text):
    b = bytes.fromhex(text)
    left, bound, depth, fields, at = int.from_bytes(b[:3], 'big'), b[3] == 1, b[4], [], 5
    while at < len(b):
        n = int.from_bytes(b[at:at + 2], 'big')
        fields.append(b[at + 2:at + 2 + n])
        at += 2 + n
    assert len(fields) == depth + 2
    return left, fields[0] if bound else None, fields[1], fields[2:]


def answers(oracle):
    paths = [read(text) for text in sys.stdin.read().splitlines()]
    said = ask(oracle, [dict(ee=end, ints=intermediates, anchors=[anchor('R', ROOT[0], constraints, ROOT[1])], budget=(100, 200000, left))
                        for left, constraints, end, intermediates in paths])
    for (left, *_), fields in zip(paths, said):
        assert fields['parse'] == 'ok', fields
        print('%s %d' % (outcome(fields['path']), left - int(fields['used'].split()[2])))


main(__doc__, cases, answers)
