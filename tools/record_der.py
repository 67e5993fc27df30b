#!/usr/bin/env python3
"""The vectors of crate der_vectors: `cases` prints its standard input; `answers ORACLE` reads that and prints what is to be found.

The answers are worked out by the reader below, which is written from ITU-T X.690 and shares nothing with the crate. Where a certificate can
put the same question to the Rust, it is put, by the program ORACLE (case format and toy certificates: docs/ORACLE.md), and this
script stops at the first line on which the two differ. Asked so: a value and a row (object identifiers of the key purposes), a BOOLEAN and
a number (basic constraints), a BIT STRING (the signature), and the sizes around the limit (the certificate as a whole).
Usage: tools/record_der.py cases > crates/der_vectors/stdin
       tools/record_der.py answers ORACLE < crates/der_vectors/stdin > crates/der_vectors/stdout"""
import sys

sys.dont_write_bytecode = True
from vectors import ask, main, outcome, padded, unpadded
from toy import BC, EKU, cert, ext, seq

LIMIT = 65535


# ---- the cases
def cases():
    lines = []

    def add(head, zeros=0):
        lines.append(padded(head, zeros))

    for tag in ('06', '02', '30', '1f', 'bf', '9f', 'ff', '00', 'a0', '81'):   # identifiers: one octet, or five ones in the low bits
        add(tag + '00')
    add('')
    add('06')
    # every form of a length at its ends, one below and one beyond, whole, one short and one over
    for size, forms in ((0, ('00', '8100')), (1, ('01', '8101')), (126, ('7e', '817e')), (127, ('7f', '817f', '82007f')),
                        (128, ('8180', '820080', '80')), (254, ('81fe', '8200fe')), (255, ('81ff', '8200ff', '830000ff', '84000000ff')),
                        (256, ('820100', '83000100')), (257, ('820101',))):
        for form in forms:
            add('06' + form, size)
    for size, form in ((65533, '82fffd'), (65534, '82fffe'), (65535, '82ffff'), (65535, '8300ffff'), (65536, '83010000'), (65537, '83010001')):
        add('06' + form, size)
    add('06820100', 255)
    add('06820100', 257)
    add('0681ff', 254)
    add('067f', 126)
    add('0601')
    add('068401000000')
    add('0684ffffffff')
    add('06850100000000')
    for first in ('80', '83', '84', '85', '88', 'fe', 'ff'):
        add('06' + first + '0000000000000001', 8)
    for cut in ('0681', '0682', '068201', '0683', '06830100', '0684', '06840100', '0684010000'):   # cut within the length
        add(cut)
    # BOOLEAN
    for text in ('0101ff', '010100', '010101', '010180', '0101fe', '0100', '0102ff00', '0102ffff', '01020100', '01020000', '018101ff', '017fff', '01',
                 '0101', '01820001ff', '1101ff', '2101ff'):
        add(text)
    # INTEGER
    for text in ('0200', '020100', '020101', '02017f', '020180', '0201ff', '02020000', '0202007f', '02020080', '020200ff', '02020100', '02027fff',
                 '02028000', '0202ff7f', '0202ffff', '0203000080', '0203008000', '0203010000', '020300ffff', '020400800000', '02810102', '0202ff', '02'):
        add(text)
    add('02141' + '1' * 39)
    add('021500' + 'ff' * 20)
    add('028200ff', 255)
    # BIT STRING, and contents read as flags
    for text in ('0300', '030100', '030101', '030108', '0302008f', '03020080', '03020180', '03020181', '0302078f', '03020780', '03020880', '0303000102',
                 '0381020080', '030200', '2302008f', '03'):
        add(text)
    for text in ('00', '01', '07', '08', 'ff', '0000', '0080', '0180', '0181', '0106', '0206', '0206c0', '0780', '0740', '07c0', '0480', '04ff', '04f0', '0008',
                 '000000', '008000', '07800080', '07ff80', '07ff40', '0880', '0a00', '00ffff', '00ffffff', '0000000001'):
        add(text)
    # values in a row
    for text in ('06000600', '0600060006012a', '060006', '06000601', '0600060180', '060002000600', '06008000', '0601000601'):
        add(text)
    return lines


# ---- X.690
class Broken(Exception):
    pass


def length(b, at):
    """8.1.3, 10.1: a length of at most four octets after its first, in its shortest form."""
    if at >= len(b):
        raise Broken
    first = b[at]
    if first < 128:
        return first, at + 1
    k = first - 128
    if not 1 <= k <= 4 or at + 1 + k > len(b):
        raise Broken
    n = int.from_bytes(b[at + 1:at + 1 + k], 'big')
    if n < 128 or n < 256 ** (k - 1):
        raise Broken
    return n, at + 1 + k


def value(b, at=0):
    """8.1.1, 8.1.2: one identifier octet, a length, so many octets."""
    if at >= len(b) or b[at] & 31 == 31:
        raise Broken
    n, start = length(b, at + 1)
    if n >= LIMIT or start + n > len(b):
        raise Broken
    return b[at], start, start + n


def expected(b, tag, refusal):
    try:
        t, start, end = value(b)
    except Broken:
        return refusal, None, None
    return ('', start, end) if t == tag else (refusal, None, None)


def boolean(b):
    if not b or b[0] != 1:
        return 'false 0'
    why, start, end = expected(b, 1, 'TrailingData(Bool)')
    if why:
        return why
    if start == end or b[start] not in (0, 255):
        return 'BadDer'
    return ('true %d' if b[start] else 'false %d') % end if end - start == 1 else 'TrailingData(Bool)'


def digits(b):
    """8.3: where the digits of a number that is not negative stand."""
    why, start, end = expected(b, 2, 'BadDer')
    if why or start == end or b[start] > 127:
        return None
    if b[start] == 0 and end - start > 1:
        return None if b[start + 1] < 128 else (start + 1, end)
    return start, end


def byte(b):
    d = digits(b)
    return 'BadDer' if d is None or d[1] - d[0] != 1 else '%d %d' % (b[d[0]], d[1])


def bits(b):
    why, start, end = expected(b, 3, 'TrailingData(BitString)')
    if why:
        return why
    return 'BadDer' if start == end or b[start] else '%d %d' % (start + 1, end)


def flags(b):
    """8.6.2, 11.2.1, of a content: the flags among the first sixteen that are set."""
    if not b or b[0] > 7 or (len(b) == 1 and b[0]) or (len(b) > 1 and b[-1] % 2 ** b[0]):
        return 'BadDer'
    text = ''.join('{:08b}'.format(x) for x in b[1:])
    return ' '.join(str(k) for k in range(min(16, len(text))) if text[k] == '1')


def row(b):
    at = n = 0
    try:
        while at < len(b):
            at = value(b, at)[2]
            n += 1
    except Broken:
        return 'BadDer'
    return str(n)


def reading(b):
    try:
        v = '%d %d %d' % value(b)
    except Broken:
        v = 'BadDer'
    d = digits(b)
    found = (('value', v), ('boolean', boolean(b)), ('byte', byte(b)), ('digits', 'BadDer' if d is None else '%d %d' % d), ('bits', bits(b)),
             ('flags', flags(b)), ('row', row(b)))
    return '; '.join((k + ' ' + t).rstrip() for k, t in found)


# ---- the Rust
def certificate(*extensions, **kw):
    return cert('', '', 'a', 'a', extensions or None, **kw)


def filled(room):
    """A certificate with an extension of so many zeros."""
    return certificate(ext('2.5.29.99', bytes(room)))


def questions(b):
    """Certificates that put the line to the Rust, each with the answer that would agree."""
    asked = []
    small = len(b) < 60000
    if small and b:
        # key purposes: object identifiers to the end, none of them the wanted one
        try:
            at = 0
            while at < len(b):
                t, _, at = value(b, at)
                if t != 6:
                    raise Broken
            answer = 'RequiredEkuNotFoundContext'
        except Broken:
            answer = 'BadDer'
        asked.append((certificate(ext(EKU, seq(b))), answer))
    if small and b[:1] == b'\x01' and (boolean(b).split()[-1] == str(len(b)) or not boolean(b).split()[-1].isdigit()):
        # basic constraints: a BOOLEAN and nothing else
        said = boolean(b)
        answer = {'true': 'CaUsedAsEndEntity', 'false': 'UnknownIssuer'}.get(said.split()[0], said)
        asked.append((certificate(ext(BC, seq(b))), answer))
    if small and b[:1] == b'\x02':
        # basic constraints: no BOOLEAN, a number from 0 to 255 and nothing else
        asked.append((certificate(ext(BC, seq(b))), 'UnknownIssuer' if byte(b).split()[-1] == str(len(b)) else 'BadDer'))
    if small and b[:1] == b'\x03':
        # the signature, with nothing after it
        said = bits(b)
        answer = said if not said[0].isdigit() else 'UnknownIssuer' if said.split()[-1] == str(len(b)) else 'TrailingData(SignedData)'
        asked.append((certificate(sig_tlv=b), answer))
    if not small:
        # a certificate whose own content has the size that the line announces
        wanted = len(b) - 4 if b[1] == 0x82 else len(b) - 5
        c = filled(wanted - len(filled(60000)[4:]) + 60000)
        head = bytes([0x30]) + b[1:len(b) - wanted]
        c = head + c[len(c) - wanted:]
        asked.append((c, 'UnknownIssuer' if not reading(b).startswith('value BadDer') else 'TrailingData(SignedData)'))
    return asked


def answers(oracle):
    lines = [line.rstrip('\n') for line in sys.stdin]
    found, cases, wanted = [], [], []
    for line in lines:
        b = unpadded(line)
        found.append(reading(b))
        for c, answer in questions(b):
            cases.append(dict(ee=c))
            wanted.append((line[:40], answer))
    for read, (line, answer) in zip(ask(oracle, cases), wanted):
        said = outcome(read['path' if read['parse'] == 'ok' else 'parse'])
        if said != answer:
            sys.exit('%s: the oracle says %s, X.690 %s' % (line, said, answer))
    print('%d questions put to the oracle, all agree' % len(wanted), file=sys.stderr)
    print('\n'.join(found))


main(__doc__, cases, answers)
