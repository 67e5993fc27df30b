#!/usr/bin/env python3
"""The vectors of crate cert_vectors: `cases` prints its standard input; `answers ORACLE` reads that and prints what is to be found.

Whether a certificate is accepted, and the refusal, is what the program ORACLE says of it, as an end entity and as a trusted certificate
(case format: docs/ORACLE.md). The places of an accepted one are stated by the reader below, which goes by the order of the fields in RFC
5280, 4.1, and shares nothing with the crate. One difference from the Rust is listed (docs/DIFFERENCES.md): a certificate of version 1 is no anchor.
Usage: tools/record_cert.py cases > crates/cert_vectors/stdin
       tools/record_cert.py answers ORACLE < crates/cert_vectors/stdin > crates/cert_vectors/stdout"""
import sys

sys.dont_write_bytecode = True
from vectors import ask, main, outcome, padded, unpadded
from answers import has_no_version
from toy import ALG, FALSE, SERVER, TRUE, bits, cert, dns, ext, length, name, nc_value, oid, seq, spki, utc

KNOWN = (15, 17, 19, 30, 31, 37)

# ---- certificates
KEY = b'\xaa'
VALIDITY = seq(utc('700101000000Z'), utc('491231235959Z'))


def extension(number, critical, value, after=b''):
    return ext('2.5.29.%d' % number, value, critical, after)


def certificate(*extensions, **kw):
    return cert('A', 'A', KEY, KEY, extensions or None, validity=VALIDITY, **kw)


EMPTY = seq()
USAGE = bits(b'\x86', 1)
NAMES = seq(dns('a.b'))
BASIC = seq(TRUE)
CONSTRAINTS = seq(nc_value([dns('b')]))
POINTS = seq(EMPTY)
PURPOSES = seq(oid(SERVER))
VALUES = dict(zip(KNOWN, (USAGE, NAMES, BASIC, CONSTRAINTS, POINTS, PURPOSES)))


def rich():
    return certificate(extension(15, TRUE, USAGE), extension(17, b'', NAMES), extension(19, TRUE, BASIC), extension(30, TRUE, CONSTRAINTS),
                       extension(31, b'', POINTS), extension(37, FALSE, PURPOSES), extension(14, b'', bytes.fromhex('0401aa')))


def cases():
    lines = []

    def add(b, kind='r', zeros=0):
        lines.append(kind + ' ' + padded(b.hex(), zeros))

    add(certificate())
    add(rich())
    add(rich(), 'f')
    add(rich(), 'p')
    add(certificate(), 'f')
    # each extension: its value, once and twice, critical, not critical and written so; empty, no SEQUENCE, left over, a second form of a length
    other = {n: VALUES[n] for n in KNOWN}
    other[14] = b''
    other[32] = EMPTY
    other[0] = b''
    for n, value in other.items():
        for critical in (b'', TRUE, FALSE, bytes.fromhex('010101'), bytes.fromhex('0100'), bytes.fromhex('0102ff00'), bytes.fromhex('018101ff')):
            add(certificate(extension(n, critical, value)))
        for v in (b'', EMPTY, value, b'\x00', b'\x30', bytes.fromhex('3001'), bytes.fromhex('308100'), value + b'\x00', EMPTY + EMPTY, bytes.fromhex('0500'), seq(b'\0' * 127), seq(b'\0' * 128)):
            add(certificate(extension(n, b'', v)))
        add(certificate(extension(n, b'', value), extension(n, b'', value)))
        add(certificate(extension(n, b'', value), extension(n, b'', b'\x05')))
        add(certificate(extension(n, b'', value), extension(14, TRUE, b''), extension(n, TRUE, value)))
        add(certificate(extension(n, b'', value, b'\x05\0')))
        add(certificate(extension(n, TRUE, value, b'\0')))
        add(certificate(extension(n, b'', value) + b'\0'))
        add(certificate(extension(n, b'', value), after_ext=b'\0'))
    for a in KNOWN:                                                                   # every two kinds, in both orders
        for b in KNOWN:
            if a != b:
                add(certificate(extension(a, b'', VALUES[a]), extension(b, TRUE, VALUES[b])))
    for identifier in ('0600', '0601', '060155', '0602551d', '0604551d1300', '0603551c13', '0603541d13', '0703551d13', '068103551d13', '0603551d93'):
        for critical in (b'', TRUE):
            add(certificate(ext(bytes.fromhex(identifier), BASIC, critical)))
    for x in ('3000', '0500', '3002', '30020600', '30050600010100', '300706000101ff0400', '3004060004', '300406000400', '30060600040004', '3006060005000400',
              '300606000100', '30810406000400', '30820004', '1000', '31040600040005'):
        add(certificate(bytes.fromhex(x)))
    for x in ('a300', 'a3023000', 'a3', 'a30130', 'a3033000', 'a304300005', 'a3043000', 'a30330000500', 'a303300005', 'a3810230003000', 'a381023000', 'a3033001', 'a30530003000',
              'a302300005', 'a30230000500', 'a10130', '8100', 'a100', '8200', 'a200', 'a000', 'a400', '0500', '00', '30', '3000', 'a3023100', 'a3020500', 'a10403020000', '81020000',
              '81020000a3023000', '82020000', '8201aaa3023000'):
        add(certificate(ext_field=bytes.fromhex(x)))
    # the version
    for v in ('', 'a0', 'a000', 'a00101', 'a0020200', 'a003020100', 'a003020101', 'a003020103', 'a003020182', 'a0030201ff', 'a00402020002', 'a00402020080',
              'a0040201020a', 'a004020102', 'a00502010205', 'a0050201020500', 'a08103020102', 'a003030102', 'a00302810102', 'a00402810102', 'a103020102', '020102',
              '800102', 'a00402020102'):
        add(certificate(version=bytes.fromhex(v)))
    # serial number and algorithm
    for n in ('', '02', '0200', '0201ff', '020100', '02020000', '0281020101', '0301ff', '0202', '0114') + ('0214' + '7f' * 20, '027f' + '01' * 127, '028180' + '01' * 128, '028100', '0282000101'):
        add(certificate(serial=bytes.fromhex(n)))
    for a in ('', '30', '3000', '300506032a0304', '300506032a0305', '300406032a03', '310506032a0304', '30810506032a0304', '300506032a03'):
        b = bytes.fromhex(a)
        add(certificate(alg=b, inner_alg='A'))
        add(certificate(inner_alg=b))
        add(certificate(alg=b))
    # the four fields: each missing, empty, of another tag, in another form, cut
    good = [seq(name('A')), VALIDITY, seq(name('A')), seq(spki(KEY))]
    for i in range(4):
        for x in ('', '3000', '3100', '308100', '30', '3002ffff', '30800000', '3003ff', '1000'):
            add(certificate(fields=good[:i] + [bytes.fromhex(x)] + good[i + 1:]))
        add(certificate(fields=good[:i]))
    add(certificate(fields=good + [seq()]))
    add(certificate(after=b'\0'))
    add(certificate(after=seq()))
    add(certificate(after_sig=b'\0'))
    add(certificate(after_sig=seq()))
    add(certificate(after_ext=b'\0'))
    add(certificate(after_ext=b'\0', after=b'\0'))
    nothing = seq(EMPTY, seq(ALG['A']), bits(KEY))
    add(nothing + b'\0')
    add(nothing)
    # the signature
    for g in ('', '03', '0300', '030100', '030101', '030107', '03020000', '0302ff00', '0303000000', '03810100', '0380', '0400', '23020000', '030200', '03020000ff', '0382000100'):
        add(certificate(sig_tlv=bytes.fromhex(g)))
    # not even a SEQUENCE
    for x in ('', '30', '3000', '3080', '308000', '30023000', '300430003000', '300730003000030100', '3009300030000301000500', '310730003000030100', '30810730003000030100',
              '300830003000030100', '300630003000030100', '1f00', 'ff'):
        add(bytes.fromhex(x))
    # version 1
    add(certificate(version=b''))
    add(certificate(extension(19, b'', BASIC), version=b''))
    add(certificate(version=b'', alg='B', inner_alg='A'))
    # lengths: every form at its ends, of the signature, which is last, so that zeros can pad it
    for n in (0, 1, 126, 127, 128, 129, 254, 255, 256, 257):
        for form in ('%02x' % n if n < 128 else '', '81%02x' % n if n < 256 else '', '82%04x' % n, '83%06x' % n, '84%08x' % n):
            if form:
                g = b'\x03' + bytes.fromhex(form) + b'\0' * n
                add(certificate(sig_tlv=g))
    base = certificate(sig_tlv=b'')[2:]                                               # what stands before the signature
    for size in (65533, 65534, 65535, 65536):
        n = size - len(base) - 4
        whole = b'\x30' + length(size) + base + b'\x03' + length(n)
        add(whole, zeros=n)
        add(whole, zeros=n - 1)
        add(whole, zeros=n + 1)
    for size, form in ((65533, '8300fffd'), (65533, '840000fffd'), (65535, '8300ffff')):
        n = size - len(base) - 4
        add(b'\x30' + bytes.fromhex(form) + base + b'\x03' + length(n), zeros=n)
    # keys
    for k in ('', '30', '3000', '300003', '30000300', '3000030100', '3000030101', '30000301aa', '3000030200aa', '3000030200aa00', '30000301000500', '3000040100', '300003810100', '3100030100',
              '300506032a0304030200aa', '300506032a03040302ffaa', '300506032a0304030300aa', '300506032a030403020000', '30810506032a0304030200aa', '300506032a0304038200020000',
              '300506032a0304030200aa030200aa', '300506032a0304'):
        add(bytes.fromhex(k), 'k')
    return lines


# ---- where the fields of an accepted certificate lie: RFC 5280, 4.1 and 4.2, in their order
def value(b, at):
    """Content of the value at a place: where it starts and ends."""
    n, start = b[at + 1], at + 2
    if n >= 128:
        size = n - 128
        n, start = int.from_bytes(b[start:start + size], 'big'), start + size
    return start, start + n


def places(b):
    whole = value(b, 0)
    signed = value(b, whole[0])
    algorithm = value(b, signed[1])
    signature = value(b, algorithm[1])
    fields, at = [], value(b, signed[0])[1]                 # after the version
    for _ in range(6):                                      # serial number, algorithm, issuer, validity, subject, key
        fields.append(value(b, at))
        at = fields[-1][1]
    slots = {}
    if at < signed[1]:
        at, end = value(b, value(b, at)[0])
        while at < end:
            inside = value(b, at)
            identifier = value(b, inside[0])
            next = identifier[1]
            if b[next] == 1:                                # critical is written
                next = value(b, next)[1]
            content = value(b, next)
            which = b[identifier[0]:identifier[1]]
            if len(which) == 3 and which[:2] == b'\x55\x1d' and which[2] in KNOWN:
                slots[which[2]] = content if which[2] == 15 else value(b, content[0])
            at = inside[1]
    serial, inner, issuer, validity, subject, key = fields
    head = [(whole[0], signed[1]), algorithm, (signature[0] + 1, signature[1]), serial, inner, issuer, validity, subject, key]
    return head, [slots.get(n) for n in KNOWN]


# ---- what the program prints of an answer
LETTERS = {'BadDer': 'D', 'SignatureAlgorithmMismatch': 'A', 'UnsupportedCertVersion': 'V', 'UnsupportedCriticalExtension': 'U', 'ExtensionValueInvalid': 'I',
           'TrailingData(SignedData)': 'S', 'TrailingData(Certificate)': 'C', 'TrailingData(CertificateTbsCertificate)': 'T', 'TrailingData(CertificateExtensions)': 'X',
           'TrailingData(Extension)': 'E', 'TrailingData(BitString)': 'B', 'TrailingData(Bool)': 'L'}


def span(p):
    return ' -' if p is None else ' %d-%d' % p


def digit(spans):
    sum = 0
    for p in spans:
        start, end = p or (0, 0)
        sum = (sum * 3 + start % 10 + end % 10 * 7) % 10
    return str(sum)


def answer(b, said, brief):
    strict, anchor = said
    if strict == 'ok':
        head, slots = places(b)
        strict = digit(head + slots) if brief else 'ok' + ''.join(map(span, head + slots))
    else:
        strict = LETTERS[strict] if brief else ' ' + strict
    if anchor == 'ok':
        head, slots = places(b)
        taken = [head[7], head[8], slots[3]]
        anchor = digit(taken) if brief else ' ok' + ''.join(map(span, taken))
    else:
        anchor = LETTERS[anchor] if brief else ' ' + anchor
    return strict + anchor if brief else strict + ' |' + anchor


# ---- the oracle
def ask_certificates(oracle, certificates):
    """For each certificate: what it is as an end entity, and as an anchor."""
    return [(outcome(read['parse']), read['anchors']) for read in ask(oracle, [dict(ee=b, anchors=[b]) for b in certificates])]


def ask_keys(oracle, keys):
    """For each key's content: ok, or the refusal with which a signature by it is answered."""
    said = ask(oracle, [dict(ee=certificate(), anchors=[(name('A'), k, None)]) for k in keys])
    return [read['q'].split('!key:')[1].split()[0] if '!key:' in read['q'] else 'ok' for read in said]


def listed_difference(b, said):
    """Certificates of version 1 are not read as anchors: BadDer, where the Rust takes them."""
    return (said[0], 'BadDer') if said[1] == 'ok' and has_no_version(b.hex()) else said


def answers(oracle):
    lines = []
    for line in sys.stdin.read().splitlines():
        kind, text = line.split(' ')
        b = unpadded(text)
        if kind == 'f':
            lines.append((kind, [b[:i] + bytes([b[i] ^ 0x80 >> k]) + b[i + 1:] for i in range(len(b)) for k in range(8)]))
        elif kind == 'p':
            lines.append((kind, [b[:n] for n in range(len(b))]))
        else:
            lines.append((kind, [b]))
    said = iter(ask_certificates(oracle, [b for kind, bs in lines if kind != 'k' for b in bs]))
    of_keys = iter(ask_keys(oracle, [b for kind, bs in lines if kind == 'k' for b in bs]))
    differences = 0
    for kind, bs in lines:
        if kind == 'k':
            e = next(of_keys)
            b = bs[0]
            if e != 'ok':
                print(' ' + e)
                continue
            algorithm = value(b, 0)
            key = value(b, algorithm[1])
            print('ok' + span(algorithm) + span((key[0] + 1, key[1])))
            continue
        texts = []
        for b in bs:
            s = next(said)
            t = listed_difference(b, s)
            differences += s != t
            texts.append(answer(b, t, kind != 'r'))
        print(''.join(texts))
    print('%d answers of %d are listed differences' % (differences, sum(len(bs) for kind, bs in lines)), file=sys.stderr)


main(__doc__, cases, answers)
