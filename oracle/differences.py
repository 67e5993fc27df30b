#!/usr/bin/env python3
"""The rows of docs/DIFFERENCES.md as cases, named for their numbers, with what the document says of each (expected.py). Its last column names
the cases of each row; tools/check_differences.py checks that.
Usage: differences.py > FILE"""
import sys
from expected import Cases
from toy import *

CASES = Cases()
add = CASES.add

OTHER_EXTENSION = '2.5.29.14'
VIOLATION = 'no:NameConstraintViolation'
EI = cert('E', 'I', 'ke', 'ki')


def leaf(exts=None, **kw):
    """An end entity straight under the anchor R."""
    return cert('E', 'R', 'ke', 'kr', exts, **kw)


def con(cname, expect, names, constraints, **kw):
    """An end entity with these names under an anchor with these constraints."""
    add(cname, expect, leaf([san(*names)] if names else None, **kw), anchors=[(name('R'), spki('kr'), constraints)])


def wants(cname, expect, names, *wanted):
    """An end entity with these names, and the DNS names that are looked for in it."""
    add(cname, 'ok; name=' + expect, leaf([san(*names)]), names=[('dns', w) for w in wanted])


def under(cname, expect, exts):
    """An end entity under an intermediate with these extensions."""
    add(cname, expect, EI, [cert('I', 'R', 'ki', 'kr', exts)])


# ---- a certificate
add('D1-criticality', 'ok', leaf([ext(BC, seq(), False)]))
add('D1-basic-constraints', 'ok', leaf([bc(raw=FALSE)]))
add('D3-anchor-key', 'no:TrailingData(BitString); q=a0>ee!key:TrailingData(BitString)', leaf(), anchors=[(name('R'), spki(b'\x01' * 65534), None)])
add('D4', 'no:BadDer', leaf(serial=bytes.fromhex('1f8100')))
add('D5', 'ok', leaf(nb=gen('20200101000000Z')))
add('D6-1950', 'no:BadDerTime', leaf(nb=utc('500101000000Z')))
add('D6-1969', 'no:BadDerTime', leaf(nb=gen('19691231235959Z')))
add('D7', 'ok', leaf([]))
add('D8-unknown', 'ok', leaf([ext(OTHER_EXTENSION, octets(b''))] * 2))
add('D8-known', 'no:ExtensionValueInvalid', leaf([bc(False)] * 2))
add('D9-number', 'ok', leaf([ext(KU, bytes.fromhex('020100'))]))
add('D9-empty', 'ok', leaf([ext(KU, b'')]))
add('D10', 'ok', leaf([ext(CDP, seq(), True)]))
for serial in ('0200', '0201ff', '02020000', '020100'):
    add('D11-' + serial, 'ok', leaf(serial=bytes.fromhex(serial)))
add('D11-21-octets', 'ok', leaf(serial=tlv(2, b'\x01' * 21)))
GARBAGE = b'\xff\xff'
add('D12-issuer', 'ok', leaf(issuer_raw=GARBAGE), anchors=[(GARBAGE, spki('kr'), None)])
add('D12-validity', 'no:TrailingData(Time)', leaf(validity=tlv(0x30, GARBAGE)), note='read, and opened when it is used')
add('D12-subject', 'ok', leaf(subject_raw=GARBAGE))
add('D12-key', 'ok', leaf(spki_value=GARBAGE))
add('D12-key-used', 'no:BadDer; q=a0>i0 i0>ee!key:BadDer', EI, [ca('I', 'R', 'ki', 'kr', spki_value=GARBAGE)])
add('D12-algorithm', 'no:UnsupportedSignatureAlgorithmContext', leaf(alg=seq()))
add('D13-empty', 'ok', leaf([ext(b'\x06\x00', b'')]))
add('D13-unfinished', 'ok', leaf([ext(b'\x06\x01\x80', b'')]))
add('D14', 'ok', leaf(sig=b''), anchors=[(name('R'), spki(b''), None)], note='right, for the key has no bits either')
add('D15', 'no:BadDer', leaf(sig=b'\xaa', sig_unused=1))
add('D16-issuer', 'no:TrailingData(CertificateExtensions)', leaf(before_ext=bytes.fromhex('81020000')))
add('D16-subject', 'no:TrailingData(CertificateExtensions)', leaf(before_ext=bytes.fromhex('82020000')))
add('D17-version-1', 'no:UnsupportedCertVersion', leaf(version=b''))
add('D17-version-2', 'no:UnsupportedCertVersion', leaf(version=bytes.fromhex('a003020101')))
add('D17-unreadable', 'no:BadDer', leaf(version=bytes.fromhex('a003020182')))

# ---- names and constraints
con('D18', VIOLATION, [dns('*.example.com')], nc_value(None, [dns('.www.example.com')]))
add('D19', 'ok; name=yes', leaf([san(dns('_a.example.com'))]), names=[('dns', '_a.example.com')],
    anchors=[anchor('R', 'kr', nc_value([dns('_a.example.com')]))])
con('D20-inside', 'no:InvalidNetworkMaskConstraint', [ip([10, 0, 0, 1])], nc_value(None, [ip('0a000000ff00ff00')]))
con('D20-outside', 'ok', [ip([11, 0, 0, 1])], nc_value(None, [ip('0a000000ff00ff00')]))
con('D21', 'ok', [], nc_value([mail('a.b')]), subject_raw=mail_subject('m@elsewhere'))
for value in ('a000', 'a100', 'a000a100', ''):
    con('D22-' + (value or 'empty'), 'ok', [dns('a.b')], bytes.fromhex(value))
con('D22-broken-name', 'no:BadDer', [tlv(0x89, b'')], bytes.fromhex('a000'))
con('D23-name', VIOLATION, [directory('E')], nc_value([directory('E')]))
con('D23-empty-subject', VIOLATION, [], nc_value([directory('E')]), subject_raw=b'')
con('D24-permitted', VIOLATION, [uri('http://a.b/')], nc_value([uri('a.b')]))
con('D24-excluded', VIOLATION, [uri('http://a.b/')], nc_value(None, [uri('c.d')]))
for kind, presented, entry in (('mail', mail('m@a.b'), mail('a.b')), ('other', other(), other()), ('registered', registered(), registered()),
                               ('x400', tlv(0xa3, b''), tlv(0xa3, b'')), ('edi', tlv(0xa5, b''), tlv(0xa5, b''))):
    con('D25-' + kind, VIOLATION, [presented], nc_value([entry]))
# The way straight from the anchor to the end entity is barred by a key of another algorithm, whose refusal ranks lower.
add('D26', VIOLATION + '; q=a0>ee!keyalg a0>i0 i0>ee', EI.replace(b'ki', b'k2'), [cert('I', 'I', 'k2', 'k1', [bc(), san(dns('x'))], alg='B')],
    anchors=[(name('I'), spki('k1', 'B'), nc_value([dns('a.b')]))])
con('D27', 'no:TrailingData(GeneralName)', [dns('a.b')], bytes.fromhex('a00a30088203612e62800100'))
con('D27-maximum', 'no:TrailingData(GeneralName)', [dns('a.b')], bytes.fromhex('a00a30088103614062810101'))
WRONG_ORDER = bytes.fromhex('a1053003820163a00730058203612e62')
con('D28-passed', 'no:BadDer', [dns('a.b')], WRONG_ORDER)
con('D28-excluded', VIOLATION, [dns('a.c')], WRONG_ORDER)

# ---- a path
add('D29', 'no:UnknownIssuer', leaf(issuer_raw=name('R', 0x13)))
add('D30', 'no:PathLenConstraintViolated; q=a0>i1 i1>ee!keyalg', EI.replace(b'ki', b'k2'),
    [ca('I', 'I', 'k2', 'k1', alg='B'), ca('I', 'R', 'k1', 'kr', path=0, key_alg='B')],
    note='the way without the self-issued one is barred by a key of another algorithm, whose refusal ranks lower')
SIGNS_DATA, SIGNS_CERTIFICATES, SIGNS_LISTS = (bytes.fromhex(flags) for flags in ('03020780', '03020204', '03020102'))
under('D31', 'ok:0', [bc(), ext(KU, SIGNS_DATA)])
add('D32', 'ok', leaf([bc(raw=integer(0))]))
under('D33', 'no:BadDer', [bc(path=256)])
under('D33-most', 'ok:0', [bc(path=255)])
add('D34', 'no:RequiredEkuNotFoundContext', leaf([eku(ANY)]))
add('D35', 'ok', leaf([ext(EKU, seq(oid(SERVER), GARBAGE))]))
EXPLICIT_POLICY = bytes.fromhex('3003800100')
under('D36', 'ok:0', [bc(), ext('2.5.29.36', EXPLICIT_POLICY)])
under('D36-critical', 'no:UnsupportedCriticalExtension', [bc(), ext('2.5.29.36', EXPLICIT_POLICY, True)])

# ---- what RFC 5280 asks of certificates beside 6.1: accepted without it
add('D37-issuer', 'ok', leaf(issuer_raw=b''), anchors=[(b'', spki('kr'), None)])
add('D37-ca-subject', 'ok:0', cert('E', '', 'ke', 'ki'), [ca('', 'R', 'ki', 'kr')])
add('D37-subject', 'ok', leaf(subject_raw=b''))
add('D37-not-critical', 'ok', leaf([san(dns('a.b'))], subject_raw=b''))
wants('D38-empty', 'no', [], 'a.b')
add('D38-unread', 'ok', leaf([san(GARBAGE)]))
add('D38-wanted', 'ok; name=no', leaf([san(GARBAGE)]), names=[('dns', 'a.b')], note='BadDer: now it is read')
con('D38-constrained', 'no:BadDer', [GARBAGE], nc_value([dns('a.b')]))
wants('D38-after', 'yes', [dns('a.b'), GARBAGE], 'a.b')
FIVE = ip([10, 0, 0, 1, 5])
wants('D39-address', 'yes', [FIVE, dns('a.b')], 'a.b')
con('D39-address-constrained', 'no:BadDer', [FIVE], nc_value(None, [ip('0b000000ff000000')]))
wants('D39-directory', 'yes', [tlv(0xa4, b''), dns('a.b')], 'a.b')
wants('D39-dns', 'yes', [dns(b'\xff'), dns('a.b')], 'a.b')
add('D40', 'ok', leaf([san(dns('a.b')), nc(None, [dns('a.b')])]))
add('D40-unread', 'ok', leaf([ext(NC, seq(GARBAGE), True)]))
under('D41-basic-constraints', 'ok:0', [bc(critical=None)])
for presented, expect in (('a.b', 'ok:0'), ('c.d', VIOLATION)):
    add('D41-name-constraints-' + presented, expect, cert('E', 'I', 'ke', 'ki', [san(dns(presented))]), [ca('I', 'R', 'ki', 'kr', [nc([dns('a.b')], critical=None)])])
add('D42', 'ok', leaf([ext(CDP, seq(GARBAGE), True)]))
under('D43', 'ok:0', [bc(path=0), ext(KU, SIGNS_DATA)])
add('D44', 'ok', leaf([ext(EKU, seq(b'\x06\x00', oid(SERVER)))]))
under('D45', 'ok:0', [bc(), ext('2.5.29.54', integer(0))])
under('D45-critical', 'no:UnsupportedCriticalExtension', [bc(), ext('2.5.29.54', integer(0), True)])
POINTS = ext(CDP, seq(seq(tlv(0xa0, tlv(0xa0, uri('http://a.b/'))))))
add('D46', 'ok', leaf([POINTS]))
add('D46-list', 'no:CertRevoked', leaf([POINTS]), crls=[crl('R', 'kr', [b'\x01'])], revocation='endentity deny ignore')
con('D47-dot', 'ok', [dns('a.b')], nc_value(None, [dns('.a.b')]))
con('D47-dot-below', VIOLATION, [dns('c.a.b')], nc_value(None, [dns('.a.b')]))
con('D47-empty-permitted', 'ok', [dns('a.b')], nc_value([dns('')]))
con('D47-empty-excluded', VIOLATION, [dns('a.b')], nc_value(None, [dns('')]))

# ---- and refused, though RFC 5280 does not
add('D48', 'no:CaUsedAsEndEntity', leaf([bc()]))
under('D49', 'no:RequiredEkuNotFoundContext', [bc(), eku(CLIENT)])
for depth, expect in ((6, 'ok:5,4,3,2,1,0'), (7, 'no:MaximumPathDepthExceeded')):
    up = [('R', 'kr')] + [('I%d' % n, 'k%d' % n) for n in range(1, depth + 1)]
    add('D50-%d' % depth, expect, cert('E', up[-1][0], 'ke', up[-1][1]), [ca(own[0], above[0], own[1], above[1]) for above, own in zip(up, up[1:])])
OUTSIDE = nc_value(None, [dns('x.y')])
MALFORMED = 'no:MalformedDnsIdentifier'
wants('D51-star', 'no', [dns('*.com')], 'a.com')
con('D51-star-constrained', MALFORMED, [dns('*.com')], OUTSIDE)
wants('D51-digits', 'bad', [dns('a.1')], 'a.1')
con('D51-digits-constrained', MALFORMED, [dns('a.1')], OUTSIDE)
LONGEST = '.'.join(['a' * 63] * 3 + ['b' * 61])
wants('D51-absolute', 'yes,bad', [dns(LONGEST)], LONGEST, LONGEST + '.')
add('D52', 'no:BadDerTime', leaf(na=gen('20501231235960Z')))
POLICY = seq(seq(oid('2.23.140.1.2.1')))
add('D53', 'no:UnsupportedCriticalExtension', leaf([ext('2.5.29.32', POLICY, True)]))
add('D53-not-critical', 'ok', leaf([ext('2.5.29.32', POLICY)]))
con('D54', MALFORMED, [dns('a.b.')], OUTSIDE)
con('D55', 'no:MalformedNameConstraint', [dns('a.b')], nc_value(None, [dns('*.x.y')]))
con('D55-no-dns', 'ok', [ip([10, 0, 0, 1])], nc_value(None, [dns('*.x.y')]))
add('D56', 'no:UnknownIssuer', cert('E', 'E', 'ke', 'ke'), [ca('E', 'R', 'ke', 'kr')])
under('D59', 'ok:0', [bc()])
add('D60-lists', 'ok', leaf([ext(KU, SIGNS_LISTS), eku(SERVER)]))
add('D60-certificates', 'ok', leaf([ext(KU, SIGNS_CERTIFICATES)]))

# ---- ours
add('O1', 'ok', leaf(), anchors=[cert('R', 'R', 'kr', 'kr', version=b'')])
add('O1-explicit', 'no:UnknownIssuer', leaf(), anchors=[cert('R', 'R', 'kr', 'kr', version=bytes.fromhex('a003020100'))],
    note='the version is written: BadDer in both')


def cases():
    return list(CASES.texts.values())


if __name__ == '__main__':
    sys.stdout.writelines(cases())
