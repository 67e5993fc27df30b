#!/usr/bin/env python3
"""Hand-made cases, one for each rule and each edge, with what is expected of each (expected.py).
Usage: hand.py hand|slow > FILE (slow: those with 200,000 extensions of the path)"""
import sys
from expected import Cases
from toy import *

CASES = Cases()
add = CASES.add

def leaf(exts=None, **kw):
    """An end entity straight under anchor R."""
    return cert('E', 'R', 'ke', 'kr', exts, **kw)

UNK = '1.2.3.99'
GOODSAN = san(dns('www.example.com'))

# ---- DER
def pad_serial(n, form=None): return leaf(serial=tlv(2, b'\x01' * n, form))
for n, form, want in [(0, 0, 'ok'), (0x7f, 0, 'ok'), (0x80, 1, 'ok'), (0xff, 1, 'ok'), (0x100, 2, 'ok'), (0x7f, 1, 'no'),
                      (0, 1, 'no'), (0xff, 2, 'no'), (0x80, 2, 'no'), (0, 2, 'no'), (0xffff, 3, 'no'), (0x100, 3, 'no'),
                      (0x100, 4, 'no'), (0, 4, 'no'), (65000, 2, 'ok')]:
    add('der-len-%d-form%d' % (n, form), want, pad_serial(n, form), note='lengths; the serial takes any content')
add('der-len-first-80', 'no', leaf(serial=b'\x02\x80\x01\x00\x00'), note='no indefinite length')
add('der-len-first-85', 'no', leaf(serial=b'\x02\x85\0\0\0\0\x01\x01'))
add('der-len-first-ff', 'no', leaf(serial=b'\x02\xff\x01'))
def sized(total):
    """A certificate whose outer content has exactly this length."""
    n = total
    for _ in range(6):
        c = leaf(serial=tlv(2, b'\x01' * n))
        hdr = 1 + 1 + (c[1] & 0x7f if c[1] & 0x80 else 0)
        d = len(c) - hdr - total
        if d == 0:
            return c
        n -= d
    raise SystemExit('no fit')
add('der-cert-content-65534', 'ok', sized(65534), note='a length of 65,535 or more is refused, also for the certificate')
add('der-cert-content-65535', 'no', sized(65535))
add('der-cert-content-65536', 'no', sized(65536))
add('der-tag-1f', 'no', leaf(serial=b'\x1f\x01\x01'), note='low five bits all ones')
add('der-tag-bf', 'no', leaf([ext(UNK, b'')]).replace(tlv(0xa3, seq(ext(UNK, b''))), tlv(0xbf, seq(ext(UNK, b'')))))
add('der-empty-input', 'no', b'')
add('der-one-byte', 'no', b'\x30')
add('der-cut-short', 'no', leaf()[:-1])
add('der-trailing-after-cert', 'no', leaf(after=b'\0'), note='used up exactly')
add('der-trailing-after-signature', 'no', leaf(after_sig=b'\x05\0'))
add('der-trailing-after-extensions', 'no', leaf([], after_ext=b'\x05\0'))
add('der-trailing-in-3', 'no', leaf(ext_field=tlv(0xa3, seq() + b'\x05\0')))
add('der-trailing-in-extension', 'no', leaf([ext(UNK, b'', after=b'\x05\0')]))
add('der-trailing-in-version', 'no', leaf(version=tlv(0xa0, b'\x02\x01\x02\x05\0')))
add('der-trailing-in-validity', 'no', leaf(validity=seq(NB, NA, b'\x05\0')))
add('der-trailing-in-bc', 'no', leaf([ext(BC, seq(b'\x05\0'))]))
add('der-trailing-after-pathlen', 'no', leaf([ext(BC, seq(integer(0), b'\x05\0'))]))

# INTEGER as a number: the path length of an intermediate
def with_path(raw): return [cert('I', 'R', 'ki', 'kr', [bc(raw=TRUE + raw)])]
EI = cert('E', 'I', 'ke', 'ki')
for tag, raw, want in [('0', '020100', 'ok'), ('127', '02017f', 'ok'), ('128', '02020080', 'ok'), ('255', '020200ff', 'ok'),
                       ('256', '02020100', 'no'), ('neg', '020180', 'no'), ('00-7f', '0202007f', 'no'), ('empty', '0200', 'no'),
                       ('00-00', '02020000', 'no'), ('ff-ff', '0202ffff', 'no'), ('enum', '0a0100', 'no')]:
    add('der-int-' + tag, want, EI, with_path(bytes.fromhex(raw)), note='INTEGER read as a number')
for tag, s, want in [('empty', '0200', 'ok'), ('neg', '0201ff', 'ok'), ('21', '0215' + '01' * 21, 'ok'), ('lead0', '02020001', 'ok'),
                     ('zero', '020100', 'ok'), ('wrongtag', '030101', 'no')]:
    add('der-serial-' + tag, want, leaf(serial=bytes.fromhex(s)), note='serial with any content')
for tag, c, want in [('absent', b'', 'ok'), ('00', FALSE, 'ok'), ('ff', TRUE, 'no'), ('01', b'\x01\x01\x01', 'no'),
                     ('two', b'\x01\x02\xff\xff', 'no'), ('none', b'\x01\x00', 'no'), ('7f', b'\x01\x01\x7f', 'no')]:
    add('der-bool-critical-' + tag, want, leaf([ext(UNK, b'', c)]), note='BOOLEAN, of an unknown extension')
for tag, c, want in [('ff', TRUE, 'ok'), ('00', FALSE, 'no:EndEntityUsedAsCa'), ('01', b'\x01\x01\x01', 'no'), ('absent', b'', 'no:EndEntityUsedAsCa')]:
    add('der-bool-ca-' + tag, want, EI, [cert('I', 'R', 'ki', 'kr', [bc(raw=c)])])
add('der-bool-ee-00', 'ok', leaf([bc(raw=FALSE)]))
add('der-bits-sig-unused1', 'no', leaf(sig_unused=1), note='BIT STRING of a signature, first byte 0')
add('der-bits-sig-empty', 'no', leaf(sig_tlv=b'\x03\x00'))
add('der-bits-sig-octets', 'no', leaf(sig_tlv=tlv(4, b'\0kr')))
add('der-bits-sig-nothing', 'no:InvalidSignatureForPublicKey', leaf(sig=b''))
add('der-bits-key-unused1', 'no', EI, [ca('I', 'R', 'ki', 'kr', spki_value=spki('ki', unused=1))], note='key unreadable')
add('der-bits-key-unused1-ee', '?', leaf(spki_value=spki('ke', unused=1)), note="the end entity's own key is never asked for")
add('der-bits-key-trailing', 'no', EI, [ca('I', 'R', 'ki', 'kr', spki_value=spki('ki') + b'\x05\0')])
add('der-bits-key-empty-spki', 'no', EI, [ca('I', 'R', 'ki', 'kr', spki_value=b'')])
add('der-bits-key-empty-spki-ee', '?', leaf(spki_value=b''))

# times: notBefore = notAfter = the moment
def moment(tag, t, secs, want='ok', **kw):
    add('time-' + tag, want, leaf(nb=t, na=t), time=secs, note='times', **kw)
moment('utc-000229', utc('000229000000Z'), 951782400)
moment('gen-000229', gen('20000229000000Z'), 951782400)
moment('gen-2050', gen('20500101000000Z'), 2524608000)
moment('gen-2100mar', gen('21000301000000Z'), 4107542400)
moment('utc-epoch', utc('700101000000Z'), 0)
moment('gen-epoch', gen('19700101000000Z'), 0)
moment('gen-epoch-1', gen('19691231235959Z'), 0, 'no')
moment('utc-50-is-1950', utc('500101000000Z'), 0, 'no')
moment('utc-69', utc('691231235959Z'), 0, 'no')
moment('utc-49-is-2049', utc('491231235959Z'), 2524607999)
moment('gen-in-utc-range', gen('20231114221320Z'), 1700000000)
moment('utc-now', utc('231114221320Z'), 1700000000)
moment('utc-now-before', utc('231114221320Z'), 1699999999, 'no:CertNotValidYet')
moment('utc-now-after', utc('231114221320Z'), 1700000001, 'no:CertExpired')
moment('gen-9999', gen('99991231235959Z'), 253402300799)
moment('gen-0000', gen('00000101000000Z'), 0, 'no')
for tag, t in [('feb29-2100', gen('21000229000000Z')), ('feb30', utc('240230000000Z')), ('feb29-2023', utc('230229000000Z')),
               ('apr31', utc('230431000000Z')), ('month0', utc('230014000000Z')), ('month13', utc('231314000000Z')),
               ('day0', utc('231100000000Z')), ('hour24', utc('231114240000Z')), ('min60', utc('231114006000Z')),
               ('sec60', utc('231114000060Z')), ('nosec', utc('2311140000Z')), ('fraction', gen('20231114000000.5Z')),
               ('plus', utc('231114000000+0000')), ('lower-z', utc('231114000000z')), ('no-z', utc('231114000000')),
               ('trailing', utc('231114000000Z0')), ('space', utc('23111400000 Z')), ('empty', utc('')), ('tag', tlv(0x16, b'231114000000Z')),
               ('utc-15', utc('20231114000000Z')), ('gen-13', gen('231114000000Z')), ('form81', tlv(0x17, b'231114000000Z', 1))]:
    add('time-bad-' + tag, 'no', leaf(nb=t), note='times')
    if tag in ('feb30', 'tag', 'trailing'):
        add('time-bad-na-' + tag, 'no', leaf(na=t))
moment('gen-feb29-2400', gen('24000229000000Z'), 13574563200)

# ---- a certificate
for tag, v, want in [('absent', b'', 'no'), ('v1', tlv(0xa0, b'\x02\x01\x00'), 'no'), ('v2', tlv(0xa0, b'\x02\x01\x01'), 'no'),
                     ('v4', tlv(0xa0, b'\x02\x01\x03'), 'no'), ('long2', tlv(0xa0, b'\x02\x02\x00\x02'), 'no'),
                     ('primitive', tlv(0x80, b'\x02\x01\x02'), 'no'), ('neg', tlv(0xa0, b'\x02\x01\xfe'), 'no'), ('258', tlv(0xa0, b'\x02\x02\x01\x02'), 'no')]:
    add('cert-version-' + tag, want, leaf(version=v), note='version must be 2')
add('cert-alg-mismatch', 'no', leaf(alg='A', inner_alg='B'), note='algorithm byte for byte equal to the outer one')
add('cert-alg-null-differs', 'no', leaf(alg=seq(ALG['A']), inner_alg=seq(ALG['A'], b'\x05\0')))
add('cert-uid-1', 'no', leaf(before_ext=tlv(0x81, b'\0\1')), note='unique identifiers are refused')
add('cert-uid-2', 'no', leaf(before_ext=tlv(0x82, b'\0\1')))
add('cert-uid-1-then-ext', 'no', leaf([GOODSAN], before_ext=tlv(0x81, b'\0\1')))
add('cert-ext-none', 'ok', leaf(None), note='nothing, or [3] with extensions, which may be empty')
add('cert-ext-empty', 'ok', leaf([]))
add('cert-ext-3-empty', 'no', leaf(ext_field=tlv(0xa3, b'')))
add('cert-ext-3-twice', 'no', leaf([], after_ext=tlv(0xa3, seq())))
add('cert-ext-3-primitive', 'no', leaf(ext_field=tlv(0x83, seq())))
add('cert-ext-not-seq', 'no', leaf(ext_field=tlv(0xa3, seq(tlv(0x31, b'')))))
KNOWN = {'ku': (KU, bits(b'\x06', 1)), 'san': (SAN, seq(dns('a.b'))), 'bc': (BC, seq()), 'nc': (NC, seq()), 'cdp': (CDP, seq()), 'eku': (EKU, seq(oid(SERVER)))}
for k, (o, v) in KNOWN.items():
    add('ext-%s-once' % k, 'ok', leaf([ext(o, v)]), note='known extensions')
    add('ext-%s-critical' % k, 'ok', leaf([ext(o, v, True)]))
    add('ext-%s-twice' % k, 'no', leaf([ext(o, v), ext(o, v)]))
    add('ext-%s-novalue' % k, 'ok' if k == 'ku' else 'no', leaf([ext(o, b'')]), note='All known values but key usage must be one SEQUENCE')
    add('ext-%s-after' % k, 'ok' if k == 'ku' else 'no', leaf([ext(o, v + b'\x05\0')]))
    add('ext-%s-notseq' % k, 'ok' if k == 'ku' else 'no', leaf([ext(o, tlv(0x31, b''))]))
    add('ext-%s-bad-then-good' % k, 'no', leaf([ext(o, tlv(0x30, b'', 1)), ext(o, v)]))
    if k not in ('ku', 'eku'):
        add('ext-%s-emptyseq' % k, 'ok', leaf([ext(o, seq())]))
add('ext-eku-emptyseq', 'no:EmptyEkuExtension', leaf([ext(EKU, seq())]), note='not empty')
add('ext-unknown', 'ok', leaf([ext(UNK, b'\xff\xff')]))
add('ext-unknown-critical', 'no', leaf([ext(UNK, b'', True)]))
add('ext-unknown-twice', 'ok', leaf([ext(UNK, b''), ext(UNK, b'')]), note='only a known one is refused the second time')
add('ext-unknown-twice-critical', 'no', leaf([ext(UNK, b'', True), ext(UNK, b'', True)]))
add('ext-2.5.29.32-critical', 'no', leaf([ext('2.5.29.32', seq(), True)]))
add('ext-2.5.29.32', 'ok', leaf([ext('2.5.29.32', seq())]))
add('ext-2.5.29.19.1-critical', 'no', leaf([ext('2.5.29.19.1', seq(), True)]))
add('ext-oid-empty', 'ok', leaf([ext(b'\x06\x00', b'')]))
add('ext-oid-broken', 'ok', leaf([ext(b'\x06\x03\x55\x1d\x93', b'')]))
add('ext-oid-missing', 'no', leaf([seq(octets(b''))]))
add('ext-value-bits', 'no', leaf([seq(oid(UNK), tlv(3, b'\0'))]))
add('ext-critical-after-value', 'no', leaf([seq(oid(UNK), octets(b''), TRUE)]))
add('cert-issuer-bytes', 'no:UnknownIssuer', cert('E', 'R', 'ke', 'kr', issuer_raw=name('R', 0x13)), note='compared as bytes')
add('cert-issuer-case', 'no:UnknownIssuer', cert('E', 'r', 'ke', 'kr'))
add('cert-names-garbage', '?', cert('E', 'R', 'ke', 'kr', subject_raw=b'\xff\xff', issuer_raw=b'\xde\xad'), anchors=[(b'\xde\xad', spki('kr'), None)], note='names are never read')
add('cert-empty-names', '?', cert('', '', 'ke', 'kr'), anchors=[(b'', spki('kr'), None)])
# anchors read from certificates
rootc = ca('R', 'R', 'kr', 'kr')
add('anchorcert-plain', 'ok', leaf(), anchors=[rootc])
add('anchorcert-unknown-critical', 'ok', leaf(), anchors=[ca('R', 'R', 'kr', 'kr', [ext(UNK, b'', True)])], note='unknown critical allowed')
add('anchorcert-2.5.29.99-critical', 'ok', leaf(), anchors=[ca('R', 'R', 'kr', 'kr', [ext('2.5.29.99', b'', True)])])
add('anchorcert-bc-twice', 'no', leaf(), anchors=[cert('R', 'R', 'kr', 'kr', [bc(), bc()])])
add('anchorcert-not-ca', '?', leaf(), anchors=[cert('R', 'R', 'kr', 'kr')])
add('anchorcert-expired', '?', leaf(), anchors=[ca('R', 'R', 'kr', 'kr', na=utc('210101000000Z'))])
add('anchorcert-pathlen', '?', EI, [ca('I', 'R', 'ki', 'kr')], anchors=[ca('R', 'R', 'kr', 'kr', path=0)])
add('anchorcert-eku', '?', leaf(), anchors=[ca('R', 'R', 'kr', 'kr', [eku(CLIENT)])])
add('anchorcert-nc', 'no:NameConstraintViolation', leaf([GOODSAN]), anchors=[ca('R', 'R', 'kr', 'kr', [nc([dns('other.org')])])])
add('anchorcert-trailing', 'no', leaf(), anchors=[rootc + b'\0'])
add('anchorcert-v1', '?', leaf(), anchors=[cert('R', 'R', 'kr', 'kr', version=b'')], note='the one kind of anchor that Pathjudge leaves out: O1 of docs/DIFFERENCES.md')
add('anchorcert-v1-explicit', 'no', leaf(), anchors=[cert('R', 'R', 'kr', 'kr', version=tlv(0xa0, b'\x02\x01\x00'))])
add('anchorcert-v1-with-ext', 'no', leaf(), anchors=[cert('R', 'R', 'kr', 'kr', [], version=b'')])
add('anchorcert-bad-then-good', 'ok', leaf(), anchors=[b'\x30\x00', rootc])

# ---- names
def nm(tag, presented, asked, answers, expect='ok', note=None):
    """presented: general names; asked: texts (dns) or bytes (ip)."""
    add('name-' + tag, '%s; name=%s' % (expect, answers), leaf([san(*presented)]),
        names=[('dns', a) if isinstance(a, str) else ('ip', a) for a in asked], note=note)
nm('star', [dns('*.example.com')], ['www.example.com', 'a.b.example.com', 'example.com', '.example.com', 'WWW.EXAMPLE.COM', 'www.example.com.', 'wwwxexample.com'],
   'yes,no,no,bad,yes,yes,no', note='what a star stands for')
nm('star-com', [dns('*.com')], ['a.com', 'example.com'], 'no,no')
nm('star-part', [dns('w*.example.com')], ['www.example.com', 'w.example.com'], 'no,no')
nm('star-alone', [dns('*')], ['a', 'a.b'], 'no,no')
nm('star-middle', [dns('a.*.example.com')], ['a.b.example.com'], 'no')
nm('star-twice', [dns('*.*.example.com')], ['a.b.example.com'], 'no')
nm('star-end', [dns('*.example.com.')], ['a.example.com', 'a.example.com.'], 'no,no')
nm('star-digits', [dns('*.example.1')], ['a.example.1'], 'bad')
nm('dot-presented', [dns('www.example.com.')], ['www.example.com', 'www.example.com.'], 'no,no')
nm('case', [dns('WWW.Example.COM')], ['www.example.com.', 'www.example.com', 'www.example.con'], 'yes,yes,no')
nm('underscore', [dns('_a_.b_c.d')], ['_a_.b_c.d', '_A_.B_C.D'], 'yes,yes')
nm('passed-over', [dns('*.com'), dns('bad-.x'), dns(b'\xff'), dns('ok.example.com')], ['ok.example.com', 'a.com'], 'yes,no', note='malformed: passed over')
nm('malformed-tag-after', [dns('ok.example.com'), tlv(0x89, b'')], ['ok.example.com', 'no.example.com'], 'yes,no', note='a general name that cannot be read, after the match or before')
nm('malformed-tag-before', [tlv(0x89, b''), dns('ok.example.com')], ['ok.example.com'], 'no')
nm('constructed-dns', [tlv(0xa2, b'ok.example.com')], ['ok.example.com'], 'no')
nm('kinds', [mail('a@b.c'), uri('http://www.example.com'), directory('www.example.com'), other(), registered(), dns('www.example.com')], ['www.example.com'], 'yes')
L63, L64 = 'a' * 63, 'a' * 64
N253 = '.'.join([L63, L63, L63, 'b' * 61]); assert len(N253) == 253
N254 = '.'.join([L63, L63, L63, 'b' * 62]); assert len(N254) == 254
nm('len253', [dns(N253)], [N253, N253 + '.'], 'yes,bad')
nm('len254', [dns(N254)], [N254], 'bad')
N252 = '.'.join([L63, L63, L63, 'b' * 60])
nm('len252-dot', [dns(N252)], [N252 + '.', N252], 'yes,yes')
nm('label63', [dns(L63 + '.com')], [L63 + '.com'], 'yes')
nm('label64', [dns(L64 + '.com')], [L64 + '.com'], 'bad')
nm('star-253', [dns('*.' + '.'.join([L63, L63, L63, 'b' * 59]))], ['c.' + '.'.join([L63, L63, L63, 'b' * 59])], 'yes')
nm('star-63', [dns('*.example.com')], [L63 + '.example.com'], 'yes')
nm('hyphens', [dns('a-b.c'), dns('a--b.c')], ['a-b.c', 'a--b.c', '-a.c', 'a-.c', 'a.-c', 'a.c-'], 'yes,yes,bad,bad,bad,bad')
nm('digits', [dns('1.a'), dns('1a.1a'), dns('a.1')], ['1.a', '1a.1a', 'a.1', '1', '1.2.3.4', 'a.1.'], 'yes,yes,bad,bad,bad,bad')
nm('one-label', [dns('localhost')], ['localhost', 'localhost.', 'LOCALHOST'], 'yes,yes,yes')
nm('empty-labels', [dns('a..b'), dns('.a'), dns('')], ['a..b', '.a', '', 'a.b'], 'bad,bad,bad,no')
nm('odd-bytes', [dns('a b.c'), dns('a/b.c'), dns(b'\xc3\xa4.c')], ['a b.c', b'a/b.c'.decode(), 'ä.c'], 'bad,bad,bad')
nm('ip4', [ip([192, 0, 2, 1])], [bytes([192, 0, 2, 1]), bytes([192, 0, 2, 2]), bytes(10) + b'\xff\xff' + bytes([192, 0, 2, 1])], 'yes,no,no')
nm('ip16', [ip('20010db8' + '00' * 11 + '01')], [bytes.fromhex('20010db8' + '00' * 11 + '01'), bytes([1, 2, 3, 4])], 'yes,no')
nm('ip-length', [ip([1, 2, 3]), ip([1, 2, 3, 4, 5]), ip([]), ip([1, 2, 3, 4, 255, 255, 255, 255])], [bytes([1, 2, 3, 4])], 'no')
nm('ip-as-dns', [dns('1.2.3.4')], [bytes([1, 2, 3, 4])], 'no')
add('name-cn-only', 'ok; name=no', cert('www.example.com', 'R', 'ke', 'kr'), names=[('dns', 'www.example.com')], note='the common name never counts')
add('name-san-empty', 'ok; name=no', leaf([san()]), names=[('dns', 'www.example.com')])
add('name-san-none', 'ok; name=no,no', leaf(), names=[('dns', 'www.example.com'), ('ip', bytes([1, 2, 3, 4]))])

def filler(n):
    """Excluded entries of exactly n bytes in all."""
    one = subtree(dns('qqqq'))
    k = (n - 300) // len(one)
    rest = n - k * len(one)
    return one * k + next(x for x in (subtree(mail('q' * m)) for m in range(rest)) if len(x) == rest)
def con(tag, expect, names_, permitted=None, excluded=None, note=None, ncv=None):
    """Constraints of the anchor against the end entity's alternative names."""
    add('nc-' + tag, expect, leaf([san(*names_)] if names_ is not None else None),
        anchors=[anchor('R', 'kr', nc_value(permitted, excluded) if ncv is None else ncv)], note=note)
V = 'no:NameConstraintViolation'
W = dns('www.example.com')
con('perm-self', 'ok', [dns('example.com')], [dns('example.com')], note='constraints')
con('perm-below', 'ok', [W], [dns('example.com')])
con('perm-case', 'ok', [dns('WWW.EXAMPLE.com')], [dns('exAMPLE.COM')])
con('perm-other', V, [dns('badexample.com')], [dns('example.com')])
con('perm-dot-below', 'ok', [W], [dns('.example.com')])
con('perm-dot-self', V, [dns('example.com')], [dns('.example.com')])
con('perm-dot-bad', V, [dns('badexample.com')], [dns('.example.com')])
con('perm-empty', 'ok', [W], [dns('')])
con('perm-one-of-two', 'ok', [W], [dns('a.org'), dns('example.com')])
con('perm-each-name', V, [W, dns('x.org')], [dns('example.com')])
con('perm-other-kind', 'ok', [W], [ip('0a000000ff000000')])
con('perm-none-presented', 'ok', None, [dns('example.com')])
con('perm-dot-only', 'no', [W], [dns('.')])
con('perm-trailing-dot', 'no', [W], [dns('example.com.')])
con('perm-star', 'no', [W], [dns('*.example.com')])
con('perm-digits', 'no', [W], [dns('example.1')])
con('perm-254', 'no', [W], [dns(N254)])
con('perm-253', V, [W], [dns(N253)])
con('excl-self', V, [dns('example.com')], None, [dns('example.com')])
con('excl-below', V, [W], None, [dns('example.com')])
con('excl-other', 'ok', [dns('badexample.com')], None, [dns('example.com')])
con('excl-dot-below', V, [W], None, [dns('.example.com')])
con('excl-dot-self', 'ok', [dns('example.com')], None, [dns('.example.com')])
con('excl-empty', V, [W], None, [dns('')])
con('excl-empty-no-name', 'ok', None, None, [dns('')])
con('excl-and-perm', V, [W], [dns('example.com')], [dns('www.example.com')])
con('excl-self-perm-below', 'ok', [W], [dns('.example.com')], [dns('a.example.com')])
# presented stars
S = dns('*.example.com')
con('star-perm-parent', 'ok', [S], [dns('example.com')])
con('star-perm-dot-parent', 'ok', [S], [dns('.example.com')])
con('star-perm-www', V, [S], [dns('www.example.com')], note='not expanded against permitted')
con('star-perm-com', 'ok', [S], [dns('com')])
con('star-excl-www', V, [S], None, [dns('www.example.com')], note='expanded against excluded')
con('star-excl-parent', V, [S], None, [dns('example.com')])
con('star-excl-dot-parent', V, [S], None, [dns('.example.com')])
con('star-excl-deeper', 'ok', [S], None, [dns('a.b.example.com')])
con('star-excl-other', 'ok', [S], None, [dns('www.example.org')])
con('star-excl-short', V, [dns('*.b.c')], None, [dns('a.b.c')])
con('star-excl-dot-label', V, [dns('*.x.y')], None, [dns('.abcd.x.y')], note='though nothing that the star stands for lies below abcd.x.y: D18 of docs/DIFFERENCES.md')
con('star-excl-dot-label-min', V, [dns('*.a.b')], None, [dns('.c.a.b')])
con('star-excl-dot-two', 'ok', [dns('*.a.b')], None, [dns('.d.c.a.b')])
con('star-excl-longer-one', 'ok', [dns('*.x.y')], None, [dns('abcdef')])
con('star-excl-case', V, [dns('*.EXAMPLE.com')], None, [dns('wWw.example.COM')])
con('star-malformed', 'no', [dns('*.com')], [dns('com')], note='malformed: a refusal where constraints are checked')
con('malformed-presented', 'no', [dns('www.example.com.')], None, [dns('other.org')])
con('malformed-presented-ip-only', 'ok', [dns('www.example.com.')], None, [ip('0a000000ff000000')], note='constraints are checked, but none of this kind')
con('malformed-presented-empty-nc', 'ok', [dns('www.example.com.')], ncv=b'')
con('malformed-presented-excl-empty', 'no', [dns('')], None, [dns('')])
# IP
I4 = ip([192, 0, 2, 77])
con('ip-perm', 'ok', [I4], [ip('c0000200ffffff00')])
con('ip-perm-out', V, [ip([192, 0, 3, 77])], [ip('c0000200ffffff00')])
con('ip-perm-host-bits', 'ok', [I4], [ip('c00002ffffffff00')])
con('ip-perm-32', 'ok', [I4], [ip('c000024dffffffff')])
con('ip-perm-0', 'ok', [I4], [ip('0000000000000000')])
con('ip-perm-25', 'ok', [I4], [ip('c0000200ffffff80')])
con('ip-perm-25-out', V, [ip([192, 0, 2, 200])], [ip('c0000200ffffff80')])
con('ip-excl', V, [I4], None, [ip('c0000200ffffff00')])
con('ip-excl-out', 'ok', [ip([192, 0, 3, 77])], None, [ip('c0000200ffffff00')])
con('ip-6-vs-4', V, [ip('20010db8' + '00' * 12)], [ip('c0000200ffffff00')])
con('ip-6-vs-4-excl', 'ok', [ip('20010db8' + '00' * 12)], None, [ip('0000000000000000')])
con('ip-6', 'ok', [ip('20010db8' + '00' * 12)], [ip('20010db8' + '00' * 12 + 'ffffffff' + '00' * 12)])
con('ip-6-excl', V, [ip('20010db8' + '00' * 12)], None, [ip('20010db8' + '00' * 12 + 'ffffffff' + '00' * 12)])
con('ip-mask-sparse', 'no', [I4], [ip('c0000200ff00ff00')])
con('ip-mask-sparse-in-byte', 'no', [I4], [ip('c0000200ffffff55')])
con('ip-mask-sparse-late', V, [ip([10, 0, 0, 1])], [ip('c0000200ff00ff00')], note='differs in the first byte: the mask is not read further')
con('ip-mask-sparse-late-excl', 'ok', [ip([10, 0, 0, 1])], None, [ip('c0000200ff00ff00')])
con('ip-mask-sparse-same-byte', 'no', [ip([10, 0, 0, 1])], None, [ip('c0000200a500ff00')])
con('ip-mask-sparse-other-family', 'ok', [ip('20010db8' + '00' * 12)], None, [ip('c0000200ff00ff00')], note='an IPv6 address: the mask of an IPv4 entry is not read')
con('ip-mask-sparse-no-ip', 'ok', [W], None, [ip('c0000200ff00ff00')], note='no address presented: not read')
con('ip-con-7-no-ip', 'ok', [W], None, [ip('c0000200ffffff')])
con('ip-con-7', 'no', [I4], None, [ip('c0000200ffffff')])
con('ip-con-empty', 'no', [I4], None, [ip('')])
con('ip-presented-3', 'no', [ip([1, 2, 3])], None, [ip('c0000200ffffff00')])
con('ip-presented-8', 'no', [ip('c0000200ffffff00')], None, [ip('c0000200ffffff00')])
con('ip-presented-3-dns-only', '?', [ip([1, 2, 3])], None, [dns('a.b')])
# other kinds
con('dir-perm', V, [W], [directory('E')], note='a directory entry refuses every certificate')
con('dir-excl', V, [W], None, [directory('Q')])
con('dir-excl-nosan', V, None, None, [directory('Q')])
con('dir-perm-with-dns', V, [W], [dns('example.com'), directory('E')])
con('uri-perm', V, [uri('http://a.b/')], [uri('a.b')])
con('uri-excl', V, [uri('http://a.b/')], None, [uri('q.org')])
con('uri-none', 'ok', [W], [uri('a.b')], [uri('q.org')])
con('mail-perm', V, [mail('a@b.c')], [mail('b.c')])
con('mail-excl', V, [mail('a@b.c')], None, [mail('q.org')])
con('mail-none', 'ok', [W], None, [mail('q.org')])
con('mail-vs-other', 'ok', [mail('a@b.c')], None, [registered(), other()])
con('other-excl', V, [other()], None, [other()])
con('registered-perm', V, [registered()], [registered()])
add('nc-mail-in-subject', 'ok', cert('E', 'R', 'ke', 'kr', subject_raw=tlv(0x31, seq(oid('1.2.840.113549.1.9.1'), tlv(0x16, b'a@q.org')))),
    anchors=[anchor('R', 'kr', nc_value(None, [mail('q.org')]))], note='subjects are not looked into')
con('minimum-0', 'no', [W], ncv=tlv(0xa0, seq(dns('example.com'), tlv(0x80, b'\0'))), note='minimum and maximum are refused')
con('minimum-1', 'no', [W], ncv=tlv(0xa0, seq(dns('example.com'), tlv(0x80, b'\1'))))
con('maximum', 'no', [W], ncv=tlv(0xa1, seq(dns('other.org'), tlv(0x81, b'\1'))))
con('empty-value', '?', [W], ncv=b'')
con('perm-empty-list', '?', [W], ncv=tlv(0xa0, b''))
con('excl-then-perm', '?', [W], ncv=tlv(0xa1, subtree(dns('q.org'))) + tlv(0xa0, subtree(dns('example.com'))), note='the two lists in the wrong order')
con('garbage', '?', None, ncv=b'\x05\0')
con('perm-match-then-garbage', '?', [W], ncv=tlv(0xa0, subtree(dns('example.com')) + seq(tlv(0x89, b''))))
con('perm-match-then-malformed', '?', [W], ncv=tlv(0xa0, subtree(dns('example.com')) + subtree(dns('.'))))
con('excl-match-then-garbage', '?', [W], ncv=tlv(0xa1, subtree(dns('example.com')) + seq(tlv(0x89, b''))))
con('perm-mismatch-excl-garbage', '?', [dns('q.org')], ncv=tlv(0xa0, subtree(dns('example.com'))) + tlv(0xa1, seq(tlv(0x89, b''))))
con('perm-content-65534', 'ok', None, ncv=tlv(0xa1, filler(65534)), note='the length limit, in an anchor\'s constraints')
con('perm-content-65535', 'no', None, ncv=tlv(0xa1, filler(65535)))
# within one path the first error found counts, not the highest rank
con('first-malformed-then-violation', '?', [dns('a.b.'), W], None, [dns('example.com')], note='MalformedDnsIdentifier (60) comes before NameConstraintViolation (230)')
con('first-violation-then-malformed', '?', [W, dns('a.b.')], None, [dns('example.com')])
con('first-perm-then-excl', '?', [dns('q.org')], [dns('example.com')], [dns('.')], note='permitted list first')
con('first-excl-malformed-entry-then-match', '?', [W], None, [dns('.'), dns('example.com')])
con('first-excl-match-then-malformed-entry', '?', [W], None, [dns('example.com'), dns('.')])
con('first-presented-before-entry', '?', [dns('a.b.')], None, [dns('.')], note='both malformed: the presented one is looked at first')
con('first-ip-presented-before-entry', '?', [ip([1, 2, 3])], None, [ip('00')], note='both lengths wrong')
con('entry-unreadable-nosan', '?', None, None, ncv=tlv(0xa1, seq(tlv(0x89, b''))), note='the subject counts as a name, so entries are read without alternative names too')
con('entry-malformed-dns-nosan', '?', None, None, [dns('.')], note='but a malformed DNS entry is only noticed against a DNS name')
con('trailing-after-lists', '?', [W], ncv=nc_value(None, [dns('example.com')]) + b'\x05\0', note='NameConstraintViolation: what follows the lists is looked at last')
con('trailing-after-lists-fine', 'no', [W], ncv=nc_value(None, [dns('q.org')]) + b'\x05\0')
con('san-unreadable', '?', [tlv(0x89, b'')], None, [dns('q.org')], note='an alternative name that cannot be read, with constraints')
con('san-unreadable-no-entries', '?', [tlv(0x89, b'')], ncv=b'')
add('nc-none-san-unreadable', '?', leaf([san(tlv(0x89, b''))]), note='and without')
# whose constraints apply to whom
def deep(ncs, ee_names, int_sans=()):
    """R -> I1 -> I2 -> E; ncs: constraints of (R, I1, I2, E)."""
    i1 = ca('I1', 'R', 'k1', 'kr', ([ncs[1]] if ncs[1] else []) + ([san(int_sans[0])] if int_sans else []))
    i2 = ca('I2', 'I1', 'k2', 'k1', ([ncs[2]] if ncs[2] else []) + ([san(int_sans[1])] if int_sans else []))
    e = cert('E', 'I2', 'ke', 'k2', [san(*ee_names)] + ([ncs[3]] if ncs[3] else []))
    return dict(ee=e, ints=[i1, i2], anchors=[anchor('R', 'kr', ncs[0])])
X = nc(None, [dns('example.com')])
XV = nc_value(None, [dns('example.com')])
add('nc-apply-anchor', V, **deep((XV, None, None, None), [W]), note='those of an issuer apply to every certificate below')
add('nc-apply-i1', V, **deep((None, X, None, None), [W]), note='not only the next one')
add('nc-apply-i2', V, **deep((None, None, X, None), [W]))
add('nc-apply-own', 'ok:1,0', **deep((None, None, None, X), [W]), note='its own do not apply to itself')
add('nc-apply-own-int', 'ok:1,0', **deep((None, X, None, None), [dns('a.org')], (W, dns('b.org'))))
add('nc-apply-int-san', V, **deep((None, X, None, None), [dns('a.org')], (dns('b.org'), W)))
add('nc-apply-anchor-int-san', V, **deep((XV, None, None, None), [dns('a.org')], (W, dns('b.org'))))
add('nc-apply-two', 'ok:1,0', **deep((nc_value([dns('com')]), nc([dns('example.com')]), nc([dns('www.example.com')]), None), [W]))
add('nc-apply-two-not', V, **deep((nc_value([dns('com')]), nc([dns('example.com')]), nc([dns('x.example.com')]), None), [W]))
add('nc-ee-garbage', '?', leaf([ext(NC, seq(b'\x05\0'))]), note="the end entity's own constraints are not read")
add('nc-noncritical', V, leaf([san(W)]), anchors=[ca('R', 'R', 'kr', 'kr', [nc(None, [dns('example.com')], critical=None)])])

# ---- a path
def chain(n, top='R', **each):
    """n intermediates under R: I1 ... In; the end entity under In. Listed top first."""
    ints, up, upkey = [], 'R', 'kr'
    for k in range(1, n + 1):
        s, key = 'I%d' % k, 'k%d' % k
        ints.append(ca(s, up, key, upkey, **each.get('i%d' % k, {})))
        up, upkey = s, key
    return cert('E', up, 'ke', upkey, each.get('ee')), ints
for n in range(0, 9):
    e, i = chain(n)
    add('path-depth-%d' % n, 'ok:' + (','.join(str(x) for x in reversed(range(n))) or '-') if n <= 6 else 'no', e, i, note='0 to 6 intermediates')
    if n in (2, 6):
        add('path-depth-%d-reversed' % n, 'ok:' + ','.join(str(x) for x in range(n)), e, list(reversed(i)))
for who, key in [('ee', 'ke'), ('int', 'k1'), ('anchor', 'kr')]:
    e, i = chain(2)
    add('path-distrust-' + who, 'no:CertDistrusted', e, i, distrust=[spki(key)], note='a distrusted key, wherever it stands')
e, i = chain(2)
add('path-distrust-none', 'ok:1,0', e, i, distrust=[spki('other'), b'', spki('k1')[:-1]])
add('path-distrust-before-time', 'no:CertDistrusted', leaf(na=utc('210101000000Z')), distrust=[spki('ke')], note='distrust before time')
add('path-distrust-anchor-two', 'ok:-', cert('E', 'R', 'ke', 'k2'), anchors=[anchor('R', 'kr'), anchor('R', 'k2')], distrust=[spki('kr')])
add('path-distrust-anchor-no-question', 'no:CertDistrusted; q=-', leaf(), distrust=[spki('kr')])
add('path-time-start', 'ok', leaf(nb=utc('231114221320Z')))
add('path-time-before', 'no:CertNotValidYet', leaf(nb=utc('231114221321Z')))
add('path-time-end', 'ok', leaf(na=utc('231114221320Z')))
add('path-time-after', 'no:CertExpired', leaf(na=utc('231114221319Z')))
add('path-time-start-after-end', 'no:InvalidCertValidity', leaf(nb=utc('300101000000Z'), na=utc('290101000000Z')))
add('path-time-int', 'no:CertExpired', EI, [ca('I', 'R', 'ki', 'kr', na=utc('210101000000Z'))])
add('path-time-before-bc', 'no:CertExpired', leaf([bc()], na=utc('210101000000Z')), note='time before role')
add('path-bc-ee-ca', 'no:CaUsedAsEndEntity', leaf([bc()]))
add('path-bc-ee-pathlen', 'ok', leaf([bc(False, 0)]))
add('path-bc-int-none', 'no:EndEntityUsedAsCa', EI, [cert('I', 'R', 'ki', 'kr')])
add('path-bc-before-eku', 'no:CaUsedAsEndEntity', leaf([bc(), eku(CLIENT)]), note='role before purposes')
for n, k, p in [(2, 1, 0), (2, 1, 1), (3, 1, 1), (3, 1, 2), (3, 2, 0), (3, 3, 0), (6, 1, 4), (6, 1, 5)]:
    e, i = chain(n, **{'i%d' % k: dict(path=p)})
    below = n - k
    add('path-len-%d-i%d-%d' % (n, k, p), 'ok' if p >= below else 'no:PathLenConstraintViolated', e, i, note='at least the number of intermediates below')
# self-issued intermediates count
add('path-len-self-issued', 'no:InvalidSignatureForPublicKey; q=a0>i1 i1>ee!wrong', cert('E', 'I', 'ke', 'k2'), [ca('I', 'I', 'k2', 'k1'), ca('I', 'R', 'k1', 'kr', path=0)], note='self-issued ones count too: no question on the way through i0; the shorter way has a wrong signature, which ranks higher')
for tag, x, line, want in [
        ('absent-ifpresent', None, (SERVER, 'ifpresent'), 'ok'), ('absent-required', None, (SERVER, 'required'), 'no:RequiredEkuNotFoundContext'),
        ('has', eku(SERVER), (SERVER, 'required'), 'ok'), ('has-second', eku(CLIENT, SERVER), (SERVER, 'ifpresent'), 'ok'),
        ('lacks', eku(CLIENT), (SERVER, 'ifpresent'), 'no:RequiredEkuNotFoundContext'), ('any', eku(ANY), (SERVER, 'ifpresent'), 'no:RequiredEkuNotFoundContext'),
        ('empty', eku(), (SERVER, 'ifpresent'), 'no:EmptyEkuExtension'), ('empty-required', eku(), (SERVER, 'required'), 'no:EmptyEkuExtension'),
        ('then-garbage', ext(EKU, seq(oid(SERVER), b'\xff\xff\xff')), (SERVER, 'ifpresent'), 'ok'),
        ('garbage-then', ext(EKU, seq(b'\x05\0', oid(SERVER))), (SERVER, 'ifpresent'), 'no'),
        ('lacks-garbage', ext(EKU, seq(oid(CLIENT), b'\x05\0')), (SERVER, 'ifpresent'), 'no')]:
    add('path-eku-ee-' + tag, want, leaf([x] if x else None), eku_line=line, note='key purposes')
    e = cert('E', 'I', 'ke', 'ki', [eku(SERVER)])
    add('path-eku-int-' + tag, want, e, [ca('I', 'R', 'ki', 'kr', [x] if x else [])], eku_line=line)
add('path-eku-before-loop', 'no:RequiredEkuNotFoundContext', cert('E', 'R', 'ke', 'kr', [eku(CLIENT)]), anchors=[])
add('path-loop-self', 'no:UnknownIssuer', cert('E', 'I', 'ke', 'ki'), [ca('I', 'I', 'ki', 'ki')], anchors=[], note='no certificate twice on a path')
add('path-loop-ee-again', 'no:UnknownIssuer', cert('E', 'E', 'ke', 'ke'), [ca('E', 'R', 'ke', 'kr')], note="the end entity's subject and key again")
add('path-loop-ee-other-key', 'ok:0', cert('E', 'E', 'ke', 'k2'), [ca('E', 'R', 'k2', 'kr')])
add('path-loop-two', 'no:UnknownIssuer', cert('E', 'X', 'ke', 'kx'), [ca('X', 'Y', 'kx', 'ky'), ca('Y', 'X', 'ky', 'kx')], anchors=[])
add('path-loop-expired', 'no:UnknownIssuer', cert('I', 'I', 'ki', 'ki'), [ca('I', 'R', 'ki', 'kr', na=utc('210101000000Z'))], anchors=[],
    note='a repeated certificate is passed over before anything else: no CertExpired, no extension used')
add('path-loop-not-by-key-alone', 'ok:0', cert('E', 'I', 'ki', 'ki'), [ca('I', 'R', 'ki', 'kr')], note='same key, other subject: no loop')
add('path-loop-same-cert-twice', 'ok:0', cert('E', 'I', 'ke', 'ki'), [ca('I', 'R', 'ki', 'kr'), ca('I', 'R', 'ki', 'kr')])
add('path-anchor-in-path', '?', cert('E', 'I', 'ke', 'ki'), [ca('I', 'R', 'ki', 'kr'), ca('R', 'I', 'kr', 'ki')], anchors=[anchor('R', 'kx'), anchor('R', 'kr')])
add('path-anchor-repeated', '?', cert('E', 'I', 'ke', 'ki'), [ca('I', 'R', 'ki', 'kr'), ca('R', 'R', 'kr', 'kr')], veto=1,
    note="the anchor's own certificate among the intermediates: not held against the anchor; the second path found goes through it")
add('path-anchor-first', 'ok:-', cert('E', 'I', 'ke', 'ki'), [ca('I', 'R', 'ki', 'kr')], anchors=[anchor('R', 'kr'), anchor('I', 'ki')], note='anchors before intermediates')
add('path-ku-ignored', 'ok', EI, [ca('I', 'R', 'ki', 'kr', [ext(KU, bits(b'\x80', 7), True)])], note='key usage is not looked at')
add('path-ku-garbage', 'ok', EI, [ca('I', 'R', 'ki', 'kr', [ext(KU, b'\xff\xff', True)])])
e, i = chain(3)
add('path-question-order', 'ok:2,1,0; q=a0>i0 i0>i1 i1>i2 i2>ee', e, i, note='signatures from the anchor down')
add('path-signatures-before-nc', 'no:InvalidSignatureForPublicKey', cert('E', 'R', 'ke', 'bad', [san(W)]), anchors=[anchor('R', 'kr', XV)], note='signatures, then name constraints')
add('path-sig-top-wrong', 'no:InvalidSignatureForPublicKey; q=a0>i0!wrong', cert('E', 'I', 'ke', 'bad'), [ca('I', 'R', 'ki', 'bad')], note='stops at the first wrong one')

# ---- the search
add('search-none', 'no:UnknownIssuer', leaf(), anchors=[])
add('search-two-issuers', 'ok:1; q=a0>i0!wrong a0>i1 i1>ee', cert('E', 'I', 'ke', 'ki'), [ca('I', 'R', 'k0', 'bad'), ca('I', 'R', 'ki', 'kr')], note='the first issuer of the name is not the last word')
add('search-two-issuers-lower-wrong', 'ok:1; q=a0>i0 i0>ee!wrong a0>i1 i1>ee', cert('E', 'I', 'ke', 'ki'), [ca('I', 'R', 'k0', 'kr'), ca('I', 'R', 'ki', 'kr')])
add('search-two-anchors', 'ok:-; q=a0>ee!wrong a1>ee', cert('E', 'R', 'ke', 'k2'), anchors=[anchor('R', 'kr'), anchor('R', 'k2')])
add('search-depth-first', 'ok:1,2', cert('E', 'I', 'ke', 'ki'), [ca('I', 'X', 'k0', 'kx'), ca('I', 'J', 'ki', 'kj'), ca('J', 'R', 'kj', 'kr')])
add('search-order', 'ok:0', cert('E', 'I', 'ke', 'ki'), [ca('I', 'R', 'ki', 'kr', serial=b'\x02\x01\x05'), ca('I', 'R', 'ki', 'kr', serial=b'\x02\x01\x06')])
add('search-unreadable-int', 'ok:1', EI, [b'\x30\x00', ca('I', 'R', 'ki', 'kr')])
add('search-unreadable-own-error', 'no:UnsupportedCriticalExtension', leaf(), [ca('Z', 'Z', 'kz', 'kz', [ext(UNK, b'', True)])], anchors=[], note='with its own error, before its subject is compared')
add('search-unreadable-ext-twice', 'no:ExtensionValueInvalid', leaf(), [ca('Z', 'Z', 'kz', 'kz', [bc()])], anchors=[])
add('search-lazy-time', '?', leaf(), [ca('Z', 'Z', 'kz', 'kz', nb=utc('x'))], anchors=[], note='a bad time in an unrelated one')
add('search-lazy-bc', '?', leaf(), [cert('Z', 'Z', 'kz', 'kz', [ext(BC, seq(b'\x05\0'))])], anchors=[], note='bad basic constraints in an unrelated one')
add('search-lazy-eku', '?', leaf(), [ca('Z', 'Z', 'kz', 'kz', [ext(EKU, seq())])], anchors=[])
add('search-alg-unknown', 'no:UnsupportedSignatureAlgorithmContext; q=a0>ee!alg', leaf(alg='C'))
add('search-alg-not-for-key', 'no:UnsupportedSignatureAlgorithmForPublicKeyContext; q=a0>ee!keyalg', leaf(alg='B'))
add('search-alg-b', 'ok', leaf(alg='B'), anchors=[anchor('R', 'kr', alg='B')])
add('search-alg-unknown-and-key-unreadable', '?', leaf(alg='C'), anchors=[(name('R'), b'\xff', None)], note='unknown algorithm, unreadable key: which error')
add('search-key-unreadable', 'no; q=a0>ee!key:BadDer', leaf(), anchors=[(name('R'), b'\xff\xff', None)])
add('search-veto-0', 'ok:-', leaf(), anchors=[anchor('R', 'kr')] * 3, veto=0)
add('search-veto-2', 'ok:-', leaf(), anchors=[anchor('R', 'kr')] * 3, veto=2)
add('search-veto-3', 'no:UnknownIssuer', leaf(), anchors=[anchor('R', 'kr')] * 3, veto=3)

# budgets, exactly and one beyond
add('budget-sig-100', 'ok:-', cert('E', 'R', 'ke', 'k99'), anchors=[anchor('R', 'k%d' % n) for n in range(100)], note='100 signatures')
add('budget-sig-101', 'no:MaximumSignatureChecksExceeded', cert('E', 'R', 'ke', 'k100'), anchors=[anchor('R', 'k%d' % n) for n in range(101)])
add('budget-sig-100-none', 'no:InvalidSignatureForPublicKey', cert('E', 'R', 'ke', 'bad'), anchors=[anchor('R', 'k%d' % n) for n in range(100)])
add('budget-sig-101-none', 'no:MaximumSignatureChecksExceeded', cert('E', 'R', 'ke', 'bad'), anchors=[anchor('R', 'k%d' % n) for n in range(101)])
add('budget-sig-unknown-alg-counts', 'no:MaximumSignatureChecksExceeded', leaf(alg='C'), anchors=[anchor('R', 'kr')] * 101)
e, i = chain(1)
add('budget-sig-100-paths', 'ok:0', cert('E', 'I1', 'ke', 'k1'), [ca('I1', 'R', 'k1', 'kr')], anchors=[anchor('R', 'bad%d' % n) for n in range(98)] + [anchor('R', 'kr')])
add('budget-sig-101-paths', 'no:MaximumSignatureChecksExceeded', cert('E', 'I1', 'ke', 'k1'), [ca('I1', 'R', 'k1', 'kr')], anchors=[anchor('R', 'bad%d' % n) for n in range(99)] + [anchor('R', 'kr')])

def layers(ns, dead=0, last=()):
    """Layer k: ns[k] certificates of subject Lk issued by L(k+1), distinct keys; the top layer's issuer is nobody."""
    ints = []
    for k, n in enumerate(ns):
        ints += [ca('L%d' % k, 'L%d' % (k + 1), 'k%d.%d' % (k, j), 'x') for j in range(n)]
    ints += [ca('L0', 'nobody', 'd%d' % j, 'x') for j in range(dead)]
    return cert('E', 'L0', 'ke', 'kgood'), ints + list(last)
def steps(ns):
    t = 0
    for n in reversed(ns):
        t = n * (1 + t)
    return t
NS = (20, 9, 10, 10, 10)
assert steps(NS) == 200000
e, i = layers(NS)
add('budget-path-200000', 'no:UnknownIssuer', e, i, note='200,000 extensions')
e, i = layers(NS, 1)
add('budget-path-200001', 'no:MaximumPathBuildCallsExceeded', e, i)
GOOD = ca('L0', 'R', 'kgood', 'kr')
NS2 = (19, 9, 10, 10, 10)              # 190,000
# 9,999 more, and then the good one: other families under L0, with names of their own
def family(tag, ns):
    ints = [ca('L0', tag + '1', 'k%s0' % tag, 'x')]
    for k, n in enumerate(ns):
        ints += [ca('%s%d' % (tag, k + 1), '%s%d' % (tag, k + 2), 'k%s%d.%d' % (tag, k + 1, j), 'x') for j in range(n)]
    return ints, 1 + steps(ns)
more, total = [], steps(NS2)
for tag, ns in [('P', (9, 10, 10, 9)), ('Q', (8, 10, 10)), ('S', (9,))]:
    f, t = family(tag, ns)
    more += f
    total += t
assert total == 199999, total
e, i = layers(NS2)
add('budget-path-200000-good', 'ok', e, i + more + [GOOD], note='the good one is the 200,000th')
add('budget-path-200001-good', 'no:MaximumPathBuildCallsExceeded', e, i + more + [ca('L0', 'nobody', 'dd', 'x'), GOOD])
# a seventh counts, before it is rejected as too deep
e, i = chain(7)
add('budget-path-seventh', 'no:MaximumPathDepthExceeded', e, i)
add('budget-path-seventh-6', 'no:MaximumPathBuildCallsExceeded', e, i, budget=(100, 6, 100), note='six is not enough: the seventh counts')
add('budget-path-seventh-7', 'no:MaximumPathDepthExceeded', e, i, budget=(100, 7, 100))
e, i = chain(2)
for b, want in [((3, 2, 0), 'ok'), ((2, 2, 0), 'no:MaximumSignatureChecksExceeded'), ((3, 1, 0), 'no:MaximumPathBuildCallsExceeded'), ((0, 0, 0), 'no:MaximumPathBuildCallsExceeded')]:
    add('budget-small-%d-%d-%d' % b, want, e, i, budget=b)
# comparisons: 500 entries, 499 names and the subject
def many(nnames, nentries, extra=()):
    return dict(ee=leaf([san(*([dns('a.b')] * nnames))]), anchors=[anchor('R', 'kr', nc_value(None, [dns('q')] * nentries + list(extra)))])
add('budget-nc-250000', 'ok', **many(499, 500), note='250,000 comparisons, the subject counts as one more name')
add('budget-nc-250500', 'no:MaximumNameConstraintComparisonsExceeded', **many(500, 500))
add('budget-nc-250001', 'no:MaximumNameConstraintComparisonsExceeded', ee=cert('E', 'I', 'ke', 'ki', [san(*([dns('a.b')] * 498))]),
    ints=[ca('I', 'R', 'ki', 'kr', [nc(None, [dns('q')])])], anchors=[anchor('R', 'kr', nc_value(None, [dns('q')] * 499 + [dns('r')] * 1))], note='500*(498+1) + 500 (I itself) + 499 = 250,499')
kinds = [mail('q'), ip('0a000000ff000000'), uri('q'), other(), dns('q')]
add('budget-nc-kinds-250000', 'ok', **many(499, 495, kinds), note='of whatever kind')
add('budget-nc-kinds-250001', 'no:MaximumNameConstraintComparisonsExceeded', ee=leaf([san(*([dns('a.b')] * 250))]),
    anchors=[anchor('R', 'kr', nc_value(None, [mail('q')] * 996 + [mail('q')]))], note='251 names, 997 entries: 250,247')
def tuned(n_names, anchor_entries, int_entries):
    """comparisons = anchor_entries * (1 + n_names + 1) + int_entries * (n_names + 1)"""
    t = anchor_entries * (n_names + 2) + int_entries * (n_names + 1)
    return t, dict(ee=cert('E', 'I', 'ke', 'ki', [san(*([dns('a.b')] * n_names))]), ints=[ca('I', 'R', 'ki', 'kr', [nc(None, [dns('q')] * int_entries)])],
                   anchors=[anchor('R', 'kr', nc_value(None, [dns('q')] * anchor_entries))])
def find(total):
    for n in range(300, 700):
        for a in range(1, n):
            r = total - a * (n + 2)
            if r > 0 and r % (n + 1) == 0 and r // (n + 1) < 600:
                return n, a, r // (n + 1)
for total, want in [(250000, 'ok:0'), (250001, 'no:MaximumNameConstraintComparisonsExceeded')]:
    n, a, b = find(total)
    t, kw = tuned(n, a, b); assert t == total
    add('budget-nc-tuned-%d' % total, want, **kw, note='%d names, %d anchor entries, %d of the intermediate' % (n, a, b))
add('budget-nc-two-anchors', 'no:MaximumNameConstraintComparisonsExceeded', ee=leaf([san(*([dns('a.b')] * 499))]),
    anchors=[anchor('R', 'kr', nc_value(None, [dns('q')] * 499 + [dns('a.b')])), anchor('R', 'kr', nc_value(None, [dns('q')] * 500))],
    note='for the whole search: 500 by the first anchor (refused at the first name), then 250,000')

# ranks
exp = dict(na=utc('210101000000Z'))
def pick(tag, errs, ee, ints, anchors=None):
    add('rank-' + tag, 'no:' + errs, ee, ints, anchors=anchors, note='highest rank, earliest among equals')
E2 = cert('E', 'I', 'ke', 'ki')
GI = lambda **kw: ca('I', 'R', 'ki', 'kr', **kw)
CAND = {'CertExpired': GI(**exp), 'CertNotValidYet': GI(nb=utc('300101000000Z')), 'InvalidSignatureForPublicKey': ca('I', 'R', 'ki', 'bad'),
        'SignatureAlgorithmMismatch': ca('I', 'R', 'ki', 'kr', inner_alg='B'), 'EmptyEkuExtension': ca('I', 'R', 'ki', 'kr', [eku()]),
        'RequiredEkuNotFoundContext': ca('I', 'R', 'ki', 'kr', [eku(CLIENT)]), 'EndEntityUsedAsCa': cert('I', 'R', 'ki', 'kr'),
        'InvalidCertValidity': GI(nb=utc('300101000000Z'), na=utc('290101000000Z')), 'UnsupportedSignatureAlgorithmForPublicKeyContext': GI(alg='B'),
        'UnsupportedSignatureAlgorithmContext': GI(alg='C'), 'UnsupportedCriticalExtension': ca('I', 'R', 'ki', 'kr', [ext(UNK, b'', True)]),
        'UnsupportedCertVersion': GI(version=b''), 'TrailingData(Certificate)': GI() + b'\0', 'ExtensionValueInvalid': ca('I', 'R', 'ki', 'kr', [bc()]),
        'BadDerTime': GI(nb=utc('x')), 'BadDer': GI(serial=b'\x03\x00'), 'UnknownIssuer': ca('Z', 'R', 'kz', 'kr')}
RANK = {'CertExpired': 290, 'CertNotValidYet': 290, 'InvalidSignatureForPublicKey': 260, 'SignatureAlgorithmMismatch': 250, 'EmptyEkuExtension': 245,
        'RequiredEkuNotFoundContext': 240, 'EndEntityUsedAsCa': 210, 'InvalidCertValidity': 190, 'UnsupportedSignatureAlgorithmForPublicKeyContext': 150,
        'UnsupportedSignatureAlgorithmContext': 140, 'UnsupportedCriticalExtension': 130, 'UnsupportedCertVersion': 130, 'TrailingData(Certificate)': 40,
        'ExtensionValueInvalid': 30, 'BadDerTime': 20, 'BadDer': 10, 'UnknownIssuer': 0}
ks = list(CAND)
for a, b in zip(ks, ks[1:]):
    pick('%s-then-%s' % (a, b), a, E2, [CAND[a], CAND[b]])
    pick('%s-then-%s' % (b, a), b if RANK[b] >= RANK[a] else a, E2, [CAND[b], CAND[a]])
pick('all', 'CertExpired', E2, list(CAND.values()))
pick('all-reversed', 'CertNotValidYet', E2, list(reversed(CAND.values())))
pick('nc-then-pathlen', 'NameConstraintViolation', *(lambda e, i: (e, i))(cert('E', 'I', 'ke', 'ki', [san(W)]),
     [ca('I', 'J', 'ki', 'kj', [X]), ca('I', 'R', 'ki', 'kr', [X], serial=b'\x02\x01\x09'), ca('J', 'R', 'kj', 'kr', path=0)]))
pick('depth-vs-version', 'UnsupportedCertVersion', *(lambda e, i: (e, i + [CAND['UnsupportedCertVersion']]))(*chain(7)))
pick('depth-vs-malformed', 'MaximumPathDepthExceeded', *(lambda e, i: (e, i + [CAND['TrailingData(Certificate)']]))(*chain(7)))
pick('anchor-error-kept', 'InvalidSignatureForPublicKey', cert('E', 'I', 'ke', 'ki'), [ca('I', 'Z', 'ki', 'kz')], [anchor('I', 'kbad')])
pick('deep-error-comes-up', 'CertExpired', cert('E', 'I', 'ke', 'ki'), [ca('I', 'J', 'ki', 'kj'), ca('J', 'R', 'kj', 'kr', **exp)])

# several things wrong with one end entity: what is reported
W2 = dict(na=utc('210101000000Z'))
add('multi-parse-version-and-critical', '?', leaf([ext(UNK, b'', True)], version=b''))
add('multi-parse-alg-and-ext', '?', leaf([bc(), bc()], inner_alg='B'))
add('multi-parse-sigbits-and-version', '?', leaf(version=b'', sig_unused=1))
add('multi-parse-trailing-and-version', '?', leaf(version=b'', after=b'\0'))
add('multi-parse-critical-and-twice', '?', leaf([ext(UNK, b'', True), bc(), bc()]))
add('multi-parse-twice-and-critical', '?', leaf([bc(), bc(), ext(UNK, b'', True)]))
add('multi-twice-second-garbage', '?', leaf([bc(), ext(BC, b'\xff')]))
add('multi-critical-known-garbage', '?', leaf([ext(BC, b'\xff', True)]))
add('multi-ee-expired-and-ca-and-eku', 'no:CertExpired', leaf([bc(), eku(CLIENT)], **W2))
add('multi-ee-bc-garbage-and-ca', '?', leaf([bc(raw=TRUE + b'\x05\0')]))
add('multi-ee-error-no-search', 'no:CaUsedAsEndEntity; q=-', cert('E', 'R', 'ke', 'kr', [bc()]), [CAND['CertExpired']])

# ---- the far ends
add('edge-time-0', 'no:CertNotValidYet', leaf(), time=0)
LAST_MOMENT = 253402300799
for seconds, want in ((LAST_MOMENT, 'ok'), (LAST_MOMENT + 1, 'no:CertExpired'), (2**63, 'no:CertExpired'), (2**64 - 1, 'no:CertExpired')):
    add('edge-time-%d' % seconds, want, leaf(na=gen('99991231235959Z')), time=seconds)
add('edge-int-of-no-bytes', 'no:TrailingData(SignedData)', leaf(), [b''], anchors=[])
add('edge-key-of-no-bits', 'ok:-', leaf(sig=b''), anchors=[(name('R'), spki(b''), None)])
add('edge-anchor-key-of-no-bytes', 'no:BadDer; q=a0>ee!key:BadDer', leaf(), anchors=[(name('R'), b'', b'')])
add('edge-vetoes-up-to-the-budget', 'no:MaximumSignatureChecksExceeded', leaf(), anchors=[anchor('R', 'kr')] * 101, veto=200)
add('edge-vetoes-on-every-path', 'no:UnknownIssuer', EI, [ca('I', 'R', 'ki', 'kr')] * 8, anchors=[anchor('R', 'kr')] * 3, veto=50)
add('edge-300-strangers', 'ok:300', EI, [ca('X%d' % k, 'Y', 'kx', 'ky') for k in range(300)] + [ca('I', 'R', 'ki', 'kr')])
def constrained(n):
    """A chain of n intermediates, each with constraints and names of its own; the key and name that sign the end entity."""
    ints, up, key = [], 'R', 'kr'
    for k in range(n):
        ints.append(ca('I%d' % k, up, 'k%d' % k, key, [nc([dns('b')], [dns('c%d.b' % k)]), san(dns('x%d.b' % k))]))
        up, key = 'I%d' % k, 'k%d' % k
    return ints, up, key
ints, up, key = constrained(6)
for tag, names_, want in (('passed', [dns('a.b'), dns('*.q.b')], 'ok:5,4,3,2,1,0'), ('excluded', [dns('c3.b')], V), ('not-permitted', [dns('b.a')], V)):
    add('edge-constraints-at-every-level-' + tag, want, cert('E', up, 'ke', key, [san(*names_)]), ints, anchors=[anchor('R', 'kr', nc_value([dns('')]))])

# ---- revocation
ER = cert('E', 'I', 'ke', 'ki', serial=b'\x02\x01\x07')
IR = ca('I', 'R', 'ki', 'kr', serial=b'\x02\x01\x08')
def rev(tag, want, crls, opts='chain deny ignore', ee=ER, ints=(IR,), **kw):
    add('crl-' + tag, want, ee, list(ints), crls=crls, revocation=opts, note='revocation', **kw)
cI, cR = crl('I', 'ki', [b'\x63']), crl('R', 'kr', [b'\x63'])
rev('both-fine', 'ok', [cI, cR])
rev('ee-revoked', 'no:CertRevoked', [crl('I', 'ki', [b'\x07']), cR])
rev('int-revoked', 'no:CertRevoked', [cI, crl('R', 'kr', [b'\x08'])])
rev('int-revoked-depth-ee', 'ok', [cI, crl('R', 'kr', [b'\x08'])], 'endentity deny ignore')
rev('unknown-deny', 'no:UnknownRevocationStatus', [cI])
rev('unknown-allow', 'ok', [cI], 'chain allow ignore')
rev('expired-ignore', 'ok', [crl('I', 'ki', next=utc('210101000000Z')), cR])
rev('expired-enforce', 'no:CrlExpired', [crl('I', 'ki', next=utc('210101000000Z')), cR], 'chain deny enforce')
rev('expiry-exact', 'no:CrlExpired', [crl('I', 'ki', next=utc('231114221320Z')), cR], 'chain deny enforce')
rev('expiry-one-later', 'ok', [crl('I', 'ki', next=utc('231114221321Z')), cR], 'chain deny enforce')
rev('bad-signature', 'no:InvalidCrlSignatureForPublicKey', [crl('I', 'bad'), cR])
rev('bad-alg', 'no:UnsupportedCrlSignatureAlgorithmContext', [crl('I', 'ki', alg='C'), cR])
for tag, v, want in [('crlsign', bits(b'\x02', 1), 'ok'), ('certsign-only', bits(b'\x04', 2), 'no:IssuerNotCrlSigner'), ('zero-bits-stay', bits(b'\x02\x00', 0), 'ok'),
                     ('unused-set', bits(b'\x03', 1), 'no'), ('unused-8', bits(b'\x02', 8), 'no'), ('empty', bits(b'', 0), 'no:IssuerNotCrlSigner'),
                     ('empty-unused', bits(b'', 1), 'no'), ('not-bits', b'\x04\x00', 'no'), ('trailing', bits(b'\x02', 1) + b'\x05\0', '?')]:
    rev('ku-' + tag, want, [cI, cR], ints=[ca('I', 'R', 'ki', 'kr', [ext(KU, v)], serial=b'\x02\x01\x08')])
exp_rev = crl('I', 'ki', [b'\x07'], next=utc('210101000000Z'))
no_sign = ca('I', 'R', 'ki', 'kr', [ext(KU, bits(b'\x04', 2))], serial=b'\x02\x01\x08')
rev('order-all-wrong', '?', [crl('I', 'bad', [b'\x07'], next=utc('210101000000Z')), cR], 'chain deny enforce', ints=[no_sign])
rev('order-expired-ku-revoked', '?', [exp_rev, cR], 'chain deny enforce', ints=[no_sign])
rev('order-ku-revoked', '?', [crl('I', 'ki', [b'\x07']), cR], 'chain deny enforce', ints=[no_sign])
rev('version-1', 'no', [crl('I', 'ki', version=integer(0)), cR])
rev('no-extensions', 'no', [crl('I', 'ki', exts=[]), cR])
rev('first-of-two-lists', '?', [crl('I', 'ki', [b'\x63']), crl('I', 'ki', [b'\x07']), cR])
rev('serial-bytes', '?', [crl('I', 'ki', [b'\x00\x07']), cR])
rev('entry-garbage-after', '?', [crl('I', 'ki', entries=seq(tlv(2, b'\x07'), NB) + b'\x05\0'), cR])
rev('entry-garbage-before', '?', [crl('I', 'ki', entries=b'\x05\0' + seq(tlv(2, b'\x07'), NB)), cR])
rev('sig-budget', 'no:MaximumSignatureChecksExceeded', [cI, cR], anchors=[anchor('R', 'b%d' % n) for n in range(97)] + [anchor('R', 'kr')])


# ---- what the cases are for

def is_slow(cname):
    return cname.startswith('budget-path-2000')


def cases(kind):
    """The texts of the kind, hand or slow."""
    return [text for cname, text in CASES.texts.items() if is_slow(cname) == (kind == 'slow')]


if __name__ == '__main__':
    if sys.argv[1:] not in (['hand'], ['slow']):
        sys.exit(__doc__)
    sys.stdout.writelines(cases(sys.argv[1]))
