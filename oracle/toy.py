"""A small DER encoder, certificates under the toy signature scheme, and the text of cases (docs/ORACLE.md has their format)."""


def length(n, form=None):
    """form None: shortest. 0: one byte. 1..4: so many length bytes, even if shorter would do."""
    if form is None:
        form = 0 if n < 0x80 else (n.bit_length() + 7) // 8
    if form == 0:
        return bytes([n])
    return bytes([0x80 + form]) + n.to_bytes(form, 'big')

def tlv(tag, content, form=None):
    return bytes([tag]) + length(len(content), form) + content

def seq(*parts): return tlv(0x30, b''.join(parts))
def octets(b): return tlv(4, b)
def bits(b, unused=0): return tlv(3, bytes([unused]) + b)
def integer(n):
    return tlv(2, n.to_bytes(n.bit_length() // 8 + 1, 'big', signed=True))

def oid(text):
    a = [int(x) for x in text.split('.')]
    out = b''
    for n in [a[0] * 40 + a[1]] + a[2:]:
        part = [n & 0x7f]
        while n > 0x7f:
            n >>= 7
            part.append(0x80 | (n & 0x7f))
        out += bytes(reversed(part))
    return tlv(6, out)

TRUE, FALSE = bytes.fromhex('0101ff'), bytes.fromhex('010100')

# ---- algorithms: the verifier knows A and B, but not C
ALG = {'A': oid('1.2.3.4'), 'B': oid('1.2.3.5'), 'C': oid('1.2.3.6')}

def name(cn, kind=0x0c):
    """The content of a Name (without the outer SEQUENCE header). '' is the empty name."""
    if cn == '':
        return b''
    return tlv(0x31, seq(oid('2.5.4.3'), tlv(kind, cn.encode())))

def mail_subject(address):
    """The content of a Name that has a mail address alone."""
    return tlv(0x31, seq(oid('1.2.840.113549.1.9.1'), tlv(0x16, address.encode())))

def spki(key, alg='A', unused=0):
    """The content of a SubjectPublicKeyInfo. The key is a text; the toy's secret is the same text."""
    k = key if isinstance(key, bytes) else key.encode()
    return seq(ALG[alg]) + bits(k, unused)

def utc(t): return tlv(0x17, t.encode())
def gen(t): return tlv(0x18, t.encode())

# ---- extensions
def ext(o, value, critical=None, after=b''):
    """critical: None (absent), True, False (written), or bytes."""
    c = {None: b'', True: TRUE, False: FALSE}.get(critical, critical) if not isinstance(critical, bytes) else critical
    o = oid(o) if isinstance(o, str) else o
    return seq(o, c, octets(value), after)

KU, SAN, BC, NC, CDP, EKU = ('2.5.29.%d' % x for x in (15, 17, 19, 30, 31, 37))
SERVER, CLIENT, ANY = '1.3.6.1.5.5.7.3.1', '1.3.6.1.5.5.7.3.2', '2.5.29.37.0'

def bc(ca=True, path=None, raw=None, critical=True):
    if raw is None:
        raw = (TRUE if ca else b'') + (integer(path) if path is not None else b'')
    return ext(BC, seq(raw), critical)

def eku(*oids, critical=None): return ext(EKU, seq(*[oid(o) for o in oids]), critical)

# general names
def dns(t): return tlv(0x82, t if isinstance(t, bytes) else t.encode())
def ip(b): return tlv(0x87, bytes(b) if not isinstance(b, str) else bytes.fromhex(b))
def uri(t): return tlv(0x86, t.encode())
def mail(t): return tlv(0x81, t.encode())
def directory(cn): return tlv(0xa4, seq(name(cn)))
def other(): return tlv(0xa0, oid('1.2.3') + tlv(0xa0, tlv(0x0c, b'x')))
def registered(): return tlv(0x88, b'\x2a\x03')

def san(*names, critical=None): return ext(SAN, seq(*names), critical)

def subtree(n, after=b''): return seq(n, after)
def nc_value(permitted=None, excluded=None):
    """Content of NameConstraints. Lists of general names, or None for absent."""
    out = b''
    if permitted is not None:
        out += tlv(0xa0, b''.join(subtree(n) for n in permitted))
    if excluded is not None:
        out += tlv(0xa1, b''.join(subtree(n) for n in excluded))
    return out
def nc(permitted=None, excluded=None, critical=True): return ext(NC, tlv(0x30, nc_value(permitted, excluded)), critical)

NB, NA = utc('200101000000Z'), utc('400101000000Z')
V3 = bytes.fromhex('a003020102')

def cert(subject, issuer, key, signer, exts=None, *, serial=b'\x02\x01\x01', version=V3, nb=NB, na=NA,
         alg='A', inner_alg=None, key_alg='A', spki_value=None, validity=None, sig=None, sig_unused=0,
         sig_tlv=None, subject_raw=None, issuer_raw=None, fields=None, ext_field=None, before_ext=b'', after_ext=b'',
         after_sig=b'', after=b''):
    """exts: list of encoded extensions or None for no [3]. signer: the key text of whoever signs.
    fields: encoded values in place of issuer, validity, subject and key."""
    a = seq(ALG[alg]) if isinstance(alg, str) else alg
    ia = a if inner_alg is None else (seq(ALG[inner_alg]) if isinstance(inner_alg, str) else inner_alg)
    if ext_field is None:
        ext_field = b'' if exts is None else tlv(0xa3, seq(*exts))
    if fields is None:
        fields = [tlv(0x30, issuer_raw if issuer_raw is not None else name(issuer)),
                  validity if validity is not None else seq(nb, na),
                  tlv(0x30, subject_raw if subject_raw is not None else name(subject)),
                  tlv(0x30, spki_value if spki_value is not None else spki(key, key_alg))]
    tbs = seq(version, serial, ia, *fields, before_ext, ext_field, after_ext)
    s = sig if sig is not None else (signer if isinstance(signer, bytes) else signer.encode())
    st = sig_tlv if sig_tlv is not None else bits(s, sig_unused)
    return seq(tbs, a, st, after_sig) + after

def ca(subject, issuer, key, signer, exts=(), **kw):
    return cert(subject, issuer, key, signer, [bc(True, kw.pop('path', None))] + list(exts), **kw)

def anchor(cn, key, ncv=None, alg='A'):
    return (name(cn), spki(key, alg), ncv)

# ---- revocation lists
def crl(issuer, signer, serials=(), *, this=NB, next=NA, alg='A', exts=None, entries=None, version=integer(1)):
    a = seq(ALG[alg])
    if entries is None:
        entries = b''.join(seq(tlv(2, s), NB) for s in serials)
    rev = tlv(0x30, entries) if entries else b''
    e = exts if exts is not None else [ext('2.5.29.20', integer(1))]
    tbs = seq(version, a, tlv(0x30, name(issuer)), this, next, rev, tlv(0xa0, seq(*e)))
    return seq(tbs, a, bits(signer.encode()))

# ---- text of a case
NOW = 1_700_000_000

def case_text(cname, ee, ints=(), anchors=(), time=NOW, eku_line=None, names=(), distrust=(), crls=(), revocation=None,
              veto=None, budget=None, note=None):
    h = lambda b: b.hex() or '-'
    out = []
    if note:
        out += ['# ' + n for n in note.split('\n')]
    out += ['case ' + cname, 'ee ' + h(ee)]
    out += ['int ' + h(i) for i in ints]
    for a in anchors:
        if isinstance(a, bytes):
            out.append('anchorcert ' + h(a))
        else:
            s, k, n = a
            out.append('anchor %s %s %s' % (h(s), h(k), '-' if n is None else (n.hex() or 'empty')))
    out.append('time %d' % time)
    if eku_line:
        out.append('eku %s %s' % (oid(eku_line[0])[2:].hex(), eku_line[1]))
    for kind, v in names:
        out.append('name %s %s' % (kind, h(v if isinstance(v, bytes) else v.encode())))
    out += ['distrust ' + h(d) for d in distrust]
    out += ['crl ' + h(c) for c in crls]
    if revocation:
        out.append('revocation ' + revocation)
    if veto is not None:
        out.append('veto %d' % veto)
    if budget is not None:
        out.append('budget %d %d %d' % tuple(budget))
    return '\n'.join(out) + '\nend\n\n'
