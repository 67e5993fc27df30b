#!/usr/bin/env python3
"""Generated cases, endless and the same for the same seed. Usage: generate.py KIND SEED COUNT > FILE

KIND:  flip     one bit of a certificate, of an anchor or of its constraints is turned
       bytes    one byte of them is set, left out, put in, or everything from it on is cut off
       tree     values inside them are left out, doubled, exchanged, given another tag, content or form of length; the lengths around them are right
       dns      presented DNS names against entries of name constraints
       dnsname  wanted DNS names against presented ones
       ip       presented addresses against entries of name constraints
       time     validities, and moments around them
       ext      any extensions in any order, with any values
       forest   certificates with names, issuers, keys and signers by chance: many paths, few right signatures
       forest2  a chain with cross signs, nearly all signatures right: long paths, and questions down to the end entity
       ncs      name constraints and alternative names of every kind"""
import copy, datetime, itertools, random, re, sys
from toy import *

R = anchor('R', 'kr')
UNKNOWN = '1.2.3.99'


def leaf(exts=None, **kw):
    """An end entity straight under the anchor R."""
    return cert('E', 'R', 'ke', 'kr', exts, **kw)


def under(constraints):
    """The anchor R with these name constraints."""
    return [(name('R'), spki('kr'), constraints)]


# ---- one thing changed in a chain that is fine

WANTED = [('dns', 'www.example.com'), ('dns', 'x.a.example.com'), ('ip', bytes([10, 2, 3, 4]))]


def rich(rnd, n):
    """A chain with every known extension, constraints that matter and names to look for; from the second on, in another order and size."""
    pick = (lambda *of: of[0]) if n == 0 else (lambda *of: rnd.choice(of))
    def order(exts):
        if n > 0:
            rnd.shuffle(exts)
        return exts
    constraints = nc([dns('example.com'), ip('0a000000ff000000')], [dns('bad.example.com'), ip('0a010000ffff0000'), mail('x.org')],
                     critical=pick(True, None, False))
    upper = cert('I1', 'R', 'k1', 'kr', order([bc(True, pick(1, 2, None)), constraints, ext(KU, bits(b'\x06', 1), True), eku(SERVER, CLIENT)]))
    key = pick('k2', 'k2' * 70)
    lower = cert('I2', 'I1', key, 'k1', order([bc(True, pick(0, None)), eku(CLIENT, SERVER), ext('2.5.29.14', octets(b'abcd'))]))
    names = order([dns('www.example.com'), dns('*.a.example.com'), ip([10, 2, 3, 4]), uri('u:v')])
    e = cert('E', 'I2', 'ke', key, order([bc(False), san(*names), eku(SERVER), ext(CDP, seq()), ext('1.2.3.77', b'zz' * pick(1, 80), False)]),
             na=gen('20500101000000Z'))
    inner = nc_value([dns('com')], [dns('q.com')])
    top = {'nc': inner}
    if n % 2 == 1:
        top = {'anchor': ca('R', 'R', 'kr', 'kr', [ext(NC, tlv(0x30, inner)), ext(UNKNOWN, b'', True)])}
    if n % 8 == 7:
        top = {'anchor': cert('R', 'R', 'kr', 'kr', version=b'')}
    return {'ee': e, 'i0': upper, 'i1': lower, **top}


def chain_case(tag, parts):
    anchors = [parts['anchor']] if 'anchor' in parts else under(parts['nc'])
    return case_text(tag, parts['ee'], [parts['i0'], parts['i1']], anchors, names=WANTED)


def changed(rnd, tag, changes):
    """The chains of `rich` one after the other, with each change to each part that `changes` lists: (its name, the bytes)."""
    for n in itertools.count():
        parts = rich(rnd, n)
        yield chain_case('%s-%d' % (tag, n), parts)
        for p, b in parts.items():
            for what, new in changes(b):
                yield chain_case('%s-%d-%s-%s' % (tag, n, p, what), {**parts, p: new})


def flip(rnd):
    def changes(b):
        for i in range(len(b) * 8):
            m = bytearray(b)
            m[i // 8] ^= 0x80 >> (i % 8)
            yield str(i), bytes(m)
    return changed(rnd, 'flip', changes)


def one_byte(rnd):
    telling = (0, 1, 0x7f, 0x80, 0x81, 0x82, 0xff, 0x30)
    def changes(b):
        for i in range(len(b)):
            for v in sorted({*telling, (b[i] + 1) & 255, (b[i] - 1) & 255} - {b[i]}):
                yield 'set-%d-%02x' % (i, v), b[:i] + bytes([v]) + b[i + 1:]
            yield 'del-%d' % i, b[:i] + b[i + 1:]
            yield 'ins-%d' % i, b[:i] + b'\x00' + b[i:]
            yield 'cut-%d' % i, b[:i]
    return changed(rnd, 'bytes', changes)


CONSTRUCTED, OCTETS = 0x20, 0x04


def opened(b):
    """The values that bytes consist of, [tag, values inside or content, form of the length]; None if they do not."""
    values, i = [], 0
    while i < len(b):
        if i + 2 > len(b):
            return None
        tag, n, start = b[i], b[i + 1], i + 2
        if n >= 0x80:
            size = n - 0x80
            n, start = int.from_bytes(b[start:start + size], 'big'), start + size
        if start + n > len(b):
            return None
        content = b[start:start + n]
        inside = opened(content) if tag & CONSTRUCTED or tag == OCTETS else None
        values.append([tag, content if inside is None else inside, None])
        i = start + n
    return values


def closed(values):
    return b''.join(tlv(tag, content if isinstance(content, bytes) else closed(content), form) for tag, content, form in values)


def lists_in(values):
    """Every list of values, from the outermost in."""
    yield values
    for _, content, _ in values:
        if isinstance(content, list):
            yield from lists_in(content)


CONTENTS = [b'', b'\0', b'\xff', b'\x01', b'\0\x80', b'200101000000Z', b'20500101000000Z', b'a.b', bytes(4), bytes(8), b'\x55\x1d\x13', b'\x55\x1d\x1e']
TAGS = [0x01, 0x02, 0x03, 0x04, 0x05, 0x06, 0x0c, 0x17, 0x18, 0x30, 0x31, 0x80, 0x81, 0x82, 0x86, 0x87, 0xa0, 0xa1, 0xa3, 0xa4]
SHORT = 0x80  # every form of length can hold a content shorter than this


def change(rnd, values):
    """One change somewhere in a tree of values."""
    lists = [v for v in lists_in(values) if v]
    if not lists:
        return
    within = rnd.choice(lists)
    k = rnd.randrange(len(within))
    tag, content, form = within[k]
    what = rnd.choice(['leave out', 'double', 'add', 'tag', 'content', 'replace', 'exchange', 'form'])
    if what == 'leave out':
        del within[k]
    elif what == 'double':
        within.insert(k, copy.deepcopy(within[k]))
    elif what == 'add':
        within.append([rnd.choice(TAGS), rnd.choice(CONTENTS), None])
    elif what == 'tag':
        within[k] = [rnd.choice(TAGS), content, form]
    elif what == 'content':
        within[k] = [tag, rnd.choice(CONTENTS), None]
    elif what == 'replace':
        within[k] = copy.deepcopy(rnd.choice(rnd.choice(lists)))
    elif what == 'exchange':
        within[k], within[k - 1] = within[k - 1], within[k]
    elif len(closed([within[k]])) < SHORT:
        within[k] = [tag, content, rnd.choice([1, 2, 3, 4])]


def tree(rnd):
    for n in itertools.count():
        parts = rich(rnd, n)
        for k in range(500):
            p = rnd.choice(list(parts))
            values = opened(parts[p])
            for _ in range(rnd.choice([1, 1, 1, 2, 3])):
                change(rnd, values)
            yield chain_case('tree-%d-%s-%d' % (n, p, k), {**parts, p: closed(values)})


# ---- names

LABEL = r'[A-Za-z0-9_]([A-Za-z0-9_-]*[A-Za-z0-9_])?'
PLAIN = re.compile(r'(%s\.)*%s' % (LABEL, LABEL))


def valid(text):
    """Short names only: no label here comes near 63 bytes."""
    return PLAIN.fullmatch(text) is not None and not text.split('.')[-1].isdigit()


def valid_presented(text):
    return valid(text[2:]) and '.' in text[2:] if text.startswith('*.') else valid(text)


def valid_entry(text):
    return text == '' or valid(text[1:] if text.startswith('.') else text)


def valid_wanted(text):
    return valid(text[:-1] if text.endswith('.') else text)


def texts(alphabet, longest):
    return [''.join(t) for n in range(longest + 1) for t in itertools.product(alphabet, repeat=n)]


def by_ending(names):
    """Names by their last two letters: only these can match one another."""
    table = {}
    for t in names:
        table.setdefault(t.rstrip('.').lower()[-2:], []).append(t)
    return table


def long_name(rnd):
    """A name about as long as one may be, of labels about as long as they may be."""
    total, name = rnd.randrange(248, 258), ''
    while len(name) < total:
        name += 'a' * min(rnd.choice([1, 30, 62, 63, 63, 64]), total - len(name)) + '.'
    return rnd.choice(['', '', '*.', '.']) + name[:total]


def dns_entries(rnd):
    def con(tag, presented, permitted, excluded):
        return case_text(tag, leaf([san(dns(presented))]), [], under(nc_value(permitted, excluded)))
    short = texts('a1-.*_', 5)
    rnd.shuffle(short)
    for t in short:
        yield con('presented ' + t, t, None, [dns('q')])
        yield con('entry ' + t, 'q.q', None, [dns(t)])
    presented = [t for t in texts('aB.*', 7) if valid_presented(t)]
    entries = [t for t in texts('ab.', 7) if valid_entry(t)]
    near = by_ending(entries)
    while True:
        p = rnd.choice(presented)
        e = rnd.choice(near.get(p.lower()[-2:], entries) if rnd.random() < .97 else entries)
        if rnd.random() < .02:
            p = long_name(rnd)
            e = rnd.choice([p[rnd.randrange(8):], long_name(rnd)])
        if rnd.random() < .5:
            yield con('perm %s in %s' % (p, e), p, [dns(e)], None)
        else:
            yield con('excl %s in %s' % (p, e), p, None, [dns(e)])


def dns_wanted(rnd):
    each = 20
    def look(tag, presented, wanted):
        return case_text(tag, leaf([san(*[dns(p) for p in presented])]), [], [R], names=[('dns', t) for t in wanted])
    wanted = texts('a1-._', 5)
    for k in range(0, len(wanted), each):
        yield look('wanted-%d' % k, ['a.a'], wanted[k:k + each])
    good = [t for t in texts('aB.', 6) if valid_wanted(t)]
    near = by_ending(good)
    every = texts('ab.*', 6)
    fine = [t for t in every if valid_presented(t)]
    for k in itertools.count():
        p = [rnd.choice(fine if rnd.random() < .95 else every) for _ in range(rnd.choice([1, 1, 1, 2, 3]))]
        close = near.get(p[-1].lower()[-2:], good)
        names = [rnd.choice(close if rnd.random() < .9 else good) for _ in range(each)]
        if rnd.random() < .02:
            p = [long_name(rnd)]
            names = [p[0], p[0] + '.', p[0].lstrip('*'), 'b' + p[0].lstrip('*'), long_name(rnd)]
        yield look('presented-%d' % k, p, names)


def ip_entries(rnd):
    for k in itertools.count():
        n = rnd.choice([4, 4, 4, 16])
        a = bytearray(rnd.choice([0, 1, 127, 128, 192, 255]) for _ in range(n))
        c = bytearray(a)
        if rnd.random() < .7:
            c[rnd.randrange(n)] ^= 1 << rnd.randrange(8)
        ones = rnd.randrange(8 * n + 1)
        m = bytearray(((1 << 8 * n) - (1 << (8 * n - ones))).to_bytes(n, 'big'))
        if rnd.random() < .4:
            m[rnd.randrange(n)] ^= 1 << rnd.randrange(8)
        subnet = bytes(c + m)
        if rnd.random() < .1:
            subnet = subnet[:rnd.randrange(33)]
        if rnd.random() < .1:
            a = a[:rnd.randrange(17)]
        entries = [ip(subnet)]
        if rnd.random() < .2:
            entries.append(ip(bytes(rnd.choice([0, 192, 255]) for _ in range(rnd.choice([8, 32])))))
        lists = (entries, None) if rnd.random() < .5 else (None, entries)
        yield case_text('ip-%d' % k, leaf([san(ip(bytes(a)))]), [], under(nc_value(*lists)))


def constraints(rnd):
    good = [dns('a.b'), dns('*.a.b'), dns('c.a.b'), dns('a.b.'), dns(''), dns('.a.b'), dns('b'), ip([10, 0, 0, 1]), ip('0a000000ff000000'),
            ip('0a00000000ff0000'), ip([1]), uri('a.b'), mail('a@b'), directory('x'), other(), registered(), tlv(0xa3, b'')]
    every = good + [tlv(0xa5, b''), tlv(0x89, b''), tlv(0xa2, b'a.b'), tlv(0x9f, b''), dns(b'\xff')]
    r = rnd.random
    def one():
        return rnd.choice(good if r() < .95 else every)
    def entries():
        after = lambda: b'' if r() < .97 else rnd.choice([tlv(0x80, b'\0'), tlv(0x81, b'\1'), b'\x05\0'])
        return b''.join(seq(one(), after()) for _ in range(rnd.choice([0, 1, 1, 2, 3])))
    for k in itertools.count():
        v = b''
        if r() < .6: v += tlv(0xa0, entries())
        if r() < .6: v += tlv(0xa1, entries())
        if r() < .03: v += b'\x05\0'
        if r() < .03: v = tlv(0xa1, entries()) + tlv(0xa0, entries())  # in the wrong order
        names = [one() for _ in range(rnd.choice([0, 1, 1, 2, 3]))]
        e = cert('E', 'I', 'ke', 'ki', [san(*names)] if r() < .9 else None)
        i = ca('I', 'R', 'ki', 'kr', ([ext(NC, tlv(0x30, v))] if r() < .7 else []) + ([san(rnd.choice(good))] if r() < .3 else []))
        yield case_text('ncs-%d' % k, e, [i], under(v if r() < .5 else None), names=[('dns', 'a.b'), ('dns', 'c.a.b'), ('ip', bytes([10, 0, 0, 1]))])


# ---- one certificate by itself

def seconds(text):
    """The moment that a UTCTime or GeneralizedTime says, None where it says none."""
    if len(text) == 13:
        text = ('19' if text[:2] >= '50' else '20') + text
    try:
        moment = datetime.datetime.strptime(text, '%Y%m%d%H%M%SZ')
    except ValueError:
        return None
    return int(moment.replace(tzinfo=datetime.timezone.utc).timestamp())


def times(rnd):
    r = rnd.random
    years = [0, 49, 50, 69, 70, 99, 1969, 1970, 1999, 2000, 2023, 2024, 2049, 2050, 2100, 2400, 9999]
    def stamp(n):
        y = rnd.choice(years) if r() < .8 else rnd.randrange(10000)
        parts = [rnd.choice([1, 2, 2, 3, 4, 12]), rnd.choice([1, 28, 29, 30]), rnd.choice([0, 12, 23]), rnd.choice([0, 59]), rnd.choice([0, 59])]
        if r() < .4:
            parts = [rnd.choice([0, 1, 2, 2, 4, 12, 13, rnd.randrange(100)]), rnd.choice([0, 1, 28, 29, 29, 30, 31, 32]), rnd.choice([0, 23, 24]),
                     rnd.choice([0, 59, 60]), rnd.choice([0, 59, 60])]
        t = ('%04d' % y)[-(n - 11):] + ''.join('%02d' % x for x in parts) + 'Z'
        if r() < .05:
            i = rnd.randrange(len(t))
            t = t[:i] + rnd.choice(['', ' ', '/', ':', '0', 'Z', 'z', '.']) + t[i + rnd.randrange(2):]
        return t
    for k in itertools.count():
        n = rnd.choice([13, 15])
        text = stamp(n)
        t = tlv({13: 0x17, 15: 0x18}[n] if r() < .98 else rnd.choice([0x17, 0x18]), text.encode())
        at = seconds(text)
        if at is None:
            at = rnd.randrange(4 * 10**9)
        yield case_text('time-%d' % k, leaf(nb=t, na=rnd.choice([t, gen('99991231235959Z')])), [], [R], time=max(0, at + rnd.choice([-1, 0, 0, 1])))


def extensions(rnd):
    values = [b'', seq(), seq(TRUE), seq(FALSE), seq(integer(0)), seq(TRUE, integer(1)), seq(oid(SERVER)), seq(oid(CLIENT)), seq(oid(CLIENT), oid(SERVER)),
              seq(dns('a.b')), seq(dns('*.b')), seq(tlv(0xa0, subtree(dns('a.b')))), seq(tlv(0xa1, subtree(dns('a.b')))), bits(b'\x06', 1), b'\x05\0',
              seq() + b'\0', b'\x30\x81\x00', seq(b'\x05\0')]
    known = [oid('2.5.29.%d' % x) for x in (15, 17, 19, 30, 31, 37)]
    identifiers = known * 3 + [oid('2.5.29.14'), oid('2.5.29.32'), oid('1.2.3'), b'\x06\0', oid('2.5.29.19.1')]
    r = rnd.random
    def some():
        critical = lambda: rnd.choice([b'', b'', TRUE, FALSE, b'\x01\x01\x01']) if r() < .7 else b''
        return [seq(rnd.choice(identifiers), critical(), octets(rnd.choice(values)), b'' if r() < .97 else b'\x05\0')
                for _ in range(rnd.choice([0, 1, 1, 2, 2, 3]))]
    for k in itertools.count():
        e = cert('E', 'I', 'ke', 'ki', some() if r() < .7 else None)
        i = cert('I', 'R', 'ki', 'kr', ([bc()] if r() < .8 else []) + some())
        anchors = [R, anchor('I', 'ki')][:rnd.choice([1, 1, 1, 2])]
        yield case_text('ext-%d' % k, e, [i], anchors, eku_line=(SERVER, rnd.choice(['required', 'ifpresent', 'ifpresent'])), names=[('dns', 'a.b')])


# ---- searches

EXPIRED = utc('210101000000Z')


def forest(rnd):
    r = rnd.random
    restrictions = [([dns('a.b')], None), (None, [dns('a.b')]), (None, [directory('x')]), ([dns('.b')], [dns('c.b')]), (None, [mail('q')])]
    def one(j, names, keys):
        x, kw = [], {}
        if r() < .95: x.append(bc(True, rnd.choice([None, None, None, 0, 1, 2, 3])))
        if r() < .1: x.append(eku(rnd.choice([SERVER, CLIENT])))
        if r() < .1: x.append(nc(*rnd.choice(restrictions)))
        if r() < .1: x.append(san(rnd.choice([dns('a.b'), dns('c.b'), dns('*.c.b'), mail('q')])))
        if r() < .03: x.append(ext(UNKNOWN, b'', True))
        if r() < .05: kw['na'] = EXPIRED
        if r() < .05: kw['alg'] = rnd.choice('BC')
        if r() < .05: kw['key_alg'] = 'B'
        if r() < .02: kw['spki_value'] = b'\xff'
        c = cert(rnd.choice(names), rnd.choice(names), rnd.choice(keys), rnd.choice(keys) if r() < .9 else 'kr', x, serial=tlv(2, bytes([j])), **kw)
        return c + b'\0' if r() < .02 else c
    for k in itertools.count():
        names = ['N%d' % j for j in range(rnd.choice([1, 2, 3, 4]))] + ['R']
        keys = ['k%d' % j for j in range(rnd.choice([2, 3, 4]))]
        pool = [one(j, names, keys) for j in range(rnd.choice([2, 3, 4, 5, 6, 8]))]
        if r() < .2:
            pool.append(pool[0])
        anchors = [anchor(rnd.choice(names), rnd.choice(keys + ['kr']), rnd.choice([None, None, None, nc_value([dns('b')]), nc_value(None, [dns('c.b')])]))
                   for _ in range(rnd.choice([0, 1, 1, 2, 3]))]
        e = cert('E' if r() < .9 else rnd.choice(names), rnd.choice(names), rnd.choice(keys), rnd.choice(keys),
                 [san(rnd.choice([dns('a.b'), dns('c.b'), dns('*.c.b')]))] if r() < .5 else None)
        yield case_text('forest-%d' % k, e, pool, anchors, distrust=[spki(rnd.choice(keys))] if r() < .1 else [], veto=rnd.choice([None, None, None, 1, 2]),
                        budget=rnd.choice([None, None, (rnd.randrange(12), rnd.randrange(40), rnd.randrange(20))]))


def cross_signed(rnd):
    r = rnd.random
    restrictions = [([dns('a.b')], None), (None, [dns('a.b')]), ([dns('.b'), dns('b')], [dns('c.b')]), (None, [mail('q')])]
    def one(j, subject, issuer, keys):
        x, kw = [], {}
        if r() < .97: x.append(bc(True, rnd.choice([None] * 6 + [0, 1, 2, 3, 4, 5])))
        if r() < .1: x.append(eku(*rnd.choice([[SERVER], [SERVER, CLIENT], [CLIENT]])))
        if r() < .1: x.append(nc(*rnd.choice(restrictions)))
        if r() < .04: kw['na'] = EXPIRED
        if r() < .03: kw['alg'] = rnd.choice('BC')
        return cert(subject, issuer, rnd.choice(keys[subject]), rnd.choice(keys[issuer]) if r() < .93 else 'bad', x, serial=tlv(2, bytes([j])), **kw)
    for k in itertools.count():
        depth = rnd.choice([1, 2, 3, 4, 5, 6, 7, 8])
        names = ['N%d' % j for j in range(depth)] + ['R']
        keys = {n: [n + 'a', n + 'b'][:rnd.choice([1, 1, 1, 2])] for n in names}
        pairs = list(zip(names, names[1:])) + [(rnd.choice(names), rnd.choice(names)) for _ in range(rnd.choice([0, 1, 2, 3]))]
        pool = [one(j, subject, issuer, keys) for j, (subject, issuer) in enumerate(pairs)]
        if r() < .7:
            rnd.shuffle(pool)
        anchors = [anchor(rnd.choice(['R', 'R', 'R', rnd.choice(names)]), rnd.choice(keys['R'] + ['bad']),
                          rnd.choice([None, None, None, nc_value([dns('b')]), nc_value(None, [dns('c.b')])])) for _ in range(rnd.choice([1, 1, 2, 3]))]
        e = cert('E' if r() < .95 else 'N0', 'N0', 'ke', rnd.choice(keys['N0']), [san(rnd.choice([dns('a.b'), dns('c.b'), dns('*.c.b')]))] if r() < .5 else None)
        yield case_text('forest2-%d' % k, e, pool, anchors, distrust=[spki(rnd.choice(keys[rnd.choice(names)]))] if r() < .05 else [],
                        veto=rnd.choice([None, None, None, 1, 2]), budget=rnd.choice([None, None, None, (rnd.randrange(20), rnd.randrange(30), rnd.randrange(20))]))


KINDS = {'flip': flip, 'bytes': one_byte, 'tree': tree, 'dns': dns_entries, 'dnsname': dns_wanted, 'ip': ip_entries, 'time': times, 'ext': extensions,
         'forest': forest, 'forest2': cross_signed, 'ncs': constraints}


def cases(kind, seed, count):
    """The first `count` cases of a kind."""
    return itertools.islice(KINDS[kind](random.Random('%s %d' % (kind, seed))), count)


if __name__ == '__main__':
    if len(sys.argv) != 4 or sys.argv[1] not in KINDS:
        sys.exit(__doc__)
    sys.stdout.writelines(cases(sys.argv[1], int(sys.argv[2]), int(sys.argv[3])))
