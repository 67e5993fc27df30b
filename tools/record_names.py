#!/usr/bin/env python3
"""The vectors of crate names_vectors: `cases` prints its standard input; `answers ORACLE` reads that and prints what the Rust says.

A line is a question, the length of a first text, that text and a second one. Each is put to the program ORACLE as toy certificates (case
format: docs/ORACLE.md): a presented name stands in the alternative names, an entry in an anchor's name constraints, a wanted name
is looked for. The place of a general name is read by X.690, since the Rust does not report it; whether it can be read is asked.
Usage: tools/record_names.py cases > crates/names_vectors/stdin
       tools/record_names.py answers ORACLE < crates/names_vectors/stdin > crates/names_vectors/stdout"""
import itertools, sys

sys.dont_write_bytecode = True
from vectors import ask, main, outcome
from toy import anchor, cert, dns, ip, nc_value, san, tlv, uri

VALID, WANTED, ENTRY, SUBNET, DNS, IP, NAME = range(7)


def texts(alphabet, longest):
    return (''.join(t).encode() for n in range(longest + 1) for t in itertools.product(alphabet, repeat=n))


# ---- the cases
def long_names():
    """Names of 252 to 254 bytes in each role, and labels of 62 to 64."""
    for size in (252, 253, 254):
        for front, back in ((b'', b''), (b'.', b''), (b'', b'.'), (b'*.', b'')):
            room = size - len(front) - len(back)
            body = (b'abc.' * 64)[:room - 1] + b'x' if room % 4 else (b'abc.' * 64)[:room - 2] + b'xy'
            yield front + body + back
    for size in (62, 63, 64):
        label = b'l' * size
        for text in (label, label + b'.a', b'a.' + label, b'*.' + label + b'.a', b'*.a.' + label, b'.' + label, label + b'.', b'1' * (size - 1) + b'-', b'-' * size, b'1' * size,
                     b'1' * (size - 1) + b'a', b'a.' + b'1' * size):
            yield text


def cases():
    lines = []

    def add(question, first, second):
        lines.append(bytes([question, len(first)]).hex() + first.hex() + second.hex())

    for text in texts('a1-.*_', 5):
        add(VALID, b'', text)
    for text in long_names():
        add(VALID, b'', text)
    for b in range(256):                            # every byte: first, last, within, and as the label after a star
        c = bytes([b])
        for text in (c, c + b'a', b'a' + c, b'a' + c + b'a', b'a.' + c, c + b'.a', b'*.' + c + b'.a', b'*' + c + b'a.b'):
            add(VALID, b'', text)
    # document 01, section 4
    for p, q in (('*.example.com', 'www.example.com'), ('*.example.com', 'a.b.example.com'), ('*.example.com', 'example.com'), ('*.com', 'a.com'),
                 ('w*.example.com', 'www.example.com'), ('www.example.com.', 'www.example.com'), ('WWW.Example.COM', 'www.example.com.')):
        add(WANTED, p.encode(), q.encode())
    for p, q in itertools.product(('example.com', 'www.example.com', 'badexample.com', '*.example.com', '*.www.example.com', 'example.org'),
                                  ('', 'example.com', '.example.com', 'www.example.com', '.www.example.com', 'EXAMPLE.com', 'com', 'example.com.', '*.example.com')):
        add(ENTRY, p.encode(), q.encode())
    names = [b'.'.join(t) for n in (1, 2, 3, 4) for t in itertools.product((b'a', b'B'), repeat=n)]
    few = [n for n in names if n.count(b'.') < 3]
    shown = few + [b'*.' + n for n in few if n.count(b'.')] + [b'', b'*', b'*.', b'*.a', b'*a.b', b'a*.b', b'a.*.b', b'*.*.a', b'a.', b'.a', b'*.a.b.']
    for p in shown:
        for q in [n.swapcase() for n in names] + [n + b'.' for n in few] + [b'', b'.', b'a..', b'.a', b'*.a.b']:
            add(WANTED, p, q)
        for q in [n.swapcase() for n in names] + [b'.' + n for n in names] + [b'', b'.', b'..a', b'a.', b'*.a.b']:
            add(ENTRY, p, q)
    # addresses and subnets of every length
    for n in range(34):
        for m in range(34):
            add(SUBNET, bytes(n), b'\xff' * m)
    for n in (4, 16):
        address = bytes(range(0x5a, 0x5a + n))
        for ones in range(8 * n + 1):
            mask = ((1 << 8 * n) - (1 << 8 * n - ones)).to_bytes(n, 'big')
            add(SUBNET, address, address + mask)
            for bit in (ones - 1, ones):            # another bit in the last place that counts, and in the first that does not
                if 0 <= bit < 8 * n:
                    other = bytearray(address)
                    other[bit // 8] ^= 128 >> bit % 8
                    add(SUBNET, bytes(other), address + mask)
            for bit in (ones - 2, ones + 1):        # a hole before the end, a one after it: reached, and not
                if 0 <= bit < 8 * n:
                    broken = bytearray(mask)
                    broken[bit // 8] ^= 128 >> bit % 8
                    add(SUBNET, address, address + bytes(broken))
                    for at in (0, bit // 8):
                        other = bytearray(address)
                        other[at] ^= 128
                        add(SUBNET, bytes(other), address + bytes(broken))
    for b in range(256):
        for mask in (bytes([b, 0, 0, 0]), bytes([255, b, 0, 0]), bytes([254, b, 0, 0]), bytes([255, 255, 255, b])):
            add(SUBNET, b'\x0a\x55\xaa\x01', b'\x0a\x55\xaa\x01' + mask)
            add(SUBNET, b'\x0a\x5d\xaa\x09', b'\x0a\x55\xaa\x01' + mask)
    # alternative names, and what is looked for in them
    www, star, bad, four, six = dns('www.a'), dns('*.a.b'), dns('a.'), ip(bytes(4)), ip(range(16))
    other = [tlv(t, b'www.a') for t in (0xa0, 0x81, 0xa3, 0xa4, 0xa5, 0x86, 0x88)]
    breaks = [b'\x82', b'\x82\x06www.a', b'\x9f\x00', b'\x89\x00', b'\xa2\x05www.a', b'\x82\x81\x05www.a', b'\x80\x00']
    rows = [b''] + [b''.join(r) for n in (1, 2) for r in itertools.product([www, star, bad, four, six, dns(''), ip(b'')], repeat=n)]
    rows += [o for o in other] + [o + www for o in other] + [x + y + z for x in breaks for y in (www, four) for z in (b'', six)]
    rows += [x + y for x in (www, four, b''.join(other)) for y in breaks] + [dns('x' * 200) + www, uri('x' * 300) + four]
    for row in rows:
        for name in (b'www.a', b'WWW.A.', b'x.a.b', b'a.b', b'a', b'a..'):
            add(DNS, name, row)
        for name in (bytes(4), bytes(range(16)), b'\x00\x00\x00\x01'):
            add(IP, name, row)
    for tag in range(256):
        add(NAME, b'', tlv(tag, b'xy'))
    for row in (b'', b'\x82', www + four, dns(''), uri('x' * 127), uri('x' * 128), uri('x' * 255), uri('x' * 256), b'\x82\x81\x05www.a', b'\x82\x06www.a'):
        add(NAME, b'', row)
    return lines


# ---- the Rust
class Oracle:
    def __init__(self, program):
        self.program, self.cases, self.said = program, [], []

    def ask(self, names, permitted=None, excluded=None, wanted=()):
        """An end entity with these alternative names, under an anchor with these lists of entries, and what is looked for in it."""
        top = anchor('', 'a', nc_value(permitted, excluded) or None)    # without lists, no constraints
        self.cases.append(dict(ee=cert('', '', 'a', 'a', [san(names)]), anchors=[top], names=wanted))
        return len(self.cases) - 1

    def run(self):
        self.said = ask(self.program, self.cases)

    def path(self, i):
        return outcome(self.said[i]['path'])

    def name(self, i):
        return outcome(self.said[i]['name'])


def general(b):
    """X.690, 8.1, of one value: its tag, and where its content begins and ends, or nothing."""
    if len(b) < 2 or b[0] & 31 == 31:
        return None
    n, start = b[1], 2
    if n > 127:
        k = n - 128
        n, start = int.from_bytes(b[2:2 + k], 'big'), 2 + k
        if not 1 <= k <= 4 or len(b) < start or n < 128 or n < 256 ** (k - 1):
            return None
    return (b[0], start, start + n) if start + n <= len(b) else None


def permits(said):
    """A path's answer as that of the comparison with its one permitted entry."""
    return {'ok': 'yes', 'NameConstraintViolation': 'no'}.get(said, said)


def excludes(said):
    return {'NameConstraintViolation': 'yes', 'ok': 'no'}.get(said, said)


def answers(program):
    oracle, found = Oracle(program), []

    def yes(b):
        return 'yes' if b else 'no'

    for line in sys.stdin:
        b = bytes.fromhex(line.strip())
        question, first, second = b[0], b[2:2 + b[1]], b[2 + b[1]:]
        if question == VALID:
            p = oracle.ask(dns(second), excluded=[dns('q')], wanted=[('dns', second)])
            e = oracle.ask(dns('q.q'), excluded=[dns(second)])
            found.append(lambda p=p, e=e: 'presented %s; wanted %s; entry %s' % (
                yes(oracle.path(p) != 'MalformedDnsIdentifier'), yes(oracle.name(p) != 'invalid'), yes(oracle.path(e) != 'MalformedNameConstraint')))
        elif question == WANTED:
            # a presented name that is none is passed over when a name is looked for: whether it is one is asked by an entry
            p = oracle.ask(dns(first), excluded=[dns('q')], wanted=[('dns', second)])
            found.append(lambda p=p: 'wanted ' + ('MalformedDnsIdentifier' if 'MalformedDnsIdentifier' == oracle.path(p) or oracle.name(p) == 'invalid'
                                                  else {'ok': 'yes', 'CertNotValidForName': 'no'}[oracle.name(p)]))
        elif question == ENTRY:
            p = oracle.ask(dns(first), permitted=[dns(second)])
            e = oracle.ask(dns(first), excluded=[dns(second)])
            found.append(lambda p=p, e=e: 'permitted %s; excluded %s' % (permits(oracle.path(p)), excludes(oracle.path(e))))
        elif question == SUBNET:
            e = oracle.ask(ip(first), excluded=[ip(second)])
            found.append(lambda e=e: 'subnet ' + excludes(oracle.path(e)))
        elif question == DNS:
            n = oracle.ask(second, wanted=[('dns', first)])
            found.append(lambda n=n: 'dns ' + {'ok': 'good', 'invalid': 'MalformedDnsIdentifier'}.get(oracle.name(n), oracle.name(n)))
        elif question == IP:
            n = oracle.ask(second, wanted=[('ip', first)])
            found.append(lambda n=n: 'ip ' + {'ok': 'good'}.get(oracle.name(n), oracle.name(n)))
        elif question == NAME:
            v = general(second)
            n = oracle.ask(second, wanted=[('dns', b'q.q')])

            def read(v=v, n=n, b=second):
                if b and oracle.name(n) == 'BadDer':
                    assert v is None or v[0] not in (0xa0, 0x81, 0x82, 0xa3, 0xa4, 0xa5, 0x86, 0x87, 0x88), b
                    return 'name BadDer'
                return 'name %d %d %d' % v if b else 'name BadDer'
            found.append(read)
    oracle.run()
    print('%d questions put to the oracle' % len(oracle.cases), file=sys.stderr)
    for f in found:
        print(f())


main(__doc__, cases, answers)
