#!/usr/bin/env python3
"""The cases that rust/bench times. Usage: bench_cases.py > rust/bench/cases.txt

A chain of three, alone and behind a forest of 40 certificates that have nothing to do with it; each small (some 130 bytes a certificate) and
real-sized (some 1.2 kB). Then searches that use much of one budget: all 100 signatures; 2,000 extensions, a hundredth of what is allowed, since
all 200,000 take seconds; all 250,000 comparisons."""
import sys
from toy import *

FOREST = range(40)


def small(subject, issuer, key, signer, exts):
    return cert(subject, issuer, key, signer, exts)


def real_key(text):
    return text.encode().ljust(270, b'.')


def real_name(text):
    parts = ((6, 'DE'), (10, 'Some Trust Services Company'), (11, 'Certification Authority'), (3, text + ' Issuing CA 2023'))
    return b''.join(tlv(0x31, seq(oid('2.5.4.%d' % number), tlv(0x0c, value.encode()))) for number, value in parts)


def real(subject, issuer, key, signer, exts):
    """About the size and the extensions of those in use: keys and signatures of 270 bytes, long names, eight extensions."""
    point = seq(tlv(0xa0, tlv(0xa0, uri('http://crl.example.org/some/list.crl'))))
    common = [ext(KU, bits(b'\x06', 1), True), ext('2.5.29.14', octets(b'k' * 20)), ext('2.5.29.35', seq(tlv(0x80, b'k' * 20))), eku(SERVER, CLIENT),
              ext('2.5.29.32', seq(seq(oid('2.23.140.1.2.1')))), ext('1.3.6.1.5.5.7.1.1', b'a' * 100), ext(CDP, seq(point))]
    return cert(subject, issuer, real_key(key), real_key(signer), exts + common, subject_raw=real_name(subject), issuer_raw=real_name(issuer),
                serial=tlv(2, b'\x01' * 16))


def chains(size, make, top, names):
    e = make('E', 'I2', 'ke', 'k2', names)
    chain = [make('I2', 'I1', 'k2', 'k1', [bc()]), make('I1', 'R', 'k1', 'kr', [bc()])]
    forest = [make('F%02d' % k, 'G%02d' % k, 'f%d' % k, 'g%d' % k, [bc()]) for k in FOREST]
    yield case_text(size + '-chain', e, chain, [top])
    yield case_text(size + '-forest', e, forest + chain, [top])


def layers(counts):
    """Each certificate of a layer issues each of the layer below; the issuer of the topmost is nobody."""
    return [ca('L%d' % k, 'L%d' % (k + 1), 'k%d.%d' % (k, j), 'x') for k, n in enumerate(counts) for j in range(n)]


def cases():
    yield from chains('small', small, anchor('R', 'kr'), [san(dns('www.example.com'))])
    yield from chains('real', real, (real_name('R'), spki(real_key('kr')), None), [bc(False), san(*[dns('www%d.example.com' % k) for k in range(4)])])
    wrong = [(real_name('R'), spki(real_key('k%d' % k)), None) for k in range(100)]
    yield case_text('signatures', real('E', 'R', 'ke', 'kr', [bc(False)]), [], wrong)
    yield case_text('extensions', cert('E', 'L0', 'ke', 'x'), layers((20, 9, 10)), [anchor('R', 'kr')])
    yield case_text('comparisons', cert('E', 'R', 'ke', 'kr', [san(*[dns('www.example.com')] * 499)]), [],
                    [anchor('R', 'kr', nc_value(None, [dns('example.org')] * 500))])


if __name__ == '__main__':
    sys.stdout.writelines(cases())
