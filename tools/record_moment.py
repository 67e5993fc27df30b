#!/usr/bin/env python3
# Records what the oracle reads of times. Usage: tools/record_moment.py ORACLE < crates/moment_vectors/stdin > crates/moment_vectors/stdout
#
# Each line of the input is a time in DER, in hexadecimal digits. The line's bytes become the end of a certificate's validity, which begins
# in 1970 and has nothing after them. The oracle (docs/ORACLE.md) either names a refusal, or it accepts the certificate at a moment just
# if that is not later than the time. So the time is the last moment that it accepts, found by halving: no calendar is computed here.
import sys

sys.dont_write_bytecode = True
from vectors import ask, outcome
from toy import anchor, cert, utc

START = utc('700101000000Z')
LATEST = 1 << 38  # later than every time that can be written
TOP = anchor('anchor', 'anchor key')


def certificate(time):
    return cert('end entity', 'anchor', 'end entity key', 'anchor key', nb=START, na=time)


def at_moments(oracle, questions):
    """What the oracle says of each time at a moment: `ok`, or a refusal's name."""
    said = ask(oracle, [dict(ee=certificate(t), anchors=[TOP], time=at) for t, at in questions])
    assert all(read['parse'] == 'ok' for read in said)
    return [outcome(read['path']) for read in said]


def main():
    if len(sys.argv) != 2:
        sys.exit('usage: tools/record_moment.py ORACLE')
    oracle = sys.argv[1]
    times = [bytes.fromhex(line) for line in sys.stdin.read().splitlines()]
    first = at_moments(oracle, [(t, 0) for t in times])
    accepted = [i for i, answer in enumerate(first) if answer == 'ok']
    low = {i: 0 for i in accepted}
    high = {i: LATEST for i in accepted}
    while any(high[i] - low[i] > 1 for i in accepted):
        middle = {i: (low[i] + high[i]) // 2 for i in accepted}
        for i, answer in zip(accepted, at_moments(oracle, [(times[i], middle[i]) for i in accepted])):
            assert answer in ('ok', 'CertExpired'), answer
            if answer == 'ok':
                low[i] = middle[i]
            else:
                high[i] = middle[i]
    for i, answer in enumerate(first):
        print('ok %d %d' % (low[i], len(times[i])) if answer == 'ok' else answer)


main()
