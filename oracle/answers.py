"""Answers of the oracle and of Pathjudge: asking for them, and what the second is due to say where docs/DIFFERENCES.md lists a difference of ours."""
import itertools, subprocess, tempfile

UNREADABLE = 'anchorcert 3000'


def asked(program, texts, *arguments):
    """The program's answers, a line a case."""
    with tempfile.NamedTemporaryFile('w', suffix='.txt') as f:
        f.writelines(texts)
        f.flush()
        out = subprocess.run([program, f.name, *arguments], stdout=subprocess.PIPE, text=True, check=True).stdout.splitlines()
    if len(out) != len(texts):
        raise SystemExit('%s gave %d answers to %d cases' % (program, len(out), len(texts)))
    return out


def fields(answer):
    """An answer by its fields: parse, path, q, used, name, and those that not every case has."""
    return dict(part.partition(' ')[::2] for part in answer.split(' | ')[1:])


def has_no_version(certificate):
    """Whether the signed content of a readable certificate begins with a serial number, as in version 1."""
    b = bytes.fromhex(certificate)
    content = lambda i: i + 2 + (b[i + 1] & 0x7f if b[i + 1] & 0x80 else 0)
    return b[content(content(0))] == 0x02


def without_version_1(text, theirs):
    """The case with the anchors of version 1 that the oracle reads made unreadable; None if there is none."""
    said = fields(theirs).get('anchors', '').split(',')
    lines, numbers, changed = text.split('\n'), itertools.count(), False
    for k, line in enumerate(lines):
        if line.startswith('anchor'):
            n = next(numbers)
            if said[n:n + 1] == ['ok'] and has_no_version(line.split()[1]):
                lines[k], changed = UNREADABLE, True
    return '\n'.join(lines) if changed else None


def due(oracle, texts, answers):
    """For each of the oracle's answers what Pathjudge is to answer, and the number of the difference between the two, None for none."""
    changed = [without_version_1(text, theirs) for text, theirs in zip(texts, answers)]
    instead = iter(asked(oracle, [text for text in changed if text is not None]))
    return [(theirs, None) if text is None else (next(instead), 'O1') for text, theirs in zip(changed, answers)]


def has_revocation(text):
    """Whether a case has revocation lists, which Pathjudge does not support."""
    return '\ncrl ' in text
