"""What the scripts that record vectors share: asking the oracle, bytes that end in many zeros, the command line.
Importing it lets them import the modules of oracle/, which make DER values, toy certificates and cases."""
import os, sys

sys.path.append(os.path.join(os.path.dirname(os.path.dirname(os.path.abspath(__file__))), 'oracle'))
from answers import asked, fields
from toy import case_text


def ask(oracle, cases):
    """What the oracle answers to each case, by its fields. A case is what case_text takes, but for the name."""
    answers = asked(oracle, [case_text(str(k), **case) for k, case in enumerate(cases)])
    for k, answer in enumerate(answers):
        if not answer.startswith('%d | parse ' % k) or 'DISAGREE' in answer:
            sys.exit('case %d has no clear answer: %s' % (k, answer))
    return [fields(answer) for answer in answers]


def outcome(field):
    """Of what is said of reading, of a path or of a name: `ok`, `invalid`, or the refusal. Anything else is no outcome."""
    word, _, rest = field.partition(' ')
    return {'ok': word, 'invalid': word, 'err': rest}[word]


def padded(digits, zeros=0):
    """The text of bytes: hexadecimal digits, and how many zeros follow."""
    return digits + ('+%d' % zeros if zeros else '')


def unpadded(text):
    digits, _, zeros = text.partition('+')
    return bytes.fromhex(digits) + bytes(int(zeros or 0))


def main(usage, cases, answers):
    if sys.argv[1:2] == ['cases']:
        print('\n'.join(cases()))
    elif sys.argv[1:2] == ['answers'] and len(sys.argv) == 3:
        answers(sys.argv[2])
    else:
        sys.exit(usage)
