"""Cases by hand, each with what is expected of it:
  ok | ok:PATH          accepted [with these intermediates, '-' for none]
  no | no:ERROR         refused, at reading or by the search [with this error]
  ?                     not said
  ; name=yes,no,bad     the names in order (bad: not a name one may look for)
  ; q=...               the signature questions"""
from toy import anchor, case_text


class Cases:
    def __init__(self):
        self.texts, self.expectations = {}, {}

    def add(self, cname, expect, ee, ints=(), anchors=None, note=None, **kw):
        """Without anchors named, the anchor is R with the key kr."""
        assert cname not in self.texts, cname
        self.texts[cname] = case_text(cname, ee, ints, [anchor('R', 'kr')] if anchors is None else anchors, note=note, **kw)
        self.expectations[cname] = expect

    def unexpected(self, answer):
        """The parts of what is expected that an answer does not keep."""
        cname, parsed, path, questions, _, names = answer.split(' | ')[:6]
        verdict, *more = self.expectations[cname].split('; ')
        want, _, detail = verdict.partition(':')
        bad = []
        if want == 'ok' and not (path.startswith('path ok ') and (not detail or path.endswith('path=' + detail))):
            bad.append(verdict)
        if want == 'no' and (path.startswith('path ok ') or (detail and 'err ' + detail not in (parsed.removeprefix('parse '), path.removeprefix('path ')))):
            bad.append(verdict)
        words = ','.join({'ok': 'yes', 'invalid': 'bad'}.get(n, 'no') for n in names.removeprefix('name ').split(', '))
        for part in more:
            what, _, value = part.partition('=')
            if value != {'q': questions.removeprefix('q '), 'name': words}[what]:
                bad.append(part)
        return bad
