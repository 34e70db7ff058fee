"""The stored cases of tests/cases against the brute-force program. Their format stands in
bindings/rust/tests/support/case.rs."""
import unittest
from pathlib import Path

import oracle

FIGURES = {'check_grammar': 2, 'check_history': 1, 'count': 1, 'unrank': 1, 'rank': 3, 'remaining': 3, 'remaining_matching': 3, 'draw': 2,
           'draw_matching': 2, 'draw_weighted': 2, 'append': 1}
LENT = {'unrank': 'sentence', 'draw': 'sentence', 'draw_matching': 'sentence', 'draw_weighted': 'sentence',
        'append': 'history'}  # the buffer that a call writes
# the order of every call's arguments; a case of these calls without a voice has voice 0, and one of Log without words played has all
ORDER = {'remaining': ['grammar', 'history', 'length', 'voice'], 'draw': ['grammar', 'history', 'length', 'voice', 'number', 'sentence'],
         'remaining_matching': ['grammar', 'history', 'pattern', 'voice'],
         'draw_matching': ['grammar', 'history', 'pattern', 'voice', 'number', 'sentence'],
         'draw_weighted': ['grammar', 'history', 'length', 'voice', 'weights', 'number', 'sentence'],
         'append': ['history', 'sentence', 'voice', 'played']}
PLAIN = ['grammar', 'history', 'length', 'number', 'sentence']  # of the others


def stored(text):
    """The cases as their fields. Numbers are numbers, all else bytes."""
    cases = []
    for line in text.splitlines():
        field, _, value = line.strip().partition(' ')
        if field == 'call':
            cases.append({'call': value, **({'voice': 0, 'played': 0} if value in ORDER else {})})
        elif field in ('length', 'number', 'voice', 'played'):
            cases[-1][field] = int(value)
        elif field == 'answer':
            cases[-1][field] = [int(figure) for figure in value.split()]
        elif field and not field.startswith('#'):
            cases[-1][field] = bytes.fromhex(value)
    return cases


def expected(case):
    """The answer that is stored, in the oracle's form."""
    refusal, *figures = case['answer']
    if refusal:
        figures = [0] * FIGURES[case['call']]
    lent = LENT.get(case['call'])
    return (refusal, *figures, *([case.get('buffer', case[lent])] if lent else []))


class StoredCases(unittest.TestCase):

    def test_the_oracle_gives_the_stored_answers(self):
        files = sorted((Path(__file__).parent / 'cases').glob('*.hex'))
        self.assertTrue(files)
        for file in files:
            for number, case in enumerate(stored(file.read_text()), 1):
                with self.subTest(file=file.name, case=number):
                    given = getattr(oracle, case['call'])(*(case[field] for field in ORDER.get(case['call'], PLAIN) if field in case))
                    if 'answer' in case:
                        self.assertEqual(given, expected(case))


if __name__ == '__main__':
    unittest.main()
