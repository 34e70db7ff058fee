"""Tests of the inputs on which the listing program is compared: every kind is among them, they come out the same each time, and
a wrong program is found out."""
import collections
import contextlib
import io
import pathlib
import unittest

import listings
import oracle
from listings import Input


def figures(data):
    """Length, bank, diary, and what Left answers."""
    length, bank, diary = oracle.split_input(data)
    return length, bank, diary, oracle.remaining(bank, diary, length, 0)


class Inputs(unittest.TestCase):
    @classmethod
    def setUpClass(cls):
        cls.inputs = listings.all_inputs()
        cls.read = [figures(entry.data) for entry in cls.inputs]
        cls.accepted = [(length, bank, diary, *answer[1:]) for length, bank, diary, answer in cls.read if answer[0] == 0]

    def test_size(self):
        self.assertGreaterEqual(len(self.inputs), 2000)
        self.assertEqual(len({entry.data for entry in self.inputs}), len(self.inputs))

    def test_a_second_run_gives_the_same(self):
        self.assertEqual(listings.all_inputs(), self.inputs)

    def test_every_refusal_is_there_several_times(self):
        refusals = collections.Counter(answer[0] for _, _, _, answer in self.read)
        for refusal in range(1, 16):
            self.assertGreaterEqual(refusals[refusal], 10)
        self.assertGreaterEqual(refusals[0], 500)
        self.assertEqual(set(refusals), set(range(16)))

    def test_lengths(self):
        given = {entry.data[0] for entry in self.inputs if entry.data}
        self.assertLessEqual({*range(19), 32, 128, 254, 255}, given)
        self.assertEqual({length for length, *_ in self.accepted}, set(range(1, 17)))

    def test_figures(self):
        lefts = {left for *_, left in self.accepted}
        self.assertLessEqual({0, 1, 2, 998, 999, 1000, 1001, 1002, 2**64 - 1}, lefts)
        self.assertGreater(sum(left > 1000 for *_, left in self.accepted), 20)
        self.assertGreater(sum(total > 0 and left == 0 for *_, total, _, left in self.accepted), 3)
        self.assertGreater(sum(total == 0 for *_, total, _, _ in self.accepted), 20)
        self.assertGreater(sum(heard > 1 for *_, heard, _ in self.accepted), 100)
        self.assertGreater(sum(heard > 500 for *_, heard, _ in self.accepted), 1)

    def test_diaries(self):
        """Repeats, foreign words, 255, other lengths, slack, chains that are not in the order of the records; other voices and
        sentences broken off, in part beside the same in full, which the listing passes over."""
        kinds = collections.Counter()
        for length, bank, diary, *_ in self.accepted:
            said = oracle.sentences_of(diary)
            sentences = [sentence for *_, sentence in said]
            broken = {sentence for voice, played, sentence in said if voice == 0 and played > 0 and len(sentence) == length}
            kinds.update({
                'repeats': len(set(said)) < len(said),
                'voices': any(oracle.remaining(bank, diary, length, voice)[2] > 0 for voice in range(1, 16)),
                'broken off': not broken <= oracle.heard_of(diary, length, 0),
                'and in full': not broken.isdisjoint(oracle.heard_of(diary, length, 0)),
                'foreign': any(bank[1] <= byte < 255 for sentence in sentences for byte in sentence),
                '255': any(255 in sentence for sentence in sentences),
                'other': any(len(sentence) != length for sentence in sentences),
                'slack': len(diary) > 4 + 20 * len(sentences),
                'mixed': oracle.history_chain(diary) != list(range(1, len(sentences) + 1)),
            })
        self.assertEqual({kind for kind, count in kinds.items() if count >= 20},
                         {'repeats', 'voices', 'broken off', 'and in full', 'foreign', '255', 'other', 'slack', 'mixed'})

    def test_banks(self):
        """Empty chains, chains that are not in the order of the rules, nonterminals that derive nothing, ambiguous sentences."""
        kinds = collections.Counter()
        for length, bank, _, total, _, _ in self.accepted:
            read = oracle.read(bank)
            full = oracle.full_list(bank, length)
            numbers = [number for chain in read.chains for number, _ in chain]
            kinds.update({
                'empty': [] in read.chains,
                'mixed': numbers != sorted(numbers),
                'nothing': any(not any(read.total(a, m) for m in range(1, length + 1)) for a in range(bank[0])),
                'ambiguous': isinstance(full, oracle.Listed) and len(full.places) < total,
            })
        self.assertEqual({kind for kind, count in kinds.items() if count >= 20}, {'empty', 'mixed', 'nothing', 'ambiguous'})

    def test_sizes(self):
        sizes = {len(entry.data) for entry in self.inputs}
        self.assertLessEqual({*range(60), 65535, 65536, 65537, 131072}, sizes)


class Stored(unittest.TestCase):
    def test_p7(self):
        folder = pathlib.Path(__file__).parent.parent / 'crates' / 'listing'
        name, data = next(listings.examples())
        self.assertEqual((name, (folder / 'stdin').read_bytes()), ('P7', data))
        self.assertEqual((folder / 'stdout').read_bytes(), b'2 4 1 3\n0 0 0 0\n1 2 1 0\n2 3 1 1\n')


class Comparing(unittest.TestCase):
    def setUp(self):
        self.inputs = [Input(name, data) for name, data in [*listings.examples()][:12] + [*listings.several_refusals()]]

    def compared(self, answer, inputs):
        """Whether all is well, and what is printed."""
        with contextlib.redirect_stdout(io.StringIO()) as printed:
            well = listings.report(*listings.compare(answer, inputs))
        return well, printed.getvalue()

    def test_a_right_program_passes(self):
        inputs = self.inputs + [Input('no byte', b'')]
        well, printed = self.compared(oracle.listing, inputs)
        self.assertTrue(well, printed)
        self.assertIn(f'{len(inputs)} inputs compared, 0 wrong answers', printed)

    def test_a_refusal_that_is_never_reached_fails(self):
        well, printed = self.compared(oracle.listing, self.inputs)
        self.assertFalse(well)
        self.assertIn('never reached: 1\n', printed)

    def test_a_wrong_program_is_shown(self):
        for wrong in (
            lambda right: right.replace(b'2 3 1 1', b'2 3 1 0'),
            lambda right: right.rstrip(b'\n'),
            lambda right: right.replace(b' ', b'  '),
            lambda right: right.replace(b'2 4 1 3', b'2 4 0 4'),
            lambda right: b'',
        ):
            well, printed = self.compared(lambda data: wrong(oracle.listing(data)), self.inputs[:1])
            self.assertFalse(well)
            self.assertIn(f'wrong answer: P7\ninput {self.inputs[0].data.hex()}\nexpected:\n2 4 1 3\n', printed)
            self.assertIn(f'found:\n{wrong(oracle.listing(self.inputs[0].data)).decode()}', printed)
            self.assertIn('1 inputs compared, 1 wrong answers', printed)

    def test_the_exit_status_and_standard_error_count(self):
        self.assertIn(b'exit status 1', listings.run('false', b''))
        self.assertEqual(listings.run('cat', b'some'), b'some')
        self.assertIn(b'exit status 0', listings.run('cat', b'refused 1\n'))
        self.assertEqual(listings.run_in_parts('cat', b'some more'), b'some more')

    def test_a_program_that_reads_less_than_all(self):
        self.assertEqual(listings.run('true', bytes(200_000)), b'')
        self.assertEqual(listings.run_in_parts('true', bytes(60_000)), b'')

    def test_enough_wrong_answers(self):
        wrong, refusals = listings.compare(lambda data: b'', self.inputs)
        self.assertEqual((len(wrong), sum(refusals.values())), (listings.ENOUGH, listings.ENOUGH))


if __name__ == '__main__':
    unittest.main()
