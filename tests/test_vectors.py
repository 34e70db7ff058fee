"""Tests of the stored vectors: every refusal is among them, and they come out the same each time."""
import collections
import itertools
import pathlib
import tempfile
import unittest

import generate
import oracle
import vectors


class GrammarVectors(unittest.TestCase):
    @classmethod
    def setUpClass(cls):
        cls.cases = vectors.grammar_cases()

    def test_each_trap_and_each_set_of_defects_gets_the_stated_refusal(self):
        for name, refusal, data in vectors.TRAPS + list(vectors.defects()):
            with self.subTest(name):
                self.assertEqual(oracle.check_grammar(data)[0], refusal)

    def test_names_of_traps_differ(self):
        names = [name for name, _, _ in vectors.TRAPS]
        self.assertEqual(len(names), len(set(names)))

    def test_every_refusal_is_there_several_times(self):
        lines = collections.Counter(case.line for case in self.cases)
        for refusal in range(1, 9):
            self.assertGreaterEqual(lines[f'refused {refusal}'], 5)
        self.assertGreater(sum(count for line, count in lines.items() if line.startswith('0 ')), 100)

    def test_size(self):
        self.assertIn(len(self.cases), range(1500, 2501))
        self.assertLess(len(vectors.files(self.cases)['stdin']), 400_000)

    def test_the_frames_hold_the_cases(self):
        stdin, at, lines = vectors.files(self.cases)['stdin'], 0, []
        while at < len(stdin):
            end = at + 2 + oracle.two_bytes(stdin, at)
            lines.append(vectors.line(*oracle.check_grammar(stdin[at + 2:end])))
            at = end
        self.assertEqual('\n'.join(lines).encode() + b'\n', vectors.files(self.cases)['stdout'])

    def test_a_second_run_gives_the_same(self):
        self.assertEqual(vectors.grammar_cases(), self.cases)

    def test_differing_files_are_named(self):
        with tempfile.TemporaryDirectory() as name:
            folder = pathlib.Path(name)
            for file, content in vectors.files(self.cases).items():
                (folder / file).write_bytes(content)
            self.assertEqual(vectors.differing(folder, self.cases), [])
            (folder / 'stdout').write_bytes(b'')
            self.assertEqual(vectors.differing(folder, self.cases), [folder / 'stdout'])
            (folder / 'stdin').unlink()
            self.assertEqual(vectors.differing(folder, self.cases), [folder / 'stdin', folder / 'stdout'])


class RankingVectors(unittest.TestCase):
    @classmethod
    def setUpClass(cls):
        cls.cases = vectors.ranking_cases()
        cls.lines = {case.name: case.line for case in cls.cases}

    def test_examples_of_document_01(self):
        for name, line in {
            'F: Count 3': '0 8',
            'F with 15 words: Count 16': f'0 {15**16}',
            'F with 16 words: Count 16': 'refused 10',
            'F with 16 words: Count 15': f'0 {16**15}',
            'matrix: Count 5': '0 100000',
            'matrix: Count 4': '0 0',
            'matrix: Give 5 31415 into 7 bytes': '0 100000: 3 11 24 31 45 7 7',
            'matrix: Number [3, 11, 24, 31, 45]': '0 31415 100000 1',
            'G: Number [0, 0, 0]': '0 0 2 2',
            'both halves: Number [1, 1, 0, 0]': '0 24 36 3',
            'brimful: Count 16': f'0 {2**64 - 1}',
            'one too many: Count 16': 'refused 10',
        }.items():
            with self.subTest(name):
                self.assertEqual(self.lines[name], line)

    def test_every_refusal_is_there_several_times(self):
        refusals = collections.Counter(line.split(':')[0] for line in self.lines.values())
        for refusal in [1, 3, 8, 9, 10, 16, 17, 20]:
            self.assertGreaterEqual(refusals[f'refused {refusal}'], 3)
        self.assertEqual(refusals['refused 18'], 0)

    def test_ambiguous_sentences_are_there_in_plenty(self):
        """Of two derivations and of more, with the lowest number 0 and with another."""
        figures = [line.split()[1:] for name, line in self.lines.items() if ': Number' in name and not line.startswith('refused')]
        kinds = collections.Counter((min(int(count), 3), int(number) > 0) for number, _, count in figures)
        self.assertGreater(min(kinds[kind] for kind in itertools.product((1, 2, 3), (False, True))), 40, kinds)

    def test_size(self):
        self.assertIn(len(self.cases), range(5000, 9001))
        self.assertLess(len(vectors.files(self.cases)['stdin']), 262_144)

    def test_the_frames_hold_the_cases(self):
        stdin, at, grammar, lines = vectors.files(self.cases)['stdin'], 0, b'', []
        while at < len(stdin):
            call, length, number = stdin[at], int.from_bytes(stdin[at + 1:at + 9], 'little'), int.from_bytes(stdin[at + 9:at + 17], 'little')
            end = at + 19 + oracle.two_bytes(stdin, at + 17)
            data, at = stdin[at + 19:end], end
            if call == vectors.BANK:
                grammar = data
            elif call == vectors.COUNT:
                lines.append(vectors.line(*oracle.count(grammar, length)))
            elif call == vectors.GIVE:
                *answer, after = oracle.unrank(grammar, length, number, data)
                lines.append(f'{vectors.line(*answer)}:' + ''.join(f' {byte}' for byte in after))
            else:
                lines.append(vectors.line(*oracle.rank(grammar, data)))
        self.assertEqual('\n'.join(lines).encode() + b'\n', vectors.files(self.cases)['stdout'])

    def test_a_second_run_gives_the_same(self):
        self.assertEqual(vectors.ranking_cases(), self.cases)


class HistoryVectors(unittest.TestCase):
    @classmethod
    def setUpClass(cls):
        cls.cases = vectors.history_cases()
        cls.lines = {case.name: case.line for case in cls.cases}

    def test_each_trap_and_each_set_of_defects_gets_the_stated_refusal(self):
        for name, refusal, data in vectors.HISTORY_TRAPS:
            with self.subTest(name):
                self.assertEqual(oracle.check_history(data)[0], refusal)
        for name, refusal, data, sentence, voice, played in vectors.LOG_TRAPS + list(vectors.log_defects()):
            with self.subTest(name):
                self.assertEqual(oracle.append(data, sentence, voice, played)[0], refusal)

    def test_names_of_traps_differ(self):
        names = [name for name, *_ in vectors.HISTORY_TRAPS + vectors.LOG_TRAPS]
        self.assertEqual(len(names), len(set(names)))

    def test_lines_worked_out_by_hand(self):
        for name, line in {
            'head 1 with K = 0: set': 'refused 13',
            'head 0 with K = 1: set': 'refused 14',
            'one: set': '0 1',
            'K is 1,000, backward: set': '0 1000',
            'K is 1,000, backward: Log [5, 6] in 0': 'refused 19',
            '999, exactly the room: Log [5] in 0': '0 1000',
            '999, one byte less than the room: Log [5] in 0': 'refused 19',
            'no record, exactly the room: Log [5] in 0': '0 1: 1 0 1 0 0 0 1 0 5' + ' 0' * 15,
            'sixteen voices: set': '0 16',
            'voice 256: Log [5] in 256': 'refused 22: ' + ' '.join(map(str, vectors.FOUR + vectors.JUNK)),
            '257 played: Log [5, 6] in 0, 257 played': 'refused 23: ' + ' '.join(map(str, vectors.FOUR + vectors.JUNK)),
            'all played, voice 16: Log [5, 6] in 16, 2 played': 'refused 22: ' + ' '.join(map(str, vectors.FOUR + vectors.JUNK)),
            '5 words, 4 played: set': '0 1',
            '5 words, 5 played: set': 'refused 12',
            'voice 16, no word: Log [] in 16': 'refused 9: ' + ' '.join(map(str, vectors.FOUR + vectors.JUNK)),
        }.items():
            with self.subTest(name):
                self.assertEqual(self.lines[name], line)

    def test_every_refusal_is_there_several_times(self):
        for call, refusals in {'set': [11, 12, 13, 14], 'Log': [9, 11, 12, 13, 14, 19, 22, 23]}.items():
            lines = [line for name, line in self.lines.items() if name.split(': ')[1].startswith(call)]
            for refusal in refusals:
                self.assertGreaterEqual(sum(line.split(':')[0] == f'refused {refusal}' for line in lines), 20)
            self.assertGreater(sum(line.startswith('0 ') for line in lines), 100)

    def test_logs_from_none_make_the_history_anew(self):
        sentences = [bytes(range(i)) for i in (1, 16, 2, 15, 3)]
        made = generate.history(sentences[::-1], range(5, 0, -1))
        self.assertEqual(self.lines[f'from none to five: Log {list(sentences[-1])} in 0'], '0 5:' + ''.join(f' {byte}' for byte in made))

    def test_logs_in_every_voice(self):
        made = generate.history([bytes([8, 0])] * 16, range(16, 0, -1), voices=range(15, -1, -1))
        self.assertEqual(self.lines['in every voice: Log [8, 0] in 15'], '0 16:' + ''.join(f' {byte}' for byte in made))

    def test_a_log_of_every_figure(self):
        """Sixteen words with every figure from 0 to 15, and 16 and 17 refused."""
        sentence = bytes(range(1, 17))
        made = generate.history([sentence] * 16, range(16, 0, -1), voices=range(15, -1, -1), played=range(15, -1, -1))
        after = ''.join(f' {byte}' for byte in made + (vectors.JUNK * 5)[320:340])
        self.assertEqual(self.lines[f'16 words: Log {list(sentence)} in 1, 17 played'], 'refused 23:' + after)

    def test_broken_off_and_in_full(self):
        made = generate.history([bytes([8, 0])] * 6, range(6, 0, -1), played=[1, 0, 1, 1, 0, 1])
        self.assertEqual(self.lines['broken off and in full: Log [8, 0] in 0, 1 played'], '0 6:' + ''.join(f' {byte}' for byte in made))

    def test_size(self):
        self.assertIn(len(self.cases), range(3000, 4501))
        self.assertLess(len(vectors.files(self.cases)['stdin']), 400_000)
        self.assertLess(sum(map(len, vectors.files(self.cases).values())), 700_000)

    def test_the_frames_hold_the_cases(self):
        stdin, at, buffer, lines = vectors.files(self.cases)['stdin'], 0, b'', []
        while at < len(stdin):
            call, voice, played = stdin[at], *(int.from_bytes(stdin[i:i + 8], 'little') for i in (at + 1, at + 9))
            end = at + 19 + oracle.two_bytes(stdin, at + 17)
            data, at = stdin[at + 19:end], end
            if call in (vectors.LOG, vectors.LOG_UNSHOWN):
                *answer, buffer = oracle.append(buffer, data, voice, played)
                shown = ':' + ''.join(f' {byte}' for byte in buffer) if call == vectors.LOG else ''
                lines.append(vectors.line(*answer) + shown)
            else:
                buffer = data if call == vectors.SET else buffer
                lines.append(vectors.line(*oracle.check_history(buffer)))
        self.assertEqual('\n'.join(lines).encode() + b'\n', vectors.files(self.cases)['stdout'])

    def test_a_second_run_gives_the_same(self):
        self.assertEqual(vectors.history_cases(), self.cases)


def frames(stdin):
    """The parts of each frame of kind sampling or weighted: call, length, voice, draw number or ticket, bytes."""
    at = 0
    while at < len(stdin):
        end = at + 27 + oracle.two_bytes(stdin, at + 25)
        yield stdin[at], *(int.from_bytes(stdin[i:i + 8], 'little') for i in (at + 1, at + 9, at + 17)), stdin[at + 27:end]
        at = end


class SamplingVectors(unittest.TestCase):
    @classmethod
    def setUpClass(cls):
        cls.cases = vectors.sampling_cases()
        cls.lines = {case.name: case.line for case in cls.cases}
        cls.stated = vectors.PATTERN_TRAPS + list(vectors.sampling_defects())
        cls.calls = []  # each with its bank, its diary and its line
        lines, bank, diary = iter(cls.cases), b'', b''
        for frame in frames(vectors.files(cls.cases)['stdin']):
            if frame[0] == vectors.BANK:
                bank = frame[-1]
            elif frame[0] == vectors.DIARY:
                diary = frame[-1]
            else:
                cls.calls.append((bank, diary, *frame, next(lines).line))

    def test_each_trap_and_each_set_of_defects_gets_the_stated_refusal(self):
        for name, refusal, bank, diary, pattern, voice, q, room in self.stated:
            with self.subTest(name):
                buffer = b'\7' * room
                *answer, after = oracle.draw_matching(bank, diary, pattern, voice, q, buffer)
                self.assertEqual(answer[0], refusal)
                self.assertTrue(refusal == 0 or (answer[1:], after) == ([0, 0], buffer))
                left = oracle.remaining_matching(bank, diary, pattern, voice)
                self.assertEqual(left[0], 0 if refusal in (16, 20) else refusal)

    def test_the_defects_are_all_there(self):
        """Each refusal is the first in some set of them, and with each that comes after it."""
        order = [*range(1, 10), 22, 10, 21, *range(11, 17), 20]
        sets = [[int(number) for number in name.removeprefix('defects [').rstrip(']').split(', ') if number] for name, *_ in vectors.sampling_defects()]
        self.assertEqual(len(sets), 512)
        self.assertTrue(all(chosen == sorted(chosen, key=order.index) for chosen in sets))
        met = {(chosen[0], other) for chosen in sets if chosen for other in chosen[1:]}
        apart = [range(1, 9), range(11, 15)]  # of these a set has one
        for i, refusal in enumerate(order):
            for other in order[i + 1:]:
                self.assertEqual((refusal, other) in met, not any(refusal in kind and other in kind for kind in apart), (refusal, other))

    def test_names_of_traps_differ(self):
        names = [name for name, *_ in vectors.PATTERN_TRAPS]
        self.assertEqual(len(names), len(set(names)))
        self.assertEqual(len(self.lines), len(self.cases))

    def test_lines_worked_out_by_hand(self):
        some, one = '[1, 255, 255]', '[1, 1, 0]'
        for name, line in {
            f'F, heard: Left {some} in 0': '0 4 2 2',
            f'F, heard: Left {some} in 5': '0 4 1 3',
            f'F, heard: Left {some} in 15': '0 4 0 4',
            f'F, heard: Draw {some} in 0: 0 into 3 bytes': '0 2 5: 1 0 1',
            f'F, heard: Draw {some} in 0: 1 into 4 bytes': '0 2 7: 1 1 1 7',
            f'F, heard: Draw {some} in 0: 2 into 5 bytes': 'refused 16: 7 7 7 7 7',
            f'F, heard: Draw {some} in 0: 0 into 2 bytes': 'refused 20: 7 7',
            f'F, heard: Left {one} in 0': '0 1 1 0',
            f'F, heard: Left {one} in 5': '0 1 0 1',
            'F, heard: Left [255, 255, 255] in 0': '0 8 3 5',
            'F, heard: Left 3 in 0': '0 8 3 5',
            'G: Left [0, 255, 0] in 0': '0 2 0 2',
            'G: Left [255, 0] in 0': '0 1 1 0',
            'matrix, 0 records: Left [3, 255, 24, 31, 255] in 0': '0 100 0 100',
            'matrix, 0 records: Draw [3, 255, 24, 31, 255] in 0: 50 into 7 bytes': '0 100 35410: 3 15 24 31 40 7 7',
            'brimful: Left [255, 255, 255, 255, 255, 255, 255, 255, 255, 255, 255, 255, 255, 255, 255, 255] in 0': f'0 {2**64 - 1} 0 {2**64 - 1}',
        }.items():
            with self.subTest(name):
                self.assertEqual(self.lines[name], line)

    def test_every_refusal_is_there_several_times(self):
        """Of each call; the plain ones have no 21, and 20 with Draw alone."""
        met = collections.Counter((call, int(line.split(':')[0].split()[1]) if line.startswith('refused') else 0)
                                  for _, _, call, *_, line in self.calls)
        both = [*range(0, 16), 21, 22]
        for call, refusals in {vectors.LEFT: both, vectors.LEFT_MATCHING: both, vectors.DRAW: [*both, 16, 20], vectors.DRAW_MATCHING: [*both, 16, 20]}.items():
            matching = call in (vectors.LEFT_MATCHING, vectors.DRAW_MATCHING)
            refusals = [refusal for refusal in refusals if matching or refusal != 21]
            self.assertEqual({refusal for own, refusal in met if own == call}, set(refusals))
            self.assertGreaterEqual(min(met[call, refusal] for refusal in refusals), 15 if matching else 2)

    def test_blanks_stand_beside_the_plain_calls(self):
        """Each call with blanks only has the line of the plain one, which is there."""
        plain = {(bank, diary, call, length, voice, q, len(data)): line for bank, diary, call, length, voice, q, data, line in self.calls
                 if call in (vectors.LEFT, vectors.DRAW)}
        blanks = {(bank, diary, call - 2, len(data), voice, q, room): line for bank, diary, call, room, voice, q, data, line in self.calls
                  if call in (vectors.LEFT_MATCHING, vectors.DRAW_MATCHING) and set(data) <= {255}}
        self.assertEqual(blanks, plain)
        refusals = {line.split(':')[0] for line in plain.values() if line.startswith('refused')}
        self.assertEqual(refusals, {f'refused {number}' for number in [*range(1, 17), 20, 22]})

    def test_without_a_blank_left_is_how_many_derivations_the_sentence_has(self):
        """Or 0 if it is heard."""
        met = collections.Counter()
        for bank, diary, call, _, voice, _, data, line in self.calls:
            if call == vectors.LEFT_MATCHING and 255 not in data and line.startswith('0 '):
                refusal, _, _, count = oracle.rank(bank, data)
                heard = (voice, 0, data) in oracle.sentences_of(diary)
                self.assertEqual(int(line.split()[3]), 0 if refusal or heard else count)
                met['none' if refusal else 'heard' if heard else min(count, 2)] += 1
        self.assertGreater(min(met[kind] for kind in ('none', 'heard', 1, 2)), 10, met)

    def test_kinds_of_patterns(self):
        """Of what fits some is heard, some not; of what doesn't fit some is heard too; in voices 0, 5 and 9."""
        kinds = collections.Counter()
        for bank, diary, call, _, voice, _, data, line in self.calls:
            if call == vectors.LEFT_MATCHING and line.startswith('0 '):
                total, heard, left = map(int, line.split()[1:])
                plain = oracle.remaining(bank, diary, len(data), voice)
                kinds.update({'some fit': 0 < total < plain[1], 'none fits': total == 0 < plain[1], 'some are heard': 0 < heard and 0 < left,
                              'all are heard': total == heard > 0, 'others are heard': heard < plain[2],
                              'another voice': voice > 0 and heard > 0, 'some blanks': 255 in data and set(data) > {255}})
        self.assertGreater(min(kinds.values()), 15, kinds)

    def test_the_draws_come_one_after_the_other(self):
        """Where all draws of a pattern are there, their numbers rise, each sentence fits, and Give gives it."""
        drawn = collections.defaultdict(dict)
        for bank, diary, call, _, voice, q, data, line in self.calls:
            if call == vectors.DRAW_MATCHING and line.startswith('0 '):
                figures, buffer = line.split(':')
                drawn[bank, diary, voice, data][q] = [int(figure) for figure in figures.split()[1:]], bytes(map(int, buffer.split()))[:len(data)]
        whole = 0
        for (bank, _, _, pattern), draws in drawn.items():
            numbers = [number for _, ((_, number), _) in sorted(draws.items())]
            self.assertEqual(numbers, sorted(set(numbers)))
            for (left, number), sentence in draws.values():
                self.assertEqual(oracle.unrank(bank, len(pattern), number, bytes(len(pattern)))[::2], (0, sentence))
                self.assertTrue(all(byte in (255, word) for byte, word in zip(pattern, sentence)))
                self.assertLess(max(draws), left)
            whole += len(draws) == left
        self.assertGreater(whole, 300)

    def test_size(self):
        self.assertIn(len(self.cases), range(6000, 9001))
        self.assertLess(len(vectors.files(self.cases)['stdin']), 400_000)
        self.assertLess(sum(map(len, vectors.files(self.cases).values())), 600_000)

    def test_the_frames_hold_the_cases(self):
        lines = []
        for bank, diary, call, length, voice, q, data, _ in self.calls:
            if call == vectors.LEFT:
                lines.append(vectors.line(*oracle.remaining(bank, diary, length, voice)))
            elif call == vectors.LEFT_MATCHING:
                lines.append(vectors.line(*oracle.remaining_matching(bank, diary, data, voice)))
            else:
                *answer, after = (oracle.draw(bank, diary, length, voice, q, data) if call == vectors.DRAW
                                  else oracle.draw_matching(bank, diary, data, voice, q, b'\7' * length))
                lines.append(f'{vectors.line(*answer)}:' + ''.join(f' {byte}' for byte in after))
        self.assertEqual('\n'.join(lines).encode() + b'\n', vectors.files(self.cases)['stdout'])

    def test_a_second_run_gives_the_same(self):
        self.assertEqual(vectors.sampling_cases(), self.cases)


def weight(sentence, weights):
    """The product of the words' weights."""
    product = 1
    for word in sentence:
        product *= weights[word]
    return product


class WeightedVectors(unittest.TestCase):
    @classmethod
    def setUpClass(cls):
        cls.cases = vectors.weighted_cases()
        cls.lines = {case.name: case.line for case in cls.cases}
        cls.stated = vectors.WEIGHT_TRAPS + list(vectors.weighted_defects())
        cls.calls = []  # each with its bank, its diary, its weights and its line
        lines, state = iter(cls.cases), [b'', b'', b'']
        for frame in frames(vectors.files(cls.cases)['stdin']):
            if frame[0] in (vectors.BANK, vectors.DIARY, vectors.WEIGHTS):
                state[frame[0]] = frame[-1]
            else:
                cls.calls.append((*state, *frame, next(lines).line))
        cls.drawn = collections.defaultdict(dict)  # by question, each ticket's answer: total, derivation number, sentence
        for bank, diary, weights, call, length, voice, ticket, _, line in cls.calls:
            if call == vectors.DRAW_WEIGHTED and line.startswith('0 '):
                figures, buffer = line.split(':')
                sentence = bytes(map(int, buffer.split()))[:length]
                cls.drawn[bank, diary, weights, length, voice][ticket] = *map(int, figures.split()[1:]), sentence

    def test_each_trap_and_each_set_of_defects_gets_the_stated_refusal(self):
        for name, refusal, bank, diary, length, voice, weights, ticket, room in self.stated:
            with self.subTest(name):
                buffer = b'\7' * room
                *answer, after = oracle.draw_weighted(bank, diary, length, voice, weights, ticket, buffer)
                self.assertEqual(answer[0], refusal)
                self.assertTrue(refusal == 0 or (answer[1:], after) == ([0, 0], buffer))

    def test_the_defects_are_all_there(self):
        """Each refusal is the first in some set of them, and with each that comes after it."""
        order = [*range(1, 10), 22, 10, 24, 25, *range(11, 17), 20]
        sets = [[int(number) for number in name.removeprefix('defects [').rstrip(']').split(', ') if number] for name, *_ in vectors.weighted_defects()]
        self.assertEqual(len(sets), 1024)
        self.assertTrue(all(chosen == sorted(chosen, key=order.index) for chosen in sets))
        met = {(chosen[0], other) for chosen in sets if chosen for other in chosen[1:]}
        apart = [range(1, 9), range(11, 15)]  # of these a set has one
        for i, refusal in enumerate(order):
            for other in order[i + 1:]:
                self.assertEqual((refusal, other) in met, not any(refusal in kind and other in kind for kind in apart), (refusal, other))

    def test_names_of_traps_differ(self):
        names = [name for name, *_ in vectors.WEIGHT_TRAPS]
        self.assertEqual(len(names), len(set(names)))
        self.assertEqual(len(self.lines), len(self.cases))

    def test_lines_worked_out_by_hand(self):
        """By the weights 3 and 2 the eight sentences of F weigh 27, 18, 18, 12, 18, 12, 12 and 8; numbers 1, 4 and 6 are heard."""
        full = 2**64 - 1
        for name, line in {
            'F, heard: Draw 3 in 0: 0 into 3 bytes by [3, 2]': '0 77 0: 0 0 0',
            'F, heard: Draw 3 in 0: 26 into 5 bytes by [3, 2]': '0 77 0: 0 0 0 7 7',
            'F, heard: Draw 3 in 0: 27 into 3 bytes by [3, 2]': '0 77 2: 0 1 0',
            'F, heard: Draw 3 in 0: 44 into 5 bytes by [3, 2]': '0 77 2: 0 1 0 7 7',
            'F, heard: Draw 3 in 0: 45 into 3 bytes by [3, 2]': '0 77 3: 0 1 1',
            'F, heard: Draw 3 in 0: 56 into 5 bytes by [3, 2]': '0 77 3: 0 1 1 7 7',
            'F, heard: Draw 3 in 0: 57 into 3 bytes by [3, 2]': '0 77 5: 1 0 1',
            'F, heard: Draw 3 in 0: 68 into 5 bytes by [3, 2]': '0 77 5: 1 0 1 7 7',
            'F, heard: Draw 3 in 0: 69 into 3 bytes by [3, 2]': '0 77 7: 1 1 1',
            'F, heard: Draw 3 in 0: 76 into 4 bytes by [3, 2]': '0 77 7: 1 1 1 7',
            'F, heard: Draw 3 in 0: 77 into 5 bytes by [3, 2]': 'refused 16: 7 7 7 7 7',
            'F, heard: Draw 3 in 0: 0 into 2 bytes by [3, 2]': 'refused 20: 7 7',
            'F, heard: Draw 3 in 0: 4 into 4 bytes by [1, 1]': '0 5 7: 1 1 1 7',
            'F, heard: Draw 3 in 0: 4 into 4 bytes': '0 5 7: 1 1 1 7',
            'G: Draw 3 in 0: 8 into 5 bytes by [2]': '0 16 1: 0 0 0 7 7',
            'G: Draw 2 in 0: 0 into 2 bytes by [3]': 'refused 16: 7 7',
            'G: Draw 2 in 4: 8 into 4 bytes by [3]': '0 9 0: 0 0 7 7',
            f'laden, 0 heard: Draw 16 in 2: {255 * 2**56 - 1} into 18 bytes by [15, 17, 16, 1]': f'0 {full} 0: 0 1' + ' 2' * 14 + ' 7 7',
            f'laden, 0 heard: Draw 16 in 2: {255 * 2**56} into 16 bytes by [15, 17, 16, 1]': f'0 {full} 1: 0 1' + ' 2' * 6 + ' 3' * 8,
            f'laden, 0 heard: Draw 16 in 2: {full - 255} into 16 bytes by [15, 17, 16, 1]': f'0 {full} 7: 0 1' + ' 3' * 14,
            f'laden, 0 heard: Draw 16 in 2: {full - 256} into 18 bytes by [15, 17, 16, 1]': f'0 {full} 6: 0 1' + ' 3' * 6 + ' 2' * 8 + ' 7 7',
            f'laden, 0 heard: Draw 16 in 2: {full} into 16 bytes by [15, 17, 16, 1]': 'refused 16:' + ' 7' * 16,
            'matrix, slack: Draw 5 in 0: 42100 into 6 bytes by ' + str([1] * 3 + [20] + [1] * 41 + [5] + [1] * 4): '0 405900 30005: 3 10 20 30 45 7',
            'matrix, slack: Draw 5 in 0: 42099 into 5 bytes by ' + str([1] * 3 + [20] + [1] * 41 + [5] + [1] * 4): '0 405900 30004: 3 10 20 30 44',
        }.items():
            with self.subTest(name):
                self.assertEqual(self.lines[name], line)

    def test_every_refusal_is_there_several_times(self):
        met = collections.Counter((call, int(line.split(':')[0].split()[1]) if line.startswith('refused') else 0) for *_, call, _, _, _, _, line in self.calls)
        plain = [*range(0, 17), 20, 22]
        for call, refusals in {vectors.DRAW_PLAIN: plain, vectors.DRAW_WEIGHTED: [*plain, 24, 25]}.items():
            self.assertEqual({refusal for own, refusal in met if own == call}, set(refusals))
            self.assertGreaterEqual(min(met[call, refusal] for refusal in refusals), 12 if call == vectors.DRAW_WEIGHTED else 4)

    def test_ones_stand_beside_the_plain_calls(self):
        """Each call with a weight of 1 for every word has the line of the plain one, which is there."""
        plain, weighted = {}, {}
        for bank, diary, weights, call, *question, data, line in self.calls:
            if weights == vectors.ones(bank):
                (plain if call == vectors.DRAW_PLAIN else weighted)[bank, diary, *question, len(data)] = line
        self.assertEqual(plain, weighted)
        self.assertGreater(len(plain), 1000)
        refusals = {line.split(':')[0] for line in plain.values() if line.startswith('refused')}
        self.assertEqual(refusals, {f'refused {number}' for number in [*range(1, 17), 20, 22]})

    def test_each_derivation_owns_its_weight(self):
        """Where all tickets of a question are there: consecutive ones, as many as the product says; heard ones own none."""
        whole, mixed, several = 0, 0, 0
        for (bank, diary, weights, length, voice), tickets in self.drawn.items():
            total = next(iter(tickets.values()))[0]
            if len(tickets) < total:
                continue
            owners = [(tickets[ticket][1], tickets[ticket][2]) for ticket in range(total)]
            runs = [(*owner, len([*run])) for owner, run in itertools.groupby(owners)]
            heard = {words for own, played, words in oracle.sentences_of(diary) if (own, played) == (voice, 0)}
            full = [oracle.sentence_of(tree) for tree in oracle.read(bank).derivations(bank[3], length)]
            self.assertEqual(runs, [(d, words, weight(words, weights)) for d, words in enumerate(full) if words not in heard])
            whole += 1
            mixed += len({many for *_, many in runs}) > 1
            several += len(full) > len(runs)
        self.assertGreater(min(whole - 100, mixed, several), 25, (whole, mixed, several))

    def test_borders_of_long_lists(self):
        """Neighbouring tickets, the first of one derivation and the last of the one before it; each derivation is that of Give."""
        kinds = collections.Counter()
        for (bank, _, weights, length, _), tickets in self.drawn.items():
            total = next(iter(tickets.values()))[0]
            kinds['of 2^63 and more'] += total >= 2**63
            kinds['the last'] += total - 1 in tickets
            for ticket, (given, number, sentence) in tickets.items():
                self.assertEqual((given, oracle.unrank(bank, length, number, bytes(length))[::2]), (total, (0, sentence)))
                if ticket + 1 in tickets:
                    following = tickets[ticket + 1][1]
                    self.assertLessEqual(number, following)
                    kinds['border' if number < following else 'inside'] += len(tickets) < total
        self.assertGreater(min(kinds['border'], kinds['inside'], kinds['the last']), 300, kinds)
        self.assertGreater(kinds['of 2^63 and more'], 10, kinds)

    def test_kinds_of_weights(self):
        """Ones, 1 and 255 alone and mixed ones; with some heard, with some heard in another voice, with words that no rule has."""
        kinds = collections.Counter()
        for (bank, diary, weights, length, voice), tickets in self.drawn.items():
            said = oracle.sentences_of(diary)
            derived = [record for record in said if oracle.full_list(bank, length).count(record[2])]
            used = {rule.a for rule in oracle.rules_of(bank).values() if rule.kind == oracle.WORD}
            kinds.update({'ones': set(weights) == {1}, '255': 255 in weights, '255 alone': set(weights) == {255}, 'mixed': len(set(weights)) > 1,
                          'heard': any(record[:2] == (voice, 0) for record in derived), 'another voice': any(record[0] != voice for record in derived),
                          'broken off': any(record[1] for record in derived), 'repeated': len(derived) > len(set(derived)),
                          'unused words': len(used) < bank[1], 'foreign words': any(word >= bank[1] for *_, words in said for word in words)})
        self.assertEqual(len(kinds), 10)
        self.assertGreater(min(kinds.values()), 10, kinds)

    def test_size(self):
        self.assertIn(len(self.cases), range(6000, 9001))
        self.assertLess(len(vectors.files(self.cases)['stdin']), 400_000)
        self.assertLess(sum(map(len, vectors.files(self.cases).values())), 650_000)

    def test_the_frames_hold_the_cases(self):
        lines = []
        for bank, diary, weights, call, length, voice, ticket, data, _ in self.calls:
            self.assertEqual(data, b'\7' * len(data))
            *answer, after = (oracle.draw(bank, diary, length, voice, ticket, data) if call == vectors.DRAW_PLAIN
                              else oracle.draw_weighted(bank, diary, length, voice, weights, ticket, data))
            lines.append(f'{vectors.line(*answer)}:' + ''.join(f' {byte}' for byte in after))
        self.assertEqual('\n'.join(lines).encode() + b'\n', vectors.files(self.cases)['stdout'])

    def test_a_second_run_gives_the_same(self):
        self.assertEqual(vectors.weighted_cases(), self.cases)


if __name__ == '__main__':
    unittest.main()
