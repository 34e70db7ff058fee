"""Tests of tools/pumpfennel-text: texts of grammars, histories, patterns and weights become the bytes that the documents describe, and come back."""
import importlib.machinery
import importlib.util
import pathlib
import re
import subprocess
import sys
import tempfile
import unittest

import oracle
import vectors
from generate import Rng, brimful, damaged, history, random_damage, random_grammar
from oracle import F, G

ROOT = pathlib.Path(__file__).resolve().parent.parent
TOOL = ROOT / 'tools' / 'pumpfennel-text'


def loaded():
    loader = importlib.machinery.SourceFileLoader('pumpfennel_text', str(TOOL))
    module = importlib.util.module_from_spec(importlib.util.spec_from_loader(loader.name, loader))
    sys.dont_write_bytecode, kept = True, sys.dont_write_bytecode
    loader.exec_module(module)
    sys.dont_write_bytecode = kept
    return module


text = loaded()


def bare(lines):
    """A text without its comments and blank lines."""
    lines = [line.split('#')[0].rstrip() for line in lines.split('\n')]
    return ''.join(line + '\n' for line in lines if line)


def meaning(bank):
    """N, W, S, and each chain's rules without their numbers."""
    rules = oracle.rules_of(bank)
    chains = oracle.walk(oracle.heads_of(bank), oracle.nexts_of(bank))
    return bank[0], bank[1], bank[3], [[rules[i][:3] for i in numbers] for numbers in chains]


def logged(sentences, room, voices, played):
    """The history after logging these sentences in turn."""
    diary = bytes(4 + 20 * room)
    for sentence, voice, figure in zip(sentences, voices, played, strict=True):
        refusal, _, diary = oracle.append(diary, sentence, voice, figure)
        assert refusal == 0
    return diary


def random_sentences(rng):
    return [bytes(rng.below(256) for _ in range(1 + rng.below(16))) for _ in range(rng.below(12))]


def random_voices(rng, sentences):
    return [rng.choice([0, 0, rng.below(16)]) for _ in sentences]


def random_played(rng, sentences):
    return [rng.choice([0, rng.below(len(sentence))]) for sentence in sentences]


class Examples(unittest.TestCase):
    def test_the_house_matrix_bank(self):
        data = text.grammar_bytes((ROOT / 'examples' / 'matrix.txt').read_text())
        self.assertEqual(len(data), 229)
        self.assertEqual(data, oracle.matrix())
        self.assertEqual(data, bytes(map(int, (ROOT / 'crates' / 'matrix_vectors' / 'stdout').read_text().split())))

    def test_the_sample_diary(self):
        lines = (ROOT / 'examples' / 'diary.txt').read_text()
        diary = text.history_bytes(lines)
        self.assertEqual(oracle.remaining(oracle.matrix(), diary, 5, 0), (0, 100000, 4, 99996))
        numbers = [oracle.rank(oracle.matrix(), sentence)[1] for *_, sentence in oracle.sentences_of(diary)]
        self.assertEqual(numbers, [5, 31415, 2, 0])
        self.assertEqual(len(diary), 4 + 20 * 40)

    def test_their_texts_come_back(self):
        for name, there, back in [('matrix.txt', text.grammar_bytes, text.grammar_text),
                                  ('diary.txt', text.history_bytes, text.history_text)]:
            lines = (ROOT / 'examples' / name).read_text()
            self.assertEqual(back(there(lines)), bare(lines))

    def test_the_help_has_examples_that_hold(self):
        grammar, diary, pattern, weights = ['\n'.join(line[4:] for line in part.split('\n') if line.startswith('    '))
                                            for part in re.split('A history has|A pattern is|Weights have', text.__doc__)]
        chains = [[(1, 1, 1), (1, 0, 1)], [(0, 0, 0), (0, 1, 0), (0, 2, 0)]]
        self.assertEqual(meaning(text.grammar_bytes(grammar)), (2, 3, 0, chains))
        said = [bytes([0, 2, 1]), bytes([2, 2]), bytes([0, 1, 2]), bytes([0, 1, 2])]
        self.assertEqual(text.history_bytes(diary), logged(said, 40, [3, 0, 3, 0], [2, 1, 0, 0]))
        self.assertEqual(text.pattern_bytes(pattern), bytes([0, 255, 2]))
        bank, diary = text.grammar_bytes(grammar), text.history_bytes(diary)
        self.assertEqual(oracle.remaining_matching(bank, diary, text.pattern_bytes(pattern), 0), (0, 3, 1, 2))
        self.assertEqual(text.weights_bytes(weights), bytes([7, 1, 40]))
        # 48 * 48 tickets; the last 40 * 40 are those of 2 2, which was broken off
        self.assertEqual(oracle.draw_weighted(bank, diary, 2, 0, text.weights_bytes(weights), 704, bytes(2)), (0, 2304, 8, bytes([2, 2])))
        self.assertEqual(oracle.draw_weighted(bank, diary, 2, 0, text.weights_bytes(weights), 703, bytes(2)), (0, 2304, 7, bytes([2, 1])))


class Grammars(unittest.TestCase):
    def check(self, bank):
        lines = text.grammar_text(bank)
        again = text.grammar_bytes(lines)
        self.assertEqual(meaning(again), meaning(bank))
        self.assertEqual(oracle.check_grammar(again), oracle.check_grammar(bank))
        self.assertEqual(text.grammar_text(again), lines)
        self.assertEqual(text.grammar_bytes(lines), again)

    def test_f_and_g(self):
        self.assertEqual(text.grammar_text(F), 'words 2\nstart 0\n0 -> (1 1) | (0 1)\n1 -> 0 | 1\n')
        self.assertEqual(text.grammar_text(G), 'words 1\nstart 0\n0 -> (0 0) | 0\n')
        for bank in (F, G):
            self.assertEqual(text.grammar_bytes(text.grammar_text(bank)), bank)

    def test_stored_cases_come_back(self):
        for name, refusal, bank in vectors.TRAPS:
            if refusal == 0:
                with self.subTest(name):
                    self.check(bank)

    def test_the_largest_come_back(self):
        for bank in (vectors.FULL, brimful(), oracle.f_words(253)):
            self.check(bank)
            self.assertLess(max(map(len, text.grammar_text(bank).split('\n'))), 120)

    def test_random_ones_come_back(self):
        rng = Rng(31)
        for _ in range(300):
            self.check(random_grammar(rng, 1 + rng.below(32), 1 + rng.below(255), 1 + rng.below(60)))

    def test_damaged_ones_come_back_or_have_no_text(self):
        rng, without = Rng(32), 0
        for _ in range(600):
            bank = random_grammar(rng, 4, 4, 9)
            bank = damaged(bank, [random_damage(rng, bank)])[:len(bank) - rng.choice([0, 0, 0, 0, 1])]
            try:
                text.grammar_text(bank)
            except text.Wrong:
                without += 1
                self.assertNotEqual(oracle.check_grammar(bank)[0], 0)
            else:
                self.check(bank)
        self.assertIn(without, range(100, 500))

    def test_layout_is_free(self):
        lines = '# F\r\n\r\n 1->0|\t1 # words\r\nstart   0\r\n0   ->( 1   1 )|(0 1)\r\nwords 02'
        self.assertEqual(text.grammar_bytes(lines), F)
        self.assertEqual(text.grammar_bytes('words 2\nstart 0\n1 -> 0\n# between\n  | 1\n0 -> (1 1)\n| (0 1)\n'), F)

    def test_what_the_library_refuses_is_its_own_matter(self):
        for refusal, lines in [(2, 'words 0\nstart 0\n0 -> 0'), (2, 'words 1\nstart 1\n0 -> 0'), (2, 'words 1\nstart 0'),
                               (2, 'words 1\nstart 0\n0 ->'), (4, 'words 1\nstart 0\n0 -> 1'),
                               (4, 'words 1\nstart 0\n0 -> (0 1)'), (8, 'words 1\nstart 0\n0 -> 0 | 0')]:
            self.assertEqual(oracle.check_grammar(text.grammar_bytes(lines))[0], refusal)

    def test_errors(self):
        many = ' | '.join(map(str, range(200)))
        for lines, message in [
            ('words 2\nstart 0\n\n0 -> 1 2', "line 4: neither a word nor two nonterminals in brackets: '1 2'"),
            ('words 2\nstart 0\n0 -> (1 2', "line 3: neither a word nor two nonterminals in brackets: '(1 2'"),
            ('words 2\nstart 0\n0 -> (1 2 3)', "line 3: neither a word nor two nonterminals in brackets: '(1 2 3)'"),
            ('words 2\nstart 0\n0 -> (1 256)', 'line 3: a nonterminal is above 255: 256'),
            ('words 2\nstart 0\n0 -> dog', "line 3: a word is not a number: 'dog'"),
            ('words 2\nstart 0\n0 -> -1', "line 3: a word is not a number: '-1'"),
            ('words 2\nstart 0\n0 -> 0 | 256', 'line 3: a word is above 255: 256'),
            ('words 2\nstart 0\n0 -> 0 || 1', 'line 3: a rule is missing beside a bar'),
            ('words 2\nstart 0\n0 -> 0 |', 'line 3: a rule is missing beside a bar'),
            ('words 2\nstart 0\n255 -> 0', 'line 3: the nonterminal is above 254: 255'),
            ('words 2\nstart 0\n0 -> 0\n\n0 -> 1', 'line 5: nonterminal 0 has a line already'),
            ('words 2\n| 3', 'line 2: there is no rule before this bar'),
            ('words 2\nstart 0\n0 ->\n| 3', 'line 4: there is no rule before this bar'),
            ('0 -> 1\nwords 2\n| 3', 'line 3: there is no rule before this bar'),
            ('words 2\nwords 2', 'line 2: "words" stands there already'),
            ('words many', "line 1: words is not a number: 'many'"),
            ('words 256', 'line 1: words is above 255: 256'),
            ('words ' + '9' * 5000, 'line 1: words is above 255: ' + '9' * 5000),
            ('words 2 3', "line 1: neither words, start nor a chain: 'words 2 3'"),
            ('words 2\nstart 0\nS -> 0', "line 3: neither words, start nor a chain: 'S -> 0'"),
            (f'words 200\nstart 0\n0 -> {many}\n1 -> {many}', 'line 4: there are more than 255 rules'),
            ('start 0\n0 -> 1', 'there is no line "words"'),
            ('words 2\n0 -> 1', 'there is no line "start"'),
            ('words 2\nstart 0\n0 -> 1\n2 -> 1', 'nonterminal 1 has no line'),
        ]:
            with self.subTest(lines[:60]), self.assertRaises(text.Wrong) as caught:
                text.grammar_bytes(lines)
            self.assertEqual(str(caught.exception), message)

    def test_bytes_without_text(self):
        for refusal, message in [(1, 'there are 3 bytes, and 4 is the least'),
                                 (3, 'there are 27 bytes, and 2 nonterminals and 5 rules take 26'),
                                 (4, 'rule 1 is neither a word nor a pair: 2 1 1'),
                                 (5, 'a link leads to 6, and there are 5'),
                                 (6, 'number 1 is met twice on the chains'),
                                 (7, 'rule 5 is on no chain')]:
            small, rule = vectors.SMALL, vectors.RULE
            bank = {1: small[:3], 3: small + b'\0', 4: damaged(small, [(rule[1], 2)]), 5: damaged(small, [(rule[5] + 3, 6)]),
                    6: damaged(small, [(rule[5] + 3, 1)]), 7: damaged(small, [(rule[4] + 3, 0)])}[refusal]
            self.assertEqual(oracle.check_grammar(bank)[0], refusal)
            with self.assertRaises(text.Wrong) as caught:
                text.grammar_text(bank)
            self.assertEqual(str(caught.exception), message)


class Histories(unittest.TestCase):
    def check(self, diary):
        lines = text.history_text(diary)
        again = text.history_bytes(lines)
        self.assertEqual(oracle.check_history(again), oracle.check_history(diary))
        self.assertEqual(oracle.sentences_of(again), oracle.sentences_of(diary))
        self.assertEqual(len(again), len(diary) - (len(diary) - 4) % 20)
        self.assertEqual(text.history_text(again), lines)

    def test_a_line_is_a_sentence_and_the_newest_comes_first(self):
        self.assertEqual(text.history_bytes(''), bytes(4))
        self.assertEqual(text.history_bytes('0 1\n'), bytes([1, 0, 1, 0, 0, 0, 2, 0, 0, 1] + [0] * 14))
        rng = Rng(33)
        for _ in range(50):
            sentences = random_sentences(rng)
            voices, played = random_voices(rng, sentences), random_played(rng, sentences)
            room = len(sentences) + rng.below(3)
            lines = [' '.join(map(str, sentence)) + (f', voice {voice}' if voice else '') + (f', played {figure}' if figure else '')
                     for sentence, voice, figure in zip(sentences, voices, played)]
            self.assertEqual(text.history_bytes('\n'.join([*reversed(lines), f'room {room}'])), logged(sentences, room, voices, played))

    def test_random_ones_come_back(self):
        rng = Rng(34)
        for _ in range(200):
            sentences = random_sentences(rng)
            slack = bytes(rng.below(256) for _ in range(rng.choice([0, 0, 1, 19, 20, 45])))
            numbers = rng.shuffled(range(1, len(sentences) + 1))
            self.check(history(sentences, numbers, slack, random_voices(rng, sentences), random_played(rng, sentences)))

    def test_voices(self):
        every = history([bytes([7, 8])] * 16, voices=range(16))
        lines = ['7 8', *(f'7 8, voice {voice}' for voice in range(1, 16))]
        self.assertEqual(text.history_text(every).splitlines(), lines)
        self.assertEqual(oracle.sentences_of(text.history_bytes('\n'.join(lines))), oracle.sentences_of(every))
        for line in ('5, voice 3', '5,voice 3', '5 ,  voice   3 # a talker', '5, voice 03'):
            self.assertEqual(text.history_bytes(line), history([b'\5'], voices=[3]), line)
        self.assertEqual(text.history_bytes('5, voice 0'), history([b'\5']))

    def test_words_played(self):
        every = history([bytes([7] * 16)] * 16, played=range(16))
        lines = [' '.join(['7'] * 16) + (f', played {figure}' if figure else '') for figure in range(16)]
        self.assertEqual(text.history_text(every).splitlines(), lines)
        self.assertEqual(oracle.sentences_of(text.history_bytes('\n'.join(lines))), oracle.sentences_of(every))
        both = history([b'\5\6\7'], voices=[3], played=[2])
        self.assertEqual(text.history_text(both), '5 6 7, voice 3, played 2\n')
        for line in ('5 6 7, voice 3, played 2', '5 6 7,played 2,voice 3', '5 6 7 , played  02 ,  voice   3 # stopped'):
            self.assertEqual(text.history_bytes(line), both, line)
        self.assertEqual(text.history_bytes('5 6, played 0'), history([b'\5\6']))
        self.assertEqual(text.history_bytes('5, played 0'), history([b'\5']))
        for length in range(1, 17):
            for figure in range(16):
                line, diary = '7 ' * length + f', played {figure}', history([bytes([7] * length)], played=[figure])
                if figure < length:
                    self.assertEqual(text.history_bytes(line), diary)
                else:
                    self.assertRaises(text.Wrong, text.history_bytes, line)
                    self.assertRaises(text.Wrong, text.history_text, diary)

    def test_a_thousand_and_more(self):
        for many in (999, 1000, 1001):
            diary = text.history_bytes('7\n' * many)
            self.assertEqual(oracle.check_history(diary)[0], 0 if many <= 1000 else 11)
            self.assertEqual(text.history_text(diary), '7\n' * many)

    def test_stored_cases_come_back_or_have_no_text(self):
        for name, refusal, diary in vectors.HISTORY_TRAPS:
            with self.subTest(name):
                if refusal == 0:
                    self.check(diary)
                elif oracle.two_bytes(diary.ljust(4), 0) <= 1000:
                    with self.assertRaises(text.Wrong):
                        text.history_text(diary)

    def test_errors(self):
        for lines, message in [
            ('1 2\n\n1 two', "line 3: a word is not a number: 'two'"),
            ('1 256', 'line 1: a word is above 255: 256'),
            ('# none\n' + '1 ' * 17, 'line 2: the sentence has 17 words, and 16 is the most'),
            ('1 2, voice 16', 'line 1: voice is above 15: 16'),
            ('1 2, voice x', "line 1: voice is not a number: 'x'"),
            ('1 2, voice -1', "line 1: voice is not a number: '-1'"),
            ('1 2, voice', """line 1: neither "voice" nor "played" behind a comma: 'voice'"""),
            ('1 2, voice 1 2', """line 1: neither "voice" nor "played" behind a comma: 'voice 1 2'"""),
            ('1 2, voice 1, voice 1', 'line 1: "voice" stands there already'),
            ('1 2, played 1, voice 1, played 1', 'line 1: "played" stands there already'),
            ('1 2, voice 1, 2', """line 1: neither "voice" nor "played" behind a comma: '2'"""),
            ('1 2, played 1,', """line 1: neither "voice" nor "played" behind a comma: ''"""),
            ('1\n1, 2', """line 2: neither "voice" nor "played" behind a comma: '2'"""),
            ('1 2,', """line 1: neither "voice" nor "played" behind a comma: ''"""),
            ('1 2, played x', "line 1: played is not a number: 'x'"),
            ('1 2, played 16', 'line 1: played is above 15: 16'),
            ('1 2, played 2', 'line 1: played 2 of 2: a sentence that was broken off has more words'),
            ('7\n1 2, played 15', 'line 2: played 15 of 2: a sentence that was broken off has more words'),
            ('1, played 1', 'line 1: played 1 of 1: a sentence that was broken off has more words'),
            (', voice 1', 'line 1: there is no word before the comma'),
            ('1 2 voice 1', "line 1: a word is not a number: 'voice'"),
            ('room 3\nroom 3', 'line 2: "room" stands there already'),
            ('room 65536', 'line 1: room is above 65535: 65536'),
            ('room x', "line 1: room is not a number: 'x'"),
            ('room 1\n1\n2', 'there are 2 sentences, and room for 1'),
        ]:
            with self.subTest(lines), self.assertRaises(text.Wrong) as caught:
                text.history_bytes(lines)
            self.assertEqual(str(caught.exception), message)


class Patterns(unittest.TestCase):
    def test_a_place_is_a_word_or_a_blank(self):
        for line, pattern in [('0', [0]), ('_', [255]), ('3 _ 24 31 _', [3, 255, 24, 31, 255]), ('254 _ 0', [254, 255, 0]),
                              ('_ ' * 16, [255] * 16), ('# carrier\r\n\r\n\t3   _\t04 # phrase\r\n', [3, 255, 4])]:
            self.assertEqual(text.pattern_bytes(line), bytes(pattern), line)

    def test_every_byte_and_every_length_come_back(self):
        rng = Rng(36)
        for pattern in [*(bytes([byte]) for byte in range(256)), *(bytes(rng.choice([255, rng.below(255)]) for _ in range(length)) for length in range(1, 17))]:
            lines = text.pattern_text(pattern)
            self.assertEqual(text.pattern_bytes(lines), pattern)
            self.assertEqual(lines.split().count('_'), pattern.count(255))
        self.assertEqual(text.pattern_text(bytes([3, 255, 24, 31, 255])), '3 _ 24 31 _\n')

    def test_a_carrier_phrase_of_the_house_bank(self):
        bank = text.grammar_bytes((ROOT / 'examples' / 'matrix.txt').read_text())
        diary = text.history_bytes((ROOT / 'examples' / 'diary.txt').read_text())
        self.assertEqual(oracle.remaining_matching(bank, diary, text.pattern_bytes('0 10 20 30 _'), 0), (0, 10, 3, 7))

    def test_what_the_library_refuses_is_its_own_matter(self):
        """A word that the grammar hasn't."""
        self.assertEqual(oracle.remaining_matching(F, history([]), text.pattern_bytes('2 _'), 0)[0], 21)

    def test_errors(self):
        for lines, message in [
            ('', 'there is no pattern'),
            ('# none\n\n', 'there is no pattern'),
            ('1 _\n\n_ 1', 'line 3: there is a pattern already'),
            ('1 255', 'line 1: a word is above 254: 255'),
            ('\n1 dog', "line 2: a word is not a number: 'dog'"),
            ('1 __', "line 1: a word is not a number: '__'"),
            ('1 _2', "line 1: a word is not a number: '_2'"),
            ('1, voice 2', "line 1: a word is not a number: '1,'"),
            ('_ ' * 17, 'line 1: the pattern has 17 places, and 16 is the most'),
        ]:
            with self.subTest(lines), self.assertRaises(text.Wrong) as caught:
                text.pattern_bytes(lines)
            self.assertEqual(str(caught.exception), message)
        for size in (0, 17, 300):
            with self.assertRaises(text.Wrong) as caught:
                text.pattern_text(bytes(size))
            self.assertEqual(str(caught.exception), f'there are {size} bytes, and a pattern has 1 to 16')


class Weights(unittest.TestCase):
    def test_a_word_that_is_not_named_weighs_1(self):
        for lines, weights in [('words 1', [1]), ('words 3', [1, 1, 1]), ('words 3\n1 255', [1, 255, 1]), ('words 3\n2 4\n0 3', [3, 1, 4]),
                               ('words 2\n0 1\n1 1', [1, 1]), ('# speech\r\n\r\n words   03\r\n\t2\t 040 # common\r\n01 2', [1, 2, 40]),
                               ('words 255\n254 7', [1] * 254 + [7])]:
            self.assertEqual(text.weights_bytes(lines), bytes(weights), lines)

    def test_every_weight_and_every_number_of_words_come_back(self):
        rng = Rng(37)
        for weights in [*(bytes([weight]) for weight in range(1, 256)), *(bytes([1]) * words for words in range(1, 256)),
                        *(bytes(1 + rng.choice([0, 0, rng.below(255)]) for _ in range(words)) for words in range(1, 256))]:
            lines = text.weights_text(weights)
            self.assertEqual(text.weights_bytes(lines), weights)
            self.assertEqual(len(lines.splitlines()), 1 + len(weights) - weights.count(1))
        self.assertEqual(text.weights_text(bytes([7, 1, 40])), 'words 3\n0 7\n2 40\n')
        self.assertEqual(text.weights_text(bytes([1, 1])), 'words 2\n')

    def test_the_order_of_the_words_is_free(self):
        rng = Rng(38)
        for _ in range(100):
            weights = bytes(1 + rng.below(255) for _ in range(1 + rng.below(40)))
            lines = [f'{word} {weight}' for word, weight in enumerate(weights) if weight > 1 or rng.below(2)]
            self.assertEqual(text.weights_bytes('\n'.join([f'words {len(weights)}', *rng.shuffled(lines)])), weights)

    def test_the_house_bank(self):
        """By the weights 20 and 5 of two words; four of the sample diary's sentences are heard."""
        bank = text.grammar_bytes((ROOT / 'examples' / 'matrix.txt').read_text())
        diary = text.history_bytes((ROOT / 'examples' / 'diary.txt').read_text())
        heard = [sentence for *_, sentence in oracle.sentences_of(diary)]
        weights = text.weights_bytes('words 50\n45 5\n3 20')
        own = [20 ** sentence.count(3) * 5 ** sentence.count(45) for sentence in heard]
        self.assertEqual((own, 29 * 10 * 10 * 10 * 14), ([5, 100, 1, 1], 406000))
        self.assertEqual(oracle.draw_weighted(bank, diary, 5, 0, weights, 0, bytes(5))[:2], (0, 406000 - sum(own)))

    def test_what_the_library_refuses_is_its_own_matter(self):
        """More words than the grammar has, or fewer."""
        for lines, refusal in [('words 2\n0 3', 0), ('words 1', 24), ('words 3', 24)]:
            self.assertEqual(oracle.draw_weighted(F, history([]), 2, 0, text.weights_bytes(lines), 0, bytes(2))[0], refusal)

    def test_errors(self):
        for lines, message in [
            ('', 'there is no line "words"'),
            ('# none\n\n', 'there is no line "words"'),
            ('words 3\n\nwords 3', 'line 3: "words" stands there already'),
            ('0 7\nwords 3', 'line 1: "words" comes first'),
            ('words 0', 'line 1: words is 0, and 1 is the least'),
            ('words 256', 'line 1: words is above 255: 256'),
            ('words many', "line 1: words is not a number: 'many'"),
            ('words', "line 1: neither words nor a word and its weight: 'words'"),
            ('words 3 4', "line 1: neither words nor a word and its weight: 'words 3 4'"),
            ('words 3\n0 7\n# again\n0 7', 'line 4: word 0 has a weight already'),
            ('words 3\n2 40\n3 7', 'line 3: the word is above 2: 3'),
            ('words 1\n1 7', 'line 2: the word is above 0: 1'),
            ('words 3\n-1 7', "line 2: the word is not a number: '-1'"),
            ('words 3\ndog 7', "line 2: the word is not a number: 'dog'"),
            ('words 3\n0 0', 'line 2: the weight is 0, and 1 is the least'),
            ('words 3\n0 256', 'line 2: the weight is above 255: 256'),
            ('words 3\n0 1.5', "line 2: the weight is not a number: '1.5'"),
            ('words 3\n0 -1', "line 2: the weight is not a number: '-1'"),
            ('words 3\n0', "line 2: neither words nor a word and its weight: '0'"),
            ('words 3\n0 7 8', "line 2: neither words nor a word and its weight: '0 7 8'"),
            ('words 3\n0, 7', "line 2: the word is not a number: '0,'"),
            ('words 3\nstart 0', "line 2: the word is not a number: 'start'"),
        ]:
            with self.subTest(lines), self.assertRaises(text.Wrong) as caught:
                text.weights_bytes(lines)
            self.assertEqual(str(caught.exception), message)
        for data, message in [(b'', 'there are 0 bytes, and weights have 1 to 255'), (bytes(256), 'there are 256 bytes, and weights have 1 to 255'),
                              (bytes([0]), 'word 0 weighs 0, and 1 is the least'), (bytes([3, 2, 0, 0]), 'word 2 weighs 0, and 1 is the least')]:
            with self.assertRaises(text.Wrong) as caught:
                text.weights_text(data)
            self.assertEqual(str(caught.exception), message)


class Commands(unittest.TestCase):
    def tool(self, *args, given=b''):
        run = subprocess.run([TOOL, *map(str, args)], input=given, capture_output=True)
        return run.returncode, run.stdout, run.stderr.decode()

    def test_files_and_standard_input(self):
        matrix = ROOT / 'examples' / 'matrix.txt'
        self.assertEqual(self.tool('grammar', 'to-bytes', matrix), (0, oracle.matrix(), ''))
        self.assertEqual(self.tool('grammar', 'to-text', given=oracle.matrix()), (0, bare(matrix.read_text()).encode(), ''))
        self.assertEqual(self.tool('history', 'to-bytes', '-', given=b'5\n'), (0, history([b'\5']), ''))
        self.assertEqual(self.tool('history', 'to-text', given=history([b'\5'])), (0, b'5\n', ''))
        self.assertEqual(self.tool('pattern', 'to-bytes', given=b'5 _\n'), (0, b'\5\377', ''))
        self.assertEqual(self.tool('pattern', 'to-text', '-', given=b'\5\377'), (0, b'5 _\n', ''))
        self.assertEqual(self.tool('weights', 'to-bytes', given=b'words 3\n1 9\n'), (0, b'\1\11\1', ''))
        self.assertEqual(self.tool('weights', 'to-text', '-', given=b'\1\11\1'), (0, b'words 3\n1 9\n', ''))

    def test_listing(self):
        with tempfile.TemporaryDirectory() as name:
            bank, diary = pathlib.Path(name, 'bank'), pathlib.Path(name, 'diary')
            bank.write_bytes(oracle.matrix())
            diary.write_bytes(history([b'\5']))
            joined = bytes([5, 229, 0]) + oracle.matrix() + history([b'\5'])
            self.assertEqual(self.tool('listing', 5, bank, diary), (0, joined, ''))
            status, output, errors = self.tool('listing', 256, bank, diary)
            self.assertEqual((status, output, errors), (1, b'', 'pumpfennel-text: the length is above 255: 256\n'))
            bank.write_bytes(bytes(65536))
            self.assertEqual(self.tool('listing', 5, bank, diary)[:2], (1, b''))

    def test_listing_of_text_or_bytes(self):
        """Without a history nothing was heard. An empty file is bytes, so that a history that was lost is refused."""
        with tempfile.TemporaryDirectory() as name:
            for number, (bank, diary, joined) in enumerate([
                (text.grammar_text(F).encode(), b'0 1\n', F + history([b'\0\1'])),
                (text.grammar_text(F).encode(), history([b'\0\1']), F + history([b'\0\1'])),
                (F, b'# \xc3\xa9: none yet\n', F + history([])),
                (F, None, F + history([])),
                (F, b'', F),
            ]):
                files = {pathlib.Path(name, f'{number} bank'): bank, pathlib.Path(name, f'{number} diary'): diary}
                named = [file for file, data in files.items() if data is not None]
                for file in named:
                    file.write_bytes(files[file])
                self.assertEqual(self.tool('listing', 2, *named), (0, bytes([2, len(F), 0]) + joined, ''))
        said = "pumpfennel-text: -: line 1: neither words, start nor a chain: '9'\n"
        self.assertEqual(self.tool('listing', 2, '-', given=b'\t9'), (1, b'', said))

    def test_accepted_bytes_are_never_taken_for_text(self):
        rng = Rng(35)
        for _ in range(300):
            bank, diary = random_grammar(rng, 1 + rng.below(32), 1 + rng.below(255), 1 + rng.below(60)), history(random_sentences(rng))
            self.assertEqual((text.in_bytes('grammar', bank), text.in_bytes('history', diary)), (bank, diary))
        for bank in (oracle.f_words(253), brimful(), oracle.matrix()):
            self.assertEqual(text.in_bytes('grammar', bank), bank)
        for many in (9, 777, 1000):
            diary = history([bytes([255]) * 16] * many)
            self.assertEqual(text.in_bytes('history', diary), diary)

    def test_errors(self):
        status, output, errors = self.tool('grammar', 'to-bytes', given=b'words 2\nstart zero\n')
        self.assertEqual((status, output, errors), (1, b'', "pumpfennel-text: -: line 2: start is not a number: 'zero'\n"))
        self.assertEqual(self.tool('history', 'to-bytes', given=b'\377')[::2], (1, 'pumpfennel-text: -: this is no text\n'))
        for name, why in [(ROOT / 'no such file', 'No such file or directory'), (ROOT, 'Is a directory')]:
            self.assertEqual(self.tool('grammar', 'to-text', name), (1, b'', f'pumpfennel-text: {name}: {why}\n'))
        self.assertEqual(self.tool('pattern', 'to-bytes', given=b'_\n_'), (1, b'', 'pumpfennel-text: -: line 2: there is a pattern already\n'))
        self.assertEqual(self.tool('weights', 'to-bytes', given=b'words 2\n2 9'), (1, b'', 'pumpfennel-text: -: line 2: the word is above 1: 2\n'))
        for args in [(), ('grammar',), ('grammar', 'to-hex'), ('pattern',), ('pattern', '5 _'), ('weights',), ('weight', 'to-text'), ('listing', '5'),
                     ('grammar', 'to-text', '-', '-')]:
            self.assertEqual(self.tool(*args)[:2], (2, b''))
        self.assertEqual(self.tool('--help')[0], 0)

    def test_streams_that_cannot_be_used(self):
        for command, status, said in [
            ('grammar to-text <&-', 1, '-: Bad file descriptor'),
            ('grammar to-bytes examples/matrix.txt >/dev/full', 3, 'the result cannot be written: No space left on device'),
            ('grammar to-bytes examples/matrix.txt >&-', 3, 'the result cannot be written: Bad file descriptor'),
            ('--help >/dev/full', 3, 'the result cannot be written: No space left on device'),
        ]:
            run = subprocess.run(['bash', '-c', f'{TOOL} {command}'], cwd=ROOT, capture_output=True, text=True)
            self.assertEqual((run.returncode, run.stdout, run.stderr), (status, '', f'pumpfennel-text: {said}\n'))


if __name__ == '__main__':
    unittest.main()
