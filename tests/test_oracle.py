"""Tests of the brute-force program: document 01's examples, and small random grammars on which its
enumeration, its counts and an order of trees written apart from it must agree."""
import collections
import itertools
import unittest
import unittest.mock

import generate
import oracle
from generate import Rng, history, pair, random_grammar, word
from one_more_log import Asked, check_alone, check_moved, check_unmoved, large_questions, play, questions
from oracle import F, G

HEARD_01 = history([bytes([0, 1])])  # P7: diary of 0 1
EMPTY = history([])
PAST = 2**64 - 1


def listing_input(length, grammar, diary):
    return bytes([length]) + generate.low_high(len(grammar)) + grammar + diary


class Examples(unittest.TestCase):
    """Document 01, Examples and Wrong turns already taken."""

    def test_p1_p2_p3_counts_of_f(self):
        self.assertEqual(oracle.count(F, 1), (0, 0))
        self.assertEqual(oracle.count(F, 2), (0, 4))
        self.assertEqual(oracle.count(F, 16), (0, 65536))

    def test_p4_p5_unrank(self):
        self.assertEqual(oracle.unrank(F, 3, 5, b'\7\7\7\7'), (0, 8, bytes([1, 0, 1, 7])))
        self.assertEqual(oracle.unrank(F, 3, 8, b'\7\7\7\7'), (16, 0, b'\7\7\7\7'))

    def test_p6_rank(self):
        self.assertEqual(oracle.rank(F, bytes([1, 0, 1])), (0, 5, 8, 1))

    def test_p7_listing(self):
        self.assertEqual(HEARD_01, bytes([1, 0, 1, 0, 0, 0, 2, 0, 0, 1] + [0] * 14))
        self.assertEqual(oracle.listing(listing_input(2, F, HEARD_01)), b'2 4 1 3\n0 0 0 0\n1 2 1 0\n2 3 1 1\n')

    def test_p8_draw_past_the_end(self):
        self.assertEqual(oracle.draw(F, HEARD_01, 2, 0, 3, b'\7\7'), (16, 0, 0, b'\7\7'))

    def test_p9_p10_ambiguous_grammar(self):
        self.assertEqual(oracle.count(G, 3), (0, 2))
        self.assertEqual(oracle.count(G, 4), (0, 5))
        self.assertEqual(oracle.rank(G, bytes(3)), (0, 0, 2, 2))

    def test_f_with_15_and_16_words(self):
        self.assertEqual(oracle.f_words(2), F)
        self.assertEqual(oracle.count(oracle.f_words(16), 15), (0, 1152921504606846976))
        self.assertEqual(oracle.count(oracle.f_words(16), 16), (10, 0))
        self.assertEqual(oracle.count(oracle.f_words(15), 16), (0, 6568408355712890625))

    def test_long_sentences_by_counts(self):
        grammar, last = oracle.f_words(15), 15**16 - 1
        self.assertEqual(oracle.unrank(grammar, 16, last, bytes(16)), (0, last + 1, bytes([14] * 16)))
        self.assertEqual(oracle.rank(grammar, bytes(15) + b'\1'), (0, 1, last + 1, 1))
        heard = history([bytes(16), bytes([14] * 16)])
        self.assertEqual(oracle.draw(grammar, heard, 16, 0, last - 2, bytes(16)), (0, last - 1, last - 1, bytes([14] * 15 + [13])))

    def test_matrix(self):
        matrix = oracle.matrix()
        self.assertEqual(len(matrix), 229)
        self.assertEqual(oracle.check_grammar(matrix), (0, 9, 50))
        self.assertEqual([oracle.count(matrix, m)[1] for m in range(1, 17)], [0] * 4 + [100000] + [0] * 11)
        self.assertEqual(oracle.unrank(matrix, 5, 31415, bytes(5)), (0, 100000, bytes([3, 11, 24, 31, 45])))
        self.assertEqual(oracle.rank(matrix, bytes([3, 11, 24, 31, 45])), (0, 31415, 100000, 1))

    def test_head_without_record_and_record_without_head(self):
        self.assertEqual(oracle.check_history(bytes([0, 0, 1, 0])), (13, 0))
        self.assertEqual(oracle.check_history(bytes([1, 0, 0, 0]) + HEARD_01[4:]), (14, 0))

    def test_wrong_turn_heard_numbers_added_once(self):
        heard = history([bytes([1, 0]), bytes([0, 1])])
        self.assertEqual(oracle.draw(F, heard, 2, 0, 1, bytes(2)), (0, 2, 3, bytes([1, 1])))

    def test_wrong_turn_repeat_subtracted_twice(self):
        heard = history([bytes([0, 1])] * 2)
        self.assertEqual(oracle.remaining(F, heard, 2, 0), (0, 4, 1, 3))

    def test_wrong_turn_rules_by_index(self):
        backward = generate.grammar(2, 0, [[pair(1, 1)], [word(0), word(1)]], [1, 3, 2])
        self.assertEqual(oracle.unrank(backward, 2, 1, bytes(2)), (0, 4, bytes([0, 1])))

    def test_wrong_turn_right_count_of_zero(self):
        # nonterminal 2 derives nothing: its split is passed over
        grammar = generate.grammar(2, 0, [[pair(1, 2), pair(1, 1)], [word(0), word(1)], []])
        self.assertEqual(oracle.unrank(grammar, 2, 2, bytes(2)), (0, 4, bytes([1, 0])))

    def test_wrong_turn_large_factor_times_zero(self):
        # 15^16 derivations of 1 stand beside none of 3: T(0, m) is 0
        chains = [[pair(1, 3), pair(3, 1)], [pair(2, 2), pair(1, 2)], [word(i) for i in range(15)], []]
        grammar = generate.grammar(15, 0, chains)
        self.assertEqual(oracle.count(grammar, 16), (0, 0))
        self.assertEqual(oracle.rank(grammar, bytes(16)), (17, 0, 0, 0))


class Refusals(unittest.TestCase):
    """Document 01, Why a call says no: the order of the lines in each call, and their edges."""

    def test_grammar_comes_first_in_every_call_that_takes_one(self):
        for bad, refusal in [(b'', 1), (F[:-1], 3), (generate.damaged(F, [(21, 1)]), 6)]:
            self.assertEqual(oracle.check_grammar(bad), (refusal, 0, 0))
            self.assertEqual(oracle.count(bad, 0), (refusal, 0))
            self.assertEqual(oracle.unrank(bad, 17, 0, b''), (refusal, 0, b''))
            self.assertEqual(oracle.rank(bad, b''), (refusal, 0, 0, 0))
            self.assertEqual(oracle.remaining(bad, b'', 0, 0), (refusal, 0, 0, 0))
            self.assertEqual(oracle.draw(bad, b'', 0, 0, 0, b'\7'), (refusal, 0, 0, b'\7'))
            self.assertEqual(oracle.remaining_matching(bad, b'', b'', 0), (refusal, 0, 0, 0))
            self.assertEqual(oracle.draw_matching(bad, b'', b'', 0, 0, b'\7'), (refusal, 0, 0, b'\7'))
            self.assertEqual(oracle.draw_weighted(bad, b'', 0, 16, b'', 0, b'\7'), (refusal, 0, 0, b'\7'))

    def test_length(self):
        for length in (0, 17, 255, 256, PAST):
            self.assertEqual(oracle.count(F, length), (9, 0))
            self.assertEqual(oracle.unrank(F, length, PAST, b''), (9, 0, b''))
            self.assertEqual(oracle.remaining(F, b'', length, 0), (9, 0, 0, 0))
            self.assertEqual(oracle.draw(F, b'', length, 0, PAST, b''), (9, 0, 0, b''))
            self.assertEqual(oracle.draw_weighted(F, b'', length, 16, b'', PAST, b''), (9, 0, 0, b''))
        self.assertEqual(oracle.rank(F, b''), (9, 0, 0, 0))
        self.assertEqual(oracle.rank(F, bytes(17)), (9, 0, 0, 0))

    def test_totals_up_to_64_bits(self):
        full = generate.brimful()
        self.assertEqual(oracle.count(full, 16), (0, PAST))
        self.assertEqual(oracle.unrank(full, 16, PAST, bytes(16)), (16, 0, bytes(16)))
        refusal, total, last = oracle.unrank(full, 16, PAST - 1, bytes(16))
        self.assertEqual((refusal, total, oracle.rank(full, last)), (0, PAST, (0, PAST - 1, PAST, 1)))
        self.assertEqual(oracle.count(generate.brimful(1), 16), (10, 0))
        self.assertEqual(oracle.count(generate.brimful(1), 15), (0, 0))

    def test_only_totals_of_needed_pairs_must_fit(self):
        for name, (grammar, refused) in generate.reaching().items():
            with self.subTest(name):
                for length in range(1, 17):
                    ten = length in refused
                    self.assertEqual(oracle.count(grammar, length)[0] == 10, ten)
                    self.assertEqual(oracle.unrank(grammar, length, PAST, b'')[0], 10 if ten else 16)
                    self.assertEqual(oracle.rank(grammar, bytes([239]) * length)[0], 10 if ten else 17)
                    self.assertEqual(oracle.remaining(grammar, b'', length, 0)[0], 10 if ten else 11)
                    self.assertEqual(oracle.draw(grammar, EMPTY, length, 0, PAST, b'')[0], 10 if ten else 16)

    def test_a_call_that_is_refused_no_more_answers_by_the_same_definitions(self):
        grammar, _ = generate.reaching()['the start']
        self.assertEqual(oracle.count(grammar, 9), (0, 1))
        self.assertEqual(oracle.unrank(grammar, 9, 0, bytes(9)), (0, 1, bytes(9)))
        self.assertEqual(oracle.rank(grammar, bytes(9)), (0, 0, 1, 1))
        self.assertEqual(oracle.remaining(grammar, history([bytes(9)]), 9, 0), (0, 1, 1, 0))
        self.assertEqual(oracle.draw(grammar, EMPTY, 9, 0, 0, bytes(9)), (0, 1, 0, bytes(9)))

    def test_history_before_the_draw_number(self):
        self.assertEqual(oracle.draw(F, b'', 2, 0, PAST, b''), (11, 0, 0, b''))
        self.assertEqual(oracle.remaining(F, bytes([0, 0, 1, 0]), 2, 0), (13, 0, 0, 0))

    def test_ambiguous_record(self):
        heard = history([bytes(3)])
        self.assertEqual(oracle.remaining(G, heard, 3, 0), (15, 0, 0, 0))
        self.assertEqual(oracle.draw(G, heard, 3, 0, PAST, b''), (15, 0, 0, b''))
        self.assertEqual(oracle.remaining(G, heard, 4, 0), (0, 5, 0, 5))

    def test_number_before_buffer(self):
        self.assertEqual(oracle.unrank(F, 2, 4, b''), (16, 0, b''))
        self.assertEqual(oracle.unrank(F, 2, 3, b'\7'), (20, 0, b'\7'))
        self.assertEqual(oracle.draw(F, HEARD_01, 2, 0, 3, b''), (16, 0, 0, b''))
        self.assertEqual(oracle.draw(F, HEARD_01, 2, 0, 2, b'\7'), (20, 0, 0, b'\7'))

    def test_words_outside_the_grammar(self):
        self.assertEqual(oracle.rank(F, bytes([0, 2])), (17, 0, 0, 0))
        self.assertEqual(oracle.rank(F, bytes([255, 0])), (17, 0, 0, 0))
        self.assertEqual(oracle.remaining(F, history([bytes([255, 0]), bytes([0, 2])]), 2, 0), (0, 4, 0, 4))


class Readings(unittest.TestCase):
    """Document 02, U6: "how many derivations the sentence has and the lowest derivation number among them"."""

    def test_figures_worked_out_by_hand(self):
        for name, (grammar, sentences) in generate.ambiguous().items():
            for sentence, (number, total, count) in sentences.items():
                with self.subTest(name, sentence=sentence):
                    self.assertEqual(oracle.rank(grammar, sentence), (0, number, total, count))
                    self.assertEqual(oracle.unrank(grammar, len(sentence), number, bytes(16)), (0, total, sentence + bytes(16 - len(sentence))))
                    heard = oracle.remaining(grammar, history([sentence]), len(sentence), 0)
                    self.assertEqual(heard, (0, total, 1, total - 1) if count == 1 else (15, 0, 0, 0))

    def test_the_last_word_all_over(self):
        """Every tree over five words: T(m) is Catalan's number times 5^m, and the lowest number of 4 4 .. 4 is 4 T(15) + .. + 4 T(1) + 4."""
        trees = [1]
        for m in range(2, 17):
            trees.append(sum(trees[k - 1] * trees[m - k - 1] for k in range(1, m)))
        grammar = generate.grammar(5, 0, [[pair(0, 0)] + [word(i) for i in range(5)]])
        totals = [count * 5**m for m, count in enumerate(trees, 1)]
        self.assertEqual(oracle.rank(grammar, bytes([4] * 16)), (0, 4 * sum(totals[:15]) + 4, totals[15], trees[15]))


class Histories(unittest.TestCase):
    """Document 01, Diary bytes, and Log in Operations."""

    def test_size(self):
        self.assertEqual(oracle.check_history(EMPTY), (0, 0))
        for bad in (b'', b'\0', b'\0\0', b'\0\0\0', HEARD_01[:-1], bytes([233, 3, 0, 0]) + bytes(20 * 1001)):
            self.assertEqual(oracle.check_history(bad), (11, 0))

    def test_a_thousand_records(self):
        numbers = Rng(1).shuffled(range(1, 1001))
        full = history([bytes([1])] * 1000, numbers)
        self.assertEqual(oracle.check_history(full), (0, 1000))
        self.assertEqual(oracle.append(full + bytes(40), b'\1', 0, 0), (19, 0, full + bytes(40)))

    def test_record_layout(self):
        for at, value in [(6, 0), (6, 17), (6, 1), (7, 2), (10, 1), (23, 255)]:
            self.assertEqual(oracle.check_history(generate.damaged(HEARD_01, [(at, value)])), (12, 0))

    def test_records_before_links_before_the_chain(self):
        two = history([b'\1', b'\2'])
        self.assertEqual(oracle.check_history(generate.damaged(two, [(2, 3), (27, 1)])), (12, 0))
        self.assertEqual(oracle.check_history(generate.damaged(two, [(4, 1), (24, 3)])), (13, 0))
        self.assertEqual(oracle.check_history(generate.damaged(two, [(24, 1)])), (14, 0))
        self.assertEqual(oracle.check_history(generate.damaged(two, [(2, 2)])), (14, 0))

    def test_slack_is_not_read(self):
        self.assertEqual(oracle.check_history(HEARD_01 + b'\377' * 33), (0, 1))

    def test_append(self):
        room = b'\11' * 20
        after = bytes([2, 0, 2, 0]) + HEARD_01[4:] + bytes([1, 0, 2, 0, 3, 255]) + bytes(14) + b'\11'
        self.assertEqual(oracle.append(HEARD_01 + room + b'\11', bytes([3, 255]), 0, 0), (0, 2, after))
        self.assertEqual(oracle.sentences_of(after), [(0, 0, bytes([3, 255])), (0, 0, bytes([0, 1]))])

    def test_append_room(self):
        self.assertEqual(oracle.append(EMPTY + bytes(19), b'\1', 0, 0), (19, 0, EMPTY + bytes(19)))
        self.assertEqual(oracle.append(EMPTY + bytes(20), b'\1', 0, 0)[:2], (0, 1))

    def test_append_refuses_the_length_first(self):
        self.assertEqual(oracle.append(b'', b'', 0, 0), (9, 0, b''))
        self.assertEqual(oracle.append(b'', bytes(17), 0, 0), (9, 0, b''))
        self.assertEqual(oracle.append(b'', b'\1', 0, 0), (11, 0, b''))

    def test_appends_grow_the_history(self):
        buffer, said, rng = EMPTY + b'\125' * 205, [], Rng(2)
        for k in range(1, 11):
            sentence = bytes(rng.below(256) for _ in range(1 + rng.below(16)))
            played = rng.below(len(sentence))
            refusal, figure, buffer = oracle.append(buffer, sentence, k, played)
            said.insert(0, (k, played, sentence))
            self.assertEqual((refusal, figure, oracle.sentences_of(buffer)), (0, k, said))
        self.assertEqual(oracle.append(buffer, b'\1', 0, 0), (19, 0, buffer))


class Voices(unittest.TestCase):
    """Document 02, U4: "A sentence is heard only if words and voice both agree"."""

    def test_the_byte_that_log_writes(self):
        for voice in range(16):
            refusal, k, buffer = oracle.append(EMPTY + b'\7' * 20, b'\5', voice, 0)
            self.assertEqual((refusal, k, buffer), (0, 1, bytes([1, 0, 1, 0, 0, 0, 1, 16 * voice, 5]) + bytes(15)))

    def test_every_fourth_byte(self):
        for value in range(256):
            refusal = oracle.check_history(generate.damaged(HEARD_01, [(7, value)]))[0]
            self.assertEqual(refusal, 0 if value in (*range(0, 256, 16), *range(1, 256, 16)) else 12)

    def test_a_sentence_in_one_voice(self):
        heard = history([bytes([0, 1])], voices=[9])
        for voice in range(16):
            self.assertEqual(oracle.remaining(F, heard, 2, voice), (0, 4, 1, 3) if voice == 9 else (0, 4, 0, 4))
        self.assertEqual(oracle.draw(F, heard, 2, 9, 1, bytes(2)), (0, 3, 2, bytes([1, 0])))
        self.assertEqual(oracle.draw(F, heard, 2, 8, 1, bytes(2)), (0, 4, 1, bytes([0, 1])))

    def test_the_same_words_in_several_voices(self):
        """Repeated, and beside others: each voice has its own."""
        said = [(3, bytes([0, 1])), (0, bytes([0, 1])), (3, bytes([0, 1])), (15, bytes([1, 1])), (0, bytes([1, 0])), (3, bytes([2, 2]))]
        heard = history([sentence for _, sentence in said], [4, 6, 1, 2, 5, 3], voices=[voice for voice, _ in said])
        for voice, count in {0: 2, 3: 1, 15: 1, 1: 0, 14: 0}.items():
            self.assertEqual(oracle.remaining(F, heard, 2, voice), (0, 4, count, 4 - count))

    def test_an_ambiguous_sentence_in_another_voice(self):
        heard = history([bytes(3)], voices=[4])
        for voice in range(16):
            self.assertEqual(oracle.remaining(G, heard, 3, voice)[0], 15 if voice == 4 else 0)
            self.assertEqual(oracle.draw(G, heard, 3, voice, 0, bytes(3))[0], 15 if voice == 4 else 0)

    def test_old_diaries_read_as_voice_0(self):
        self.assertEqual(oracle.remaining(F, HEARD_01, 2, 0), (0, 4, 1, 3))
        for voice in range(1, 16):
            self.assertEqual(oracle.remaining(F, HEARD_01, 2, voice), (0, 4, 0, 4))
        other = history([bytes([0, 1])], voices=[1])
        self.assertEqual(oracle.listing(listing_input(2, F, other)), b'2 4 0 4\n0 0 0 0\n1 1 0 1\n2 2 1 0\n3 3 1 1\n')

    def test_voices_above_15(self):
        """After 9, and before 10 in Left and Draw and before 11 in Log."""
        large = oracle.f_words(16)
        for voice in (16, 17, 255, 256, 2**32, 2**63, PAST):
            self.assertEqual(oracle.remaining(large, b'', 16, voice), (22, 0, 0, 0))
            self.assertEqual(oracle.draw(large, b'', 16, voice, PAST, b'\7'), (22, 0, 0, b'\7'))
            self.assertEqual(oracle.append(b'\7', b'\1', voice, 0), (22, 0, b'\7'))
            self.assertEqual(oracle.remaining(large, b'', 17, voice), (9, 0, 0, 0))
            self.assertEqual(oracle.draw(F[:-1], b'', 2, voice, 0, b''), (3, 0, 0, b''))
            self.assertEqual(oracle.append(b'\7', b'', voice, 0), (9, 0, b'\7'))
        self.assertEqual(oracle.remaining(large, b'', 16, 15), (10, 0, 0, 0))
        self.assertEqual(oracle.append(b'\7', b'\1', 15, 0), (11, 0, b'\7'))


class Playbacks(unittest.TestCase):
    """Document 02, U5: "Only a record played in full makes a sentence heard"."""

    def test_the_byte_that_log_writes(self):
        for length in range(1, 17):
            for voice in (0, 9, 15):
                for played in range(length):
                    sentence = bytes([5]) * length
                    after = bytes([1, 0, 1, 0, 0, 0, length, 16 * voice + played]) + sentence + bytes(16 - length)
                    self.assertEqual(oracle.append(EMPTY + b'\7' * 20, sentence, voice, played), (0, 1, after))

    def test_every_figure_of_every_length(self):
        """In a record by 12, handed to Log by 23: the length itself is refused, and one word allows only 0."""
        for length in range(1, 17):
            sentence = bytes([5]) * length
            for figure in range(16):
                for voice in (0, 7, 15):
                    diary = history([sentence], voices=[voice], played=[figure])
                    self.assertEqual(oracle.check_history(diary), (0, 1) if figure < length else (12, 0))
                    self.assertEqual(oracle.append(EMPTY + bytes(20), sentence, voice, figure)[0], 0 if figure < length else 23)
        for figure in (16, 17, 255, 256, 2**32, 2**63, PAST):
            self.assertEqual(oracle.append(EMPTY + bytes(20), bytes(16), 0, figure), (23, 0, EMPTY + bytes(20)))

    def test_a_sentence_broken_off_and_in_full(self):
        """In either order, and in another voice."""
        said = bytes([0, 1])
        for played, count in [([1], 0), ([0], 1), ([1, 0], 1), ([0, 1], 1), ([1, 1], 0), ([1, 0, 1, 0], 1)]:
            diary = history([said] * len(played), played=played)
            self.assertEqual(oracle.remaining(F, diary, 2, 0), (0, 4, count, 4 - count))
            self.assertEqual(oracle.remaining(F, diary, 2, 1), (0, 4, 0, 4))
        apart = history([said, said], voices=[3, 4], played=[0, 1])
        self.assertEqual([oracle.remaining(F, apart, 2, voice)[2] for voice in range(16)], [0, 0, 0, 1] + [0] * 12)
        self.assertEqual(oracle.draw(F, apart, 2, 4, 1, bytes(2)), (0, 4, 1, said))
        self.assertEqual(oracle.draw(F, apart, 2, 3, 1, bytes(2)), (0, 3, 2, bytes([1, 0])))

    def test_an_ambiguous_sentence_broken_off(self):
        for played, refusal in [([1], 0), ([2], 0), ([1, 2], 0), ([0], 15), ([1, 0], 15), ([0, 2], 15)]:
            diary = history([bytes(3)] * len(played), played=played)
            self.assertEqual(oracle.remaining(G, diary, 3, 0), (15, 0, 0, 0) if refusal else (0, 2, 0, 2))
            self.assertEqual(oracle.draw(G, diary, 3, 0, 1, bytes(3)), (15, 0, 0, bytes(3)) if refusal else (0, 2, 1, bytes(3)))
            self.assertEqual(oracle.remaining(G, diary, 3, 1), (0, 2, 0, 2))

    def test_a_broken_off_record_stands_on_the_chain(self):
        diary = history([bytes([0, 1]), bytes([1, 1]), bytes([1, 0])], [3, 1, 2], played=[1, 0, 1]) + bytes(20)
        self.assertEqual(oracle.check_history(diary), (0, 3))
        self.assertEqual(oracle.sentences_of(diary), [(0, 1, bytes([0, 1])), (0, 0, bytes([1, 1])), (0, 1, bytes([1, 0]))])
        self.assertEqual(oracle.check_history(generate.damaged(diary, [(2, 1)])), (14, 0))
        refusal, k, after = oracle.append(diary, bytes([0, 0]), 0, 0)
        self.assertEqual((refusal, k, after[4:64]), (0, 4, diary[4:64]))

    def test_figures_that_are_too_large(self):
        """23 comes after 9 and 22, and before 11."""
        for figure in (2, 3, 15, 16, 255, 256, 2**32, 2**63, PAST):
            self.assertEqual(oracle.append(b'\7', b'\1\1', 15, figure), (23, 0, b'\7'))
            self.assertEqual(oracle.append(b'\7', b'\1\1', 16, figure), (22, 0, b'\7'))
            self.assertEqual(oracle.append(b'\7', b'', 0, figure), (9, 0, b'\7'))
            self.assertEqual(oracle.append(EMPTY, b'\1\1', 0, figure), (23, 0, EMPTY))
        self.assertEqual(oracle.append(b'\7', b'', 0, 0), (9, 0, b'\7'))
        self.assertEqual(oracle.append(b'\7', b'\1\1', 0, 1), (11, 0, b'\7'))

    def test_the_listing_passes_over_what_was_broken_off(self):
        diary = history([bytes([0, 1]), bytes([1, 1])], played=[1, 0])
        self.assertEqual(oracle.listing(listing_input(2, F, diary)), b'2 4 1 3\n0 0 0 0\n1 1 0 1\n2 2 1 0\n')


class Patterns(unittest.TestCase):
    """Document 02, U1: "Only derivations whose sentence fits the pattern are counted and drawn, in the old order"."""

    def check_draws(self, grammar, diary, pattern, draws, voice=0):
        """These derivation numbers and sentences are all that Draw gives."""
        for q, (number, sentence) in enumerate(draws):
            answer = oracle.draw_matching(grammar, diary, pattern, voice, q, b'\7' * 17)
            self.assertEqual(answer, (0, len(draws), number, sentence + b'\7' * (17 - len(pattern))))
        for q in (len(draws), PAST):
            self.assertEqual(oracle.draw_matching(grammar, diary, pattern, voice, q, b'\7' * 17), (16, 0, 0, b'\7' * 17))

    def test_what_fits(self):
        """A blank is a byte of the pattern alone: a word 255 fits it, and no other byte."""
        for sentence, pattern, fits in [(b'\0\1', b'\0\1', True), (b'\0\1', b'\377\1', True), (b'\0\1', b'\377\377', True), (b'\0\1', b'\1\377', False),
                                        (b'\0\1', b'\0\376', False), (b'\377\1', b'\377\1', True), (b'\377\1', b'\0\1', False), (b'\0', b'\0\377', False),
                                        (b'\0\1', b'\0', False)]:
            self.assertEqual(oracle.fits(sentence, pattern), fits, (sentence, pattern))

    def test_some_blanks(self):
        pattern = bytes([255, 1, 255])
        self.assertEqual(oracle.remaining_matching(F, EMPTY, pattern, 0), (0, 4, 0, 4))
        self.check_draws(F, EMPTY, pattern, [(2, b'\0\1\0'), (3, b'\0\1\1'), (6, b'\1\1\0'), (7, b'\1\1\1')])

    def test_heard_sentences_that_fit_and_others(self):
        """Repeated, of another length, foreign, and with the word 255, which no pattern byte but a blank is."""
        said = [b'\1\1\0', b'\0\0\1', b'\1\1\0', b'\1\1', b'\0\1\2', b'\377\1\0', b'\1\0\0']
        diary = history(said, [3, 1, 7, 2, 6, 5, 4])
        self.assertEqual(oracle.remaining(F, diary, 3, 0), (0, 8, 3, 5))
        self.assertEqual(oracle.remaining_matching(F, diary, bytes([255, 1, 255]), 0), (0, 4, 1, 3))
        self.check_draws(F, diary, bytes([255, 1, 255]), [(2, b'\0\1\0'), (3, b'\0\1\1'), (7, b'\1\1\1')])
        self.assertEqual(oracle.remaining_matching(F, diary, bytes([0, 1, 255]), 0), (0, 2, 0, 2))
        self.check_draws(F, diary, bytes([0, 1, 255]), [(2, b'\0\1\0'), (3, b'\0\1\1')])
        self.assertEqual(oracle.remaining_matching(F, diary, bytes([255, 1, 0]), 0), (0, 2, 1, 1))

    def test_the_derivation_number_is_that_of_give(self):
        matrix, pattern = oracle.matrix(), bytes([3, 255, 24, 31, 255])
        self.assertEqual(oracle.remaining_matching(matrix, EMPTY, pattern, 0), (0, 100, 0, 100))
        for q in range(100):
            number = 30410 + 1000 * (q // 10) + q % 10
            sentence = bytes([3, 10 + q // 10, 24, 31, 40 + q % 10])
            self.assertEqual(oracle.draw_matching(matrix, EMPTY, pattern, 0, q, bytes(5)), (0, 100, number, sentence))
            self.assertEqual(oracle.unrank(matrix, 5, number, bytes(5)), (0, 100000, sentence))

    def test_without_a_blank(self):
        """Left is how many derivations the sentence has, or 0 if it is heard."""
        self.assertEqual(oracle.remaining_matching(F, EMPTY, b'\0\1', 0), (0, 1, 0, 1))
        self.assertEqual(oracle.remaining_matching(F, HEARD_01, b'\0\1', 0), (0, 1, 1, 0))
        self.assertEqual(oracle.remaining_matching(F, EMPTY, b'\0', 0), (0, 0, 0, 0))
        for name, (grammar, sentences) in generate.ambiguous().items():
            for sentence, (number, _, count) in sentences.items():
                with self.subTest(name, sentence=sentence):
                    self.assertEqual(oracle.remaining_matching(grammar, EMPTY, sentence, 0), (0, count, 0, count))
                    first = oracle.draw_matching(grammar, EMPTY, sentence, 0, 0, bytes(16))
                    self.assertEqual(first, (0, count, number, sentence + bytes(16 - len(sentence))))
                    heard = oracle.remaining_matching(grammar, history([sentence]), sentence, 0)
                    self.assertEqual(heard, (0, 1, 1, 0) if count == 1 else (15, 0, 0, 0))

    def test_blanks_only(self):
        """They agree with the plain calls on every input: no place and seventeen, refused ones, other voices, large counts."""
        broken = history([bytes([0, 1])], voices=[3], played=[1])
        met = set()
        for grammar in (F, G, F[:-1], b'', oracle.matrix(), oracle.f_words(16), generate.brimful()):
            for diary in (EMPTY, HEARD_01, broken, history([bytes(3)]), b'', bytes([0, 0, 1, 0])):
                for length in (0, 1, 2, 3, 5, 15, 16, 17):
                    if grammar == G and length > 5:
                        continue
                    for voice in (0, 3, 16):
                        plain = oracle.remaining(grammar, diary, length, voice)
                        self.assertEqual(oracle.remaining_matching(grammar, diary, b'\377' * length, voice), plain)
                        met.add(plain[0])
                        for q in {0, 1, plain[3] // 2, max(plain[3], 1) - 1, plain[3], PAST}:
                            for buffer in (b'\7' * 18, b'\7'):
                                plain = oracle.draw(grammar, diary, length, voice, q, buffer)
                                self.assertEqual(oracle.draw_matching(grammar, diary, b'\377' * length, voice, q, buffer), plain)
                                met.add(plain[0])
        self.assertEqual(met, {0, 1, 3, 9, 10, 11, 13, 15, 16, 20, 22})

    def test_an_ambiguous_sentence_that_does_not_fit(self):
        """15 still reads it; where it was broken off, in another voice or of another length it does not."""
        grammar, ones = generate.ambiguous()['every tree'][0], bytes([1, 1, 1])
        for diary, voice, refusal in [(history([bytes(3)]), 0, 15), (history([bytes(3)], played=[1]), 0, 0),
                                      (history([bytes(3)], voices=[4]), 0, 0), (history([bytes(3)], voices=[4]), 4, 15),
                                      (history([bytes(2)]), 0, 0)]:
            given = (refusal, 0, 0, 0) if refusal else (0, 2, 0, 2)
            self.assertEqual(oracle.remaining_matching(grammar, diary, ones, voice), given)
            self.assertEqual(oracle.draw_matching(grammar, diary, ones, voice, PAST, b'\7'), (refusal or 16, 0, 0, b'\7'))

    def test_voices_and_what_was_broken_off(self):
        diary = history([b'\0\1', b'\1\1', b'\1\0'], [2, 3, 1], voices=[9, 9, 9], played=[0, 1, 0])
        self.assertEqual(oracle.remaining_matching(F, diary, b'\377\1', 9), (0, 2, 1, 1))
        self.check_draws(F, diary, b'\377\1', [(3, b'\1\1')], 9)
        self.assertEqual(oracle.remaining_matching(F, diary, b'\377\1', 8), (0, 2, 0, 2))
        self.check_draws(F, diary, b'\377\1', [(1, b'\0\1'), (3, b'\1\1')], 8)

    def test_every_byte(self):
        """21 where it is W or more and not 255; a bank of 255 words has no such byte."""
        for words, bytes_tried in [(2, range(256)), (15, range(256)), (253, [0, 1, 252, 253, 254, 255])]:
            grammar = oracle.f_words(words)
            for byte in bytes_tried:
                for pattern in (bytes([byte, 255]), bytes([0, byte])):
                    refused = words <= byte < 255
                    total = words ** list(pattern).count(255)
                    answer = oracle.remaining_matching(grammar, EMPTY, pattern, 0)
                    self.assertEqual(answer, (21, 0, 0, 0) if refused else (0, total, 0, total))
        full = generate.grammar(255, 0, [[word(a) for a in range(255)]])
        self.assertEqual({oracle.remaining_matching(full, EMPTY, bytes([byte]), 0) for byte in range(255)}, {(0, 1, 0, 1)})
        self.assertEqual(oracle.remaining_matching(full, EMPTY, b'\377', 0), (0, 255, 0, 255))

    def test_order_of_refusals(self):
        """9, 22, 10, 21, 11: each before the next, and 16 and 20 last."""
        large, bad = oracle.f_words(16), bytes([254]) * 17
        for grammar, pattern, voice, refusal in [
                (large[:-1], b'', 16, 3), (large, b'', 16, 9), (large, bad, 16, 9), (large, bad[:16], 16, 22), (large, bad[:16], 15, 10),
                (large, bytes(16), 0, 10), (large, bad[:15], 15, 21), (large, bytes([16] + [255] * 14), 0, 21), (large, bytes(15), 15, 11)]:
            self.assertEqual(oracle.remaining_matching(grammar, b'', pattern, voice), (refusal, 0, 0, 0))
            self.assertEqual(oracle.draw_matching(grammar, b'', pattern, voice, PAST, b'\7'), (refusal, 0, 0, b'\7'))
        for diary, q, refusal in [(bytes([0, 0, 1, 0]), PAST, 13), (EMPTY, 1, 16), (EMPTY, 0, 20), (history([b'\1\1']), 0, 16)]:
            self.assertEqual(oracle.draw_matching(F, diary, b'\1\1', 0, q, b'\7'), (refusal, 0, 0, b'\7'))

    def test_ten_reads_the_plain_counts(self):
        """A pattern that leaves one sentence of 2^64 and more doesn't help; a count that isn't needed doesn't matter."""
        self.assertEqual(oracle.remaining_matching(oracle.f_words(16), EMPTY, bytes(16), 0), (10, 0, 0, 0))
        self.assertEqual(oracle.remaining_matching(generate.brimful(1), EMPTY, bytes([16] * 16), 0), (10, 0, 0, 0))
        for name, (grammar, refused) in generate.reaching().items():
            for length in range(1, 17):
                with self.subTest(name, length=length):
                    self.assertEqual(oracle.remaining_matching(grammar, b'', bytes(length), 0)[0], 10 if length in refused else 11)

    def test_large_counts(self):
        """By the counts: all but the first word open in 15^16, and the last sentences of 2^64 - 1."""
        grammar, pattern = oracle.f_words(15), bytes([14] + [255] * 15)
        heard = history([bytes([14] * 16), bytes([13] * 16), bytes([14] + [0] * 15)])
        self.assertEqual(oracle.remaining_matching(grammar, heard, pattern, 0), (0, 15**15, 2, 15**15 - 2))
        first = oracle.draw_matching(grammar, heard, pattern, 0, 0, bytes(16))
        self.assertEqual(first, (0, 15**15 - 2, 14 * 15**15 + 1, bytes([14] + [0] * 14 + [1])))
        last = oracle.draw_matching(grammar, heard, pattern, 0, 15**15 - 3, bytes(16))
        self.assertEqual(last, (0, 15**15 - 2, 15**16 - 2, bytes([14] * 15 + [13])))
        full = generate.brimful()
        _, _, sentence = oracle.unrank(full, 16, PAST - 1, bytes(16))
        self.assertEqual(oracle.draw_matching(full, EMPTY, sentence, 0, 0, bytes(16)), (0, 1, PAST - 1, sentence))
        self.assertEqual(oracle.draw_matching(full, EMPTY, b'\377' * 16, 0, PAST - 1, bytes(16)), (0, PAST, PAST - 1, sentence))


class Weights(unittest.TestCase):
    """Document 02, U7: "Derivations take that many consecutive tickets each, in the old order, heard ones none"."""

    def check_owners(self, grammar, diary, length, weights, owners, voice=0):
        """These derivation numbers, sentences and weights are all that Draw with weights gives, one after the other."""
        total = sum(weight for *_, weight in owners)
        first = 0
        for number, sentence, weight in owners:
            for ticket in sorted({first, first + 1, first + weight // 2, first + weight - 2, first + weight - 1} & {*range(first, first + weight)}):
                answer = oracle.draw_weighted(grammar, diary, length, voice, weights, ticket, b'\7' * 17)
                self.assertEqual(answer, (0, total, number, sentence + b'\7' * (17 - length)), ticket)
            first += weight
        for ticket in {total, PAST}:
            self.assertEqual(oracle.draw_weighted(grammar, diary, length, voice, weights, ticket, b'\7' * 17), (16, 0, 0, b'\7' * 17))

    def test_every_sentence_of_f(self):
        weights = bytes([3, 2])
        self.check_owners(F, EMPTY, 2, weights, [(0, b'\0\0', 9), (1, b'\0\1', 6), (2, b'\1\0', 6), (3, b'\1\1', 4)])
        self.check_owners(F, HEARD_01, 2, weights, [(0, b'\0\0', 9), (2, b'\1\0', 6), (3, b'\1\1', 4)])
        self.check_owners(F, HEARD_01, 2, weights, [(0, b'\0\0', 9), (1, b'\0\1', 6), (2, b'\1\0', 6), (3, b'\1\1', 4)], voice=1)
        self.check_owners(F, EMPTY, 1, weights, [])
        self.check_owners(F, history([bytes([0, 0]), bytes([1, 1]), bytes([0, 0])]), 2, bytes([255, 1]), [(1, b'\0\1', 255), (2, b'\1\0', 255)])

    def test_the_remainder_is_not_the_right_halfs_ticket(self):
        """The left word weighs 3: its nine tickets are three of each ticket of the right half, not the three in turn."""
        given = [oracle.draw_weighted(F, EMPTY, 2, 0, bytes([3, 1]), ticket, bytes(2))[2] for ticket in range(16)]
        self.assertEqual(given, [0] * 9 + [1] * 3 + [2] * 3 + [3])

    def test_the_house_bank(self):
        """Words 3 and 45 weigh 20 and 5: the first group 29, the last one 14. The sentences before word 3 weigh 14,000 for each word."""
        weights = generate.damaged(b'\1' * 50, [(3, 20), (45, 5)])
        heard = history([bytes([3, 11, 24, 31, 45]), bytes([0, 10, 20, 30, 40])])
        for ticket, number, sentence in [(0, 1, [0, 10, 20, 30, 41]), (4, 5, [0, 10, 20, 30, 45]), (8, 5, [0, 10, 20, 30, 45]), (9, 6, [0, 10, 20, 30, 46]),
                                         (41998, 29999, [2, 19, 29, 39, 49]), (41999, 30000, [3, 10, 20, 30, 40]), (42018, 30000, [3, 10, 20, 30, 40]),
                                         (42019, 30001, [3, 10, 20, 30, 41]), (405898, 99999, [9, 19, 29, 39, 49])]:
            self.assertEqual(oracle.draw_weighted(oracle.matrix(), heard, 5, 0, weights, ticket, bytes(5)), (0, 405899, number, bytes(sentence)))
        self.assertEqual(oracle.draw_weighted(oracle.matrix(), heard, 5, 0, weights, 405899, bytes(5)), (16, 0, 0, bytes(5)))

    def test_ambiguous_sentences(self):
        """Each derivation owns its own tickets, also where two have one sentence."""
        self.check_owners(G, EMPTY, 3, bytes([2]), [(0, bytes(3), 8), (1, bytes(3), 8)])
        grammar, sentences = generate.ambiguous()['by the chain']
        self.check_owners(grammar, EMPTY, 2, bytes([3, 5]), [(0, b'\1\0', 15), (1, b'\0\0', 9), (2, b'\0\0', 9)])
        self.check_owners(grammar, history([b'\1\0']), 2, bytes([3, 5]), [(1, b'\0\0', 9), (2, b'\0\0', 9)])
        self.assertEqual(oracle.draw_weighted(grammar, history([b'\0\0']), 2, 0, bytes([3, 5]), PAST, b''), (15, 0, 0, b''))

    def test_heard_means_what_it_means_for_the_plain_draw(self):
        """In the voice, played in full, with one derivation; repeated ones once; words that have no weight bar nothing."""
        said = [b'\1\1\0', b'\0\0\1', b'\1\1\0', b'\1\1', b'\0\1\2', b'\377\1\0', b'\1\0\0', b'\0\0\0']
        diary = history(said, [3, 1, 7, 2, 6, 5, 4, 8], voices=[9, 9, 9, 9, 9, 9, 9, 4], played=[0, 0, 0, 0, 0, 0, 1, 0])
        weighed = [(d, bytes([d >> 2, d >> 1 & 1, d & 1]), 3 ** (3 - d.bit_count()) * 2 ** d.bit_count()) for d in range(8)]
        self.check_owners(F, diary, 3, bytes([3, 2]), [entry for entry in weighed if entry[0] not in (1, 6)], voice=9)
        self.check_owners(F, diary, 3, bytes([3, 2]), weighed[1:], voice=4)
        self.check_owners(F, diary, 3, bytes([3, 2]), weighed)

    def test_ones(self):
        """They agree with the plain draw on every input: refused ones, other voices, large counts, no length and seventeen."""
        broken, met = history([bytes([0, 1])], voices=[3], played=[1]), set()
        for grammar in (F, G, F[:-1], b'', oracle.matrix(), oracle.f_words(16), generate.brimful()):
            weights = b'\1' * (grammar[1] if grammar else 0)
            for diary in (EMPTY, HEARD_01, broken, history([bytes(3)]), b'', bytes([0, 0, 1, 0])):
                for length in (0, 1, 2, 3, 5, 15, 16, 17):
                    if grammar == G and length > 5:
                        continue
                    for voice in (0, 3, 16):
                        left = oracle.remaining(grammar, diary, length, voice)[3]
                        for q in {0, 1, left // 2, max(left, 1) - 1, left, PAST}:
                            for buffer in (b'\7' * 18, b'\7'):
                                plain = oracle.draw(grammar, diary, length, voice, q, buffer)
                                self.assertEqual(oracle.draw_weighted(grammar, diary, length, voice, weights, q, buffer), plain)
                                met.add(plain[0])
        self.assertEqual(met, {0, 1, 3, 9, 10, 11, 13, 15, 16, 20, 22})

    def test_how_many_weights(self):
        """24 where they are not W bytes; every W, and one less and one more."""
        for words in (1, 2, 3, 50, 127, 128, 253):
            grammar = oracle.f_words(words)
            for size in {0, 1, words - 1, words, words + 1, 2 * words, 254, 255, 256, 256 + words}:
                refusal = oracle.draw_weighted(grammar, EMPTY, 2, 0, b'\2' * size, 0, bytes(2))[0]
                self.assertEqual(refusal, 0 if size == words else 24, (words, size))

    def test_a_weight_of_0(self):
        """24 wherever it stands, for a word that no rule has too; such a word's weight makes no other difference."""
        for words in (2, 5, 255):
            grammar = generate.damaged(F, [(1, words)])
            self.assertEqual(oracle.check_grammar(grammar), (0, 2, words))
            for place in range(words):
                weights = generate.damaged(b'\2' * words, [(place, 0)])
                self.assertEqual(oracle.draw_weighted(grammar, EMPTY, 2, 0, weights, 0, b'\7\7'), (24, 0, 0, b'\7\7'))
            for value in (1, 7, 255):
                weights = bytes([3, 2]) + bytes([value]) * (words - 2)
                self.assertEqual(oracle.draw_weighted(grammar, HEARD_01, 2, 0, weights, 14, bytes(2)), (0, 19, 2, b'\1\0'))

    def test_order_of_refusals(self):
        """9, 22, 10, 24, 25, 11: each before the next, and 15, 16 and 20 after them."""
        large = oracle.f_words(16)
        for grammar, length, voice, weights, refusal in [
                (large[:-1], 0, 16, b'', 3), (large, 0, 16, b'', 9), (large, 17, 16, b'', 9), (large, 16, 16, b'', 22), (large, 16, 15, b'', 10),
                (large, 16, 15, bytes([255] * 16), 10), (large, 15, 15, bytes([255] * 15 + [0]), 24), (large, 15, 15, bytes([255] * 17), 24),
                (large, 15, 15, bytes([255] * 16), 25), (large, 15, 15, bytes([1] * 16), 11)]:
            self.assertEqual(oracle.draw_weighted(grammar, b'', length, voice, weights, PAST, b'\7'), (refusal, 0, 0, b'\7'))
        for diary, ticket, refusal in [(bytes([0, 0, 1, 0]), PAST, 13), (EMPTY, 25, 16), (EMPTY, 24, 20), (HEARD_01, 19, 16), (HEARD_01, 18, 20)]:
            self.assertEqual(oracle.draw_weighted(F, diary, 2, 0, bytes([3, 2]), ticket, b'\7'), (refusal, 0, 0, b'\7'))
        self.assertEqual(oracle.draw_weighted(G, history([bytes(3)]), 3, 0, b'\2', PAST, b''), (15, 0, 0, b''))
        self.assertEqual(oracle.draw_weighted(G, history([bytes(9)]), 9, 0, b'\377', PAST, b''), (25, 0, 0, b''))

    def test_as_many_tickets_as_there_can_be(self):
        """2^64 - 1 of them; one more is 25, also where a heard derivation has it."""
        weights = [255 * two * four * eight for two in (256, 1) for four in (65536, 1) for eight in (2**32, 1)]
        self.assertEqual(sum(weights), PAST)
        sentences = [bytes([0, 1] + two * 2 + four * 4 + eight * 8) for two in ([2], [3]) for four in ([2], [3]) for eight in ([2], [3])]
        first = 0
        for number, (weight, sentence) in enumerate(zip(weights, sentences)):
            for ticket in (first, first + weight - 1):
                answer = oracle.draw_weighted(generate.laden(), EMPTY, 16, 0, generate.LADEN, ticket, bytes(16))
                self.assertEqual(answer, (0, PAST, number, sentence))
            first += weight
        self.assertEqual(oracle.draw_weighted(generate.laden(), EMPTY, 16, 0, generate.LADEN, PAST, bytes(16)), (16, 0, 0, bytes(16)))
        for diary in (EMPTY, history([b'\3' * 16]), history([sentences[0]])):
            self.assertEqual(oracle.draw_weighted(generate.laden(1), diary, 16, 0, generate.LADEN, 0, bytes(16)), (25, 0, 0, bytes(16)))
        heard = history([sentences[0], sentences[7]])
        answer = oracle.draw_weighted(generate.laden(), heard, 16, 0, generate.LADEN, weights[1], bytes(16))
        self.assertEqual(answer, (0, PAST - weights[0] - 255, 2, sentences[2]))

    def test_large_totals(self):
        """By the total weights: word 14 of 15 weighs 200, so a word of eight weighs 214 in all. First none is heard, then sentences at the
        beginning, in the middle and at the end."""
        grammar, weights, total = oracle.f_words(15), b'\1' * 14 + b'\310', 214**8
        middle, first, last = bytes([14] + [0] * 7), 14 * 214**7, bytes([14] * 8)
        behind, before_last = bytes([14] + [0] * 6 + [1]), bytes([14] * 7 + [13])
        for heard, lost, owners in [
                ([], 0, [(0, 0, bytes(8)), (1, 1, bytes([0] * 7 + [1])), (first, 14 * 15**7, middle), (first + 199, 14 * 15**7, middle),
                         (first + 200, 14 * 15**7 + 1, behind), (total - 200**8, 15**8 - 1, last), (total - 200**8 - 1, 15**8 - 2, before_last)]),
                ([bytes(8), middle], 201, [(0, 1, bytes([0] * 7 + [1])), (first - 1, 14 * 15**7 + 1, behind), (total - 202, 15**8 - 1, last)]),
                ([last, bytes([14] * 6), bytes([15] * 8), last, middle], 200**8 + 200, [(first, 14 * 15**7 + 1, behind), (0, 0, bytes(8)),
                                                                                       (total - 200**8 - 201, 15**8 - 2, before_last)])]:
            diary = history(heard, range(len(heard), 0, -1))
            for ticket, number, sentence in owners:
                self.assertEqual(oracle.draw_weighted(grammar, diary, 8, 0, weights, ticket, bytes(8)), (0, total - lost, number, sentence))
            self.assertEqual(oracle.draw_weighted(grammar, diary, 8, 0, weights, total - lost, bytes(8)), (16, 0, 0, bytes(8)))

    def test_only_total_weights_of_needed_pairs_must_fit(self):
        heavy = generate.damaged(b'\1' * 240, [(239, 255)])
        for name, (grammar, refused) in generate.reaching([239]).items():
            with self.subTest(name):
                for length in range(1, 17):
                    total = oracle.count(grammar, length)[1]
                    self.assertEqual(oracle.draw_weighted(grammar, b'', length, 0, heavy, PAST, b'')[0], 25 if length in refused else 11)
                    self.assertEqual(oracle.draw_weighted(grammar, b'', length, 0, b'\1' * 240, PAST, b'')[0], 11)
                    if length not in refused:
                        answer = oracle.draw_weighted(grammar, EMPTY, length, 0, heavy, 0, bytes(length))
                        self.assertEqual(answer[:2], (0, total) if total else (16, 0))
        for extra in (0, 1):
            for length in range(1, 17):
                answer = oracle.draw_weighted(generate.beside_nothing(extra), EMPTY, length, 0, generate.BESIDE, 0, bytes(16))
                accepted = (0, 1, 0, b'\5' * length + bytes(16 - length)) if length in (1, 9) else (16, 0, 0, bytes(16))
                self.assertEqual(answer, (25, 0, 0, bytes(16)) if extra and length >= 9 else accepted)


class OneMoreLog(unittest.TestCase):
    """Document 02, U14: "Suppose draw q gives a sentence with just one derivation, and that sentence is logged in the same voice,
    played in full"."""

    def asked(self, *question):
        return Asked(lambda name, *args: getattr(oracle, name)(*args), *question)

    def small(self):
        return (self.asked(*question) for question in questions(Rng(8), 250))

    def test_worked_out_by_hand(self):
        """0 0, 1 0 and 1 1 are left of F, and the second is logged; it is the first of what begins with 1."""
        refusal, _, after = oracle.append(HEARD_01 + bytes(20), b'\1\0', 0, 0)
        self.assertEqual((refusal, oracle.remaining(F, after, 2, 0)), (0, (0, 4, 2, 2)))
        draws = [oracle.draw(F, after, 2, 0, q, b'\7\7') for q in (0, 1, 2, PAST)]
        self.assertEqual(draws, [(0, 2, 0, b'\0\0'), (0, 2, 3, b'\1\1'), (16, 0, 0, b'\7\7'), (16, 0, 0, b'\7\7')])
        self.assertEqual(oracle.remaining_matching(F, after, b'\1\377', 0), (0, 2, 1, 1))
        draws = [oracle.draw_matching(F, after, b'\1\377', 0, q, b'\7\7') for q in (0, 1, PAST)]
        self.assertEqual(draws, [(0, 1, 3, b'\1\1'), (16, 0, 0, b'\7\7'), (16, 0, 0, b'\7\7')])

    def test_every_draw(self):
        """Each that gives a sentence with just one derivation; where there is no room, 19 leaves the history as it was."""
        kinds = collections.Counter()
        for asked in self.small():
            _, _, heard, left = asked.left()
            for q in asked.all_once():
                refusal, after = asked.log(q)
                if refusal:
                    self.assertEqual((refusal, after.diary), (19, asked.diary))
                    kinds['no room'] += 1
                else:
                    check_moved(self, asked, after, q)
                    kinds.update({'logged': 1, 'some heard': heard > 0, 'draws on both sides': 0 < q < left - 1, 'pattern': asked.suffix != ''})
        self.assertGreater(min(kinds[kind] for kind in ('logged', 'no room', 'some heard', 'draws on both sides', 'pattern')), 300, kinds)

    def test_a_sentence_with_two_derivations_is_not_covered(self):
        tried = 0
        for asked in self.small():
            for q in itertools.filterfalse(asked.once, range(asked.left()[3])):
                refusal, after = asked.log(q)
                if refusal == 0:
                    self.assertEqual((after.left(), after.draw(PAST, 0)), ((15, 0, 0, 0), (15, 0, 0, b'')))
                    tried += 1
        self.assertGreater(tried, 400)

    def test_a_log_in_another_voice_or_broken_off_moves_nothing(self):
        """Whatever was drawn."""
        rng, kinds = Rng(10), collections.Counter()
        for asked in self.small():
            for q in range(asked.left()[3]):
                voice, played = rng.choice([(9 - asked.voice, 0), (15, 0), (asked.voice, 1), (asked.voice, asked.length - 1)])
                refusal, after = asked.log(q, voice, played)
                if refusal == 0 and (voice, played) != (asked.voice, 0):
                    check_unmoved(self, asked, after)
                    kinds['broken off' if played else 'voice'] += 1
        self.assertGreater(min(kinds['voice'], kinds['broken off']), 1000, kinds)

    def test_draw_0_again_and_again(self):
        """The unheard list in order, each entry once, as far as there is room; a sentence with two derivations is passed over."""
        ends = collections.Counter()
        for asked in self.small():
            _, total, heard, left = asked.left()
            logged, end, last = play(self, asked)
            many = len(logged)
            self.assertEqual((end, last.left()), (16 if many == len([*asked.all_once()]) else 19, (0, total, heard + many, left - many)))
            ends.update({end: many > 0, 'nothing left': many == left > 2, 'passed over': 0 < many < left and end == 16})
        self.assertGreater(min(ends[end] for end in (16, 19, 'nothing left', 'passed over')), 25, ends)

    def test_large_counts(self):
        """Logged by itself: the first draws, the middle one and the last; and one after another until there is no room."""
        lefts = []
        for asked in (self.asked(*question) for question in large_questions()):
            left = asked.left()[3]
            check_alone(self, asked, [0, 1, left // 2, left - 2, left - 1])
            logged, end, _ = play(self, asked, rng=Rng(9))
            self.assertEqual((len(logged), end), (4, 19))
            lefts.append(left)
        self.assertEqual(lefts, [15**16 - 3, 15**15 - 2, 15**15 - 2, PAST, 16**8 + 1])


class Listings(unittest.TestCase):
    """Document 01, House bank and listing program."""

    def test_short_inputs_count_as_an_empty_grammar(self):
        whole = listing_input(2, F, EMPTY)
        for size in range(3 + len(F)):
            self.assertEqual(oracle.listing(whole[:size]), b'refused 1\n')
        self.assertEqual(oracle.listing(whole[:3 + len(F)]), b'refused 11\n')
        self.assertEqual(oracle.listing(listing_input(2, F, EMPTY))[:8], b'2 4 0 4\n')

    def test_refusals(self):
        self.assertEqual(oracle.listing(listing_input(0, F, EMPTY)), b'refused 9\n')
        self.assertEqual(oracle.listing(listing_input(3, G, history([bytes(3)]))), b'refused 15\n')

    def test_no_line_past_draw_999(self):
        lines = oracle.listing(listing_input(10, F, EMPTY)).splitlines()
        self.assertEqual((lines[0], len(lines)), (b'10 1024 0 1024', 1001))
        self.assertEqual(lines[-1], b'999 999 1 1 1 1 1 0 0 1 1 1')

    def test_at_most_65536_bytes_are_read(self):
        heard = history([bytes([1, 1])], slack=bytes(65536))
        self.assertEqual(oracle.listing(listing_input(2, F, heard))[:8], b'2 4 1 3\n')
        self.assertEqual(oracle.listing(b'\2\376\377' + bytes(70000)), b'refused 1\n')

    def test_draws_are_the_lines(self):
        heard = history([bytes([1, 0, 1]), bytes([0, 0, 0]), bytes([9, 9, 9])])
        lines = oracle.listing(listing_input(3, F, heard)).decode().splitlines()
        for q, line in enumerate(lines[1:]):
            refusal, _, number, sentence = oracle.draw(F, heard, 3, 0, q, bytes(3))
            self.assertEqual((refusal, line), (0, ' '.join(map(str, [q, number, *sentence]))))
        self.assertEqual(len(lines), 7)


def chain_numbers(grammar, nonterminal):
    """The rule numbers along a nonterminal's chain, read off the bytes."""
    numbers, at = [], grammar[4 + nonterminal]
    while at:
        numbers.append(at)
        at = grammar[4 + grammar[0] + 4 * at - 1]
    return numbers


def parts(grammar, number):
    """A rule's kind, a and b, read off the bytes."""
    at = 4 + grammar[0] + 4 * (number - 1)
    return tuple(grammar[at:at + 3])


def is_derivation(grammar, nonterminal, length, tree):
    """Derivations and their order: what a derivation is."""
    if tree.rule not in chain_numbers(grammar, nonterminal):
        return False
    kind, a, b = parts(grammar, tree.rule)
    if length == 1:
        return kind == 0 and len(tree) == 2 and tree.word == a
    return (kind == 1 and 1 <= tree.k <= length - 1 and is_derivation(grammar, a, tree.k, tree.left)
            and is_derivation(grammar, b, length - tree.k, tree.right))


def stands_before(grammar, nonterminal, x, y):
    """Derivations and their order: the four cases of the order."""
    numbers = chain_numbers(grammar, nonterminal)
    if x.rule != y.rule:
        return numbers.index(x.rule) < numbers.index(y.rule)
    if len(x) == 2:
        return False
    _, a, b = parts(grammar, x.rule)
    if x.k != y.k:
        return x.k < y.k
    if x.left != y.left:
        return stands_before(grammar, a, x.left, y.left)
    return stands_before(grammar, b, x.right, y.right)


def random_patterns(rng, words, sentences, length):
    """Blanks only, a sentence and one with blanks, any bytes that are let pass, and each word in one place."""
    yield b'\377' * length
    for _ in range(3 if sentences else 0):
        sentence = rng.choice(sentences)
        yield sentence
        yield bytes(rng.choice([255, byte]) for byte in sentence)
    yield bytes(rng.choice([255, rng.below(words)]) for _ in range(length))
    place, byte = rng.below(length), rng.below(words)
    yield b'\377' * place + bytes([byte]) + b'\377' * (length - place - 1)


def random_weights(rng, words):
    """Ones, small ones, large ones, and ones with a large one among them."""
    yield b'\1' * words
    yield bytes(1 + rng.below(3) for _ in range(words))
    yield bytes(1 + rng.below(255) for _ in range(words))
    yield generate.damaged(b'\1' * words, [(rng.below(words), 1 + rng.below(255))])


def ways_down(read, a, m):
    """Each pair on each way down from (a, m), as often as a way leads to it: document 02's U2, step by step."""
    yield a, m
    for _, b, c, k in read.splits(a, m):
        yield from ways_down(read, b, k)
        yield from ways_down(read, c, m - k)


class SmallGrammars(unittest.TestCase):
    """Some hundred random grammars, each nonterminal and each length that has few derivations."""

    @classmethod
    def setUpClass(cls):
        rng = Rng(3)
        cls.grammars = [random_grammar(rng, 4, 4, 9) for _ in range(300)] + [F, G]

    def lists(self, most):
        """Each grammar with each length up to 6 at which no nonterminal has more derivations than most."""
        for grammar in self.grammars:
            for length in range(1, 7):
                if max(oracle.read(grammar).totals(length)) <= most:
                    yield grammar, length

    def test_random_grammars_are_accepted_and_varied(self):
        self.assertEqual({oracle.check_grammar(grammar)[0] for grammar in self.grammars}, {0})
        cases = list(self.lists(500))
        self.assertGreater(len(cases), 1000)
        self.assertGreater(sum(oracle.count(*case)[1] > 10 for case in cases), 50)

    def test_ten_with_a_lowered_bound(self):
        tried = 0
        for grammar, length in self.lists(200):
            if length > 4:
                continue
            read = oracle.read(grammar)
            most = max(len(read.derivations(a, m)) for a, m in ways_down(read, read.start, length))
            for bound in (most - 1, most):
                with unittest.mock.patch.object(oracle, 'MOST', bound):
                    self.assertEqual(oracle.count(grammar, length)[0], 10 if bound < most else 0)
            largest = max(len(read.derivations(a, m)) for a in range(grammar[0]) for m in range(1, length + 1))
            tried += largest > most
        self.assertGreater(tried, 100)  # so often a pair that isn't needed has more derivations

    def test_the_recursion_counts_the_list(self):
        for grammar, length in self.lists(5000):
            read = oracle.read(grammar)
            for nonterminal in range(grammar[0]):
                self.assertEqual(read.total(nonterminal, length), len(read.derivations(nonterminal, length)))

    def test_the_list_holds_derivations_strictly_rising(self):
        for grammar, length in self.lists(200):
            for nonterminal in range(grammar[0]):
                trees = oracle.read(grammar).derivations(nonterminal, length)
                self.assertTrue(all(is_derivation(grammar, nonterminal, length, tree) for tree in trees))
                self.assertTrue(all(stands_before(grammar, nonterminal, x, y) for x, y in zip(trees, trees[1:])))

    def test_the_order_is_total_on_all_pairs(self):
        for grammar, length in self.lists(12):
            trees = oracle.read(grammar).derivations(grammar[3], length)
            for i, x in enumerate(trees):
                for j, y in enumerate(trees):
                    self.assertEqual(stands_before(grammar, grammar[3], x, y), i < j)

    def test_unrank_and_rank(self):
        for grammar, length in self.lists(300):
            trees = oracle.read(grammar).derivations(grammar[3], length)
            sentences = [oracle.sentence_of(tree) for tree in trees]
            for d, sentence in enumerate(sentences):
                self.assertEqual(oracle.unrank(grammar, length, d, bytes(length)), (0, len(trees), sentence))
                expected = (0, sentences.index(sentence), len(trees), sentences.count(sentence))
                self.assertEqual(oracle.rank(grammar, sentence), expected)

    def test_the_lowest_number_is_that_of_the_derivation_that_stands_before_the_others(self):
        several = 0
        for grammar, length in self.lists(60):
            trees = oracle.read(grammar).derivations(grammar[3], length)
            for sentence in {oracle.sentence_of(tree) for tree in trees}:
                own = [tree for tree in trees if oracle.sentence_of(tree) == sentence]
                refusal, number, _, count = oracle.rank(grammar, sentence)
                self.assertEqual((refusal, count), (0, len(own)))
                self.assertIn(trees[number], own)
                self.assertTrue(all(tree == trees[number] or stands_before(grammar, grammar[3], trees[number], tree) for tree in own))
                several += count >= 2
        self.assertGreater(several, 100)

    def test_counts_give_what_the_list_gives(self):
        rng = Rng(4)
        for grammar, length in self.lists(300):
            listed, counted = oracle.Listed(oracle.read(grammar), length), oracle.Counted(oracle.read(grammar), length)
            self.assertEqual(listed.total, counted.total)
            for d, sentence in enumerate(listed.entries):
                self.assertEqual(counted.sentence(d), sentence)
                self.assertEqual(counted.count(sentence), listed.count(sentence))
                self.assertEqual(counted.number(sentence), listed.entries.index(sentence))
            foreign = bytes(rng.below(grammar[1] + 1) for _ in range(length))
            self.assertEqual(counted.count(foreign), listed.count(foreign))
            once = [sentence for sentence in listed.places if listed.count(sentence) == 1]
            heard = frozenset(rng.shuffled(once)[:rng.below(len(once) + 1)] + [b'\377' * length])
            self.assertEqual(counted.left(heard), listed.left(heard))
            for q in range(listed.left(heard)):
                self.assertEqual(counted.draw(heard, q), listed.draw(heard, q))

    def test_counts_give_what_the_list_gives_of_a_pattern(self):
        rng, tried = Rng(6), 0
        for grammar, length in self.lists(300):
            listed, counted = oracle.Listed(oracle.read(grammar), length), oracle.Counted(oracle.read(grammar), length)
            once = [sentence for sentence in listed.places if listed.count(sentence) == 1]
            heard = frozenset(rng.shuffled(once)[:rng.below(len(once) + 1)] + [b'\377' * length])
            for pattern in random_patterns(rng, grammar[1], listed.entries, length):
                self.assertEqual(counted.total_fitting(pattern), listed.total_fitting(pattern))
                left = listed.left_fitting(heard, pattern)
                self.assertEqual(counted.left_fitting(heard, pattern), left)
                for q in range(left):
                    self.assertEqual(counted.draw_fitting(heard, pattern, q), listed.draw_fitting(heard, pattern, q))
                tried += 0 < left < listed.total_fitting(pattern) < listed.total
        self.assertGreater(tried, 100)  # so often only a part fits, and only a part of that is heard

    def test_the_draws_with_a_pattern_are_what_fits_of_the_unheard_list(self):
        """With the test of a place written apart from the program."""
        rng, kinds = Rng(7), collections.Counter()
        for grammar, length in self.lists(60):
            sentences = [oracle.sentence_of(tree) for tree in oracle.read(grammar).derivations(grammar[3], length)]
            once = [sentence for sentence in sentences if sentences.count(sentence) == 1]
            records = [rng.choice(once) for _ in range(rng.below(6)) if once] + [b'\377' * length, b'\0' * (length % 16 + 1)]
            voices = [rng.choice([0, 7]) for _ in records]
            played = [rng.choice([0, rng.below(len(record))]) for record in records]
            diary = history(records, rng.shuffled(range(1, len(records) + 1)), voices=voices, played=played)
            for pattern in random_patterns(rng, grammar[1], sentences, length):
                fixed = {place: byte for place, byte in enumerate(pattern) if byte < 255}
                fitting = [(d, sentence) for d, sentence in enumerate(sentences) if all(sentence[place] == fixed[place] for place in fixed)]
                for voice in (0, 7):
                    own = [sentence for sentence, said, figure in zip(records, voices, played) if said == voice and figure == 0]
                    unheard = [(d, sentence) for d, sentence in fitting if sentence not in own]
                    left = len(unheard)
                    answer = oracle.remaining_matching(grammar, diary, pattern, voice)
                    self.assertEqual(answer, (0, len(fitting), len(fitting) - left, left))
                    draws = [oracle.draw_matching(grammar, diary, pattern, voice, q, b'\7' * 17) for q in range(left)]
                    self.assertEqual(draws, [(0, left, d, sentence + b'\7' * (17 - length)) for d, sentence in unheard])
                    for q in (left, left + 1, PAST):
                        self.assertEqual(oracle.draw_matching(grammar, diary, pattern, voice, q, b'\7' * 17), (16, 0, 0, b'\7' * 17))
                    kinds.update({'some fit': 0 < len(fitting) < len(sentences), 'some of them heard': 0 < left < len(fitting),
                                  'others heard': any(sentence in own for sentence in {*once} - {fit for _, fit in fitting})})
        self.assertGreater(min(kinds[kind] for kind in ('some fit', 'some of them heard', 'others heard')), 300, kinds)

    def test_counts_give_what_the_list_gives_of_weights(self):
        """Total weights and owners: by the tickets as one list, by the derivations as a list, and by the total weights."""
        rng, tried = Rng(9), 0
        for grammar, length in self.lists(100):
            read = oracle.read(grammar)
            listed, counted = oracle.Listed(read, length), oracle.Counted(read, length)
            once = [sentence for sentence in listed.places if listed.count(sentence) == 1]
            heard = frozenset(rng.shuffled(once)[:rng.below(len(once) + 1)] + [b'\377' * length])
            for weights in random_weights(rng, grammar[1]):
                for a, m in read.needed(length):
                    weighed = [oracle.weight_of(oracle.sentence_of(tree), weights) for tree in read.derivations(a, m)]
                    self.assertEqual(read.weight(a, m, weights), sum(weighed))
                tickets = listed.tickets(heard, weights)
                self.assertEqual(counted.tickets(heard, weights), tickets)
                short = tickets <= 60
                for ticket in range(tickets) if short else sorted({0, tickets - 1, *(rng.below(tickets) for _ in range(20))}):
                    owner = counted.owner(heard, weights, ticket)
                    with unittest.mock.patch.object(oracle, 'HANDED_OUT', 0):
                        self.assertEqual(listed.owner(heard, weights, ticket), owner)
                    if tickets <= 5000:
                        self.assertEqual(listed.owners(heard, weights)[ticket], owner)
                tried += 0 < tickets < read.weight(read.start, length, weights) and len(set(weights)) > 1
        self.assertGreater(tried, 200)  # so often there are several weights, and only a part is heard

    def test_twenty_five_with_a_lowered_bound(self):
        """It reads the needed pairs alone, and comes after 24."""
        rng, tried, refused = Rng(11), 0, 0
        for grammar, length in self.lists(100):
            if length > 4:
                continue
            read = oracle.read(grammar)
            for weights in random_weights(rng, grammar[1]):
                def weigh(a, m):
                    return sum(oracle.weight_of(oracle.sentence_of(tree), weights) for tree in read.derivations(a, m))
                most = max(weigh(a, m) for a, m in ways_down(read, read.start, length))
                counts = max(read.totals(length))
                for bound in (most - 1, most):
                    with unittest.mock.patch.object(oracle, 'MOST', bound):
                        refusal = oracle.draw_weighted(grammar, b'', length, 0, weights, 0, b'')[0]
                        self.assertEqual(refusal, 10 if bound < counts else 25 if bound < most else 11)
                        self.assertEqual(oracle.draw_weighted(grammar, b'', length, 0, weights[1:], 0, b'')[0], 10 if bound < counts else 24)
                        refused += refusal == 25
                tried += max(weigh(a, m) for a in range(grammar[0]) for m in range(1, length + 1)) > most
        self.assertGreater(min(tried, refused), 300)  # so often a pair that isn't needed weighs more, and 25 is the answer

    def test_each_unheard_derivation_owns_its_weight(self):
        """The law of document 02, U7, as one list of tickets: consecutive ones, as many as the product of the weights, in the old order; heard
        derivations own none, and the total is how many there are. With ones the tickets are the draws."""
        rng, kinds = Rng(12), collections.Counter()
        for grammar, length in self.lists(40):
            sentences = [oracle.sentence_of(tree) for tree in oracle.read(grammar).derivations(grammar[3], length)]
            once = [sentence for sentence in sentences if sentences.count(sentence) == 1]
            records = [rng.choice(once) for _ in range(rng.below(6)) if once] + [b'\377' * length, b'\0' * (length % 16 + 1)]
            voices = [rng.choice([0, 7]) for _ in records]
            played = [rng.choice([0, rng.below(len(record))]) for record in records]
            diary = history(records, rng.shuffled(range(1, len(records) + 1)), voices=voices, played=played)
            small = bytes(1 + rng.below(3) for _ in range(grammar[1]))
            for weights, voice in [(small, 0), (small, 7), (b'\1' * grammar[1], 0), (generate.damaged(b'\1' * grammar[1], [(rng.below(grammar[1]), 5)]), 7)]:
                own = [sentence for sentence, said, figure in zip(records, voices, played) if said == voice and figure == 0]
                owners = []
                for d, sentence in enumerate(sentences):
                    weight = 1
                    for byte in sentence:
                        weight *= weights[byte]
                    owners += [(d, sentence)] * (0 if sentence in own else weight)
                total = len(owners)
                if total > 250:
                    continue
                given = [oracle.draw_weighted(grammar, diary, length, voice, weights, ticket, b'\7' * 17) for ticket in range(total)]
                self.assertEqual(given, [(0, total, d, sentence + b'\7' * (17 - length)) for d, sentence in owners])
                for ticket in (total, total + 1, PAST):
                    self.assertEqual(oracle.draw_weighted(grammar, diary, length, voice, weights, ticket, b'\7' * 17), (16, 0, 0, b'\7' * 17))
                if set(weights) == {1}:
                    self.assertEqual(given, [oracle.draw(grammar, diary, length, voice, q, b'\7' * 17) for q in range(total)])
                    self.assertEqual(oracle.remaining(grammar, diary, length, voice)[3], total)
                heard = any(sentence in own for sentence in sentences)
                kinds.update({'several weights': total > 0 and len(set(weights)) > 1, 'some heard': total > 0 and heard, 'all heard': total == 0 and heard,
                              'ambiguous': total > 0 and len({*sentences}) < len(sentences)})
        self.assertGreater(min(kinds[kind] for kind in ('several weights', 'some heard', 'all heard', 'ambiguous')), 100, kinds)

    def test_the_draws_are_the_unheard_list(self):
        rng = Rng(5)
        for grammar, length in self.lists(60):
            sentences = [oracle.sentence_of(tree) for tree in oracle.read(grammar).derivations(grammar[3], length)]
            once = [sentence for sentence in sentences if sentences.count(sentence) == 1]
            records = [rng.choice(once) for _ in range(rng.below(6)) if once] + [b'\377' * length, b'\0' * (length % 16 + 1)]
            voices = [rng.choice([0, 7, 15]) for _ in records]
            played = [rng.choice([0, rng.below(len(record))]) for record in records]
            diary = history(records, rng.shuffled(range(1, len(records) + 1)), voices=voices, played=played)
            for voice in (0, 7, 8):
                own = [sentence for sentence, said, figure in zip(records, voices, played) if said == voice and figure == 0]
                unheard = [(d, sentence) for d, sentence in enumerate(sentences) if sentence not in own]
                left = len(unheard)
                self.assertEqual(oracle.remaining(grammar, diary, length, voice), (0, len(sentences), len(sentences) - left, left))
                draws = [oracle.draw(grammar, diary, length, voice, q, b'\7' * 17) for q in range(left)]
                self.assertEqual(draws, [(0, left, d, sentence + b'\7' * (17 - length)) for d, sentence in unheard])
                for q in (left, left + 1, PAST):
                    self.assertEqual(oracle.draw(grammar, diary, length, voice, q, b'\7' * 17), (16, 0, 0, b'\7' * 17))


if __name__ == '__main__':
    unittest.main()
