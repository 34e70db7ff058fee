"""Tests of what C sees: the header, every call of the archive against the brute-force program, also one after another on what the
library wrote, and the two example programs.

They need target/staticlib/libpumpfennel.a, which tools/build library writes, and compilers for C and C++: cc and c++,
or what CC and CXX name.
"""
import collections
import functools
import itertools
import math
import os
import pathlib
import re
import shlex
import subprocess
import tempfile
import unittest
import unittest.mock

import listings
import oracle
import vectors
from generate import (BESIDE, LADEN, Rng, ambiguous, beside_nothing, brimful, damaged, grammar, history, laden, pair, random_damage,
                      reaching, word)
from one_more_log import Asked, check_alone, check_unmoved, large_questions, play, questions
from oracle import F, G

ROOT = pathlib.Path(__file__).resolve().parent.parent
HEADER = ROOT / 'include' / 'pumpfennel.h'
ARCHIVE = ROOT / 'target' / 'staticlib' / 'libpumpfennel.a'
STRICT = ['-Wall', '-Wextra', '-Werror']
MOST = oracle.MOST
CALLS = ['check_grammar', 'check_history', 'count', 'unrank', 'rank', 'remaining', 'remaining_matching', 'draw', 'draw_matching', 'draw_weighted',
         'append']
BLANK = oracle.BLANK


def run(*words, given=None):
    return subprocess.run(words, input=given, capture_output=True)


def compiler(variable, default):
    return shlex.split(os.environ.get(variable, default))


def compiled(*words):
    """Compiles with the strict warnings, and shows what was said where that fails."""
    ran = run(*words, *STRICT, '-I', HEADER.parent)
    if ran.returncode != 0:
        raise AssertionError(ran.stderr.decode())


def limit(name):
    """A number that the header defines."""
    return int(re.search(rf'^#define PUMPFENNEL_{name} (\d+)$', HEADER.read_text(), re.M)[1])


def linked(test, source, standard, *more):
    """The program from a source file and the archive."""
    if not ARCHIVE.exists():
        raise AssertionError('there is no archive: tools/build library writes it')
    holder = tempfile.TemporaryDirectory()
    test.addClassCleanup(holder.cleanup)
    program = pathlib.Path(holder.name, 'program')
    compiled(*compiler('CC', 'cc'), f'-std={standard}', '-pedantic', '-O2', source, ARCHIVE, *more, '-o', program)
    return program


class Header(unittest.TestCase):
    def check_compiles(self, command, language, standard):
        with tempfile.TemporaryDirectory() as name:
            source = pathlib.Path(name, f'twice.{language}')
            source.write_text('#include "pumpfennel.h"\n#include "pumpfennel.h"\n')
            compiled(*command, f'-std={standard}', '-pedantic', '-fsyntax-only', source)

    def test_c99(self):
        self.check_compiles(compiler('CC', 'cc'), 'c', 'c99')

    def test_c11(self):
        self.check_compiles(compiler('CC', 'cc'), 'c', 'c11')

    def test_cpp17(self):
        self.check_compiles(compiler('CXX', 'c++'), 'cpp', 'c++17')

    def test_from_cpp(self):
        """A program in C++ finds the archive's names."""
        with tempfile.TemporaryDirectory() as name:
            source, program = pathlib.Path(name, 'count.cpp'), pathlib.Path(name, 'count')
            source.write_text('#include "pumpfennel.h"\n#include <cstdio>\nint main() {\n'
                              f'    const uint8_t grammar[] = {{{", ".join(map(str, F))}}};\n    uint64_t total;\n'
                              '    if (pumpfennel_count(grammar, sizeof grammar, 16, &total) != PUMPFENNEL_ACCEPTED) return 1;\n'
                              '    std::printf("%llu\\n", static_cast<unsigned long long>(total));\n}\n')
            compiled(*compiler('CXX', 'c++'), '-std=c++17', source, ARCHIVE, '-o', program)
            self.assertEqual(run(program).stdout, b'65536\n')

    def test_every_refusal_by_its_name(self):
        """A call made by hand is refused with each name, and its text has the words that it should."""
        ran = run(linked(self, ROOT / 'tests' / 'refusals.c', 'c99'))
        self.assertEqual((ran.returncode, ran.stderr.decode()), (0, ''))
        numbers = re.findall(r'^    PUMPFENNEL_\w+ = (\d+),?$', HEADER.read_text(), re.M)
        self.assertEqual(ran.stdout.decode().split(), numbers)

    def test_one_version(self):
        """In the header, the archive and the binding."""
        with tempfile.TemporaryDirectory() as name:
            source = pathlib.Path(name, 'version.c')
            source.write_text('#include "pumpfennel.h"\n#include <stdio.h>\nint main(void) {\n'
                              '    printf("%s %d ", PUMPFENNEL_VERSION, PUMPFENNEL_VERSION_NUMBER);\n'
                              '    printf("%d\\n", (int)pumpfennel_version());\n'
                              '    return 0;\n}\n')
            version, number, archive = run(linked(self, source, 'c99')).stdout.decode().split()
        major, minor, patch = map(int, version.split('.'))
        self.assertEqual((int(number), int(archive)), (10000 * major + 100 * minor + patch,) * 2)
        self.assertEqual(version + '\n', (ROOT / 'VERSION').read_text())
        cargo = (ROOT / 'bindings' / 'rust' / 'Cargo.toml').read_text()
        self.assertEqual(re.findall('^version = "(.*)"$', cargo, re.M), [version])

    def test_an_object_of_another_interface_does_not_link(self):
        """The linker says which name is missing, although every call that is made is there; also where it drops unreferenced data."""
        text = HEADER.read_text()
        name = re.search(r'^#define PUMPFENNEL_INTERFACE (\w+)$', text, re.M)[1]
        self.assertEqual(name, 'pumpfennel_interface_' + '_'.join((ROOT / 'VERSION').read_text().split('.')[:2]))
        with tempfile.TemporaryDirectory() as folder:
            source, program = pathlib.Path(folder, 'caller.c'), pathlib.Path(folder, 'caller')
            source.write_text('#include "pumpfennel.h"\nint main(void) {\n    uint64_t total;\n'
                              '    return pumpfennel_count(NULL, 0, 1, &total) != PUMPFENNEL_GRAMMAR_TOO_SHORT;\n}\n')
            for header, missing in [(text, False), (text.replace(name, 'pumpfennel_interface_0_2'), True)]:
                pathlib.Path(folder, 'pumpfennel.h').write_text(header)
                for dropping in ([], ['-ffunction-sections', '-fdata-sections', '-Wl,--gc-sections']):
                    ran = run(*compiler('CC', 'cc'), '-O2', *STRICT, *dropping, source, ARCHIVE, '-o', program)
                    self.assertEqual((ran.returncode != 0, b'pumpfennel_interface_0_2' in ran.stderr), (missing, missing), dropping)
                    self.assertTrue(missing or run(program).returncode == 0)

    def test_the_limits(self):
        """They are the largest that the brute-force program accepts; Calls holds the archive to the same."""
        self.assertEqual([oracle.count(F, limit('LONGEST_SENTENCE') + more)[0] for more in (0, 1)], [0, 9])
        self.assertEqual(oracle.check_grammar(largest_bank()), (0, 32, 255))
        self.assertEqual(len(largest_bank()), limit('LARGEST_GRAMMAR'))
        most = limit('MOST_RECORDS')
        self.assertEqual([oracle.check_history(full_diary(most + more))[0] for more in (0, 1)], [0, 11])
        self.assertEqual(len(full_diary(most)), limit('LARGEST_HISTORY'))

    def test_the_calls_are_the_archives(self):
        declared = re.findall(r'^uint\d+_t (pumpfennel_\w+)\(', HEADER.read_text(), re.M)
        self.assertEqual(declared, ['pumpfennel_' + call for call in ['version', *CALLS]])
        interface = re.search(r'^#define PUMPFENNEL_INTERFACE (\w+)$', HEADER.read_text(), re.M)[1]
        names = run('nm', '--extern-only', '--defined-only', ARCHIVE).stdout.decode()
        self.assertEqual(sorted(re.findall(r' [A-Z] (\S+)$', names, re.M)), sorted([*declared, interface]))

    def test_the_archive_keeps_nothing(self):
        """It has no memory of its own that can be written, and takes nothing from the C library but functions on bytes."""
        totals = run('size', '--totals', ARCHIVE).stdout.decode().splitlines()[-1].split()
        self.assertEqual(totals[1:3], ['0', '0'])
        names = run('nm', '--undefined-only', ARCHIVE).stdout.decode()
        self.assertLessEqual(set(re.findall(r' U (\S+)$', names, re.M)), {'memcpy', 'memmove', 'memset', 'memcmp'})


# ---- Every call

def word_of(value):
    return 'x' + value.hex() if isinstance(value, bytes) else str(value)


def value_of(word):
    return bytes.fromhex(word[1:]) if word.startswith('x') else int(word)


def bytes_of(word):
    return b'' if word == 'null' else bytes.fromhex(word[1:])


def call_line(call, *args):
    return ' '.join([call, *map(word_of, args)])


def answer_line(call, *args):
    return ' '.join(map(word_of, getattr(oracle, call)(*args)))


def with_null(line):
    """The same call with NULL for every run of no bytes."""
    return re.sub(r' x(?= |$)', ' null', line)


def in_64_bits(*numbers):
    return sorted({number for number in numbers if 0 <= number <= MOST})


def cases_of(length, bank, diary, voice=0):
    """Every call on a bank, a diary and a voice, at the edges of what it accepts."""
    old = b'\7' * 18
    for size in (16, length, max(length, 1) - 1, 0):
        yield 'unrank', bank, length, 0, old[:size]
        yield 'draw', bank, diary, length, voice, 0, old[:size]
    yield 'check_grammar', bank
    yield 'check_history', diary
    yield 'count', bank, length
    yield 'remaining', bank, diary, length, voice
    for other in (15 - voice, 15, 16, 256 + voice, MOST):
        yield 'remaining', bank, diary, length, other
        yield 'draw', bank, diary, length, other, 0, old
        yield 'append', diary + b'\7' * 21, b'\1' * min(length, 17), other, 0
    for played in in_64_bits(1, min(length, 17) - 1, length, length + 1, 15, 16, 256, MOST):
        yield 'append', diary + b'\7' * 21, b'\1' * min(length, 17), voice, played
    refusal, total, _, left = oracle.remaining(bank, diary, length, voice)
    for number in in_64_bits(1, total // 2, total - 1, total, total + 1, MOST):
        yield 'unrank', bank, length, number, old
    for number in in_64_bits(1, left // 2, left - 1, left, left + 1, total, MOST):
        yield 'draw', bank, diary, length, voice, number, old
    size = min(length, 17)
    sentences = [b'', b'\0' * size, b'\377' * size, bytes(17)]
    if refusal == 0 and total:
        sentences += [oracle.unrank(bank, length, number, bytes(length))[2] for number in (0, total // 2, total - 1)]
    for sentence in sentences:
        yield 'rank', bank, sentence
        yield 'append', diary + b'\7' * 21, sentence, voice, 0
    for slack in (0, 19, 20):
        yield 'append', diary + b'\7' * slack, b'\1' * 16, voice, 0
    blanks = bytes([BLANK]) * size
    for pattern in [blanks, b'', bytes(17), *patterns_of(size, bank, sentences[4:])]:
        yield from matching_cases(bank, diary, pattern, voice)
    for other in (15 - voice, 15, 16, 256 + voice, MOST):
        yield 'remaining_matching', bank, diary, blanks, other
        yield 'draw_matching', bank, diary, blanks, other, 0, old
    for room in (16, length, max(length, 1) - 1, 0):
        yield 'draw_matching', bank, diary, blanks, voice, 0, old[:room]
    ones = vectors.ones(bank)
    for weights in weights_of(len(ones)):
        yield from weighted_cases(bank, diary, length, voice, weights)
    for other in (15 - voice, 15, 16, 256 + voice, MOST):
        yield 'draw_weighted', bank, diary, length, other, ones, 0, old
    for room in (16, length, max(length, 1) - 1, 0):
        yield 'draw_weighted', bank, diary, length, voice, ones, 0, old[:room]
    for number in in_64_bits(left // 2, left - 1, left, left + 1, total):
        yield 'draw_weighted', bank, diary, length, voice, ones, number, old


def weights_of(words):
    """Ones, small ones, any, 255 alone; a 0 at each end; one too few, one too many, and none."""
    yield b'\1' * words
    yield bytes(1 + place % 3 for place in range(words))
    yield bytes(1 + 37 * place % 255 for place in range(words))
    yield b'\377' * words
    for wrong in ([0] + [1] * (words - 1), [1] * (words - 1) + [0], [1] * (words - 1), [1] * (words + 1), []):
        yield bytes(wrong)


def weighted_cases(bank, diary, length, voice, weights, about=()):
    """Draw with weights, at the ends and in the middle of the tickets and about others; a buffer that is too short."""
    tickets = oracle.draw_weighted(bank, diary, length, voice, weights, 0, bytes(16))[1]
    for ticket in in_64_bits(0, 1, tickets // 3, tickets // 2, tickets - 1, tickets, MOST, *about) if tickets else [0]:
        yield 'draw_weighted', bank, diary, length, voice, weights, ticket, b'\7' * 18
    if tickets:
        yield 'draw_weighted', bank, diary, length, voice, weights, 0, b'\7' * (length - 1)


def patterns_of(size, bank, sentences):
    """Sentences, the same with blanks, and with a byte that is the last word, none and 254."""
    for sentence in sentences:
        yield sentence
        yield bytes(BLANK if place % 2 else byte for place, byte in enumerate(sentence))
    for byte in (bank[1] - 1, bank[1], 254) if len(bank) > 1 and bank[1] else ():
        yield (bytes([BLANK]) * size)[1:] + bytes([byte])


def matching_cases(bank, diary, pattern, voice):
    """Left and Draw with a pattern, at the edges of what is left; a buffer that is too short."""
    yield 'remaining_matching', bank, diary, pattern, voice
    left = oracle.remaining_matching(bank, diary, pattern, voice)[3]
    for number in in_64_bits(0, 1, left // 2, left - 1, left, MOST) if left else [0]:
        yield 'draw_matching', bank, diary, pattern, voice, number, b'\7' * 18
    if left:
        yield 'draw_matching', bank, diary, pattern, voice, 0, b'\7' * (len(pattern) - 1)


def deep_banks():
    """Right, left and both: the trees at length 16 have 16 levels. The last has the counts up to 2^64 - 1."""
    words = [word(0), word(1)]
    yield grammar(2, 0, [[pair(1, 1), pair(1, 0)], words])
    yield grammar(2, 0, [[pair(1, 1), pair(0, 1)], words])
    yield grammar(2, 0, [[pair(2, 1), pair(1, 1)], words, [pair(1, 0)]])
    yield brimful()


def largest_bank():
    return grammar(255, 0, [[word(a) for a in range(255)]] + 31 * [[]])


def full_diary(records):
    return history(records * [b'\1'])


def full_diaries():
    """Deep trees, long sentences and a full diary of them: what takes most of the stack."""
    for bank in list(deep_banks())[:3]:
        numbers = [65 * i for i in range(1000)]
        heard = [oracle.unrank(bank, 16, number, bytes(16))[2] for number in numbers]
        yield 'rank', bank, heard[-1]
        yield 'unrank', bank, 16, numbers[-1], bytes(16)
        yield 'remaining', bank, history(heard), 16, 0
        yield 'draw', bank, history(heard), 16, 0, 60000, bytes(16)
        for pattern in (bytes([BLANK]) * 16, heard[-1][:1] + bytes([BLANK]) * 15, heard[-1][:8] + bytes([BLANK]) * 8, heard[-1]):
            yield from matching_cases(bank, history(heard), pattern, 0)
        for weights in (b'\1\1', b'\1\2', b'\7\3'):
            yield from weighted_cases(bank, history(heard), 16, 0, weights)
        yield 'append', history(heard[1:], slack=bytes(20)), heard[0], 0, 0


def voiced_diaries():
    """The same words in several voices and repeated, all sixteen voices in one diary, and what another voice alone has heard."""
    said = [bytes([0, 1])] * 4 + [bytes([1, 1]), bytes([1, 0, 1]), bytes([2, 2])]
    every = [bytes([i & 1, i >> 1 & 1]) for i in range(16)]
    for voice in (0, 1, 7, 8, 15):
        yield from cases_of(2, F, history(said, [3, 1, 7, 2, 5, 4, 6], voices=[voice, 0, voice, 15, voice, voice, voice]), voice)
        yield from cases_of(2, F, history(every * 3, voices=list(range(16)) * 3), voice)
        yield from cases_of(3, G, history([bytes(3), bytes(2)], voices=[voice, 15 - voice]), voice)
        yield from cases_of(3, G, history([bytes(3), bytes(2)], voices=[15 - voice, voice]), voice)
    for bank, sentences in ambiguous().values():
        for sentence in sentences:
            diary = history([sentence, sentence], voices=[3, 12])
            yield from (('remaining', bank, diary, len(sentence), voice) for voice in (0, 3, 12))
    rng = Rng(42)
    matrix = [oracle.unrank(oracle.matrix(), 5, rng.below(300), bytes(5))[2] for _ in range(1000)]
    diary = history(matrix, rng.shuffled(range(1, 1001)), voices=[rng.below(16) for _ in range(1000)])
    for voice in range(16):
        yield 'remaining', oracle.matrix(), diary, 5, voice
        yield from (('draw', oracle.matrix(), diary, 5, voice, q, bytes(5)) for q in (0, 50, 99900))


def broken_off_diaries():
    """Sentences broken off and in full side by side, in either order and in two voices; every figure for every length; ambiguous sentences."""
    said = bytes([0, 1])
    for played in ([1], [1, 0], [0, 1], [1, 1], [1, 0, 1], [0, 1, 0]):
        for voice in (0, 9):
            diary = history([said] * len(played), played=played, voices=[voice] * len(played))
            yield from cases_of(2, F, diary, voice)
            yield from cases_of(2, F, diary, 15 - voice)
    for length in range(1, 17):
        sentence = bytes([1] * length)
        for figure in range(16):
            diary = history([sentence, bytes([0] * length)], [2, 1], played=[figure, 0])
            yield 'check_history', diary
            yield 'remaining', F, diary, length, 0
            yield 'draw', F, diary, length, 0, 2**length - 2, bytes(16)
            yield 'append', history([bytes([0] * length)], slack=b'\7' * 20), sentence, figure, figure
    for bank, sentences in ambiguous().values():
        for sentence in sentences:
            for played in ([len(sentence) - 1], [len(sentence) - 1, 0], [0, len(sentence) // 2]):
                yield 'remaining', bank, history([sentence] * len(played), played=played), len(sentence), 0
    rng = Rng(43)
    matrix = [oracle.unrank(oracle.matrix(), 5, rng.below(300), bytes(5))[2] for _ in range(1000)]
    diary = history(matrix, rng.shuffled(range(1, 1001)), played=[rng.below(5) for _ in range(1000)])
    yield 'remaining', oracle.matrix(), diary, 5, 0
    yield from (('draw', oracle.matrix(), diary, 5, 0, q, bytes(5)) for q in range(0, 100000, 997))


def patterned_diaries():
    """The traps; every pattern of F and every byte of a pattern; carrier phrases of the house bank with diaries of up to a thousand records."""
    for _, _, bank, diary, pattern, voice, q, room in vectors.PATTERN_TRAPS:
        yield 'remaining_matching', bank, diary, pattern, voice
        yield 'draw_matching', bank, diary, pattern, voice, q, b'\7' * room
    for length in (1, 2, 3):
        for pattern in vectors.patterns_of([0, 1, BLANK], length):
            for voice in (0, 5, 15):
                yield from matching_cases(F, vectors.HEARD, pattern, voice)
    for byte in range(256):
        for bank in (F, oracle.matrix(), largest_bank()):
            yield 'remaining_matching', bank, history([bytes([byte])]), bytes([byte]), 0
            yield 'draw_matching', bank, history([bytes([0])]), bytes([byte]), 0, 0, b'\7'
    for bank, sentences in ambiguous().values():
        for sentence in sentences:
            for pattern in patterns_of(len(sentence), bank, [sentence]):
                for diary in (history([]), history([sentence]), history([sentence], voices=[3]), history([sentence], played=[len(sentence) // 2])):
                    yield from matching_cases(bank, diary, pattern, 0)
    rng = Rng(44)
    said = [oracle.unrank(oracle.matrix(), 5, 31000 + rng.below(1000), bytes(5))[2] for _ in range(1000)]
    for many in (1, 99, 100, 101, 1000):
        diary = history(said[:many], rng.shuffled(range(1, many + 1)), voices=[rng.choice([0, 0, 9]) for _ in range(many)])
        for pattern in (bytes([3, BLANK, 24, 31, BLANK]), bytes([3, 11, BLANK, BLANK, BLANK]), bytes([BLANK] * 5), said[0],
                        bytes([BLANK, 3, BLANK, BLANK, BLANK])):
            for voice in (0, 9):
                yield from matching_cases(oracle.matrix(), diary, pattern, voice)


def weighted_diaries():
    """The traps; every ticket of short lists; every weight and every byte of a diary; totals up to 2^64 - 1 and what is needed; the house bank
    with diaries of up to a thousand records."""
    for _, _, bank, diary, length, voice, weights, ticket, room in vectors.WEIGHT_TRAPS:
        yield 'draw_weighted', bank, diary, length, voice, weights, ticket, b'\7' * room
    for weights in (b'\3\2', b'\1\5', b'\4\4'):
        for length in (2, 3):
            for voice in (0, 5, 15):
                tickets = oracle.draw_weighted(F, vectors.HEARD, length, voice, weights, 0, bytes(3))[1]
                yield from (('draw_weighted', F, vectors.HEARD, length, voice, weights, ticket, b'\7' * 4) for ticket in range(tickets + 2))
    for byte in range(256):
        yield from weighted_cases(F, vectors.HEARD, 3, 0, bytes([byte, 2]))
        yield from weighted_cases(F, vectors.HEARD, 3, 0, bytes([7, byte]))
        for bank, weights in ((G, b'\5'), (F, b'\3\2'), (largest_bank(), bytes(1 + 37 * place % 255 for place in range(255)))):
            yield from weighted_cases(bank, history([bytes([byte]), bytes([byte, 1]), bytes([0, byte])], [2, 3, 1]), bank[0] % 2 + 1, 0, weights)
    for bank, sentences in ambiguous().values():
        for sentence in sentences:
            for diary in (history([]), history([sentence]), history([sentence], voices=[3]), history([sentence], played=[len(sentence) // 2])):
                for weights in (vectors.ones(bank), bytes([3, 2, 4][:bank[1]]), bytes([255, 1, 9][:bank[1]])):
                    yield from weighted_cases(bank, diary, len(sentence), 0, weights)
    borders = [sum(vectors.LADEN_WEIGHTS[:i]) + beside for i in range(9) for beside in (-1, 0)]
    for extra in (0, 1):
        for heard in ([], [[2] * 14], [[3] * 14, [3] * 6 + [2] * 8]):
            diary = history([*(bytes([0, 1] + words) for words in heard), vectors.LAST])
            yield from weighted_cases(laden(extra), diary, 16, 0, LADEN, borders)
        for length in range(1, 17):
            yield from weighted_cases(beside_nothing(extra), history([]), length, 0, BESIDE)
    for bank, _ in reaching([vectors.HEAVY]).values():
        for length in range(1, 17):
            yield from weighted_cases(bank, history([]), length, 0, vectors.weighing(240, (vectors.HEAVY, 255)))
    rng = Rng(50)
    said = [oracle.unrank(oracle.matrix(), 5, 31000 + rng.below(1000), bytes(5))[2] for _ in range(1000)]
    for many in (1, 99, 100, 101, 1000):
        voices, played = [rng.choice([0, 0, 9]) for _ in range(many)], [rng.choice([0, 0, 4]) for _ in range(many)]
        diary = history(said[:many], rng.shuffled(range(1, many + 1)), voices=voices, played=played)
        for weights in (vectors.ones(oracle.matrix()), bytes(1 + 37 * place % 255 for place in range(50))):
            for voice in (0, 9):
                tickets = oracle.draw_weighted(oracle.matrix(), diary, 5, voice, weights, 0, bytes(5))[1]
                yield from weighted_cases(oracle.matrix(), diary, 5, voice, weights, [rng.below(tickets) for _ in range(30)])


def sized_diaries():
    """Left and Draw where they take room by size: diaries of up to 23 bytes, 2,004 and more, whatever is slack in them, and sentences of up to
    5 words, 10 and more, each with none, one and some heard."""
    for length in (5, 6, 10, 11):
        said = [bytes(place >> i & 1 for i in range(length)) for place in range(30)]
        for many, sizes in ((0, (4, 23, 24, 2004, 2005)), (1, (24, 43, 44, 2004, 2005)), (30, (604, 2004, 2005))):
            for size in sizes:
                diary = history(said[:many], slack=b'\7' * (size - 4 - 20 * many))
                yield 'remaining', F, diary, length, 0
                left = 2**length - many
                for number in (0, 1, left // 2, left - 1, left):
                    yield 'draw', F, diary, length, 0, number, b'\7' * 18
                for pattern in (bytes([BLANK]) * length, bytes([BLANK, 1]) + bytes([BLANK]) * (length - 2)):
                    yield from matching_cases(F, diary, pattern, 0)
                yield from weighted_cases(F, diary, length, 0, b'\3\2')


def all_cases():
    for length in (1, 2, 3, 16):
        yield from cases_of(length, F, history([bytes([0, 1])]))
    for length in (0, 1, 3, 5, 17, 2**32 + 2, MOST):
        yield from cases_of(length, G, history([bytes(2)]) if length < 18 else history([]))
    for bank in deep_banks():
        for length in (5, 6, 15, 16):
            yield from cases_of(length, bank, history([bytes(length), b'\1' * length]))
    for bank, sentences in ambiguous().values():
        for sentence in sentences:
            yield from cases_of(len(sentence), bank, history([sentence]))
            yield 'rank', bank, sentence
    for bank, _ in reaching().values():
        for length in (3, 8, 9, 10):
            yield from cases_of(length, bank, history([bytes(length)]))
    thousand = [oracle.unrank(oracle.matrix(), 5, 7 * i, bytes(5))[2] for i in range(1000)]
    for many in (0, 1, 999, 1000):
        yield from cases_of(5, oracle.matrix(), history(thousand[:many]))
    yield from full_diaries()
    yield from voiced_diaries()
    yield from broken_off_diaries()
    yield from patterned_diaries()
    yield from weighted_diaries()
    yield from sized_diaries()
    for bank, diary in [(b'', b''), (F, b''), (b'', bytes(4)), (largest_bank(), full_diary(1000)), (F, full_diary(1001))]:
        yield from cases_of(1, bank, diary)
    for _, _, bank in vectors.TRAPS:
        yield 'check_grammar', bank
    for _, _, bank in vectors.defects():
        yield from cases_of(2, bank, history([bytes(2)]))
    for _, _, diary in vectors.HISTORY_TRAPS:
        yield 'check_history', diary
        yield 'append', diary, b'\1\2', 5, 1
        yield 'remaining', F, diary, 2, 0
        yield 'draw', F, diary, 2, 0, 1, bytes(2)
        for pattern in (bytes([BLANK, 1]), bytes([BLANK, BLANK])):
            yield 'remaining_matching', F, diary, pattern, 0
            yield 'draw_matching', F, diary, pattern, 0, 1, bytes(2)
        for weights in (b'\3\2', b'\1\1'):
            yield 'draw_weighted', F, diary, 2, 0, weights, 1, bytes(2)
    rng = Rng(41)
    for length, bank, diary in listings.random_listings(rng, 40):
        yield from cases_of(length, bank, diary)
        for cut in (damaged(bank, [random_damage(rng, bank)]), bank[:-1], b''):
            yield from cases_of(length, cut, diary) if listings.quick(listings.framed(length, cut, diary)) else []
        for cut in (damaged(diary, [random_damage(rng, diary)]), diary[:rng.below(len(diary))]):
            yield from cases_of(length, bank, cut)


class Calls(unittest.TestCase):
    @classmethod
    def setUpClass(cls):
        program = linked(cls, ROOT / 'tests' / 'calls.c', 'c11', '-pthread')
        cls.expected = {call_line(*case): answer_line(*case) for case in all_cases()}
        cls.expected.update({with_null(line): answer for line, answer in cls.expected.items()})
        given = ''.join(line + '\n' for line in cls.expected)
        cls.ran = run(program, given=given.encode())
        cls.lines = cls.ran.stdout.decode().splitlines()

    def test_answers(self):
        self.assertEqual((self.ran.returncode, self.ran.stderr, len(self.lines)), (0, b'', len(self.expected) + 1))
        self.assertGreater(len(self.expected), 4000)
        for (call, expected), line in zip(self.expected.items(), self.lines):
            self.assertEqual(line, expected, call)

    def test_every_refusal_of_every_call_is_there(self):
        met = collections.defaultdict(set)
        for call, line in self.expected.items():
            met[call.split()[0]].add(int(line.split()[0]))
        bank, diary = set(range(9)), {0, 11, 12, 13, 14}
        left = bank | diary | {9, 10, 15, 22}
        self.assertEqual(met, {
            'check_grammar': bank, 'check_history': diary, 'count': bank | {9, 10}, 'unrank': bank | {9, 10, 16, 20},
            'rank': bank | {9, 10, 17}, 'remaining': left, 'remaining_matching': left | {21},
            'draw': left | {16, 20}, 'draw_matching': left | {16, 20, 21}, 'draw_weighted': left | {16, 20, 24, 25},
            'append': diary | {9, 19, 22, 23}})

    def test_blanks_only_answer_as_the_plain_calls(self):
        """With every refusal that both can have."""
        answers, compared = dict(zip(self.expected, self.lines)), collections.Counter()
        for call, line in answers.items():
            name, *args = call.split()
            if name.endswith('_matching') and re.fullmatch('x(ff)*|null', args[2]):
                length = 0 if args[2] == 'null' else len(args[2]) // 2
                plain = ' '.join([name.removesuffix('_matching'), *args[:2], str(length), *args[3:]])
                if plain in answers:
                    self.assertEqual(line, answers[plain], call)
                    compared[name, int(line.split()[0])] += 1
        self.assertEqual({refusal for name, refusal in compared if name == 'remaining_matching'}, {*range(16), 22})
        self.assertEqual({refusal for name, refusal in compared if name == 'draw_matching'}, {*range(17), 20, 22})
        self.assertGreater(sum(compared.values()), 1000)

    def test_without_a_blank_left_is_how_many_derivations_the_sentence_has(self):
        """Or 0 if it is heard; Number says how many."""
        answers, compared = dict(zip(self.expected, self.lines)), collections.Counter()
        for call, line in answers.items():
            name, *args = call.split()
            if name == 'remaining_matching' and 'ff' not in re.findall('..', args[2][1:]) and line.startswith('0 '):
                bank, diary, pattern = (bytes.fromhex(arg[1:]) for arg in args[:3])
                heard = (int(args[3]), 0, pattern) in oracle.sentences_of(diary)
                refusal, _, _, count = map(int, answers.get(call_line('rank', bank, pattern), answer_line('rank', bank, pattern)).split())
                self.assertEqual(int(line.split()[3]), 0 if refusal or heard else count, call)
                compared['none' if refusal else 'heard' if heard else min(count, 2)] += 1
        self.assertGreater(min(compared[kind] for kind in ('none', 'heard', 1, 2)), 10, compared)

    def test_ones_answer_as_the_plain_draw(self):
        """With every refusal that it can have."""
        answers, compared = dict(zip(self.expected, self.lines)), collections.Counter()
        for call, line in answers.items():
            name, *args = call.split()
            if name == 'draw_weighted' and bytes_of(args[4]) == vectors.ones(bytes_of(args[0])):
                plain = ' '.join(['draw', *args[:4], *args[5:]])
                if plain in answers:
                    self.assertEqual(line, answers[plain], call)
                    compared[int(line.split()[0])] += 1
        self.assertEqual(set(compared), {*range(17), 20, 22})
        self.assertGreater(sum(compared.values()), 1000)

    def test_each_derivation_owns_its_weight(self):
        """Of the questions of which all tickets are there: consecutive ones, as many as the product of the words' weights."""
        drawn, owners, several = collections.defaultdict(dict), 0, 0  # by question, each ticket's answer
        for call, line in zip(self.expected, self.lines):
            name, *args = call.split()
            if name == 'draw_weighted' and line.startswith('0 '):
                _, tickets, number, buffer = line.split()
                drawn[tuple(args[:5])][int(args[5])] = int(tickets), int(number), bytes_of(buffer)[:int(args[2])]
        for (*_, weights), given in drawn.items():
            total, weights = next(iter(given.values()))[0], bytes_of(weights)
            if len(given) == total:
                runs = [(*owner, len([*run])) for owner, run in itertools.groupby(given[ticket][1:] for ticket in range(total))]
                self.assertEqual([many for *_, many in runs], [math.prod(weights[word] for word in sentence) for _, sentence, _ in runs])
                numbers = [number for number, *_ in runs]
                self.assertEqual(numbers, sorted(set(numbers)))
                owners += len(runs)
                several += len({many for *_, many in runs}) > 1
        self.assertGreater(min(owners // 20, several), 15, (owners, several))

    def test_null_with_length_0(self):
        """It stood for every pointer that has a length, and the answer was that for a run of no bytes."""
        met = collections.defaultdict(set)
        for call in self.expected:
            name, *args = call.split()
            met[name].update(place for place, arg in enumerate(args) if arg == 'null')
        self.assertEqual(met, {'check_grammar': {0}, 'check_history': {0}, 'count': {0}, 'unrank': {0, 3}, 'rank': {0, 1},
                               'remaining': {0, 1}, 'remaining_matching': {0, 1, 2}, 'draw': {0, 1, 5}, 'draw_matching': {0, 1, 2, 5},
                               'draw_weighted': {0, 1, 4, 6}, 'append': {0, 1}})

    def test_stack(self):
        """No call takes more than the header says, and one of its kind takes more than half of that."""
        used = dict(zip(CALLS, map(int, self.lines[-1].split())))
        matching = {call: used.pop(call) for call in ('remaining_matching', 'draw_matching', 'draw_weighted')}
        large = {call: used.pop(call) for call in ('rank', 'remaining', 'draw')}
        for most, taken in [(limit('MATCHING_STACK'), matching), (limit('LARGE_STACK'), large), (limit('SMALL_STACK'), used)]:
            self.assertLess(max(taken.values()), most, taken)
            self.assertGreater(max(taken.values()), most // 2, taken)


# ---- One log after another

@functools.lru_cache
def counted(bank, length):
    """The full list by counts: written down anew for each of many diaries, a long one would fill the memory."""
    return oracle.Counted(oracle.read(bank), length)


class OneMoreLog(unittest.TestCase):
    """Document 02, U14: what is drawn is logged in the bytes that the library wrote, and drawn from again. Each log moves the library's
    own answers as the request says, and each answer is the brute-force program's."""

    @classmethod
    def setUpClass(cls):
        cls.program = linked(cls, ROOT / 'tests' / 'calls.c', 'c11', '-pthread')

    def setUp(self):
        self.running = subprocess.Popen([self.program], stdin=subprocess.PIPE, stdout=subprocess.PIPE, text=True)
        self.refusals = collections.Counter()

    def tearDown(self):
        self.running.communicate()
        self.assertEqual(self.running.returncode, 0)

    def call(self, *case):
        print(call_line(*case), file=self.running.stdin, flush=True)
        expected = answer_line(*case)
        line = self.running.stdout.readline().rstrip('\n')
        self.assertEqual(line, expected, case)
        refusal, *figures = map(value_of, line.split())
        self.refusals[refusal] += 1
        return refusal, *figures

    def asked(self, *question):
        return Asked(self.call, *question)

    def test_small_banks(self):
        """Draw 0 again and again, or random draws, until nothing is left or there is no room."""
        rng, rounds, ends = Rng(45), collections.Counter(), collections.Counter()
        for asked in (self.asked(*question) for question in questions(rng, 60)):
            mixed = rng.below(2) == 1
            logged, end, _ = play(self, asked, rng=rng if mixed else None)
            self.assertEqual(end, 16 if len(logged) == len([*asked.all_once()]) else 19)
            rounds[asked.suffix, asked.voice, mixed] += len(logged)
            ends[end] += 1
        self.assertEqual(len(rounds), 8)
        self.assertGreater(min(rounds.values()), 30, rounds)
        self.assertGreater(min(ends[16], ends[19]), 50, ends)
        self.assertGreater(min(self.refusals[refusal] for refusal in (16, 19, 20)), 50, self.refusals)

    def test_sentences_with_two_derivations_are_passed_over(self):
        """At the end only such are left; once one of them is logged, Left is refused."""
        for name, length, once, several in [('by the chain', 2, 1, 2), ('beside nothing', 2, 3, 2), ('from the second rule on', 2, 6, 2),
                                            ('both halves', 4, 9, 27), ('every tree', 3, 0, 16)]:
            asked = self.asked(history([], slack=bytes(20 * (once + 1))), ambiguous()[name][0], length, 3)
            logged, end, last = play(self, asked, rng=Rng(49))
            self.assertEqual((len(logged), end, last.left()), (once, 16, (0, once + several, once, several)))
            refusal, after = last.log(several - 1)
            self.assertEqual((refusal, after.left()), (0, (15, 0, 0, 0)))

    def test_several_voices_in_one_diary(self):
        """Each has its own list, first that of a pattern and then the rest; the other voices' logs moved nothing. Then the diary is full."""
        nothing, diary, pattern = history([]), history([], slack=bytes(24 * 20)), bytes([BLANK, 1, BLANK])
        for voice in (0, 5, 15):
            asked = self.asked(diary, F, 3, voice)
            check_unmoved(self, self.asked(nothing, F, 3, voice), asked)
            fitting, end, last = play(self, self.asked(diary, F, pattern, voice))
            others, other_end, last = play(self, self.asked(last.diary, F, 3, voice))
            self.assertEqual((end, other_end, [number for number, _ in fitting + others]), (16, 16, [2, 3, 6, 7, 0, 1, 4, 5]))
            diary = last.diary
        self.assertEqual(play(self, self.asked(diary, F, 3, 1))[:2], ([], 19))

    def test_house_bank(self):
        """From a diary of twenty records: sixty random draws in voice 0, then a carrier phrase in voice 9 until there is no room."""
        rng, bank, carrier = Rng(46), oracle.matrix(), bytes([3, BLANK, 24, 31, BLANK])
        said = [bytes([3, 10 + rng.below(10), 24 + rng.below(2), 31, 40 + rng.below(10)]) for _ in range(20)]
        voices, played = [rng.choice([0, 9]) for _ in said], [rng.choice([0, 0, 4]) for _ in said]
        first = self.asked(history(said, rng.shuffled(range(1, 21)), b'\7' * 2019, voices, played), bank, 5, 0)
        with unittest.mock.patch.object(oracle, 'full_list', counted):
            logged, end, last = play(self, first, 60, rng)
            self.assertEqual((len(logged), end), (60, 0))
            asked = self.asked(last.diary, bank, carrier, 9)
            check_unmoved(self, self.asked(first.diary, bank, carrier, 9), asked)
            logged, end, last = play(self, asked)
            self.assertEqual((len(logged), end), (40, 19))
        self.assertEqual(oracle.check_history(last.diary), (0, 120))

    def test_a_thousand_records(self):
        """All of 1,024 sentences but 25 are heard; there is room for more records, but only one more is logged."""
        rng = Rng(47)
        heard = [oracle.unrank(F, 10, number, bytes(10))[2] for number in rng.shuffled(range(1024))[:999]]
        logged, end, last = play(self, self.asked(history(heard, slack=bytes(60)), F, 10, 0), rng=rng)
        self.assertEqual((len(logged), end, last.left()), (1, 19, (0, 1024, 1000, 24)))

    def test_large_counts(self):
        """Of up to 2^64 - 1 draws the first, the last and random ones."""
        for asked in (self.asked(*question) for question in large_questions()):
            check_alone(self, asked, [0, asked.left()[3] - 1])
            logged, end, _ = play(self, asked, rng=Rng(48))
            self.assertEqual((len(logged), end), (4, 19))


# ---- The readings

class Readings(unittest.TestCase):
    """examples/readings.c lists the sentences that have two or more derivations."""

    @classmethod
    def setUpClass(cls):
        cls.program = linked(cls, ROOT / 'examples' / 'readings.c', 'c99')

    def readings(self, bank, *args):
        ran = run(self.program, *args, given=bank)
        return ran.returncode, ran.stdout.decode(), ran.stderr.decode()

    def test_every_such_sentence(self):
        met = set()
        for bank in [F, G, oracle.matrix(), *(bank for bank, _ in ambiguous().values())]:
            for length in range(1, 6):
                full = oracle.full_list(bank, length)
                several = [s for s in sorted(full.places, key=full.number) if full.count(s) >= 2]
                lines = [f'{full.number(s)} {full.count(s)}: {" ".join(map(str, s))}\n' for s in several]
                self.assertEqual(self.readings(bank, str(length)), (1 if lines else 0, ''.join(lines), ''))
                met.add(bool(lines))
        self.assertEqual(met, {False, True})

    def test_readme(self):
        text = (ROOT / 'README.md').read_text()
        shown = re.search(r'to-bytes trees\.txt \| \./readings (\d+)\n((?:    .*\n)+)', text)
        bank = grammar(2, 0, [[pair(0, 0), word(0), word(1)]])
        self.assertEqual(self.readings(bank, shown[1]), (1, shown[2].replace('    ', ''), ''))
        self.assertIn('    words 2\n    start 0\n    0 -> (0 0) | 0 | 1\n', text)

    def test_errors(self):
        for bank, length, refusal in [(F, '17', 9), (F, 'words', None), (F[:-1], '2', 3), (b'', '2', 1), (bytes(2000), '2', 2)]:
            status, output, errors = self.readings(bank, length)
            said = r'readings: refused %d: .+\n' % refusal if refusal else r'usage: .+\n'
            self.assertEqual((status, output), (2, ''))
            self.assertRegex(errors, f'^{said}$')
        self.assertEqual(self.readings(F)[0], 2)


# ---- The session

def random_bytes(seed, size):
    rng = Rng(seed)
    return bytes(rng.below(256) for _ in range(size))


def below(bound, source):
    """Document 01 leaves the source of random numbers outside; this is the example's rule."""
    while True:
        eight = bytes(next(source) for _ in range(8))
        number = int.from_bytes(eight, 'little')
        if number < 2**64 - 2**64 % bound:
            return number % bound


class Session(unittest.TestCase):
    @classmethod
    def setUpClass(cls):
        cls.program = linked(cls, ROOT / 'examples' / 'session.c', 'c99')

    def setUp(self):
        holder = tempfile.TemporaryDirectory()
        self.addCleanup(holder.cleanup)
        self.folder = pathlib.Path(holder.name)
        self.diary = self.folder / 'diary'

    def session(self, bank, length, count, source, diary=None, voice=0):
        (self.folder / 'bank').write_bytes(bank)
        (self.folder / 'source').write_bytes(source)
        ran = run(self.program, self.folder / 'bank', diary or self.diary, str(length), str(count), str(voice), self.folder / 'source')
        split = [line.split(':') for line in ran.stdout.decode().splitlines()]
        lines = [(int(number), bytes(map(int, words.split()))) for number, words in split]
        self.assertEqual({path.name for path in self.folder.iterdir()} - {'bank', 'source', 'diary'}, set())
        return ran.returncode, lines, ran.stderr.decode()

    def check_drawn(self, bank, length, source, before, lines, voice=0):
        """Each line is the right draw of an unheard sentence, and the diary has its record."""
        source = iter(source)
        for number, sentence in lines:
            self.assertEqual(oracle.check_history(before)[0], 0)
            _, total, _, left = oracle.remaining(bank, before, length, voice)
            q = below(left, source)
            self.assertEqual(oracle.draw(bank, before, length, voice, q, bytes(length)), (0, left, number, sentence))
            self.assertEqual(oracle.rank(bank, sentence), (0, number, total, 1))
            self.assertNotIn((voice, 0, sentence), oracle.sentences_of(before))
            records = oracle.two_bytes(before, 0)
            refusal, now, after = oracle.append(before[:4 + 20 * records] + bytes(20), sentence, voice, 0)
            self.assertEqual((refusal, now), (0, records + 1))
            before = after
        self.assertEqual(self.diary.read_bytes(), before)
        self.assertEqual(oracle.check_history(before), (0, oracle.two_bytes(before, 0)))

    def test_two_sessions_on_one_diary(self):
        before = bytes(4)
        for seed, count in [(51, 20), (52, 15)]:
            source = random_bytes(seed, 8 * count)
            status, lines, _ = self.session(oracle.matrix(), 5, count, source)
            self.assertEqual((status, len(lines)), (0, count))
            self.check_drawn(oracle.matrix(), 5, source, before, lines)
            before = self.diary.read_bytes()
        self.assertEqual(len(set(oracle.sentences_of(before))), 35)

    def test_one_record_longer_each_time(self):
        """With a diary that has slack and a chain of its own order."""
        heard = [oracle.unrank(oracle.matrix(), 5, d, bytes(5))[2] for d in (0, 7, 99999)] + [b'\377', b'\1\2']
        self.diary.write_bytes(history(heard, [3, 1, 5, 2, 4], b'\7' * 33))
        for k in range(5, 13):
            before, source = self.diary.read_bytes(), random_bytes(k, 8)
            self.assertEqual(oracle.two_bytes(before, 0), k)
            status, lines, errors = self.session(oracle.matrix(), 5, 1, source)
            self.assertEqual((status, len(lines), errors), (0, 1, ''))
            self.assertEqual(len(self.diary.read_bytes()), 4 + 20 * (k + 1))
            self.check_drawn(oracle.matrix(), 5, source, before, lines)

    def test_each_voice_has_its_own(self):
        """All of a small bank in one voice after the other, on one diary."""
        before = bytes(4)
        for voice in (0, 15, 3):
            source = random_bytes(60 + voice, 40)
            status, lines, errors = self.session(F, 2, 5, source, voice=voice)
            self.assertEqual((status, len(lines)), (1, 4))
            self.assertTrue(errors.endswith('session: nothing is left: 4 of 4 were heard in voice %d\n' % voice), errors)
            self.check_drawn(F, 2, source, before, lines, voice)
            before = self.diary.read_bytes()
        self.assertEqual(oracle.check_history(before), (0, 12))

    def test_what_was_broken_off_is_drawn_again(self):
        """Two of four sentences were broken off, and one of these was played in full in another voice."""
        said = [bytes([0, 1]), bytes([1, 1]), bytes([0, 1]), bytes([1, 0])]
        before = history(said, [2, 4, 1, 3], voices=[0, 0, 7, 0], played=[1, 1, 0, 0])
        self.diary.write_bytes(before)
        source = random_bytes(61, 40)
        status, lines, errors = self.session(F, 2, 5, source)
        self.assertEqual((status, sorted(number for number, _ in lines)), (1, [0, 1, 3]))
        self.check_drawn(F, 2, source, before, lines)

    def test_a_pattern(self):
        """Carrier phrases: only what fits is drawn, until nothing is left of it, and the rest of the bank stays."""
        bank, before = oracle.matrix(), bytes(4)
        for pattern, fitting in [('3 _ 24 31 45', 10), ('3 11 _ 31 45', 10), ('3 11 24 31 45', 0), ('_ _ _ _ _', 2)]:
            source = random_bytes(70 + fitting, 8 * 12)
            status, lines, errors = self.session(bank, pattern, min(fitting + 1, 12), source)
            asked = bytes(oracle.BLANK if word == '_' else int(word) for word in pattern.split())
            left = oracle.remaining_matching(bank, before, asked, 0)[3]
            self.assertEqual((status, len(lines)), (int(left <= fitting), min(left, fitting + 1)), errors)
            drawn = iter(source)
            for number, sentence in lines:
                _, _, _, left = oracle.remaining_matching(bank, before, asked, 0)
                self.assertEqual(oracle.draw_matching(bank, before, asked, 0, below(left, drawn), bytes(5)), (0, left, number, sentence))
                records = oracle.two_bytes(before, 0)
                before = oracle.append(before[:4 + 20 * records] + bytes(20), sentence, 0, 0)[2]
            self.assertEqual(self.diary.read_bytes(), before)

    def test_no_pattern(self):
        for text in ('3 x', '255 _', '_ 256', '3  _', ' _', '__', '_3', '3_', '-1 _', ' '.join(['_'] * 17)):
            status, lines, errors = self.session(F, text, 1, bytes(8))
            self.assertEqual((status, lines, errors.splitlines()[-1]), (2, [], f'session: {text}: not a pattern'))

    def test_bytes_that_would_favour_a_draw_are_passed_over(self):
        """Of 15^16 sentences; the numbers from twice that on are passed over."""
        bank, total = oracle.f_words(15), 15**16
        eights = [MOST, 2 * total, 2 * total - 1, total, 0, MOST - 1, 2 * total - 6, 2 * total - 7]
        source = b''.join(number.to_bytes(8, 'little') for number in eights)
        status, lines, _ = self.session(bank, 16, 4, source)
        self.assertEqual((status, [number for number, _ in lines]), (0, [total - 1, 1, 0, total - 2]))
        source = random_bytes(53, 1000)
        self.diary.unlink()
        status, lines, _ = self.session(bank, 16, 40, source)
        self.assertEqual((status, len(lines)), (0, 40))
        self.check_drawn(bank, 16, source, bytes(4), lines)

    def test_nothing_left(self):
        source = random_bytes(54, 100)
        status, lines, errors = self.session(F, 2, 10, source)
        self.assertEqual((status, len(lines)), (1, 4))
        self.assertIn('nothing is left: 4 of 4 were heard in voice 0', errors)
        self.check_drawn(F, 2, source, bytes(4), lines)
        before = self.diary.read_bytes()
        self.assertEqual(self.session(F, 2, 10, source), (1, [], 'session: nothing is left: 4 of 4 were heard in voice 0\n'))
        self.assertEqual(self.diary.read_bytes(), before)

    def test_full_diary(self):
        heard = [oracle.unrank(oracle.matrix(), 5, 3 * d, bytes(5))[2] for d in range(998)]
        self.diary.write_bytes(history(heard))
        source = random_bytes(55, 100)
        status, lines, errors = self.session(oracle.matrix(), 5, 5, source)
        full = 'the history has 1,000 records or no room for one more'
        self.assertEqual((status, len(lines), errors), (1, 2, f'session: {self.diary}: {full}\n'))
        self.check_drawn(oracle.matrix(), 5, source, history(heard), lines)
        self.assertEqual(oracle.check_history(self.diary.read_bytes()), (0, 1000))

    def test_a_new_diary_is_announced(self):
        self.assertEqual(self.session(F, 2, 1, bytes(8)), (0, [(0, b'\0\0')], f'session: {self.diary}: a new diary\n'))
        self.assertEqual(self.session(F, 2, 0, b''), (0, [], ''))

    def test_a_diary_cut_short_is_not_taken_for_a_new_one(self):
        whole = history([bytes([0, 1]), bytes([1, 1])])
        for size in (0, 3, 4, 23, 43):
            self.diary.write_bytes(whole[:size])
            status, lines, errors = self.session(F, 2, 1, bytes(8))
            self.assertEqual((status, lines), (2, []))
            self.assertIn('refused 11: ', errors)
            self.assertEqual(self.diary.read_bytes(), whole[:size])

    def test_each_refusal_is_explained(self):
        told = {}
        empty = history([])
        cases = [(bank, empty, 2) for _, refusal, bank in vectors.TRAPS if refusal]
        cases += [(F, diary, 2) for _, refusal, diary in vectors.HISTORY_TRAPS if refusal]
        cases += [(F, empty, 0), (F, empty, 17), (oracle.f_words(16), empty, 16), (G, history([bytes(3)]), 3)]
        for bank, diary, length, voice in [*((*case, 0) for case in cases), (F, empty, 2, 16), (F, empty, 2, 256)]:
            self.diary.write_bytes(diary)
            refusal = oracle.remaining(bank, diary, length, voice)[0]
            status, lines, errors = self.session(bank, length, 1, bytes(8), voice=voice)
            self.assertEqual((status, lines), (2, []))
            said, number, why = re.fullmatch(r'session: (.*): refused (\d+): (.*)\n', errors).groups()
            self.assertEqual(int(number), refusal)
            self.assertEqual(told.setdefault(refusal, why), why)
            self.assertEqual(self.diary.read_bytes(), diary)
        self.assertEqual(set(told), {*range(1, 16), 22})
        self.assertEqual(len(set(told.values())), 16)

    def test_a_source_that_ends(self):
        source = random_bytes(56, 23)
        status, lines, errors = self.session(oracle.matrix(), 5, 5, source)
        self.assertEqual((status, len(lines)), (2, 2))
        self.assertIn('source: no more bytes', errors)
        self.check_drawn(oracle.matrix(), 5, source, bytes(4), lines)

    def test_what_cannot_be_logged_is_not_printed(self):
        status, lines, errors = self.session(F, 2, 1, bytes(8), self.folder / 'no folder' / 'diary')
        self.assertEqual((status, lines), (2, []))
        self.assertIn('diary.new: ', errors)

    def test_without_a_named_source(self):
        (self.folder / 'bank').write_bytes(F)
        ran = run(self.program, self.folder / 'bank', self.diary, '4', '16')
        self.assertEqual((ran.returncode, len(ran.stdout.splitlines())), (0, 16))
        self.assertEqual(oracle.remaining(F, self.diary.read_bytes(), 4, 0), (0, 16, 16, 0))

    def test_wrong_commands(self):
        (self.folder / 'bank').write_bytes(F)
        for args in [(), ('bank', 'diary', '2'), ('bank', 'diary', '2', '1', 'none'), ('bank', 'diary', '2', '1', '0', 'none'),
                     ('bank', 'diary', '2', '1', '0', 'bank', '0'), ('none', 'diary', '2', '1'),
                     ('bank', 'diary', '-2', '1'), ('bank', 'diary', '2', 'x'), ('bank', 'diary', '2', '9' * 20)]:
            ran = subprocess.run([self.program, *args], cwd=self.folder, capture_output=True)
            self.assertEqual((ran.returncode, ran.stdout), (2, b''))
            self.assertTrue(ran.stderr.startswith(b'session: '))
            self.assertFalse(self.diary.exists())


if __name__ == '__main__':
    unittest.main()
