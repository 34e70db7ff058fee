#!/usr/bin/env python3
"""Stored calls with the answers that are expected, from the brute-force program and fixed seeds.

  vectors.py KIND OUTDIR           write OUTDIR/stdin and OUTDIR/stdout
  vectors.py KIND OUTDIR --check   write nothing; exit 1 and name the file where what stands there differs
  vectors.py KIND --names          each line of stdout with its case's name
  vectors.py --list                the kinds

The vectors of a kind stand in tests/stored/KIND, and replay.py runs them through the C interface; those of
kind matrix belong to the test program crates/matrix_vectors. stdin is a sequence of cases, and stdout has a
line for each.

Kind grammar (document 01: Check bank): a case is two bytes size, low byte first, and that many bytes. The
line is "0 N W" where they are accepted and "refused K" where not.

Kind matrix (document 01: house matrix bank): no input, and one line, the table's bytes parted by a space.

Kind ranking (document 01: Count, Give, Number): a case is one byte call, eight bytes length, eight bytes
number, two bytes size, all with the low byte first, and that many bytes. Call 0 has no line: its bytes are
the grammar of the calls after it. 1 is Count; 2 is Give into a buffer of that many bytes, each 7; 3 is
Number, its bytes the sentence. The line is "0" and the figures, or "refused K"; with Give a colon and the
buffer's bytes after the call follow.

Kind history (document 01: Check diary, Log): a case is one byte call, eight bytes voice, eight bytes words
played, two bytes size, all with the low byte first, and that many bytes. Call 0 is Check diary of them, and
they are the buffer of the calls after it. 1 is Log in that voice and with that figure, its bytes the sentence:
a colon and all of the buffer's bytes after the call follow. 2 is Log without these. 3 is Check diary of the
buffer as it stands. The line is "0 K", or "refused" and the number.

Kind sampling (document 01: Left, Draw; document 02, U1: both with a pattern): a case is one byte call, eight bytes
length, eight bytes voice, eight bytes draw number, two bytes size, all with the low byte first, and that many bytes.
Calls 0 and 1 have no line: their bytes are the grammar and the history of the calls after them. 2 is Left; 3 is Draw
into a buffer of that many bytes, each 7. 4 is Left with a pattern, its bytes. 5 is Draw with a pattern, its bytes, into
a buffer of as many bytes, each 7, as the length says. The line is as with Count and with Give. Beside each call with a
pattern of blanks stands the plain call.

Kind weighted (document 02, U7: Draw with weights): a case is as in kind sampling, with a ticket in place of the draw number.
Calls 0, 1 and 2 have no line: their bytes are the grammar, the history and the weights of the calls after them. 3 is Draw
with weights into a buffer of that many bytes, each 7; 4 is the plain Draw. The line is as with Give. Beside each call with a
weight of 1 for every word stands the plain call.
"""
import argparse
import itertools
import pathlib
import sys
from typing import NamedTuple

import oracle
from generate import (BESIDE, LADEN, Rng, ambiguous, beside_nothing, brimful, damaged, grammar, history, laden, low_high, pair,
                      random_damage, random_grammar, random_heavy, reaching, word)
from oracle import F, G


class Case(NamedTuple):
    name: str
    stdin: bytes
    line: str


# ---- Kind grammar

def plain(n, w, start, heads, rules):
    """The bytes of a grammar as written: heads and (kind, a, b, next) may be anything."""
    return bytes([n, w, len(rules), start, *heads]) + b''.join(map(bytes, rules))


# Two nonterminals, three words; chain 0 has rules 1, 2 and 3, chain 1 rules 4 and 5.
SMALL = plain(2, 3, 0, [1, 4], [(1, 1, 1, 2), (1, 0, 1, 3), (0, 2, 0, 0), (0, 0, 0, 5), (0, 1, 0, 0)])
HEAD = [4, 5]  # where SMALL keeps the head of nonterminals 0 and 1
RULE = [None, 6, 10, 14, 18, 22]  # where it keeps rules 1 to 5
KIND, A, B, NEXT = 0, 1, 2, 3


def small(*places):
    return damaged(SMALL, places)


def words(count):
    """A chain of that many word rules, 0 upward."""
    return [word(i) for i in range(count)]


def rows(count):
    """That many word rules with their links, chained by rising number."""
    return [(0, number - 1, 0, (number + 1) % (count + 1)) for number in range(1, count + 1)]


# 32 nonterminals, 255 words and 255 rules: 32 pair rules of nonterminal 0, 223 word rules of 1 to 31.
FULL = grammar(255, 31, [[pair(a, 31 - a) for a in range(32)]] + [[word(254 - i) for i in range(a, 223, 31)] for a in range(31)])

# Each: name, the refusal that document 01 gives (0: accepted), the bytes.
TRAPS = [
    # Examples and the house bank
    ('F', 0, F),
    ('G', 0, G),
    ('matrix', 0, oracle.matrix()),
    ('F with 15 words', 0, oracle.f_words(15)),
    ('F with 16 words', 0, oracle.f_words(16)),
    ('small', 0, SMALL),

    # 1: fewer than 4 bytes
    ('no byte', 1, b''),
    ('one byte', 1, F[:1]),
    ('two bytes', 1, F[:2]),
    ('three bytes', 1, F[:3]),
    ('three bytes, each out of range', 1, bytes(3)),

    # 2: the ranges, each before the size is looked at
    ('four bytes, all 0', 2, bytes(4)),
    ('N is 0', 2, plain(0, 1, 0, [], [(0, 0, 0, 0)])),
    ('N is 0 and S is 255', 2, plain(0, 1, 255, [], [(0, 0, 0, 0)])),
    ('N is 33', 2, plain(33, 1, 0, [1] + [0] * 32, [(0, 0, 0, 0)])),
    ('N is 255', 2, plain(255, 1, 0, [1] + [0] * 254, [(0, 0, 0, 0)])),
    ('N is 32', 0, plain(32, 1, 0, [1] + [0] * 31, [(0, 0, 0, 0)])),
    ('W is 0', 2, plain(1, 0, 0, [1], [(1, 0, 0, 0)])),
    ('W is 0, size wrong', 2, plain(1, 0, 0, [1], [(1, 0, 0, 0)])[:-1]),
    ('W is 255', 0, plain(1, 255, 0, [1], [(0, 0, 0, 0)])),
    ('R is 0', 2, plain(1, 1, 0, [0], [])),
    ('R is 0, head 1', 2, plain(1, 1, 0, [1], [])),
    ('S is N', 2, small((3, 2))),
    ('S is N - 1', 0, small((3, 1))),
    ('S is 255', 2, small((3, 255))),
    ('S is N, size wrong', 2, small((3, 2)) + b'\0'),
    ('S is N, N is 1', 2, plain(1, 1, 1, [1], [(0, 0, 0, 0)])),
    ('range before kind', 2, small((3, 2), (RULE[1] + KIND, 2))),

    # 3: the size
    ('only four bytes', 3, F[:4]),
    ('no rule bytes', 3, F[:6]),
    ('one byte short', 3, SMALL[:-1]),
    ('one byte long', 3, SMALL + b'\0'),
    ('one rule short', 3, SMALL[:-4]),
    ('one rule long', 3, SMALL + bytes([0, 0, 0, 0])),
    ('256 bytes long', 3, SMALL + bytes(256)),
    ('256 bytes short', 3, small((2, 5 + 64))),
    ('size of N + 1', 3, small((0, 3))),
    ('size of N - 1', 3, small((0, 1))),
    ('size of R + 1', 3, small((2, 6))),
    ('size of R - 1', 3, small((2, 4))),
    ('size before kind', 3, small((RULE[5] + KIND, 2)) + b'\0'),
    ('size before link', 3, small((HEAD[0], 6))[:-1]),
    ('matrix, one byte short', 3, oracle.matrix()[:-1]),
    ('matrix, one byte long', 3, oracle.matrix() + b'\0'),

    # 4: kind, a and b
    ('kind 2', 4, small((RULE[1] + KIND, 2))),
    ('kind 255', 4, small((RULE[3] + KIND, 255))),
    ('kind 128', 4, small((RULE[5] + KIND, 128))),
    ('kind 2 with a and b of 0', 4, small((RULE[4] + KIND, 2))),
    ('word rule, b is 1', 4, small((RULE[3] + B, 1))),
    ('word rule, b is 255', 4, small((RULE[5] + B, 255))),
    ('word rule, a is W', 4, small((RULE[3] + A, 3))),
    ('word rule, a is W - 1', 0, small((RULE[4] + A, 2))),
    ('word rule, a is 255', 4, small((RULE[3] + A, 255))),
    ('word rule, a is 255 and W is 255', 4, small((1, 255), (RULE[3] + A, 255))),
    ('word rule, a is 254 and W is 255', 0, small((1, 255), (RULE[3] + A, 254))),
    ('word rule, a is N, below W', 0, small((RULE[5] + A, 2))),
    ('pair rule, a is N', 4, small((RULE[1] + A, 2))),
    ('pair rule, b is N', 4, small((RULE[1] + B, 2))),
    ('pair rule, a is N - 1', 0, small((RULE[2] + A, 1), (RULE[1] + B, 0))),
    ('pair rule, a is 255', 4, small((RULE[2] + A, 255))),
    ('pair rule, b is 255', 4, small((RULE[2] + B, 255))),
    ('pair rule, a is W, N above', 0, plain(3, 1, 0, [1, 0, 0], [(1, 1, 2, 0)])),
    ('pair rule, a is 31 of 32', 0, plain(32, 1, 0, [1] + [0] * 31, [(1, 31, 31, 0)])),
    ('pair rule, a is 32 of 32', 4, plain(32, 1, 0, [1] + [0] * 31, [(1, 32, 31, 0)])),
    ('pair rule, b is 32 of 32', 4, plain(32, 1, 0, [1] + [0] * 31, [(1, 31, 32, 0)])),
    ('layout of a rule on no chain', 4, small((RULE[4] + NEXT, 0), (RULE[5] + KIND, 3))),

    # 4 looks at all rules before 5 looks at any link
    ('kind of the last rule before head 0', 4, small((RULE[5] + KIND, 2), (HEAD[0], 6))),
    ('kind of the last rule before next of the first', 4, small((RULE[5] + KIND, 2), (RULE[1] + NEXT, 6))),
    ('b of the last rule before all links', 4, small((RULE[5] + B, 1), (HEAD[0], 255), (HEAD[1], 255), (RULE[1] + NEXT, 255))),
    ('kind of the last rule before a loop', 4, small((RULE[5] + KIND, 2), (RULE[1] + NEXT, 1))),

    # 5: links
    ('head is R + 1', 5, small((HEAD[0], 6))),
    ('last head is R + 1', 5, small((HEAD[1], 6))),
    ('head is 255', 5, small((HEAD[0], 255))),
    ('head is R', 0, plain(2, 1, 0, [2, 1], [(0, 0, 0, 0), (0, 0, 0, 0)])),
    ('next is R + 1', 5, small((RULE[1] + NEXT, 6))),
    ('last next is R + 1', 5, small((RULE[5] + NEXT, 6))),
    ('next is 255', 5, small((RULE[3] + NEXT, 255))),
    ('next is R', 0, plain(1, 2, 0, [1], [(0, 0, 0, 2), (0, 1, 0, 0)])),
    ('next above R of a rule on no chain', 5, small((RULE[4] + NEXT, 0), (RULE[5] + NEXT, 6))),
    ('head is 1, R is 1, next is 2', 5, plain(1, 1, 0, [1], [(0, 0, 0, 2)])),

    # 5 before 6
    ('next of the last rule before a loop of chain 0', 5, small((RULE[1] + NEXT, 1), (RULE[5] + NEXT, 6))),
    ('last head before a loop of chain 0', 5, small((RULE[1] + NEXT, 1), (HEAD[1], 6))),
    ('link of a looping chain', 5, small((RULE[3] + NEXT, 1), (RULE[5] + NEXT, 255))),

    # 6: a rule met a second time
    ('rule linked to itself', 6, small((RULE[1] + NEXT, 1))),
    ('last rule linked to itself', 6, small((RULE[5] + NEXT, 5))),
    ('chain loops to its head', 6, small((RULE[3] + NEXT, 1))),
    ('chain loops past its head', 6, small((RULE[3] + NEXT, 2))),
    ('one rule, linked to itself', 6, plain(1, 1, 0, [1], [(0, 0, 0, 1)])),
    ('chain 0 runs into the head of chain 1', 6, small((RULE[3] + NEXT, 4))),
    ('chain 0 runs into the middle of chain 1', 6, small((RULE[3] + NEXT, 5))),
    ('chain 1 runs back into the head of chain 0', 6, small((RULE[5] + NEXT, 1))),
    ('chain 1 runs back into the middle of chain 0', 6, small((RULE[5] + NEXT, 2))),
    ('chain 1 runs back into the end of chain 0', 6, small((RULE[5] + NEXT, 3))),
    ('both heads the same', 6, small((HEAD[1], 1))),
    ('head 1 in the middle of chain 0', 6, small((HEAD[1], 2))),
    ('head 0 in the middle of chain 1', 6, small((HEAD[0], 5))),
    ('a rule shared by the first and the last chain', 6, plain(3, 1, 0, [1, 2, 1], [(0, 0, 0, 0), (0, 0, 0, 0)])),
    ('a loop in the chain of S, which is nonterminal 1', 6, small((3, 1), (RULE[5] + NEXT, 4))),

    # 6 before 7 and 8
    ('a loop leaves out a rule', 6, small((RULE[2] + NEXT, 1))),
    ('a loop in chain 1, a rule of chain 0 left out', 6, small((RULE[1] + NEXT, 3), (RULE[5] + NEXT, 4))),
    ('equal rules in chain 0, a loop in chain 1', 6, small((RULE[2] + A, 1), (RULE[5] + NEXT, 4))),

    # 7: a rule on no chain
    ('head 0 is empty', 7, small((HEAD[0], 0))),
    ('head 1 is empty', 7, small((HEAD[1], 0))),
    ('all heads empty', 7, small((HEAD[0], 0), (HEAD[1], 0))),
    ('first rule passed over', 7, small((HEAD[0], 2))),
    ('middle rule passed over', 7, small((RULE[1] + NEXT, 3))),
    ('last rule passed over', 7, small((RULE[4] + NEXT, 0))),
    ('a loop that no head reaches', 7, small((HEAD[0], 0), (RULE[3] + NEXT, 1))),
    ('a rule on no chain linked to itself', 7, small((RULE[4] + NEXT, 0), (RULE[5] + NEXT, 5))),
    ('a rule on no chain linked into a chain', 7, small((HEAD[0], 2), (RULE[1] + NEXT, 4))),

    # 7 before 8
    ('equal rules in chain 0, the last rule left out', 7, small((RULE[2] + A, 1), (RULE[4] + NEXT, 0))),
    ('equal rules, both left out', 7, small((HEAD[1], 0), (RULE[5] + A, 0))),

    # 8: equal rules on one chain
    ('equal pair rules side by side', 8, small((RULE[2] + A, 1))),
    ('equal word rules side by side', 8, small((RULE[5] + A, 0))),
    ('equal rules not adjacent', 8, grammar(3, 0, [[word(0), word(1), word(2), word(0)]])),
    ('equal rules not adjacent, numbers mixed', 8, grammar(3, 0, [[word(2), pair(0, 0), word(1), word(2)], [word(1)]], [5, 1, 3, 2, 4])),
    ('equal pair rules, last chain', 8, grammar(1, 0, [[word(0)], [], [pair(0, 1), pair(1, 0), pair(0, 1)]])),
    ('three equal rules', 8, grammar(1, 0, [[word(0)] * 3])),
    ('equal rules on a useless nonterminal', 8, grammar(1, 0, [[word(0)], [word(0), word(0)]])),
    ('two chains with equal word rules', 0, grammar(1, 0, [[word(0)], [word(0)]])),
    ('two chains with equal rules throughout', 0, grammar(2, 1, [[word(0), pair(0, 1), word(1)]] * 2, [4, 1, 5, 2, 6, 3])),
    ('end of one chain equals the start of the next', 0, grammar(2, 0, [[word(0), word(1)], [word(1), word(0)]])),
    ('kinds differ alone', 0, grammar(1, 0, [[word(0), pair(0, 0)]])),
    ('a differs alone', 0, grammar(1, 0, [[pair(0, 1), pair(1, 1)], []])),
    ('b differs alone', 0, grammar(1, 0, [[pair(0, 0), pair(0, 1)], []])),
    ('a and b exchanged', 0, grammar(1, 0, [[pair(0, 1), pair(1, 0)], []])),

    # Allowed: empty chains and useless nonterminals
    ('S has an empty chain', 0, grammar(1, 1, [[word(0)], []])),
    ('only the last of 32 chains has a rule', 0, grammar(1, 0, [[]] * 31 + [[word(0)]])),
    ('useless nonterminals', 0, grammar(2, 0, [[word(0)], [pair(1, 2)], [pair(2, 1)], [word(1), pair(0, 3)]])),
    ('nothing derived at all', 0, grammar(1, 0, [[pair(0, 0)]])),
    ('rules numbered against the chain', 0, grammar(4, 0, [words(4), [pair(1, 0)]], [4, 3, 2, 1, 5])),

    # N = 32, W = 255, R = 255 at once
    ('full', 0, FULL),
    ('full, numbers falling', 0, grammar(255, 0, [[]] * 31 + [words(255)], range(255, 0, -1))),
    ('full, all rules on the first chain', 0, grammar(255, 31, [words(255)] + [[]] * 31)),
    ('full, all rules on the last chain', 0, plain(32, 255, 0, [0] * 31 + [1], rows(255))),
    ('full, one byte short', 3, FULL[:-1]),
    ('full, one byte long', 3, FULL + b'\0'),
    ('full, size modulo 256', 3, FULL[:1056 % 256]),
    ('full, S is 32', 2, damaged(FULL, [(3, 32)])),
    ('full, kind of the last rule', 4, damaged(FULL, [(1052, 2)])),
    ('full, last word is 255', 4, damaged(FULL, [(1053, 255)])),
    ('full, last rule linked to itself', 6, damaged(FULL, [(1055, 255)])),
    ('full, all rules in one loop', 6, damaged(plain(32, 255, 0, [0] * 31 + [1], rows(255)), [(1055, 1)])),
    ('full, last rule on no chain', 7, damaged(FULL, [(35, 0)])),
    ('full, first and last of 255 rules equal', 8, damaged(plain(32, 255, 0, [0] * 31 + [1], rows(255)), [(1053, 0)])),
    ('255 rules, next 255 is allowed', 0, plain(1, 255, 0, [1], rows(255))),
]


def defects():
    """Every subset of refusals 2 to 8 in one grammar: the smallest is the answer. Each defect has its own
    place, the later refusals on earlier chains and rules."""
    base = grammar(3, 0, [[word(0), word(1), word(2)], [word(0), word(1)], [word(0), pair(0, 1), word(1)], [word(2)], [word(0)]])
    rule = [4 + 5 + 4 * (number - 1) for number in range(11)]
    places = {
        2: (3, 5),
        4: (rule[10] + KIND, 2),
        5: (rule[9] + NEXT, 11),
        6: (rule[8] + NEXT, 6),
        7: (rule[4] + NEXT, 0),
        8: (rule[3] + A, 0),
    }
    for subset in range(128):
        chosen = [refusal for refusal in range(2, 9) if subset >> (refusal - 2) & 1]
        data = damaged(base, [places[refusal] for refusal in chosen if refusal != 3])
        yield f'defects {chosen}', min(chosen, default=0), data + b'\0' * (3 in chosen)


def resized():
    """F cut to each size, and F with bytes after it."""
    for size in range(len(F) + 9):
        yield f'F, {size} bytes', (F + bytes(8))[:size]


def single_damages():
    """F with each byte set to each of several values."""
    for at, byte in enumerate(F):
        for value in sorted({0, 1, 2, 3, 4, 5, 6, 31, 32, 33, 127, 128, 254, 255} - {byte}):
            yield f'F, byte {at} is {value}', damaged(F, [(at, value)])


def random_cases(rng):
    """Random grammars, each as it is and with every damage."""
    sizes = [(2, 2, 4)] * 50 + [(5, 5, 12)] * 100 + [(32, 255, 40)] * 30
    for i, size in enumerate(sizes):
        data = random_grammar(rng, *size)
        yield f'random {i}', data
        for places in damages(rng, data):
            yield f'random {i}, damage {places}', damaged(data, places)


def matrix_cases(rng):
    """The house bank with every damage."""
    data = oracle.matrix()
    for i in range(40):
        for places in damages(rng, data):
            yield f'matrix {i}, damage {places}', damaged(data, places)


def damages(rng, data):
    """Random damages of an accepted grammar, each a list of places and values."""
    rules = range(4 + data[0], len(data), 4)
    links = list(range(4, 4 + data[0])) + [at + NEXT for at in rules]
    one, other = rng.choice(links), rng.choice(links)
    rule, model = rng.choice(rules), rng.choice(rules)
    passed_over = data[one] and data[rules[data[one] - 1] + NEXT]
    return [
        [random_damage(rng, data)],
        [random_damage(rng, data), random_damage(rng, data)],
        [(one, rng.below(data[2] + 1))],
        [(one, rng.below(data[2] + 2)), (other, rng.below(data[2] + 2))],
        [(one, passed_over)],
        [(rule + part, rng.below(2)) for part in (KIND, A, B)],
        [(rule + part, data[model + part]) for part in (KIND, A, B)],
    ]


def grammar_cases():
    stated = TRAPS + list(defects())
    for name, refusal, data in stated:
        if oracle.check_grammar(data)[0] != refusal:
            raise AssertionError(f'{name}: document 01 gives {refusal}, the brute-force program {oracle.check_grammar(data)[0]}')
    rng = Rng(2026)
    made = [*resized(), *single_damages(), *random_cases(rng), *matrix_cases(rng)]
    unique = {}
    for name, data in [(name, data) for name, _, data in stated] + made:
        unique.setdefault(data, name)
    return [Case(name, low_high(len(data)) + data, line(*oracle.check_grammar(data))) for data, name in unique.items()]


def line(refusal, *figures):
    """A case's line: 0 and the figures, or the refusal."""
    return f'refused {refusal}' if refusal else ' '.join(map(str, [0, *figures]))


# ---- Kind matrix

def matrix_table():
    return [Case('house bank', b'', ' '.join(map(str, oracle.matrix())))]


# ---- Kind ranking

BANK, COUNT, GIVE, NUMBER = range(4)
SOME = 7  # what a buffer holds before Give writes


def framed(call, length, number, data):
    return bytes([call]) + length.to_bytes(8, 'little') + number.to_bytes(8, 'little') + low_high(len(data)) + data


class Calls:
    """The calls on one grammar, each with the brute-force program's answer."""

    def __init__(self, name, data):
        self.name, self.data, self.calls = name, data, {}

    def add(self, name, stdin, line):
        if stdin not in self.calls:
            self.calls[stdin] = Case(f'{self.name}: {name}', stdin, line)

    def count(self, length):
        self.add(f'Count {length}', framed(COUNT, length, 0, b''), line(*oracle.count(self.data, length)))

    def give(self, length, number, room):
        buffer = bytes([SOME]) * room
        refusal, total, after = oracle.unrank(self.data, length, number, buffer)
        shown = ''.join(f' {byte}' for byte in after)
        self.add(f'Give {length} {number} into {room} bytes', framed(GIVE, length, number, buffer), f'{line(refusal, total)}:{shown}')

    def number(self, sentence):
        self.add(f'Number {list(sentence)}', framed(NUMBER, 0, 0, sentence), line(*oracle.rank(self.data, sentence)))

    def there_and_back(self, length, number):
        """Give, and Number of what it gave."""
        self.give(length, number, length + number % 3)
        refusal, _, after = oracle.unrank(self.data, length, number, bytes(length))
        if refusal == 0:
            self.number(after)

    def framed_cases(self):
        """The grammar's frame goes with the first call."""
        first, *others = self.calls.values()
        return [first._replace(stdin=framed(BANK, 0, 0, self.data) + first.stdin), *others]


EDGES = [0, 1, 16, 17, 18, 255, 256, 2**16, 2**32, 2**32 + 5, 2**63, 2**64 - 1]


def edges(calls):
    """Lengths and numbers from 0 to 2^64 - 1, buffers and sentences of every size to 17 and above."""
    for length in EDGES:
        calls.count(length)
        calls.give(length, 0, 18)
        calls.give(2, length, 3)
    for size in [*range(19), 32]:
        calls.give(3, 0, size)
        calls.give(16, 2**64 - 1, size)
    for size in [*range(19), 31, 255, 256, 512]:
        for byte in (0, 1, 255):
            calls.number(bytes([byte]) * size)


def every_number(calls, lengths):
    """Count, and there and back from every number of these lengths and from the first beyond."""
    for length in lengths:
        calls.count(length)
        _, total = oracle.count(calls.data, length)
        for number in range(total + 1):
            calls.there_and_back(length, number)


def some_numbers(calls, rng, length, many):
    """The same from the ends of the full list and from many numbers between, also of a list too long to write down."""
    calls.count(length)
    _, total = oracle.count(calls.data, length)
    for number in sorted({0, 1, total // 2, total - 2, total - 1, total, *(rng.below(total) for _ in range(many))}):
        if number in range(2**64):
            calls.there_and_back(length, number)


def every_sentence(calls, words, lengths):
    """Number of every sentence of these lengths over the words below that number, derivable or not."""
    for length in lengths:
        for sentence in itertools.product(range(words), repeat=length):
            calls.number(bytes(sentence))


def huge_times_zero():
    """One half has 15^15 derivations of 15 words, the other none of 1; and the same the other way round."""
    s, many, none, any_word = range(4)
    fifteen = [word(i) for i in range(15)]
    return grammar(16, s, [[pair(many, none), pair(none, many), word(15)], fifteen + [pair(any_word, many)], [pair(none, none)], fifteen])


def small_grammars(rng, count):
    """Random grammars with some derivations, and not many, of the lengths up to 6."""
    while count:
        data = random_grammar(rng, 4, 3, 9)
        totals = [oracle.count(data, length)[1] for length in range(1, 7)]
        if 3 <= sum(totals) <= 150 and totals[1:].count(0) < 5:
            count -= 1
            yield data


def ambiguous_grammars(rng, count):
    """Random grammars with few derivations of three to five words, at least a third of them those of sentences that have two or more, and some
    of such a sentence whose lowest number isn't 0."""
    while count:
        data = random_grammar(rng, 4, 3, 9)
        totals = [oracle.count(data, length)[1] for length in range(3, 6)]
        if 10 <= sum(totals) <= 90:
            lists = [oracle.full_list(data, length) for length in range(3, 6)]
            several = [(full.number(s), full.count(s)) for full in lists for s in full.places if full.count(s) >= 2]
            if 3 * sum(many for _, many in several) >= sum(totals) and any(number for number, _ in several):
                count -= 1
                yield data


def formerly_refused(rng, count):
    """Random grammars with a length that isn't refused, although some count up to it is above 2^64 - 1: of a pair that isn't needed. With
    each the last such length, the one before it and the one after it."""
    while count:
        data = random_heavy(rng)
        read = oracle.read(data)
        large = [m for m in range(1, 17) if any(read.total(a, m) > oracle.MOST for a in range(data[0]))]
        lengths = [length for length in range(1, 17) if large and large[0] <= length and oracle.count(data, length)[0] == 0]
        if lengths and (oracle.count(data, lengths[-1])[1] or rng.below(4) == 0):
            count -= 1
            yield data, [length for length in range(lengths[-1] - 1, lengths[-1] + 2) if length <= 16]


def ranking_cases():
    rng = Rng(31415)
    stated = {
        'F': F, 'G': G, 'matrix': oracle.matrix(), 'F with 15 words': oracle.f_words(15), 'F with 16 words': oracle.f_words(16),
        'brimful': brimful(), 'one too many': brimful(1), 'huge times zero': huge_times_zero(), 'full': FULL,
        'S has an empty chain': grammar(1, 1, [[word(0)], []]), 'nothing derived': grammar(1, 0, [[pair(0, 0)]]),
        'refused by 1': F[:3], 'refused by 3': F[:-1], 'refused by 8': grammar(1, 0, [[word(0), word(0)]]),
    }
    banks = {name: Calls(name, data) for name, data in stated.items()}
    edges(banks['F'])
    edges(banks['refused by 3'])
    for name, calls in banks.items():
        for length in [0, 1, 2, 3, 5, 15, 16, 17]:
            calls.count(length)
            calls.give(length, 0, 16)
            calls.number(bytes(length))
    every_number(banks['F'], range(1, 7))
    every_sentence(banks['F'], 3, range(1, 5))
    every_number(banks['G'], range(1, 7))
    some_numbers(banks['G'], rng, 16, 5)
    banks['matrix'].there_and_back(5, 31415)
    for length in range(1, 17):
        banks['matrix'].count(length)
    some_numbers(banks['matrix'], rng, 5, 60)
    banks['matrix'].number(bytes([0, 10, 20, 30, 39]))
    banks['matrix'].number(bytes([10, 0, 20, 30, 40]))
    banks['matrix'].number(bytes([0, 10, 20, 30, 50]))
    for name in ['F with 15 words', 'brimful', 'huge times zero']:
        for length in [1, 2, 3, 15, 16]:
            some_numbers(banks[name], rng, length, 12)
    for number in [2**64 - 1, 2**64 - 2]:
        banks['brimful'].give(16, number, 16)
    made = []
    for i, data in enumerate(small_grammars(rng, 40)):
        calls = Calls(f'random {i}', data)
        every_number(calls, range(1, 7))
        every_sentence(calls, data[1] + 1, range(1, 4))
        made.append(calls)
    for name, (data, refused) in reaching().items():
        calls = Calls(name, data)
        for length in range(1, 17):
            calls.count(length)
        for length in sorted({3, 9, 10, *refused[:1]}):
            calls.there_and_back(length, 0)
            calls.number(bytes(length))
        made.append(calls)
    for i, (data, lengths) in enumerate(formerly_refused(rng, 30)):
        calls = Calls(f'needed pairs {i}', data)
        for length in lengths:
            some_numbers(calls, rng, length, 3)
            calls.number(bytes(length))
        made.append(calls)
    for name, (data, sentences) in ambiguous().items():
        calls = Calls(name, data)
        every_number(calls, [length for length in range(1, 5) if oracle.count(data, length)[1] <= 80])
        every_sentence(calls, data[1], range(1, 5))
        some_numbers(calls, rng, 16, 3)
        for sentence in sentences:
            calls.number(sentence)
        made.append(calls)
    for i, data in enumerate(ambiguous_grammars(rng, 12)):
        calls = Calls(f'ambiguous {i}', data)
        every_number(calls, range(3, 6))
        made.append(calls)
    return [case for calls in [*banks.values(), *made] for case in calls.framed_cases()]


# ---- Kind history

SET, LOG, LOG_UNSHOWN, CHECK = range(4)
LINK, HIGH, LENGTH, FOURTH, WORDS = range(5)  # the parts of a record, HIGH the link's high byte


class Buffer:
    """The calls on one buffer, each with the brute-force program's answer."""

    def __init__(self, name, data):
        self.name, self.data, self.cases = name, data, []
        self.add('set', SET, data, line(*oracle.check_history(data)))

    def add(self, name, call, data, line, voice=0, played=0):
        frame = bytes([call]) + voice.to_bytes(8, 'little') + played.to_bytes(8, 'little') + low_high(len(data)) + data
        self.cases.append(Case(f'{self.name}: {name}', frame, line))

    def log(self, sentence, voice, played, shown=True):
        refusal, k, self.data = oracle.append(self.data, sentence, voice, played)
        after = ':' + ''.join(f' {byte}' for byte in self.data) if shown else ''
        name = f'Log {list(sentence)} in {voice}' + f', {played} played' * (played > 0)
        self.add(name, LOG if shown else LOG_UNSHOWN, sentence, line(refusal, k) + after, voice, played)

    def check(self):
        self.add('Check', CHECK, b'', line(*oracle.check_history(self.data)))


JUNK = bytes(range(1, 10)) * 8  # slack

# The chain has the records 2, 4, 1 and 3.
FOUR = history([bytes([0, 1]), bytes([7]), bytes(range(100, 116)), bytes([255, 0, 5, 0, 254])], [2, 4, 1, 3])
ONE = history([bytes([0, 1])])
RECORD = [None, 4, 24, 44, 64]  # where records 1 to 4 stand


def four(*places):
    return damaged(FOUR, places)


def many(k, numbers=None):
    """A history of k sentences."""
    return history([bytes([i % 10]) * (1 + i % 3) for i in range(k)], numbers)


def eight(numbers):
    return history([bytes([i]) * (2 * i + 1) for i in range(8)], numbers)


# Each: name, the refusal of Check diary that document 01 gives (0: accepted), the bytes.
HISTORY_TRAPS = [
    # Accepted
    ('no record', 0, bytes(4)),
    ('one', 0, ONE),
    ('four', 0, FOUR),
    ('forward', 0, eight(range(1, 9))),
    ('backward', 0, eight(range(8, 0, -1))),
    ('shuffled', 0, eight([3, 8, 1, 6, 7, 2, 5, 4])),
    ('sixteen words 0', 0, history([bytes(16)])),
    ('sixteen words 255', 0, history([bytes([255]) * 16])),
    ('one word 0', 0, history([bytes(1)])),
    ('one word 255', 0, history([bytes([255])])),
    ('a sentence three times', 0, history([bytes([3, 4])] * 3, [2, 3, 1])),

    # Slack is not read
    ('no record, slack', 0, bytes(4) + JUNK),
    ('one byte of slack', 0, FOUR + bytes([255])),
    ('slack of 255', 0, FOUR + bytes([255]) * 41),
    ('slack like a record linked to itself', 0, FOUR + bytes([5, 0, 1, 0, 9]) + bytes(15)),

    # 11: the size
    ('no byte', 11, b''),
    ('one byte', 11, bytes(1)),
    ('two bytes', 11, bytes(2)),
    ('three bytes', 11, bytes(3)),
    ('three bytes of 255', 11, bytes([255]) * 3),
    ('only four bytes', 11, ONE[:4]),
    ('one record, one byte short', 11, ONE[:-1]),
    ('one byte short', 11, FOUR[:-1]),
    ('one record short', 11, FOUR[:-20]),
    ('K is one more', 11, four((0, 5))),
    ('K is one more, one byte short', 11, (four((0, 5)) + JUNK)[:103]),
    ('K is 260, K modulo 256 is right', 11, four((1, 1))),
    ('K is 65,535', 11, four((0, 255), (1, 255))),
    ('K is 65,535, only four bytes', 11, bytes([255]) * 4),
    ('size before all else', 11, four((2, 5), (RECORD[1] + LENGTH, 0), (RECORD[2] + LINK, 2))[:-1]),
    ('K is 1,000, backward', 0, many(1000, range(1000, 0, -1))),
    ('K is 1,000, one byte short', 11, many(1000)[:-1]),
    ('K is 1,001', 11, many(1001)),

    # 12: the layout of a record
    ('length 0', 12, four((RECORD[2] + LENGTH, 0))),
    ('length 0, no word but 0', 12, damaged(history([bytes(1)]), [(RECORD[1] + LENGTH, 0)])),
    ('length 17', 12, four((RECORD[1] + LENGTH, 17))),
    ('length 17 of the last record', 12, four((RECORD[4] + LENGTH, 17))),
    ('length 255', 12, four((RECORD[3] + LENGTH, 255))),
    ('length 128', 12, four((RECORD[3] + LENGTH, 128))),
    ('length one less', 12, four((RECORD[2] + LENGTH, 1))),
    ('length 15 of 16', 12, four((RECORD[1] + LENGTH, 15))),
    ('length one less, last word 0', 0, damaged(history([bytes([1, 0])]), [(RECORD[1] + LENGTH, 1)])),
    ('length one more', 0, four((RECORD[2] + LENGTH, 3))),
    ('one word, fourth byte 1', 12, four((RECORD[4] + FOURTH, 1))),
    ('one word, fourth byte 255', 12, four((RECORD[4] + FOURTH, 255))),
    ('two words, fourth byte 1', 0, four((RECORD[2] + FOURTH, 1))),
    ('two words, fourth byte 2', 12, four((RECORD[2] + FOURTH, 2))),
    ('two words, fourth byte 8', 12, four((RECORD[2] + FOURTH, 8))),
    ('two words, fourth byte 241', 0, four((RECORD[2] + FOURTH, 241))),
    ('two words, fourth byte 242', 12, four((RECORD[2] + FOURTH, 242))),
    ('five words, fourth byte 4', 0, four((RECORD[3] + FOURTH, 4))),
    ('five words, fourth byte 5', 12, four((RECORD[3] + FOURTH, 5))),
    ('five words, fourth byte 15', 12, four((RECORD[3] + FOURTH, 15))),
    ('five words, fourth byte 20', 0, four((RECORD[3] + FOURTH, 20))),
    ('five words, fourth byte 21', 12, four((RECORD[3] + FOURTH, 21))),
    ('sixteen words, fourth byte 1', 0, four((RECORD[1] + FOURTH, 1))),
    ('sixteen words, fourth byte 15', 0, four((RECORD[1] + FOURTH, 15))),
    ('sixteen words, fourth byte 17', 0, four((RECORD[1] + FOURTH, 17))),
    ('sixteen words, fourth byte 255', 0, four((RECORD[1] + FOURTH, 255))),
    ('words played, and no word', 12, four((RECORD[2] + LENGTH, 0), (RECORD[2] + FOURTH, 1))),
    ('words played, and seventeen words', 12, four((RECORD[1] + LENGTH, 17), (RECORD[1] + FOURTH, 1))),
    ('words played, and a byte beyond the words', 12, four((RECORD[3] + FOURTH, 1), (RECORD[3] + WORDS + 5, 1))),
    ('words played, and a link', 13, four((RECORD[3] + FOURTH, 1), (RECORD[3] + LINK, 9))),
    ('words played, and a loop', 14, four((RECORD[3] + FOURTH, 1), (RECORD[3] + LINK, 3))),
    ('a broken-off record passed over', 14, four((RECORD[4] + FOURTH, 16), (RECORD[3] + FOURTH, 1), (RECORD[1] + LINK, 0))),
    ('broken off and in full', 0, history([bytes([3, 4])] * 4, [2, 4, 3, 1], played=[1, 0, 1, 0])),
    ('fourth byte 16', 0, four((RECORD[2] + FOURTH, 16))),
    ('fourth byte 128', 0, four((RECORD[1] + FOURTH, 128))),
    ('fourth byte 240', 0, four((RECORD[4] + FOURTH, 240))),
    ('fourth byte 16, sixteen words', 0, damaged(history([bytes([255]) * 16]), [(RECORD[1] + FOURTH, 16)])),
    ('sixteen voices', 0, history([bytes([7, 7])] * 16, voices=range(16))),
    ('sixteen voices, all words played in the last', 12, damaged(history([bytes([7, 7])] * 16, voices=range(16)), [(304 + FOURTH, 242)])),
    ('a voice and a byte beyond the words', 12, four((RECORD[2] + FOURTH, 16), (RECORD[2] + WORDS + 2, 1))),
    ('a voice and a link', 13, four((RECORD[2] + FOURTH, 16), (RECORD[2] + LINK, 9))),
    ('non-zero byte beyond the words, first place', 12, four((RECORD[2] + WORDS + 2, 1))),
    ('non-zero byte beyond the words, last place', 12, four((RECORD[2] + WORDS + 15, 1))),
    ('255 beyond one word, first place', 12, four((RECORD[4] + WORDS + 1, 255))),
    ('255 beyond one word, last place', 12, four((RECORD[4] + WORDS + 15, 255))),

    # 12 looks at all records before 13 looks at any link
    ('length of the last record before head', 12, four((RECORD[4] + LENGTH, 0), (2, 5))),
    ('length of the first record before next of the last', 12, four((RECORD[1] + LENGTH, 17), (RECORD[4] + LINK, 5))),
    ('fourth byte before all links', 12, four((RECORD[3] + FOURTH, 5), (2, 255), (RECORD[1] + LINK, 255), (RECORD[2] + LINK, 255))),
    ('layout and next of one record', 12, four((RECORD[2] + WORDS + 9, 1), (RECORD[2] + LINK, 9))),
    ('layout of a record not on the chain', 12, four((RECORD[1] + LINK, 0), (RECORD[3] + LENGTH, 0))),
    ('layout of the last record before a loop', 12, four((RECORD[4] + FOURTH, 9), (RECORD[2] + LINK, 2))),
    ('layout before head 0', 12, four((2, 0), (RECORD[1] + LENGTH, 0))),

    # 13: links
    ('head 1 with K = 0', 13, bytes([0, 0, 1, 0])),
    ('head 255 with K = 0', 13, bytes([0, 0, 255, 0])),
    ('head 256 with K = 0', 13, bytes([0, 0, 0, 1])),
    ('head 1 with K = 0, slack like a record', 13, bytes([0, 0]) + ONE[2:]),
    ('head is K + 1', 13, four((2, 5))),
    ('head is K + 1, slack like a record', 13, four((2, 5)) + bytes([2, 0, 1, 0, 9]) + bytes(15)),
    ('head is 258, modulo 256 right', 13, four((3, 1))),
    ('head is 65,535', 13, four((2, 255), (3, 255))),
    ('next is K + 1', 13, four((RECORD[1] + LINK, 5))),
    ('last next is K + 1', 13, four((RECORD[4] + LINK, 5))),
    ('next of the end is K + 1', 13, four((RECORD[3] + LINK, 5))),
    ('next is 259, modulo 256 right', 13, four((RECORD[1] + HIGH, 1))),
    ('next of the end is 256', 13, four((RECORD[3] + HIGH, 1))),
    ('next is 65,535', 13, four((RECORD[2] + LINK, 255), (RECORD[2] + HIGH, 255))),
    ('next above K of a record not on the chain', 13, four((RECORD[1] + LINK, 0), (RECORD[3] + LINK, 5))),
    ('one record, next is 2', 13, damaged(ONE, [(RECORD[1] + LINK, 2)])),

    # 13 before 14
    ('next of the last record before a loop', 13, four((RECORD[2] + LINK, 2), (RECORD[4] + LINK, 5))),
    ('next above K before head 0', 13, four((2, 0), (RECORD[3] + LINK, 5))),

    # 14: a record met twice
    ('one record, linked to itself', 14, damaged(ONE, [(RECORD[1] + LINK, 1)])),
    ('first on the chain linked to itself', 14, four((RECORD[2] + LINK, 2))),
    ('last on the chain linked to itself', 14, four((RECORD[3] + LINK, 3))),
    ('chain loops to its head', 14, four((RECORD[3] + LINK, 2))),
    ('chain loops to its middle', 14, four((RECORD[3] + LINK, 4))),
    ('a short loop leaves out a record', 14, four((RECORD[1] + LINK, 4))),
    ('a short loop leaves out two records', 14, four((RECORD[4] + LINK, 2))),
    ('K is 1,000, chain loops to its head', 14, damaged(many(1000), [(19984 + LINK, 1)])),

    # 14: a record missed
    ('head 0 with K = 1', 14, damaged(ONE, [(2, 0)])),
    ('head 0 with K = 4', 14, four((2, 0))),
    ('first record passed over', 14, four((2, 4))),
    ('middle record passed over', 14, four((RECORD[2] + LINK, 1))),
    ('last record passed over', 14, four((RECORD[1] + LINK, 0))),
    ('chain ends after the head', 14, four((RECORD[2] + LINK, 0))),
    ('two halves', 14, four((RECORD[4] + LINK, 0))),
    ('two halves, one a loop', 14, four((RECORD[4] + LINK, 0), (RECORD[3] + LINK, 1))),
    ('two halves, both loops', 14, four((RECORD[4] + LINK, 2), (RECORD[3] + LINK, 1))),
    ('a record on no chain linked to itself', 14, four((RECORD[1] + LINK, 0), (RECORD[3] + LINK, 3))),
    ('a record on no chain linked into the chain', 14, four((RECORD[1] + LINK, 0), (RECORD[3] + LINK, 2))),
]

# Each: name, the refusal of Log that the documents give (0: accepted), the buffer, the sentence, the voice, the words played.
LOG_TRAPS = [
    # 9: the sentence's length
    ('no word', 9, FOUR + JUNK, b'', 0, 0),
    ('one word', 0, FOUR + JUNK, bytes([5]), 0, 0),
    ('sixteen words', 0, FOUR + JUNK, bytes(range(16)), 0, 0),
    ('seventeen words', 9, FOUR + JUNK, bytes(range(17)), 0, 0),
    ('40 words', 9, FOUR + JUNK, bytes(40), 0, 0),
    ('256 words', 9, FOUR + JUNK, bytes(256), 0, 0),
    ('257 words', 9, FOUR + JUNK, bytes(257), 0, 0),
    ('272 words', 9, FOUR + JUNK, bytes(272), 0, 0),
    ('the word 0', 0, FOUR + JUNK, bytes(1), 0, 0),
    ('the word 255', 0, FOUR + JUNK, bytes([255]), 0, 0),
    ('the word 0 sixteen times', 0, FOUR + JUNK, bytes(16), 0, 0),
    ('the word 255 sixteen times', 0, FOUR + JUNK, bytes([255]) * 16, 0, 0),
    ('a sentence that is there', 0, FOUR + JUNK, bytes([0, 1]), 0, 0),

    # 9 before 11 to 14 and 19
    ('no word, no byte', 9, b'', b'', 0, 0),
    ('no word, one byte short', 9, FOUR[:-1], b'', 0, 0),
    ('seventeen words, layout', 9, four((RECORD[1] + LENGTH, 0)), bytes(17), 0, 0),
    ('seventeen words, link', 9, four((2, 5)), bytes(17), 0, 0),
    ('no word, loop', 9, four((RECORD[2] + LINK, 2)), b'', 0, 0),
    ('no word, no room', 9, FOUR, b'', 0, 0),

    # 22: the voice, after 9 and before 11
    ('voice 15', 0, FOUR + JUNK, bytes([5]), 15, 0),
    ('voice 16', 22, FOUR + JUNK, bytes([5]), 16, 0),
    ('voice 17', 22, FOUR + JUNK, bytes([5]), 17, 0),
    ('voice 255', 22, FOUR + JUNK, bytes([5]), 255, 0),
    ('voice 256', 22, FOUR + JUNK, bytes([5]), 256, 0),
    ('voice 2^32', 22, FOUR + JUNK, bytes([5]), 2**32, 0),
    ('voice 2^63', 22, FOUR + JUNK, bytes([5]), 2**63, 0),
    ('voice 2^64 - 1', 22, FOUR + JUNK, bytes([5]), 2**64 - 1, 0),
    ('voice 16, no byte', 22, b'', bytes([5]), 16, 0),
    ('voice 16, layout', 22, four((RECORD[1] + LENGTH, 0)), bytes([5]), 16, 0),
    ('voice 16, no room', 22, FOUR, bytes([5]), 16, 0),
    ('voice 16, no word', 9, FOUR + JUNK, b'', 16, 0),
    ('voice 15, no byte', 11, b'', bytes([5]), 15, 0),

    # 23: the words played, after 22 and before 11
    ('one word, one played', 23, FOUR + JUNK, bytes([5]), 0, 1),
    ('two words, one played', 0, FOUR + JUNK, bytes([5, 6]), 0, 1),
    ('two words, two played', 23, FOUR + JUNK, bytes([5, 6]), 0, 2),
    ('two words, three played', 23, FOUR + JUNK, bytes([5, 6]), 0, 3),
    ('sixteen words, fifteen played', 0, FOUR + JUNK, bytes(range(16)), 0, 15),
    ('sixteen words, sixteen played', 23, FOUR + JUNK, bytes(range(16)), 0, 16),
    ('sixteen words, seventeen played', 23, FOUR + JUNK, bytes(range(16)), 0, 17),
    ('255 played', 23, FOUR + JUNK, bytes([5, 6]), 0, 255),
    ('256 played', 23, FOUR + JUNK, bytes([5, 6]), 0, 256),
    ('257 played', 23, FOUR + JUNK, bytes([5, 6]), 0, 257),
    ('2^32 played', 23, FOUR + JUNK, bytes([5, 6]), 0, 2**32),
    ('2^32 + 1 played', 23, FOUR + JUNK, bytes([5, 6]), 0, 2**32 + 1),
    ('2^63 played', 23, FOUR + JUNK, bytes([5, 6]), 0, 2**63),
    ('2^64 - 1 played', 23, FOUR + JUNK, bytes([5, 6]), 0, 2**64 - 1),
    ('all played, voice 16', 22, FOUR + JUNK, bytes([5, 6]), 16, 2),
    ('one played, no word', 9, FOUR + JUNK, b'', 0, 1),
    ('all played, no byte', 23, b'', bytes([5, 6]), 0, 2),
    ('all played, layout', 23, four((RECORD[1] + LENGTH, 0)), bytes([5, 6]), 0, 2),
    ('all played, no room', 23, FOUR, bytes([5, 6]), 0, 2),
    ('one played, no byte', 11, b'', bytes([5, 6]), 0, 1),
    ('one played, layout', 12, four((RECORD[1] + LENGTH, 0)), bytes([5, 6]), 0, 1),
    ('one played, no room', 19, FOUR, bytes([5, 6]), 0, 1),

    # 19: the room
    ('no record, no room', 19, bytes(4), bytes([5]), 0, 0),
    ('no record, one byte less than the room', 19, bytes(4) + JUNK[:19], bytes([5]), 0, 0),
    ('no record, exactly the room', 0, bytes(4) + JUNK[:20], bytes([5]), 0, 0),
    ('no slack', 19, FOUR, bytes([5]), 0, 0),
    ('one byte less than the room', 19, FOUR + JUNK[:19], bytes([5]), 0, 0),
    ('exactly the room', 0, FOUR + JUNK[:20], bytes([5]), 0, 0),
    ('one byte more than the room', 0, FOUR + JUNK[:21], bytes([5]), 0, 0),

    # The record is written in full
    ('slack of 255, one word', 0, FOUR + bytes([255]) * 25, bytes([9]), 0, 0),
    ('slack of 255, three words', 0, FOUR + bytes([255]) * 25, bytes([9, 0, 9]), 0, 0),
    ('slack of 255, fifteen words', 0, FOUR + bytes([255]) * 25, bytes([9]) * 15, 0, 0),
    ('slack of 255, voice 3', 0, FOUR + bytes([255]) * 25, bytes([9]), 3, 0),
    ('sixteen words in voice 15', 0, FOUR + bytes(20), bytes([255]) * 16, 15, 0),
    ('a sentence that is there, in another voice', 0, FOUR + JUNK, bytes([0, 1]), 1, 0),
    ('slack of 255, voice 3, two played', 0, FOUR + bytes([255]) * 25, bytes([9, 0, 9]), 3, 2),
    ('sixteen words in voice 15, fifteen played', 0, FOUR + bytes(20), bytes([255]) * 16, 15, 15),
    ('a sentence that is there, broken off', 0, FOUR + JUNK, bytes([0, 1]), 0, 1),
    ('a sentence that was broken off, in full', 0, four((RECORD[2] + FOURTH, 1)) + JUNK, bytes([0, 1]), 0, 0),
    ('head is not K', 0, eight([3, 8, 1, 6, 7, 2, 5, 4]) + JUNK, bytes([9]), 0, 0),
]


def log_defects():
    """Every subset of 9, 22, 23, 11 to 14 and 19 in one call: the first in this order is the answer."""
    base = history([bytes([i]) for i in range(5)])
    places = {12: (64 + FOURTH, 1), 13: (44 + LINK, 6), 14: (24 + LINK, 1)}
    for subset in range(256):
        chosen = [refusal for i, refusal in enumerate([9, 22, 23, 11, 12, 13, 14, 19]) if subset >> i & 1]
        data = damaged(base, [places[refusal] for refusal in chosen if refusal in places]) + JUNK[:20 - (19 in chosen)]
        if 11 in chosen:
            data = data[:len(base) - 1]
        sentence = bytes([5, 6] * (9 not in chosen))
        yield f'defects {chosen}', chosen[0] if chosen else 0, data, sentence, 16 if 22 in chosen else 6, 2 if 23 in chosen else 1


def resized_histories():
    """Two records and slack, cut to each size."""
    for size in range(67):
        buffer = Buffer(f'two, {size} bytes', (history([bytes([1, 2]), bytes([3])], [2, 1]) + JUNK)[:size])
        buffer.log(bytes([5]), 0, 0)
        yield buffer


def damaged_histories():
    """Two records with each byte set to each of several values."""
    data = history([bytes([1, 2]), bytes([3])], [2, 1])
    for at, byte in enumerate(data):
        for value in sorted({0, 1, 2, 3, 16, 17, 240, 255} - {byte}):
            yield Buffer(f'two, byte {at} is {value}', damaged(data, [(at, value)]))


def every_figure():
    """A sentence of each length with every figure from 0 to 15 in its record, and handed to Log with each, 16 and 17."""
    for length in range(1, 17):
        sentence = bytes(range(1, length + 1))
        for figure in range(16):
            yield Buffer(f'{length} words, {figure} played', history([sentence], voices=[(length + figure) % 16], played=[figure]))
        yield logged(f'{length} words', bytes(4) + (JUNK * 5)[:340], [sentence] * 18, 17, [(length + figure) % 16 for figure in range(18)], range(18))


def logged(name, data, sentences, unshown=0, voices=None, played=None):
    """The sentences logged one after the other, each followed by a check; the first ones without the buffer's bytes."""
    buffer = Buffer(name, data)
    none = [0] * len(sentences)
    for i, (sentence, voice, figure) in enumerate(zip(sentences, voices or none, played or none, strict=True)):
        buffer.log(sentence, voice, figure, i >= unshown)
        buffer.check()
    return buffer


def random_sentence(rng, least, most):
    return bytes(rng.choice([0, 1, 2, 3, 9, 255]) for _ in range(least + rng.below(most - least + 1)))


def history_damages(rng, data):
    """Random damages of an accepted history, each a list of places and values."""
    k = oracle.two_bytes(data, 0)
    links = [2, *range(4, len(data), 20)]
    one, other = rng.choice(links), rng.choice(links)
    return [
        [],
        [random_damage(rng, data)],
        [random_damage(rng, data), random_damage(rng, data)],
        [(one, rng.below(k + 1))],
        [(one, rng.below(k + 2)), (other, rng.below(k + 2))],
    ]


def random_histories(rng):
    """Histories of at most 6 records, as they are and damaged, with slack; then logs, the buffer shown after the last."""
    for i in range(60):
        k = rng.below(7)
        voices = [rng.choice([0, rng.below(16)]) for _ in range(k)]
        said = [random_sentence(rng, 1, 16) for _ in range(k)]
        played = [rng.choice([0, rng.below(len(sentence))]) for sentence in said]
        data = history(said, rng.shuffled(range(1, k + 1)), voices=voices, played=played)
        for places in history_damages(rng, data):
            slack = bytes(rng.below(10) for _ in range(rng.below(50)))
            sentences = [random_sentence(rng, 0, 17) for _ in range(1 + rng.below(3))]
            voices = [rng.choice([0, 1, 15, rng.below(16), 16 + rng.below(240), rng.below(2**64)]) for _ in sentences]
            played = [rng.choice([0, 1, rng.below(max(1, len(sentence))), len(sentence), rng.below(2**64)]) for sentence in sentences]
            yield logged(f'random {i}, damage {places}', damaged(data, places) + slack, sentences, len(sentences) - 1, voices, played)


def history_cases():
    buffers = []
    for name, refusal, data in HISTORY_TRAPS:
        if oracle.check_history(data)[0] != refusal:
            raise AssertionError(f'{name}: document 01 gives {refusal}, the brute-force program {oracle.check_history(data)[0]}')
        buffer = Buffer(name, data)
        buffer.log(bytes([5, 6]), 0, 0, len(data) < 1000)
        buffers.append(buffer)
    for name, refusal, data, sentence, voice, played in LOG_TRAPS + list(log_defects()):
        answer = oracle.append(data, sentence, voice, played)[0]
        if answer != refusal:
            raise AssertionError(f'{name}: the documents give {refusal}, the brute-force program {answer}')
        buffers.append(logged(name, data, [sentence], voices=[voice], played=[played]))
    buffers += [
        *resized_histories(), *damaged_histories(), *every_figure(),
        logged('from none to five', bytes(4) + (JUNK * 2)[:100], [bytes(range(i)) for i in [1, 16, 0, 2, 17, 15, 3, 1]]),
        logged('the same sentence', bytes(4) + bytes([255]) * 79, [bytes([8, 0])] * 4),
        logged('in every voice', bytes(4) + bytes([255]) * 320, [bytes([8, 0])] * 16, 15, range(16)),
        logged('broken off and in full', bytes(4) + bytes([255]) * 120, [bytes([8, 0])] * 6, 5, played=[1, 0, 1, 1, 0, 1]),
        logged('253 to 258', many(253) + JUNK * 2, [bytes([i]) for i in range(5)], 4),
        logged('999 to 1,000', many(999, [*range(500, 1000), *range(1, 500)]) + JUNK[:50], [bytes([5]), bytes([6]), bytes([7])], 2),
        logged('999, exactly the room', many(999) + JUNK[:20], [bytes([5])], 1),
        logged('999, one byte less than the room', many(999) + JUNK[:19], [bytes([5])], 1),
        *random_histories(Rng(1000)),
    ]
    return [case for buffer in buffers for case in buffer.cases]


# ---- Kind sampling

DIARY, LEFT, DRAW, LEFT_MATCHING, DRAW_MATCHING = range(1, 6)  # BANK is 0
BLANK = oracle.BLANK


def sampled(call, length, voice, q, data):
    return bytes([call]) + b''.join(number.to_bytes(8, 'little') for number in (length, voice, q)) + low_high(len(data)) + data


class Samples:
    """The calls on one grammar and one history, each with the brute-force program's answer."""

    def __init__(self, name, bank, diary):
        self.name, self.bank, self.diary, self.calls = name, bank, diary, {}

    def add(self, name, stdin, line):
        if stdin not in self.calls:
            self.calls[stdin] = Case(f'{self.name}: {name}', stdin, line)

    def left(self, pattern, voice=0):
        """Left with the pattern, and of blanks the plain one too. Gives what is left, 0 where it is refused."""
        answer = oracle.remaining_matching(self.bank, self.diary, pattern, voice)
        self.add(f'Left {list(pattern)} in {voice}', sampled(LEFT_MATCHING, 0, voice, 0, pattern), line(*answer))
        if blanks_only(pattern):
            plain = line(*oracle.remaining(self.bank, self.diary, len(pattern), voice))
            self.add(f'Left {len(pattern)} in {voice}', sampled(LEFT, len(pattern), voice, 0, b''), plain)
        return answer[3]

    def draw(self, pattern, q, room, voice=0):
        buffer, named = bytes([SOME]) * room, f'in {voice}: {q} into {room} bytes'
        *answer, after = oracle.draw_matching(self.bank, self.diary, pattern, voice, q, buffer)
        self.add(f'Draw {list(pattern)} {named}', sampled(DRAW_MATCHING, room, voice, q, pattern), line(*answer) + bytes_shown(after))
        if blanks_only(pattern):
            *answer, after = oracle.draw(self.bank, self.diary, len(pattern), voice, q, buffer)
            self.add(f'Draw {len(pattern)} {named}', sampled(DRAW, len(pattern), voice, q, buffer), line(*answer) + bytes_shown(after))

    def every_draw(self, pattern, voice=0, most=12):
        """Left, and the draws from the first to the first beyond; of a long list its ends and its middle."""
        left = self.left(pattern, voice)
        numbers = range(left + 1) if left <= most else [0, 1, left // 2, left - 2, left - 1, left]
        for q in numbers:
            if q < 2**64:
                self.draw(pattern, q, len(pattern) + q % 3, voice)


def blanks_only(pattern):
    return set(pattern) <= {BLANK}


def bytes_shown(data):
    return ':' + ''.join(f' {byte}' for byte in data)


def patterns_of(letters, length):
    """Every pattern of that length over the letters."""
    return map(bytes, itertools.product(letters, repeat=length))


def with_blanks(sentence, *places):
    """The sentence with a blank in each of the places."""
    return damaged(sentence, [(place, BLANK) for place in places])


# Of F in voice 0: three sentences of three words, one of them twice, and one broken off; one in voice 5; foreign words, 255 among them.
HEARD = history([bytes([1, 1, 0]), bytes([0, 0, 1]), bytes([1, 1, 0]), bytes([0, 1, 1]), bytes([1, 0, 0]), bytes([1, 1, 1]), bytes([255, 1, 0]),
                 bytes([0, 2, 1]), bytes([1, 1])], [4, 1, 7, 9, 3, 2, 8, 5, 6], voices=[0, 0, 0, 0, 0, 5, 0, 0, 0], played=[0, 0, 0, 2, 0, 0, 0, 0, 0])
AMBIGUOUS = grammar(2, 0, [[pair(0, 0), word(0), word(1)]])  # three words have two derivations each
WORDS_255 = grammar(255, 0, [[word(a) for a in range(254, 0, -1)]])  # W is 255, and word 0 has no rule
NONE = history([])

# Each: name, the refusal of Draw with a pattern that the documents give (0: accepted), bank, diary, pattern, voice, q, room.
PATTERN_TRAPS = [
    # 9: the pattern's length
    ('no place', 9, F, HEARD, b'', 0, 0, 16),
    ('one place', 16, F, HEARD, bytes([BLANK]), 0, 0, 16),
    ('one place, one word', 0, G, HEARD, bytes([BLANK]), 0, 0, 1),
    ('sixteen places', 0, F, HEARD, bytes([BLANK] * 16), 0, 65535, 16),
    ('seventeen places', 9, F, HEARD, bytes([BLANK] * 17), 0, 0, 17),
    ('seventeen places without a blank', 9, F, HEARD, bytes(17), 0, 0, 17),
    ('256 places', 9, F, HEARD, bytes(256), 0, 0, 17),
    ('258 places', 9, F, HEARD, bytes([BLANK] * 258), 0, 0, 17),

    # 21: a byte that is W or more and no blank
    ('byte W - 1', 0, F, NONE, bytes([1, BLANK]), 0, 0, 2),
    ('byte W', 21, F, NONE, bytes([2, BLANK]), 0, 0, 2),
    ('byte W last', 21, F, NONE, bytes([BLANK, 2]), 0, 0, 2),
    ('byte W in the sixteenth place', 21, F, NONE, bytes([BLANK] * 15 + [2]), 0, 0, 16),
    ('byte 127', 21, F, NONE, bytes([0, 127]), 0, 0, 2),
    ('byte 128', 21, F, NONE, bytes([0, 128]), 0, 0, 2),
    ('byte 254', 21, F, NONE, bytes([0, 254]), 0, 0, 2),
    ('byte 255', 0, F, NONE, bytes([0, 255]), 0, 0, 2),
    ('byte 50 of 50 words', 21, oracle.matrix(), NONE, bytes([0, 10, 20, 30, 50]), 0, 0, 5),
    ('byte 49 of 50 words', 0, oracle.matrix(), NONE, bytes([0, 10, 20, 30, 49]), 0, 0, 5),
    ('byte 254 of 255 words', 0, WORDS_255, NONE, bytes([254]), 0, 0, 1),
    ('byte 1 of 255 words', 0, WORDS_255, NONE, bytes([1]), 0, 0, 1),
    ('byte 0 of 255 words, which no rule has', 16, WORDS_255, NONE, bytes([0]), 0, 0, 1),
    ('byte 255 of 255 words', 0, WORDS_255, NONE, bytes([255]), 0, 253, 1),
    ('byte 254 of 254 words', 21, grammar(254, 0, [[word(a) for a in range(254)]]), NONE, bytes([254]), 0, 0, 1),
    ('byte 253 of 254 words', 0, grammar(254, 0, [[word(a) for a in range(254)]]), NONE, bytes([253]), 0, 0, 1),

    # 21 after 9, 22 and 10
    ('byte W in seventeen places', 9, F, b'', bytes([2] * 17), 16, 0, 0),
    ('byte W, voice 16', 22, F, b'', bytes([2, BLANK]), 16, 0, 0),
    ('byte W, counts', 10, oracle.f_words(16), b'', bytes([16] * 16), 0, 0, 0),
    ('byte W, counts, voice 16', 22, oracle.f_words(16), b'', bytes([16] * 16), 16, 0, 0),
    ('byte W, a damaged bank', 8, grammar(1, 0, [[word(0), word(0)]]), b'', bytes([2]), 0, 0, 0),

    # 21 before 11 to 16 and 20
    ('byte W, no byte of a diary', 21, F, b'', bytes([2, BLANK]), 15, 0, 0),
    ('byte W, layout', 21, F, four((RECORD[1] + LENGTH, 0)), bytes([BLANK, 2]), 0, 0, 0),
    ('byte W, link', 21, F, bytes([0, 0, 1, 0]), bytes([BLANK, 2]), 0, 0, 0),
    ('byte W, loop', 21, F, four((RECORD[2] + LINK, 2)), bytes([BLANK, 2]), 0, 0, 0),
    ('byte W, an ambiguous sentence', 21, G, history([bytes(3)]), bytes([1, BLANK, BLANK]), 0, 0, 0),
    ('byte W, beyond', 21, F, NONE, bytes([2, 2]), 0, 2**64 - 1, 0),
    ('byte W - 1, no byte of a diary', 11, F, b'', bytes([1, BLANK]), 15, 0, 0),
    ('byte W - 1, layout', 12, F, four((RECORD[1] + LENGTH, 0)), bytes([BLANK, 1]), 0, 0, 0),
    ('byte W - 1, link', 13, F, bytes([0, 0, 1, 0]), bytes([BLANK, 1]), 0, 0, 0),
    ('byte W - 1, loop', 14, F, four((RECORD[2] + LINK, 2)), bytes([BLANK, 1]), 0, 0, 0),

    # 10 reads the plain counts, of needed pairs
    ('one of 2^64 sentences fits', 10, oracle.f_words(16), NONE, bytes(16), 0, 0, 16),
    ('none of 2^64 sentences fits', 10, brimful(1), NONE, bytes([16, 0] * 8), 0, 0, 16),
    ('one of 16^15 sentences fits', 0, oracle.f_words(16), NONE, bytes(15), 0, 0, 16),
    ('a count that is not needed', 0, reaching()['single'][0], NONE, bytes([0, 0, 0]), 0, 0, 3),
    ('a count that is needed', 10, reaching()['left of nothing'][0], NONE, bytes([0] * 9), 0, 0, 9),

    # 15 reads every sentence of the length, in the voice, played in full
    ('an ambiguous sentence that fits', 15, AMBIGUOUS, history([bytes(3)]), bytes([0, BLANK, BLANK]), 0, 0, 3),
    ('an ambiguous sentence that does not fit', 15, AMBIGUOUS, history([bytes(3)]), bytes([1, BLANK, BLANK]), 0, 0, 3),
    ('an ambiguous sentence, last on the chain', 15, AMBIGUOUS, history([bytes([1]), bytes([1, 1]), bytes([0, 0, 1])]), bytes([1, 1, 1]), 0, 2**64 - 1, 0),
    ('an ambiguous sentence that does not fit, broken off', 0, AMBIGUOUS, history([bytes(3)], played=[2]), bytes([1, BLANK, BLANK]), 0, 0, 3),
    ('an ambiguous sentence that fits, broken off', 0, AMBIGUOUS, history([bytes(3)], played=[2]), bytes(3), 0, 1, 3),
    ('an ambiguous sentence that does not fit, in another voice', 0, AMBIGUOUS, history([bytes(3)], voices=[7]), bytes([1, BLANK, BLANK]), 0, 0, 3),
    ('an ambiguous sentence that does not fit, in voice 7', 15, AMBIGUOUS, history([bytes(3)], voices=[7]), bytes([1, BLANK, BLANK]), 7, 0, 3),
    ('an ambiguous sentence of another length', 0, AMBIGUOUS, history([bytes(4)]), bytes([1, BLANK, BLANK]), 0, 0, 3),

    # a word 255 of a diary is no blank
    ('255 was heard, one word', 0, grammar(1, 0, [[word(0)]]), history([bytes([255])]), bytes([BLANK]), 0, 0, 1),
    ('255 was heard, one word without a blank', 0, grammar(1, 0, [[word(0)]]), history([bytes([255])]), bytes([0]), 0, 0, 1),
    ('255 was heard beside a word', 0, AMBIGUOUS, history([bytes([255, 0, 0])]), bytes([BLANK, 0, 0]), 0, 3, 3),
    ('255 was heard all over', 0, F, history([bytes([255, 255])]), bytes([BLANK, BLANK]), 0, 3, 2),

    # 16 and 20: what fits and is unheard
    ('the last of what is left', 0, F, HEARD, bytes([1, BLANK, BLANK]), 0, 1, 3),
    ('beyond what is left, below what fits', 16, F, HEARD, bytes([1, BLANK, BLANK]), 0, 2, 3),
    ('beyond what fits', 16, F, NONE, bytes([1, BLANK, BLANK]), 0, 4, 3),
    ('beyond what fits, below the plain left', 16, F, NONE, bytes([1, 1, 1]), 0, 1, 3),
    ('2^64 - 1', 16, F, NONE, bytes([1, BLANK, BLANK]), 0, 2**64 - 1, 3),
    ('2^32', 16, F, NONE, bytes([1, BLANK, BLANK]), 0, 2**32, 3),
    ('heard, without a blank', 16, F, HEARD, bytes([1, 1, 0]), 0, 0, 3),
    ('heard in another voice, without a blank', 0, F, HEARD, bytes([1, 1, 0]), 5, 0, 3),
    ('broken off, without a blank', 0, F, HEARD, bytes([0, 1, 1]), 0, 0, 3),
    ('a buffer of two bytes', 20, F, HEARD, bytes([1, BLANK, BLANK]), 0, 1, 2),
    ('a buffer of no byte', 20, F, HEARD, bytes([1, BLANK, BLANK]), 0, 1, 0),
    ('a buffer of no byte, beyond', 16, F, HEARD, bytes([1, BLANK, BLANK]), 0, 2, 0),
    ('a buffer of more bytes', 0, F, HEARD, bytes([1, BLANK, BLANK]), 0, 1, 40),
]


def sampling_defects():
    """Every subset of one of 1 to 8, 9, 22, 10, 21, one of 11 to 14, 15, 16 and 20 in one call: the first in this order is the answer. Each is
    as a row of PATTERN_TRAPS. Sixteen words need 20^15 derivations of the second nonterminal, above 2^64 - 1; fifteen need 20^14."""
    base = grammar(20, 0, [[pair(0, 0), word(0), pair(1, 4)], [pair(2, 2), pair(1, 2)], words(20), [word(0), word(1)], []])
    rule = [None] + [9 + 4 * i for i in range(base[2])]
    last = base[2]
    banks = {0: base, 1: base[:3], 2: damaged(base, [(3, 5)]), 3: base + b'\0', 4: damaged(base, [(rule[last] + KIND, 2)]),
             5: damaged(base, [(rule[last - 1] + NEXT, last + 1)]), 6: damaged(base, [(rule[last] + NEXT, 1)]),
             7: damaged(base, [(rule[last - 1] + NEXT, 0)]), 8: damaged(base, [(rule[last] + A, 0)])}
    for subset in range(512):
        first, length, voice, counts, letter, wrong, several, beyond, short = (subset >> i & 1 for i in range(9))
        bank = first * (1 + (length ^ letter) + 2 * (voice ^ several) + 4 * (counts ^ beyond))  # each with each of the others
        other = wrong * (11 + (several ^ short) + 2 * (beyond ^ short))
        places = 16 if counts else 15
        heard = history([bytes([2]), bytes([0 if several else 7]) * places, bytes([3])])
        diaries = {0: heard, 11: heard[:-1], 12: damaged(heard, [(7, 49)]), 13: damaged(heard, [(2, 4)]), 14: damaged(heard, [(2, 2)])}
        pattern = bytes([0, BLANK, 20 if letter else BLANK]) + bytes(17 if length else places)[3:]
        chosen = [number for number in (bank, 9 * length, 22 * voice, 10 * counts, 21 * letter, other, 15 * several, 16 * beyond, 20 * short) if number]
        yield (f'defects {chosen}', chosen[0] if chosen else 0, banks[bank], diaries[other], pattern, 16 if voice else 0, 2**64 - 1 if beyond else 1,
               places - 1 if short else places)


def stated_samples():
    """The traps and the sets of defects, each with its call of Draw and of Left, by bank and diary; and once the same with blanks only."""
    groups, met = {}, set()
    for name, refusal, bank, diary, pattern, voice, q, room in [*PATTERN_TRAPS, *sorted(sampling_defects(), key=lambda defect: defect[2:4])]:
        answer = oracle.draw_matching(bank, diary, pattern, voice, q, bytes(room))[0]
        if answer != refusal:
            raise AssertionError(f'{name}: the documents give {refusal}, the brute-force program {answer}')
        samples = groups.setdefault((bank, diary), Samples(name, bank, diary))
        samples.name = name
        samples.left(pattern, voice)
        samples.draw(pattern, q, room, voice)
        if (bank, diary, len(pattern), voice) not in met:
            met.add((bank, diary, len(pattern), voice))
            samples.left(bytes([BLANK] * len(pattern)), voice)
            samples.draw(bytes([BLANK] * len(pattern)), q, room, voice)
    for name, refusal, diary in HISTORY_TRAPS:
        if refusal and len(diary) < 1000:
            samples = groups.setdefault((F, diary), Samples(name, F, diary))
            samples.name = name
            samples.left(bytes([BLANK, 1]))
            samples.draw(bytes([BLANK, 1]), 0, 2)
    return [*groups.values()]


def every_pattern():
    """Of F and of G: each pattern of up to four places, with every draw; in three voices."""
    short = history([bytes([0, 1]), bytes([1, 1]), bytes([0, 1, 1, 0]), bytes([1, 1, 1, 1]), bytes([0, 1, 1, 0]), bytes([1])], [3, 1, 2, 6, 5, 4],
                    voices=[0, 5, 0, 0, 0, 0], played=[0, 0, 0, 3, 0, 0])
    for name, diary, lengths in [('F, heard', HEARD, [3]), ('F, two and four words', short, [1, 2, 4]), ('F, nothing heard', NONE, [1, 2, 3])]:
        samples = Samples(name, F, diary)
        for length in lengths:
            for pattern in patterns_of([0, 1, BLANK], length):
                samples.every_draw(pattern, most=16)
                samples.draw(pattern, 0, length - 1)
                samples.left(pattern, 5)
                samples.left(pattern, 15)
        yield samples
    samples = Samples('G', G, history([bytes(2), bytes(1)], played=[0, 0]))
    for length in range(1, 5):
        for pattern in patterns_of([0, BLANK], length):
            samples.every_draw(pattern)
    yield samples


def ambiguous_samples():
    """Sentences of two and more derivations, nothing of them heard, and one of one derivation heard where there is one."""
    for name, (bank, sentences) in ambiguous().items():
        once = [sentence for sentence, (_, _, count) in sentences.items() if count == 1]
        samples = Samples(name, bank, history(once, voices=[3] * len(once)))
        for sentence in sentences:
            places = range(len(sentence))
            patterns = [sentence, with_blanks(sentence, *places), *(with_blanks(sentence, place) for place in places[:4]), with_blanks(sentence, *places[1:])]
            for pattern in patterns:
                samples.every_draw(pattern, 3, 9)
                samples.left(pattern)
        yield samples


def large_samples(rng):
    """Counts up to 2^64 - 1, a thousand records, and the house bank with carrier phrases."""
    fifteen = oracle.f_words(15)
    heard = [bytes([14] * 16), bytes([13] * 16), bytes([14] + [0] * 15), bytes([7, 14] * 8), bytes(15)]
    samples = Samples('F with 15 words', fifteen, history(heard, [2, 5, 1, 4, 3]))
    for pattern in [bytes([14] + [BLANK] * 15), bytes([BLANK] * 15 + [14]), bytes([BLANK] * 16), bytes([7, BLANK] * 8), bytes([BLANK] * 8 + [14] * 8), *heard]:
        samples.every_draw(pattern)
    yield samples
    samples = Samples('brimful', brimful(), NONE)
    last = oracle.unrank(brimful(), 16, 2**64 - 2, bytes(16))[2]
    for pattern in [bytes([BLANK] * 16), last, with_blanks(last, 0), with_blanks(last, 3, 9, 15), with_blanks(last, *range(8)),
                    with_blanks(last, *range(8, 16)), bytes([BLANK] * 15 + [16]), bytes([16] + [BLANK] * 15)]:
        samples.every_draw(pattern)
    yield samples
    samples = Samples('huge times zero', huge_times_zero(), NONE)
    for pattern in [bytes([BLANK] * 16), bytes(16), bytes([15]), bytes([BLANK])]:
        samples.every_draw(pattern)
    yield samples
    matrix = oracle.matrix()
    carriers = [bytes([BLANK] * 5), bytes([3, BLANK, 24, 31, BLANK]), bytes([BLANK, BLANK, BLANK, BLANK, 45]), bytes([3, BLANK, BLANK, BLANK, BLANK]),
                bytes([3, 11, 24, 31, 45]), bytes([BLANK, 0, BLANK, BLANK, BLANK]), bytes([3, 11, BLANK, 31, 45])]
    for many in (0, 5, 100, 101, 1000):
        numbers = [rng.choice([31000 + rng.below(1000), 31400 + rng.below(100), rng.below(100000)]) for _ in range(many)]
        said = [oracle.unrank(matrix, 5, number, bytes(5))[2] for number in numbers]
        records = rng.shuffled(range(1, many + 1))
        voices, played = [rng.choice([0, 0, 0, 9]) for _ in said], [rng.choice([0, 0, 0, 4]) for _ in said]
        samples = Samples(f'matrix, {many} records', matrix, history(said, records, voices=voices, played=played))
        for pattern in carriers:
            samples.every_draw(pattern, most=10)
            samples.left(pattern, 9)
        yield samples
    yield slack_sample(matrix)


def slack_sample(bank):
    """Few records and much behind them."""
    samples = Samples('matrix, slack', bank, history([bytes([3, 11, 24, 31, 45])], slack=bytes([BLANK]) * 2500))
    for pattern in [bytes([3, 11, 24, 31, BLANK]), bytes([3, 11, 24, 31, 45])]:
        samples.every_draw(pattern)
    return samples


def random_diary(rng, bank, length):
    """Sentences of the length with one derivation, rarely others; foreign words and 255; voices 0 and 9; some broken off."""
    full = oracle.full_list(bank, length)
    said = [full.sentence(rng.below(full.total)) for _ in range(rng.below(7))]
    said = [sentence for sentence in said if full.count(sentence) == 1 or rng.below(30) == 0]
    said += [bytes(rng.choice([0, bank[1] - 1, bank[1], 255]) for _ in range(rng.choice([length, 1 + rng.below(16)]))) for _ in range(rng.below(3))]
    voices = [rng.choice([0, 0, 9]) for _ in said]
    played = [rng.choice([0, 0, 0, rng.below(len(sentence))]) for sentence in said]
    return history(said, rng.shuffled(range(1, len(said) + 1)), voices=voices, played=played)


def random_samples(rng, count):
    """Random grammars with some derivations of a length, their diaries, and patterns from a sentence, of any letters and of blanks."""
    while count:
        bank, length = random_grammar(rng, 4, 3, 9), 2 + rng.below(4)
        if not 4 <= oracle.count(bank, length)[1] <= 60 or sum(oracle.read(bank).totals(length)) > 1000:
            continue
        count -= 1
        samples = Samples(f'random {count}', bank, random_diary(rng, bank, length))
        full = oracle.full_list(bank, length)
        patterns = [bytes([BLANK] * length)]
        for _ in range(4):
            sentence = full.sentence(rng.below(full.total))
            patterns += [bytes(rng.choice([BLANK, byte]) for byte in sentence), with_blanks(sentence, rng.below(length))]
        patterns += [sentence, bytes(rng.choice([BLANK, rng.below(bank[1] + 1)]) for _ in range(length))]
        for pattern in patterns:
            samples.every_draw(pattern, rng.choice([0, 0, 9, 8]), 5)
        yield samples


def sampling_cases():
    rng = Rng(1617)
    groups = [*stated_samples(), *every_pattern(), *ambiguous_samples(), *large_samples(rng), *random_samples(rng, 50)]
    cases, bank, diary = [], None, None
    for samples in groups:
        frame = b''
        if samples.bank != bank:
            bank = samples.bank
            frame += sampled(BANK, 0, 0, 0, bank)
        if samples.diary != diary:
            diary = samples.diary
            frame += sampled(DIARY, 0, 0, 0, diary)
        first, *others = samples.calls.values()
        cases += [first._replace(stdin=frame + first.stdin), *others]
    return cases


# ---- Kind weighted

WEIGHTS, DRAW_WEIGHTED, DRAW_PLAIN = range(2, 5)  # BANK is 0, DIARY 1


class Lottery:
    """The calls on one grammar and one history by their weights, each with the brute-force program's answer."""

    def __init__(self, name, bank, diary):
        self.name, self.bank, self.diary, self.calls = name, bank, diary, {}

    def add(self, name, weights, stdin, line):
        calls = self.calls.setdefault(weights, {})
        if stdin not in calls:
            calls[stdin] = Case(f'{self.name}: {name}', stdin, line)

    def draw(self, length, weights, ticket, room, voice=0):
        """Draw with the weights, and with a weight of 1 for every word the plain one too. Gives the total of tickets, 0 where
        it is refused."""
        buffer, named = bytes([SOME]) * room, f'{length} in {voice}: {ticket} into {room} bytes'
        *answer, after = oracle.draw_weighted(self.bank, self.diary, length, voice, weights, ticket, buffer)
        shown = list(weights) if len(set(weights)) > 1 or len(weights) < 4 else f'{len(weights)} times {weights[0]}'
        self.add(f'Draw {named} by {shown}', weights, sampled(DRAW_WEIGHTED, length, voice, ticket, buffer), line(*answer) + bytes_shown(after))
        if weights == ones(self.bank):
            *plain, after = oracle.draw(self.bank, self.diary, length, voice, ticket, buffer)
            self.add(f'Draw {named}', weights, sampled(DRAW_PLAIN, length, voice, ticket, buffer), line(*plain) + bytes_shown(after))
        return answer[1]

    def own(self, length, weights, ticket, voice):
        """The first ticket of the derivation that owns this one, and the first behind its tickets."""
        full, heard = oracle.full_list(self.bank, length), oracle.heard_of(self.diary, length, voice)
        number, sentence = full.owner(heard, weights, ticket)
        weight = oracle.weight_of(sentence, weights)
        low, high = max(0, ticket - weight + 1), ticket
        while low < high:
            middle = (low + high) // 2
            if full.owner(heard, weights, middle)[0] < number:
                low = middle + 1
            else:
                high = middle
        return low, low + weight

    def every_ticket(self, length, weights, voice=0, most=30, about=()):
        """Each ticket from 0 to the first beyond. Of a long list its ends and its middle; and for each of these and of about the
        borders of its owner's tickets."""
        total = self.draw(length, weights, 0, length, voice)
        numbers = range(total + 1)
        if total > most:
            inner = [ticket for ticket in (0, total // 2, total - 1, *about) if ticket < total]
            borders = [border for ticket in inner for border in self.own(length, weights, ticket, voice)]
            numbers = sorted({0, 1, total // 2, total - 2, total - 1, total, *borders, *(border - 1 for border in borders if border)})
        for ticket in numbers:
            if ticket < 2**64:
                self.draw(length, weights, ticket, length + ticket % 3, voice)


def ones(bank):
    """A weight of 1 for every word; of a grammar without that byte, none."""
    return bytes([1]) * (bank[1] if len(bank) > 1 else 0)


def weighing(w, *places):
    """A weight of 1 for each of w words, but for those that are named with theirs."""
    return damaged(bytes([1]) * w, places)


HEAVY = 239  # the word that takes the place of 240 in reaching(), where it weighs 255
UNUSED = grammar(5, 0, [[pair(1, 1), pair(1, 0)], [word(3), word(1)]])  # F with the words 3 and 1 of five
# Of that in voice 0: a sentence broken off, one heard, and one with 255 and a word that no rule has; in voice 9 one twice.
OF_FIVE = history([bytes([1, 3]), bytes([3, 3]), bytes([3, 1]), bytes([3, 1]), bytes([255, 4])], [3, 5, 1, 2, 4], voices=[0, 0, 9, 9, 0],
                  played=[1, 0, 0, 0, 0])
LAST = bytes([3] * 16)  # of laden(1) the derivation that is one too many

# Each: name, the refusal of Draw with weights that the documents give (0: accepted), bank, diary, length, voice, weights, ticket, room.
WEIGHT_TRAPS = [
    # 24: W bytes
    ('two weights of two', 0, F, HEARD, 3, 0, bytes([3, 2]), 0, 3),
    ('no weight', 24, F, HEARD, 3, 0, b'', 0, 3),
    ('one weight of two', 24, F, HEARD, 3, 0, bytes([3]), 0, 3),
    ('three weights of two', 24, F, HEARD, 3, 0, bytes([3, 2, 1]), 0, 3),
    ('256 weights of two', 24, F, HEARD, 3, 0, bytes([1] * 256), 0, 3),
    ('258 weights of two', 24, F, HEARD, 3, 0, bytes([1] * 258), 0, 3),
    ('no weight of one', 24, G, NONE, 3, 0, b'', 0, 3),
    ('one weight of one', 0, G, NONE, 3, 0, bytes([7]), 685, 3),
    ('two weights of one', 24, G, NONE, 3, 0, bytes([7, 7]), 0, 3),
    ('49 weights of 50', 24, oracle.matrix(), NONE, 5, 0, bytes([2] * 49), 0, 5),
    ('50 weights of 50', 0, oracle.matrix(), NONE, 5, 0, bytes([2] * 50), 3199999, 5),
    ('51 weights of 50', 24, oracle.matrix(), NONE, 5, 0, bytes([2] * 51), 0, 5),
    ('254 weights of 255', 24, WORDS_255, NONE, 1, 0, bytes([2] * 254), 0, 1),
    ('255 weights of 255', 0, WORDS_255, NONE, 1, 0, bytes([2] * 255), 507, 1),
    ('256 weights of 255', 24, WORDS_255, NONE, 1, 0, bytes([2] * 256), 0, 1),

    # 24: none of them 0
    ('the first weight is 0', 24, F, HEARD, 3, 0, bytes([0, 2]), 0, 3),
    ('the last weight is 0', 24, F, HEARD, 3, 0, bytes([3, 0]), 0, 3),
    ('both weights are 0', 24, F, HEARD, 3, 0, bytes(2), 0, 3),
    ('a 0 behind two weights', 24, F, HEARD, 3, 0, bytes([3, 2, 0]), 0, 3),
    ('the only weight is 0', 24, G, NONE, 1, 0, bytes(1), 0, 1),
    ('a 0 among 50', 24, oracle.matrix(), NONE, 5, 0, weighing(50, (24, 0)), 0, 5),
    ('a 0 at the end of 50', 24, oracle.matrix(), NONE, 5, 0, weighing(50, (49, 0)), 0, 5),
    ('a 0 at the end of 255', 24, WORDS_255, NONE, 1, 0, weighing(255, (254, 0)), 0, 1),
    ('a 0 for a word that no rule has', 24, WORDS_255, NONE, 1, 0, weighing(255, (0, 0)), 0, 1),
    ('a 0 for the last word, which no rule has', 24, UNUSED, NONE, 2, 0, bytes([1, 2, 3, 4, 0]), 0, 2),

    # Words that no rule has add to no total
    ('255 for a word that no rule has', 0, WORDS_255, NONE, 1, 0, weighing(255, (0, 255)), 253, 1),
    ('255 for a word that no rule has, beyond', 16, WORDS_255, NONE, 1, 0, weighing(255, (0, 255)), 254, 1),
    ('255 for three words that no rule has', 0, UNUSED, OF_FIVE, 2, 0, bytes([255, 2, 255, 3, 255]), 15, 2),
    ('255 for three words that no rule has, beyond', 16, UNUSED, OF_FIVE, 2, 0, bytes([255, 2, 255, 3, 255]), 16, 2),
    ('255 for three words that no rule has, sixteen words', 0, UNUSED, NONE, 16, 0, bytes([255, 7, 255, 8, 255]), 15**16 - 1, 16),

    # 24 after 1 to 9, 22 and 10
    ('no weight, no length', 9, F, b'', 0, 16, b'', 0, 0),
    ('no weight, length 17', 9, F, b'', 17, 16, b'', 0, 0),
    ('no weight, voice 16', 22, F, b'', 2, 16, b'', 0, 0),
    ('no weight, counts', 10, oracle.f_words(16), b'', 16, 0, b'', 0, 0),
    ('a 0 of sixteen, counts, voice 16', 22, oracle.f_words(16), b'', 16, 16, bytes(16), 0, 0),
    ('no weight, a damaged bank', 8, grammar(1, 0, [[word(0), word(0)]]), b'', 1, 0, b'', 0, 0),
    ('no weight, no byte of a bank', 1, b'', b'', 1, 0, b'', 0, 0),

    # 24 before 25, 11 to 16 and 20
    ('a 0, total weights', 24, F, b'', 16, 0, bytes([255, 0]), 0, 0),
    ('three weights of two, total weights', 24, F, b'', 16, 0, bytes([255] * 3), 0, 0),
    ('a 0, no byte of a diary', 24, F, b'', 2, 15, bytes([0, 1]), 0, 0),
    ('a 0, layout', 24, F, four((RECORD[1] + LENGTH, 0)), 2, 0, bytes([0, 1]), 0, 0),
    ('a 0, link', 24, F, bytes([0, 0, 1, 0]), 2, 0, bytes([0, 1]), 0, 0),
    ('a 0, loop', 24, F, four((RECORD[2] + LINK, 2)), 2, 0, bytes([0, 1]), 0, 0),
    ('a 0, an ambiguous sentence', 24, G, history([bytes(3)]), 3, 0, bytes(1), 0, 0),
    ('a 0, beyond', 24, F, NONE, 2, 0, bytes([0, 1]), 2**64 - 1, 0),
    ('weights, no byte of a diary', 11, F, b'', 2, 15, bytes([3, 1]), 0, 0),
    ('weights, layout', 12, F, four((RECORD[1] + LENGTH, 0)), 2, 0, bytes([3, 1]), 0, 0),
    ('weights, link', 13, F, bytes([0, 0, 1, 0]), 2, 0, bytes([3, 1]), 0, 0),
    ('weights, loop', 14, F, four((RECORD[2] + LINK, 2)), 2, 0, bytes([3, 1]), 0, 0),

    # 25: the total weight at the whole length. F has (a + b)^n tickets
    ('15^16 tickets', 0, F, NONE, 16, 0, bytes([1, 14]), 15**16 - 1, 16),
    ('15^16 tickets, beyond', 16, F, NONE, 16, 0, bytes([1, 14]), 15**16, 16),
    ('16^16 tickets', 25, F, NONE, 16, 0, bytes([1, 15]), 0, 16),
    ('16^16 tickets, by equal weights', 25, F, NONE, 16, 0, bytes([8, 8]), 0, 16),
    ('16^15 tickets', 0, F, NONE, 15, 0, bytes([8, 8]), 2**60 - 1, 15),
    ('510^16 tickets', 25, F, NONE, 16, 0, bytes([255, 255]), 0, 16),
    ('510^8 tickets', 25, F, NONE, 8, 0, bytes([255, 255]), 0, 16),
    ('510^7 tickets', 0, F, NONE, 7, 0, bytes([255, 255]), 510**7 - 1, 7),
    ('255^8 tickets', 0, oracle.f_words(1), NONE, 8, 0, bytes([255]), 255**8 - 1, 8),
    ('255^9 tickets', 25, oracle.f_words(1), NONE, 9, 0, bytes([255]), 0, 9),
    ('2^64 - 1 tickets, the last', 0, laden(), NONE, 16, 0, LADEN, 2**64 - 2, 16),
    ('2^64 - 1 tickets, the first', 0, laden(), NONE, 16, 0, LADEN, 0, 16),
    ('2^64 - 1 tickets, beyond', 16, laden(), NONE, 16, 0, LADEN, 2**64 - 1, 16),
    ('2^64 tickets', 25, laden(1), NONE, 16, 0, LADEN, 0, 16),
    ('2^64 tickets, one of them heard', 25, laden(1), history([LAST]), 16, 0, LADEN, 0, 16),
    ('2^64 tickets with a weight less', 0, laden(1), NONE, 16, 0, bytes([14, 17, 16, 1]), 238 * (2**64 - 1) // 255, 16),
    ('2^64 - 1 tickets with a weight more', 25, laden(), NONE, 16, 0, bytes([15, 17, 16, 2]), 0, 16),
    ('2^64 - 1 derivations of weight 1', 0, brimful(), NONE, 16, 0, ones(brimful()), 2**64 - 2, 16),
    ('2^64 - 1 derivations, one word weighs 2', 25, brimful(), NONE, 16, 0, weighing(17, (16, 2)), 0, 16),
    ('2^64 derivations of weight 1', 10, brimful(1), NONE, 16, 0, ones(brimful(1)), 0, 16),
    ('every tree, 5^16 times as many', 0, G, NONE, 16, 0, bytes([5]), 9694845 * 5**16 - 1, 16),
    ('every tree, 6^16 times as many', 25, G, NONE, 16, 0, bytes([6]), 0, 16),

    # 25 reads needed pairs, beside nothing too, and no others
    ('2^64 - 1 beside nothing', 0, beside_nothing(), NONE, 9, 0, BESIDE, 0, 9),
    ('2^64 - 1 beside nothing, beyond', 16, beside_nothing(), NONE, 9, 0, BESIDE, 1, 9),
    ('2^64 beside nothing', 25, beside_nothing(1), NONE, 9, 0, BESIDE, 0, 9),
    ('2^64 beside nothing, a weight less', 0, beside_nothing(1), NONE, 9, 0, damaged(BESIDE, [(0, 254)]), 0, 9),
    ('2^64 that eight words do not need', 16, beside_nothing(1), NONE, 8, 0, BESIDE, 0, 8),
    ('2^64 that one word does not need', 0, beside_nothing(1), NONE, 1, 0, BESIDE, 0, 1),
    ('2^64 that sixteen words need', 25, beside_nothing(1), NONE, 16, 0, BESIDE, 0, 16),
    *((f'{name}, {length} words by weight', 25 if length in refused else 16 if oracle.count(bank, length)[1] == 0 else 0, bank, NONE, length, 0,
       weighing(240, (HEAVY, 255)), 0, 16) for name, (bank, refused) in reaching([HEAVY]).items() for length in (1, 2, 3, 7, 8, 9, 10, 11, 16)),

    # 25 after 9, 22 and 10, before 11 to 16 and 20
    ('total weights, length 17', 9, F, b'', 17, 0, bytes([255, 255]), 0, 0),
    ('total weights, voice 16', 22, F, b'', 16, 16, bytes([255, 255]), 0, 0),
    ('total weights, counts', 10, oracle.f_words(16), b'', 16, 0, bytes([255] * 16), 0, 0),
    ('total weights, no byte of a diary', 25, F, b'', 16, 0, bytes([255, 255]), 0, 0),
    ('total weights, layout', 25, F, four((RECORD[1] + LENGTH, 0)), 16, 0, bytes([255, 255]), 0, 0),
    ('total weights, link', 25, F, bytes([0, 0, 1, 0]), 16, 0, bytes([255, 255]), 0, 0),
    ('total weights, loop', 25, F, four((RECORD[2] + LINK, 2)), 16, 0, bytes([255, 255]), 0, 0),
    ('total weights, an ambiguous sentence', 25, G, history([bytes(9)]), 9, 0, bytes([255]), 0, 0),
    ('total weights, beyond', 25, F, NONE, 16, 0, bytes([255, 255]), 2**64 - 1, 0),

    # 15 reads the sentences of the length, in the voice, played in full
    ('an ambiguous sentence', 15, AMBIGUOUS, history([bytes(3)]), 3, 0, bytes([3, 2]), 0, 3),
    ('an ambiguous sentence, last on the chain, beyond', 15, AMBIGUOUS, history([bytes([1]), bytes([1, 1]), bytes([0, 0, 1])]), 3, 0, b'\3\2', 2**64 - 1, 0),
    ('an ambiguous sentence, broken off', 0, AMBIGUOUS, history([bytes(3)], played=[2]), 3, 0, bytes([3, 2]), 249, 3),
    ('an ambiguous sentence in another voice', 0, AMBIGUOUS, history([bytes(3)], voices=[7]), 3, 0, bytes([3, 2]), 249, 3),
    ('an ambiguous sentence in voice 7', 15, AMBIGUOUS, history([bytes(3)], voices=[7]), 3, 7, bytes([3, 2]), 0, 3),
    ('an ambiguous sentence of another length', 0, AMBIGUOUS, history([bytes(4)]), 3, 0, bytes([3, 2]), 249, 3),

    # a word of a diary that has no weight
    ('255 was heard, one word', 0, grammar(1, 0, [[word(0)]]), history([bytes([255])]), 1, 0, bytes([9]), 8, 1),
    ('255 was heard of 255 words', 0, WORDS_255, history([bytes([255])]), 1, 0, bytes([255] * 255), 254 * 255 - 1, 1),
    ('254 was heard of 255 words', 16, WORDS_255, history([bytes([254]), bytes([255])]), 1, 0, bytes([255] * 255), 253 * 255, 1),
    ('W and 255 were heard beside words', 0, F, history([bytes([0, 2]), bytes([255, 1]), bytes([1, 255])]), 2, 0, bytes([3, 2]), 24, 2),

    # 16: the total of unheard tickets. Of F the heard ones weigh 12, 18 and 18 of 125
    ('the last of what is left', 0, F, HEARD, 3, 0, bytes([3, 2]), 76, 3),
    ('beyond what is left, below what all weigh', 16, F, HEARD, 3, 0, bytes([3, 2]), 77, 3),
    ('what all weigh', 16, F, HEARD, 3, 0, bytes([3, 2]), 125, 3),
    ('what is left in voice 5', 0, F, HEARD, 3, 5, bytes([3, 2]), 116, 3),
    ('beyond what is left in voice 5', 16, F, HEARD, 3, 5, bytes([3, 2]), 117, 3),
    ('what is left in voice 15', 0, F, HEARD, 3, 15, bytes([3, 2]), 124, 3),
    ('beyond what is left in voice 15', 16, F, HEARD, 3, 15, bytes([3, 2]), 125, 3),
    ('ticket 2^32', 16, F, HEARD, 3, 0, bytes([3, 2]), 2**32, 3),
    ('ticket 2^64 - 1', 16, F, HEARD, 3, 0, bytes([3, 2]), 2**64 - 1, 3),
    ('nothing derived', 16, F, HEARD, 1, 0, bytes([3, 2]), 0, 3),
    ('nothing left', 16, F, history([bytes([a, b]) for a in (0, 1) for b in (1, 0)]), 2, 0, bytes([3, 2]), 0, 2),
    ('nothing left but what was broken off', 0, F, history([bytes([a, b]) for a in (0, 1) for b in (1, 0)], played=[0, 1, 0, 0]), 2, 0, bytes([3, 2]), 8, 2),

    # 20 after 16
    ('a buffer of two bytes', 20, F, HEARD, 3, 0, bytes([3, 2]), 76, 2),
    ('a buffer of no byte', 20, F, HEARD, 3, 0, bytes([3, 2]), 76, 0),
    ('a buffer of no byte, beyond', 16, F, HEARD, 3, 0, bytes([3, 2]), 77, 0),
    ('a buffer of more bytes', 0, F, HEARD, 3, 0, bytes([3, 2]), 76, 40),

    # lengths
    ('length 0', 9, F, HEARD, 0, 0, bytes([3, 2]), 0, 16),
    ('length 1', 0, G, HEARD, 1, 0, bytes([3]), 2, 1),
    ('length 16', 0, F, HEARD, 16, 0, bytes([3, 2]), 5**16 - 1, 16),
    ('length 17', 9, F, HEARD, 17, 0, bytes([3, 2]), 0, 17),
    ('length 256 + 3', 9, F, HEARD, 259, 0, bytes([3, 2]), 0, 17),
    ('length 2^32 + 3', 9, F, HEARD, 2**32 + 3, 0, bytes([3, 2]), 0, 17),
    ('length 2^64 - 1', 9, F, HEARD, 2**64 - 1, 0, bytes([3, 2]), 0, 17),
]


def weighted_defects():
    """Every subset of one of 1 to 8, 9, 22, 10, 24, 25, one of 11 to 14, 15, 16 and 20 in one call: the first in this order is the answer.
    Each is as a row of WEIGHT_TRAPS. Sixteen words need 20^15 derivations of the second nonterminal, above 2^64 - 1; fifteen need 20^14, or
    a total weight of 24^14, above 2^64 - 1, where one of the twenty words weighs 5."""
    base = grammar(20, 0, [[pair(0, 0), word(0), pair(1, 4)], [pair(2, 2), pair(1, 2)], words(20), [word(0), word(1)], []])
    rule = [None] + [9 + 4 * i for i in range(base[2])]
    last = base[2]
    banks = {0: base, 1: base[:3], 2: damaged(base, [(3, 5)]), 3: base + b'\0', 4: damaged(base, [(rule[last] + KIND, 2)]),
             5: damaged(base, [(rule[last - 1] + NEXT, last + 1)]), 6: damaged(base, [(rule[last] + NEXT, 1)]),
             7: damaged(base, [(rule[last - 1] + NEXT, 0)]), 8: damaged(base, [(rule[last] + A, 0)])}
    for subset in range(1024):
        first, length, voice, counts, faulty, heavy, wrong, several, beyond, short = (subset >> i & 1 for i in range(10))
        bank = first * (1 + (length ^ faulty) + 2 * (voice ^ several) + 4 * (counts ^ beyond))  # each with each of the others
        other = wrong * (11 + (several ^ short) + 2 * (beyond ^ short))
        places = 16 if counts else 15
        heard = history([bytes([2]), bytes([0 if several else 7]) * places, bytes([3])])
        diaries = {0: heard, 11: heard[:-1], 12: damaged(heard, [(7, 49)]), 13: damaged(heard, [(2, 4)]), 14: damaged(heard, [(2, 2)])}
        weights = weighing(20, (19, 5 if heavy else 1))
        if faulty:
            weights = [weights[:-1], weights + b'\1', damaged(weights, [(0, 0)]), damaged(weights, [(18, 0)])][(voice ^ short) + 2 * (several ^ first)]
        chosen = [number for number in (bank, 9 * length, 22 * voice, 10 * counts, 24 * faulty, 25 * heavy, other, 15 * several, 16 * beyond, 20 * short)
                  if number]
        yield (f'defects {chosen}', chosen[0] if chosen else 0, banks[bank], diaries[other], 17 if length else places, 16 if voice else 0, weights,
               2**64 - 1 if beyond else 1, places - 1 if short else places)


def stated_lotteries():
    """The traps and the sets of defects, each with its call, by bank and diary; and once the same with a weight of 1 for every word."""
    groups, met = {}, set()
    for name, refusal, bank, diary, length, voice, weights, ticket, room in [*WEIGHT_TRAPS, *sorted(weighted_defects(), key=lambda row: (*row[2:4], row[6]))]:
        answer = oracle.draw_weighted(bank, diary, length, voice, weights, ticket, bytes(room))[0]
        if answer != refusal:
            raise AssertionError(f'{name}: the documents give {refusal}, the brute-force program {answer}')
        lottery = groups.setdefault((bank, diary), Lottery(name, bank, diary))
        lottery.name = name
        lottery.draw(length, weights, ticket, room, voice)
        if (bank, diary, length, voice) not in met:
            met.add((bank, diary, length, voice))
            lottery.draw(length, ones(bank), ticket, room, voice)
    for name, refusal, diary in HISTORY_TRAPS:
        if refusal and len(diary) < 1000:
            lottery = groups.setdefault((F, diary), Lottery(name, F, diary))
            lottery.name = name
            lottery.draw(2, bytes([3, 2]), 0, 2)
    return [*groups.values()]


def small_lotteries():
    """Of F, G and F with words of five: every ticket by several weights, in several voices, with sentences heard, repeated and broken off."""
    short = history([bytes([0, 1]), bytes([1, 1]), bytes([0, 1, 1, 0]), bytes([1, 1, 1, 1]), bytes([0, 1, 1, 0]), bytes([1])], [3, 1, 2, 6, 5, 4],
                    voices=[0, 5, 0, 0, 0, 0], played=[0, 0, 0, 3, 0, 0])
    for name, diary, lengths in [('F, heard', HEARD, [3]), ('F, two and four words', short, [1, 2, 4]), ('F, nothing heard', NONE, [1, 2, 3])]:
        lottery = Lottery(name, F, diary)
        for length in lengths:
            for weights in (bytes([1, 1]), bytes([3, 2]), bytes([1, 4]), bytes([4, 1]), bytes([2, 2]), bytes([255, 1]), bytes([1, 255]), bytes([255, 254])):
                lottery.every_ticket(length, weights, most=80)
                lottery.draw(length, weights, 0, length - 1)
                for voice in (5, 15):
                    lottery.every_ticket(length, weights, voice, most=16)
        yield lottery
    lottery = Lottery('G', G, history([bytes(2), bytes(1)]))
    for length in range(1, 6):
        for weight in (1, 2, 3, 255):
            lottery.every_ticket(length, bytes([weight]), most=24)
            lottery.every_ticket(length, bytes([weight]), voice=4, most=24)
    yield lottery
    lottery = Lottery('F with words of five', UNUSED, OF_FIVE)
    for weights in (ones(UNUSED), bytes([9, 2, 9, 3, 9]), bytes([255, 1, 255, 4, 255]), bytes([1, 255, 1, 7, 1])):
        for voice in (0, 9):
            lottery.every_ticket(2, weights, voice, most=40)
            lottery.every_ticket(3, weights, voice, most=20)
    yield lottery


def ambiguous_lotteries():
    """Sentences of two and more derivations, nothing of them heard; and one of one derivation heard where there is one."""
    for name, (bank, sentences) in ambiguous().items():
        once = [sentence for sentence, (_, _, count) in sentences.items() if count == 1]
        lottery = Lottery(name, bank, history(once, voices=[3] * len(once)))
        for length in sorted({len(sentence) for sentence in sentences}):
            small = length < 10
            for weights in (ones(bank), bytes([3, 2, 4][:bank[1]]), bytes([1, 255, 1][:bank[1]]) if small else bytes([2, 1, 1][:bank[1]])):
                for voice in (3, 0):
                    lottery.every_ticket(length, weights, voice, most=12 if small else 0)
        yield lottery


# What the eight derivations of laden() weigh by LADEN: 15 * 17 times 256 or 1, times 256^2 or 1, times 256^4 or 1.
LADEN_WEIGHTS = [255 * two * four * eight for two in (256, 1) for four in (256**2, 1) for eight in (256**4, 1)]


def large_lotteries(rng):
    """Totals up to 2^64 - 1, a thousand records, and the house bank by the frequency of its words."""
    heard = [bytes([0, 1, 2, 2] + [2] * 4 + [3] * 8), bytes([0, 1, 3, 3] + [3] * 4 + [2] * 8), bytes([0, 1, 2, 2] + [2] * 12), LAST]
    borders = [sum(LADEN_WEIGHTS[:i]) for i in range(9)]
    for many in range(5):
        lottery = Lottery(f'laden, {many} heard', laden(), history(heard[:many], voices=[2] * many))
        for voice in (2, 0):
            lottery.every_ticket(16, LADEN, voice, about=borders)
            lottery.every_ticket(16, bytes([1, 2, 3, 4]), voice, about=[5 * 10**i for i in range(7)])
            lottery.every_ticket(16, bytes([255, 254, 1, 3]), voice, about=[5 * 10**i for i in range(7)])
        yield lottery
    parts = brimful(0, 8, [0, 1], [2, 3, 4], [5, 6], [7]), bytes([7, 8, 5, 11, 1, 15, 1, 1])
    lottery = Lottery('laden, groups of words', parts[0], history([bytes([1, 4, 7, 7] + [6] * 4 + [5] * 8), bytes([0, 3] + [7] * 14)]))
    lottery.every_ticket(16, parts[1], about=[rng.below(2**60) * 16 for _ in range(6)])
    yield lottery
    lottery = Lottery('brimful', brimful(), history([oracle.unrank(brimful(), 16, number, bytes(16))[2] for number in (0, 2**63, 2**64 - 5)]))
    for voice in (0, 1):
        lottery.every_ticket(16, ones(brimful()), voice)
    yield lottery
    fifteen = oracle.f_words(15)
    said = [bytes([14] * 7 + [12]), bytes([13] * 8), bytes([14] + [0] * 7), bytes([7, 14] * 4), bytes(8), bytes([0, 0, 0, 0, 0, 0, 0, 1])]
    lottery = Lottery('F with 15 words', fifteen, history(said, [2, 5, 1, 4, 3, 6]))
    for weights in (ones(fifteen), bytes(range(1, 16)), bytes(range(15, 0, -1)), weighing(15, (0, 200)), weighing(15, (14, 200), (7, 255))):
        lottery.every_ticket(8, weights, about=[rng.below(10**9) for _ in range(2)])
        lottery.every_ticket(3, weights, about=[rng.below(1000) for _ in range(2)])
    yield lottery
    for extra in (0, 1):
        lottery = Lottery(f'beside nothing, {extra} more', beside_nothing(extra), NONE)
        for length in (1, 8, 9, 10, 16):
            for weights in (BESIDE, ones(beside_nothing()), damaged(BESIDE, [(5, 9)]), damaged(BESIDE, [(2, 1)]), damaged(BESIDE, [(2, 3)])):
                lottery.every_ticket(length, weights)
        yield lottery
    zero = huge_times_zero()
    lottery = Lottery('huge times zero', zero, NONE)
    for weights in (ones(zero), weighing(16, (15, 9)), weighing(16, (0, 5))):
        for length in (1, 2, 15, 16):
            lottery.every_ticket(length, weights)
    yield lottery
    yield from matrix_lotteries(rng)


def matrix_lotteries(rng):
    """The house bank, with diaries of up to a thousand records, sentences repeated, in two voices and broken off; and with slack."""
    matrix = oracle.matrix()
    common = bytes(1 + rng.choice([0, 0, 1, 5, 60, 254]) for _ in range(50))
    for many in (0, 5, 100, 1000):
        numbers = [rng.choice([31000 + rng.below(1000), 31400 + rng.below(100), rng.below(100000)]) for _ in range(many)]
        said = [oracle.unrank(matrix, 5, number, bytes(5))[2] for number in numbers]
        records = rng.shuffled(range(1, many + 1))
        voices, played = [rng.choice([0, 0, 0, 9]) for _ in said], [rng.choice([0, 0, 0, 4]) for _ in said]
        lottery = Lottery(f'matrix, {many} records', matrix, history(said, records, voices=voices, played=played))
        for weights in (ones(matrix), common, weighing(50, (3, 20), (45, 5))):
            total = oracle.draw_weighted(matrix, lottery.diary, 5, 0, weights, 0, bytes(5))[1]
            lottery.every_ticket(5, weights, about=[rng.below(total) for _ in range(8)])
        lottery.every_ticket(5, common, 9)
        yield lottery
    lottery = Lottery('matrix, slack', matrix, history([bytes([3, 11, 24, 31, 45])], slack=bytes([255]) * 2500))
    lottery.every_ticket(5, weighing(50, (3, 20), (45, 5)), about=[42100, 84200])
    yield lottery


def random_weights(rng, w):
    """Small ones, any, ones and 255, or ones with a few others; rarely a 0, or a byte too many or too few."""
    kind = rng.below(7)
    data = bytes(1 + rng.choice([[0, 1, 2], [0, 1], [0, 3], [0, 0, 1], [0, 254], [rng.below(255)], [0, 0, 0, rng.below(255)]][kind]) for _ in range(w))
    damage = rng.below(24)
    return damaged(data, [(rng.below(w), 0)]) if damage == 0 else data + b'\1' if damage == 1 else data[1:] if damage == 2 else data


def random_lotteries(rng, count):
    """Random grammars with some derivations of a length, their diaries and weights."""
    while count:
        bank, length = random_grammar(rng, 4, 4, 10), 1 + rng.below(6)
        if not 3 <= oracle.count(bank, length)[1] <= rng.choice([8, 60]) or sum(oracle.read(bank).totals(length)) > 1000:
            continue
        if len({rule.a for rule in oracle.rules_of(bank).values() if rule.kind == oracle.WORD}) == 1:
            continue
        count -= 1
        lottery = Lottery(f'random {count}', bank, random_diary(rng, bank, length))
        for weights in [ones(bank), *(random_weights(rng, bank[1]) for _ in range(3))]:
            lottery.every_ticket(length, weights, rng.choice([0, 0, 9, 8]), 40, [rng.below(100), rng.below(10**6)])
        yield lottery


def weighted_cases():
    rng = Rng(71)
    groups = [*stated_lotteries(), *small_lotteries(), *ambiguous_lotteries(), *large_lotteries(rng), *random_lotteries(rng, 38)]
    cases, state = [], {}
    for lottery in groups:
        for weights, calls in lottery.calls.items():
            frame = b''
            for call, data in [(BANK, lottery.bank), (DIARY, lottery.diary), (WEIGHTS, weights)]:
                if state.get(call) != data:
                    state[call] = data
                    frame += sampled(call, 0, 0, 0, data)
            first, *others = calls.values()
            cases += [first._replace(stdin=frame + first.stdin), *others]
    return cases


# ---- Writing and checking

KINDS = {'grammar': grammar_cases, 'matrix': matrix_table, 'ranking': ranking_cases, 'history': history_cases, 'sampling': sampling_cases,
         'weighted': weighted_cases}


def files(cases):
    return {'stdin': b''.join(case.stdin for case in cases), 'stdout': b''.join(case.line.encode() + b'\n' for case in cases)}


def differing(outdir, cases):
    """The files of outdir that are not what the cases give."""
    found = []
    for name, content in files(cases).items():
        path = outdir / name
        if not path.is_file() or path.read_bytes() != content:
            found.append(path)
    return found


def main():
    parser = argparse.ArgumentParser(description=__doc__, formatter_class=argparse.RawDescriptionHelpFormatter)
    parser.add_argument('kind', nargs='?', choices=KINDS)
    parser.add_argument('outdir', nargs='?', type=pathlib.Path)
    parser.add_argument('--check', action='store_true')
    parser.add_argument('--names', action='store_true')
    parser.add_argument('--list', action='store_true')
    args = parser.parse_args()
    if args.list:
        print('\n'.join(KINDS))
        return 0
    if args.kind is None or (args.outdir is None) != args.names:
        parser.error('a kind and a folder, or a kind and --names')
    cases = KINDS[args.kind]()
    if args.names:
        for number, case in enumerate(cases, 1):
            print(f'{number}: {case.line}: {case.name}')
        return 0
    if args.check:
        bad = differing(args.outdir, cases)
        for path in bad:
            print(f'{path} is not what tests/vectors.py {args.kind} writes')
        return 1 if bad else 0
    args.outdir.mkdir(parents=True, exist_ok=True)
    for name, content in files(cases).items():
        (args.outdir / name).write_bytes(content)
    return 0


if __name__ == '__main__':
    sys.exit(main())
