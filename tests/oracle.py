#!/usr/bin/env python3
"""Brute-force answers to every call of document 01, with the requests of document 02 that have landed (U1, U2, U4,
U5, U6, U7), for the tests.

Written from the documents alone: the headings below are sections of document 01, and each definition cites its
sentence. Derivations are enumerated one by one as trees, in the document's order. Where that list
would be long (LISTED), the same answers come from exact counts; the tests hold the two ways against
each other.

Grammar is document 01's bank, history its diary, unrank Give, rank Number, remaining Left and append
Log; remaining_matching and draw_matching are Left and Draw with a pattern, and draw_weighted is Draw with
weights. Every call returns (refusal, figures.., buffer after), where refusal 0 means accepted.

  oracle.py check_grammar GRAMMAR             N W
  oracle.py check_history HISTORY             K
  oracle.py count GRAMMAR LENGTH              T
  oracle.py unrank GRAMMAR LENGTH NUMBER      T, then the buffer
  oracle.py rank GRAMMAR WORD..               number T derivations
  oracle.py remaining GRAMMAR HISTORY LENGTH VOICE   T heard left
  oracle.py draw GRAMMAR HISTORY LENGTH VOICE Q      left number, then the buffer
  oracle.py remaining_matching GRAMMAR HISTORY VOICE BYTE..   the same, of the pattern's bytes
  oracle.py draw_matching GRAMMAR HISTORY VOICE Q BYTE..      the same, of the pattern's bytes
  oracle.py draw_weighted GRAMMAR HISTORY LENGTH VOICE TICKET WEIGHT..   tickets number, then the buffer
  oracle.py append HISTORY VOICE PLAYED WORD..       K, then the buffer
  oracle.py listing INPUT                     what the listing program prints

GRAMMAR, HISTORY and INPUT are files, - is standard input, numbers are decimal. A sentence's buffer
is 16 zeros before the call.
"""
import sys
from bisect import bisect_right
from functools import lru_cache
from itertools import accumulate
from itertools import chain as concat
from math import prod
from typing import NamedTuple

MOST = 2**64 - 1  # opening paragraph: "counts and numbers have 64 bits"
LISTED = 200_000  # the most derivations, over all needed pairs, that are listed as trees
HANDED_OUT = 5_000  # the most tickets that are listed one by one
WORD, PAIR = 0, 1  # Bank bytes: "The kind is 0 for a word rule, 1 for a pair rule"
BLANK = 255  # document 02, U1: "Byte 255 is a blank"

# Examples. F and G; F with any number of words is f_words.
F = bytes([2, 2, 4, 0, 1, 3, 1, 1, 1, 2, 1, 0, 1, 0, 0, 0, 0, 4, 0, 1, 0, 0])
G = bytes([1, 1, 2, 0, 1, 1, 0, 0, 2, 0, 0, 0, 0])


def f_words(words):
    """Examples: "F with 16 words", "With 15 words": the chain of nonterminal 1 has that many words."""
    rules = [[WORD, word, 0, word + 4] for word in range(words - 1)] + [[WORD, words - 1, 0, 0]]
    return bytes([2, words, words + 2, 0, 1, 3, 1, 1, 1, 2, 1, 0, 1, 0]) + bytes(concat(*rules))


def matrix():
    """House bank and listing program: the house matrix bank."""
    heads = [1, 2, 3, 4] + [5 + 10 * group for group in range(5)]
    pairs = [[PAIR, 4, 1, 0], [PAIR, 5, 2, 0], [PAIR, 6, 3, 0], [PAIR, 7, 8, 0]]
    words = [[WORD, word, 0, 0 if word % 10 == 9 else word + 6] for word in range(50)]
    return bytes([9, 50, 54, 0] + heads) + bytes(concat(*pairs, *words))


# ---- Why a call says no

def first_that_applies(*lines):
    """The first refusal that applies, or 0. Each of lines yields (refusal, does it apply) in order,
    and is asked no further once one applies."""
    return next((refusal for refusal, applies in concat(*lines) if applies), 0)


def walk(heads, nexts):
    """The chains from the given heads, one after another, or None once a number is met a second time."""
    met, chains = set(), []
    for at in heads:
        chains.append([])
        while at != 0:
            if at in met:
                return None
            met.add(at)
            chains[-1].append(at)
            at = nexts[at]
    return chains


# ---- Bank bytes

class Rule(NamedTuple):
    kind: int
    a: int
    b: int
    next: int


def heads_of(grammar):
    """Bank bytes: "Then N bytes, the head of each nonterminal's chain"."""
    return list(grammar[4:4 + grammar[0]])


def rules_of(grammar):
    """Bank bytes: "Then R rules of four bytes, numbered from 1: kind, a, b, next"."""
    first = 4 + grammar[0]
    return {i + 1: Rule(*grammar[first + 4 * i:first + 4 * i + 4]) for i in range(grammar[2])}


def nexts_of(grammar):
    return {number: rule.next for number, rule in rules_of(grammar).items()}


def fits_layout(rule, n, w):
    """Bank bytes: "A word rule has a below W and b = 0. A pair rule has nonterminals a and b below N"."""
    if rule.kind == WORD:
        return rule.a < w and rule.b == 0
    return rule.kind == PAIR and rule.a < n and rule.b < n


def holds_equal_rules(numbers, rules):
    """Refusal 8, for one chain: "two rules with the same kind, a and b"."""
    seen = [(rules[i].kind, rules[i].a, rules[i].b) for i in numbers]
    return len(set(seen)) < len(seen)


def grammar_lines(grammar):
    """Why a call says no: 1 to 8."""
    yield 1, len(grammar) < 4
    n, w, r, s = grammar[:4]
    yield 2, not (1 <= n <= 32 and 1 <= w <= 255 and 1 <= r <= 255 and 0 <= s <= n - 1)
    yield 3, len(grammar) != 4 + n + 4 * r
    rules = rules_of(grammar)
    yield 4, any(not fits_layout(rule, n, w) for rule in rules.values())
    yield 5, any(link > r for link in heads_of(grammar) + list(nexts_of(grammar).values()))
    chains = walk(heads_of(grammar), nexts_of(grammar))
    yield 6, chains is None
    yield 7, set(concat(*chains)) != set(rules)
    yield 8, any(holds_equal_rules(numbers, rules) for numbers in chains)


# ---- Derivations and their order

class Leaf(NamedTuple):
    """A derivation of length 1: "a word rule of A"."""
    rule: int
    word: int


class Node(NamedTuple):
    """One of a greater length m: "a pair rule (B, C) of A, a left length k from 1 to m - 1, a derivation
    of B with length k and one of C with length m - k"."""
    rule: int
    k: int
    left: 'Leaf | Node'
    right: 'Leaf | Node'


def sentence_of(tree):
    """The sentence: "the left sentence followed by the right"."""
    if isinstance(tree, Leaf):
        return bytes([tree.word])
    return sentence_of(tree.left) + sentence_of(tree.right)


def memo(method):
    """Keeps a method's answers in the object's dictionary `known`."""
    def remembered(self, *args):
        key = method.__name__, *args
        if key not in self.known:
            self.known[key] = method(self, *args)
        return self.known[key]
    return remembered


class Grammar:
    """An accepted grammar: its start and, for each nonterminal, its rules in the order of its chain."""

    def __init__(self, data):
        rules = rules_of(data)
        self.start = data[3]
        self.chains = [[(i, rules[i]) for i in numbers] for numbers in walk(heads_of(data), nexts_of(data))]
        self.known = {}

    def words(self, a):
        return [(number, rule.a) for number, rule in self.chains[a] if rule.kind == WORD]

    def splits(self, a, m):
        """Each pair rule of a with each left length, in the order of derivations."""
        return [(number, rule.a, rule.b, k) for number, rule in self.chains[a] if rule.kind == PAIR for k in range(1, m)]

    @memo
    def derivations(self, a, m):
        """All of them in order: "earlier rule in the chain first; then smaller k; then the earlier left
        derivation; then the earlier right one"."""
        if m == 1:
            return [Leaf(number, word) for number, word in self.words(a)]
        return [Node(number, k, left, right)
                for number, b, c, k in self.splits(a, m)
                for left in self.derivations(b, k)
                for right in self.derivations(c, m - k)]

    @memo
    def total(self, a, m):
        """T(A, m): "the sum over rules and k of products"."""
        if m == 1:
            return len(self.words(a))
        return sum(self.total(b, k) * self.total(c, m - k) for _, b, c, k in self.splits(a, m))

    @memo
    def needed(self, length):
        """Document 02, U2: "The pair (S, length) is needed. If (A, m) is needed, so are (B, k) and (C, m - k)
        for each pair rule of A and each k"."""
        pairs, found = set(), {(self.start, length)}
        while found:
            pairs |= found
            found = {half for a, m in found for _, b, c, k in self.splits(a, m) for half in ((b, k), (c, m - k))} - pairs
        return pairs

    def totals(self, length):
        """T(A, m) of every needed pair."""
        return [self.total(a, m) for a, m in self.needed(length)]

    @memo
    def weight(self, a, m, weights):
        """Document 02, U7: a pair's "total weight", that of all its derivations."""
        if m == 1:
            return sum(weights[word] for _, word in self.words(a))
        return sum(self.weight(b, k, weights) * self.weight(c, m - k, weights) for _, b, c, k in self.splits(a, m))

    def total_weights(self, length, weights):
        """The total weight of every needed pair."""
        return [self.weight(a, m, weights) for a, m in self.needed(length)]


@lru_cache(maxsize=4)
def read(grammar):
    return Grammar(grammar)


# ---- The draws as one list

def fits(sentence, pattern):
    """Document 02, U1: "Byte 255 is a blank and any other byte is that word"."""
    return len(sentence) == len(pattern) and all(byte in (BLANK, word) for word, byte in zip(sentence, pattern))


def weight_of(sentence, weights):
    """Document 02, U7: "A derivation weighs the product of its words' weights"."""
    return prod(weights[word] for word in sentence)


class Listed:
    """The full list: "every derivation of S with length n, each once, in the order above. Its entry d,
    counted from 0, so has derivation number d"."""

    def __init__(self, grammar, length):
        self.entries = [sentence_of(tree) for tree in grammar.derivations(grammar.start, length)]
        self.total = len(self.entries)
        assert self.total == grammar.total(grammar.start, length)
        self.places = {}
        for d, sentence in enumerate(self.entries):
            self.places.setdefault(sentence, []).append(d)
        self.known = {}

    def sentence(self, d):
        return self.entries[d]

    def count(self, sentence):
        """How many derivations the sentence has."""
        return len(self.places.get(sentence, []))

    def number(self, sentence):
        """Document 02, U6: "the lowest derivation number among them"."""
        return min(self.places[sentence])

    @memo
    def unheard(self, heard):
        """The unheard list, each entry as its derivation number and its sentence: "Strike each entry whose
        sentence is heard. What remains, in the same order"."""
        return [(d, sentence) for d, sentence in enumerate(self.entries) if sentence not in heard]

    def left(self, heard):
        return len(self.unheard(heard))

    def draw(self, heard, q):
        return self.unheard(heard)[q]

    @memo
    def fitting(self, pattern):
        """The full list where a pattern is given: "Only derivations whose sentence fits the pattern .., in the old
        order". "The derivation number given is the one among all of that length"."""
        return [(d, sentence) for d, sentence in enumerate(self.entries) if fits(sentence, pattern)]

    @memo
    def unheard_fitting(self, heard, pattern):
        return [(d, sentence) for d, sentence in self.fitting(pattern) if sentence not in heard]

    def total_fitting(self, pattern):
        return len(self.fitting(pattern))

    def left_fitting(self, heard, pattern):
        return len(self.unheard_fitting(heard, pattern))

    def draw_fitting(self, heard, pattern, q):
        return self.unheard_fitting(heard, pattern)[q]

    @memo
    def tickets_before(self, heard, weights):
        """How many tickets there are before those of each unheard derivation; at the end, how many in all."""
        return [*accumulate((weight_of(sentence, weights) for _, sentence in self.unheard(heard)), initial=0)]

    def tickets(self, heard, weights):
        return self.tickets_before(heard, weights)[-1]

    @memo
    def owners(self, heard, weights):
        """Who owns each ticket, as one list: "Derivations take that many consecutive tickets each, in the old order,
        heard ones none"."""
        return [entry for entry in self.unheard(heard) for _ in range(weight_of(entry[1], weights))]

    def owner(self, heard, weights, ticket):
        """The derivation that owns the ticket."""
        if self.tickets(heard, weights) <= HANDED_OUT:
            return self.owners(heard, weights)[ticket]
        return self.unheard(heard)[bisect_right(self.tickets_before(heard, weights), ticket) - 1]


class Counted:
    """The same list where it is too long to write down: every answer from counts. The sentences heard
    have one derivation or none, as refusal 15 sees to."""

    def __init__(self, grammar, length):
        self.grammar, self.length = grammar, length
        self.total = grammar.total(grammar.start, length)
        self.known = {}

    def sentence(self, d):
        return self.unrank(self.grammar.start, self.length, d)

    def count(self, sentence):
        return self.count_from(self.grammar.start, sentence)

    def number(self, sentence):
        return self.rank(self.grammar.start, sentence)

    def unrank(self, a, m, d):
        if m == 1:
            return bytes([self.grammar.words(a)[d][1]])
        for _, b, c, k in self.grammar.splits(a, m):
            rights = self.grammar.total(c, m - k)
            both = self.grammar.total(b, k) * rights
            if d < both:
                return self.unrank(b, k, d // rights) + self.unrank(c, m - k, d % rights)
            d -= both
        raise IndexError(d)

    @memo
    def count_from(self, a, words):
        if len(words) == 1:
            return sum(word == words[0] for _, word in self.grammar.words(a))
        return sum(self.count_from(b, words[:k]) * self.count_from(c, words[k:])
                   for _, b, c, k in self.grammar.splits(a, len(words)))

    def rank(self, a, words):
        """The lowest number: the first split that has derivations, then of each half the lowest."""
        if len(words) == 1:
            return [word for _, word in self.grammar.words(a)].index(words[0])
        before = 0
        for _, b, c, k in self.grammar.splits(a, len(words)):
            rights = self.grammar.total(c, len(words) - k)
            if self.count_from(b, words[:k]) and self.count_from(c, words[k:]):
                return before + self.rank(b, words[:k]) * rights + self.rank(c, words[k:])
            before += self.grammar.total(b, k) * rights
        raise ValueError(words)

    @memo
    def struck(self, heard):
        """The derivation numbers that are struck, rising."""
        return sorted(self.number(s) for s in heard if len(s) == self.length and self.count(s) == 1)

    def left(self, heard):
        return self.total - len(self.struck(heard))

    def draw(self, heard, q):
        d = q
        for number in self.struck(heard):
            if number <= d:
                d += 1
        return d, self.sentence(d)

    def total_fitting(self, pattern):
        return self.fitting_from(self.grammar.start, pattern)

    @memo
    def fitting_from(self, a, pattern):
        """How many derivations of a have a sentence that fits."""
        if len(pattern) == 1:
            return sum(fits(bytes([word]), pattern) for _, word in self.grammar.words(a))
        return sum(self.fitting_from(b, pattern[:k]) * self.fitting_from(c, pattern[k:])
                   for _, b, c, k in self.grammar.splits(a, len(pattern)))

    def unrank_fitting(self, a, pattern, i):
        """The derivation of a that fits and has i such ones before it: its number among all of them, and its sentence."""
        if len(pattern) == 1:
            words = [bytes([word]) for _, word in self.grammar.words(a)]
            return [(d, word) for d, word in enumerate(words) if fits(word, pattern)][i]
        before = 0
        for _, b, c, k in self.grammar.splits(a, len(pattern)):
            rights = self.fitting_from(c, pattern[k:])
            both = self.fitting_from(b, pattern[:k]) * rights
            all_rights = self.grammar.total(c, len(pattern) - k)
            if i < both:
                left, first = self.unrank_fitting(b, pattern[:k], i // rights)
                right, rest = self.unrank_fitting(c, pattern[k:], i % rights)
                return before + left * all_rights + right, first + rest
            i -= both
            before += self.grammar.total(b, k) * all_rights
        raise IndexError(i)

    @memo
    def struck_fitting(self, heard, pattern):
        return [number for number in self.struck(heard) if fits(self.sentence(number), pattern)]

    def left_fitting(self, heard, pattern):
        return self.total_fitting(pattern) - len(self.struck_fitting(heard, pattern))

    def draw_fitting(self, heard, pattern, q):
        """A struck number that isn't above the number reached moves that on to the next one that fits."""
        i = q
        drawn = self.unrank_fitting(self.grammar.start, pattern, i)
        for number in self.struck_fitting(heard, pattern):
            if number <= drawn[0]:
                i += 1
                drawn = self.unrank_fitting(self.grammar.start, pattern, i)
        return drawn

    def tickets(self, heard, weights):
        struck = [self.sentence(number) for number in self.struck(heard)]
        return self.grammar.weight(self.grammar.start, self.length, weights) - sum(weight_of(s, weights) for s in struck)

    def share(self, a, m, weights, ticket):
        """The derivation of a that owns the ticket where none is heard: its number, its sentence, and how many tickets
        there are before its own. For each of its own a left half has the total weight of the right ones here; among
        these a right half has, for each of its own, as many as the left one weighs."""
        before = 0
        if m == 1:
            for d, (_, word) in enumerate(self.grammar.words(a)):
                if ticket < before + weights[word]:
                    return d, bytes([word]), before
                before += weights[word]
            raise IndexError(ticket)
        number = 0
        for _, b, c, k in self.grammar.splits(a, m):
            rights, all_rights = self.grammar.weight(c, m - k, weights), self.grammar.total(c, m - k)
            both = self.grammar.weight(b, k, weights) * rights
            if ticket < before + both:
                left, first, lefts_before = self.share(b, k, weights, (ticket - before) // rights)
                before += lefts_before * rights
                right, rest, rights_before = self.share(c, m - k, weights, (ticket - before) // weight_of(first, weights))
                return number + left * all_rights + right, first + rest, before + weight_of(first, weights) * rights_before
            before += both
            number += self.grammar.total(b, k) * all_rights
        raise IndexError(ticket)

    def owner(self, heard, weights, ticket):
        """A struck number that isn't above the number reached moves the ticket on by what its derivation weighs."""
        drawn = self.share(self.grammar.start, self.length, weights, ticket)
        for number in self.struck(heard):
            if number <= drawn[0]:
                ticket += weight_of(self.sentence(number), weights)
                drawn = self.share(self.grammar.start, self.length, weights, ticket)
        return drawn[:2]


@lru_cache(maxsize=4)
def full_list(grammar, length):
    small = sum(read(grammar).totals(length)) <= LISTED
    return (Listed if small else Counted)(read(grammar), length)


# ---- Diary bytes

class Record(NamedTuple):
    next: int
    length: int
    fourth: int
    words: bytes


def two_bytes(data, at):
    """Opening paragraph: "Two-byte fields have the low byte first"."""
    return data[at] + 256 * data[at + 1]


def records_of(history):
    """The records by number: "Two bytes K (0 to 1,000 records), two bytes head, then records of 20 bytes
    numbered from 1: two bytes next, one byte length (1 to 16), one byte .., sixteen word bytes"."""
    starts = range(4, 4 + 20 * two_bytes(history, 0), 20)
    return {number: Record(two_bytes(history, at), history[at + 2], history[at + 3], history[at + 4:at + 20])
            for number, at in enumerate(starts, 1)}


def fits_record(record):
    """Refusal 12, for one record: "one byte length (1 to 16), .. zero beyond the length"; of the fourth byte, document
    02, U4: "Refusal 12 no longer minds the high four bits", and U5: it "now covers, in place of low four bits that are
    not 0, a record whose figure is its length or more"."""
    return 1 <= record.length <= 16 and played_of(record) < record.length and not any(record.words[record.length:])


def voice_of(record):
    """Document 02, U4: "The high four bits of a record's fourth byte hold it"."""
    return record.fourth >> 4


def played_of(record):
    """Document 02, U5: "The low four bits of the fourth byte give the words played; 0 means all"."""
    return record.fourth & 0b1111


def history_chain(history):
    """The record numbers along the chain, or None where one is met twice."""
    nexts = {number: record.next for number, record in records_of(history).items()}
    chains = walk([two_bytes(history, 2)], nexts)
    return chains and chains[0]


def history_lines(history):
    """Why a call says no: 11 to 14."""
    yield 11, len(history) < 4 or two_bytes(history, 0) > 1000 or len(history) < 4 + 20 * two_bytes(history, 0)
    records = records_of(history)
    yield 12, any(not fits_record(record) for record in records.values())
    links = [two_bytes(history, 2)] + [record.next for record in records.values()]
    yield 13, any(link > len(records) for link in links)
    met = history_chain(history)
    yield 14, met is None or len(met) < len(records)


@lru_cache(maxsize=4)
def sentences_of(history):
    """The sentences with their voices and words played, "one after another along the chain"."""
    records = [records_of(history)[number] for number in history_chain(history)]
    return [(voice_of(record), played_of(record), record.words[:record.length]) for record in records]


@lru_cache(maxsize=4)
def heard_of(history, length, voice):
    """The heard sentences of the named length: "if a record has its length and words"; document 02, U4: "only if words
    and voice both agree", and U5: "Only a record played in full makes a sentence heard"."""
    return frozenset(sentence for own, played, sentence in sentences_of(history)
                     if own == voice and played == 0 and len(sentence) == length)


# ---- Why a call says no: the other lines

def length_lines(length):
    yield 9, not 1 <= length <= 16


def voice_lines(voice):
    """Document 02, U4: "22, the voice is above 15, after 9"."""
    yield 22, voice > 15


def played_lines(sentence, played):
    """Document 02, U5: "23, log's figure is the sentence's length or more, after 22"."""
    yield 23, played >= len(sentence)


def total_lines(grammar, length):
    """Document 02, U2: "10 applies exactly if the count of a needed pair is above 2^64 - 1"."""
    yield 10, any(total > MOST for total in read(grammar).totals(length))


def pattern_lines(grammar, pattern):
    """Document 02, U1: "21, a pattern byte other than 255 is W or more, after 10"."""
    yield 21, any(byte != BLANK and byte >= grammar[1] for byte in pattern)


def weights_lines(grammar, length, weights):
    """Document 02, U7: "24, the weights are not W bytes or one is 0, after 10; 25, a needed pair's total weight is above
    2^64 - 1, after 24"."""
    yield 24, len(weights) != grammar[1] or 0 in weights
    yield 25, any(weight > MOST for weight in read(grammar).total_weights(length, weights))


def ambiguous_lines(grammar, history, length, voice):
    """Document 02, U4: "15 reads only records of the given voice", and U5: "15 reads only records played in full". With
    a pattern, U1: "15 still reads every diary sentence of that length"."""
    full = full_list(grammar, length)
    yield 15, any(full.count(sentence) >= 2 for sentence in heard_of(history, length, voice))


def count_lines(grammar, length):
    return concat(grammar_lines(grammar), length_lines(length), total_lines(grammar, length))


def remaining_lines(grammar, history, length, voice):
    return concat(grammar_lines(grammar), length_lines(length), voice_lines(voice), total_lines(grammar, length),
                  history_lines(history), ambiguous_lines(grammar, history, length, voice))


def matching_lines(grammar, history, pattern, voice):
    """Document 02, U1: "The named length is the pattern's"."""
    length = len(pattern)
    return concat(grammar_lines(grammar), length_lines(length), voice_lines(voice), total_lines(grammar, length),
                  pattern_lines(grammar, pattern), history_lines(history), ambiguous_lines(grammar, history, length, voice))


def weighted_lines(grammar, history, length, voice, weights):
    return concat(grammar_lines(grammar), length_lines(length), voice_lines(voice), total_lines(grammar, length),
                  weights_lines(grammar, length, weights), history_lines(history),
                  ambiguous_lines(grammar, history, length, voice))


def unrank_lines(grammar, length, number, buffer):
    yield 16, number >= full_list(grammar, length).total
    yield 20, len(buffer) < length


def rank_lines(grammar, sentence):
    """Document 02, U6: "Refusal 18 never occurs"."""
    yield 17, full_list(grammar, len(sentence)).count(sentence) == 0


def draw_lines(grammar, history, length, voice, q, buffer):
    yield 16, q >= full_list(grammar, length).left(heard_of(history, length, voice))
    yield 20, len(buffer) < length


def draw_matching_lines(grammar, history, pattern, voice, q, buffer):
    length = len(pattern)
    yield 16, q >= full_list(grammar, length).left_fitting(heard_of(history, length, voice), pattern)
    yield 20, len(buffer) < length


def draw_weighted_lines(grammar, history, length, voice, weights, ticket, buffer):
    """Document 02, U7: "A ticket at the total or above is 16; 15 and 20 hold as for the draw"."""
    yield 16, ticket >= full_list(grammar, length).tickets(heard_of(history, length, voice), weights)
    yield 20, len(buffer) < length


def append_lines(buffer):
    k = two_bytes(buffer, 0)
    yield 19, k == 1000 or len(buffer) < 4 + 20 * (k + 1)


# ---- Operations

def check_grammar(grammar):
    """Check bank: N and W."""
    refusal = first_that_applies(grammar_lines(grammar))
    return (refusal, 0, 0) if refusal else (0, grammar[0], grammar[1])


def check_history(history):
    """Check diary: K."""
    refusal = first_that_applies(history_lines(history))
    return (refusal, 0) if refusal else (0, two_bytes(history, 0))


def count(grammar, length):
    """Count: T(S, length)."""
    refusal = first_that_applies(count_lines(grammar, length))
    return (refusal, 0) if refusal else (0, full_list(grammar, length).total)


def written(buffer, sentence):
    """Operations: "buffer bytes past the sentence keep their content"."""
    return sentence + buffer[len(sentence):]


def unrank(grammar, length, number, buffer):
    """Give: T and the buffer, which begins with the sentence of that derivation number."""
    refusal = first_that_applies(count_lines(grammar, length), unrank_lines(grammar, length, number, buffer))
    if refusal:
        return refusal, 0, buffer
    full = full_list(grammar, length)
    return 0, full.total, written(buffer, full.sentence(number))


def rank(grammar, sentence):
    """Document 02, U6: "Beside T, Number now gives how many derivations the sentence has and the lowest derivation
    number among them"."""
    refusal = first_that_applies(count_lines(grammar, len(sentence)), rank_lines(grammar, sentence))
    if refusal:
        return refusal, 0, 0, 0
    full = full_list(grammar, len(sentence))
    return 0, full.number(sentence), full.total, full.count(sentence)


def remaining(grammar, history, length, voice):
    """Left: T, "heard (distinct heard sentences of that length with one derivation) and left = T - heard"."""
    refusal = first_that_applies(remaining_lines(grammar, history, length, voice))
    if refusal:
        return refusal, 0, 0, 0
    full, barred = full_list(grammar, length), heard_of(history, length, voice)
    heard = sum(full.count(sentence) == 1 for sentence in barred)
    # The draws as one list: "Left .. is the length of the unheard list".
    assert full.total - heard == full.left(barred)
    return 0, full.total, heard, full.total - heard


def draw(grammar, history, length, voice, q, buffer):
    """Draw: left, the derivation number and the buffer, which begins with its sentence."""
    refusal = first_that_applies(remaining_lines(grammar, history, length, voice),
                                 draw_lines(grammar, history, length, voice, q, buffer))
    if refusal:
        return refusal, 0, 0, buffer
    full, barred = full_list(grammar, length), heard_of(history, length, voice)
    number, sentence = full.draw(barred, q)
    return 0, full.left(barred), number, written(buffer, sentence)


def remaining_matching(grammar, history, pattern, voice):
    """Document 02, U1: "T counts the fitting derivations and heard the fitting ones of the sentences it counts without
    a pattern"."""
    refusal = first_that_applies(matching_lines(grammar, history, pattern, voice))
    if refusal:
        return refusal, 0, 0, 0
    full, barred = full_list(grammar, len(pattern)), heard_of(history, len(pattern), voice)
    total = full.total_fitting(pattern)
    heard = sum(full.count(sentence) == 1 and fits(sentence, pattern) for sentence in barred)
    # "left, the unheard list .. then cover only what fits".
    assert total - heard == full.left_fitting(barred, pattern)
    return 0, total, heard, total - heard


def draw_matching(grammar, history, pattern, voice, q, buffer):
    """Draw with a pattern: left, the derivation number "among all of that length", and the buffer."""
    refusal = first_that_applies(matching_lines(grammar, history, pattern, voice),
                                 draw_matching_lines(grammar, history, pattern, voice, q, buffer))
    if refusal:
        return refusal, 0, 0, buffer
    full, barred = full_list(grammar, len(pattern)), heard_of(history, len(pattern), voice)
    number, sentence = full.draw_fitting(barred, pattern, q)
    return 0, full.left_fitting(barred, pattern), number, written(buffer, sentence)


def draw_weighted(grammar, history, length, voice, weights, ticket, buffer):
    """Document 02, U7: "It gives the sentence, derivation number and total of tickets"; here the total of tickets, the
    derivation number, and the buffer, which begins with the sentence."""
    refusal = first_that_applies(weighted_lines(grammar, history, length, voice, weights),
                                 draw_weighted_lines(grammar, history, length, voice, weights, ticket, buffer))
    if refusal:
        return refusal, 0, 0, buffer
    full, barred = full_list(grammar, length), heard_of(history, length, voice)
    number, sentence = full.owner(barred, weights, ticket)
    return 0, full.tickets(barred, weights), number, written(buffer, sentence)


def append(buffer, sentence, voice, played):
    """Log: the new K and the buffer: "writes record K + 1 in full with next = old head, sets head and K
    to K + 1". "No other byte changes". Document 02, U4: "The high four bits of a record's fourth byte hold it", and U5:
    "The low four bits of the fourth byte give the words played"."""
    refusal = first_that_applies(length_lines(len(sentence)), voice_lines(voice), played_lines(sentence, played),
                                 history_lines(buffer), append_lines(buffer))
    if refusal:
        return refusal, 0, buffer
    k = two_bytes(buffer, 0) + 1
    record = buffer[2:4] + bytes([len(sentence), voice << 4 | played]) + sentence + bytes(16 - len(sentence))
    low_high = bytes([k % 256, k // 256])
    at = 4 + 20 * (k - 1)
    return 0, k, low_high + low_high + buffer[4:at] + record + buffer[at + 20:]


# ---- House bank and listing program

def split_input(data):
    """Length, grammar and history: "length byte, two bytes bank size, bank, diary to the end. Fewer bytes
    than that bank needs, or fewer than three, count as an empty bank"."""
    data = data[:65536]  # "reads up to 65,536 bytes of standard input and ignores any after them"
    if len(data) < 3 or len(data) < 3 + two_bytes(data, 1):
        return 0, b'', b''
    end = 3 + two_bytes(data, 1)
    return data[0], data[3:end], data[end:]


def listing(data):
    """What it prints: "length, T, heard, left; then a line for each draw from 0 to left - 1, none past
    draw 999: q, derivation number, words". Document 02, U4: it "uses voice 0"."""
    length, grammar, history = split_input(data)
    refusal, total, heard, left = remaining(grammar, history, length, 0)
    if refusal:
        return b'refused %d\n' % refusal
    full, barred = full_list(grammar, length), heard_of(history, length, 0)
    lines = [[length, total, heard, left]]
    for q in range(min(left, 1000)):
        number, sentence = full.draw(barred, q)
        lines.append([q, number, *sentence])
    return b''.join(b'%s\n' % ' '.join(map(str, line)).encode() for line in lines)


# ---- Command line

COMMANDS = {  # each call, how many files it takes, and how many numbers (None: some, and then bytes)
    'check_grammar': (check_grammar, 1, 0),
    'check_history': (check_history, 1, 0),
    'count': (count, 1, 1),
    'unrank': (unrank, 1, 2),
    'rank': (rank, 1, None),
    'remaining': (remaining, 2, 2),
    'draw': (draw, 2, 3),
    'remaining_matching': (remaining_matching, 2, None),
    'draw_matching': (draw_matching, 2, None),
    'draw_weighted': (draw_weighted, 2, None),
    'append': (append, 1, None),
    'listing': (listing, 1, 0),
}


def file_bytes(name):
    if name == '-':
        return sys.stdin.buffer.read()
    with open(name, 'rb') as file:
        return file.read()


def shown(refusal, *figures):
    """The figures on one line; a buffer follows on a line of its own."""
    if refusal:
        return f'refused {refusal}'
    numbers = [str(figure) for figure in figures if isinstance(figure, int)]
    buffers = [' '.join(map(str, figure)) for figure in figures if isinstance(figure, bytes)]
    return '\n'.join([' '.join(numbers), *buffers])


def main(name='', *args):
    call, files, expected = COMMANDS.get(name, (None, 0, 0))
    numbers = [int(arg) for arg in args[files:]]
    if call is None or len(args) < files or expected not in (None, len(numbers)):
        sys.exit(__doc__)
    values = numbers
    if expected is None:
        before = {rank: 0, remaining_matching: 1, draw_matching: 2, draw_weighted: 3, append: 2}[call]
        if len(numbers) < before:
            sys.exit(__doc__)
        values = numbers[:before]
        values.insert(2 if call is draw_weighted else 0, bytes(numbers[before:]))
    if call in (unrank, draw, draw_matching, draw_weighted):
        values.append(bytes(16))
    result = call(*map(file_bytes, args[:files]), *values)
    print(result.decode(), end='') if call is listing else print(shown(*result))


if __name__ == '__main__':
    main(*sys.argv[1:])
