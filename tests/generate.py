"""Grammars, histories and damages for the tests, from fixed seeds."""
import random

from oracle import PAIR, WORD


class Rng:
    """Numbers from a seed. Only random() of the library keeps its sequence in every version of Python,
    so all else is made from it."""

    def __init__(self, seed):
        self.source = random.Random(seed)

    def below(self, n):
        return int(self.source.random() * n)

    def choice(self, items):
        return items[self.below(len(items))]

    def shuffled(self, items):
        """A copy of items in a random order."""
        mixed = list(items)
        for i in range(len(mixed) - 1, 0, -1):
            j = self.below(i + 1)
            mixed[i], mixed[j] = mixed[j], mixed[i]
        return mixed


def word(a):
    return (WORD, a, 0)


def pair(a, b):
    return (PAIR, a, b)


def link(chains, numbers):
    """The heads, and each number's next, of chains whose members take these numbers in turn."""
    numbers = iter(numbers)
    heads, nexts = [], {}
    for members in chains:
        own = [next(numbers) for _ in members] + [0]
        heads.append(own[0])
        nexts.update(zip(own, own[1:]))
    return heads, nexts


def grammar(w, start, chains, numbers=None):
    """The bytes of a grammar from each nonterminal's rules in chain order. The rules take their numbers
    in turn from numbers, or 1, 2, 3 and so on."""
    rules = [rule for chain in chains for rule in chain]
    numbers = list(numbers or range(1, len(rules) + 1))
    heads, nexts = link(chains, numbers)
    data = bytearray([len(chains), w, len(rules), start, *heads]) + bytearray(4 * len(rules))
    for number, rule in zip(numbers, rules):
        at = 4 + len(chains) + 4 * (number - 1)
        data[at:at + 4] = bytes([*rule, nexts[number]])
    return bytes(data)


def random_grammar(rng, n, w, r):
    """An accepted grammar with at most n nonterminals, w words and r rules, numbered in a random order."""
    n, w = 1 + rng.below(n), 1 + rng.below(w)
    chains = [[] for _ in range(n)]
    for _ in range(1 + rng.below(r)):
        rule = word(rng.below(w)) if rng.below(2) else pair(rng.below(n), rng.below(n))
        chain = rng.choice(chains)
        if rule not in chain:
            chain.append(rule)
    total = sum(map(len, chains))
    return grammar(w, rng.below(n), chains, rng.shuffled(range(1, total + 1)))


def low_high(number):
    """A two-byte field, the low byte first."""
    return bytes([number % 256, number // 256])


def history(sentences, numbers=None, slack=b'', voices=None, played=None):
    """The bytes of a history from its sentences in chain order, which take their record numbers in turn
    from numbers, or 1, 2, 3 and so on, their voices from voices, or 0, and their words played from played, or
    0, which means all."""
    numbers = list(numbers or range(1, len(sentences) + 1))
    voices = list(voices or [0] * len(sentences))
    played = list(played or [0] * len(sentences))
    heads, nexts = link([sentences], numbers)
    data = bytearray(low_high(len(sentences)) + low_high(heads[0])) + bytearray(20 * len(sentences))
    for number, sentence, voice, figure in zip(numbers, sentences, voices, played, strict=True):
        at = 4 + 20 * (number - 1)
        data[at:at + 20] = low_high(nexts[number]) + bytes([len(sentence), 16 * voice + figure]) + sentence + bytes(16 - len(sentence))
    return bytes(data) + slack


def damaged(data, places):
    """A copy of data with the byte at each place set to a value."""
    copy = bytearray(data)
    for at, value in places:
        copy[at] = value
    return bytes(copy)


def random_damage(rng, data):
    """A place and a value that differs from the byte there: often a near or small one."""
    at = rng.below(len(data))
    value = rng.choice([data[at] + 1, data[at] - 1, rng.below(8), rng.below(64), rng.below(256), 255]) % 256
    return (at, value) if value != data[at] else (at, (value + 1) % 256)


def brimful(extra=0, w=17, fifteen=range(15), seventeen=range(17), sixteen=range(16), one=(16,)):
    """An unambiguous grammar with T(S, 16) = 2^64 - 1, or that and one more with extra 1.

    2^64 - 1 = 15 * 17 * (16^2 + 1) * (16^4 + 1) * (16^8 + 1), with lengths 1 + 1 + 2 + 4 + 8. With other words of w in the
    four groups the same holds of the total weight, where the words of the groups weigh 15, 17, 16 and 1 together."""
    s, a15, a17, a16, a1, b2, b4, c2, c4, c8, x2, x4, x8, y2, y4, y8 = range(16)
    chains = {
        s: [pair(y8, x8), pair(c8, c8)][:1 + extra],
        a15: [word(i) for i in fifteen],
        a17: [word(i) for i in seventeen],
        a16: [word(i) for i in sixteen],
        a1: [word(i) for i in one],
        b2: [pair(a16, a16)],
        b4: [pair(b2, b2)],
        c2: [pair(a1, a1)],
        c4: [pair(c2, c2)],
        c8: [pair(c4, c4)],
        x2: [pair(a16, a16), pair(a1, a1)],
        x4: [pair(b2, b2), pair(c2, c2)],
        x8: [pair(b4, b4), pair(c4, c4)],
        y2: [pair(a15, a17)],
        y4: [pair(y2, x2)],
        y8: [pair(y4, x4)],
    }
    return grammar(w, s, [chains[a] for a in range(16)])


LADEN = bytes([15, 17, 16, 1])  # the weights with which laden() has as many tickets as there can be


def laden(extra=0):
    """Eight derivations of 16 words, which weigh 2^64 - 1 together by LADEN, or nine, which weigh one more, with extra 1."""
    return brimful(extra, 4, [0], [1], [2], [3])


def beside_nothing(extra=0):
    """Nonterminal 1 has derivations of eight words that weigh 2^64 - 1 together by BESIDE, or one more with extra 1, and
    none of another length. The start puts it before a nonterminal that derives nothing, so nine words need it; they have
    one derivation, and it weighs 1. Eight words don't need it.

    2^64 - 1 = 255 * (255 + 2) * (256^2 + 1) * (256^4 + 1), with lengths 1 + 1 + 2 + 4, and 256 is 128 + 128."""
    s, all8, none, a255, a257, a256, a1, b2, c2, c4, c8, x2, x4, y2, y4 = range(15)
    chains = {
        s: [pair(all8, none), pair(a1, c8), word(5)],
        all8: [pair(y4, x4), pair(c4, c4)][:1 + extra],
        none: [],
        a255: [word(0)],
        a257: [word(1), word(2)],
        a256: [word(3), word(4)],
        a1: [word(5)],
        b2: [pair(a256, a256)],
        c2: [pair(a1, a1)],
        c4: [pair(c2, c2)],
        c8: [pair(c4, c4)],
        x2: [pair(a256, a256), pair(a1, a1)],
        x4: [pair(b2, b2), pair(c2, c2)],
        y2: [pair(a255, a257)],
        y4: [pair(y2, x2)],
    }
    return grammar(6, s, [chains[a] for a in range(15)])


BESIDE = bytes([255, 255, 2, 128, 128, 1])


def heavy(first, words=range(240)):
    """The chains of five nonterminals from the number first on. That one has 2 * 240^8 derivations of length 8, which is
    above 2^64 - 1, and none of another length. With other words it has two for each eight of them."""
    four, also_four, two, one = range(first + 1, first + 5)
    return [[pair(four, four), pair(also_four, four)], [pair(two, two)], [pair(two, two)], [pair(one, one)], [word(i) for i in words]]


def reaching(words=range(240)):
    """Grammars with a count above 2^64 - 1, by name, each with the lengths from 1 to 16 that need it (document 02, U2). With
    other words in place of 240 the same holds of a total weight, where these weigh 240 or more together."""
    start, other, further = range(3)
    heaviest, *parts = heavy(start, words)
    single = [[pair(other, other)], [word(0)]]  # one derivation, of two words
    eight = [[pair(i + 1, i + 1)] for i in range(7, 10)] + [[word(0)]]  # 7: one derivation, of eight words
    return {
        # the start never uses it
        'out of reach': (grammar(240, start, [[word(0), pair(start, other)], [word(1)], *heavy(2, words)]), range(0)),
        # needed one length below the whole, beside a partner with no derivation at all
        'left of nothing': (grammar(240, start, [[word(0), pair(further, other)], [], *heavy(2, words)]), range(9, 17)),
        'right of nothing': (grammar(240, start, [[word(0), pair(other, further)], [], *heavy(2, words)]), range(9, 17)),
        # beside a partner of two words
        'left of two words': (grammar(240, start, [[pair(3, other)], [pair(further, further)], [word(0)], *heavy(3, words)]), range(9, 17)),
        # two lengths below the whole
        'two steps': (grammar(240, start, [[word(0), pair(further, other)], [], [pair(other, 3)], *heavy(3, words)]), range(10, 17)),
        # the start itself: at the whole length, and from two lengths below the whole on, which leaves out the one between
        'the start': (grammar(240, start, [heaviest + [pair(5, 6), pair(10, 7)], *parts, [pair(start, 6)], [], *eight]), [8, *range(10, 17)]),
        # a half that only the other half of a rule reaches
        'a half of a half': (grammar(240, start, [[pair(other, other)], [word(0), pair(further, other)], [pair(3, further)], *heavy(3, words)]), range(11, 17)),
        # no derivation of the start, and none of what it uses
        'nothing derived': (grammar(240, start, [[pair(start, start)], [pair(other, further)], *heavy(2, words)]), range(0)),
        'single': (grammar(240, further, [*single, [pair(start, other)], *heavy(3, words)]), range(0)),
    }


def ambiguous():
    """Grammars with sentences of two or more derivations, by name, each with sentences and what Number gives of them: the lowest number, T
    and how many derivations (document 02, U6). The figures are worked out by hand."""
    s, a, b, c, none = range(5)
    return {
        # T is 2, 4, 16, 80 for one to four words. 1 1 1: left 1 of 2 and right 3 of 4 give 7, left 3 of 4 and right 1 of 2 give 8 + 7.
        # 1 0 1 1: left 1 of 2, right 0 1 1, which has 3 and 9 of 16, gives 19
        'every tree': (grammar(2, s, [[pair(s, s), word(0), word(1)]]), {
            bytes([1]): (1, 2, 1), bytes([1, 1]): (3, 4, 1), bytes(3): (0, 16, 2), bytes([1, 1, 1]): (7, 16, 2), bytes([1, 0, 1, 1]): (19, 80, 5),
            bytes(16): (0, 9694845 * 2**16, 9694845)}),
        # an ambiguous run of 0 between two words: 2 * (2 * 2) derivations of five words
        'a part inside': (grammar(3, s, [[pair(a, b)], [word(1), word(2)], [pair(c, a)], [pair(c, c), word(0)]]), {
            bytes([1, 0, 0, 0, 1]): (0, 8, 2), bytes([1, 0, 0, 0, 2]): (1, 8, 2), bytes([2, 0, 0, 0, 1]): (4, 8, 2), bytes([2, 0, 0, 0, 2]): (5, 8, 2),
            bytes([2, 0, 0, 0, 0, 1]): (10, 20, 5), bytes([2, 0, 1]): (2, 4, 1)}),
        # the chain has (a b) before (b b), the rules' numbers the other way round: 0 0 is 1 of the first two, and of the last one 2
        'by the chain': (grammar(2, s, [[pair(a, b), pair(b, b)], [word(1), word(0)], [word(0)]], [5, 1, 3, 2, 4]), {
            bytes([0, 0]): (1, 3, 2), bytes([1, 0]): (0, 3, 1)}),
        # the left half has one word or two, the right half two or one: 1 of the first two, and 2
        'by the left length': (grammar(2, s, [[pair(a, b)], [word(1), word(0), pair(c, c)], [word(0), pair(c, c)], [word(0)]]), {
            bytes(3): (1, 3, 2), bytes([1, 0, 0]): (0, 3, 1)}),
        # a half has 6 derivations, three of them of 0 0 (0, 1 and 5), and 1 1 is 4
        'both halves': (grammar(2, s, [[pair(a, a)], [pair(b, b), pair(c, c), pair(b, none)], [word(0)], [word(0), word(1)], [word(0)]]), {
            bytes(4): (0, 36, 9), bytes([1, 1, 0, 0]): (24, 36, 3), bytes([0, 0, 1, 1]): (4, 36, 3), bytes([1, 1, 1, 1]): (28, 36, 1)}),
        # (a none) derives nothing; 0 0 is 0 by (a a) and 1 + 3 by (b b)
        'beside nothing': (grammar(2, s, [[pair(a, none), pair(a, a), pair(b, b)], [word(0)], [word(1), word(0)], [], []]), {
            bytes([0, 0]): (0, 5, 2), bytes([1, 1]): (1, 5, 1)}),
        # a sentence that the first rule doesn't derive, and the second and the third do: 4 + 0 and 4 + 2 * 1
        'from the second rule on': (grammar(3, s, [[pair(a, a), pair(b, c), pair(c, b)], [word(0), word(1)], [word(2), word(0)], [word(2)]]), {
            bytes([2, 2]): (4, 8, 2), bytes([0, 0]): (0, 8, 1), bytes([0, 2]): (5, 8, 1), bytes([2, 0]): (7, 8, 1)}),
        # one sentence of each length has all derivations: 6^(m - 1) times as many as there are trees, with 16 words a quarter of 2^64
        'one word': (grammar(1, s, 3 * [[pair(s, a), pair(a, s), pair(b, a), pair(s, b), pair(b, b), pair(a, b), word(0)]]), {
            bytes(1): (0, 1, 1), bytes(2): (0, 6, 6), bytes(3): (0, 72, 72), bytes(16): (0, 6**15 * 9694845, 6**15 * 9694845)}),
    }


def random_heavy(rng):
    """An accepted grammar with few nonterminals, one of them with very many words, so that its counts soon pass 2^64 - 1."""
    n, w = 2 + rng.below(6), rng.choice([16, 40, 200])
    chains = [[word(rng.below(w))] if rng.below(3) == 0 else [] for _ in range(n)] + [[word(i) for i in range(w)]]
    for _ in range(1 + rng.below(3 * n)):
        chain, rule = chains[rng.below(n)], pair(rng.below(n + 1), rng.below(n + 1))
        if rule not in chain:
            chain.append(rule)
    total = sum(map(len, chains))
    return grammar(w, rng.below(n), chains, rng.shuffled(range(1, total + 1)))
