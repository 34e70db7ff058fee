"""What one more log does (document 02, U14): the law between the answers of Left and Draw before a log and after it, and small
questions to try it on. The brute-force program and the library are held to the same words."""
import itertools

import oracle
import vectors
from generate import ambiguous, brimful, history, random_grammar
from oracle import BLANK, F, G

PAST = oracle.MOST  # the draw that has no next
SHORT = 25  # a list of at most so many draws is tried whole


class Asked:
    """A history, a grammar, a length or a pattern, and a voice, and what Left and Draw answer. call(name, *args) makes a call; none is
    made twice."""

    def __init__(self, call, diary, grammar, named, voice):
        self.call, self.diary, self.grammar, self.named, self.voice, self.known = call, diary, grammar, named, voice, {}
        self.length, self.suffix = (named, '') if isinstance(named, int) else (len(named), '_matching')

    @oracle.memo
    def left(self):
        return self.call('remaining' + self.suffix, self.grammar, self.diary, self.named, self.voice)

    @oracle.memo
    def draw(self, q, room):
        return self.call('draw' + self.suffix, self.grammar, self.diary, self.named, self.voice, q, b'\7' * room)

    def drawn(self, q):
        """The derivation number and the sentence."""
        return self.draw(q, self.length)[2:]

    @oracle.memo
    def once(self, q):
        """Whether draw q gives a sentence with just one derivation."""
        return self.call('rank', self.grammar, self.drawn(q)[1])[3] == 1

    def all_once(self, start=0):
        """The numbers of such draws: from one on, and then those before it."""
        left = self.left()[3]
        return filter(self.once, itertools.chain(range(start, left), range(start)))

    def log(self, q, voice=None, played=0):
        """Log of the sentence that draw q gives: the refusal, and the same asked of the history after it."""
        refusal, _, diary = self.call('append', self.diary, self.drawn(q)[1], self.voice if voice is None else voice, played)
        return refusal, Asked(self.call, diary, self.grammar, self.named, self.voice)


def numbers(left, q):
    """Every draw of a short list and two beyond it; of a long one its ends, its middle and what is about q."""
    some = range(left + 2) if left <= SHORT else sorted({0, q - 1, q, q + 1, left // 2, left - 2, left - 1, left, PAST - 1})
    return [number for number in some if 0 <= number < PAST]


def check_moved(test, before, after, q):
    """Document 02, U14: "left falls by one. Draws below q give the sentence and derivation number they gave, and each draw from q on
    gives those that the next one gave, or is refused where the next one was. Draw 2^64 - 1, which has no next, is refused before
    and after". With a buffer that is too short as well."""
    refusal, total, heard, left = before.left()
    test.assertEqual((refusal, after.left()), (0, (0, total, heard + 1, left - 1)))
    for room in (before.length + 1, before.length - 1):
        for j in numbers(left, q):
            refusal, figure, *given = before.draw(j if j < q else j + 1, room)
            test.assertEqual(after.draw(j, room), (refusal, 0 if refusal else figure - 1, *given))
        for asked in (before, after):
            test.assertEqual(asked.draw(PAST, room), (16, 0, 0, b'\7' * room))


def check_unmoved(test, before, after):
    """Each answer is what it was."""
    test.assertEqual(after.left(), before.left())
    for room in (before.length + 1, before.length - 1):
        for j in [*numbers(before.left()[3], 0), PAST]:
            test.assertEqual(after.draw(j, room), before.draw(j, room))


def check_alone(test, asked, chosen):
    """Each of these draws, logged by itself."""
    for q in chosen:
        refusal, after = asked.log(q)
        test.assertEqual((asked.once(q), refusal), (True, 0))
        check_moved(test, asked, after, q)


def play(test, first, most=PAST, rng=None):
    """Draws and logs, at most so often: the first draw whose sentence has one derivation, and so the unheard list in order, or with rng
    the first such from a random one on. Gives what was logged, as derivation numbers and sentences, each once; the refusal that ended
    it, 16 where there is no such draw and 19 where there is no room; and the last history, asked the same."""
    asked, logged, end = first, [], 0
    while end == 0 and len(logged) < most:
        left = asked.left()[3]
        q = next(asked.all_once(rng.below(left) if rng else 0), left)
        end, after = asked.log(q) if q < left else (asked.draw(q, asked.length)[0], asked)
        if end:
            test.assertEqual(after.diary, asked.diary)
        else:
            check_moved(test, asked, after, q)
            logged.append(asked.drawn(q))
            asked = after
    test.assertEqual(len(set(logged)), len(logged))
    if rng is None:
        test.assertEqual(logged, [first.drawn(q) for q in itertools.islice(first.all_once(), len(logged))])
    return logged, end, asked


def short_lists(rng, count):
    """F, G, the ambiguous grammars and so many random ones, each with the lengths that have some derivations and few. A random one has
    three sentences or more with one derivation."""
    known = [F, G, *(grammar for grammar, _ in ambiguous().values())]
    for grammar, length in itertools.product(known + [random_grammar(rng, 4, 4, 9) for _ in range(count)], range(1, 5)):
        if 1 <= oracle.count(grammar, length)[1] <= SHORT:
            full = oracle.full_list(grammar, length)
            if grammar in known or sum(full.count(sentence) == 1 for sentence in full.entries) >= 3:
                yield grammar, length, full.entries


def questions(rng, count):
    """Of short lists: nothing heard, and some of it, in two voices, some of that broken off; room for no record more, for one and for
    all; without a pattern and with two. Each as Asked takes it, where Left is answered."""
    for grammar, length, sentences in short_lists(rng, count):
        named = [length, *(bytes(rng.choice([BLANK, byte]) for byte in rng.choice(sentences)) for _ in range(2))]
        for diary in (history([]), *(vectors.random_diary(rng, grammar, length) for _ in range(2))):
            diary += b'\7' * rng.choice([19, 33, 20 * SHORT, 20 * SHORT])
            voices = [voice for voice in (0, 9) if oracle.remaining(grammar, diary, length, voice)[0] == 0]
            for asked in named if voices else []:
                yield diary, grammar, asked, rng.choice(voices)


def large_questions():
    """Lists of 15^15 and 15^16 draws with some heard, and of 2^64 - 1, where the last draw's next one is the one that has none. There is
    room for four records more."""
    fifteen, first = oracle.f_words(15), oracle.unrank(brimful(), 16, 0, bytes(16))[2]
    heard = history([bytes([14] * 16), bytes([14] + [0] * 15), bytes([0] + [14] * 15)], [2, 3, 1], bytes(80))
    for named in (16, bytes([14] + [BLANK] * 15), bytes([BLANK] * 15 + [14])):
        yield heard, fifteen, named, 0
    for named in (16, first[:8] + bytes([BLANK] * 8)):
        yield history([], slack=bytes(80)), brimful(), named, 0
