#!/usr/bin/env python3
"""Compares the listing program with the brute-force program, byte for byte, on inputs from fixed seeds. On standard error it is
to give a refusal's meaning, in the words of refusals.txt, and nothing else.

  listings.py PROGRAM

Prints how many inputs were compared, and how many of them each refusal answers. A wrong answer is shown with
its input in hex and with both outputs; the third is the last. The exit status is 1 where there is one, and
where some refusal of 1 to 15 was never reached.
"""
import collections
import contextlib
import itertools
import pathlib
import re
import subprocess
import sys
import time
from typing import NamedTuple

import oracle
import vectors
from generate import Rng, brimful, damaged, grammar, history, low_high, pair, random_damage, random_grammar, reaching, word
from oracle import F, G

READ = 65536  # House bank and listing program: "reads up to 65,536 bytes of standard input"
ENOUGH = 3  # so many wrong answers are shown, and then no more inputs are tried
PATIENCE = 10  # seconds for an answer
EMPTY = history([])
REFUSALS = (pathlib.Path(__file__).resolve().parent.parent / 'refusals.txt').read_text()
MEANINGS = {int(number): words for number, words in re.findall(r'^([0-9]+) \w+: (.*)$', REFUSALS, re.MULTILINE)}
LENGTHS = [0, 1, 2, 3, 4, 5, 15, 16, 17, 18, 32, 128, 129, 254, 255]


class Input(NamedTuple):
    name: str
    data: bytes


def framed(length, bank, diary):
    return bytes([length]) + low_high(len(bank)) + bank + diary


# ---- Examples, traps and lengths

def examples():
    """Document 01's banks and examples, with left from 0 to 2^64 - 1."""
    heard = history([bytes([0, 1])])
    yield 'P7', framed(2, F, heard)
    yield 'P7, then the end of a line', framed(2, F, heard) + b'\n'
    for voice in (1, 8, 15):
        yield f'P7 in voice {voice}', framed(2, F, history([bytes([0, 1])], voices=[voice]))
        yield f'G in voice {voice}', framed(3, G, history([bytes(3)], voices=[voice]))
    for played in ([1], [1, 0], [0, 1]):
        yield f'P7 with {played} played', framed(2, F, history([bytes([0, 1])] * len(played), played=played))
        yield f'G with {played} played', framed(3, G, history([bytes(3)] * len(played), played=played))
    for figure in range(16):
        yield f'P7 with {figure} played', framed(2, F, history([bytes([0, 1])], played=[figure]))
    for length in range(1, 13):
        yield f'F, length {length}', framed(length, F, heard)
    for length in range(1, 8):
        yield f'G, length {length}', framed(length, G, EMPTY)
        yield f'G, length {length}, heard', framed(length, G, history([bytes(length)]))
    for words in (15, 16):
        for length in (15, 16):
            yield f'F with {words} words, length {length}', framed(length, oracle.f_words(words), history([bytes(16), bytes([14]) * 15]))
    for extra in (0, 1):
        for length in (8, 15, 16):
            yield f'brimful {extra}, length {length}', framed(length, brimful(extra), EMPTY)


def house_bank(rng):
    """The house matrix bank: 100,000 sentences of length 5, some of the first thousand heard."""
    bank = oracle.matrix()
    for length in (4, 5, 6):
        yield f'matrix, length {length}', framed(length, bank, EMPTY)
    for i, many in enumerate([1, 10, 100, 500, 1000, 1000]):
        numbers = [rng.below(1100) for _ in range(many)]
        sentences = [oracle.unrank(bank, 5, d, bytes(5))[2] for d in numbers]
        yield f'matrix, {many} records, {i}', framed(5, bank, history(sentences, rng.shuffled(range(1, many + 1))))
    sentences = [oracle.unrank(bank, 5, d, bytes(5))[2] for d in range(1000)]
    yield 'matrix, the first thousand heard', framed(5, bank, history(sentences, rng.shuffled(range(1, 1001))))


def traps():
    """The stored cases of Check bank and of Check diary, each in a listing."""
    for name, _, bank in [*vectors.TRAPS, *vectors.defects()]:
        yield f'bank: {name}', framed(2, bank, EMPTY)
    for name, _, diary in vectors.HISTORY_TRAPS:
        yield f'diary: {name}', framed(2, F, diary)


def lengths():
    """Each length with banks of few and of many derivations; a wrong bank comes before the length, a wrong diary after it."""
    for length in LENGTHS:
        for name, bank in [('G', G), ('small', vectors.SMALL), ('brimful', brimful()), ('full', vectors.FULL)]:
            if length < 16 or name != 'G':
                yield f'{name}, length {length}', framed(length, bank, EMPTY)
        yield f'short bank, length {length}', framed(length, F[:-1], EMPTY)
        yield f'no bank, length {length}', framed(length, b'', EMPTY)
        yield f'no diary, length {length}', framed(length, vectors.SMALL, b'')


def several_refusals():
    """A bank with one of 2 to 8 or none, with and without each of 9, 10 and 15, a diary with one of 11 to 14 or none: the
    smallest is the answer. The length 16 needs 20^15 derivations of the second nonterminal, above 2^64 - 1; 15 needs 20^14."""
    words = [word(i) for i in range(20)]
    bank = grammar(20, 0, [[pair(0, 0), word(0), pair(1, 4)], [pair(2, 2), pair(1, 2)], words, [word(0), word(1)], []])
    rule = [None] + [9 + 4 * i for i in range(bank[2])]
    last = bank[2]
    banks = {
        0: bank,
        2: damaged(bank, [(3, 5)]),
        3: bank + b'\0',
        4: damaged(bank, [(rule[last] + vectors.KIND, 2)]),
        5: damaged(bank, [(rule[last - 1] + vectors.NEXT, last + 1)]),
        6: damaged(bank, [(rule[last] + vectors.NEXT, 1)]),
        7: damaged(bank, [(rule[last - 1] + vectors.NEXT, 0)]),
        8: damaged(bank, [(rule[last] + vectors.A, 0)]),
    }
    for refusal, nine, length, ambiguous in itertools.product(banks, (0, 9), (15, 16), (0, 15)):
        diary = history([bytes([2]), bytes([0 if ambiguous else 7]) * length, bytes([3])])
        diaries = {
            0: diary,
            11: diary[:-1],
            12: damaged(diary, [(7, 49)]),
            13: damaged(diary, [(2, 4)]),
            14: damaged(diary, [(2, 2)]),
        }
        named = (0 if length == 15 else 255) if nine else length
        for other in diaries:
            chosen = [number for number in (refusal, nine, 10 * (length == 16), other, ambiguous) if number]
            data = framed(named, banks[refusal], diaries[other])
            check_first(chosen, data)
            yield f'refusals {chosen}, length {named}', data


def check_first(refusals, data):
    """What document 01 says of an input, held against the brute-force program."""
    first = min(refusals, default=0)
    if refusal_of(oracle.listing(data)) != first:
        raise AssertionError(f'document 01 gives {first}, the brute-force program {oracle.listing(data)[:20]}')


# ---- Cut short, too long

def cut_short():
    """Inputs cut to each size: in the length and the size, in the bank, at its end, in the diary and its slack."""
    shuffled = history([bytes([1, 0]), bytes([255, 0]), bytes([0, 0, 1])], [2, 3, 1], b'\7' * 5)
    for name, data in [
        ('P7', framed(2, F, history([bytes([0, 1])]))),
        ('three records', framed(2, F, shuffled)),
        ('no record', framed(3, vectors.SMALL, EMPTY)),
        ('bank of two rules', framed(4, G, history([bytes(3)]))),
    ]:
        for size in range(len(data) + 1):
            yield f'{name}, {size} bytes', data[:size]


def bank_sizes():
    """The bank's size is not the size of the bank."""
    data = framed(2, F, history([bytes([0, 1]), bytes([1, 1])]))
    for size in [*range(80), 255, 256, 257, 278, 511, 512, 5632, 65533, 65535]:
        yield f'bank size {size}', data[:1] + low_high(size) + data[3:]


def long_inputs():
    """Around 65,536 bytes, and above."""
    plain = framed(2, F, history([bytes([1, 1])]))
    for size in (READ - 1, READ, READ + 1, READ + 4096, 2 * READ, 3 * READ + 7):
        yield f'slack to {size} bytes', plain + b'\377' * (size - len(plain))
        yield f'bank of all, {size} bytes', b'\2' + low_high(READ - 3) + bytes(size - 3)
        yield f'bank of one more than all, {size} bytes', b'\2' + low_high(READ - 2) + bytes(size - 3)
        yield f'bank of the rest, {size} bytes', b'\2\377\377' + F * (size // len(F))
    # A bank of the wrong size, and a diary that ends before, at and after the last byte that is read.
    for over in (-21, -20, -1, 0, 1, 19, 20, 21, 24):
        diary = history([bytes([i % 2, 1]) for i in range(1000)])
        bank = F + bytes(READ + over - 3 - len(F) - len(diary))
        yield f'wrong bank, diary ends {over} past the last byte', framed(2, bank, diary)


def thousand_records(rng):
    """K of 1,000 and near it: repeats, other lengths, foreign words."""
    for k in (999, 1000, 1001):
        sentences = [bytes([rng.below(3) for _ in range(1 + rng.below(4))]) for _ in range(k)]
        for length in (1, 2, 3, 4):
            yield f'{k} records, length {length}', framed(length, F, history(sentences, rng.shuffled(range(1, k + 1))))
    for length in (9, 10, 11):
        sentences = [bytes([rng.below(2) for _ in range(length)]) for _ in range(1000)]
        yield f'1,000 records, length {length}', framed(length, F, history(sentences, rng.shuffled(range(1, 1001))))


def nearly_all_heard(rng):
    """Left from 0 to 4, and 999, 1,000 and 1,001."""
    every = [bytes([i >> j & 1 for j in range(5)]) for i in range(32)]
    for left in range(5):
        heard = rng.shuffled(every)[left:]
        yield f'left {left}', framed(5, F, history(heard, rng.shuffled(range(1, len(heard) + 1))))
        yield f'left {left}, with repeats', framed(5, F, history(heard + heard[:9] + [b'\377' * 5], rng.shuffled(range(1, len(heard) + 11))))
    every = [bytes([i >> j & 1 for j in range(10)]) for i in range(1024)]
    for left in (998, 999, 1000, 1001, 1002):
        heard = rng.shuffled(every)[left:]
        yield f'left {left}', framed(10, F, history(heard, rng.shuffled(range(1, len(heard) + 1))))


def needed_pairs(rng):
    """Counts above 2^64 - 1 that the length needs, and such that it doesn't (document 02, U2)."""
    for name, (bank, _) in reaching().items():
        for length in range(1, 17):
            yield f'{name}, length {length}', framed(length, bank, EMPTY)
    for i, (bank, lengths) in enumerate(vectors.formerly_refused(rng, 60)):
        for length in lengths:
            sentences = heard_sentences(rng, bank, length) if oracle.count(bank, length)[0] == 0 else [bytes(length)]
            yield f'needed pairs {i}, length {length}', framed(length, bank, history(sentences, rng.shuffled(range(1, len(sentences) + 1))))


# ---- Random banks and diaries

def manageable(bank, length):
    """The brute-force program is quick: the lists are short, or it counts instead of listing."""
    return not 1000 < sum(oracle.read(bank).totals(length)) <= oracle.LISTED


def heard_sentences(rng, bank, length):
    """Sentences of a diary: derived ones, some twice, rarely ambiguous, and others."""
    full = oracle.full_list(bank, length)
    sentences = []
    for _ in range(rng.below(9) if full.total else 0):
        sentence = full.sentence(rng.below(min(full.total, 2000)))
        if full.count(sentence) == 1 or rng.below(12) == 0:
            sentences += [sentence] * rng.choice([1, 1, 1, 2, 3])
    for _ in range(rng.below(4)):
        size = rng.choice([length, length, 1 + rng.below(16)])
        sentences.append(bytes(rng.choice([0, 1, bank[1] - 1, bank[1], 254, 255]) for _ in range(size)))
    return rng.shuffled(sentences)


def random_listings(rng, count):
    """Banks of few rules at lengths where they derive something, or of any kind, with their diaries and slack."""
    made = 0
    while made < count:
        bank, length = random_grammar(rng, *rng.choice([(2, 2, 6), (3, 3, 9), (5, 4, 12), (4, 9, 20)])), 1 + rng.below(rng.choice([5, 16]))
        if not manageable(bank, length):
            continue
        if max(oracle.read(bank).totals(length)) > oracle.MOST:
            sentences = [bytes(length)]
        elif rng.below(10) and oracle.count(bank, length)[1] < 2:
            continue
        else:
            sentences = heard_sentences(rng, bank, length)
        slack = bytes(rng.below(256) for _ in range(rng.choice([0, 0, 1, 30])))
        voices = [rng.choice([0, 0, 0, 0, 0, rng.below(16)]) for _ in sentences]
        played = [rng.choice([0, 0, 0, 0, rng.below(len(sentence))]) for sentence in sentences]
        yield length, bank, history(sentences, rng.shuffled(range(1, len(sentences) + 1)), slack, voices, played)
        made += 1


def random_inputs(rng):
    """Random listings as they are; the same damaged in the bank, in the diary, and anywhere."""
    for i, (length, bank, diary) in enumerate(random_listings(rng, 500)):
        yield f'random {i}', framed(length, bank, diary)
        for places in rng.shuffled(vectors.damages(rng, bank))[:1]:
            yield f'random {i}, bank damaged at {places}', framed(length, damaged(bank, places), diary)
        for places in rng.shuffled(vectors.history_damages(rng, diary))[:1]:
            yield f'random {i}, diary damaged at {places}', framed(length, bank, damaged(diary, places))
        data = framed(length, bank, diary)
        place = random_damage(rng, data)
        yield f'random {i}, damaged at {place}', damaged(data, [place])


def noise(rng):
    """Bytes without meaning, small numbers among them."""
    for i in range(100):
        most = rng.choice([2, 4, 8, 256])
        yield f'noise {i}', bytes(rng.below(most) for _ in range(rng.below(60)))


def quick(data):
    """The brute-force program answers soon, also for a damaged input."""
    length, bank, _ = oracle.split_input(data)
    return oracle.check_grammar(bank)[0] != 0 or not 1 <= length <= 16 or manageable(bank, length)


def all_inputs():
    """Each input once."""
    fixed = [*examples(), *house_bank(Rng(11)), *traps(), *lengths(), *several_refusals(), *cut_short(), *bank_sizes(),
             *long_inputs(), *thousand_records(Rng(12)), *nearly_all_heard(Rng(13)), *needed_pairs(Rng(16))]
    drawn = [(name, data) for name, data in [*random_inputs(Rng(14)), *noise(Rng(15))] if quick(data)]
    unique = {}
    for name, data in fixed + drawn:
        unique.setdefault(data, name)
    return [Input(name, data) for data, name in unique.items()]


# ---- Comparing

def refusal_of(output):
    """The refusal's number that an output has, or 0."""
    refusal = re.fullmatch(rb'refused ([0-9]+)\n', output)
    return int(refusal[1]) if refusal else 0


def meaning_of(output):
    """What is said on standard error beside an output: the meaning of a refusal."""
    number = refusal_of(output)
    return f'listing: refused: {MEANINGS.get(number)}\n'.encode() if number else b''


def answered(running, data=None):
    """What the program writes, with a word on how it ended where that isn't well."""
    try:
        output, errors = running.communicate(data, PATIENCE)
    except subprocess.TimeoutExpired:
        running.kill()
        return running.communicate()[0] + b'no end within %d seconds\n' % PATIENCE
    well = running.returncode == 0 and errors == meaning_of(output)
    return output if well else output + b'exit status %d\n%s' % (running.returncode, errors)


def started(program):
    return subprocess.Popen([program], stdin=subprocess.PIPE, stdout=subprocess.PIPE, stderr=subprocess.PIPE, bufsize=0)


def run(program, data):
    with started(program) as running:
        return answered(running, data)


def run_in_parts(program, data):
    """The same where the input comes in three parts."""
    with started(program) as running:
        for part in range(3):
            with contextlib.suppress(BrokenPipeError):
                running.stdin.write(data[len(data) * part // 3:len(data) * (part + 1) // 3])
            time.sleep(0.01)
        return answered(running)


def compare(answer, inputs):
    """The inputs that get a wrong answer, each with the brute-force program's output and with that; and how many each refusal
    answers, 0 standing for none."""
    wrong, refusals = [], collections.Counter()
    for entry in inputs:
        expected = oracle.listing(entry.data)
        refusals[refusal_of(expected)] += 1
        found = answer(entry.data)
        if found != expected:
            wrong.append((entry, expected, found))
        if len(wrong) == ENOUGH:
            break
    return wrong, refusals


def report(wrong, refusals):
    """Prints what compare gave. True where all is well."""
    for entry, expected, found in wrong:
        print(f'wrong answer: {entry.name}\ninput {entry.data.hex()}')
        print(f'expected:\n{expected.decode()}found:\n{found.decode(errors="replace")}')
    print(f'{sum(refusals.values())} inputs compared, {len(wrong)} wrong answers')
    print('accepted: %d; %s' % (refusals[0], ', '.join(f'refused {number}: {refusals[number]}' for number in range(1, 16))))
    missing = [number for number in range(1, 16) if refusals[number] == 0]
    if missing and len(wrong) < ENOUGH:
        print('never reached:', *missing)
    return not wrong and not missing


def main(args):
    if len(args) != 1:
        sys.exit(__doc__)
    program, inputs = args[0], all_inputs()
    wrong, refusals = compare(lambda data: run(program, data), inputs)
    if not wrong:
        wrong, more = compare(lambda data: run_in_parts(program, data), inputs[::50])
        refusals += more
    return 0 if report(wrong, refusals) else 1


if __name__ == '__main__':
    sys.exit(main(sys.argv[1:]))
