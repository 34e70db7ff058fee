#!/usr/bin/env python3
"""Replays the stored cases of vectors.py through the library's C interface.

  replay.py LIBRARY KIND FOLDER   read FOLDER/stdin case by case, and compare the lines with FOLDER/stdout

LIBRARY is a shared object made of the archive. Every buffer that is lent has guard bytes on both sides, and
every figure holds junk before the call: a byte outside the buffer that changed, or a figure that is not 0 on
a refusal, is a wrong answer too. Exit 1 where a line differs; the first ones are shown.
"""
import argparse
import ctypes
import pathlib
import sys

GUARD = 0xA5
JUNK = 0x5A5A5A5A5A5A5A5A
SHOWN = 3


class Lent:
    """Bytes that a call may write, between guard bytes."""

    def __init__(self, data):
        self.size = len(data)
        self.memory = (ctypes.c_uint8 * (self.size + 32))(*([GUARD] * 16 + list(data) + [GUARD] * 16))

    def arguments(self):
        return ctypes.cast(ctypes.byref(self.memory, 16), ctypes.POINTER(ctypes.c_uint8)), ctypes.c_size_t(self.size)

    def data(self):
        held = bytes(self.memory)
        if held[:16] + held[16 + self.size:] != bytes([GUARD]) * 32:
            raise AssertionError('a byte outside the lent buffer has changed')
        return held[16:16 + self.size]


def shared(data):
    return (ctypes.c_uint8 * max(1, len(data)))(*data), ctypes.c_size_t(len(data))


class Library:
    def __init__(self, path):
        self.calls = ctypes.CDLL(str(path))

    def call(self, name, arguments, figures):
        """The refusal, or "0" and the figures, as the stored lines have them."""
        out = [ctypes.c_uint64(JUNK) for _ in range(figures)]
        function = getattr(self.calls, 'pumpfennel_' + name)
        function.restype = ctypes.c_uint8
        refusal = function(*arguments, *map(ctypes.byref, out))
        values = [o.value for o in out]
        if refusal == 0:
            return ' '.join(map(str, [0] + values))
        if any(values):
            raise AssertionError(f'refused {refusal} with figures {values}')
        return f'refused {refusal}'


def number(data):
    return int.from_bytes(data, 'little')


def shown(lent):
    return ':' + ''.join(f' {b}' for b in lent.data())


def grammar_lines(library, data):
    at = 0
    while at < len(data):
        size = number(data[at:at + 2])
        yield library.call('check_grammar', shared(data[at + 2:at + 2 + size]), 2)
        at += 2 + size


def ranking_lines(library, data):
    at, grammar = 0, b''
    while at < len(data):
        call, length, rank = data[at], number(data[at + 1:at + 9]), number(data[at + 9:at + 17])
        size = number(data[at + 17:at + 19])
        rest = data[at + 19:at + 19 + size]
        at += 19 + size
        if call == 0:
            grammar = rest
        elif call == 1:
            yield library.call('count', (*shared(grammar), ctypes.c_uint64(length)), 1)
        elif call == 2:
            buffer = Lent([7] * len(rest))
            line = library.call('unrank', (*shared(grammar), ctypes.c_uint64(length), ctypes.c_uint64(rank), *buffer.arguments()), 1)
            yield line + shown(buffer)
        else:
            yield library.call('rank', (*shared(grammar), *shared(rest)), 3)


def history_lines(library, data):
    at, buffer = 0, Lent(b'')
    while at < len(data):
        call, voice, played = data[at], number(data[at + 1:at + 9]), number(data[at + 9:at + 17])
        size = number(data[at + 17:at + 19])
        rest = data[at + 19:at + 19 + size]
        at += 19 + size
        if call == 0:
            buffer = Lent(rest)
        if call in (0, 3):
            yield library.call('check_history', shared(buffer.data()), 1)
        else:
            line = library.call('append', (*buffer.arguments(), *shared(rest), ctypes.c_uint64(voice), ctypes.c_uint64(played)), 1)
            yield line + shown(buffer) if call == 1 else line
        buffer.data()


def sampling_lines(library, data):
    at, grammar, history = 0, b'', b''
    while at < len(data):
        call, length, voice, draw = data[at], *(number(data[i:i + 8]) for i in (at + 1, at + 9, at + 17))
        size = number(data[at + 25:at + 27])
        rest = data[at + 27:at + 27 + size]
        at += 27 + size
        if call == 0:
            grammar = rest
        elif call == 1:
            history = rest
        else:
            matching = call in (4, 5)
            named = shared(rest) if matching else (ctypes.c_uint64(length),)
            given = (*shared(grammar), *shared(history), *named, ctypes.c_uint64(voice))
            name = '_matching' if matching else ''
            if call in (2, 4):
                yield library.call('remaining' + name, given, 3)
            else:
                buffer = Lent([7] * (length if matching else len(rest)))
                line = library.call('draw' + name, (*given, ctypes.c_uint64(draw), *buffer.arguments()), 2)
                yield line + shown(buffer)


def weighted_lines(library, data):
    at, grammar, history, weights = 0, b'', b'', b''
    while at < len(data):
        call, length, voice, ticket = data[at], *(number(data[i:i + 8]) for i in (at + 1, at + 9, at + 17))
        size = number(data[at + 25:at + 27])
        rest = data[at + 27:at + 27 + size]
        at += 27 + size
        if call == 0:
            grammar = rest
        elif call == 1:
            history = rest
        elif call == 2:
            weights = rest
        else:
            buffer = Lent([7] * len(rest))
            given = (*shared(grammar), *shared(history), ctypes.c_uint64(length), ctypes.c_uint64(voice))
            name, more = ('draw_weighted', shared(weights)) if call == 3 else ('draw', ())
            yield library.call(name, (*given, *more, ctypes.c_uint64(ticket), *buffer.arguments()), 2) + shown(buffer)


LINES = {'grammar': grammar_lines, 'ranking': ranking_lines, 'history': history_lines, 'sampling': sampling_lines, 'weighted': weighted_lines}


def main():
    parser = argparse.ArgumentParser(description=__doc__.split('\n')[0])
    parser.add_argument('library', type=pathlib.Path)
    parser.add_argument('kind', choices=LINES)
    parser.add_argument('folder', type=pathlib.Path)
    args = parser.parse_args()
    expected = (args.folder / 'stdout').read_text().splitlines()
    got = list(LINES[args.kind](Library(args.library.resolve()), (args.folder / 'stdin').read_bytes()))
    wrong = [i for i, pair in enumerate(zip(got, expected)) if pair[0] != pair[1]]
    for i in wrong[:SHOWN]:
        print(f'line {i + 1}: expected {expected[i]}\n  got {got[i]}')
    if len(got) != len(expected):
        print(f'{len(got)} lines, expected {len(expected)}')
    print(f'{len(got)} stored calls of kind {args.kind}, {len(wrong)} wrong')
    return 1 if wrong or len(got) != len(expected) or not got else 0


if __name__ == '__main__':
    sys.exit(main())
