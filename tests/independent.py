#!/usr/bin/env python3
"""A second implementation of document 01 and its decisions, and of W1 to W3 in document 02, to compare the library with. It was written
without sight of the library.

usage: independent.py [read]            reads lines NOTATION HEX, and prints each with its reading, as `thalinguze read --vectors` does
       independent.py rewrite           reads lines SOURCE HEX TARGET SIZE, and prints each with NUMBER LENGTH HEX
       independent.py convert           reads lines NOTATION HEX NOTATION HEX, and prints each with NUMBER N D K
       independent.py words             reads lines NOTATION HEX SIZE, and prints each with NUMBER LENGTH HEX
       independent.py lines             the line program: standard input to standard output
       independent.py symbols           prints the lines of vectors/symbols.tsv
       independent.py spoken            prints the lines of vectors/words.tsv
       independent.py decimals          prints the lines of vectors/decimals.tsv
       independent.py starlink          prints the lines of vectors/starlink.tsv
       independent.py starlink-lines    prints vectors/starlink.in
       independent.py cases KIND SEED COUNT [all]
                                        prints cases for read, rewrite, convert, words or lines: those at an edge, COUNT others, and with
                                        `all` every unit with every prefix in every notation (words), also into every notation (rewrite),
                                        or every pair of units (convert)
       independent.py met LEAST READ REWRITTEN CONVERTED WORDS LINES
                                        prints how often each refusal number is met in five files of answers; status 1 if one is met
                                        fewer than LEAST times, or if a file lacks a number that its kind can answer or has another

HEX is a label's bytes in hexadecimal, `-` if there are none. SIZE is the lent buffer's length."""
import sys

from second import (convert_cases, converting, decimal_cases, line_cases, lines, read_cases, reading, rewrite_cases, speaking, spoken,
                    starlink_cases, word_cases, writing)
from second.notations import NOTATIONS
from second.symbols import spellings


def bytes_of(hexadecimal):
    return b'' if hexadecimal == '-' else bytes.fromhex(hexadecimal)


def print_readings():
    for line in sys.stdin:
        notation, label = line.split()
        print(notation, label, reading.shown(int(notation), bytes_of(label)))


def print_rewritings():
    for line in sys.stdin:
        source, label, target, size = line.split()
        number, result = writing.rewrite(int(source), bytes_of(label), int(target), int(size))
        assert number or writing.reads_back(int(source), bytes_of(label), int(target), result), line
        print(source, label, target, size, number, len(result), result.hex() or '-')


def print_conversions():
    for line in sys.stdin:
        first, above, second, below = line.split()
        print(first, above, second, below, *converting.convert(int(first), bytes_of(above), int(second), bytes_of(below)))


def print_words():
    """Equal words must come from readings with equal content: each is compared with the first that has its words."""
    met = {}
    for line in sys.stdin:
        notation, label, size = line.split()
        number, result = speaking.speak(int(notation), bytes_of(label), int(size))
        if number == 0:
            first = met.setdefault(result, (notation, label))
            same = first == (notation, label) or content_of(*first) == content_of(notation, label)
            assert same, 'two readings have the words "%s": %s %s and %s %s' % (result.decode('ascii'), *first, notation, label)
        print(notation, label, size, number, len(result), result.hex() or '-')


def content_of(notation, label):
    return writing.content(reading.read(int(notation), bytes_of(label)))


def print_spoken():
    sys.stdout.buffer.write(spoken.text())


def print_lines():
    sys.stdout.buffer.write(lines.answers(sys.stdin.buffer.read()))


def print_stored(labels):
    for notation, data in labels:
        print(notation, data.hex() or '-', reading.shown(notation, data))


def print_symbols():
    print_stored((notation, spelling.encode('ascii')) for notation in NOTATIONS for spelling in spellings(notation))


def print_decimals():
    print_stored(decimal_cases.stored())


def print_starlink():
    print_stored(starlink_cases.stored())


def print_starlink_lines():
    sys.stdout.buffer.write(line_cases.stored())


CASES = {'read': read_cases, 'rewrite': rewrite_cases, 'convert': convert_cases, 'words': word_cases, 'lines': line_cases}


def print_cases(kind, seed, count, everything=''):
    sys.stdout.buffer.write(CASES[kind].text(int(seed), int(count), everything == 'all'))


# what parts an answer's fields, which of them is the number, and the numbers that the kind can answer: the lines' buffer is never short
READING = set(range(8))
ANSWERS = {'read': (b' ', 2, READING), 'rewrite': (b' ', 4, READING | {12, 13, 14}), 'convert': (b' ', 4, READING | {8, 9, 10, 11}),
           'words': (b' ', 3, READING | {14}), 'lines': (b'\t', 1, READING | {12, 13, 15})}


def numbers(kind, name):
    """The refusal number of every answer in a file."""
    separator, field, _ = ANSWERS[kind]
    with open(name, 'rb') as file:
        return [int(line.split(separator)[field]) for line in file.read().split(b'\n')[:-1]]


def print_met(least, *files):
    assert len(files) == len(ANSWERS), 'a file of answers is missing or too many'
    met, right = [0] * 16, True
    for kind, name in zip(ANSWERS, files):
        found, possible = numbers(kind, name), ANSWERS[kind][2]
        for number in found:
            met[number] += 1
        if set(found) != possible:
            right = False
            print('%s: numbers that are not met, or cannot be: %s' % (kind, ', '.join(map(str, sorted(set(found) ^ possible)))))
    print('%d answers; with each number: %s' % (sum(met), ', '.join('%d: %d' % pair for pair in enumerate(met))))
    rare = [str(number) for number, times in enumerate(met) if times < int(least)]
    print('each number is met at least %s times' % least if not rare else 'met fewer than %s times: %s' % (least, ', '.join(rare)))
    return 0 if right and not rare else 1


MODES = {'read': print_readings, 'rewrite': print_rewritings, 'convert': print_conversions, 'words': print_words, 'lines': print_lines,
         'symbols': print_symbols, 'spoken': print_spoken, 'decimals': print_decimals, 'starlink': print_starlink, 'starlink-lines': print_starlink_lines,
         'cases': print_cases, 'met': print_met}


if __name__ == '__main__':
    mode, *arguments = sys.argv[1:] or ['read']
    if mode not in MODES:
        sys.exit(__doc__)
    sys.exit(MODES[mode](*arguments))
