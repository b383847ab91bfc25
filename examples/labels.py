#!/usr/bin/env python3
"""Reads a label, rewrites it in another notation, converts from one label to another, and speaks a label, as labels.c does.

usage: labels.py [LIBRARY]     LIBRARY is the path of the shared library; without it the system's loader looks for it
"""
import ctypes
import struct
import sys

# Numbers of thalinguze.h, which says what they mean.
FITS, OGIP, CDS, VOUNITS, STARLINK = 1, 2, 3, 4, 5
FIELDS, FIELD_COUNT, FIELD_TERMS, TERM_FIELDS, TERM_UNIT, TERM_EXPONENT = 266, 5, 6, 7, 1, 2
CONVERSION_FIELDS = 4
MAX_LABEL_SIZE = 255
MAX_WORDS_SIZE = 1476
VERSION_MAJOR = 0


class Rewritten(ctypes.Structure):
    _fields_ = [("number", ctypes.c_uint32), ("length", ctypes.c_uint32)]


def load(path):
    """The library, with the types of its calls."""
    library = ctypes.CDLL(path)
    notation, size = ctypes.c_uint32, ctypes.c_size_t
    label, buffer = ctypes.c_char_p, ctypes.c_void_p
    library.thalinguze_version.argtypes = []
    library.thalinguze_version.restype = ctypes.c_uint32
    library.thalinguze_read.argtypes = [notation, label, size, buffer, size]
    library.thalinguze_read.restype = ctypes.c_uint32
    library.thalinguze_rewrite.argtypes = [notation, label, size, notation, buffer, size]
    library.thalinguze_rewrite.restype = Rewritten
    library.thalinguze_words.argtypes = [notation, label, size, buffer, size]
    library.thalinguze_words.restype = Rewritten
    library.thalinguze_convert.argtypes = [notation, label, size, notation, label, size, buffer, size]
    library.thalinguze_convert.restype = ctypes.c_uint32
    if library.thalinguze_version() // 10000 != VERSION_MAJOR:
        sys.exit("the library has another major version")
    return library


class Refused(Exception):
    """A refusal; its argument is the number."""


def read(library, notation, label):
    """The unit code and the exponent, in sixtieths, of each term. A label is bytes."""
    record = ctypes.create_string_buffer(8 * FIELDS)
    number = library.thalinguze_read(notation, label, len(label), record, len(record))
    if number != 0:
        raise Refused(number)
    fields = struct.unpack(f"<{FIELDS}q", record)
    terms = (FIELD_TERMS + TERM_FIELDS * i for i in range(fields[FIELD_COUNT]))
    return [(fields[term + TERM_UNIT], fields[term + TERM_EXPONENT]) for term in terms]


def result_of(answer, buffer):
    """What rewriting and words wrote."""
    if answer.number != 0:
        raise Refused(answer.number)
    return buffer.raw[: answer.length]


def rewrite(library, source, label, target):
    """The label in the target notation."""
    result = ctypes.create_string_buffer(MAX_LABEL_SIZE)
    return result_of(library.thalinguze_rewrite(source, label, len(label), target, result, len(result)), result)


def speak(library, notation, label):
    """The label's words."""
    words = ctypes.create_string_buffer(MAX_WORDS_SIZE)
    return result_of(library.thalinguze_words(notation, label, len(label), words, len(words)), words)


def convert(library, first, from_label, second, to_label):
    """Numerator, denominator and power of ten of the factor."""
    record = ctypes.create_string_buffer(8 * CONVERSION_FIELDS)
    number = library.thalinguze_convert(first, from_label, len(from_label), second, to_label, len(to_label), record, len(record))
    if number != 0:
        raise Refused(number)
    return struct.unpack(f"<{CONVERSION_FIELDS}q", record)[1:]


def main():
    library = load(sys.argv[1] if len(sys.argv) > 1 else f"libthalinguze.so.{VERSION_MAJOR}")
    for notation, label in [(CDS, b"kg/m.s"), (FITS, b"kg/m.s")]:
        try:
            for unit, exponent in read(library, notation, label):
                print(f"unit {unit}, exponent {exponent} sixtieths")
        except Refused as refusal:
            print(f"{label.decode()} is refused, number {refusal}")
    print(f"10+3pix/h is rewritten as {rewrite(library, CDS, b'10+3pix/h', OGIP).decode()}")
    numerator, denominator, k = convert(library, CDS, b"km/h", CDS, b"m/s")
    print(f"km/h to m/s: times {numerator}/{denominator} times ten to the {k}")
    print(f"kg/m.s is spoken as {speak(library, CDS, b'kg/m.s').decode()}")


if __name__ == "__main__":
    main()
