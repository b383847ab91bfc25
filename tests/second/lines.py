"""The line program: document 01, "Lines"."""
from .notations import NOTATIONS
from .writing import rewrite

# "line programs accept the name starlink"
NAMED = dict(zip((b'fits', b'ogip', b'cds', b'vou', b'starlink'), NOTATIONS))
NO_NOTATION = 0
LARGEST_LINE = 512
ROOM = 255


def answer(line):
    # "Not three tabs, or over 512 bytes without the newline: id empty, 15, checked before all others."
    if line.count(b'\t') != 3 or len(line) > LARGEST_LINE:
        return b'\t15\t\n'
    # "Input, fields parted by tabs: id, notation (fits, ogip, cds, vou), text, target." "Another notation name: 1."
    identifier, source, text, target = line.split(b'\t')
    number, result = rewrite(NAMED.get(source, NO_NOTATION), text, NAMED.get(target, NO_NOTATION), ROOM)
    # "Output: id, number, result (empty if refused)."
    return b'%s\t%d\t%s\n' % (identifier, number, result)


def answers(data):
    """The output for the whole input. "A last line needs no newline; every output line has one." """
    lines = data.split(b'\n')
    if lines[-1] == b'':
        lines.pop()
    return b''.join(map(answer, lines))
