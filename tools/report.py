"""What a program wrote of a sheet, of two reports, or of a seal, judged: whether it is whole, and what it says.

A report is a header and its lines, closed by LF, with as many lines of faults as the header counts, and behind them the line of its seal
where one was asked for; a refusal is one line `X` with number, line and field. This is the one place that knows the shapes of lines."""
import binascii, re

NUMBER = rb'(0|[1-9][0-9]{0,4})'
HEADER = re.compile(rb'R\t(old|house)\t' + NUMBER)
REFUSAL = re.compile(rb'X\t' + NUMBER + rb'\t' + NUMBER + rb'\t' + NUMBER)
LINES = [  # a line behind the header: its shape, and whether the header counts it
    (re.compile(rb'E(\t[^\t\n]+){7}'), True),
    (re.compile(rb'N\t' + NUMBER), False),
]
ACCEPTED, FAULTY, REFUSED = 0, 1, 2


class Answer:
    """What was answered to a sheet: the text, the exit code that says it, and in words."""

    def __init__(self, text, code, *words):
        self.text, self.code, self.words = text, code, words


def unsealed(text):
    """The report before the line that seals it, or None where that line is not its."""
    before = text[:-len('K_00000000_')]
    return before if text == b'%sK\t%08x\n' % (before, binascii.crc32(before)) else None


def judged(text, rule, sealed=False):
    """The answer that a text under a rule is, or None where the text is not whole."""
    if not text.endswith(b'\n'):
        return None
    refusal = REFUSAL.fullmatch(text[:-1])
    if refusal:
        return Answer(text, REFUSED, b'refused', *refusal.groups())
    report = unsealed(text) if sealed else text
    if not report:
        return None
    first, *rest = report[:-1].split(b'\n')
    header = HEADER.fullmatch(first)
    if not header or header[1] != rule:
        return None
    counted = [[count for shape, count in LINES if shape.fullmatch(line)] for line in rest]
    if [] in counted or sum(count for line in counted for count in line) != int(header[2]):
        return None
    return Answer(text, FAULTY, b'faulty', header[2]) if int(header[2]) else Answer(text, ACCEPTED, b'accepted')


EQUAL, PARTED, MALFORMED = 0, 1, 2
COMPARISON = re.compile(rb'D\t' + NUMBER + rb'\n|M\t([12])\t([1-9][0-9]{0,4})\n')


def compared(text, first, second):
    """The exit code that a text on two reports says, or None where the text is not whole: behind `D line` stands the end of the longer
    report, and before it as many lines as the line's number says."""
    head = COMPARISON.match(text)
    if not head or head[1] in (None, b'0') and head.end() != len(text):
        return None
    if head[1] is None:
        return MALFORMED
    if head[1] == b'0':
        return EQUAL if first == second else None
    longer, rest = second if len(first) < len(second) else first, text[head.end():]
    before = longer[:len(longer) - len(rest)]
    whole = longer.endswith(rest) and first != second and before.count(b'\n') + 1 == int(head[1]) and before == second[:len(before)] == first[:len(before)]
    return PARTED if whole else None


GOOD, WRONG, NO_SEAL = 0, 1, 2
SEALS = {b'good\n': GOOD, b'wrong\n': WRONG, b'none\n': NO_SEAL}


def verified(text):
    """The exit code that a text on a seal says, or None where the text is not whole."""
    return SEALS.get(text)


WRITTEN = 0


def written_back(text, sheet):
    """The exit code that a text on a sheet to be written back says, or None where it is neither the sheet nor a refusal."""
    if text.endswith(b'\n') and REFUSAL.fullmatch(text[:-1]):
        return REFUSED
    return WRITTEN if text == sheet else None
