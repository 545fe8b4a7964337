"""Where a sheet is refused, for a person at a terminal: the line, and carets under the field.

A tab stands as two blanks, so that the carets are under the field whatever the terminal makes of tabs; a blank, a backslash and all that is
no printable character stand as `\\x` and two hex digits, so that nothing is mistaken for a tab or taken for a command by the terminal. A line
that is too long is cut, behind the field or around it."""
import os, re

TAB, CUT, LEAST = b'  ', b'...', 20


def width():
    """How many columns standard error has, or None where it is no terminal."""
    if not os.isatty(2):
        return None
    try:
        return os.get_terminal_size(2).columns or 80
    except OSError:
        return 80


def shown(field):
    return re.sub(rb'[^!-\[\]-~]', lambda found: b'\\x%02x' % found[0][0], field)


def marked(sheet, line, field, columns):
    """The line, and where a field is named the carets under it, which for a field that is missing stand behind the line's end; neither is
    longer than so many columns, or LEAST. Nothing where the sheet has no such line."""
    lines = sheet.split(b'\n')[:-1]
    if not 0 < line <= len(lines):
        return []
    fields = [shown(each) for each in lines[line - 1].split(b'\t')]
    text, before = TAB.join(fields), TAB.join(fields[:max(field, 1) - 1] + [b''])
    begin, end = len(before), len(before) + max(1, len(b''.join(fields[field - 1:field])))
    room = max(columns, LEAST)
    first = max(0, min(begin - room // 3, max(len(text), end) - room)) if end > room - len(CUT) else 0
    last = first + room
    part = text[first:last]
    if first:
        part = CUT + part[len(CUT):]
    if last < len(text):
        part, end = part[:-len(CUT)] + CUT, min(end, last - len(CUT))
    return [part, b' ' * (begin - first) + b'^' * (min(end, last) - begin)] if field else [part]
