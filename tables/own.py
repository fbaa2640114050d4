"""What stands by hand in own/, for the scripts beside it: rows over those of a specification, or a whole table.

An enum or a flag set of another table is taken by `enum protocol from=rt_route/protocol`, in place of its values.
"""
import os
import re

import form

TOP = os.path.dirname(os.path.abspath(__file__))
# In the first line of a table that is written from a specification.
MARK = 'Written by from-specs'
TAKEN = re.compile(r'^(enum|flags) (\S+) from=(\w+)/(\S+)$', re.M)


def names():
    return sorted(file.removesuffix('.table') for file in os.listdir(f'{TOP}/own'))


def table(name):
    """A table as it stands, or None."""
    try:
        with open(f'{TOP}/{name}.table', encoding='ascii') as source:
            return source.read()
    except FileNotFoundError:
        return None


def is_by_hand(name):
    """Whether a table stands, and is from no specification."""
    text = table(name)
    return text is not None and MARK not in text.partition('\n')[0]


def text_of(name, table_of=table):
    """What own/ says of a table, with the values that it takes from others: `table_of` gives their texts."""
    def values(found):
        word, title, other, wanted = found.groups()
        section = re.search(rf'^{word} {re.escape(wanted)}( .*)?((?:\n  value .*)+)', table_of(other) or '', re.M)
        if section is None:
            raise SystemExit(f'own/{name}.table: {other}.table has no values of {word} {wanted}')
        return f'{word} {title}{section[1] or ""}{section[2]}'

    with open(f'{TOP}/own/{name}.table', encoding='ascii') as source:
        return TAKEN.sub(values, source.read())


def lines_of(text):
    """Each row of a text, and each section without rows, by what tells it from others; of several the last."""
    lines = [(section, line) for section in form.read(text) for line in section.rows or [section]]
    return {(section.word, section.name, line.key()): line.text() for section, line in lines}


def is_written(name):
    """Whether a table has all that own/ says of it."""
    if is_by_hand(name):
        return table(name) == text_of(name)
    return lines_of(text_of(name)).items() <= lines_of(table(name)).items()
