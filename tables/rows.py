"""The rows of the tables (form.py), as record and compare look them up."""
import os

import form

TOP = os.path.dirname(os.path.abspath(__file__))


class Table:
    """A family's table."""

    def __init__(self, name, text):
        self.name, self.sections, self.by_name = name, form.read_whole(text), {}
        for section in self.sections:
            self.by_name.setdefault((section.word, section.name), section)
        self.family = self.sections[0]
        self.protocol = self.family.span[0] if self.family.span else None

    def section(self, word, name):
        return self.by_name[word, name]

    def messages(self, name):
        """The lines of the messages of this name; some stand several times, for each family."""
        return [line for line in self.sections if line.word == 'message' and line.name == name]

    def attribute(self, section, number):
        """The row of a set with this number, or else that of every number; None where there is neither."""
        lines = self.section('set', section).rows
        found = next((row for row in lines if row.word == 'attr' and row.span[0] == number), None)
        return found or next((row for row in lines if row.word == 'each'), None)

    def fields(self, structure):
        return self.section('struct', structure).rows


def load():
    """The tables of the files beside this one."""
    tables = []
    for file in sorted(os.listdir(TOP)):
        if file.endswith('.table'):
            with open(os.path.join(TOP, file), encoding='ascii') as source:
                tables.append(Table(file[:-6], source.read()))
    return tables
