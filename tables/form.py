"""The form of tables (docs/TABLES.md), for the scripts beside it: reads a text, and writes one."""
import re

# What stands where: a row's word, and the sections that it belongs to.
ROWS = {'value': ('enum', 'flags'), 'field': ('struct',), 'attr': ('set',), 'each': ('set',), 'case': ('choice',),
        'else': ('choice',)}
SECTIONS = ('family', 'group', 'message', 'enum', 'flags', 'struct', 'set', 'choice')

NUMBERS = {'u8': 1, 'u16': 2, 'u32': 4, 'u64': 8, 's8': 1, 's16': 2, 's32': 4, 's64': 8,
           'be16': 2, 'be32': 4, 'be64': 8, 'sbe32': 4}
PLAIN = set(NUMBERS) | {'flag', 'uint', 'sint', 'text', 'ztext', 'hardware', 'ipv4', 'ipv6', 'ip', 'address', 'uuid',
                        'bits', 'sockaddr', 'bytes', 'pad'}
# Kinds that name a section, and which.
NAMING = {'nest': 'set', 'struct': 'struct', 'choice': 'choice', 'hops': 'set'}
KINDS = PLAIN | set(NAMING)
# Options that name a line, that have numbers, another word, and nothing.
REFERENCES = {'enum': 'enum', 'flags': 'flags', 'after': 'struct', 'by': 'attr'}
SPANS = {'length', 'range', 'mask', 'family', 'version', 'id', 'at', 'strict-from'}
WORDS = {'prefix'}
MARKS = {'array', 'multi', 'request', 'reply', 'hex', 'by-family', 'strict'}

NUMBER = re.compile('0x([0-9a-f]+)|([0-9]+)')

# Which numbers stand after a name: none, or else one where it says 'one'; a field has a range.
NUMBERED = {'family': 'maybe', 'group': 'maybe', 'case': 'maybe', 'message': 'one', 'struct': 'one', 'attr': 'one',
            'value': 'one', 'field': 'range'}
WITH_KIND = {'message', 'field', 'attr', 'each', 'case', 'else'}
ANY_NUMBER = set(NUMBERS) | {'uint', 'sint'}
# The kinds that an option stands beside, and the lines that others stand on.
BESIDE = {'after': {'nest', 'hops'}, 'by': {'choice'}, 'by-family': {'choice'}, 'enum': ANY_NUMBER | {'bits'},
          'flags': ANY_NUMBER | {'bits'}, 'array': ANY_NUMBER | {'struct'}, 'range': ANY_NUMBER, 'mask': ANY_NUMBER,
          'hex': ANY_NUMBER | {'bytes'}, 'length': KINDS}
ON = {'multi': {'attr'}, 'request': {'message'}, 'reply': {'message'}, 'family': {'message'}, 'version': {'family'},
      'id': {'family'}, 'at': {'family'}, 'prefix': {'enum', 'flags'},
      'strict': {'message'}, 'strict-from': {'set'}}


class Refused(Exception):
    """A line that is none: its number and why."""

    def __init__(self, line, why):
        super().__init__(f'line {line}: {why}')
        self.line = line
        self.why = why


def number(word):
    """The number of a word, or None."""
    found = NUMBER.fullmatch(word)
    if not found:
        return None
    value = int(found[1], 16) if found[1] else int(found[2])
    return value if value < 2**64 else None


def span_of(word):
    """The numbers of a word, or None."""
    first, dots, last = word.partition('.')
    if dots and not last.startswith('.'):
        return None
    span = (number(first), number(last[1:]) if dots else number(first))
    return span if None not in span and span[0] <= span[1] else None


class Line:
    """A section or a row of one: its word, its name, its numbers and its options, in order."""

    def __init__(self, word, name, span=None, options=(), at=0):
        self.word, self.name, self.span, self.at = word, name, span, at
        self.options = list(options)
        self.rows = []

    def option(self, key, default=None):
        for option in self.options:
            if option[0] == key:
                return option[1] if len(option) > 1 else True
        return default

    @property
    def kind(self):
        for option in self.options:
            if option[0] in KINDS:
                return option[0]
        return None

    def key(self):
        """What tells a row from the others of its section."""
        if self.word == 'attr':
            return ('attr', self.span[0])
        return (self.word, self.name)

    def text(self):
        words = [self.word, self.name]
        if self.span is not None:
            hexadecimal = self.word == 'value' and getattr(self, 'hex', False)
            words.append(span_text(self.span, self.word in ('field',), hexadecimal))
        for option in self.options:
            value = option[1:] and (span_text(option[1]) if isinstance(option[1], tuple) else option[1])
            words.append(f'{option[0]}={value}' if value else option[0])
        return ' '.join(words)


def span_text(span, both=False, hexadecimal=False):
    if hexadecimal:
        return f'{span[0]:#x}'
    return f'{span[0]}..{span[1]}' if both or span[0] != span[1] else str(span[0])


def words_of(line):
    """The words of a line, without a comment."""
    words = []
    for word in line.split(' '):
        if word.startswith('#'):
            break
        if word:
            words.append(word)
    return words


def option_of(word, at, names):
    """The option that a word says; `names` are the lines that it may refer to, or None where all are taken."""
    key, equals, value = word.partition('=')
    refers = NAMING.get(key) or REFERENCES.get(key)
    if not (refers or key in SPANS or key in WORDS or key in PLAIN or key in MARKS):
        raise Refused(at, 'no such option')
    takes = key not in PLAIN and key not in MARKS
    if takes != bool(equals) or takes != bool(value):
        raise Refused(at, 'an option without its value, or with one that it does not take')
    if key in SPANS:
        value = span_of(value)
        if value is None:
            raise Refused(at, 'no number of 64 bits, or a range out of order')
    if refers and names is not None and (refers, value) not in names:
        raise Refused(at, 'a name that no such line has')
    return (key, value) if takes else (key,)


def check_number(line, at):
    numbered = NUMBERED.get(line.word)
    if line.span is None and numbered in ('one', 'range'):
        raise Refused(at, 'a number is missing')
    if line.span is not None and numbered is None:
        raise Refused(at, 'such a line has no number')
    if line.span is not None and numbered != 'range' and line.span[0] != line.span[1]:
        raise Refused(at, 'no number of 64 bits, or a range out of order')


def belongs(line, key):
    """Whether an option stands on such a line."""
    if key in KINDS:
        return line.word in WITH_KIND
    return line.kind in BESIDE[key] if key in BESIDE else line.word in ON[key]


def line_of(words, at, names=None):
    if words[0] not in SECTIONS and words[0] not in ROWS:
        raise Refused(at, 'no line begins with this word')
    if len(words) < 2:
        raise Refused(at, 'a name is missing')
    line, rest, seen = Line(words[0], words[1], at=at), words[2:], set()
    if rest and '0' <= rest[0][0] <= '9':
        line.span = span_of(rest[0])
        if line.span is None:
            raise Refused(at, 'no number of 64 bits, or a range out of order')
        rest = rest[1:]
    check_number(line, at)
    for word in rest:
        option = option_of(word, at, names)
        slot = 'kind' if option[0] in KINDS else option[0]
        if slot in seen:
            raise Refused(at, 'an option that stands twice')
        seen.add(slot)
        line.options.append(option)
    if not all(belongs(line, option[0]) for option in line.options):
        raise Refused(at, 'an option that does not belong here')
    return line


def read(text, names=None):
    """The sections of a text, each with its rows; raises Refused at the first line that is none."""
    sections = []
    for at, line in enumerate(text.split('\n'), 1):
        words = words_of(line)
        if not words:
            continue
        item = line_of(words, at, names)
        if (item.word == 'family') != (not sections):
            raise Refused(at, 'the family comes first, and once')
        if item.word in ROWS:
            if sections[-1].word not in ROWS[item.word]:
                raise Refused(at, 'a row that does not belong here')
            sections[-1].rows.append(item)
        else:
            sections.append(item)
    return sections


def read_whole(text):
    """The same, where each name that a line refers to is that of another line."""
    lines = [words_of(line) for line in text.split('\n')]
    return read(text, {(words[0], words[1]) for words in lines if len(words) > 1})


def write(sections, heading):
    lines = [f'# {line}' for line in heading]
    before = None
    for section in sections:
        if section.rows or before is None or before.rows or before.word != section.word:
            lines.append('')
        lines.append(section.text())
        lines.extend('  ' + row.text() for row in section.rows)
        before = section
    return '\n'.join(lines) + '\n'
