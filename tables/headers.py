"""The names of the kernel's headers with their numbers, for the scripts beside it."""
import collections
import concurrent.futures
import os
import re
import subprocess
import warnings

FOLDERS = ['linux', 'linux/netfilter', 'linux/netfilter/ipset', 'linux/tc_act', 'linux/tc_ematch', 'linux/can',
           'linux/dpll', 'asm-generic']
ENUM = re.compile(r'\benum\s*(\w*)\s*{([^{}]*)}')
TOKENS = re.compile(r'\s*(0[xX][0-9a-fA-F]+|\d+|\w+|<<|>>|[()|&~+*/-])([uUlL]*)')


def preprocess(folder, header, *flags):
    words = ['cc', '-I', folder, '-include', 'stddef.h', '-include', 'sys/socket.h', '-E', *flags, '-x', 'c', '-']
    done = subprocess.run(words, input=f'#include <{header}>\n', capture_output=True, text=True)
    return done.stdout if done.returncode == 0 else ''


def own_text(text, header):
    """What of a preprocessed text stands in the header itself."""
    kept, inside = [], False
    for line in text.split('\n'):
        mark = re.match(r'# \d+ "([^"]*)"', line)
        if mark:
            inside = mark[1].endswith('/' + header)
        elif inside:
            kept.append(line)
    return '\n'.join(kept)


def value_of(expression, known, depth=0):
    """The number of a C expression of numbers, names and operators, or None."""
    text, at, words = expression.strip(), 0, []
    while at < len(text):
        token = TOKENS.match(text, at)
        if not token:
            return None
        at = token.end()
        word = token[1]
        if word[0].isdigit():
            words.append(str(int(word, 8) if re.match(r'^0\d+$', word) else int(word, 0)))
        elif word.isidentifier():
            number = known(word, depth + 1)
            if number is None:
                return None
            words.append(f'({number})')
        else:
            words.append(word)
    try:
        warnings.simplefilter('ignore')
        return int(eval(' '.join(words), {'__builtins__': {}}))
    except Exception:
        return None


class Headers:
    """Each group of names (an enum, or the macros of a header) with the numbers, in order."""

    def __init__(self, folder):
        self.folder = folder
        self.groups = []
        self.numbers = {}
        self.where = {}
        found = []
        for sub in FOLDERS:
            path = os.path.join(folder, sub)
            if os.path.isdir(path):
                found += [f'{sub}/{f}' for f in sorted(os.listdir(path)) if f.endswith('.h')]
        with concurrent.futures.ThreadPoolExecutor(4) as pool:
            texts = list(pool.map(lambda h: (own_text(preprocess(folder, h), h), self.macros(h)), found))
        for header, (text, macros) in zip(found, texts):
            self.take(header, text, macros)

    def macros(self, header):
        with open(os.path.join(self.folder, header), errors='replace') as file:
            source = re.sub(r'/\*.*?\*/', ' ', file.read(), flags=re.S).replace('\\\n', ' ')
        return re.findall(r'^[ \t]*#[ \t]*define[ \t]+(\w+)[ \t]+([^\n]+)', source, re.M)

    def take(self, header, text, macros):
        bodies = dict(macros)

        def known(word, depth):
            if word in self.numbers:
                return self.numbers[word]
            return value_of(bodies[word], known, depth) if word in bodies and depth < 20 else None

        for name, body in ENUM.findall(text):
            group, after = collections.OrderedDict(), -1
            for entry in body.split(','):
                word, _, expression = (part.strip() for part in entry.partition('='))
                if not word.isidentifier():
                    continue
                number = value_of(expression, known) if expression else after + 1
                if number is None:
                    continue
                after = number
                group[word] = number
                self.numbers[word] = number
                self.where[word] = header
            self.groups.append((header, name, group))
        group = collections.OrderedDict()
        for name, body in macros:
            number = value_of(body, known)
            if number is not None and not name.startswith('_'):
                group[name] = number
                if name not in self.numbers:
                    self.numbers[name] = number
                    self.where[name] = header
        if group:
            self.groups.append((header, '', group))

    def best(self, wanted, hint=''):
        """The group and the prefix under which most of these pairs of a name's end and a number stand."""
        best = (0, 0, None, '')
        for header, name, group in self.groups:
            score = collections.Counter()
            by_number = collections.defaultdict(list)
            for word, number in group.items():
                by_number[number].append(word)
            for end, number in wanted:
                for word in by_number.get(number, ()):
                    if word == end or word.endswith('_' + end) or (hint and word == hint + end):
                        score[word[:len(word) - len(end)]] += 1
            for prefix, count in score.items():
                place = (count + (0.5 if prefix == hint else 0), -len(group))
                if place > best[:2]:
                    best = (*place, (header, name, group), prefix)
        return best[0], best[2], best[3]
