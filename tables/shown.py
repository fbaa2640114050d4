"""What `neli_show json` prints of datagrams, as nodes: fields and attributes with their rows, values and what is in them."""
import concurrent.futures
import json
import os
import re
import struct
import subprocess
import tempfile

import live

TOP = os.path.dirname(os.path.abspath(__file__))
CRATE = os.environ.get("SHOWN") or os.path.join(os.path.dirname(TOP), "crates", "neli_show")
GENERIC, NLM_F_REQUEST = 16, 1
# A run of `rt try` ends after 1 MiB of output.
CHUNK = 100000


class Node:
    """A field, an attribute, an item of an array, a hop or a message: its line in the table, its number, its value, the
    names that stand for it, and what is in it."""

    def __init__(self, line, number):
        self.line, self.number = line, number
        self.value, self.inner, self.names, self.broken = None, [], None, None

    @property
    def name(self):
        return self.line.name if self.line else str(self.number)

    def leaves(self):
        yield self
        for node in self.inner:
            yield from node.leaves()

    def find(self, name):
        return next((node for node in self.inner if node.name == name), None)


class Message:
    """A message: its datagram, its place in that, what is printed of it, and as a node where a table has it."""

    def __init__(self, datagram, header, payload, printed):
        self.datagram, self.header, self.printed = datagram, header, printed
        self.table, self.line, self.node = None, None, None
        self.protocol, self.number = datagram.protocol, printed.get('command', header.kind)
        self.body = payload[4:] if 'command' in printed else payload

    @property
    def is_dumped(self):
        return self.datagram.is_reply and self.datagram.what != 'seen'

    def read(self, tables):
        """Looks up its line, and makes it a node."""
        found = line_of(tables, self.protocol, self.header.flags, self.number, self.printed)
        if found:
            self.table, self.line = found
            self.node = node_of(self.table, self.line, self.number, self.printed, True)


def line_of(tables, protocol, flags, number, printed):
    """The table and the line of a message by its printed name, or None."""
    other = 'reply' if flags & NLM_F_REQUEST else 'request'
    for table in (table for table in tables if table.protocol == protocol):
        for line in table.messages(printed.get('name')):
            is_number = line.span[0] == number or table.family.option('at')
            if is_number and not line.option(other) and is_of(table, line, printed):
                return table, line
    return None


def node_in(tables, protocol, printed):
    """A printed message as a node, or None."""
    flags = NLM_F_REQUEST if 'NLM_F_REQUEST' in printed['flags'] else 0
    number = printed.get('command', printed['type'])
    found = line_of(tables, protocol, flags, number, printed)
    return found and node_of(*found, number, printed, True)


def is_of(table, line, printed):
    """Whether this line has the structure that is printed; messages of one name differ in it."""
    structure = line.option('after') or line.kind == 'struct' and line.option('struct')
    return printed.get('structure') == (structure or None)


def node_of(table, line, number, printed, is_message=False):
    """The node of an object: of a message, or of an attribute by its line."""
    node = Node(line, number)
    node.broken = printed.get('broken') or printed.get('fault')
    if 'value' in printed and line:
        set_value(table, node, case_of(table, line, printed), printed['value'])
    elif 'value' in printed:
        node.value = value_of(printed['value'])
    elif is_message and 'payload' in printed:
        node.value = value_of(printed['payload'])
    line = case_of(table, line, printed) if line else None
    if 'structure' in printed:
        node.inner += fields_of(table, printed['structure'], printed['fields'])
    if 'attributes' in printed:
        node.inner += attributes_of(table, line.option('nest') if line else None, printed['attributes'])
    for place, hop in enumerate(printed.get('structures', ())):
        inner = Node(line, place)
        inner.broken = hop.get('fault')
        inner.inner = fields_of(table, hop['structure'], hop['fields']) if 'structure' in hop else []
        inner.inner += attributes_of(table, line.option('hops'), hop.get('attributes', ()))
        node.inner.append(inner)
    return node


def attributes_of(table, section, printed):
    """The nodes of a list; what follows the attributes and is none has no number."""
    nodes = []
    for item in printed:
        line = table.attribute(section, item['number']) if section and 'number' in item else None
        nodes.append(node_of(table, line, item.get('number'), item))
    return nodes


def case_of(table, line, printed):
    """The line that says what a payload is: of a choice the case that fits what is printed."""
    if line.kind != 'choice':
        return line
    rows = table.section('choice', line.option('choice')).rows
    return next((row for row in rows if fits(table, row, printed)), line)


def fits(table, row, printed):
    if 'attributes' in printed:
        names = {item.get('number'): item.get('name') for item in printed['attributes'] if 'number' in item}
        section = row.option('nest')
        lines = {number: section and table.attribute(section, number) for number in names}
        return section is not None and row.option('after') == printed.get('structure') and all(
            (lines[number].name if lines[number] else None) == name for number, name in names.items())
    value = printed.get('value')
    if isinstance(value, dict) and not is_special(value):
        return row.kind == 'struct' and is_structure(table, row.option('struct'), value)
    if isinstance(value, dict) and 'bytes' in value:
        return row.kind in ('bytes', 'pad') and 'broken' not in printed
    return row.kind not in ('nest', 'hops', 'struct', 'bytes', None)


def is_special(value):
    return set(value) in ({'bytes'}, {'value', 'selector'})


def is_structure(table, name, value):
    names = [row.name for row in table.fields(name)]
    printed = [key for key in value if key != 'rest']
    return names[:len(printed)] == printed


def value_of(value):
    return bytes.fromhex(value['bytes']) if isinstance(value, dict) and 'bytes' in value else value


def fields_of(table, structure, printed):
    """The nodes of a structure's fields."""
    rows = {row.name: row for row in reversed(table.fields(structure))}
    nodes = []
    for name, value in printed.items():
        if name in rows:
            node = Node(rows[name], rows[name].span[0])
            set_value(table, node, rows[name], value)
            nodes.append(node)
    return nodes


def set_value(table, node, line, value):
    """Gives a node its value, as a number also where a name is printed, and the names."""
    if isinstance(value, dict) and not is_special(value) and line.kind == 'struct':
        node.inner += fields_of(table, line.option('struct'), value)
    elif isinstance(value, list) and value and all(isinstance(item, dict) for item in value):
        for place, item in enumerate(value):
            inner = Node(line, place)
            inner.inner = fields_of(table, line.option('struct'), item)
            node.inner.append(inner)
    elif isinstance(value, dict) and 'selector' in value:
        both = [numbers_of(table, line, part) for part in value.values()]
        node.value, node.names = tuple(number for number, _ in both), both[0][1]
    else:
        node.value, node.names = numbers_of(table, line, value_of(value))


def numbers_of(table, line, value):
    """The number of a printed value, and its names; texts and bytes are themselves."""
    enum, flags = line.option('enum'), line.option('flags')
    if enum and isinstance(value, str):
        return number_of(table.section('enum', enum), value), value
    if enum and isinstance(value, list):
        return [number_of(table.section('enum', enum), v) if isinstance(v, str) else v for v in value], value
    if flags and isinstance(value, list) and not line.option('array'):
        section = table.section('flags', flags)
        total = 0
        for name in value:
            total |= int(name, 16) if name.startswith('0x') else number_of(section, name)
        return total, [name for name in value if not name.startswith('0x')]
    return value, None


def number_of(section, name):
    return next(row.span[0] for row in section.rows if row.name == name)


# Running the program

def pcap_of(datagrams):
    """A pcap file of packets as nlmon records them."""
    parts = [struct.pack('<IHHiIII', 0xa1b2c3d4, 2, 4, 0, 0, 1 << 20, 253)]
    for datagram in datagrams:
        cooked = struct.pack('>HHHQH', 4, 824, 0, 0, datagram.protocol) + datagram.data
        parts.append(struct.pack('<IIII', 0, 0, len(cooked), len(cooked)) + cooked)
    return b''.join(parts)


def chunks_of(datagrams):
    """Parts of so many bytes, each behind what the controller says of families."""
    first, known = [], set()
    for datagram in datagrams:
        names = set(live.generic_families([datagram])) if datagram.protocol == GENERIC else set()
        if names - known:
            first.append(datagram)
            known |= names
    chunk, size = [], 0
    for datagram in datagrams:
        if size and CHUNK < size + len(datagram.data):
            yield first, chunk
            chunk, size = [], 0
        chunk.append(datagram)
        size += len(datagram.data)
    yield first, chunk


def output_of(program, data):
    return subprocess.run([program, 'json'], input=data, capture_output=True).stdout.decode()


def lines_of(program, inputs):
    """The lines that the program prints of each input; without a program `rt try` builds it once, without proofs."""
    if program:
        with concurrent.futures.ThreadPoolExecutor(len(os.sched_getaffinity(0))) as pool:
            return list(pool.map(lambda data: output_of(program, data).splitlines(), inputs))
    with tempfile.TemporaryDirectory() as folder:
        for number, data in enumerate(inputs):
            with open(os.path.join(folder, f'{number:04}'), 'wb') as out:
                out.write(data)
            with open(os.path.join(folder, f'{number:04}.args'), 'w', encoding='ascii') as out:
                out.write('json\n')
        done = subprocess.run(['rt', 'try', '--seconds', '300', '--cases', folder], cwd=CRATE, capture_output=True)
    parts = re.split(r'^== (\S+)\n', done.stdout.decode(), flags=re.M)
    if len(parts) != 2 * len(inputs) + 1:
        raise SystemExit(done.stderr.decode()[-2000:])
    return [text.splitlines() for text in parts[2::2]]


def shown(program, datagrams, tables):
    """Each message of the datagrams, as the program prints it."""
    chunks = list(chunks_of(datagrams))
    for (first, chunk), lines in zip(chunks, lines_of(program, [pcap_of(first + rest) for first, rest in chunks])):
        # A line that is no message says that there is a fault.
        objects = iter([thing for thing in map(json.loads, lines) if 'type' in thing])
        for place, datagram in enumerate(first + chunk):
            for header, payload in live.messages_in(datagram.data):
                message = Message(datagram, header, payload, next(objects))
                if len(first) <= place:
                    message.read(tables)
                    yield message
