"""What other readers make of the same messages: the kernel's own in Python, pyroute2, and programs' JSON."""
import collections
import contextlib
import io
import ipaddress
import json
import os
import re
import sys

import form


class Counts:
    """What was compared: how many values, and those that differ."""

    def __init__(self, title):
        self.title, self.equal, self.differing = title, 0, []

    def take(self, is_same, what):
        if is_same:
            self.equal += 1
        elif what not in self.differing:
            self.differing.append(what)

    def text(self):
        return f'{self.title}: {self.equal + len(self.differing)} values compared, {len(self.differing)} differ'


def plain_name(name):
    return str(name).lower().replace('-', '_').replace('.', '_')


def packed(node):
    """The bytes that a value stands for, or None where that is not plain to say."""
    ours, kind = node.value, node.line.kind
    if isinstance(ours, bytes):
        return ours
    if isinstance(ours, str) and kind == 'hardware':
        return bytes.fromhex(ours.replace(':', ''))
    if isinstance(ours, str) and kind in ('ip', 'ipv4', 'ipv6', 'address'):
        return ipaddress.ip_address(ours).packed
    if isinstance(ours, int) and (kind in form.NUMBERS or kind == 'uint'):
        width = form.NUMBERS.get(kind, 4 if ours < 1 << 32 else 8)
        return (ours % (1 << 8 * width)).to_bytes(width, 'big' if 'be' in kind else 'little')
    return ours.encode() if isinstance(ours, str) and kind in ('text', 'ztext') else None


def is_number(node, theirs):
    """Whether a number is ours; some readers know neither its sign nor its byte order."""
    ours, kind = node.value, node.line.kind
    if not isinstance(ours, int) or not isinstance(theirs, int):
        return theirs == ours
    width = form.NUMBERS.get(kind, 8)
    swapped = int.from_bytes((ours % (1 << 8 * width)).to_bytes(width, 'big'), 'little') if 'be' in kind else ours
    return any((theirs - number) % (1 << 8 * width) == 0 for number in (ours, swapped))


def address_digits(text):
    """The bytes of an IP address in hexadecimal, or None."""
    try:
        return ipaddress.ip_address(text).packed.hex()
    except ValueError:
        return None


def is_value(node, theirs):
    """Whether a value of another reader is ours: the number, its name, or the text that stands for it."""
    ours = node.value
    if isinstance(theirs, (bytes, bytearray)):
        return packed(node) in (None, bytes(theirs), bytes(theirs).rstrip(b'\0'))
    if isinstance(theirs, bool):
        return theirs == bool(ours)
    if isinstance(theirs, (set, list)) and isinstance(node.names, list):
        return {plain_name(n) for n in theirs} == {plain_name(n) for n in node.names}
    if isinstance(theirs, list) and theirs and isinstance(theirs[0], dict) and 'label' in theirs[0]:
        return theirs == [{'label': n >> 12, 'tc': n >> 9 & 7, 'bos': n >> 8 & 1, 'ttl': n & 255} for n in ours]
    if isinstance(theirs, list):
        return theirs == ours
    if isinstance(theirs, (int, float)):
        # Of an address one of them knows the number alone.
        return is_number(node, theirs) or isinstance(ours, (str, bytes)) and packed(node) in (
            theirs.to_bytes(4, order) for order in ('little', 'big') if isinstance(theirs, int) and 0 <= theirs < 1 << 32)
    if isinstance(theirs, str) and isinstance(ours, (bytes, str)) and node.names is None:
        other = ours if isinstance(ours, str) else ours.rstrip(b'\0').decode(errors='replace')
        digits = (packed(node) or b'').hex()
        return theirs == other or bool(digits) and (
            theirs.replace(':', '').replace(' ', '').lower() == digits or address_digits(theirs) == digits)
    if isinstance(theirs, str) and isinstance(node.names, list):
        return theirs.lower() == ('|'.join(node.names) or 'none')
    if isinstance(theirs, str) and isinstance(ours, int):
        digits = (packed(node) or b'').hex()
        return plain_name(theirs) in (plain_name(node.names), str(ours), f'{ours:#x}', f'{ours:x}') or bool(digits) and (
            digits in (theirs.replace(':', ''), address_digits(theirs)))
    return theirs == ours or theirs is None and ours in (None, True, b'', '')


def field_of(node, name):
    """The field of this name, with what the names of its structure begin with, or without."""
    for end in (lambda f: f == name, lambda f: f.split('_', 1)[-1] == name):
        found = next((n for n in node.inner if n.line and n.line.word == 'field' and end(plain_name(n.name))), None)
        if found:
            return found
    return None


# The kernel's own reader

class Ynl:
    """The kernel's reader in Python, of the folder tools/net/ynl, with its specifications."""

    title = "the kernel's reader"

    def __init__(self, folder, own):
        """`own` is what own/ says otherwise than the specification: of each table the structures, and rows by their names."""
        sys.path.insert(0, os.path.join(folder, 'tools/net/ynl'))
        from lib import ynl
        # It asks this kernel for the numbers of families, which may be others'.
        ynl.genl_family_name_to_id = collections.defaultdict(lambda: {'id': 0, 'mcast': {}})
        self.ynl, self.folder, self.families = ynl, os.path.join(folder, 'Documentation/netlink/specs'), {}
        self.unread, self.own = set(), own

    def family(self, name):
        """The reader of this table's family, or None where it has no specification."""
        if name not in self.families:
            path = os.path.join(self.folder, f'{name}.yaml')
            self.families[name] = tolerant(self.ynl.YnlFamily)(path, process_unknown=True) if os.path.exists(path) \
                else None
        return self.families[name]

    def compare(self, messages, counts):
        for message in messages:
            family = message.table and self.family(message.table.name)
            known = family and (family.rsp_by_value if message.datagram.is_reply else family.req_by_value)
            operation = known and known.get(message.number)
            if not operation or not operation.attr_set:
                continue
            where = f'{message.table.name} {message.line.name}'
            size = family._struct_size(operation.fixed_header)
            try:
                with contextlib.redirect_stdout(io.StringIO()):
                    values = family._decode(self.ynl.NlAttrs(message.body, size), operation.attr_set.name)
                fields = {}
                if operation.fixed_header:
                    fields = family._decode_struct(message.body, operation.fixed_header)
            except Exception as error:
                self.unread.add(f'{where}: it stops at {error!r}')
                continue
            if fields:
                self.fields(message.node, fields, where, counts)
            self.attributes(family, message.node, [values], operation.attr_set, where, counts)

    def fields(self, node, values, where, counts):
        """The values of a structure, by the names of its fields."""
        is_own = (where.split(' ')[0], node.line.option('struct', node.line.option('after'))) in self.own
        for name, value in values.items():
            inner = value.items() if isinstance(value, dict) else ((None, value),)
            for deeper, said in inner:
                full = plain_name(f'{name}.{deeper}' if deeper else name)
                field = field_of(node, full)
                if is_own and (field is None or not is_value(field, said)):
                    self.unread.add(f'{where}.{full}: own/ says otherwise')
                else:
                    self.leaf(field, said, f'{where}.{full}', counts)

    def leaf(self, node, value, where, counts):
        ours = node and (node.value, node.names)
        if node and isinstance(value, str) and isinstance(node.value, str) and node.value[:-1] == value:
            return  # It takes the last byte of a text for a zero, which requests may leave out.
        counts.take(node is not None and is_value(node, value), f'{where}: {ours} here, {value!r} there')

    def attributes(self, family, node, scopes, space, where, counts):
        """The values of a list, which are the first of these scopes; the others are those around it."""
        for name, value in scopes[0].items():
            if name not in space.attrs:
                continue
            attribute = space.attrs[name]
            found = [n for n in node.inner
                     if n.line and n.line.word in ('attr', 'each') and n.number == attribute.value]
            is_many = isinstance(value, list) and len(found) == len(value) and (len(found) > 1 or attribute.is_multi)
            many = value if is_many else None
            for one, said in zip(found, many) if many else [(found[-1] if found else None, value)]:
                self.attribute(family, one, said, scopes, attribute, f'{where} {one.name if one else name}', counts)

    def attribute(self, family, node, value, scopes, attribute, where, counts):
        kind, table = attribute.type, where.split(' ')[0]
        if node is None:
            counts.take(False, f'{where}: not here')
        elif (table, node.name) in self.own and isinstance(value, (int, str)) and not is_value(node, value):
            self.unread.add(f'{where}: own/ says otherwise')
        elif kind == 'nest':
            value = value[-1] if isinstance(value, list) else value
            inner = family.attr_sets[attribute['nested-attributes']]
            self.attributes(family, node, [value] + scopes, inner, where, counts)
        elif kind == 'sub-message' and isinstance(value, dict):
            picks = next((scope[attribute.selector] for scope in scopes if attribute.selector in scope), None)
            case = family.sub_msgs[attribute.sub_message].formats.get(picks)
            if (where.split(' ')[0], picks) in self.own:
                self.unread.add(f'{where} {picks}: own/ says otherwise')
            elif case:
                self.case(family, node, value, scopes, case, where, counts)
        elif kind in ('indexed-array', 'nest-type-value'):
            self.listed(family, node, value, scopes, attribute, where, counts)
        elif isinstance(value, dict) and kind == 'bitfield32':
            both = [v if isinstance(v, int) else None for v in value.values()]
            counts.take(None in both or tuple(both) == node.value, f'{where}: {node.value}, {value}')
        elif isinstance(value, dict):
            self.fields(node, value, where, counts)
        elif not isinstance(value, (bytes, bytearray)):
            self.leaf(node, value, where, counts)

    def case(self, family, node, value, scopes, case, where, counts):
        header = [m.name for m in family.consts[case.fixed_header].members] if case.fixed_header else []
        if header:
            self.fields(node, {n: v for n, v in value.items() if n in header}, where, counts)
        if case.attr_set:
            inner = {n: v for n, v in value.items() if n not in header}
            self.attributes(family, node, [inner] + scopes, family.attr_sets[case.attr_set], where, counts)

    def listed(self, family, node, value, scopes, attribute, where, counts):
        for item, said in zip(node.inner, value if isinstance(value, list) else ()):
            if isinstance(said, dict):
                inner = family.attr_sets[attribute['nested-attributes']]
                for number, attributes in said.items():
                    counts.take(number == item.number, f'{where}: {item.number} here, {number} there')
                    self.attributes(family, item, [attributes] + scopes, inner, where, counts)
            else:
                self.leaf(item, said, where, counts)


def tolerant(base):
    """The reader, going on where a specification lacks a value or a case."""
    class Family(base):
        def _decode_enum(self, raw, spec):
            try:
                return super()._decode_enum(raw, spec)
            except KeyError:
                return raw

        def _decode_sub_msg(self, attribute, spec, outer):
            try:
                return super()._decode_sub_msg(attribute, spec, outer)
            except Exception:
                return attribute.as_bin()
    return Family


# pyroute2

class Pyroute2:
    """pyroute2's reader of routing messages, by the kernel's names."""

    title = 'pyroute2'
    # What it reads otherwise than the kernel's headers and source: with other numbers, or another byte order.
    WRONG = {'TCA_CAKE_STATS_MIN_ADJLEN', 'TCA_CAKE_STATS_MAX_NETLEN', 'TCA_CAKE_STATS_MIN_NETLEN',
             'TCA_CAKE_STATS_MAX_ADJLEN', 'TCA_MATCHALL_FLAGS'}

    def __init__(self):
        from pyroute2.netlink.rtnl.marshal import MarshalRtnl
        self.marshal, self.unread = MarshalRtnl(), set()

    def compare(self, messages, counts):
        for message in messages:
            if message.protocol != 0 or not message.node:
                continue
            header = (16 + len(message.body)).to_bytes(4, sys.byteorder) + message.number.to_bytes(2, sys.byteorder)
            where = f'{message.table.name} {message.line.name}'
            try:
                theirs = list(self.marshal.parse(header + bytes(10) + message.body))[0]
            except Exception as error:
                self.unread.add(f'{where}: it stops at {error!r}')
                continue
            self.read(message.node, theirs, where, counts)

    @classmethod
    def read(cls, node, theirs, where, counts):
        """The fields and attributes of a message."""
        for name, value in dict(theirs).items():
            if name in ('attrs', 'header', 'value', 'event', 'type', 'state'):
                continue
            field = field_of(node, plain_name(name))
            if field is not None and not isinstance(value, (dict, list)):
                counts.take(is_value(field, value), f'{where}.{name}: {field.value} here, {value!r} there')
        cls.attributes(node, theirs, where, counts)

    @classmethod
    def attributes(cls, node, theirs, where, counts):
        for pair in theirs.get('attrs', ()) if hasattr(theirs, 'get') else ():
            name, value = pair[0], pair[1]
            found = [n for n in node.inner if n.name == name]
            if len(found) != 1:
                continue
            if hasattr(value, 'get') and 'attrs' in value:
                cls.attributes(found[0], value, f'{where} {name}', counts)
            elif hasattr(value, 'get'):
                cls.structure(found[0], value, f'{where} {name}', counts)
            elif name in cls.WRONG or found[0].line.kind == 'hardware' and len(packed(found[0])) != 6:
                continue  # It reads six bytes of each address.
            elif None not in (found[0].value, value) and not isinstance(found[0].value, (bytes, tuple)):
                counts.take(is_value(found[0], value), f'{where} {name}: {found[0].value!r} here, {value!r} there')

    @classmethod
    def structure(cls, node, theirs, where, counts):
        for name, value in theirs.items():
            field = field_of(node, plain_name(name))
            if field is not None and not any(n.name.endswith(f'.{name}') for n in node.inner) and isinstance(
                    value, (int, str)):
                counts.take(is_value(field, value), f'{where}.{name}: {field.value!r} here, {value!r} there')


# What programs print

LABELS = re.compile(r'[0-9]+(/[0-9]+)+')


class Program:
    """A program that prints what it read as JSON; a key is that of an attribute whose name ends so."""

    # Keys that change from one moment to the next, or are a program's own word for several values.
    LEFT_OUT = {'expires', 'refcnt', 'valid_life_time', 'preferred_life_time', 'group', 'state', 'flags', 'proto',
                'gc_timer', 'hello_timer', 'tcn_timer', 'topology_change_timer', 'handle'}
    # Keys that end as an attribute's name, and are something else.
    APART = {('type', 'NFTA_OBJ_TYPE'), ('type', 'NFTA_SET_KEY_TYPE'), ('type', 'NFTA_SET_DATA_TYPE'), ('type', 'NFTA_SET_TYPE'),
             ('link_type', 'ifi_type')}
    # Words of programs for numbers that have no name in a table.
    NUMBERS = {'inet': 2, 'ip': 2, 'inet6': 10, 'ip6': 10, 'bridge': 7, 'netdev': 5, 'off': 0, 'on': 1, 'resilient': 1,
               '802.1Q': 0x8100, '802.1ad': 0x88a8, 'active-backup': 1, '802.3ad': 4, 'balance-rr': 0, 'UP': 0, 'any': 0, 'all': 1, 'always': 0,
               'slow': 0, 'fast': 1, 'stable': 0}
    # Keys that are called otherwise than the attribute, where a message has no other of this name.
    OTHER = {'dev': ('oif', 'iif', 'ifindex'), 'metric': ('priority',), 'link_type': ('ifi_type',),
             'mac': ('lladdr',), 'ifname': ('ndm_ifindex',)}

    def __init__(self, title, tables, output, interfaces):
        self.title, self.tables, self.output, self.unread = title, tables, output, set()
        self.interfaces = interfaces

    def compare(self, messages, counts):
        try:
            printed = json.loads(self.output)
        except ValueError:
            self.unread.add('it prints no JSON')
            return
        printed = printed.get('nftables', [printed]) if isinstance(printed, dict) else printed
        candidates = [m for m in messages if m.node and m.is_dumped and (m.table.name, m.number) in self.tables]
        for item in self.items(printed):
            rows = [(self.pairs(item, m.node), m) for m in candidates]
            rows = [(sum(same for same, _ in pairs), pairs, m) for pairs, m in rows]
            best = max(rows, key=lambda row: row[0], default=None)
            if best and best[0] > 1:
                for same, what in best[1]:
                    counts.take(same, f'{best[2].table.name} {best[2].line.name} {what}')

    @staticmethod
    def items(printed):
        """The objects that stand for a message; an interface's addresses are a message each."""
        for item in printed:
            if isinstance(item, dict) and 'addr_info' in item and item['addr_info']:
                yield from ({'ifindex': item.get('ifindex'), **inner} for inner in item['addr_info'] if inner)
            elif isinstance(item, dict) and len(item) == 1 and isinstance(next(iter(item.values())), dict):
                yield next(iter(item.values()))
            elif isinstance(item, dict) and item:
                yield item

    def pairs(self, item, node):
        """Each key that one attribute alone can stand for: whether the values are equal, and what they are."""
        found = []
        for key, value in item.items():
            nodes = [] if key in self.LEFT_OUT else [n for n in self.nodes(key, node) if (key, n.name) not in self.APART]
            if isinstance(value, dict):
                inner = next((n for n in nodes if n.inner), None)
                found += self.pairs(value, inner) if inner else []
            elif isinstance(value, str) and LABELS.fullmatch(value) and nodes and isinstance(nodes[0].value, str):
                continue  # Of two keys with one name, a route's and its labels', the last counts.
            elif isinstance(value, (str, int, float)) and len(nodes) == 1 and nodes[0].value is not None:
                same = self.is_same(nodes[0], value)
                ours = (nodes[0].value, nodes[0].names)
                found.append((same, f'{nodes[0].name}: {ours} here, {key} {value!r} there'))
        return found

    def nodes(self, key, node):
        names = [plain_name(key), *self.OTHER.get(key, ())]
        leaves = [n for n in node.leaves() if n is not node and n.line]
        for name in names:
            for scope in (node.inner, leaves):
                found = [n for n in scope if n.line and plain_name(n.name) == name] or [
                    n for n in scope if n.line and plain_name(n.name).split('_', 1)[-1] == name] or [
                    n for n in scope if n.line and plain_name(n.name).endswith(f'_{name}')]
                if found:
                    return found
        return []

    def is_same(self, node, value):
        if is_value(node, value) or value == 'any' and node.value in ('0.0.0.0', '::'):
            return True
        if isinstance(node.value, list) and isinstance(value, str):
            return value == '/'.join(str(label >> 12) for label in node.value)
        if isinstance(value, int) and node.value == 1000 * value:
            return True  # milliseconds, of which seconds are printed
        if value in self.NUMBERS and node.value == self.NUMBERS[value] or value == 'inet' and node.value == 1:
            return True
        if isinstance(value, str) and isinstance(node.value, int):
            handle = value.split(':')
            with contextlib.suppress(ValueError):
                if len(handle) == 2 and node.value == int(handle[0] or '0', 16) << 16 | int(handle[1] or '0', 16):
                    return True
            return self.interfaces.get(value) == node.value
        return isinstance(value, str) and value.split('/')[0] == str(node.value)


class Features(Program):
    """ethtool's list of features: each name that the kernel has, and whether it is active."""

    def compare(self, messages, counts):
        try:
            printed = json.loads(self.output)[0]
        except (ValueError, IndexError):
            self.unread.add('it prints no JSON')
            return
        for message in messages:
            if not message.node or not message.is_dumped or (message.table.name, message.number) not in self.tables:
                continue
            known = {way: self.named(message.node, way) for way in ('HW', 'ACTIVE', 'NOCHANGE')}
            header = message.node.find('ETHTOOL_A_FEATURES_HEADER')
            if not header or header.find('ETHTOOL_A_HEADER_DEV_NAME').value != printed['ifname']:
                continue
            for name, feature in printed.items():
                if isinstance(feature, dict) and name in set().union(*known.values()):
                    is_active = name in known['ACTIVE']
                    what = f'ethtool {name}: active {is_active} here, {feature["active"]} there'
                    counts.take(feature['active'] == is_active, what)

    @staticmethod
    def named(node, way):
        """The names in a set of bits."""
        bits = node.find(f'ETHTOOL_A_FEATURES_{way}')
        bits = bits and bits.find('ETHTOOL_A_BITSET_BITS')
        return {bit.find('ETHTOOL_A_BITSET_BIT_NAME').value for bit in bits.inner} if bits else set()
