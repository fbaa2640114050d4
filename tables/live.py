"""Datagrams of this machine's kernel, for record and compare: what is set up in a network namespace, and dumped."""
import collections
import contextlib
import ctypes
import json
import os
import shlex
import shutil
import socket
import struct
import subprocess
import threading
import time

from network import COMMANDS

NLM_F_REQUEST, NLM_F_ACK, NLM_F_DUMP = 1, 4, 0x300
NLMSG_ERROR, NLMSG_DONE = 2, 3
SOL_NETLINK, NETLINK_GET_STRICT_CHK = 270, 12
CTRL_CMD_GETFAMILY, CTRL_ATTR_FAMILY_ID, CTRL_ATTR_FAMILY_NAME = 3, 1, 2
SECONDS, SETTLE = 10, 4

GENERIC = 16
AF_INET, AF_INET6, AF_BRIDGE, AF_UNIX, AF_NETLINK, AF_PACKET = 2, 10, 7, 1, 16, 17
IFLA_EXT_MASK, RTEXT_FILTER_VF, RTEXT_FILTER_BRVLAN, NTF_PROXY, IPPROTO_TCP, IPPROTO_UDP = 29, 1, 2, 8, 6, 17
TCA_ACT_TAB, TCA_ACT_KIND = 1, 1
SO_ATTACH_FILTER, SO_RCVBUFFORCE = 26, 33
HEADER_NEST = 0x8001  # ETHTOOL_A_*_HEADER, nested


def attribute(number, payload):
    return struct.pack('=HH', 4 + len(payload), number) + payload + bytes(-len(payload) % 4)


def link_request(family, mask):
    return struct.pack('=BBHiIIHHI', family, 0, 0, 0, 0, 0, 8, IFLA_EXT_MASK, mask)


def neighbour_request(family, flags=0):
    return struct.pack('=BBHiHBB', family, 0, 0, 0, 0, flags, 0)


def inet_request(family, protocol):
    return struct.pack('=BBBBI48x', family, protocol, 0xff, 0, 0xffffffff)


# Dumps: a table, the name of the request, and its body.
DUMPS = [
    ('rt_link', 'RTM_GETLINK', link_request(0, RTEXT_FILTER_VF)),
    ('rt_link', 'RTM_GETLINK', link_request(AF_BRIDGE, RTEXT_FILTER_BRVLAN)),
    ('rt_link', 'RTM_GETSTATS', struct.pack('=BBHII', 0, 0, 0, 0, 0x1f)),
    ('rt_addr', 'RTM_GETADDR', bytes(8)),
    ('rt_addr', 'RTM_GETMULTICAST', bytes(8)),
    ('rt_addr', 'RTM_GETANYCAST', bytes(8)),
    ('rt_route', 'RTM_GETROUTE', bytes(12)),
    ('rt_route', 'RTM_GETROUTE', struct.pack('=B11x', 28)),
    ('rt_route', 'RTM_GETNEXTHOP', bytes(8)),
    ('rt_route', 'RTM_GETNEXTHOPBUCKET', bytes(8)),
    ('rt_neigh', 'RTM_GETNEIGH', neighbour_request(0)),
    ('rt_neigh', 'RTM_GETNEIGH', neighbour_request(0, NTF_PROXY)),
    ('rt_neigh', 'RTM_GETNEIGH', neighbour_request(AF_BRIDGE)),
    ('rt_neigh', 'RTM_GETNEIGHTBL', bytes(4)),
    ('rt_rule', 'RTM_GETRULE', bytes(12)),
    ('rt_addrlabel', 'RTM_GETADDRLABEL', bytes(12)),
    ('rt_netconf', 'RTM_GETNETCONF', struct.pack('=B3x', AF_INET)),
    ('rt_netconf', 'RTM_GETNETCONF', struct.pack('=B3x', AF_INET6)),
    ('rt_nsid', 'RTM_GETNSID', bytes(4)),
    ('rt_bridge', 'RTM_GETMDB', struct.pack('=B3xI', AF_BRIDGE, 0)),
    ('rt_bridge', 'RTM_GETVLAN', struct.pack('=B3xI', AF_BRIDGE, 0)),
    ('rt_tunnel', 'RTM_GETTUNNEL', struct.pack('=B3xI', AF_BRIDGE, 0)),
    ('tc', 'RTM_GETQDISC', bytes(20)),
    *(('tc', 'RTM_GETACTION', bytes(4) + attribute(TCA_ACT_TAB, attribute(1, attribute(TCA_ACT_KIND, kind + b'\0'))))
      for kind in (b'gact', b'mirred', b'pedit', b'vlan', b'police', b'skbedit', b'nat', b'csum', b'tunnel_key',
                   b'sample', b'simple', b'bpf', b'ife', b'ct', b'ctinfo', b'mpls', b'gate', b'skbmod', b'connmark')),
    *(('sock_diag', 'SOCK_DIAG_BY_FAMILY', inet_request(family, protocol))
      for family in (AF_INET, AF_INET6) for protocol in (IPPROTO_TCP, IPPROTO_UDP)),
    ('sock_diag', 'SOCK_DIAG_BY_FAMILY', struct.pack('=BBHIII8x', AF_UNIX, 0, 0, 0xffffffff, 0, 0xff)),
    ('sock_diag', 'SOCK_DIAG_BY_FAMILY', struct.pack('=BBHIII8x', AF_NETLINK, 255, 0, 0, 0xff, 0)),
    ('sock_diag', 'SOCK_DIAG_BY_FAMILY', struct.pack('=BBHII8x', AF_PACKET, 0, 0, 0, 0xff)),
    *(('nftables', f'NFT_MSG_GET{what}', bytes(4)) for what in (
        'TABLE', 'CHAIN', 'RULE', 'SET', 'OBJ', 'FLOWTABLE')),
    *(('nftables', 'NFT_MSG_GETSETELEM', struct.pack('=B3x', AF_INET) + attribute(1, b't\0') + attribute(2, name))
      for name in (b's\0', b'm\0', b'v\0', b'i\0')),
    *(('conntrack', what, struct.pack('=B3x', AF_INET)) for what in (
        'IPCTNL_MSG_CT_GET', 'IPCTNL_MSG_CT_GET_STATS_CPU', 'IPCTNL_MSG_EXP_GET', 'IPCTNL_MSG_EXP_GET_STATS_CPU')),
    ('ipset', 'IPSET_CMD_LIST', struct.pack('=B3x', AF_INET) + attribute(1, b'\7')),
    ('xfrm', 'XFRM_MSG_GETSA', b''),
    ('xfrm', 'XFRM_MSG_GETPOLICY', b''),
    ('nlctrl', 'CTRL_CMD_GETFAMILY', b''),
    *(('netdev', f'NETDEV_CMD_{what}_GET', b'') for what in ('DEV', 'QUEUE', 'NAPI', 'QSTATS', 'PAGE_POOL')),
    ('tcp_metrics', 'TCP_METRICS_CMD_GET', b''),
    ('mptcp_pm', 'MPTCP_PM_CMD_GET_ADDR', b''),
    ('fou', 'FOU_CMD_GET', b''),
    ('l2tp', 'L2TP_CMD_TUNNEL_GET', b''),
    ('l2tp', 'L2TP_CMD_SESSION_GET', b''),
    ('ipvs', 'IPVS_CMD_GET_SERVICE', b''),
    ('macsec', 'MACSEC_CMD_GET_TXSC', b''),
    ('seg6', 'SEG6_CMD_DUMPHMAC', b''),
    ('ioam6', 'IOAM6_CMD_DUMP_NAMESPACES', b''),
    ('ioam6', 'IOAM6_CMD_DUMP_SCHEMAS', b''),
    *(('devlink', f'DEVLINK_CMD_{what}GET', b'') for what in (
        '', 'PORT_', 'PARAM_', 'HEALTH_REPORTER_', 'INFO_', 'TRAP_')),
    *(('nl80211', f'NL80211_CMD_GET_{what}', b'') for what in ('WIPHY', 'INTERFACE', 'REG')),
    *(('ethtool', f'ETHTOOL_MSG_{what}_GET', struct.pack('=HH', 4, HEADER_NEST)) for what in (
        'STRSET', 'LINKINFO', 'LINKMODES', 'LINKSTATE', 'DEBUG', 'WOL', 'FEATURES', 'PRIVFLAGS', 'RINGS', 'CHANNELS',
        'COALESCE', 'PAUSE', 'EEE', 'TSINFO', 'TUNNEL_INFO', 'FEC', 'STATS', 'MODULE', 'RSS', 'MM')),
]
# The same for each interface: the attribute that has its number, or where in the body that stands.
OF_INTERFACES = [('tc', 'RTM_GETTCLASS', lambda index: struct.pack('=B3xi12x', 0, index)),
                 ('wireguard', 'WG_CMD_GET_DEVICE', lambda index: attribute(1, struct.pack('=I', index))),
                 ('team', 'TEAM_CMD_OPTIONS_GET', lambda index: attribute(1, struct.pack('=I', index))),
                 ('team', 'TEAM_CMD_PORT_LIST_GET', lambda index: attribute(1, struct.pack('=I', index))),
                 *(('nl80211', f'NL80211_CMD_GET_{what}', lambda index: attribute(3, struct.pack('=I', index)))
                   for what in ('STATION', 'SCAN', 'SURVEY', 'MPATH'))]
# Filters stand at the root of a queue, and at ingress and egress.
PARENTS = (0, 0xfffffff2, 0xfffffff3, 0x10000, 0x20000, 0x30000)

# The numbers of a message's header.
Header = collections.namedtuple('Header', 'length kind flags number port')
# A datagram: its protocol, its bytes, whether it is from the kernel, and what it is of.
Datagram = collections.namedtuple('Datagram', 'protocol data is_reply what')


def run(command):
    """Runs a command, and returns what it says where it fails."""
    program, _, rest = command.partition(' ')
    words = {'nft': ['nft', rest], 'sh': ['sh', '-c', rest]}.get(program) or shlex.split(command)
    if not shutil.which(words[0]):
        return f'there is no {words[0]}'
    try:
        ran = subprocess.run(words, capture_output=True, text=True, timeout=SECONDS)
    except subprocess.TimeoutExpired:
        return f'it does not end in {SECONDS} seconds'
    return str((ran.stderr or ran.stdout).strip().splitlines()[:1]) if ran.returncode else None


def set_up():
    """Runs COMMANDS, and returns those that could not be run with what they say."""
    failed = []
    for command in COMMANDS.strip().split('\n'):
        why = command and run(command)
        if why:
            failed.append(f'{command}: {why}')
    # Until then addresses of IPv6 are tentative, and come and go.
    time.sleep(SETTLE)
    return failed


def open_sockets():
    """Sockets of each family, so that there are some to be dumped; before filters drop what they send."""
    run('ip link set lo up')
    kept = []
    for family, address in ((AF_INET, '127.0.0.1'), (AF_INET6, '::1')):
        listener = socket.create_server((address, 0), family=family)
        client = socket.create_connection(listener.getsockname()[:2])
        datagram = socket.socket(family, socket.SOCK_DGRAM)
        datagram.bind((address, 0))
        kept += [listener, client, listener.accept()[0], datagram]
    named = socket.socket(socket.AF_UNIX)
    named.bind('\0kept')
    named.listen()
    kept += [named, *socket.socketpair()]
    with contextlib.suppress(OSError):
        packets = socket.socket(AF_PACKET, socket.SOCK_RAW, socket.htons(3))
        kept.append(packets)
        # It takes all: a filter of one line.
        code = ctypes.create_string_buffer(struct.pack('=HBBI', 6, 0, 0, 0xffff))
        packets.setsockopt(socket.SOL_SOCKET, SO_ATTACH_FILTER, struct.pack('@HP', 1, ctypes.addressof(code)))
    return kept


def frames_in(raw):
    """Each attribute of a list: its type without the flags, and its payload."""
    at = 0
    while at + 4 <= len(raw):
        length, kind = struct.unpack_from('=HH', raw, at)
        if length < 4 or at + length > len(raw):
            return
        yield kind & 0x3fff, raw[at + 4:at + length]
        at += (length + 3) & ~3


def messages_in(data):
    """Each message of a datagram: the numbers of its header, and what follows that."""
    at = 0
    while at + 16 <= len(data):
        header = Header(*struct.unpack_from('=IHHII', data, at))
        if header.length < 16 or at + header.length > len(data):
            return
        yield header, data[at + 16:at + header.length]
        at += (header.length + 3) & ~3


def recorded(folder):
    """The datagrams of a recording, and what programs printed."""
    with open(os.path.join(folder, 'manifest.json'), encoding='ascii') as file:
        entries = json.load(file)
    datagrams = []
    for entry in entries:
        with open(os.path.join(folder, entry['file']), encoding='ascii') as file:
            data = bytes.fromhex(''.join(file.read().split()))
        is_reply = entry['direction'] == 'from_kernel'
        datagrams.append(Datagram(entry['family_number'], data, is_reply, entry['kind']))
    path = os.path.join(folder, 'printed.json')
    if not os.path.exists(path):
        return datagrams, {'programs': [], 'interfaces': {}}
    with open(path, encoding='ascii') as file:
        return datagrams, json.load(file)


def ask(protocol, kind, payload, what, flags=NLM_F_DUMP):
    """The request, and the datagrams that answer it."""
    request = struct.pack('=IHHII', 16 + len(payload), kind, NLM_F_REQUEST | flags, 1, 0) + payload
    found = [Datagram(protocol, request, False, what)]
    with socket.socket(socket.AF_NETLINK, socket.SOCK_RAW, protocol) as link:
        link.settimeout(SECONDS)
        link.setsockopt(SOL_NETLINK, NETLINK_GET_STRICT_CHK, 1)
        link.send(request)
        while True:
            found.append(Datagram(protocol, link.recv(1 << 18), True, what))
            if any(header.kind in (NLMSG_ERROR, NLMSG_DONE) for header, _ in messages_in(found[-1].data)):
                return found


def generic_families(datagrams):
    """The number of each family of generic netlink, by name."""
    found = {}
    for _, payload in (m for d in datagrams if d.is_reply for m in messages_in(d.data) if m[0].kind == GENERIC):
        attributes = dict(frames_in(payload[4:]))
        name, number = attributes.get(CTRL_ATTR_FAMILY_NAME), attributes.get(CTRL_ATTR_FAMILY_ID, b'')
        if payload[:1] == b'\1' and name and len(number) == 2:
            found[name.rstrip(b'\0').decode()] = struct.unpack('=H', number)[0]
    return found


def requests(tables):
    """Each request: the table, the name, and the body."""
    interfaces = [index for index, _ in socket.if_nameindex()]
    yield from DUMPS
    for name, request, body in OF_INTERFACES:
        yield from ((name, request, body(index)) for index in interfaces)
    for what in ('RTM_GETTFILTER', 'RTM_GETCHAIN'):
        yield from (('tc', what, struct.pack('=B3xiIII', 0, index, 0, parent, 0))
                    for index in interfaces for parent in PARENTS)


def dumped(tables, refused):
    """The datagrams of the dumps; first those of the controller, by which others are known."""
    known = {table.name: table for table in tables}
    datagrams = ask(GENERIC, GENERIC, struct.pack('=BBH', CTRL_CMD_GETFAMILY, 1, 0), 'nlctrl CTRL_CMD_GETFAMILY')
    numbers = generic_families(datagrams)
    for name, request, body in requests(tables):
        table = known[name]
        family = table.family.name if table.protocol == GENERIC else ''
        if family and family not in numbers:
            refused.add(f'family {family}: this kernel has none')
            continue
        number = table.section('message', request).span[0]
        kind, payload = (numbers[family], struct.pack('=BBH', number, 1, 0) + body) if family else (number, body)
        try:
            datagrams += ask(table.protocol, kind, payload, f'{name} {request}')
        except OSError as error:
            refused.add(f'{name} {request}: {error}')
    return datagrams


class Monitor:
    """What programs and the kernel send each other meanwhile, as a link of kind nlmon shows it; nothing without one."""

    def __init__(self, refused):
        self.found, self.seen, self.link = [], set(), None
        why = run('ip link add nlmon0 type nlmon') or run('ip link set nlmon0 up')
        if why:
            refused.add(f'nlmon: {why}')
            return
        self.link = socket.socket(AF_PACKET, socket.SOCK_RAW, socket.htons(3))
        self.link.setsockopt(socket.SOL_SOCKET, SO_RCVBUFFORCE, 1 << 26)
        self.link.bind(('nlmon0', 0))
        self.link.settimeout(1)
        self.is_over = False
        self.thread = threading.Thread(target=self.read)
        self.thread.start()

    def read(self):
        while not self.is_over:
            try:
                data, (_, protocol, *_) = self.link.recvfrom(1 << 18)
            except TimeoutError:
                continue
            # Without its sequence number and its port.
            key = protocol, data[:8] + data[16:]
            if key not in self.seen:
                self.seen.add(key)
                # Which way it went is not said: requests have a flag.
                is_reply = not any(header.flags & NLM_F_REQUEST for header, _ in messages_in(data))
                self.found.append(Datagram(protocol, data, is_reply, 'seen'))

    def end(self):
        if self.link:
            self.is_over = True
            self.thread.join()
        return self.found
