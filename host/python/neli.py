"""Netlink for Python over libneli.so: sockets, requests and their replies, and messages and attributes by bytes.

The proved library reads and writes messages and attributes, and delivers each reply to its request; the sockets are its
C layer, which this file calls by ctypes. It needs Python 3.8 and nothing else.

    import neli
    with neli.NetlinkSocket(neli.NETLINK_ROUTE) as sock:
        for link in sock.dump(neli.RTM_GETLINK):
            print(link.get_attr(neli.IFLA_IFNAME).text(), link.get_attr(neli.IFLA_MTU).u32())

Calls have pyroute2's names where it has the same: NetlinkSocket, NetlinkError with `code`, `bind`, `get`, `get_attr`,
`nlm_request`. Attributes have numbers here, as IFLA_IFNAME; a Schema of neli_schema has them by name. An argument of
another type is a TypeError, which names it. NELI_LIBRARY in the environment names another library than libneli.so.0.
"""

from __future__ import annotations

import ctypes
import errno
import os
import socket
import struct
import time
import weakref
from typing import Any, AsyncIterator, Iterable, Iterator, Optional, Sequence, SupportsBytes, TypeVar, Union

__all__ = [
    "NetlinkError", "NetlinkSocket", "Reply", "Verdict", "Message", "Lent", "Attribute", "nla", "messages", "version",
    "stamp",
]  # and the constants below

_Bytes = Union[bytes, bytearray, memoryview, SupportsBytes]
_Self = TypeVar("_Self", bound="NetlinkSocket")

# linux/netlink.h, linux/rtnetlink.h, linux/if_link.h, linux/if_addr.h
NETLINK_ROUTE, NETLINK_NETFILTER, NETLINK_GENERIC = 0, 12, 16
NLM_F_REQUEST, NLM_F_MULTI, NLM_F_ACK, NLM_F_ECHO, NLM_F_DUMP_INTR, NLM_F_DUMP_FILTERED = 1, 2, 4, 8, 16, 32
NLM_F_ROOT, NLM_F_MATCH, NLM_F_DUMP = 0x100, 0x200, 0x300
NLM_F_REPLACE, NLM_F_EXCL, NLM_F_CREATE, NLM_F_APPEND = 0x100, 0x200, 0x400, 0x800
NLMSG_ERROR, NLMSG_DONE, NLMSG_MIN_TYPE = 2, 3, 16
RTM_NEWLINK, RTM_DELLINK, RTM_GETLINK, RTM_SETLINK = 16, 17, 18, 19
RTM_NEWADDR, RTM_DELADDR, RTM_GETADDR = 20, 21, 22
RTM_NEWROUTE, RTM_DELROUTE, RTM_GETROUTE = 24, 25, 26
RTM_NEWNEIGH, RTM_DELNEIGH, RTM_GETNEIGH = 28, 29, 30
RTNLGRP_LINK, RTNLGRP_NEIGH, RTNLGRP_IPV4_IFADDR, RTNLGRP_IPV4_ROUTE = 1, 3, 5, 7
IFLA_ADDRESS, IFLA_IFNAME, IFLA_MTU, IFLA_LINKINFO = 1, 3, 4, 18
IFLA_INFO_KIND, IFLA_INFO_DATA, VETH_INFO_PEER = 1, 2, 1
IFA_ADDRESS, IFA_LOCAL = 1, 2
RTA_DST, RTA_OIF, RTA_GATEWAY = 1, 4, 5
GENL_ID_CTRL, CTRL_CMD_GETFAMILY, CTRL_ATTR_FAMILY_ID, CTRL_ATTR_FAMILY_NAME = 16, 3, 1, 2

# neli.h
OK = END = 0
ITEM, WAITS, KERNEL_ERROR, INTERRUPTED = 1, 2, 3, 4
SHORT, LENGTH, MEMORY, ROOM, HANDLE, LINK, KIND, UNENDED = -1, -2, -3, -4, -6, -11, -15, -18
ANSWERING_DUMP, ANSWERING_SILENCE = 0, 3
MULTICAST = 0
NESTED = 0x8000

# The attributes of an extended acknowledgement, NELI_ANSWER_..
ANSWER_TEXT, ANSWER_OFFSET, ANSWER_MISSING, ANSWER_MISSING_NEST = 1, 2, 5, 6

# The size of the header that attributes of a message of routing stand after, by its type without its last two bits.
_HEADERS = {16: 16, 20: 8, 24: 12, 28: 12, 32: 12, 36: 20, 40: 20, 44: 20, 48: 4, 52: 12, 56: 8, 60: 8, 64: 4, 72: 12,
            76: 4, 80: 1, 84: 8, 88: 1, 92: 12, 96: 1, 100: 20, 104: 8, 108: 16, 112: 8, 116: 8, 120: 8}


class _Walk(ctypes.Structure):
    _fields_ = [("place", ctypes.c_size_t), ("end", ctypes.c_size_t)]


class _Message(ctypes.Structure):
    _fields_ = [("length", ctypes.c_uint32), ("type", ctypes.c_uint16), ("flags", ctypes.c_uint16),
                ("number", ctypes.c_uint32), ("port", ctypes.c_uint32),
                ("payload", ctypes.c_size_t), ("payload_length", ctypes.c_size_t)]


class _Lent(ctypes.Structure):
    _fields_ = [("message", _Message), ("bytes", ctypes.c_void_p), ("length", ctypes.c_size_t), ("error", ctypes.c_int32)]


class _Attribute(ctypes.Structure):
    _fields_ = [("length", ctypes.c_uint16), ("type", ctypes.c_uint16), ("number", ctypes.c_uint16),
                ("flags", ctypes.c_uint16), ("payload", ctypes.c_size_t), ("payload_length", ctypes.c_size_t)]


class _Answer(ctypes.Structure):
    _fields_ = [("code", ctypes.c_int32), ("echo_length", ctypes.c_uint32), ("echo_type", ctypes.c_uint16),
                ("echo_flags", ctypes.c_uint16), ("echo_number", ctypes.c_uint32), ("echo_port", ctypes.c_uint32),
                ("attributes", _Walk)]


class _Writer(ctypes.Structure):
    _fields_ = [("start", ctypes.c_size_t), ("end", ctypes.c_size_t)]


class _Request(ctypes.Structure):
    _fields_ = [("type", ctypes.c_uint16), ("flags", ctypes.c_uint16), ("body", ctypes.c_char_p),
                ("length", ctypes.c_size_t)]


class _Verdict(ctypes.Structure):
    _fields_ = [("error", ctypes.c_int32), ("filtered", ctypes.c_uint8)]


def _library():
    """The library, with the parameters of each call."""
    library = ctypes.CDLL(os.environ.get("NELI_LIBRARY") or "libneli.so.0")
    pointer, size, u16, i32 = ctypes.c_void_p, ctypes.c_size_t, ctypes.c_uint16, ctypes.c_int32
    calls = {
        "neli_version": (ctypes.c_char_p, []),
        "neli_stamp": (ctypes.c_char_p, []),
        "neli_c_answering": (i32, [i32, u16, u16, size]),
        "neli_c_is_passing": (i32, [i32, i32]),
        "neli_c_error_text": (i32, [i32, ctypes.c_char_p, size, pointer]),
        "neli_c_next_message": (i32, [ctypes.c_char_p, size, pointer, pointer]),
        "neli_c_next_attributes": (i32, [ctypes.c_char_p, size, pointer, pointer, size, pointer]),
        "neli_c_get_answer": (i32, [ctypes.c_char_p, size, pointer, pointer]),
        "neli_c_put_attribute": (i32, [pointer, size, pointer, u16, ctypes.c_char_p, size]),
        "neli_host_open": (i32, [pointer, ctypes.c_int, pointer, size]),
        "neli_host_open_over": (i32, [pointer, ctypes.c_int, ctypes.c_uint32, pointer]),
        "neli_host_close": (None, [pointer]),
        "neli_host_fd": (ctypes.c_int, [pointer]),
        "neli_host_port": (ctypes.c_uint32, [pointer]),
        "neli_host_fault": (ctypes.c_int, [pointer]),
        "neli_host_set_wait": (None, [pointer, ctypes.c_int]),
        "neli_host_set_ends_by_signals": (None, [pointer, ctypes.c_bool]),
        "neli_host_set_strict": (i32, [pointer]),
        "neli_host_stop": (None, [pointer]),
        "neli_host_send": (i32, [pointer, u16, u16, ctypes.c_char_p, size, pointer]),
        "neli_host_send_all": (i32, [pointer, pointer, size, pointer]),
        "neli_host_next": (i32, [pointer, size, pointer]),
        "neli_host_lend": (i32, [pointer, size, pointer]),
        "neli_host_pass": (i32, [pointer, size]),
        "neli_host_is_ready": (ctypes.c_bool, [pointer, size]),
        "neli_host_verdict": (i32, [pointer, size, pointer]),
        "neli_host_close_request": (i32, [pointer, size]),
        "neli_host_resync_all": (i32, [pointer, pointer, size, pointer]),
        "neli_host_item": (pointer, [pointer]),
        "neli_host_item_length": (size, [pointer]),
        "neli_host_explain": (None, [pointer, i32, pointer, ctypes.c_char_p, size]),
    }
    for name, (result, parameters) in calls.items():
        call = getattr(library, name)
        call.restype, call.argtypes = result, parameters
    return library


_lib = _library()


def version() -> str:
    """The version of the library."""
    return _lib.neli_version().decode()


def stamp() -> str:
    """The origin of the library's build, a line each."""
    return _lib.neli_stamp().decode()


def _text_of(code):
    out, length = ctypes.create_string_buffer(80), ctypes.c_size_t()
    _lib.neli_c_error_text(code, out, len(out), ctypes.byref(length))
    return out.value.decode()


class NetlinkError(OSError):
    """Why a request was refused, or an answer is incomplete.

    `code` is a number of errno.h, from the kernel's error or from the socket; 0 if there is none. `status` is the code
    of neli.h, and `str` returns it in words, with the kernel's own text and offset if it sent them. `attributes` are
    those of its extended acknowledgement, of which `text`, `offset`, `missing` and `missing_nest` are read: they raise
    a ValueError if one is cut.
    """

    def __init__(self, code: int, text: str, status: int = KERNEL_ERROR, attributes: Iterable[Attribute] = ()):
        super().__init__(code, text)
        self.code, self.status, self.attributes = code, status, list(attributes)

    def __str__(self) -> str:
        return self.strerror

    def _number(self, number):
        found = _first(self.attributes, number)
        return found and found.u32()

    @property
    def is_passing(self) -> bool:
        """Whether a list with this error may be complete when it is requested again, as neli_host_dump has it."""
        if self.status == LINK:
            return self.code not in (errno.EAGAIN, errno.EINTR, errno.ECANCELED)
        return bool(_lib.neli_c_is_passing(self.status, -self.code))

    @property
    def text(self) -> str | None:
        """The kernel's own text, or None."""
        found = _first(self.attributes, ANSWER_TEXT)
        return found and found.text()

    @property
    def offset(self) -> int | None:
        """Where the attribute that the kernel refuses begins in the request, in bytes, or None."""
        return self._number(ANSWER_OFFSET)

    @property
    def missing(self) -> int | None:
        """The number of an attribute that the request lacks, or None."""
        return self._number(ANSWER_MISSING)

    @property
    def missing_nest(self) -> int | None:
        """Where the nest begins that lacks it, in bytes; None if the message itself does."""
        return self._number(ANSWER_MISSING_NEST)


class Attribute:
    """An attribute: its `number`, whether it `is_nested`, and its `payload`."""

    number: int
    is_nested: bool
    payload: Union[bytes, memoryview]

    def __init__(self, number: int, flags: int, payload: bytes | memoryview):
        self.number, self.is_nested, self.payload = number, bool(flags & NESTED), payload

    def __repr__(self):
        return f"Attribute({self.number}, {self.payload!r})"

    def __bytes__(self) -> bytes:
        return bytes(self.payload)

    def _number(self, form):
        size = struct.calcsize(form)
        if len(self.payload) < size:
            raise ValueError(f"attribute {self.number} has {len(self.payload)} bytes, and not {size}")
        return struct.unpack_from(form, self.payload)[0]

    def u8(self) -> int:
        """The number of 1 byte that its payload begins with; a ValueError if that is shorter."""
        return self._number("<B")

    def u16(self) -> int:
        """The number of 2 bytes that its payload begins with, lowest byte first; a ValueError if that is shorter."""
        return self._number("<H")

    def u32(self) -> int:
        """The number of 4 bytes, as `u16`."""
        return self._number("<I")

    def u64(self) -> int:
        """The number of 8 bytes, as `u16`."""
        return self._number("<Q")

    def text(self) -> str:
        """The text before the first zero byte; bytes that are no UTF-8 are kept, as os.fsdecode keeps them.

        A ValueError if no zero byte ends it.
        """
        text, zero, _ = bytes(self.payload).partition(b"\0")
        if not zero:
            raise ValueError(f"attribute {self.number} is no text: no zero byte ends it")
        return os.fsdecode(text)

    def attrs(self) -> Sequence[Attribute]:
        """The attributes in its payload; a ValueError if they cannot be read to their end."""
        return _attributes(self.payload, 0, len(self.payload))

    def get_attr(self, number: int) -> Attribute | None:
        """The first of them with this number, as IFLA_INFO_KIND, or None; a ValueError as of `attrs`."""
        _fit_attribute(number)
        return _first(self.attrs(), number)


def _first(attributes, number):
    return next((it for it in attributes if it.number == number), None)


def _answer_of(message):
    """The code of an error or an acknowledgement, and the attributes of its extended acknowledgement."""
    answer, data = _Answer(), message._data
    if _lib.neli_c_get_answer(data, len(data), ctypes.byref(message._read), ctypes.byref(answer)) != OK:
        return 0, []
    try:
        return answer.code, _attributes(data, answer.attributes.place, answer.attributes.end)
    except ValueError:
        return answer.code, []


def _attributes(data, start, end):
    return [Attribute(it.number, it.flags, data[it.payload : it.payload + it.payload_length])
            for it in _places(data, start, end)]


def _places(data, start, end):
    """The attributes in these bytes, by their places."""
    walk, room, count = _Walk(start, end), (_Attribute * 32)(), ctypes.c_size_t()
    while True:
        code = _lib.neli_c_next_attributes(data, len(data), ctypes.byref(walk), room, len(room), ctypes.byref(count))
        if code == END:
            return
        if code != ITEM:
            raise ValueError(_text_of(code))
        yield from room[: count.value]


class Message:
    """A message: `type`, `flags`, `sequence_number`, `port` and `payload`, with the names of pyroute2 in `header`."""

    type: int
    flags: int
    sequence_number: int
    port: int
    payload: Union[bytes, memoryview]
    family: Optional[int]

    def __init__(self, data, read, family=None):
        self.type, self.flags, self.sequence_number, self.port = read.type, read.flags, read.number, read.port
        self.payload = data[read.payload : read.payload + read.payload_length]
        self.family = family
        self._data, self._read = data, read

    def __repr__(self):
        return f"Message(type={self.type}, flags={self.flags:#x}, payload={len(self.payload)} bytes)"

    @property
    def header(self) -> dict[str, int]:
        """The fields of its header, by pyroute2's names."""
        return {"length": self._read.length, "type": self.type, "flags": self.flags,
                "sequence_number": self.sequence_number, "pid": self.port}

    @property
    def is_interrupted(self) -> bool:
        """Whether the kernel marked it: the listed objects changed meanwhile."""
        return bool(self.flags & NLM_F_DUMP_INTR)

    def _start(self, header_size):
        """Where the attributes begin in the payload."""
        if header_size is None:
            header_size = 4 if self.family not in (None, NETLINK_ROUTE) else _HEADERS.get(self.type & ~3)
        if header_size is None:
            raise ValueError(f"the header of type {self.type} is not known: pass its size")
        _fit(32, header_size=header_size)
        start = (header_size + 3) & ~3
        if start > len(self.payload):
            raise ValueError(_text_of(SHORT))
        return start

    def attrs(self, header_size: int | None = None) -> Sequence[Attribute]:
        """The attributes after the body's header, which has 4 bytes in generic netlink and else its type's size.

        A ValueError if the type's size is not known, the payload is shorter, or they cannot be read to their end.
        """
        return _attributes(self.payload, self._start(header_size), len(self.payload))

    def get_attr(self, number: int, header_size: int | None = None) -> Attribute | None:
        """The first attribute with this number, as IFLA_IFNAME, or None; a ValueError as of `attrs`."""
        _fit_attribute(number)
        return _first(self.attrs(header_size), number)


class _LentAttribute(Attribute):
    """An attribute of a lent message."""

    def __init__(self, of, number, flags, start, end):
        super().__init__(number, flags, of._view(start, end))
        self._of, self._place = of, (start, end)

    def attrs(self) -> Sequence[Attribute]:
        """As of any attribute; a ValueError also once the message is no longer lent."""
        return self._of._attributes(*self._place)


class Lent(Message):
    """A message where the library keeps it: its `payload`, and those of its attributes, are views that copy nothing.

    They stay until the next call of the socket, which releases them: a view that is used later raises a ValueError.
    Where a slice or another object of yours still shows the bytes then, the call raises a BufferError and does nothing,
    so that no view ever shows freed memory: release it, and make the same call again. `bytes(lent.payload)` is a copy.
    """

    payload: memoryview

    def __init__(self, lent, family, keeps):
        read = lent.message
        self.type, self.flags, self.sequence_number, self.port = read.type, read.flags, read.number, read.port
        self.family, self._read, self._views = family, read, []
        self._memory = (ctypes.c_char * lent.length).from_address(lent.bytes)
        self._memory.keeps = keeps  # as long as a view shows it
        self.payload = self._view(0, lent.length)

    def _view(self, start, end):
        if self._memory is None:
            raise ValueError("the message is no longer lent")
        if start == end:
            return memoryview(b"")
        self._views.append(memoryview(self._memory).cast("B").toreadonly()[start:end])
        return self._views[-1]

    def _attributes(self, start, end):
        if self._memory is None:
            raise ValueError("the message is no longer lent")
        return [_LentAttribute(self, it.number, it.flags, it.payload, it.payload + it.payload_length)
                for it in _places(self._memory, start, end)]

    @property
    def _data(self):
        """A copy, for what reads a message by its bytes."""
        return bytes(self.payload)

    def attrs(self, header_size: int | None = None) -> Sequence[Attribute]:
        """The attributes after the body's header, as of any message; a ValueError also once it is no longer lent."""
        return self._attributes(self._start(header_size), len(self.payload))

    def _release(self):
        """Ends all views of it; BufferError if something else still shows its bytes."""
        for view in self._views:
            view.release()
        if self._memory is not None:
            shown, self._memory = weakref.ref(self._memory), None
            self._memory = shown()
        if self._memory is not None:
            raise BufferError("a slice of a lent message is still held: release it before the next call")


def messages(data: _Bytes, family: int | None = None) -> list[Message]:
    """The messages of a datagram; ValueError if it cannot be read to its end."""
    data = _bytes("data", data)
    found: list[Message] = []
    if family is not None:
        _fit(16, family=family)
    walk = _Walk(0, len(data))
    while True:
        read = _Message()
        code = _lib.neli_c_next_message(data, len(data), ctypes.byref(walk), ctypes.byref(read))
        if code == END:
            return found
        if code != ITEM:
            raise ValueError(_text_of(code))
        found.append(Message(data, read, family))


def _wrong(name, value, wanted, hint=""):
    """The error for an argument of another type."""
    return TypeError(f"{name} has to be {wanted}, not {type(value).__name__}{hint}")


def _check_number(name, value, hint=""):
    if not hasattr(type(value), "__index__"):
        raise _wrong(name, value, "a number", hint)


def _fit(bits, **numbers):
    """Refuses what is no number, and a number that so many bits cannot hold, which ctypes would cut."""
    for name, number in numbers.items():
        _check_number(name, number)
        if not 0 <= number < 1 << bits:
            raise ValueError(f"{name}: {number} does not fit {bits} bits")


def _fit_error(name, number):
    """The same for a number that may be below 0, in 32 bits."""
    _check_number(name, number)
    if not -1 << 31 <= number < 1 << 31:
        raise ValueError(f"{name}: {number} does not fit 32 bits")


def _fit_attribute(number):
    _check_number("number", number, "; `values` and `items` of a Schema of neli_schema have attributes by name")
    _fit(16, number=number)


def _view(name, value, wanted="bytes", hint=""):
    try:
        return memoryview(value)
    except TypeError:
        raise _wrong(name, value, wanted, hint) from None


def _bytes(name: str, value: Any, wanted: str = "bytes", hint: str = "") -> bytes:
    """The bytes of an argument: of a number `bytes` would make as many zeros."""
    return bytes(value if hasattr(type(value), "__bytes__") else _view(name, value, wanted, hint))


def _items(name, value, wanted):
    """An iterator over an argument that is a list."""
    if not isinstance(value, (str, bytes, bytearray, memoryview)):
        try:
            return iter(value)
        except TypeError:
            pass
    raise _wrong(name, value, wanted)


def _groups(groups):
    groups = list(_items("groups", groups, "a list of numbers"))
    for it in groups:
        _fit(32, **{"each of groups": it})
    return groups


def _requests(requests):
    """The arguments of requests: a type, flags and a body of each."""
    found = []
    for it in _items("requests", requests, "a list of requests"):
        words = tuple(_items("each of requests", it, "a type, flags and a body"))
        if len(words) != 3:
            raise TypeError(f"each of requests has to be a type, flags and a body, not {len(words)} values")
        _fit(16, msg_type=words[0], msg_flags=words[1])
        found.append((*words[:2], _bytes("body", words[2])))
    return found


def nla(number: int, value: _Bytes | str | Sequence[_Bytes], nested: bool = False) -> bytes:
    """An attribute with its padding, as bytes: of bytes, of a text with its zero byte, or of a list of attributes.

    A number is passed as its bytes: `(1400).to_bytes(4, "little")`. A ValueError if its payload has more than 65531
    bytes, or its number does not fit 16 bits.
    """
    _fit(16, number=number)
    if isinstance(value, (list, tuple)):
        value, nested = b"".join(_view("each of value", it) for it in value), True
    if isinstance(value, str):
        value = os.fsencode(value) + b"\0"
    hint = '; a number of 4 bytes is value.to_bytes(4, "little")' if isinstance(value, int) else ""
    value = _bytes("value", value, "bytes, a text or a list of attributes", hint)
    writer, kind = _Writer(0, 0), number | (NESTED if nested else 0)
    out = ctypes.create_string_buffer(len(value) + 8)
    code = _lib.neli_c_put_attribute(out, len(out), ctypes.byref(writer), kind, value, len(value))
    if code != OK:
        raise ValueError(_text_of(code))
    return out.raw[: writer.end]


class Verdict:
    """The verdict on an answer: `is_complete`; if it is not, `code` of neli.h is the reason."""

    def __init__(self, code, said):
        self.code, self.error, self.is_filtered = code, said.error, bool(said.filtered)

    is_complete = property(lambda self: self.code == OK)
    is_pending = property(lambda self: self.code == WAITS)
    is_interrupted = property(lambda self: self.code == INTERRUPTED)

    def __repr__(self):
        return f"Verdict({_text_of(self.code) if not self.is_complete else 'complete'!r}, error={self.error})"


class Reply:
    """The answer to a request: an iterator over its messages, without the acknowledgement and the end.

    It raises a NetlinkError if the kernel refuses, if the wait has ended, and at the end if the answer is incomplete;
    and a ValueError once its socket is closed, or bound again. After a wait that has ended it can be read on. It may be
    closed at any time, and is once nobody keeps it.

    In asyncio it is read by `async for`, while other tasks run. A task that is cancelled in that closes it.
    """

    def __init__(self, sock, handle):
        self._sock, self._last, self._dropped = sock, None, sock._dropped
        self._handle = handle

    def __del__(self):
        # Perhaps during a call, or in another thread.
        if getattr(self, "_handle", None) is not None:
            self._let_go()

    def _let_go(self):
        """The next call of the socket closes the handle."""
        self._dropped.append(self._handle)
        self._handle = None

    def __iter__(self) -> Reply:
        return self

    def __next__(self) -> Message:
        while self._handle is not None:
            message = self._sock._call(self._step, self._sock._next)
            if message:
                return message
        raise StopIteration

    def __aiter__(self) -> Reply:
        return self

    async def __anext__(self) -> Message:
        try:
            while self._handle is not None:
                message = await self._sock._await(self._handle, self._step, self._sock._next)
                if message:
                    return message
        except BaseException as error:
            if not isinstance(error, Exception) and self._handle is not None:  # the task is cancelled
                self._let_go()
            raise
        raise StopAsyncIteration

    def lent(self) -> Iterator[Message]:
        """As the iterator, but each message is a Lent: nothing is copied. The next step ends what is lent."""
        while self._handle is not None:
            message = self._sock._call(self._step, self._sock._lend)
            if message:
                yield message

    def is_ready(self) -> bool:
        """Whether a step returns or raises at once, as NetlinkSocket.is_ready."""
        return self._handle is None or self._sock._call(self._has_item)

    def verdict(self) -> Verdict:
        """Whether the answer is complete. Once it or its socket is closed, the last verdict known or a ValueError."""
        if self._is_open():
            self._sock._call(self._look)
        if self._last is None:
            raise ValueError("the reply or its socket is closed")
        return self._last

    def close(self) -> None:
        """Gives it up: messages that still arrive for it are dropped."""
        if self._is_open():
            self._sock._call(self._give_up)
        self._handle = None

    def _is_open(self):
        return self._handle is not None and self._dropped is self._sock._dropped

    # What follows runs in a call of the socket, so that nothing closes either meanwhile.

    def _opened(self):
        if not self._is_open():
            raise ValueError("the reply or its socket is closed")
        return self._handle

    def _step(self, read):
        """Reads an item: the message that is given, or None. Raises what comes in its place, and closes at the end."""
        code, message = read(self._opened())
        if code == ITEM:
            return message if message.type not in (NLMSG_ERROR, NLMSG_DONE) else None
        if code == END:
            self._give_up()
            if not self._last.is_complete:
                raise self._sock._error(self._last.code, abs(self._last.error))
            return None
        error = self._sock._error(code)
        if not (error.status == LINK and error.code in (errno.EAGAIN, errno.ECANCELED)):
            self._give_up()
        raise error

    def _has_item(self):
        return self._sock._is_ready(self._opened())

    def _look(self):
        said = _Verdict()
        self._last = Verdict(self._sock._verdict(self._opened(), ctypes.byref(said)), said)

    def _give_up(self):
        if self._is_open():
            self._look()
            handle, self._handle = self._handle, None
            self._sock._close_request(handle)


def _milliseconds(seconds):
    """A timeout as the library takes it, an int of C."""
    if seconds is None:
        return -1
    if not hasattr(type(seconds), "__float__"):
        raise _wrong("seconds", seconds, "a number or None")
    if seconds < 0:
        raise ValueError("a timeout is not below 0")
    return int(min(seconds * 1000, 2147483647))


def _tries(times):
    """How many tries are left after each of so many, of which one is always made."""
    return reversed(range(max(1, times)))


def _want_passing(error, left, found):
    """Raises the error if no other try may help; after a loss all that was found is stale."""
    if not left or not error.is_passing:
        raise error
    if error.status == LINK:
        found.clear()


def _finish(future):
    if not future.done():
        future.set_result(None)


class NetlinkSocket:
    """A socket of a netlink family, in these multicast groups, which delivers each reply to its request.

    A NetlinkError if the system refuses the socket or a group; a ValueError if the family does not fit 16 bits, or a
    group 32. Once it is closed, each call but `bind` and `close` raises a ValueError. During a call only `stop` may be
    called: one that reads, sends or closes raises a RuntimeError.
    """

    def __init__(self, family: int = NETLINK_ROUTE, groups: Iterable[int] = ()):
        _fit(16, family=family)
        self.family, self._at, self._said, self._lent, self._is_stopped = family, None, None, None, False
        self._wait, self._is_strict = -1, False  # as set for this socket, also where `bind` opens another
        self._under_way: dict[int, list] = {}
        self._dropped: list[int] = []  # the handles that nobody keeps; each time it is opened it has another list
        self._waiters: set[tuple] = set()  # the handles that tasks of asyncio wait for, with a future each
        self._call(self._open, _groups(groups))

    def _open(self, groups):
        self._shut()
        at = ctypes.c_void_p()
        code = self._open_host(ctypes.byref(at), groups)
        self._at, self._is_stopped = at.value, False
        if code != OK:
            error = self._error(code)
            self._shut()
            raise error
        _lib.neli_host_set_ends_by_signals(self._at, True)
        _lib.neli_host_set_wait(self._at, self._wait)
        if self._is_strict:
            self._make_strict()

    def _open_host(self, at, groups):
        numbers = (ctypes.c_uint32 * max(1, len(groups)))(*groups)
        return _lib.neli_host_open(at, self.family, numbers, len(groups))

    def bind(self, groups: Iterable[int] = ()) -> None:
        """Opens it again, in these groups; closes the open socket. `settimeout` and `set_strict` hold for the new one too.

        A NetlinkError if the system refuses the socket or a group; then it is closed. A ValueError if a group does not
        fit 32 bits.
        """
        self._call(self._open, _groups(groups))

    def close(self) -> None:
        """Closes it; it may be closed again."""
        self._call(self._shut)

    def _shut(self):
        at, self._at, self._dropped = self._at, None, []
        if at:
            self._free(at)
        self._wake()

    def _free(self, at):
        _lib.neli_host_close(at)

    def __enter__(self: _Self) -> _Self:
        return self

    def __exit__(self, *_: object) -> None:
        self.close()

    def __del__(self):
        if getattr(self, "_at", None):
            self.close()

    def fileno(self) -> int:
        """The socket's file descriptor, which stays the socket's."""
        return _lib.neli_host_fd(self._opened())

    @property
    def port(self) -> int:
        """The port that the kernel chose."""
        return _lib.neli_host_port(self._opened())

    def settimeout(self, seconds: float | None) -> None:
        """Sets how long a call waits in all, by default without end (None); then it raises a NetlinkError of EAGAIN.

        A ValueError if that is below 0.
        """
        wait = _milliseconds(seconds)
        _lib.neli_host_set_wait(self._opened(), wait)
        self._wait = wait

    @property
    def receive_buffer(self) -> int:
        """How many bytes the kernel keeps for the socket (SO_RCVBUF); past that, messages are lost.

        Linux doubles the number that is set, and takes no more than net.core.rmem_max, but of a process with
        CAP_NET_ADMIN any. `bind` opens a socket with the default. A ValueError if the number does not fit 31 bits.
        """
        with socket.socket(fileno=os.dup(self.fileno())) as options:
            return options.getsockopt(socket.SOL_SOCKET, socket.SO_RCVBUF)

    @receive_buffer.setter
    def receive_buffer(self, size: int) -> None:
        _fit(31, receive_buffer=size)
        with socket.socket(fileno=os.dup(self.fileno())) as options:
            try:
                options.setsockopt(socket.SOL_SOCKET, 33, size)  # SO_RCVBUFFORCE of asm-generic/socket.h
            except PermissionError:
                options.setsockopt(socket.SOL_SOCKET, socket.SO_RCVBUF, size)

    def set_strict(self) -> None:
        """Makes the kernel check all fields of a dump's request: only then can a dump list the objects of one link.

        A NetlinkError if the kernel is too old for it.
        """
        self._call(self._make_strict)

    def _make_strict(self):
        self._well(_lib.neli_host_set_strict(self._opened()))
        self._is_strict = True

    def stop(self) -> None:
        """Ends all waits with ECANCELED; any thread, and a signal's handler, may call it."""
        _lib.neli_host_stop(self._opened())
        self._is_stopped = True
        self._wake()

    def request(self, msg_type: int, msg_flags: int = NLM_F_ACK, body: _Bytes = b"") -> Reply:
        """Sends a request, and returns its Reply. `body` is the header of its type, and attributes of `nla`.

        A NetlinkError if it is not sent; a ValueError if its type or flags do not fit 16 bits.
        """
        _fit(16, msg_type=msg_type, msg_flags=msg_flags)
        return self._call(self._send, msg_type, msg_flags, _bytes("body", body))

    def request_all(self, requests: Iterable[tuple[int, int, _Bytes]]) -> list[Reply]:
        """Sends requests, each a type, flags and a body, as one datagram, and returns the Reply to each.

        The kernel performs them in their order, also past one that it refuses. A refusal to send sends none of them: it
        raises a NetlinkError, whose `status` is KIND if two of them are dumps, or a ValueError as `request` does.
        """
        return self._call(self._send_all, _requests(requests))

    def _send_all(self, requests):
        handles = (ctypes.c_size_t * max(1, len(requests)))()
        array = (_Request * max(1, len(requests)))(*((*it, len(it[2])) for it in requests))
        self._well(_lib.neli_host_send_all(self._opened(), array, len(requests), handles))
        return [Reply(self, it) for it in handles[: len(requests)]]

    def nlm_request(self, body: _Bytes, msg_type: int, msg_flags: int = NLM_F_REQUEST | NLM_F_ACK) -> list[Message]:
        """As `request`, with the body first as in pyroute2; returns the list of its messages, or raises as a Reply."""
        reply = self.request(msg_type, msg_flags, body)
        try:
            return list(reply)
        finally:
            reply.close()

    def _dump_body(self, msg_type, body):
        """The body of a dump: by default, in routing, the header of its type, without which Linux answers nothing."""
        size = _HEADERS.get(msg_type & ~3, 0) if self.family == NETLINK_ROUTE else 0
        given = bytes(size) if body is None else _bytes("body", body)
        if _lib.neli_c_answering(self.family, msg_type, NLM_F_REQUEST | NLM_F_DUMP, len(given)) == ANSWERING_SILENCE:
            what = "default body" if body is None else f"body of {len(given)} bytes"
            raise ValueError(f"a dump of type {msg_type} has no {what} that Linux answers: pass one")
        return given

    def _list(self, msg_type, body=None, msg_flags=0):
        """The arguments of a list's request."""
        _fit(16, msg_type=msg_type, msg_flags=msg_flags)
        return self._dump_body(msg_type, body), msg_type, msg_flags | NLM_F_DUMP

    def _lists(self, lists):
        """The same of several lists."""
        lists = [it if isinstance(it, tuple) else (it,) for it in lists]
        for it in lists:
            if not 1 <= len(it) <= 3:
                raise TypeError(f"each of lists has to be a type, a body and flags, not {len(it)} values")
        return [self._list(*it) for it in lists]

    def dump(self, msg_type: int, body: _Bytes | None = None, msg_flags: int = 0, times: int = 5) -> list[Message]:
        """The messages of a whole list, which is requested again, at most so many times, if it changed meanwhile, a
        fault of the socket lost a part, or the kernel was busy.

        The default body is, of NETLINK_ROUTE, the header of the type in zeros, which lists all objects, and of other
        families none; a ValueError if Linux would not answer the body. A NetlinkError has why the list is incomplete:
        `status` is INTERRUPTED if it still changed.
        """
        _check_number("times", times)
        return self._whole([self._list(msg_type, body, msg_flags)], times, False)[0]

    def resync(self, *lists: int | tuple[Any, ...], times: int = 5) -> list[list[Message]]:
        """The whole state after a loss: drops what came to groups, until nothing is left, and returns the messages of
        each of these lists. A list is the type of its dump, or that, a body and flags, as `dump` takes them.

        What comes to groups meanwhile and later is newer: read it by `get`, and apply it to the lists. A list is
        requested again where `dump` would, and after a loss all are, in at most so many tries; then it raises as `dump`.
        """
        _check_number("times", times)
        return self._whole(self._lists(lists), times, True)

    def _whole(self, lists, times, is_resync):
        """The messages of lists, which are requested again while they may be complete then."""
        found: dict[int, list[Message]] = {}
        for left in _tries(times):
            self._begin(found, is_resync)
            try:
                for i in range(len(found), len(lists)):
                    found[i] = self.nlm_request(*lists[i])
                return list(found.values())
            except NetlinkError as error:
                _want_passing(error, left, found)

    def _begin(self, found, is_resync):
        if is_resync and not found:
            self._call(self._drop)

    def get(self) -> Message:
        """The next message for a group. If some were lost, raises a NetlinkError of ENOBUFS; more messages follow.

        A NetlinkError also if the message cannot be read, after which more follow, and if the wait has ended.
        """
        return self._call(self._hear, self._next)

    def get_lent(self) -> Lent:
        """As `get`, but the message is a Lent: nothing is copied, and the next call ends what is lent."""
        return self._call(self._hear, self._lend_readable)

    def is_ready(self) -> bool:
        """Whether `get` returns or raises at once, by what was taken in; it looks at no socket.

        A loop of your own sets a timeout of 0, sends, reads all until EAGAIN, and sleeps until the descriptor can be
        read only if nothing is ready: what one read took in may be for another.
        """
        return self._call(self._is_ready, MULTICAST)

    # In asyncio: while they wait, other tasks run. No thread is started.

    async def anlm_request(self, body: _Bytes, msg_type: int,
                           msg_flags: int = NLM_F_REQUEST | NLM_F_ACK) -> list[Message]:
        """As `nlm_request`. A task that is cancelled in it gives the request up."""
        reply = self.request(msg_type, msg_flags, body)
        try:
            return [it async for it in reply]
        finally:
            reply.close()

    def adump(self, msg_type: int, body: _Bytes | None = None, msg_flags: int = 0,
              times: int = 5) -> AsyncIterator[Message]:
        """As `dump`, for `async for message in sock.adump(..)`: the first message comes once the list is complete.

        A `request` with NLM_F_DUMP, and `async for` over its Reply, has each message as it comes, and at the end why
        the list is incomplete.
        """
        _check_number("times", times)
        return self._listed([self._list(msg_type, body, msg_flags)], times)

    async def _listed(self, lists, times):
        (found,) = await self._awhole(lists, times, False)
        for it in found:
            yield it

    async def aresync(self, *lists: int | tuple[Any, ...], times: int = 5) -> list[list[Message]]:
        """As `resync`."""
        _check_number("times", times)
        return await self._awhole(self._lists(lists), times, True)

    async def _awhole(self, lists, times, is_resync):
        found: dict[int, list[Message]] = {}
        for left in _tries(times):
            self._begin(found, is_resync)
            try:
                for i in range(len(found), len(lists)):
                    found[i] = await self.anlm_request(*lists[i])
                return list(found.values())
            except NetlinkError as error:
                _want_passing(error, left, found)

    async def aget(self) -> Message:
        """As `get`. A task that is cancelled in it loses no message."""
        return await self._await(MULTICAST, self._hear, self._next)

    def __aiter__(self: _Self) -> _Self:
        """The messages for groups, one `aget` after the other. After an error it can be iterated again."""
        return self

    async def __anext__(self) -> Message:
        return await self.aget()

    async def _await(self, handle, call, *words):
        """Does a call that reads a handle, within the time of a wait."""
        from asyncio import sleep
        end = time.monotonic() + self._wait / 1000
        while True:
            if not self._call(self._is_ready, handle):
                await sleep(0)  # so that other tasks run before more is taken in
            try:
                return self._call(self._at_once, call, *words)
            except NetlinkError as error:
                left = end - time.monotonic() if self._wait >= 0 else None
                if (error.status, error.code) != (LINK, errno.EAGAIN) or (left is not None and left <= 0):
                    raise
            await self._readable(handle, left)

    def _at_once(self, call, *words):
        """Does a call that waits for nothing."""
        try:
            _lib.neli_host_set_wait(self._opened(), 0)
            return call(*words)
        finally:
            if self._at:
                _lib.neli_host_set_wait(self._at, self._wait)

    async def _readable(self, handle, left):
        """Waits until the socket may be read or the handle has an item, so many seconds at most."""
        from asyncio import get_running_loop, wait
        loop = get_running_loop()
        # A descriptor of its own, which stays open, and which no other reader of the loop has.
        waiter, number = (handle, loop.create_future()), os.dup(self.fileno())
        try:
            loop.add_reader(number, _finish, waiter[1])
            self._waiters.add(waiter)
            if not self._is_stopped:
                await wait([waiter[1]], timeout=left)
        finally:
            self._waiters.discard(waiter)
            loop.remove_reader(number)
            os.close(number)

    def _is_ready(self, handle):
        return _lib.neli_host_is_ready(self._opened(), handle)

    def _wake(self, is_ready=None):
        """Wakes the tasks that wait for a handle that is ready, or all."""
        for waiter in list(self._waiters):
            handle, future = waiter
            if is_ready is None or is_ready(handle):
                self._waiters.discard(waiter)
                if not future.get_loop().is_closed():
                    future.get_loop().call_soon_threadsafe(_finish, future)

    # What follows is for the calls above.

    def _opened(self):
        if not self._at:
            raise ValueError("the socket is closed")
        return self._at

    def _call(self, call, *words):
        """Does what may change what the library keeps. A signal's handler may run in it, and begins no other."""
        own = []
        try:
            # One step, so that no other thread runs within it.
            if self._under_way.setdefault(0, own) is not own:
                raise RuntimeError("a call of this socket is under way: meanwhile only stop may be called")
            if self._lent:
                self._end_lent()
            while self._dropped:
                self._close_request(self._dropped.pop())
            result = call(*words)
            self._end_call()
            return result
        except BaseException:  # and not `finally`, before which a handler may raise
            if self._under_way.get(0) is own:
                self._end_call()
            raise

    def _end_call(self):
        try:
            if self._waiters and self._at:
                self._wake(self._is_ready)
        finally:  # also where a handler raises
            del self._under_way[0]

    def _well(self, code):
        if code != OK:
            raise self._error(code)

    def _end_lent(self):
        """Ends what is lent, before each call that may change what the library keeps."""
        handle, message = self._lent
        message._release()
        self._lent = None
        self._pass(handle)

    def _lend(self, handle):
        """The next item of a handle, lent until the next call, which goes on to the one after it."""
        lent = _Lent()
        code, self._said = self._lend_into(handle, lent), None
        if code == KERNEL_ERROR:
            return self._next(handle)  # copied, for its words
        if code != ITEM:
            return code, None
        self._lent = handle, Lent(lent, self.family, self)
        return code, self._lent[1]

    def _lend_readable(self, handle):
        """As `_lend`, but goes past what cannot be read."""
        code, message = self._lend(handle)
        if code < 0 and code not in (LINK, MEMORY):
            self._pass(handle)
        return code, message

    def _hear(self, read):
        code, message = read(MULTICAST)
        if code != ITEM:
            raise self._error(code)
        return message

    def _error(self, code, number=0):
        """The error of a call, by its code."""
        text, said, attributes = ctypes.create_string_buffer(512), self._said, []
        pointer = ctypes.byref(said._read) if said else None
        if code == KERNEL_ERROR and said:
            answered, attributes = _answer_of(said)
            number = -answered or number
        elif code == LINK and self._at:
            number = _lib.neli_host_fault(self._at)
        if self._at and (code != KERNEL_ERROR or said):
            _lib.neli_host_explain(self._at, code, pointer, text, len(text))
        words = os.fsdecode(text.value) or (os.strerror(number) if number else _text_of(code))
        return NetlinkError(number, words, code, attributes)

    def _verdict(self, handle, said):
        return _lib.neli_host_verdict(self._opened(), handle, said)

    def _close_request(self, handle):
        _lib.neli_host_close_request(self._opened(), handle)

    def _wait_in(self, call, handle, read):
        """The code of a call that reads. A signal's handler runs, and the wait continues if it raises nothing."""
        while True:
            code = call(self._opened(), handle, ctypes.byref(read))
            if code != LINK or _lib.neli_host_fault(self._at) != errno.EINTR:
                return code

    def _drop(self):
        """Drops what came to groups, until the socket was seen empty, within the time of a wait.

        The lists are requested here, one by one: out of a function that the library calls no exception comes, so the
        KeyboardInterrupt of a signal that arrives meanwhile would be lost.
        """
        self._well(_lib.neli_host_resync_all(self._opened(), None, 0, ctypes.byref(_Message())))

    def _lend_into(self, handle, lent):
        return self._wait_in(_lib.neli_host_lend, handle, lent)

    def _pass(self, handle):
        return _lib.neli_host_pass(self._at, handle)

    def _next(self, handle):
        """The next item of a handle."""
        read = _Message()
        code, self._said = self._wait_in(_lib.neli_host_next, handle, read), None
        if code in (ITEM, KERNEL_ERROR):
            data = ctypes.string_at(_lib.neli_host_item(self._at), _lib.neli_host_item_length(self._at))
            self._said = Message(data, read, self.family)
        return code, self._said

    def _send(self, msg_type, msg_flags, body):
        handle = ctypes.c_size_t()
        self._well(_lib.neli_host_send(self._opened(), msg_type, msg_flags, body, len(body), ctypes.byref(handle)))
        return Reply(self, handle.value)
