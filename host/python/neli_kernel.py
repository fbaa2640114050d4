"""A kernel to test against, for Python over libneli.so: a client runs in a test with no kernel and no namespace.

A SimulatedSocket is a NetlinkSocket over a function of yours, which serves its requests, in place of the kernel's
socket. The answers are made by the proved library, as bytes; a script says which are lost, repeated or interrupted.

    import neli
    from neli_kernel import SimulatedSocket
    def serve(request):
        if not request.wants_routing_dump:
            return [request.error(-95, {1: "Unknown device type"})]
        return request.dump([{"type": neli.RTM_NEWLINK, "body": bytes(16) + neli.nla(neli.IFLA_IFNAME, "lo")}])
    with SimulatedSocket(serve) as sock:
        assert [it.get_attr(neli.IFLA_IFNAME).text() for it in sock.dump(neli.RTM_GETLINK)] == ["lo"]
"""

from __future__ import annotations

import collections
import ctypes
import errno
import os
import struct
from collections.abc import Mapping
from typing import Any, Callable, Dict, Iterable, Union

import neli
from neli import END, ITEM, NLM_F_DUMP_INTR, OK, ROOM

__all__ = ["SimulatedSocket", "Request", "requests", "notification"]

_ExtAck = Union[neli._Bytes, Dict[int, Any]]


class _Request(ctypes.Structure):
    _fields_ = [("message", neli._Message), ("port", ctypes.c_uint32), ("is_handled", ctypes.c_uint8),
                ("wants_acknowledgement", ctypes.c_uint8), ("wants_dump", ctypes.c_uint8),
                ("wants_routing_dump", ctypes.c_uint8), ("wants_echo", ctypes.c_uint8)]


class _KernelDump(ctypes.Structure):
    """A dump, closed as it is made."""

    _fields_ = [("is_open", ctypes.c_bool), ("state", ctypes.c_void_p)]


class _Received(ctypes.Structure):
    _fields_ = [("length", ctypes.c_size_t), ("group", ctypes.c_uint32), ("is_joined", ctypes.c_bool)]


class _Transport(ctypes.Structure):
    _fields_ = [("state", ctypes.c_void_p), ("send", ctypes.c_void_p), ("receive", ctypes.c_void_p),
                ("wait", ctypes.c_void_p)]


# The types of its functions.
_SEND = ctypes.CFUNCTYPE(ctypes.c_int, ctypes.c_void_p, ctypes.c_void_p, ctypes.c_size_t)
_RECEIVE = ctypes.CFUNCTYPE(ctypes.c_int, ctypes.c_void_p, ctypes.c_void_p, ctypes.c_size_t, ctypes.POINTER(_Received))
_WAIT = ctypes.CFUNCTYPE(ctypes.c_int, ctypes.c_void_p, ctypes.c_int)


def _library():
    """The library of neli, with what each call of this file takes."""
    pointer, size, u16, u32 = ctypes.c_void_p, ctypes.c_size_t, ctypes.c_uint16, ctypes.c_uint32
    i32, slice_of, room = ctypes.c_int32, [ctypes.c_char_p, size], [pointer, size, pointer]
    calls = {
        "neli_c_next_request": [*slice_of, pointer, u32, pointer],
        "neli_c_kernel_ack": [pointer, *slice_of, *room],
        "neli_c_kernel_capped_error": [pointer, i32, *slice_of, *room],
        "neli_c_kernel_error": [*slice_of, pointer, i32, *slice_of, *room],
        "neli_c_kernel_reply": [pointer, u16, u16, *slice_of, *room],
        "neli_c_kernel_notification": [u16, u16, u32, u32, *slice_of, *room],
        "neli_c_kernel_dump_new": [pointer, pointer, size],
        "neli_c_kernel_dump_free": [pointer],
        "neli_c_kernel_dump_push": [pointer, u16, u16, *slice_of],
        "neli_c_kernel_dump_finish": [pointer, u16, i32, *slice_of],
        "neli_c_kernel_dump_next": [pointer, *room],
    }
    for name, parameters in calls.items():
        call = getattr(neli._lib, name)
        call.restype, call.argtypes = i32, parameters
    return neli._lib


_lib = _library()


def _made(call, *words):
    """The bytes that a call writes."""
    out, length = ctypes.create_string_buffer(1024), ctypes.c_size_t()
    while True:
        code = call(*words, out, len(out), ctypes.byref(length))
        if code in (OK, ITEM):
            return out.raw[: length.value]
        if code != ROOM:
            raise ValueError(neli._text_of(code))
        out = ctypes.create_string_buffer(length.value)


def _listed(ext_ack):
    """The attributes of an extended acknowledgement: by number, as {1: "No such device", 2: 32}, or as bytes."""
    if not isinstance(ext_ack, dict):
        return neli._bytes("ext_ack", ext_ack, "a dictionary or bytes")
    return b"".join(_acknowledged(number, it) for number, it in ext_ack.items())


def _acknowledged(number, value):
    """An attribute of an extended acknowledgement."""
    neli._fit(16, **{"each number of ext_ack": number})
    name = f"attribute {number} of ext_ack"
    if isinstance(value, int):
        neli._fit(32, **{name: value})
        value = struct.pack("<I", value)
    is_list_or_text = isinstance(value, (str, list, tuple))
    return neli.nla(number, value if is_list_or_text else neli._bytes(name, value, "a number, a text or bytes"))


class Request(neli.Message):
    """A request as a kernel takes it, from the socket of `port`; `error`, below 0, is as -22 for EINVAL.

    Each answer raises a ValueError if it is too long, if its type or flags do not fit 16 bits or `error` and numbers of
    `ext_ack` 32, if `ext_ack` is no list of attributes, and if memory runs out.
    """

    is_handled: bool
    wants_acknowledgement: bool
    wants_dump: bool
    wants_routing_dump: bool
    wants_echo: bool

    def __init__(self, data, read):
        super().__init__(data, read.message)
        self.port, self._asked = read.port, read
        for name in ("is_handled", "wants_acknowledgement", "wants_dump", "wants_routing_dump", "wants_echo"):
            setattr(self, name, bool(getattr(read, name)))

    def ack(self, ext_ack: _ExtAck = b"") -> bytes:
        """The acknowledgement."""
        text = _listed(ext_ack)
        return _made(_lib.neli_c_kernel_ack, ctypes.byref(self._asked), text, len(text))

    def error(self, error: int, ext_ack: _ExtAck = b"", is_capped: bool = True) -> bytes:
        """The error with the request's header alone, or with the whole request."""
        neli._fit_error("error", error)
        text, asked = _listed(ext_ack), ctypes.byref(self._asked)
        if is_capped:
            return _made(_lib.neli_c_kernel_capped_error, asked, error, text, len(text))
        return _made(_lib.neli_c_kernel_error, self._data, len(self._data), asked, error, text, len(text))

    def reply(self, msg_type: int, body: neli._Bytes = b"", msg_flags: int = 0) -> bytes:
        """One reply."""
        neli._fit(16, msg_type=msg_type, msg_flags=msg_flags)
        body = neli._bytes("body", body)
        return _made(_lib.neli_c_kernel_reply, ctypes.byref(self._asked), msg_type, msg_flags, body, len(body))

    def dump(self, listed: Iterable[Mapping[str, Any]], msg_flags: int = 0, error: int = 0, ext_ack: _ExtAck = b"",
             limit: int = 8192) -> list[bytes]:
        """The datagrams of a dump: its messages are {"type": .., "body": .., "flags": ..}, and the end has the rest.

        A ValueError also if a message is longer than `limit`.
        """
        neli._fit(16, msg_flags=msg_flags)
        neli._fit(64, limit=limit)
        neli._fit_error("error", error)
        dump, text = _KernelDump(), _listed(ext_ack)
        at = ctypes.byref(dump)
        try:
            codes = [_lib.neli_c_kernel_dump_new(at, ctypes.byref(self._asked), limit)]
            for it in neli._items("listed", listed, "a list of dictionaries"):
                if not isinstance(it, Mapping):
                    raise neli._wrong("each of listed", it, "a dictionary")
                flags, body = it.get("flags", 0), neli._bytes("body", it.get("body", b""))
                neli._fit(16, type=it["type"], flags=flags)
                codes.append(_lib.neli_c_kernel_dump_push(at, it["type"], flags, body, len(body)))
            codes.append(_lib.neli_c_kernel_dump_finish(at, msg_flags, error, text, len(text)))
            if any(codes):
                raise ValueError(neli._text_of(next(it for it in codes if it)))
            return list(iter(lambda: _made(_lib.neli_c_kernel_dump_next, at), b""))
        finally:
            _lib.neli_c_kernel_dump_free(at)


def requests(data: neli._Bytes, port: int) -> list[Request]:
    """The requests of a datagram that the socket of a port sent.

    A ValueError if it cannot be read to its end, or if the port does not fit 32 bits.
    """
    neli._fit(32, port=port)
    data = neli._bytes("data", data)
    found: list[Request] = []
    walk = neli._Walk(0, len(data))
    while True:
        read = _Request()
        code = _lib.neli_c_next_request(data, len(data), ctypes.byref(walk), port, ctypes.byref(read))
        if code == END:
            return found
        if code != ITEM:
            raise ValueError(neli._text_of(code))
        found.append(Request(data, read))


def notification(msg_type: int, body: neli._Bytes = b"", msg_flags: int = 0, number: int = 0, port: int = 0) -> bytes:
    """What groups get; number and port are those of the request that caused it, or 0.

    A ValueError if it is too long, if type or flags do not fit 16 bits or number or port 32, and if memory runs out.
    """
    neli._fit(16, msg_type=msg_type, msg_flags=msg_flags)
    neli._fit(32, number=number, port=port)
    body = neli._bytes("body", body)
    return _made(_lib.neli_c_kernel_notification, msg_type, msg_flags, number, port, body, len(body))


def _interrupted(datagram):
    """The datagram with NLM_F_DUMP_INTR in each of its messages."""
    data, walk, read = bytearray(datagram), neli._Walk(0, len(datagram)), neli._Message()
    while True:
        place = walk.place
        code = _lib.neli_c_next_message(datagram, len(datagram), ctypes.byref(walk), ctypes.byref(read))
        if code != ITEM:
            return bytes(data)
        struct.pack_into("=H", data, place + 6, read.flags | NLM_F_DUMP_INTR)


class _Link:
    """What stands in place of a socket: what has come, in its order, and by the script what comes of the next."""

    def __init__(self, serve, port, raised):
        self.serve, self.port, self.raised = serve, port, raised
        self.queue, self.script = collections.deque(), collections.deque()  # of datagrams with their group, and faults
        self.ends = ()  # of a pipe, which can be read from what comes on until the queue was seen empty

    def add(self, it):
        self.queue.append(it)
        self.signal()

    def signal(self):
        try:
            if self.ends:
                os.write(self.ends[1], b"\0")
        except BlockingIOError:  # it is full, and so can be read
            pass

    def is_empty(self):
        """Whether nothing is there; what comes after it was seen can be seen by the pipe."""
        try:
            if self.ends and not self.queue:
                os.read(self.ends[0], 1 << 16)
        except BlockingIOError:
            pass
        return not self.queue

    def arrive(self, datagram, group):
        step = self.script.popleft() if self.script else "arrives"
        if step == "interrupted":
            datagram = _interrupted(datagram)
        if not isinstance(step, str):
            self.add(step)
        elif step != "lost":
            for _ in range(1 + (step == "repeated")):
                self.add((datagram, group))

    def fileno(self):
        if not self.ends:
            self.ends = os.pipe2(os.O_CLOEXEC | os.O_NONBLOCK)
            self.signal()
        return self.ends[0]

    def close(self):
        ends, self.ends = self.ends, ()
        for it in ends:
            os.close(it)

    # What the library calls. No exception comes out of such a function.

    def send(self, _state, data, length):
        try:
            for request in requests(ctypes.string_at(data, length), self.port):
                for datagram in neli._items("what serve returns", self.serve(request), "a list of datagrams"):
                    self.arrive(neli._bytes("each datagram of serve", datagram), 0)
            return 0
        except BaseException as raised:
            self.raised.append(raised)
            return errno.EIO

    def receive(self, _state, out, room, received):
        if self.is_empty():
            return errno.EAGAIN
        it = self.queue.popleft()
        if not isinstance(it, tuple):
            return it
        datagram, group = it
        ctypes.memmove(out, datagram, min(len(datagram), room))
        received[0] = _Received(len(datagram), group, group != 0)
        return 0

    def wait(self, _state, _milliseconds):
        """Nothing comes meanwhile: the time has passed, unless something is there."""
        return 0 if self.queue else errno.EAGAIN


class SimulatedSocket(neli.NetlinkSocket):
    """A socket with a kernel of your own: `serve` gives the datagrams of the answer to a Request.

    It is in all groups, and a wait takes no time: where nothing is left, it has ended. What `serve` raises is raised by
    the call that sends the request; that is a later one than `request` where a dump waits for the one before. `serve`
    may call `deliver` and `fault`, and begins no other call. A ValueError if the family does not fit 16 bits, or the
    port 32.
    """

    def __init__(self, serve: Callable[[Request], Iterable[neli._Bytes]], family: int = neli.NETLINK_ROUTE,
                 port: int = 4711):
        if not callable(serve):
            raise neli._wrong("serve", serve, "a function")
        neli._fit(32, port=port)
        self._serve, self._own_port, self._receive_buffer = serve, port, 212992
        self._raised: list[BaseException] = []  # what `serve` raised in the call that is under way
        super().__init__(family)

    def _open_host(self, at, _groups):
        self._link = link = _Link(self._serve, self._own_port, self._raised)
        self._calls = _SEND(link.send), _RECEIVE(link.receive), _WAIT(link.wait)
        over = _Transport(None, *(ctypes.cast(it, ctypes.c_void_p) for it in self._calls))
        return _lib.neli_host_open_over(at, self.family, self._own_port, ctypes.byref(over))

    def _free(self, at):
        super()._free(at)
        self._link.close()

    def _call(self, call, *words):
        try:
            return super()._call(call, *words)
        finally:
            if self._raised:
                raise self._raised.pop() from None

    def fileno(self) -> int:
        """A descriptor for a loop that waits: it can be read once something has come, until a read finds no more."""
        self._opened()
        return self._link.fileno()

    def set_strict(self) -> None:
        """Has no effect."""
        self._opened()

    @property
    def receive_buffer(self) -> int:
        """A number that has no effect; a ValueError if it does not fit 31 bits."""
        self._opened()
        return self._receive_buffer

    @receive_buffer.setter
    def receive_buffer(self, size: int) -> None:
        neli._fit(31, receive_buffer=size)
        self._opened()
        self._receive_buffer = size

    def deliver(self, datagram: neli._Bytes, group: int = 0) -> None:
        """Has a datagram come to a group, as `notification` makes one; or to the port, where it is 0.

        A ValueError if the group does not fit 32 bits.
        """
        neli._fit(32, group=group)
        datagram = neli._bytes("datagram", datagram)
        self._opened()
        self._link.arrive(datagram, group)

    def fault(self, number: int) -> None:
        """Has a fault of the socket come, by its number in errno.h, as ENOBUFS where messages are lost.

        Each open request ends with it, and `get` raises it once, behind the messages that came before. A ValueError if
        it is not above 0, does not fit 31 bits, or is EAGAIN or EINTR, which lose nothing.
        """
        _check_fault("number", number)
        self._opened()
        self._link.add(number)

    def script(self, steps: Iterable[int | str]) -> None:
        """What comes of the next datagrams, those of `serve` and of `deliver`, a step for each. Later ones arrive.

        A step is "arrives"; "lost"; "repeated", where it arrives twice; "interrupted", where its messages have
        NLM_F_DUMP_INTR; or a number of errno.h, as ENOBUFS: it is lost, and that fault comes in its place. The script
        replaces an earlier one, and ends where the socket is bound again. A ValueError if a step is none of these.
        """
        steps = list(neli._items("steps", steps, "a list of steps"))
        for it in steps:
            if not isinstance(it, str):
                _check_fault("each of steps", it)
            elif it not in ("arrives", "lost", "repeated", "interrupted"):
                raise ValueError(f"each of steps: {it!r} is none")
        self._opened()
        self._link.script = collections.deque(steps)


def _check_fault(name, number):
    neli._fit(31, **{name: number})
    if number in (0, errno.EAGAIN, errno.EINTR):
        raise ValueError(f"{name}: {number} is no fault")
