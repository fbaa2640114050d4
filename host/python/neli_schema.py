"""Messages by name, for Python over libneli.so: as dictionaries and as text, and what is wrong with them.

A Schema has the tables of families that the library has, and texts of yours (docs/TABLES.md). What it prints is proved
with the library; a dictionary is `json.loads` of that (docs/SHOW.md).

    import neli
    from neli_schema import Schema
    with Schema() as schema, neli.NetlinkSocket(neli.NETLINK_ROUTE) as sock:
        for link in sock.dump(neli.RTM_GETLINK):
            print(schema.values(link)["IFLA_IFNAME"], schema.to_dict(link)["attributes"])
"""

from __future__ import annotations

import ctypes
import json
import os
from typing import Any, Iterator

import neli
from neli import ITEM, KIND, OK, ROOM

__all__ = ["NamedSocket", "Schema", "TableError", "WriteError", "LIBERAL", "STRICT"]

# neli.h
VIOLATION, STATE, TABLE = 6, -5, -17
KIND_NEST, KIND_HOPS, KIND_HOP, KIND_REST = 27, 28, 32, 35
# Which of the kernel's two parsers reads a request: that of older messages, or the one that also refuses attributes
# that it does not know.
LIBERAL, STRICT = 0, 1


class _Tables(ctypes.Structure):
    """Tables, closed as they are made."""

    _fields_ = [("is_open", ctypes.c_bool), ("state", ctypes.c_void_p)]


class _Named(ctypes.Structure):
    _fields_ = [("number", ctypes.c_uint16), ("kind", ctypes.c_uint8), ("depth", ctypes.c_uint8),
                ("payload", ctypes.c_size_t), ("payload_length", ctypes.c_size_t), ("path", ctypes.c_size_t),
                ("path_length", ctypes.c_size_t), ("value", ctypes.c_size_t), ("value_length", ctypes.c_size_t)]


def _library():
    """The library of neli, with what each call of this file takes."""
    pointer, size, u16 = ctypes.c_void_p, ctypes.c_size_t, ctypes.c_uint16
    slice_of, room = [ctypes.c_char_p, size], [pointer, size, pointer]
    message = [pointer, u16, *slice_of, pointer]
    calls = {
        "neli_c_tables_new": [pointer],
        "neli_c_tables_built_in": [pointer],
        "neli_c_tables_free": [pointer],
        "neli_c_tables_add": [pointer, *slice_of, pointer, *room],
        "neli_c_tables_learn": [pointer, u16, *slice_of],
        "neli_c_tables_learn_from": message,
        "neli_c_message_text": [*message, *room],
        "neli_c_message_json": [*message, *room],
        "neli_c_datagram_text": [pointer, u16, *slice_of, *room],
        "neli_c_datagram_json": [pointer, u16, *slice_of, *room],
        "neli_c_tables_add_built_in": [pointer, *slice_of],
        "neli_c_number_of": [pointer, *slice_of, *slice_of, *slice_of, pointer],
        "neli_c_name_of": [pointer, *slice_of, *slice_of, ctypes.c_uint64, *room],
        "neli_c_message_name": [*message, *room],
        "neli_c_named_items": [*message, pointer, size, pointer, *room],
        "neli_c_check": [*message, *room],
        "neli_c_check_as": [pointer, ctypes.c_int32, *message[1:], *room],
        "neli_c_write_json": [pointer, u16, *slice_of, *room],
        "neli_c_diagnosis": [*message, ctypes.c_int32, *slice_of, *room],
        "neli_c_path_at": [*message, size, *room],
        "neli_c_refusal_text": [*message, ctypes.c_int32, *slice_of, size, *room],
    }
    for name, parameters in calls.items():
        call = getattr(neli._lib, name)
        call.restype, call.argtypes = ctypes.c_int32, parameters
    return neli._lib


_lib = _library()


class TableError(ValueError):
    """A text is no table: `line` is the number of the first line that is bad, and `reason` says why."""

    def __init__(self, line: int, reason: str):
        super().__init__(f"line {line}: {reason}")
        self.line, self.reason = line, reason


class WriteError(ValueError):
    """A dictionary or JSON is no message by the tables: `str` has the path of the member that it is about, and why."""


def _written_bytes(call, *words):
    """The code of a call that writes, and what it has written; the call is made again where it had no room."""
    out, size = ctypes.create_string_buffer(2048), ctypes.c_size_t()
    code = call(*words, out, len(out), ctypes.byref(size))
    if size.value > len(out):
        out = ctypes.create_string_buffer(size.value)
        code = call(*words, out, len(out), ctypes.byref(size))
    return code, out.raw[: size.value]


def _written(call, *words):
    """The same of a text."""
    code, text = _written_bytes(call, *words)
    return code, _part(text, 0, len(text))


def _part(text, place, length):
    return text[place : place + length].decode("utf-8", "surrogateescape")


def _encoded(name, text):
    """The bytes of a text."""
    if not isinstance(text, (str, bytes)):
        raise neli._wrong(name, text, "a text")
    return os.fsencode(text)


def _done(code):
    if code != OK:
        raise neli.NetlinkError(0, "the schema is closed" if code == STATE else neli._text_of(code), code)


def _found(code):
    """Whether a look-up found something."""
    if code != ITEM:
        _done(code)
    return code == ITEM


class Schema:
    """Tables of families: those that the library has, unless `built_in` is false, and those of these texts.

    It is used by one thread at a time, and is freed by `close`, or at the end of a `with`. A TableError if a text is no
    table. Once it is closed, and if memory runs out, a call raises a NetlinkError, whose `status` is a code of neli.h.
    """

    def __init__(self, *texts: str | neli._Bytes, built_in: bool = True):
        self._tables = _Tables()
        self._texts: list[bytes] = []
        opened = _lib.neli_c_tables_built_in if built_in else _lib.neli_c_tables_new
        _done(opened(ctypes.byref(self._tables)))
        for text in texts:
            self.add(text)

    def close(self) -> None:
        """Frees the tables; it may be closed again."""
        _lib.neli_c_tables_free(ctypes.byref(self._tables))

    def __enter__(self) -> Schema:
        return self

    def __exit__(self, *_: object) -> None:
        self.close()

    def __del__(self):
        if hasattr(self, "_tables"):
            self.close()

    def add(self, text: str | neli._Bytes) -> None:
        """Adds the table of a family behind the others; a TableError if it is none."""
        text = os.fsencode(text) if isinstance(text, str) else neli._bytes("text", text, "a text or bytes")
        self._texts.append(text)  # the library reads it in place
        line = ctypes.c_size_t()
        tables = ctypes.byref(self._tables)
        code, reason = _written(_lib.neli_c_tables_add, tables, text, len(text), ctypes.byref(line))
        if code == TABLE:
            raise TableError(line.value, reason)
        _done(code)

    def add_built_in(self, name: str | bytes) -> None:
        """Adds the table of one family that the library has, as "rt_link" (docs/TABLES.md), behind the others.

        A ValueError if none has the name. With `built_in=False` a Schema is open in a part of the time.
        """
        name = _encoded("name", name)
        code = _lib.neli_c_tables_add_built_in(ctypes.byref(self._tables), name, len(name))
        if code == KIND:
            raise ValueError(f"no table has the name {os.fsdecode(name)!r}")
        _done(code)

    def number_of(self, family: str | bytes, name: str | bytes, list_name: str | bytes = "") -> int | None:
        """The number of a name in the table of a family, as of "RTM_NEWLINK" in "rt-link"; None if it has none.

        It is that of a message or a group; or with a list, of a row of that: of an attribute in a set, a value in an
        enum or in flags, or the place of a field in a structure.
        """
        words, number = self._texts_of(family=family, list_name=list_name, name=name), ctypes.c_uint64()
        return number.value if _found(_lib.neli_c_number_of(*words, ctypes.byref(number))) else None

    def name_of(self, family: str | bytes, number: int, list_name: str | bytes = "") -> str | None:
        """The name of a number there: of a message to the kernel, or with a list of a row of that; None if it has none.

        A ValueError if the number does not fit 64 bits.
        """
        neli._fit(64, number=number)
        code, name = _written(_lib.neli_c_name_of, *self._texts_of(family=family, list_name=list_name), number)
        return name if _found(code) else None

    def message_name(self, message: neli.Message) -> str | None:
        """The name of a message, of generic netlink that of its command; None if no table has it."""
        code, name = _written(_lib.neli_c_message_name, *self._words(message))
        return name if _found(code) else None

    def _texts_of(self, **texts):
        """The tables, and texts with their lengths."""
        encoded = [_encoded(name, text) for name, text in texts.items()]
        return (ctypes.byref(self._tables), *(word for it in encoded for word in (it, len(it))))

    def learn(self, number: int, name: str | bytes) -> None:
        """Learns that the family of generic netlink with this name has this number; a ValueError past 16 bits."""
        neli._fit(16, number=number)
        name = _encoded("name", name)
        _done(_lib.neli_c_tables_learn(ctypes.byref(self._tables), number, name, len(name)))

    def _words(self, message):
        """What the calls on a message begin with."""
        if not isinstance(message, neli.Message):
            raise neli._wrong("message", message, "a Message")
        data, protocol = message._data, message.family or 0
        return ctypes.byref(self._tables), protocol, data, len(data), ctypes.byref(message._read)

    def learn_from(self, message: neli.Message) -> None:
        """Learns the number of the family that a message of the controller names; of any other nothing."""
        _done(_lib.neli_c_tables_learn_from(*self._words(message)))

    def to_json(self, message: neli.Message) -> str:
        """A message as one object of JSON, as `neli_show json` prints it."""
        code, text = _written(_lib.neli_c_message_json, *self._words(message))
        _done(code)
        return text

    def to_dict(self, message: neli.Message) -> dict[str, Any]:
        """A message as a dictionary."""
        return json.loads(self.to_json(message))

    def to_text(self, message: neli.Message) -> str:
        """A message as lines of text."""
        code, text = _written(_lib.neli_c_message_text, *self._words(message))
        _done(code)
        return text

    def datagram_json(self, data: neli._Bytes, family: int = neli.NETLINK_ROUTE) -> str:
        """The messages of a datagram as lines of JSON, and one more for the fault behind them, if there is one."""
        data = neli._bytes("data", data)
        neli._fit(16, family=family)
        words = ctypes.byref(self._tables), family, data, len(data)
        code, text = _written(_lib.neli_c_datagram_json, *words)
        _done(code)
        return text

    def dicts(self, data: neli._Bytes, family: int = neli.NETLINK_ROUTE) -> list[dict[str, Any]]:
        """The same as dictionaries."""
        return [json.loads(it) for it in self.datagram_json(data, family).split("\n") if it]

    def items(self, message: neli.Message) -> Iterator[tuple[str, int, bytes, Any]]:
        """The attributes of a message by name, those in nests behind the nest: `(path, kind, payload, value)` of each.

        A path has dots between the names, and `value` is what JSON has of the attribute. Without a table for the
        message there are none. A NetlinkError, whose `status` is SHORT, if its body is shorter than the structure
        before them. The message is walked once, so that the time grows with its length.
        """
        words, items, out = self._words(message), (_Named * 64)(), ctypes.create_string_buffer(4096)
        count, size, data = ctypes.c_size_t(), ctypes.c_size_t(), words[2]
        while True:
            rooms = items, len(items), ctypes.byref(count), out, len(out), ctypes.byref(size)
            code = _lib.neli_c_named_items(*words, *rooms)
            if code == KIND:
                return
            if code != ROOM:
                break
            items = (_Named * max(count.value, len(items)))()
            out = ctypes.create_string_buffer(max(size.value, len(out)))
        _done(code)
        text = out.raw
        for named in items[: count.value]:
            payload = data[named.payload : named.payload + named.payload_length]
            path = _part(text, named.path, named.path_length)
            yield path, named.kind, payload, json.loads(_part(text, named.value, named.value_length))

    def values(self, message: neli.Message) -> dict[str, Any]:
        """The values of a message's attributes by their paths, nests left out; the first of several with one path."""
        found: dict[str, Any] = {}
        for path, kind, _, value in self.items(message):
            if kind not in (KIND_NEST, KIND_HOPS, KIND_HOP, KIND_REST):
                found.setdefault(path, value)
        return found

    def check(self, message: neli.Message) -> str | None:
        """What is wrong with the first attribute that the kernel's parser of such a request refuses, or None.

        The table says which parser that is, the strict or the liberal one.
        """
        code, text = _written(_lib.neli_c_check, *self._words(message))
        if code not in (OK, VIOLATION):
            _done(code)
        return text if code == VIOLATION else None

    def check_as(self, message: neli.Message, validation: int) -> str | None:
        """The same by the parser that is named, LIBERAL or STRICT; a ValueError if it is neither."""
        neli._fit(31, validation=validation)
        tables, *words = self._words(message)
        code, text = _written(_lib.neli_c_check_as, tables, validation, *words)
        if code == KIND:
            raise ValueError(f"validation: {validation} is neither LIBERAL nor STRICT")
        if code not in (OK, VIOLATION):
            _done(code)
        return text if code == VIOLATION else None

    def write(self, message: dict[str, Any] | str | bytes, family: int = neli.NETLINK_ROUTE) -> bytes:
        """The message that a dictionary or a text of JSON is (docs/WRITING.md), its header and its payload.

        `{"name": "RTM_NEWLINK", "attributes": {"ifi_index": 3, "IFLA_MTU": 1500}}`. A WriteError, with the path of what
        is wrong, if it is none. Of generic netlink the number of the family has to be learnt before.
        """
        neli._fit(16, family=family)
        given = json.dumps(message) if isinstance(message, dict) else message
        given = _encoded("message", given)
        words = ctypes.byref(self._tables), family, given, len(given)
        code, data = _written_bytes(_lib.neli_c_write_json, *words)
        if code == VIOLATION:
            raise WriteError(_part(data, 0, len(data)))
        _done(code)
        return data

    def path_at(self, message: neli.Message, offset: int) -> str | None:
        """The path to the attribute at an offset of a message, or None."""
        neli._fit(64, offset=offset)
        code, path = _written(_lib.neli_c_path_at, *self._words(message), offset)
        if code not in (OK, ITEM):
            _done(code)
        return path if code == ITEM else None

    def refusal(self, message: neli.Message, code: int, text: str | bytes | None = "", offset: int | None = 0) -> str:
        """The kernel's refusal of a request in a line, which names the attribute; `code` is below 0.

        `text` and `offset` are those of a NetlinkError, which may be None. A ValueError if `code` does not fit 32 bits.
        """
        offset, text = 0 if offset is None else offset, b"" if text is None else _encoded("text", text)
        neli._fit(64, offset=offset)
        neli._fit_error("code", code)
        code, line = _written(_lib.neli_c_refusal_text, *self._words(message), code, text, len(text), offset)
        _done(code)
        return line

    def diagnosis(self, message: neli.Message, error: neli.NetlinkError) -> str:
        """The kernel's refusal of a request in a line, by all that its acknowledgement says.

        It names the attribute, with the value that was sent and what the kernel would take, or the one that is missing.
        """
        if not isinstance(error, neli.NetlinkError):
            raise neli._wrong("error", error, "a NetlinkError")
        said = b"".join(neli.nla(it.number, bytes(it.payload), it.is_nested) for it in error.attributes)
        code, line = _written(_lib.neli_c_diagnosis, *self._words(message), -error.code, said, len(said))
        _done(code)
        return line


class NamedSocket:
    """Requests by name over a NetlinkSocket: `do` and `dump` take the name of a message and what stands in it, and
    return the replies as dictionaries.

        with NamedSocket() as named:
            named.do("RTM_NEWLINK", {"ifi_index": 3, "IFLA_MTU": 1500})

    Without a socket it opens one of routing, and without a Schema one of the built-in tables. `socket` and `schema` are
    these. `close`, or the end of a `with`, closes what it has opened.
    """

    def __init__(self, socket: neli.NetlinkSocket | None = None, schema: Schema | None = None):
        self._opened: list[neli.NetlinkSocket | Schema] = []
        if socket is None:
            socket = neli.NetlinkSocket(neli.NETLINK_ROUTE)
            self._opened.append(socket)
        if schema is None:
            schema = Schema()
            self._opened.append(schema)
        self.socket, self.schema, self._has_families = socket, schema, False

    def close(self) -> None:
        """Closes what it has opened; it may be closed again."""
        for it in self._opened:
            it.close()

    def __enter__(self) -> NamedSocket:
        return self

    def __exit__(self, *_: object) -> None:
        self.close()

    def learn(self, name: str) -> None:
        """Has the kernel load a family of generic netlink, if it is a module, and learns its number.

        `do` and `dump` learn those that are loaded. A NetlinkError if there is none of this name.
        """
        request = self.write("CTRL_CMD_GETFAMILY", {"CTRL_ATTR_FAMILY_NAME": name})
        self._learn(self._done(request, 0))

    def _learn(self, messages):
        for it in messages:
            self.schema.learn_from(it)

    def write(self, name: str, attributes: dict[str, Any] | list[Any] | None = None) -> neli.Message:
        """The request of this name that `do` sends: fields and attributes by name, or the array of `neli_show json`.

        A WriteError, with the path of what is wrong, if it is none.
        """
        family, is_controller = self.socket.family, name.startswith("CTRL_CMD_")
        if family == neli.NETLINK_GENERIC and not self._has_families and not is_controller:
            self._learn(self._listed(self.write("CTRL_CMD_GETFAMILY"), 0, 5))
            self._has_families = True
        asked = {"name": name, "attributes": {} if attributes is None else attributes}
        return neli.messages(self.schema.write(asked, family), family)[0]

    def do(self, name: str, attributes: dict[str, Any] | list[Any] | None = None,
           flags: int = 0) -> list[dict[str, Any]]:
        """Sends a request with an acknowledgement and these flags, as NLM_F_CREATE, and returns the replies.

        Each is a dictionary, as `Schema.to_dict` has it. A NetlinkError if the kernel refuses, whose text is
        `Schema.diagnosis`: it names the attribute. A WriteError as of `write`.
        """
        return [self.schema.to_dict(it) for it in self._done(self.write(name, attributes), flags)]

    def dump(self, name: str, attributes: dict[str, Any] | list[Any] | None = None, flags: int = 0,
             times: int = 5) -> list[dict[str, Any]]:
        """The replies of a whole list, which is requested as by NetlinkSocket.dump; else as `do`."""
        return [self.schema.to_dict(it) for it in self._listed(self.write(name, attributes), flags, times)]

    def _done(self, request, flags):
        flags |= request.flags | neli.NLM_F_ACK
        return self._explained(request, self.socket.nlm_request, request.payload, request.type, flags)

    def _listed(self, request, flags, times):
        return self._explained(request, self.socket.dump, request.type, request.payload, flags, times)

    def _explained(self, request, call, *words):
        """What a call returns; the kernel's refusal has the diagnosis as its text."""
        try:
            return call(*words)
        except neli.NetlinkError as error:
            if error.status != neli.KERNEL_ERROR:
                raise
            line = self.schema.diagnosis(request, error)
            raise neli.NetlinkError(error.code, line, error.status, error.attributes) from error
