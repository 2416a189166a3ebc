"""An EtherNet/IP class 1 adapter or scanner for programs in Python.

A device has no socket, clock or thread in it. You give it one event at a time: bytes that a peer sent, time that passed,
what the application writes. It answers what is to be sent. The same events give the same answers, always.

    with Device(PROFILE) as device:
        device.stream(0, "192.168.1.20")
        answer = device.frame(0, register_session)
        for frame in answer.frames:
            ...

The devices are those of include/eip.h, in a shared library that tools/build/python_library builds. The modules here need the
standard library alone, and Python 3.9 or later. docs/PYTHON.md introduces it, docs/PROFILE.md has the rules of a device.
"""

from __future__ import annotations

import ctypes
import enum
import functools
import ipaddress
import os
import pathlib
import struct
import threading
import weakref
from dataclasses import dataclass, replace
from typing import Any, Callable, Optional, TypeVar, Union

from point_names import Names, read_names
from profile_lines import with_incarnation, with_unused_ids

Address = Union[str, int]
"""An IPv4 address: "192.168.1.10", or 0xC0A8010A. Answers have the first form."""

SomeDevice = TypeVar("SomeDevice", bound="Device")

# NUMBERS


class Status(enum.IntEnum):
    """The outcome of a call, by its number in include/eip.h."""

    DONE = 0
    REFUSED_NO_MEMORY = 1
    """An allocation was refused, and nothing changed."""
    TICK_TOO_LONG = 2
    """A tick of more than 60,000 ms."""
    CLOCK_END = 3
    """The clock would pass its end, 2^48 ms."""
    NO_SUCH_POINT = 4
    """No point of this number can be read or written."""
    WRONG_LENGTH = 5
    """The number of bytes is not the point's."""
    NO_SUCH_SLOT = 6
    NOT_ALLOWED_NOW = 7
    """The event does not fit this kind of device, or its present state."""
    KEPT_NO_ROOM = 8
    """The answer needs more room. This module asks again: you see it only in AnswerKept."""
    NO_ANSWER = 10
    """The device keeps no answer."""
    BAD_LINE = 11
    BAD_PROFILE = 12
    NO_INQUIRY = 13
    """The message is no inquiry, and nothing is to be sent."""
    LONG_NAME = 14
    """The name has more than 32 bytes."""
    NO_CONNECTION = 15
    """There is none. This module answers None."""
    NULL = 20
    """The device is closed."""

    @property
    def sentence(self) -> str:
        """What it says, in the words that a station has for it."""
        return _SENTENCES.get(self, self.name)


_SENTENCES = {
    Status.REFUSED_NO_MEMORY: "no memory",
    Status.TICK_TOO_LONG: "a tick of more than 60000 ms",
    Status.CLOCK_END: "the clock is at its end",
    Status.NO_SUCH_POINT: "no such point",
    Status.WRONG_LENGTH: "not the point's length",
    Status.NO_SUCH_SLOT: "no such slot",
    Status.NOT_ALLOWED_NOW: "not allowed now",
    Status.LONG_NAME: "a name has 0 to 32 bytes",
}


# (looked up at every event, so they are plain numbers)
_DONE, _NO_ROOM = int(Status.DONE), int(Status.KEPT_NO_ROOM)


class Delivery(enum.IntEnum):
    """What a device did with a datagram (docs/PROFILE.md, section 10). Up to DUPLICATE it is accepted."""

    APPLIED = 0
    """Its run-mode data is applied to the output."""
    IDLE = 1
    """It is in idle mode, and the output takes its idle action."""
    HEARTBEAT = 2
    """Its connection has no O->T data."""
    DUPLICATE = 3
    """Its sequence count repeats that of the last accepted one. A message of a class 3 connection is not executed again."""
    OLD = 4
    """Its sequence number is not newer than the last accepted one."""
    UNKNOWN_ID = 5
    """No established connection of the peer, or of the stream, has its connection id."""
    WRONG_SIZE = 6
    """Its size is not the connection's. A message is longer than its connection's."""
    MALFORMED = 7
    """Its bytes are no datagram."""

    @property
    def is_accepted(self) -> bool:
        """Whether the datagram feeds the watchdog of its connection."""
        return self <= Delivery.DUPLICATE


class Verdict(enum.IntEnum):
    """What a device says of an event."""

    DONE = 1
    BAD_FRAME = 2
    """Too few bytes to be answered, or a wrong length where there is no reply."""
    IGNORED = 3
    """A message that the scanner does not expect."""
    DELIVERED = 5
    """A message of a class 3 connection that is not executed: `Answer.delivery`."""
    REPLIED = 6
    """The reply of a target to an explicit request: `Answer.reply`."""
    ASKED = 8
    """A request that the application is to answer: `Answer.asked`."""


class NoticeKind(enum.IntEnum):
    """What a notice reports."""

    OPENED = 48
    CLOSED = 49
    EXPIRED = 50
    DROPPED = 51
    """A listen-only connection that nothing supports any more, or one of class 3 whose stream ended."""
    REPLACED = 52
    """A timed-out connection whose place was needed."""
    STREAM_CLOSED = 53
    """The stream is to be closed, after its frames."""
    SLOT = 54
    """A slot has another state."""
    NO_IDS = 55
    """A slot needs an id, and none is left."""
    RESET = 56
    """A peer requests a reset."""
    REFUSED_ENCAP = 64
    """The reply has an encapsulation status."""
    UNREADABLE = 65
    """No readable reply."""
    REFUSED = 66
    """The target refused."""
    OTHER_TRIAD = 67
    """A reply for another connection."""
    OTHER_ID = 68
    """Another T->O id than was requested, or one in use."""
    OTHER_API = 69
    """An actual packet interval out of range."""
    MISMATCH = 70
    """A status that another field of the reply contradicts."""
    NO_REPLY_TIMED_OUT = 72
    """An explicit request was not answered in time."""
    NO_REPLY_LOST = 73
    """The stream of an explicit request ended."""
    NO_REPLY_ENCAP = 74
    """The answer to an explicit request has an encapsulation status."""
    NO_REPLY_UNREADABLE = 75
    """The answer to an explicit request holds no readable reply."""


class SlotState(enum.IntEnum):
    """The state of a scanner's slot (docs/PROFILE.md, rule 16.1)."""

    IDLE = 0
    OPENING = 2
    ESTABLISHED = 3
    TIMED_OUT = 4
    CLOSING = 6


class ConnectionKind(enum.IntEnum):
    """The kind of a connection, by its use of the application's points (docs/PROFILE.md, rule 7.2)."""

    EXCLUSIVE_OWNER = 1
    """It drives an output, and no other connection does."""
    INPUT_ONLY = 2
    """It consumes an input, and has no O->T data."""
    LISTEN_ONLY = 3
    """The same, as long as another connection of the input supports it."""


class Mode(enum.IntEnum):
    """The mode of an originator, by the run/idle header of its newest data (docs/PROFILE.md, section 10)."""

    IDLE = 1
    """The output took its idle action."""
    RUN = 2
    """The output took the data."""


class ProfileFault(enum.IntEnum):
    """What is wrong with a profile whose lines all read (docs/PROFILE.md, sections 3 and 15)."""

    INCARNATION = 1
    ADDRESS = 2
    POINTS = 3
    SAME_INSTANCE = 4
    LENGTH = 5
    TIMING = 6
    IDENTITY = 7
    DESCRIPTION = 8
    LIMITS = 9
    OBJECTS = 10
    """The classes of the maker's own objects."""

    @property
    def sentence(self) -> str:
        """What it says, in the words that a station has for it."""
        return _PROFILE_SENTENCES[self]


_PROFILE_SENTENCES = {
    ProfileFault.INCARNATION: "the incarnation is 0, or the ids are out of range",
    ProfileFault.ADDRESS: "the address or its mask is none",
    ProfileFault.POINTS: "no input, or more than 8 inputs or outputs",
    ProfileFault.SAME_INSTANCE: "two points have one instance",
    ProfileFault.LENGTH: "a point's length is out of range",
    ProfileFault.TIMING: "a time is out of range",
    ProfileFault.IDENTITY: "the revision is out of range",
    ProfileFault.DESCRIPTION: "the description is out of range",
    ProfileFault.LIMITS: "a limit of the maker's is out of range",
    ProfileFault.OBJECTS: "a class of the maker's own is out of range",
}


# ERRORS


class EipError(Exception):
    """A call that gave no answer, with the status that says why."""

    def __init__(self, status: Status, text: str) -> None:
        super().__init__(text)
        self.status = status


class Refused(EipError):
    """The device refused the event, and is unchanged. Making one: there is no device."""

    def __init__(self, status: Status, text: str = "") -> None:
        super().__init__(status, text or status.sentence)


class OtherLife(Refused):
    """The request that is answered was made to another life of the device, which has numbered its requests anew."""

    def __init__(self, number: int, life: int, now: int) -> None:
        super().__init__(Status.NOT_ALLOWED_NOW, f"request {number} is of life {life}, and the device is in life {now}")
        self.life = life
        """The life of the request."""


class AnswerKept(EipError):
    """The event was performed, but Python had no memory for its answer. The device keeps it: call `Device.answer`."""

    def __init__(self) -> None:
        super().__init__(Status.KEPT_NO_ROOM, "the answer is kept")


class NoAnswer(EipError):
    """The device keeps no answer yet."""

    def __init__(self) -> None:
        super().__init__(Status.NO_ANSWER, "no answer is kept")


class BadLine(EipError):
    """A line of the profile does not read."""

    def __init__(self, line: int) -> None:
        super().__init__(Status.BAD_LINE, f"bad line {line}")
        self.line = line
        """The number of the first such line, from 1."""


class BadProfile(EipError):
    """Every line reads, and the profile has a fault."""

    def __init__(self, fault: ProfileFault) -> None:
        super().__init__(Status.BAD_PROFILE, f"bad profile {int(fault)}: {fault.sentence}")
        self.fault = fault


class DeviceClosed(EipError):
    """The device was closed before the call."""

    def __init__(self) -> None:
        super().__init__(Status.NULL, "the device is closed")


class LibraryMissing(Exception):
    """There is no shared library, or it is another one."""


# ANSWERS


@dataclass(frozen=True)
class Frame:
    """Bytes to send over a stream."""

    stream: int
    data: bytes


@dataclass(frozen=True)
class Reply:
    """The reply to the request or inquiry of a node."""

    node: str
    data: bytes


@dataclass(frozen=True)
class Datagram:
    """A datagram to send."""

    address: str
    """Where it is sent. This may be a multicast address."""
    nodes: tuple[str, ...]
    """The nodes that consume it. A network without groups sends a copy to each."""
    data: bytes
    life: int = 1
    """The life of the device that sends it."""


@dataclass(frozen=True)
class ConnectionNotice:
    """What became of a connection: OPENED, CLOSED, EXPIRED, DROPPED or REPLACED."""

    kind: NoticeKind
    serial: int
    vendor: int
    originator: int
    """The serial number of the originator."""
    o_t_id: Optional[int] = None
    """The O->T connection id of OPENED."""


@dataclass(frozen=True)
class StreamNotice:
    """STREAM_CLOSED: close this stream after its frames."""

    kind: NoticeKind
    stream: int


@dataclass(frozen=True)
class SlotNotice:
    """SLOT: a slot is now in this state. NO_IDS: it needs an id, and none is left."""

    kind: NoticeKind
    slot: int
    state: Optional[SlotState] = None
    """The state of SLOT."""


@dataclass(frozen=True)
class ResetNotice:
    """RESET: a peer requests a reset. The device does nothing: make a new one, with the next incarnation."""

    kind: NoticeKind
    type: int
    """0: as a power cycle; 1: to the settings of the factory too."""


@dataclass(frozen=True)
class RefusalNotice:
    """A reply did not open the connection of a slot: REFUSED_ENCAP to MISMATCH."""

    kind: NoticeKind
    slot: int
    status: Optional[int] = None
    """The encapsulation status of REFUSED_ENCAP, the general status of REFUSED and MISMATCH."""
    extended: Optional[int] = None
    """The extended status of REFUSED and MISMATCH, if the reply has one."""


@dataclass(frozen=True)
class UnansweredNotice:
    """An explicit request has no reply, and will have none: NO_REPLY_TIMED_OUT to NO_REPLY_UNREADABLE."""

    kind: NoticeKind
    number: int
    """The number that you gave the request."""
    status: Optional[int] = None
    """The encapsulation status of NO_REPLY_ENCAP."""


Notice = Union[ConnectionNotice, StreamNotice, SlotNotice, ResetNotice, RefusalNotice, UnansweredNotice]
Item = Union[Frame, Reply, Datagram, Notice]


@dataclass(frozen=True)
class ExplicitReply:
    """The reply of a target to an explicit request, a refusal too."""

    number: int
    """The number that you gave the request."""
    status: int
    """The general status; 0 is a success."""
    additional: bytes
    """The additional status, two bytes a word."""
    data: bytes


@dataclass(frozen=True)
class AskedRequest:
    """A request to an object of the maker's own: answer it by `Device.respond`, within 10,000 ms."""

    number: int
    """The number that the device gave the request."""
    service: int
    """The service code."""
    class_id: int
    """The class, which a line `object` of the profile names."""
    instance: int
    attribute: Optional[int]
    """None if the path has none."""
    data: bytes
    life: int = 1
    """The life of the device to which it was made."""


@dataclass(frozen=True)
class Answer:
    """What a device answers to an event: its verdict, and what is to be sent and what changed, in this order. `frames`,
    `replies`, `datagrams` and `notices` are the items of one kind."""

    verdict: Verdict
    items: tuple[Item, ...] = ()
    """What is to be sent, frames and replies first and then datagrams, and then the notices."""
    reply: Optional[ExplicitReply] = None
    """The reply of a target, if the verdict is REPLIED."""
    asked: Optional[AskedRequest] = None
    """The request that the application is to answer, if the verdict is ASKED."""
    delivery: Optional[Delivery] = None
    """DUPLICATE, UNKNOWN_ID or WRONG_SIZE, if the verdict is DELIVERED."""
    life: int = 1
    """The life of the device that answers (`Device.life`)."""

    @property
    def frames(self) -> tuple[Frame, ...]:
        return tuple(it for it in self.items if isinstance(it, Frame))

    @property
    def replies(self) -> tuple[Reply, ...]:
        return tuple(it for it in self.items if isinstance(it, Reply))

    @property
    def datagrams(self) -> tuple[Datagram, ...]:
        return tuple(it for it in self.items if isinstance(it, Datagram))

    @property
    def notices(self) -> tuple[Notice, ...]:
        return tuple(it for it in self.items if not isinstance(it, (Frame, Reply, Datagram)))

    @property
    def is_plain(self) -> bool:
        """Whether it has a verdict alone."""
        return not (self.items or self.reply or self.asked or self.delivery is not None)


@dataclass(frozen=True)
class TimedAnswer:
    """An answer of a tick, with the time of the device behind it."""

    at_ms: int
    answer: Answer


# STATES


@dataclass(frozen=True)
class Connection:
    """What an adapter knows of a connection. Intervals are the actual ones."""

    peer: str
    """The originator."""
    kind: ConnectionKind
    consumed: int
    """The output, or the heartbeat, that it drives."""
    produced: int
    """The input that it consumes."""
    o_t_api_ms: int
    """From originator to target."""
    t_o_api_ms: int
    """From target to originator."""
    mode: Optional[Mode]
    """The mode of its newest data. None before the first datagram, and without O->T data."""
    is_established: bool
    """Whether it has not timed out."""
    has_accepted: bool
    """Whether it has accepted a datagram."""
    age_ms: int
    """The time since it accepted the newest one, or since its opening before the first one."""


@dataclass(frozen=True)
class Slot:
    """What a scanner knows of a slot. All but the state is None unless that is ESTABLISHED."""

    state: SlotState
    o_t_api_ms: Optional[int] = None
    """The actual packet interval from scanner to target."""
    t_o_api_ms: Optional[int] = None
    """The actual packet interval from target to scanner."""
    has_accepted: Optional[bool] = None
    """Whether a datagram of the target was accepted."""
    age_ms: Optional[int] = None
    """The time since the newest one, or since the opening before the first one."""


_HEAD = struct.Struct("<IIIIIQ")
_DELIVERED, _REPLIED, _ADDITIONAL, _ASKED, _ASKED_PATH = 5, 6, 7, 8, 9
_FRAME, _REPLY, _DATAGRAM, _CONSUMER = 16, 17, 32, 33
_VERDICTS = {int(verdict): verdict for verdict in Verdict}
_NOTICES = {int(kind): kind for kind in NoticeKind}
_DELIVERIES = tuple(Delivery)
_HEAD_SIZE = _HEAD.size


def _notice(kind: NoticeKind, a: int, b: int, c: int, d: int) -> Notice:
    """A notice of the four numbers of its item."""
    if kind <= NoticeKind.REPLACED:
        return ConnectionNotice(kind, a, b, c, d if kind == NoticeKind.OPENED else None)
    if kind == NoticeKind.STREAM_CLOSED:
        return StreamNotice(kind, a)
    if kind == NoticeKind.SLOT:
        return SlotNotice(kind, a, SlotState(b))
    if kind == NoticeKind.NO_IDS:
        return SlotNotice(kind, a)
    if kind == NoticeKind.RESET:
        return ResetNotice(kind, a)
    if kind == NoticeKind.REFUSED_ENCAP:
        return RefusalNotice(kind, a, b)
    if kind in (NoticeKind.REFUSED, NoticeKind.MISMATCH):
        return RefusalNotice(kind, a, b, d if c else None)
    if kind == NoticeKind.NO_REPLY_ENCAP:
        return UnansweredNotice(kind, a, b)
    if kind >= NoticeKind.NO_REPLY_TIMED_OUT:
        return UnansweredNotice(kind, a)
    return RefusalNotice(kind, a)


def _consumed(datagram: Item, nodes: list[str]) -> Item:
    """A datagram that these nodes consume."""
    return replace(datagram, nodes=tuple(nodes)) if isinstance(datagram, Datagram) else datagram


def read_answer(raw: bytes, life: int = 1) -> Answer:
    """Reads the bytes of an answer of this life: the items that include/eip.h describes."""
    verdict = Verdict.DONE
    reply: Optional[ExplicitReply] = None
    asked: Optional[AskedRequest] = None
    delivery: Optional[Delivery] = None
    items: list[Item] = []
    nodes: list[str] = []
    at = 0
    while at < len(raw):
        kind, a, b, c, d, size = _HEAD.unpack_from(raw, at)
        at += _HEAD_SIZE
        data = raw[at : at + size]
        at += size
        if kind == _CONSUMER:
            nodes.append(node_text(a))
            continue
        if nodes:
            items[-1] = _consumed(items[-1], nodes)
            nodes = []
        if kind == _DATAGRAM:
            items.append(Datagram(node_text(a), (), data, life))
        elif kind == _FRAME:
            items.append(Frame(a, data))
        elif kind == _REPLY:
            items.append(Reply(node_text(a), data))
        elif kind == _ADDITIONAL and reply:
            reply = replace(reply, additional=data)
        elif kind == _ASKED_PATH and asked:
            asked = replace(asked, class_id=a, instance=b, attribute=d if c else None)
        elif kind in _VERDICTS:
            verdict = _VERDICTS[kind]
            if kind == _REPLIED:
                reply = ExplicitReply(a, b, b"", data)
            if kind == _ASKED:
                asked = AskedRequest(a | b << 32, c, 0, 0, None, data, life)
            if kind == _DELIVERED:
                delivery = _DELIVERIES[a]
        else:
            items.append(_notice(_NOTICES[kind], a, b, c, d))
    if nodes:
        items[-1] = _consumed(items[-1], nodes)
    return Answer(verdict, tuple(items), reply, asked, delivery, life)


# ADDRESSES


@functools.lru_cache(maxsize=4096)
def node_text(node: int) -> str:
    """The address of a number: 0xC0A8010A is "192.168.1.10"."""
    return str(ipaddress.IPv4Address(node))


@functools.lru_cache(maxsize=4096)
def node_number(node: Address) -> int:
    """The number of an address: "192.168.1.10" is 0xC0A8010A."""
    return int(ipaddress.IPv4Address(node))


# THE LIBRARY


class _Handle(ctypes.Structure):
    """eip_device: one pointer."""

    _fields_ = [("at", ctypes.c_void_p)]


class _Identity(ctypes.Structure):
    """eip_identity."""

    _fields_ = [
        ("address", ctypes.c_uint32), ("serial", ctypes.c_uint32), ("port", ctypes.c_uint16), ("vendor", ctypes.c_uint16),
        ("device_type", ctypes.c_uint16), ("product", ctypes.c_uint16), ("status", ctypes.c_uint16),
        ("major", ctypes.c_uint8), ("minor", ctypes.c_uint8), ("state", ctypes.c_uint8), ("name", ctypes.c_char_p),
    ]  # fmt: skip


class _Connection(ctypes.Structure):
    """eip_connection_state."""

    _fields_ = [("age_ms", ctypes.c_uint64)] + [
        (name, ctypes.c_uint32)
        for name in ("peer", "kind", "consumed", "produced", "o_t_api_ms", "t_o_api_ms", "mode", "established", "accepted")
    ]

    def read(self) -> Connection:
        """What it says."""
        return Connection(
            node_text(self.peer), ConnectionKind(self.kind), self.consumed, self.produced, self.o_t_api_ms, self.t_o_api_ms,
            Mode(self.mode) if self.mode else None, bool(self.established), bool(self.accepted), self.age_ms,
        )  # fmt: skip


class _Slot(ctypes.Structure):
    """eip_slot_report."""

    _fields_ = [("age_ms", ctypes.c_uint64)] + [
        (name, ctypes.c_uint32) for name in ("state", "o_t_api_ms", "t_o_api_ms", "accepted")
    ]

    def read(self) -> Slot:
        """What it says."""
        if self.state != SlotState.ESTABLISHED:
            return Slot(SlotState(self.state))
        return Slot(SlotState.ESTABLISHED, self.o_t_api_ms, self.t_o_api_ms, bool(self.accepted), self.age_ms)


_AT = ctypes.POINTER(_Handle)
_SIZE = ctypes.POINTER(ctypes.c_size_t)
_BYTES = [ctypes.c_char_p, ctypes.c_size_t]
_OUT = [ctypes.c_char_p, ctypes.c_size_t, _SIZE]
_U16, _U32 = ctypes.c_uint16, ctypes.c_uint32
_FUNCTIONS: dict[str, list[Any]] = {
    "new": [*_BYTES, _AT, ctypes.POINTER(ctypes.c_uint64)],
    "answer": [_AT, *_OUT],
    "request": [_AT, _U32, *_BYTES, *_OUT],
    "stream": [_AT, _U16, _U32, *_OUT],
    "frame": [_AT, _U16, *_BYTES, *_OUT],
    "cut": [_AT, _U16, *_OUT],
    "datagram": [_AT, _U32, *_BYTES],
    "inquire": [_AT, _U32, *_BYTES, *_OUT],
    "explicit": [_AT, _U32, _U32, *_BYTES, *_OUT],
    "respond": [_AT, ctypes.c_uint64, ctypes.c_uint8, *_BYTES, *_OUT],
    "counters": [_AT, *_BYTES, *_OUT],
    "ids": [_AT, _U32, _U32, *_OUT],
    "ids_left": [_AT],
    "write": [_AT, _U32, *_BYTES, *_OUT],
    "read": [_AT, _U32, *_OUT],
    "tick": [_AT, _U32, *_OUT],
    "next_wake": [_AT],
    "owner": [_AT, _U32, ctypes.POINTER(_Connection)],
    "connection": [_AT, _U32, ctypes.POINTER(_Connection)],
    "slot": [_AT, _U32, ctypes.POINTER(_Slot)],
    "mode": [_AT, ctypes.c_bool, *_OUT],
    "start": [_AT, _U32, *_OUT],
    "stop": [_AT, _U32, *_OUT],
    "inquiry": [ctypes.POINTER(_Identity), *_BYTES, *_BYTES, *_OUT],
}


def library_path() -> pathlib.Path:
    """Where the shared library is: the file that EIP_LIBRARY names; that of the wheel, beside this module; or out/libeip.so of
    this repository."""
    named = os.environ.get("EIP_LIBRARY")
    here = pathlib.Path(__file__).resolve().parent
    of_the_wheel = here / "eip.libs" / "libeip.so"
    if named or of_the_wheel.exists():
        return pathlib.Path(named or of_the_wheel)
    return here.parent / "out" / "libeip.so"


@functools.lru_cache(maxsize=None)
def _library() -> ctypes.CDLL:
    """The shared library, which is loaded once."""
    path = library_path()
    try:
        loaded = ctypes.CDLL(str(path))
        for name, types in _FUNCTIONS.items():
            function = getattr(loaded, f"eip_c_{name}")
            function.argtypes = types
            function.restype = ctypes.c_uint32
        loaded.eip_c_free.argtypes = [_Handle]
        loaded.eip_c_free.restype = None
    except (OSError, AttributeError) as fault:
        raise LibraryMissing(f"{path}: {fault}: run tools/build/python_library, or set EIP_LIBRARY") from fault
    return loaded


def _number(value: int, most: int, what: str) -> int:
    """A number that its C type can hold. ctypes would cut off what is too much."""
    if not isinstance(value, int):
        raise TypeError(f"{what} {value!r} is no whole number")
    if not 0 <= value <= most:
        raise ValueError(f"{what} {value} is not within 0 to {most}")
    return value


def _no_bytes(data: object) -> TypeError:
    """The error of a call to which something else than bytes is given."""
    return TypeError(f"{data!r} has the type {type(data).__name__}, and data are bytes")


# DEVICES


class Device:
    """An adapter or a scanner.

    Its profile has the lines that begin a trace (docs/PROFILE.md, section 14). Each line ends with a line feed. Lines of
    events may follow; they are read, and not performed.

    Each event is one call. It answers an `Answer`, or raises `Refused` and changes nothing. Reads and datagrams answer
    a value of their own.

    A device is closed by `close`, at the end of a `with`, or when nothing refers to it any more. Threads may share a
    device: it performs one call at a time.
    """

    def __init__(self, profile: Union[str, bytes], room: int = 4096) -> None:
        """Makes a device from a profile. Raises BadLine, BadProfile or Refused.

        `room` is how many bytes an answer may have before the device has to be asked twice for it.
        """
        text = profile.encode() if isinstance(profile, str) else bytes(profile)
        self._calls: Any = _library()
        self._lock = threading.Lock()
        self._handle = _Handle()
        self._at = ctypes.byref(self._handle)
        self._size = ctypes.c_size_t()
        self._count = ctypes.byref(self._size)
        self._room = ctypes.create_string_buffer(max(room, 1))
        self._length = room
        self._now_ms = 0
        self._text = text
        self._further_ids = 0
        self.life = 1
        number = ctypes.c_uint64()
        status = self._calls.eip_c_new(text, len(text), self._at, ctypes.byref(number))
        if status == Status.BAD_LINE:
            raise BadLine(number.value)
        if status == Status.BAD_PROFILE:
            raise BadProfile(ProfileFault(number.value))
        if status != Status.DONE:
            raise Refused(Status(status))
        self._finalizer = weakref.finalize(self, self._calls.eip_c_free, self._handle)
        # (at the end of the program a thread may still be within a call)
        self._finalizer.atexit = False
        self._is_open = True
        first = next(line.split() for line in text.split(b"\n") if line and not line.startswith(b"#"))
        self.is_scanner: bool = first[0] == b"scanner"
        self.incarnation: int = int(first[1])
        """The incarnation of its profile: the first byte of each connection id that it gives, unless the profile states its ids."""
        self.node: str = first[2].decode()
        """The device's own address, as its profile has it."""
        self.names: Names = read_names(text)
        """The names of points, slots and bits that the comments of its profile say."""

    @classmethod
    def from_file(cls: type[SomeDevice], path: Union[str, os.PathLike[str]]) -> SomeDevice:
        """Makes a device from the profile in a file."""
        return cls(pathlib.Path(path).read_text(encoding="utf-8"))

    # Lives

    @property
    def life(self) -> int:
        """Which life of its device this is: 1, unless another one has begun in its place. Each answer says it.

        Whoever puts a new device in the place of another one counts it on, as `plant.Member.restart` does.
        """
        return self._life

    @life.setter
    def life(self, life: int) -> None:
        if life < 1:
            raise ValueError(f"life {life} is none: the first one is 1")
        self._life = _number(life, 0xFFFFFFFF, "life")
        self._plain = Answer(Verdict.DONE, life=life)

    def next_life(self: SomeDevice, same: bool = False) -> SomeDevice:
        """Another device of its profile, as it begins behind a restart: with the next incarnation, and with ids that were not given.

        With `same` it has those of this life again, as a device has that does not count its starts. What puts it in the place of this
        one is `plant.Member.restart`, or the caller. The profile has no events.
        """
        profile = self._text.decode("latin-1")
        if not same:
            # (the ids of the profile are given first)
            left = max(self.ids_left() - self._further_ids, 0)
            profile = with_unused_ids(with_incarnation(profile, self.incarnation % 255 + 1), left)
        return type(self)(profile.encode("latin-1"), self._length)

    # Closing

    def close(self) -> None:
        """Frees the device. Each later event raises DeviceClosed. Closing again does nothing."""
        with self._lock:
            self._is_open = False
            self._finalizer()
            # (a closed device may be kept for its record)
            self._room = ctypes.create_string_buffer(1)

    @property
    def is_closed(self) -> bool:
        """Whether the device is closed."""
        return not self._is_open

    def __enter__(self) -> Device:
        return self

    def __exit__(self, *_fault: object) -> None:
        self.close()

    def __reduce__(self) -> Any:
        raise TypeError("a device is not copied: make another one, and give it the same events")

    def __repr__(self) -> str:
        kind = "scanner" if self.is_scanner else "adapter"
        return f"<{kind} {self.node} at {self._now_ms} ms{', closed' if self.is_closed else ''}>"

    # Messages

    def request(self, peer: Address, data: bytes) -> Answer:
        """A peer sends a request to the message router. Its reply is in `replies`. A scanner refuses it."""
        return self._event(self._calls.eip_c_request, node_number(peer), data, len(data))

    def stream(self, stream: int, peer: Address) -> Answer:
        """A peer opens a stream (TCP), to which you give a number. Refused if that is in use, or 16 are open."""
        return self._event(self._calls.eip_c_stream, _number(stream, 0xFFFF, "stream"), node_number(peer))

    def frame(self, stream: int, data: bytes) -> Answer:
        """A stream brings one encapsulation message: its header of 24 bytes, and as many as the header says."""
        return self._event(self._calls.eip_c_frame, _number(stream, 0xFFFF, "stream"), data, len(data))

    def cut(self, stream: int) -> Answer:
        """A stream breaks, or its peer closes it."""
        return self._event(self._calls.eip_c_cut, _number(stream, 0xFFFF, "stream"))

    def datagram(self, peer: Address, data: bytes) -> Delivery:
        """A peer sends a class 1 datagram (UDP). The answer that is kept stays."""
        node = node_number(peer)
        with self._lock:
            if not self._is_open:
                raise DeviceClosed
            try:
                delivery: int = self._calls.eip_c_datagram(self._at, node, data, len(data))
            except ctypes.ArgumentError:
                raise _no_bytes(data) from None
            return _DELIVERIES[delivery]

    def inquire(self, peer: Address, data: bytes) -> Answer:
        """A peer sends an encapsulation message over no stream: a datagram at the encapsulation port, 44818.

        If the profile has a line describe, the reply to ListServices, ListIdentity or ListInterfaces is in `replies`.
        """
        return self._event(self._calls.eip_c_inquire, node_number(peer), data, len(data))

    def explicit(self, target: Address, number: int, data: bytes) -> Answer:
        """Has a scanner send a message router request to a target: service, path words, path, data.

        The number is your own. `reply` of a later answer has it, or an UnansweredNotice. Refused without a registered session
        with the target, while 16 requests wait, and if one that waits has the number.
        """
        number = _number(number, 0xFFFFFFFF, "number")
        return self._event(self._calls.eip_c_explicit, node_number(target), number, data, len(data))

    def respond(self, request: Union[int, AskedRequest], status: int = 0, data: bytes = b"") -> Answer:
        """Answers the request of `Answer.asked`, or that of this number: a general status, 0 for success, and the data of the reply.

        What is to be sent is in `frames`, or in `replies` if the request came without a stream. Refused if no request of this
        number waits, as 10,000 ms after it came, and with more than 1,400 bytes. Raises OtherLife for a request to another life;
        a number alone does not say its life.
        """
        number = self._requested(request)
        return self._event(self._calls.eip_c_respond, number, _number(status, 0xFF, "status"), data, len(data))

    def _requested(self, request: Union[int, AskedRequest]) -> int:
        """The number of a request to this life."""
        if not isinstance(request, AskedRequest):
            return _number(request, 0xFFFFFFFFFFFFFFFF, "number")
        if request.life != self.life:
            raise OtherLife(request.number, request.life, self.life)
        return request.number

    def counters(self, data: bytes) -> Answer:
        """The host says what it has counted of the interface of a described adapter: 92 bytes, eleven numbers of the interface and
        twelve of its medium. Attributes 4 and 5 of its Ethernet Link object read them; before the first call they are zeros.
        """
        return self._event(self._calls.eip_c_counters, data, len(data))

    # Connection ids

    def ids(self, first: int, count: int) -> Answer:
        """Gives the device a further block of connection ids, for when those that it has are used up.

        Refused if the device has one of them already, if the first is 0, if the last is above 2**32 - 1, and if the device holds 64
        blocks. A block that begins where the last one ends continues that one.
        """
        first, count = _number(first, 0xFFFFFFFF, "first id"), _number(count, 0xFFFFFFFF, "number of ids")
        answer = self._event(self._calls.eip_c_ids, first, count)
        self._further_ids += count
        return answer

    def ids_left(self) -> int:
        """How many connection ids the device has left."""
        with self._lock:
            if not self._is_open:
                raise DeviceClosed
            left: int = self._calls.eip_c_ids_left(self._at)
            return left

    # Points

    def write(self, point: int, data: bytes) -> Answer:
        """The application sets the value of an adapter's input, or of the output of a scanner's slot."""
        return self._event(self._calls.eip_c_write, _number(point, 0xFFFFFFFF, "point"), data, len(data))

    def read(self, point: int) -> bytes:
        """The value of an adapter's point, or of the image of a scanner's slot. Changes nothing."""
        _number(point, 0xFFFFFFFF, "point")
        with self._lock:
            if not self._is_open:
                raise DeviceClosed
            room, length = self._room, self._length
            status = self._calls.eip_c_read(self._at, point, room, length, self._count)
            if status == Status.KEPT_NO_ROOM:
                length = self._size.value
                room = ctypes.create_string_buffer(length)
                status = self._calls.eip_c_read(self._at, point, room, length, self._count)
            if status != Status.DONE:
                raise Refused(Status(status))
            return ctypes.string_at(room, self._size.value)

    # States

    def owner(self, output: int) -> Optional[Connection]:
        """The owner of an adapter's output. None if no connection owns it, and at a scanner. Changes nothing."""
        return self._connection(self._calls.eip_c_owner, _number(output, 0xFFFFFFFF, "output"))

    def connection(self, place: int) -> Optional[Connection]:
        """The connection of an adapter at a place of the order of the openings, from 0 on, timed-out ones included.

        None behind the last one, and at a scanner. Changes nothing.
        """
        return self._connection(self._calls.eip_c_connection, _number(place, 0xFFFFFFFF, "place"))

    def slot(self, number: int) -> Slot:
        """The state of a scanner's slot. Refused with NO_SUCH_SLOT, and at an adapter. Changes nothing."""
        _number(number, 0xFFFFFFFF, "slot")
        found = _Slot()
        with self._lock:
            if not self._is_open:
                raise DeviceClosed
            status = self._calls.eip_c_slot(self._at, number, ctypes.byref(found))
        if status != Status.DONE:
            raise Refused(Status(status))
        return found.read()

    def _connection(self, call: Callable[..., int], number: int) -> Optional[Connection]:
        """What a call writes of a connection, if there is one."""
        found = _Connection()
        with self._lock:
            if not self._is_open:
                raise DeviceClosed
            status = call(self._at, number, ctypes.byref(found))
        return found.read() if status == Status.DONE else None

    # The application of a scanner

    def mode(self, run: bool) -> Answer:
        """The application of a scanner starts to run, or becomes idle."""
        return self._event(self._calls.eip_c_mode, run)

    def start(self, slot: int) -> Answer:
        """A scanner opens the connection of a slot, and keeps it open."""
        return self._event(self._calls.eip_c_start, _number(slot, 0xFFFFFFFF, "slot"))

    def stop(self, slot: int) -> Answer:
        """A scanner closes the connection of a slot."""
        return self._event(self._calls.eip_c_stop, _number(slot, 0xFFFFFFFF, "slot"))

    # Time

    @property
    def now_ms(self) -> int:
        """How many milliseconds have passed at the device: the sum of its ticks."""
        return self._now_ms

    def tick(self, ms: int) -> Answer:
        """Milliseconds pass, at most 60,000. Watchdogs expire and cyclic data are sent in a tick, and at no other time."""
        return self._event(self._calls.eip_c_tick, _number(ms, 0xFFFFFFFF, "milliseconds"), passed_ms=ms)

    def next_wake(self) -> int:
        """In how many milliseconds something is due at the device, at most 60,000.

        A tick of fewer answers a plain DONE and moves the clock alone. Each event may change the time, so ask again after it.
        """
        with self._lock:
            if not self._is_open:
                raise DeviceClosed
            wake: int = self._calls.eip_c_next_wake(self._at)
            return wake

    def run_until(self, end_ms: int) -> list[TimedAnswer]:
        """Time passes until `now_ms` is `end_ms`, in ticks that end where the device needs one.

        Gives the answers that are more than a plain DONE, in order. A time that has passed already gives none.
        """
        answers: list[TimedAnswer] = []
        least = 0
        while self._now_ms < end_ms:
            answer = self.tick(min(max(self.next_wake(), least), end_ms - self._now_ms))
            # (a tick of nothing that answers nothing is not made again)
            least = 1 if answer.is_plain else 0
            if not answer.is_plain:
                answers.append(TimedAnswer(self._now_ms, answer))
        return answers

    # Answers

    def answer(self) -> Answer:
        """The answer that the device keeps, again: that of the last event that was not refused.

        Datagrams and reads keep none. Raises NoAnswer before the first event.
        """
        return self._event(self._calls.eip_c_answer)

    def _event(self, call: Callable[..., int], *words: Union[int, bytes], passed_ms: int = 0) -> Answer:
        """Performs one call that writes an answer, and reads it. Time has passed if the call was not refused."""
        with self._lock:
            if not self._is_open:
                raise DeviceClosed
            room = self._room
            try:
                status = call(self._at, *words, room, self._length, self._count)
            except ctypes.ArgumentError:
                raise _no_bytes(next((word for word in words if not isinstance(word, (int, bytes))), words)) from None
            if status == _NO_ROOM:
                status, room = self._requested_again(self._size.value)
            if status == _DONE:
                self._now_ms += passed_ms
                size = self._size.value
                # (one item that begins with the byte of Verdict.DONE: nearly every tick answers that)
                if size == _HEAD_SIZE and room[0] == b"\1":
                    return self._plain
                return read_answer(ctypes.string_at(room, size), self._life)
            if status == _NO_ROOM:
                self._now_ms += passed_ms
                raise AnswerKept
        if status == Status.NO_ANSWER:
            raise NoAnswer
        raise Refused(Status(status))

    def _requested_again(self, size: int) -> tuple[int, Any]:
        """The status of the answer that is kept, and the bytes of it in room enough, if there is one. The lock is held."""
        try:
            room = ctypes.create_string_buffer(size)
        except MemoryError:
            return _NO_ROOM, None
        return self._calls.eip_c_answer(self._at, room, size, self._count), room


# INQUIRIES


@dataclass(frozen=True)
class Identity:
    """What a device says of itself to tools that look for devices (docs/PROFILE.md, section 25).

    Vendor, device type, product and revision are those of its profile.
    """

    address: str
    """The address under which the device is reached."""
    serial: int
    """The serial number, which no other device of the vendor has."""
    name: str
    """At most 32 bytes."""
    vendor: int = 0
    """A maker gets its number from ODVA; 0 is nobody's."""
    device_type: int = 0
    product: int = 0
    major: int = 1
    minor: int = 1
    port: int = 44818
    status: int = 0
    state: int = 3
    """3 is operational."""


_MOST = {
    "serial": 0xFFFFFFFF, "port": 0xFFFF, "vendor": 0xFFFF, "device_type": 0xFFFF, "product": 0xFFFF, "status": 0xFFFF,
    "major": 0xFF, "minor": 0xFF, "state": 0xFF,
}  # fmt: skip


def inquiry(identity: Identity, message: bytes) -> Optional[bytes]:
    """The reply to a datagram that came at the encapsulation port: ListServices, ListIdentity or ListInterfaces.

    None if the datagram is none of these. It needs no device: a device whose profile has a line describe answers them itself,
    by `Device.inquire`.
    """
    name = identity.name.encode()
    numbers = _Identity(address=node_number(identity.address), name=name)
    for field, most in _MOST.items():
        setattr(numbers, field, _number(getattr(identity, field), most, field))
    size = ctypes.c_size_t()
    room = ctypes.create_string_buffer(96)  # no reply is longer
    status = _library().eip_c_inquiry(
        ctypes.byref(numbers), name, len(name), message, len(message), room, len(room), ctypes.byref(size)
    )
    if status == Status.NO_INQUIRY:
        return None
    if status == Status.LONG_NAME:
        raise Refused(Status.LONG_NAME, f"the name has {len(name)} bytes, and a name has 0 to 32")
    if status != Status.DONE:
        raise Refused(Status(status))
    return ctypes.string_at(room, size.value)


if __name__ == "__main__":
    # (python3 -m eip: docs/PYTHON.md)
    import sys

    import eip_command

    sys.exit(eip_command.main())
