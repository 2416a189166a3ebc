"""The lines of a trace (docs/PROFILE.md, section 14): performs events that are written so, and writes down what devices do.

    device = RecordedDevice(PROFILE)
    device.tick(10)
    pathlib.Path("device.trace").write_text(device.trace())

`eip_line step < device.trace` makes the same device, gives it the same events, and compares each outcome.
"""

from __future__ import annotations

from typing import Callable, Optional, TypeVar, Union

from eip import (
    Address, Answer, AnswerKept, AskedRequest, ConnectionNotice, Datagram, Delivery, Device, Frame, Item, Notice, NoticeKind, RefusalNotice,
    Refused, Reply, ResetNotice, SlotNotice, Status, StreamNotice, UnansweredNotice, Verdict, node_number, node_text,
)  # fmt: skip

Outcome = Union[Answer, Delivery, bytes, Refused]
"""What became of an event: its answer, the delivery of a datagram, the value that was read, or the refusal."""

T = TypeVar("T", Answer, Delivery, bytes)

FAULTS = {
    Status.REFUSED_NO_MEMORY: "OutOfMemory", Status.TICK_TOO_LONG: "TickTooLong", Status.CLOCK_END: "ClockEnd",
    Status.NO_SUCH_POINT: "NoSuchPoint", Status.WRONG_LENGTH: "WrongLength", Status.NO_SUCH_SLOT: "NoSuchSlot",
    Status.NOT_ALLOWED_NOW: "NotAllowedNow",
}  # fmt: skip
VERDICTS = {Verdict.DONE: "done", Verdict.BAD_FRAME: "bad-frame", Verdict.IGNORED: "ignored"}
DELIVERIES = {
    Delivery.APPLIED: "applied", Delivery.IDLE: "idle", Delivery.HEARTBEAT: "heartbeat", Delivery.DUPLICATE: "duplicate",
    Delivery.OLD: "old", Delivery.UNKNOWN_ID: "unknown", Delivery.WRONG_SIZE: "wrong-size", Delivery.MALFORMED: "malformed",
}  # fmt: skip
CONNECTIONS = {
    NoticeKind.OPENED: "opened", NoticeKind.CLOSED: "closed", NoticeKind.EXPIRED: "expired",
    NoticeKind.DROPPED: "dropped", NoticeKind.REPLACED: "replaced",
}  # fmt: skip
MISMATCHES = {NoticeKind.OTHER_TRIAD: "Triad", NoticeKind.OTHER_ID: "Id", NoticeKind.OTHER_API: "Api"}
UNANSWERED = {
    NoticeKind.NO_REPLY_TIMED_OUT: "timed-out", NoticeKind.NO_REPLY_LOST: "lost", NoticeKind.NO_REPLY_UNREADABLE: "unreadable",
}  # fmt: skip


def hex_of(data: bytes) -> str:
    """Bytes as a word of a trace."""
    return data.hex() or "-"


def bytes_of(word: str) -> bytes:
    """The bytes of a word of a trace."""
    return b"" if word == "-" else bytes.fromhex(word)


# OUTCOMES


def _refusal(notice: RefusalNotice) -> str:
    """The reason why a reply did not open the connection of a slot."""
    if notice.kind == NoticeKind.REFUSED_ENCAP:
        return f"encap {notice.status}"
    if notice.kind == NoticeKind.UNREADABLE:
        return "unreadable"
    if notice.kind in MISMATCHES:
        return f"mismatch {MISMATCHES[notice.kind]}"
    return f"cip {notice.status:02x} " + ("-" if notice.extended is None else f"{notice.extended:04x}")


def notice_words(notice: Notice) -> str:
    """A notice as a trace has it, behind `N note`."""
    if isinstance(notice, ConnectionNotice):
        words = f"{CONNECTIONS[notice.kind]} {notice.serial} {notice.vendor} {notice.originator}"
        return words if notice.o_t_id is None else f"{words} {notice.o_t_id:08x}"
    if isinstance(notice, StreamNotice):
        return f"stream-closed {notice.stream}"
    if isinstance(notice, SlotNotice):
        return f"no-ids {notice.slot}" if notice.state is None else f"slot {notice.slot} {notice.state.value}"
    if isinstance(notice, ResetNotice):
        return f"reset {notice.type}"
    if isinstance(notice, UnansweredNotice):
        why = UNANSWERED.get(notice.kind, f"encap {notice.status}")
        return f"unanswered {notice.number} {why}"
    return f"refused {notice.slot} {_refusal(notice)}"


def item_words(item: Item) -> str:
    """What is to be sent, or a notice, as a trace has it behind `N`."""
    if isinstance(item, Reply):
        return f"reply {item.node} {hex_of(item.data)}"
    if isinstance(item, Frame):
        return f"frame {item.stream} {hex_of(item.data)}"
    if isinstance(item, Datagram):
        return f"send {item.address} {','.join(item.nodes) or '-'} {hex_of(item.data)}"
    return f"note {notice_words(item)}"


def outcome_lines(number: int, outcome: Outcome) -> list[str]:
    """The outcome of the event of this number, as `eip_line step` prints it."""
    if isinstance(outcome, Refused):
        return [f"{number} fault {FAULTS[outcome.status]}"]
    if isinstance(outcome, Delivery):
        return [f"{number} {DELIVERIES[outcome]}"]
    if isinstance(outcome, bytes):
        return [f"{number} value {hex_of(outcome)}"]
    reply, asked = outcome.reply, outcome.asked
    if reply:
        words = f"replied {reply.number} {reply.status:02x} {hex_of(reply.additional)} {hex_of(reply.data)}"
    elif asked:
        attribute = "-" if asked.attribute is None else asked.attribute
        words = f"asked {asked.number} {asked.service} {asked.class_id} {asked.instance} {attribute} {hex_of(asked.data)}"
    elif outcome.delivery is not None:
        words = DELIVERIES[outcome.delivery]
    else:
        words = VERDICTS[outcome.verdict]
    return [f"{number} {words}", *(f"{number} {item_words(item)}" for item in outcome.items)]


# EVENTS

CALLS: dict[str, Callable[[Device, list[str]], Union[Answer, Delivery, bytes]]] = {
    "request": lambda device, words: device.request(words[0], bytes_of(words[1])),
    "stream": lambda device, words: device.stream(int(words[0]), words[1]),
    "frame": lambda device, words: device.frame(int(words[0]), bytes_of(words[1])),
    "cut": lambda device, words: device.cut(int(words[0])),
    "datagram": lambda device, words: device.datagram(words[0], bytes_of(words[1])),
    "inquiry": lambda device, words: device.inquire(words[0], bytes_of(words[1])),
    "explicit": lambda device, words: device.explicit(words[0], int(words[1]), bytes_of(words[2])),
    "answer": lambda device, words: device.respond(int(words[0]), int(words[1], 16), bytes_of(words[2])),
    "counters": lambda device, words: device.counters(bytes_of(words[0])),
    "ids": lambda device, words: device.ids(int(words[0]), int(words[1])),
    "write": lambda device, words: device.write(int(words[0]), bytes_of(words[1])),
    "read": lambda device, words: device.read(int(words[0])),
    "tick": lambda device, words: device.tick(int(words[0])),
    "mode": lambda device, words: device.mode(words[0] == "run"),
    "start": lambda device, words: device.start(int(words[0])),
    "stop": lambda device, words: device.stop(int(words[0])),
}


def perform(device: Device, line: str) -> Outcome:
    """Performs the event of a line."""
    word, *words = line.split()
    try:
        return CALLS[word](device, words)
    except Refused as refused:
        return refused


def events_of(trace: str) -> list[str]:
    """The lines of events of a trace: not its profile, comments and recorded outcomes."""
    lines = [line for line in trace.split("\n") if line and not line[0].isdigit() and line[0] != "#"]
    last = [place for place, line in enumerate(lines) if line.split()[0] in ("heartbeat", "slot")][-1]
    return lines[last + 1 :]


# RECORDS


class RecordedDevice(Device):
    """A device that writes down each event with its outcome. One thread at a time uses it."""

    def __init__(self, profile: Union[str, bytes], room: int = 4096) -> None:
        super().__init__(profile, room)
        text = profile if isinstance(profile, str) else profile.decode()
        self._lines = text.split("\n")[:-1]
        self._events = 0

    def trace(self) -> str:
        """The profile and all events so far with their outcomes."""
        return "".join(f"{line}\n" for line in self._lines)

    def _keep(self, event: str, outcome: Optional[Outcome]) -> None:
        """Writes down an event that was performed or refused, with its outcome if that is known."""
        self._events += 1
        self._lines.append(event)
        if outcome is not None:
            self._lines += outcome_lines(self._events, outcome)

    def _recorded(self, event: str, call: Callable[[], T]) -> T:
        """Performs an event and writes it down. One that is refused for lack of memory has not happened."""
        try:
            outcome = call()
        except Refused as refused:
            if refused.status != Status.REFUSED_NO_MEMORY:
                self._keep(event, refused)
            raise
        except AnswerKept:
            self._keep(event, None)
            raise
        self._keep(event, outcome)
        return outcome

    def request(self, peer: Address, data: bytes) -> Answer:
        event = f"request {_node(peer)} {hex_of(data)}"
        return self._recorded(event, lambda: super(RecordedDevice, self).request(peer, data))

    def stream(self, stream: int, peer: Address) -> Answer:
        return self._recorded(f"stream {stream} {_node(peer)}", lambda: super(RecordedDevice, self).stream(stream, peer))

    def frame(self, stream: int, data: bytes) -> Answer:
        return self._recorded(f"frame {stream} {hex_of(data)}", lambda: super(RecordedDevice, self).frame(stream, data))

    def cut(self, stream: int) -> Answer:
        return self._recorded(f"cut {stream}", lambda: super(RecordedDevice, self).cut(stream))

    def datagram(self, peer: Address, data: bytes) -> Delivery:
        event = f"datagram {_node(peer)} {hex_of(data)}"
        return self._recorded(event, lambda: super(RecordedDevice, self).datagram(peer, data))

    def inquire(self, peer: Address, data: bytes) -> Answer:
        event = f"inquiry {_node(peer)} {hex_of(data)}"
        return self._recorded(event, lambda: super(RecordedDevice, self).inquire(peer, data))

    def explicit(self, target: Address, number: int, data: bytes) -> Answer:
        event = f"explicit {_node(target)} {number} {hex_of(data)}"
        return self._recorded(event, lambda: super(RecordedDevice, self).explicit(target, number, data))

    def respond(self, request: Union[int, AskedRequest], status: int = 0, data: bytes = b"") -> Answer:
        number = self._requested(request)
        event = f"answer {number} {status:02x} {hex_of(data)}"
        return self._recorded(event, lambda: super(RecordedDevice, self).respond(number, status, data))

    def counters(self, data: bytes) -> Answer:
        return self._recorded(f"counters {hex_of(data)}", lambda: super(RecordedDevice, self).counters(data))

    def ids(self, first: int, count: int) -> Answer:
        return self._recorded(f"ids {first} {count}", lambda: super(RecordedDevice, self).ids(first, count))

    def write(self, point: int, data: bytes) -> Answer:
        return self._recorded(f"write {point} {hex_of(data)}", lambda: super(RecordedDevice, self).write(point, data))

    def read(self, point: int) -> bytes:
        return self._recorded(f"read {point}", lambda: super(RecordedDevice, self).read(point))

    def mode(self, run: bool) -> Answer:
        return self._recorded(f"mode {'run' if run else 'idle'}", lambda: super(RecordedDevice, self).mode(run))

    def start(self, slot: int) -> Answer:
        return self._recorded(f"start {slot}", lambda: super(RecordedDevice, self).start(slot))

    def stop(self, slot: int) -> Answer:
        return self._recorded(f"stop {slot}", lambda: super(RecordedDevice, self).stop(slot))

    def tick(self, ms: int) -> Answer:
        return self._recorded(f"tick {ms}", lambda: super(RecordedDevice, self).tick(ms))


def _node(peer: Address) -> str:
    """An address as a trace has it."""
    return node_text(node_number(peer))
