"""A simulated network in virtual time: devices that are joined by streams and datagrams, with faults drawn by a seed.

    with Plant(seed=7, faults=Faults(lost=0.01, delay_ms=(0, 15))) as plant:
        scanner = plant.add(Device(SCANNER))
        island = plant.add(Device(ADAPTER))
        plant.connect(scanner, island)
        scanner.mode(True)
        scanner.start(0)
        plant.run_until(1000)

Datagrams may be lost, repeated, delayed and so reordered. Streams keep their order and lose nothing until they are cut. The
same seed gives the same run. Nothing waits: a minute of the plant takes about half a second.
"""

from __future__ import annotations

import collections
import functools
import heapq
import itertools
import random
from dataclasses import dataclass, field, replace
from typing import TYPE_CHECKING, Any, Callable, Mapping, Optional, Protocol, Sequence, TypeVar, Union

from eip import Answer, Datagram, Delivery, Device, DeviceClosed, Notice, Refused, StreamNotice, TimedAnswer
from plant_script import Line, ScriptRun, read_script
from point_names import Names, labels
from port_faults import PortFaults

if TYPE_CHECKING:
    from typing_extensions import Concatenate, ParamSpec

    Words = ParamSpec("Words")

Known = TypeVar("Known")
_LONGEST_TICK_MS = 60_000


@dataclass(frozen=True)
class Faults:
    """What a network does to what is sent over it."""

    lost: float = 0.0
    """Which part of the datagrams is lost: 0.01 is one in a hundred."""
    repeated: float = 0.0
    """Which part of the others arrives twice."""
    delay_ms: tuple[int, int] = (0, 0)
    """The least and the greatest delay. Each copy of a datagram and each message of a stream draws its own."""


def _event(call: Callable[Concatenate[Device, Words], Answer]) -> Callable[Concatenate[Member, Words], Answer]:
    """A call of a device that is an event, as that of a member: at the present time of the plant, and its answer is sent."""

    @functools.wraps(call)
    def performed(member: Member, /, *words: Words.args, **named: Words.kwargs) -> Answer:
        of_the_device: Callable[..., Answer] = getattr(member.device, call.__name__)
        return member._perform(lambda: of_the_device(*words, **named))

    return performed


def _state(call: Callable[Concatenate[Device, Words], Known]) -> Callable[Concatenate[Member, Words], Known]:
    """A call of a device that says what it knows, as that of a member: at the present time of the plant, unless it pauses."""

    @functools.wraps(call)
    def known(member: Member, /, *words: Words.args, **named: Words.kwargs) -> Known:
        member.pass_time()
        of_the_device: Callable[..., Known] = getattr(member.device, call.__name__)
        return of_the_device(*words, **named)

    return known


class Member:
    """A device in a plant. It has the calls of its device, at the present time of the plant.

    Streams, ticks and the end are the plant's: `Plant.connect`, `Plant.cut`, `Plant.run_until`, `Plant.close`. So `frame` names the
    peer in place of a stream, and `cut` breaks every stream.
    """

    request = _event(Device.request)
    inquire = _event(Device.inquire)
    explicit = _event(Device.explicit)
    respond = _event(Device.respond)
    counters = _event(Device.counters)
    ids = _event(Device.ids)
    write = _event(Device.write)
    mode = _event(Device.mode)
    start = _event(Device.start)
    stop = _event(Device.stop)
    read = _state(Device.read)
    owner = _state(Device.owner)
    connection = _state(Device.connection)
    slot = _state(Device.slot)
    next_wake = _state(Device.next_wake)
    ids_left = _state(Device.ids_left)

    def __init__(self, plant: Plant, device: Device, name: str) -> None:
        self.plant, self.device, self.name = plant, device, name
        self.node = device.node
        self.is_plugged = True
        self.deliveries: collections.Counter[Delivery] = collections.Counter()
        """How often a datagram had each delivery here."""
        self.notices: list[tuple[int, Notice]] = []
        """Every notice of the device, with the time of the plant."""
        self.answers: list[TimedAnswer] = []
        """Each answer that says more than what is sent, with the time of the plant: notices, the reply of a target, a request to an
        object of the maker's own, or a message of a class 3 connection that is not executed. It knows its life."""
        self.watch: Optional[Callable[[Answer], object]] = None
        """Is called with each answer that `answers` takes, once it is sent. It may call the member, as to respond."""
        self.former: list[Device] = []
        """The devices of its earlier lives, which are closed."""
        self.begin: Optional[Callable[[], object]] = None
        """Is called as each further life begins, as to open the slots of a scanner."""
        self.port: Optional[PortFaults] = None
        """What becomes of the datagrams that arrive at the device, behind what the network does."""
        self._began_ms = plant.now_ms - device.now_ms
        self._wake_ms = -1
        self._streams: dict[int, Stream] = {}
        self._resume_ms = 0
        self.script_run: Optional[ScriptRun] = None
        """Its script, if it has one."""

    def __repr__(self) -> str:
        return f"<{self.name}>"

    @property
    def life(self) -> int:
        """Which life of the device this is, from 1 on: a restart begins the next one."""
        return self.device.life

    @property
    def is_scanner(self) -> bool:
        """Whether the device is a scanner."""
        return self.device.is_scanner

    @property
    def names(self) -> Names:
        """The names of points, slots and bits that the comments of its profile say."""
        return self.device.names

    def labels(self, line: str) -> str:
        """What stands behind a line about the device: the names of its points and slots, and of the plant's devices (section 38)."""
        return labels(line, self.names, self.plant.device_names)

    @property
    def now_ms(self) -> int:
        """How many milliseconds have passed in the present life of the device."""
        return self.device.now_ms

    def answer(self) -> Answer:
        """The answer that the device keeps, again: that of its last event, a tick too."""
        return self.device.answer()

    def datagram(self, peer: str, data: bytes) -> Delivery:
        """A datagram arrives now, in the name of any peer: one of a test's own, or one that was sent before."""
        self._catch_up()
        delivery = self.device.datagram(peer, data)
        self.deliveries[delivery] += 1
        self._plan_wake()
        return delivery

    def frame(self, peer: Member, data: bytes) -> Answer:
        """A message arrives now over a stream of a peer, whoever wrote it."""
        for number, stream in self._streams.items():
            if peer is not self and peer in stream.ends:
                return self._perform(functools.partial(self.device.frame, number, data))
        raise ValueError(f"no stream of {peer} is open at {self}")

    def restart(self, device: Optional[Device] = None, same: bool = False) -> None:
        """The power fails and comes back: another device begins at this address, in the next life, and all streams break.

        Without a device it is the next one of its profile, or with `same` the same one again (`Device.next_life`).
        """
        if device is None:
            device = self.device.next_life(same)
        if device.node != self.node:
            raise ValueError(f"{device.node} is not the address of {self}")
        if device is self.device:
            raise ValueError(f"{self} restarts with another device: this one ends")
        if device.is_closed:
            raise DeviceClosed
        for stream in list(self.plant.streams):
            if self in stream.ends:
                stream.cut()
        device.life = self.life + 1
        self.device.close()
        self.former.append(self.device)
        self.device = device
        self._began_ms = self.plant.now_ms - device.now_ms
        self._plan_wake()
        if self.port:
            self.port.begin()
        if self.begin:
            self.begin()

    def unplug(self) -> None:
        """Pulls the cable: datagrams from and to this device are lost, and its streams wait."""
        self.is_plugged = False

    def plug(self) -> None:
        """Puts the cable back: what waits in the streams arrives."""
        self.is_plugged = True
        for stream in list(self.plant.streams):
            if self in stream.ends:
                stream.go_on()

    def pause(self, ms: int) -> None:
        """The device takes nothing and sends nothing for so long; then it takes what has waited."""
        self._resume_ms = self.plant.now_ms + ms

    @property
    def is_paused(self) -> bool:
        """Whether the device takes nothing now."""
        return self.plant.now_ms < self._resume_ms

    @property
    def resume_ms(self) -> int:
        """When its last pause ends, by the time of the plant."""
        return self._resume_ms

    @property
    def clock_ms(self) -> int:
        """The time of the plant up to which the device has come: its clock."""
        return self._began_ms + self.device.now_ms

    def pass_time(self) -> None:
        """Gives the device the time that has passed, unless it pauses."""
        if not self.is_paused:
            self._catch_up()
            self._plan_wake()

    def free_number(self) -> int:
        """The least number that no stream of the device has."""
        return next(it for it in itertools.count() if it not in self._streams)

    def accept(self, number: int, stream: Stream, peer: str) -> None:
        """A stream of a peer opens at the device, under this number. Raises Refused if the device takes no more."""
        self._streams[number] = stream
        try:
            self._perform(lambda: self.device.stream(number, peer))
        except Refused:
            del self._streams[number]
            raise

    def take(self, number: int, frame: bytes) -> None:
        """A message arrives over the stream of this number."""
        self._perform(lambda: self.device.frame(number, frame))

    def lose(self, number: int) -> None:
        """The stream of this number breaks, or its peer closed it."""
        del self._streams[number]
        self._perform(lambda: self.device.cut(number))

    def cut(self) -> None:
        """Each stream of the device breaks."""
        for stream in list(self.plant.streams):
            if self in stream.ends:
                stream.cut()

    def send(self, node: str, data: bytes) -> None:
        """A datagram of these bytes is sent from the device's address, whatever they are."""
        member = self.plant.members.get(node)
        if member is not None:
            self.plant.at(self.plant.now_ms + self.plant.delay(), self.plant._arrive, member, self.node, data)
        elif self.plant.outside and self.is_plugged:
            self.plant.outside(self, Datagram(node, (node,), data, self.life))

    def script(self, text: Union[str, Sequence[Line]]) -> ScriptRun:
        """Has the device do what the lines of a script say, from now on, and judges what they expect (`plant_script.py`)."""
        run = ScriptRun(self, read_script(text) if isinstance(text, str) else list(text))
        self.script_run = run
        run.plan()
        return run

    def _perform(self, call: Callable[[], Answer]) -> Answer:
        """One event at the present time, whose answer is sent."""
        self._catch_up()
        answer = call()
        self._send(answer)
        self._plan_wake()
        return answer

    def _late_ms(self) -> int:
        """The time that has passed, and that the device has not been given."""
        return self.plant.now_ms - self._began_ms - self.device.now_ms

    def _catch_up(self, most: int = 0) -> None:
        """Gives the device the time that passed, up to the last so many milliseconds."""
        while self._late_ms() > most:
            self._send(self.device.tick(min(self._late_ms() - most, _LONGEST_TICK_MS)))

    def _plan_wake(self, least: int = 0) -> None:
        """Plans the next tick that the device needs."""
        wake = self.device.next_wake()
        wake_ms = self.plant.now_ms + (wake if wake > least else least)
        if wake_ms != self._wake_ms:
            self._wake_ms = wake_ms
            self.plant.at(wake_ms, self._wake, wake_ms)

    def _wake(self, planned_ms: int) -> None:
        """A tick that the device needs. Another event may have planned a later one."""
        if self._wake_ms != planned_ms:
            return
        if self.is_paused:
            self.plant.at(self._resume_ms, self._wake, planned_ms)
            return
        self._wake_ms = -1
        self._catch_up(_LONGEST_TICK_MS)
        late = self._late_ms()
        answer = self.device.tick(late)
        self._send(answer)
        self._plan_wake(1 if answer.is_plain and not late else 0)

    def _send(self, answer: Answer) -> None:
        """Sends the frames of an answer, then its datagrams, and then ends the streams that the device closed."""
        if answer.is_plain:
            return
        for frame in answer.frames:
            stream = self._streams.get(frame.stream)
            if stream:
                stream.send(self, frame.data)
        for datagram in answer.datagrams:
            self.plant.send(self, datagram)
        notices = answer.notices
        for notice in notices:
            self.notices.append((self.plant.now_ms, notice))
            if isinstance(notice, StreamNotice):
                stream = self._streams.pop(notice.stream, None)
                if stream:
                    stream.closed_by(self)
        if notices or answer.reply or answer.asked or answer.delivery is not None:
            self.answers.append(TimedAnswer(self.plant.now_ms, answer))
            if self.watch:
                self.watch(answer)


@dataclass
class _End:
    """An end of a stream."""

    member: Member
    number: Optional[int] = None
    """The number of the stream at this device, once it opened and until it ends."""
    waiting: collections.deque[Optional[bytes]] = field(default_factory=collections.deque)
    """What is on the way to this end: frames, and None for the mark that the stream opens or has ended."""
    held: int = 0
    """How many of these would have arrived, but a cable is pulled."""


class Stream(Protocol):
    """A stream of a member: to another member, or to a peer that is in no plant (`plant_sockets.py`)."""

    @property
    def ends(self) -> tuple[Member, ...]:
        """The members at its ends."""

    def send(self, sender: Member, frame: bytes) -> None:
        """A device sends a frame."""

    def closed_by(self, member: Member) -> None:
        """A device closed the stream, behind the frames that it sent."""

    def cut(self) -> None:
        """The stream breaks: what is on the way is lost."""

    def go_on(self) -> None:
        """A cable is back."""


class _Stream:
    """A stream between two members. The first one opens it, and opens it again when it has ended."""

    def __init__(self, plant: Plant, ends: tuple[Member, Member], again_ms: Optional[int]) -> None:
        self.plant, self.ends, self.again_ms = plant, ends, again_ms
        self._ends = (_End(ends[0]), _End(ends[1]))
        self.is_over = False
        self._open()

    def _open(self) -> None:
        """Each end receives the mark that the stream opens."""
        self.is_over = False
        for end in self._ends:
            self._put(end, None)

    def _put(self, end: _End, item: Optional[bytes]) -> None:
        """Sends something to an end. The items of one end arrive in their order, whatever their delays are."""
        end.waiting.append(item)
        self.plant.at(self.plant.now_ms + self.plant.delay(), self._take, end)

    def _take(self, end: _End) -> None:
        """The first item that waits for an end arrives."""
        if end.member.is_paused:
            self.plant.at(end.member._resume_ms, self._take, end)
        elif not all(member.is_plugged for member in self.ends):
            end.held += 1
        elif end.waiting:
            item = end.waiting.popleft()
            if item is not None:
                self._frame(end, item)
            elif end.number is None:
                self._opened(end)
            else:
                self._ended(end)
                self._plan_again()

    def _frame(self, end: _End, frame: bytes) -> None:
        if end.number is not None:
            end.member.take(end.number, frame)

    def _opened(self, end: _End) -> None:
        """The stream opens at an end, with the least free number of its device (`Member.accept`).

        The second end may refuse it, and then the first one is cut. One that its first end refuses is a fault of the test.
        """
        member, other = end.member, self._other(end)
        end.number = member.free_number()
        try:
            member.accept(end.number, self, other.member.node)
        except Refused:
            if end is self._ends[0]:
                raise
            self.closed_by(member)

    def _ended(self, end: _End) -> None:
        """The stream ends at an end, if it had opened there."""
        number, end.number = end.number, None
        if number is not None:
            end.member.lose(number)

    def _other(self, end: _End) -> _End:
        return self._ends[1] if end is self._ends[0] else self._ends[0]

    def _has_ended(self) -> bool:
        """Whether both ends are without it, and nothing is on the way."""
        return self.is_over and all(end.number is None and not end.waiting for end in self._ends)

    def _plan_again(self) -> None:
        """Opens the stream anew, once it has ended."""
        if self._has_ended() and self.again_ms is not None:
            self.plant.at(self.plant.now_ms + self.again_ms, self._open)

    def send(self, sender: Member, frame: bytes) -> None:
        """A device sends a frame. What is sent over a stream that has ended is lost."""
        if not self.is_over:
            self._put(self._ends[1] if sender is self.ends[0] else self._ends[0], frame)

    def closed_by(self, member: Member) -> None:
        """A device closed the stream: the other end is cut, behind the frames that were sent."""
        end = self._ends[0] if member is self.ends[0] else self._ends[1]
        other = self._other(end)
        end.number = None
        end.waiting.clear()
        if not self.is_over:
            self.is_over = True
            self._put(other, None)
        self._plan_again()

    def cut(self) -> None:
        """The stream breaks: what is on the way is lost, and both devices see the end now."""
        if self._has_ended():
            return
        self.is_over = True
        for end in self._ends:
            end.waiting.clear()
            end.held = 0
        for end in self._ends:
            self._ended(end)
        self._plan_again()

    def go_on(self) -> None:
        """A cable is back: what was held arrives."""
        for end in self._ends:
            held, end.held = end.held, 0
            for _ in range(held):
                self.plant.at(self.plant.now_ms + self.plant.delay(), self._take, end)


class Plant:
    """Devices on one network, with one clock."""

    def __init__(self, seed: int = 0, faults: Faults = Faults()) -> None:
        self.now_ms = 0
        self.faults = faults
        """May be exchanged at any time."""
        self.members: dict[str, Member] = {}
        """The devices by their addresses."""
        self.streams: list[Stream] = []
        self.watch: Optional[Callable[[Member, Datagram], None]] = None
        """Is called with each datagram that a device sends, and its sender, before the network loses it or not."""
        self.outside: Optional[Callable[[Member, Datagram], object]] = None
        """Is called with what a device sends to nodes that no member has: these are the nodes of the datagram."""
        self._random = random.Random(seed).random
        self._planned: list[tuple[int, int, Callable[..., object], tuple[Any, ...]]] = []
        self._order = itertools.count()

    def add(self, device: Device, name: str = "") -> Member:
        """Puts a device on the network, at the address that its profile has. The plant closes it."""
        if device.is_closed:
            raise DeviceClosed
        if device.node in self.members:
            raise ValueError(f"two devices have the address {device.node}")
        member = Member(self, device, name or device.node)
        self.members[device.node] = member
        return member

    def member(self, name: str) -> Member:
        """The device of this name. Raises ValueError if none has it, or several have."""
        found = [it for it in self.members.values() if it.name == name]
        if len(found) == 1:
            return found[0]
        raise ValueError(f"several devices have the name {name}" if found else f"no device has the name {name}")

    @property
    def device_names(self) -> Mapping[str, str]:
        """The names of the devices by their addresses. One that was added without a name is not among them."""
        return {node: it.name for node, it in self.members.items() if it.name != node}

    def connect(self, first: Member, second: Member, again_ms: Optional[int] = 1000) -> None:
        """Opens a stream between two devices. It is opened again so long after it ended, or with None it is not."""
        self.streams.append(_Stream(self, (first, second), again_ms))

    def cut(self, first: Member, second: Member) -> None:
        """Breaks each stream between two devices."""
        for stream in self.streams:
            if set(stream.ends) == {first, second}:
                stream.cut()

    def at(self, ms: int, action: Callable[..., object], *words: Any) -> None:
        """Plans an action of a test at a time. Those of one time happen in the order in which they were planned."""
        heapq.heappush(self._planned, (ms if ms > self.now_ms else self.now_ms, next(self._order), action, words))

    def every(self, ms: int, action: Callable[[], object]) -> None:
        """Plans an action at each multiple of a time, from the next one on."""
        next_ms = self.now_ms - self.now_ms % ms + ms

        def again() -> None:
            action()
            self.every(ms, action)

        self.at(next_ms, again)

    @property
    def next_ms(self) -> Optional[int]:
        """When the next thing is planned. Until then nothing happens by itself."""
        return self._planned[0][0] if self._planned else None

    def run_until(self, end_ms: int) -> None:
        """Time passes until then, with all that is planned and sent. Every device has this time afterwards."""
        planned = self._planned
        while planned and planned[0][0] <= end_ms:
            self.now_ms, _, action, words = heapq.heappop(planned)
            action(*words)
            self._look()
        self.now_ms = max(self.now_ms, end_ms)
        for member in self.members.values():
            if not member.is_paused:
                member._catch_up()
        self._look()

    def _look(self) -> None:
        """Judges what the scripts expect."""
        for member in self.members.values():
            if member.script_run is not None:
                member.script_run.look()

    def delay(self) -> int:
        """Draws the delay of one message."""
        least, most = self.faults.delay_ms
        return least + int(self._random() * (most - least + 1))

    def send(self, sender: Member, datagram: Datagram) -> None:
        """The network takes a datagram of a device: each node that consumes it receives a copy, two or none."""
        if self.watch:
            self.watch(sender, datagram)
        if self.outside and sender.is_plugged:
            nodes = tuple(node for node in datagram.nodes if node not in self.members)
            if nodes:
                self.outside(sender, replace(datagram, nodes=nodes))
        for node in datagram.nodes:
            member = self.members.get(node)
            if member is None or not sender.is_plugged or self._random() < self.faults.lost:
                continue
            copies = 2 if self._random() < self.faults.repeated else 1
            for _ in range(copies):
                self.at(self.now_ms + self.delay(), self._arrive, member, sender.node, datagram.data)

    def _arrive(self, member: Member, peer: str, data: bytes) -> None:
        if member.is_paused:
            self.at(member._resume_ms, self._arrive, member, peer, data)
        elif member.is_plugged and member.port:
            member.port.take(self, functools.partial(self._give, member, peer, data))
        elif member.is_plugged:
            member.datagram(peer, data)

    def _give(self, member: Member, peer: str, data: bytes) -> None:
        """A datagram that has arrived goes on to the device, behind its pause."""
        if member.is_paused:
            self.at(member._resume_ms, self._give, member, peer, data)
        else:
            member.datagram(peer, data)

    def close(self) -> None:
        """Closes every device."""
        for member in self.members.values():
            member.device.close()

    def __enter__(self) -> Plant:
        return self

    def __exit__(self, *_fault: object) -> None:
        self.close()
