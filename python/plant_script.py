"""Scripts with verdicts: what a device of a plant does, and what it is expected to hold, in the lines of a plant's file.

    island.script('''
        at 2000 expect owner 150 run
        when owner 150 lost do expect within 320 output 150 = 00000000
        at 9000 pass
    ''')
    plant.run_until(10000)
    assert island.script_run.has_passed, island.script_run.words()

Times are milliseconds of the plant, by the clock of the device. Section 39 of docs/PROFILE.md has the lines.
"""

from __future__ import annotations

import enum
import pathlib
import re
from dataclasses import dataclass, field
from typing import Any, Callable, Iterable, Optional, Protocol, Union
from xml.sax.saxutils import escape

from eip import Connection, ConnectionKind, Device, Mode, Refused, SlotState

_MOST_CONNECTIONS = 64
MOST_LINES, LONG_SCRIPT = 256, "a script has at most 256 lines"
BLANKS = " \t\n\f\r"
"""What may stand around a line."""
_LAST_MS = 4_294_967_295
_LAST_REQUEST = 18_446_744_073_709_551_615
_NO_POINT, _NO_SLOT = "no such point", "no such slot"
_NO_TIME = "a time is a number of milliseconds up to 4294967295, and behind every it is not 0"
_NO_CALL = "a call is write, read, mode, start, stop, cut, pause, restart or send, and the words behind it; else it is expect, fail or pass"
_NO_CONDITION = (
    "a condition is output POINT = HEX, image SLOT = HEX, slot N and idle, opening, established, timed-out or closing, "
    "or owner POINT and none, lost, run, idle or of NODE"
)
_STATES = {
    "idle": SlotState.IDLE,
    "opening": SlotState.OPENING,
    "established": SlotState.ESTABLISHED,
    "timed-out": SlotState.TIMED_OUT,
    "closing": SlotState.CLOSING,
}
_STATE_WORDS = {state: word for word, state in _STATES.items()}
_MODES = {"run": Mode.RUN, "idle": Mode.IDLE}
_NODE = re.compile(r"(0|[1-9][0-9]{0,2})(\.(0|[1-9][0-9]{0,2})){3}")


class Member(Protocol):
    """A device of a plant: `plant.Member`."""

    name: str
    device: Device
    plant: Any

    @property
    def clock_ms(self) -> int:
        """The time of the plant up to which the device has come."""

    def pass_time(self) -> None:
        """Gives the device the time that has passed, unless it pauses."""

    def labels(self, line: str) -> str:
        """What stands behind a line about the device: names."""


class BadScript(ValueError):
    """A text is no script: its first bad line, from 1, and what is wrong with it."""

    def __init__(self, line: int, wrong: str) -> None:
        super().__init__(f"line {line}: {wrong}")
        self.line, self.wrong = line, wrong


class BadText(ValueError):
    """What is wrong with a text of a script."""


def number_of(word: str, most: int, wrong: str) -> int:
    """A decimal number without a needless zero in front, up to a greatest one. Raises BadText with what is wrong."""
    if not re.fullmatch("0|[1-9][0-9]{0,19}", word) or int(word) > most:
        raise BadText(wrong)
    return int(word)


def _bytes(word: str, wrong: str) -> bytes:
    """Hexadecimal digits, two a byte, or a dash for no bytes."""
    if word == "-":
        return b""
    if not re.fullmatch("([0-9a-fA-F]{2})+", word):
        raise BadText(wrong)
    return bytes.fromhex(word)


def node_of(word: str, wrong: str) -> str:
    """An address: four numbers below 256 without needless zeros. Raises BadText with what is wrong."""
    if not _NODE.fullmatch(word) or any(int(part) > 255 for part in word.split(".")):
        raise BadText(wrong)
    return word


# CONDITIONS


@dataclass(frozen=True)
class Condition:
    """What a script asks of a device: a word, a number, and what it has to be."""

    word: str
    number: int
    wanted: Union[bytes, str]

    def __str__(self) -> str:
        if isinstance(self.wanted, bytes):
            return f"{self.word} {self.number} = {self.wanted.hex() or '-'}"
        return f"{self.word} {self.number} {self.wanted}"

    def holds(self, member: Member) -> bool:
        """Whether it holds of a member of a plant. Of what the device does not have none does."""
        if self.word == "slot":
            return _state_of(member, self.number) is _STATES[str(self.wanted)]
        if self.word == "owner":
            return _value_of(member, self.number) is not None and self._is_owned(member)
        is_slot = _state_of(member, self.number) is not None
        return is_slot == (self.word == "image") and _value_of(member, self.number) == self.wanted

    def _is_owned(self, member: Member) -> bool:
        owner = member.device.owner(self.number)
        if self.wanted == "none":
            return owner is None
        if self.wanted == "lost":
            return owner is None and _is_lost(member, self.number)
        if owner is None:
            return False
        if str(self.wanted) in _MODES:
            return owner.mode is _MODES[str(self.wanted)]
        return f"of {owner.peer}" == self.wanted

    def seen(self, member: Member) -> str:
        """What the device has where the condition says something else."""
        if self.word == "slot":
            state = _state_of(member, self.number)
            return _NO_SLOT if state is None else _STATE_WORDS[state]
        value = _value_of(member, self.number)
        if value is None:
            return _NO_POINT
        return _owner_words(member, self.number) if self.word == "owner" else value.hex() or "-"


def _value_of(member: Member, point: int) -> Optional[bytes]:
    try:
        return member.device.read(point)
    except Refused:
        return None


def _state_of(member: Member, slot: int) -> Optional[SlotState]:
    try:
        return member.device.slot(slot).state
    except Refused:
        return None


def _connections(member: Member) -> Iterable[Connection]:
    for place in range(_MOST_CONNECTIONS):
        connection = member.device.connection(place)
        if connection is None:
            return
        yield connection


def _is_lost(member: Member, output: int) -> bool:
    """Whether a connection that owned an output has timed out."""
    return any(
        not it.is_established and it.kind is ConnectionKind.EXCLUSIVE_OWNER and it.consumed == output
        for it in _connections(member)
    )


def _owner_words(member: Member, output: int) -> str:
    owner = member.device.owner(output)
    if owner is None:
        return "lost" if _is_lost(member, output) else "none"
    return f"of {owner.peer} " + ("without data" if owner.mode is None else owner.mode.name.lower())


def read_condition(text: str) -> Condition:
    """The condition of a text."""
    words = text.split(" ")
    if len(words) == 4 and words[0] in ("output", "image") and words[2] == "=":
        return Condition(words[0], number_of(words[1], _LAST_MS, _NO_CONDITION), _bytes(words[3], _NO_CONDITION))
    if len(words) == 3 and words[0] == "slot" and words[2] in _STATES:
        return Condition("slot", number_of(words[1], _LAST_MS, _NO_CONDITION), words[2])
    if len(words) == 3 and words[0] == "owner" and words[2] in ("none", "lost", *_MODES):
        return Condition("owner", number_of(words[1], _LAST_MS, _NO_CONDITION), words[2])
    if len(words) == 4 and words[0] == "owner" and words[2] == "of":
        node = node_of(words[3], _NO_CONDITION)
        return Condition("owner", number_of(words[1], _LAST_MS, _NO_CONDITION), f"of {node}")
    raise BadText(_NO_CONDITION)


# JUDGEMENTS


class Judgement(enum.Enum):
    """What is decided of an expectation at a moment."""

    WAITING, MET, FAILED = "waiting", "met", "failed"


def judged(holds: bool, now_ms: int, until_ms: int) -> Judgement:
    """It fails behind its deadline. Up to then it is met where its condition holds, and waits else."""
    if until_ms < now_ms:
        return Judgement.FAILED
    return Judgement.MET if holds else Judgement.WAITING


class Verdict(enum.Enum):
    """What came of a line that judges."""

    PASSED, FAILED, NOT_REACHED, SKIPPED = "passed", "failed", "not reached", "skipped"


# LINES

Call = Callable[[Any], object]


@dataclass
class Line:
    """A line of a script: when it is due, the condition for which it waits then, what it does, and how it went."""

    number: int
    every: bool
    ms: int
    guard: Optional[Condition]
    goal: str
    """`call`, `expect`, `fail` or `pass`."""
    call: Optional[Call] = None
    within_ms: int = 0
    condition: Optional[Condition] = None
    text: str = ""
    armed: bool = False
    since_ms: Optional[int] = None
    """Since when it waits for what it expects."""
    met: int = 0
    longest_ms: int = 0
    failure: Optional[str] = None

    def words(self) -> str:
        """What it says, behind its number."""
        within = f"within {self.within_ms} " if self.within_ms else ""
        says = {"call": "call", "expect": f"expect {within}{self.condition}", "fail": f"fail {self.text}", "pass": "pass"}
        return f"{self.number}: {says[self.goal]}"

    def why(self) -> str:
        """Why it has not passed."""
        return self.failure or "was not reached"

    def verdict(self, decided: bool) -> Optional[Verdict]:
        """What came of it, of a script that another line has decided or not. None of a line that does not judge."""
        if self.goal == "call":
            return None
        if self.failure is not None:
            return Verdict.FAILED
        if self.goal == "fail" or self.met:
            return Verdict.PASSED
        return Verdict.SKIPPED if decided else Verdict.NOT_REACHED


def _call_of(text: str) -> Call:
    """What a call has a member do."""
    words = text.split(" ")
    word, given = words[0], words[1:]
    if word == "write" and len(given) == 2:
        point, data = number_of(given[0], _LAST_MS, _NO_CALL), _bytes(given[1], _NO_CALL)
        return lambda member: member.write(point, data)
    if word == "read" and len(given) == 1:
        point = number_of(given[0], _LAST_MS, _NO_CALL)
        return lambda member: member.read(point)
    if word == "mode" and given in (["run"], ["idle"]):
        run = given == ["run"]
        return lambda member: member.mode(run)
    if word in ("start", "stop", "pause") and len(given) == 1:
        number = number_of(given[0], _LAST_MS, _NO_CALL)
        return lambda member: getattr(member, word)(number)
    if word == "explicit" and len(given) == 3:
        target, request = node_of(given[0], _NO_CALL), _bytes(given[2], _NO_CALL)
        own = number_of(given[1], _LAST_MS, _NO_CALL)
        return lambda member: member.explicit(target, own, request)
    if word == "answer" and len(given) == 3 and re.fullmatch("[0-9a-fA-F]{2}", given[1]):
        asked, reply = number_of(given[0], _LAST_REQUEST, _NO_CALL), _bytes(given[2], _NO_CALL)
        return lambda member: member.respond(asked, int(given[1], 16), reply)
    if text == "cut":
        return lambda member: member.cut()
    if text in ("restart", "restart same"):
        return lambda member: member.restart(same=text == "restart same")
    if word == "send" and len(given) == 2:
        node, data = node_of(given[0], _NO_CALL), _bytes(given[1], _NO_CALL)
        return lambda member: member.send(node, data)
    raise BadText(_NO_CALL)


def _act(line: Line, text: str) -> Line:
    """A line with what it does."""
    word, _, rest = text.partition(" ")
    if word == "expect":
        line.goal = "expect"
        if rest.startswith("within "):
            time, _, rest = rest[len("within "):].partition(" ")
            line.within_ms = number_of(time, _LAST_MS, _NO_TIME)
        line.condition = read_condition(rest)
    elif word == "fail":
        if not 0 < len(rest.encode()) <= 200 or any(ord(it) < 32 or ord(it) == 127 for it in rest):
            raise BadText("behind fail is a text of 1 to 200 bytes without control characters")
        line.goal, line.text = "fail", rest
    elif word == "pass":
        if rest:
            raise BadText(_NO_CALL)
        line.goal = "pass"
    else:
        line.call = _call_of(text)
    return line


def script_line(number: int, text: str) -> Line:
    """The line of a text, with its number. Raises BadText."""
    word, _, rest = text.partition(" ")
    every, ms = False, 0
    if word in ("at", "every"):
        time, _, rest = rest.partition(" ")
        every, ms = word == "every", number_of(time, _LAST_MS, _NO_TIME)
        if every and ms == 0:
            raise BadText(_NO_TIME)
        word, _, behind = rest.partition(" ")
        guarded = word == "when"
        rest = behind if guarded else rest
    elif word == "when":
        guarded = True
    else:
        raise BadText("a line of a script begins with at, every or when")
    if not guarded:
        return _act(Line(number, every, ms, None, "call"), rest)
    condition, mark, act = rest.partition(" do ")
    if not mark:
        raise BadText("behind when is a condition, and do, and what is done")
    return _act(Line(number, every, ms, read_condition(condition), "call"), act)


def read_script(text: str) -> list[Line]:
    """The lines of a script. Empty lines and comments do not count: a line's number is that of the lines of the script."""
    lines: list[Line] = []
    for number, given in enumerate(text.split("\n"), 1):
        said = given.strip(BLANKS)
        if not said or said.startswith("#"):
            continue
        try:
            line = script_line(len(lines) + 1, said)
            if len(lines) == MOST_LINES:
                raise BadText(LONG_SCRIPT)
            lines.append(line)
        except BadText as bad:
            raise BadScript(number, str(bad)) from None
    return lines


# A RUN


@dataclass
class ScriptRun:
    """A script at a member of a plant."""

    member: Member
    lines: list[Line]
    decided: bool = False
    said: list[tuple[int, str]] = field(default_factory=list)
    """What it said of its lines, with the times of the device's clock."""

    def plan(self) -> None:
        """Plans the lines at their times."""
        plant = self.member.plant
        for line in self.lines:
            if line.every:
                plant.every(line.ms, lambda line=line: self.due(line))
            elif line.ms >= plant.now_ms:
                plant.at(line.ms, self.due, line)

    def due(self, line: Line) -> None:
        """A line is due. One that waits already waits on."""
        self.member.pass_time()
        if line.guard is None:
            self.begin(line)
        elif line.since_ms is None:
            line.armed = True

    def look(self) -> None:
        """Decides about the lines that wait, in their order, until nothing more is decided."""
        while not self.decided and any(self.decide(line) for line in self.lines):
            pass

    def decide(self, line: Line) -> bool:
        """Whether something is decided about a line now."""
        if line.armed and line.guard is not None and line.guard.holds(self.member):
            line.armed = False
            self.begin(line)
            return True
        if line.since_ms is None or line.condition is None:
            return False
        now_ms = self.member.clock_ms
        judgement = judged(line.condition.holds(self.member), now_ms, line.since_ms + line.within_ms)
        if judgement is Judgement.MET:
            self.meet(line, now_ms - line.since_ms)
        elif judgement is Judgement.FAILED:
            within = f" within {line.within_ms}" if line.within_ms else ""
            self.fail(line, f"{line.condition}{within}, but {line.condition.seen(self.member)}")
        return judgement is not Judgement.WAITING

    def begin(self, line: Line) -> None:
        """A line is taken: what it does begins. Behind the decision of its script it judges nothing."""
        if line.call is not None:
            self.call(line, line.call)
        elif self.decided:
            return
        elif line.goal == "expect":
            self.expect(line)
        elif line.goal == "fail":
            self.decided = True
            self.fail(line, line.text)
        else:
            self.decided = True
            line.met += 1
            self.say(f"passed {line.number}")

    def call(self, line: Line, call: Call) -> None:
        """A line calls its device. A refusal is said and decides nothing, as at a station."""
        try:
            call(self.member)
        except Refused as refused:
            # (a number behind `refused` would have the name of a slot, and this is the number of a line)
            self.said.append((self.member.clock_ms, f"refused {line.number} {refused}"))

    def expect(self, line: Line) -> None:
        """A line begins to expect its condition: it is met at once, or waits."""
        if line.since_ms is not None or line.condition is None:
            return
        if line.condition.holds(self.member):
            self.meet(line, 0)
        else:
            line.since_ms = self.member.clock_ms
            self.member.plant.at(line.since_ms + line.within_ms + 1, self.member.pass_time)

    def meet(self, line: Line, after_ms: int) -> None:
        line.since_ms = None
        line.met += 1
        line.longest_ms = max(line.longest_ms, after_ms)
        self.say(f"met {line.number} {line.condition} after {after_ms}")

    def fail(self, line: Line, why: str) -> None:
        line.since_ms = None
        if line.failure is None:
            line.failure = why
        self.say(f"failed {line.number} {why}")

    def say(self, text: str) -> None:
        self.said.append((self.member.clock_ms, text + self.member.labels(text)))

    def verdicts(self) -> list[tuple[Line, Verdict]]:
        """The lines that judge, and what came of each."""
        both = ((line, line.verdict(self.decided)) for line in self.lines)
        return [(line, verdict) for line, verdict in both if verdict is not None]

    @property
    def has_passed(self) -> bool:
        """Whether no line failed, and each was reached unless another one decided the script."""
        return not any(verdict in (Verdict.FAILED, Verdict.NOT_REACHED) for _, verdict in self.verdicts())

    def words(self) -> str:
        """A line of words for each line with which it has not passed, and how many lines judge."""
        both, name = self.verdicts(), self.member.name
        bad = [line for line, verdict in both if verdict in (Verdict.FAILED, Verdict.NOT_REACHED)]
        skipped = sum(verdict is Verdict.SKIPPED for _, verdict in both)
        said = [f"{name}: script line {line.words()}: {line.why()}{self.labels(line)}" for line in bad]
        has = "has not passed" if bad else "has passed"
        return "\n".join([*said, f"{name}: its script {has}: {len(both)} lines judge, {len(bad)} failed, {skipped} skipped"])

    def labels(self, line: Line) -> str:
        """The names of what a line is about. Why it failed repeats what it says, so each name is there once."""
        return self.member.labels(line.failure or line.words())

    def suite(self) -> str:
        """Its suite of a report, in the form of JUnit."""
        both, name = self.verdicts(), _attribute(self.member.name)
        failures = sum(verdict in (Verdict.FAILED, Verdict.NOT_REACHED) for _, verdict in both)
        skipped = sum(verdict is Verdict.SKIPPED for _, verdict in both)
        text = f'  <testsuite name={name} tests="{len(both)}" failures="{failures}" skipped="{skipped}">\n'
        for line, verdict in both:
            seconds = f"{line.longest_ms // 1000}.{line.longest_ms % 1000:03}"
            case = _attribute(line.words() + self.member.labels(line.words()))
            text += f'    <testcase classname={name} name={case} time="{seconds}"'
            if verdict is Verdict.PASSED:
                text += "/>\n"
            elif verdict is Verdict.SKIPPED:
                text += ">\n      <skipped/>\n    </testcase>\n"
            else:
                why = _attribute(line.why() + self.member.labels(line.why()))
                text += f">\n      <failure message={why}/>\n    </testcase>\n"
        return text + "  </testsuite>\n"


_NO_CHARACTER = re.compile("[^\t\n\r -\ud7ff\ue000-\ufffd\U00010000-\U0010ffff]")


def _attribute(text: str) -> str:
    """A text as the value of an attribute. What is no character of XML is replaced."""
    text = _NO_CHARACTER.sub("\ufffd", text)
    return '"' + escape(text, {'"': "&quot;", "\t": "&#9;", "\n": "&#10;", "\r": "&#13;"}) + '"'


def report_text(runs: Iterable[ScriptRun]) -> str:
    """What came of these scripts, in the form of JUnit."""
    return _report("".join(run.suite() for run in runs))


def begun_report() -> str:
    """The report of a run that goes on: whoever finds it knows that the run has not ended."""
    said = '      <failure message="the run has not ended"/>\n'
    case = f'    <testcase classname="run" name="ends" time="0.000">\n{said}    </testcase>\n'
    return _report(f'  <testsuite name="run" tests="1" failures="1" skipped="0">\n{case}  </testsuite>\n')


_HEAD = '<?xml version="1.0" encoding="UTF-8"?>\n<testsuites>\n'


def _report(suites: str) -> str:
    return f"{_HEAD}{suites}</testsuites>\n"


def is_report(text: bytes) -> bool:
    """Whether a text is that of a report, or none: no other file gives way to a report."""
    return not text or text.startswith(_HEAD.encode())


def write_report(path: Union[str, pathlib.Path], runs: Iterable[ScriptRun]) -> None:
    """Writes the report of these scripts."""
    pathlib.Path(path).write_bytes(report_text(runs).encode())
