"""The names of points, slots and bits, which comments of a profile say, and lines with these names behind them.

    # name 150 Valves
    # name slot 0 Press
    # bit 150 0 0 Inlet open

A device never looks at them. Section 38 of docs/PROFILE.md has the rules: a line that a station prints has the same names behind it.
"""

from __future__ import annotations

import enum
import re
from dataclasses import dataclass, field
from typing import Mapping, Optional, Union

_MOST_CHARACTERS = 32
_LINE = re.compile(rb"^# (name|bit)(?: |$)(.*)$", re.M)
_NUMBER = re.compile(rb"0|[1-9][0-9]{0,9}")
_GAPS = re.compile("[ ,:;]")

Bit = tuple[int, int, int]
"""A point, a byte of it, and a bit of that, from the lowest on."""


class NameFault(enum.Enum):
    """Why a name line names nothing."""

    WORDS = "a name line is # name POINT TEXT, # name slot N TEXT or # bit POINT BYTE BIT TEXT, with a bit from 0 to 7"
    TEXT = "a name has 1 to 32 characters of UTF-8, without control characters"
    REPEATED = "an earlier line names the same"


@dataclass(frozen=True)
class BadName:
    """A name line that names nothing: the number of its line, from 1, and why."""

    line: int
    fault: NameFault


@dataclass(frozen=True)
class Names:
    """The names of a profile. What is named need not be there."""

    points: Mapping[int, str] = field(default_factory=dict)
    """By the numbers of points."""
    slots: Mapping[int, str] = field(default_factory=dict)
    """By the numbers of a scanner's slots."""
    bits: Mapping[Bit, str] = field(default_factory=dict)
    bad: tuple[BadName, ...] = ()
    """The name lines that name nothing."""

    def point(self, name: str) -> int:
        """The number of the point of this name. Raises ValueError if none has it, or several have."""
        return _one(self.points, name, "point")

    def slot(self, name: str) -> int:
        """The number of the slot of this name. Raises ValueError if none has it, or several have."""
        return _one(self.slots, name, "slot")

    def bits_of(self, point: int, value: bytes) -> dict[str, bool]:
        """The named bits of a point with this value, in the order of their lines. A bit behind its end is left out."""
        named = ((byte, bit, name) for (its_point, byte, bit), name in self.bits.items() if its_point == point)
        return {name: bool(value[byte] >> bit & 1) for byte, bit, name in named if byte < len(value)}


def _one(named: Mapping[int, str], name: str, what: str) -> int:
    """The number of the one thing that has a name."""
    numbers = [number for number, its_name in named.items() if its_name == name]
    if len(numbers) == 1:
        return numbers[0]
    raise ValueError(f"several {what}s have the name {name}" if numbers else f"no {what} has the name {name}")


# NAME LINES


def _number(word: bytes) -> Optional[int]:
    """A number of 32 bits, in decimal without a needless zero in front."""
    return int(word) if _NUMBER.fullmatch(word) and int(word) < 2**32 else None


def _text(given: bytes) -> Optional[str]:
    """The text of a name: 1 to 32 characters, none of them a control character."""
    try:
        text = given.decode()
    except UnicodeDecodeError:
        return None
    controls = any(it < " " or "\x7f" <= it <= "\x9f" for it in text)
    return None if controls or not 0 < len(text) <= _MOST_CHARACTERS else text


def _named(kind: bytes, words: bytes) -> Optional[tuple[str, tuple[int, ...], bytes]]:
    """What the words of a name line name, `point`, `slot` or `bit`, by its numbers, and the text behind them."""
    what, count = ("bit", 3) if kind == b"bit" else ("point", 1)
    if what == "point" and words.partition(b" ")[0] == b"slot":
        what, words = "slot", words.partition(b" ")[2]
    numbers: list[int] = []
    for _ in range(count):
        word, _, words = words.partition(b" ")
        number = _number(word)
        if number is None:
            return None
        numbers.append(number)
    return None if what == "bit" and numbers[2] > 7 else (what, tuple(numbers), words)


def read_names(profile: Union[str, bytes]) -> Names:
    """The names that the comments of a profile say. Of several lines that name the same the first one counts."""
    text = profile.encode() if isinstance(profile, str) else profile
    named: dict[tuple[str, tuple[int, ...]], str] = {}
    bad: list[BadName] = []
    for found in _LINE.finditer(text):
        thing, fault = _named(found[1], found[2]), None
        name = _text(thing[2]) if thing else None
        if thing is None:
            fault = NameFault.WORDS
        elif name is None:
            fault = NameFault.TEXT
        elif thing[:2] in named:
            fault = NameFault.REPEATED
        else:
            named[thing[:2]] = name
        if fault:
            bad.append(BadName(text.count(b"\n", 0, found.start()) + 1, fault))
    points = {numbers[0]: name for (what, numbers), name in named.items() if what == "point"}
    slots = {numbers[0]: name for (what, numbers), name in named.items() if what == "slot"}
    bits = {(numbers[0], numbers[1], numbers[2]): name for (what, numbers), name in named.items() if what == "bit"}
    return Names(points, slots, bits, tuple(bad))


# LINES


class _Expected(enum.Enum):
    """What a word of a line stands for, by the words in front of it. KIND: an address, until the kind of a connection comes."""

    POINT, POINTS, SLOT, KIND, TEXT, OTHER = range(6)


def _led_by(word: str) -> _Expected:
    """What stands behind a word."""
    if word in ("output", "owner"):
        return _Expected.POINT
    if word in ("image", "slot", "refused", "no-ids"):
        return _Expected.SLOT
    if word == "connection":
        return _Expected.KIND
    return _Expected.TEXT if word.startswith('"') else _Expected.OTHER


def _behind(expected: _Expected, word: str) -> _Expected:
    """What stands behind a word that stood for this."""
    if expected is _Expected.TEXT:
        return _Expected.TEXT
    if expected is _Expected.POINTS:
        return _Expected.POINT
    if expected is _Expected.KIND:
        return _Expected.POINTS if word in ("exclusive", "input", "listen") else _Expected.KIND
    return _led_by(word)


def _name_of(names: Names, devices: Mapping[str, str], expected: _Expected, word: str) -> Optional[str]:
    """The name of what a word stands for."""
    if expected is _Expected.TEXT:
        return None
    if expected in (_Expected.KIND, _Expected.OTHER):
        return devices.get(word)
    number = _number(word.encode())
    if number is None:
        return None
    return (names.slots if expected is _Expected.SLOT else names.points).get(number)


def labels(line: str, names: Names, devices: Mapping[str, str]) -> str:
    """What stands behind a line: each number and address of it that has a name, with the name in parentheses. Nothing where none has.

    `devices` has the names of devices by their addresses. A word that is the same as the one in front of it is named once.
    """
    found: list[str] = []
    expected, before = _Expected.OTHER, ""
    for word in _GAPS.split(line):
        name = None if word == before else _name_of(names, devices, expected, word)
        if name is not None:
            found.append(f"{'slot ' if expected is _Expected.SLOT else ''}{word} ({name})")
        expected, before = _behind(expected, word), word
    return f" # {', '.join(found)}" if found else ""


def labelled(line: str, names: Names, devices: Optional[Mapping[str, str]] = None) -> str:
    """A line with its names behind it: `output 150 00 # 150 (Valves)`. Up to its first ` # ` it is the line as it was."""
    return line + labels(line, names, devices or {})
