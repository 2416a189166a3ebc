"""The file of a plant: its devices with their profiles, addresses, faults and scripts (docs/PROFILE.md, section 34).

    plant = read_plant(pathlib.Path("examples/plant/stop.plant").read_text())
    for device in plant.devices:
        print(device.name, device.profile, len(device.script))

`eip_station plant` serves such a file in real time, and `python3 -m eip plant` plays it in virtual time.
"""

from __future__ import annotations

import re
from dataclasses import dataclass, field
from typing import Optional

from plant_script import BLANKS, LONG_SCRIPT, MOST_LINES, BadText, Line, node_of, number_of, script_line

_MOST_DEVICES = 127
_SETTINGS = ("lose", "repeat", "reorder", "delay", "seed")
_NAME = re.compile("[a-zA-Z0-9_-]{1,64}")


class BadPlant(ValueError):
    """A text is no plant: its first bad line, from 1, and what is wrong with it."""

    def __init__(self, line: int, wrong: str) -> None:
        super().__init__(f"line {line}: {wrong}")
        self.line, self.wrong = line, wrong


@dataclass
class PlantDevice:
    """A device of a plant."""

    name: str
    profile: str
    """The path of its profile."""
    address: Optional[str] = None
    """In place of the profile's."""
    faults: dict[str, int] = field(default_factory=dict)
    """What the file says of `lose`, `repeat`, `reorder`, `delay` and `seed`."""
    script: list[Line] = field(default_factory=list)


@dataclass
class PlantFile:
    """What the file of a plant says."""

    devices: list[PlantDevice] = field(default_factory=list)
    seconds: Optional[int] = None
    """How long it runs."""
    record: Optional[str] = None
    """The folder of its records."""

    def take(self, text: str) -> None:
        """Takes a line, which is neither empty nor a comment. Raises BadText."""
        word, _, rest = text.partition(" ")
        if word == "device":
            self._take_device(rest)
        elif word in _SETTINGS:
            value = _setting(word, rest)
            if word in self._last().faults:
                raise BadText("an earlier line says the same")
            self._last().faults[word] = value
        elif word in ("at", "every", "when"):
            line = script_line(0, text)
            script = self._last().script
            if len(script) == MOST_LINES:
                raise BadText(LONG_SCRIPT)
            line.number = len(script) + 1
            script.append(line)
        else:
            self._take_other(word, rest)

    def _last(self) -> PlantDevice:
        """The device of which a line speaks."""
        if not self.devices:
            raise BadText("no device is before it")
        return self.devices[-1]

    def _take_device(self, rest: str) -> None:
        """NAME PROFILE [ADDRESS]"""
        name, _, behind = rest.partition(" ")
        profile, _, word = behind.partition(" ")
        if not _NAME.fullmatch(name):
            raise BadText("a name has 1 to 64 letters, digits, - and _")
        if not profile:
            raise BadText("the path of the device's profile is missing")
        address = node_of(word, "an address is four numbers below 256 with dots between them") if word else None
        if len(self.devices) == _MOST_DEVICES:
            raise BadText("a plant has at most 127 devices")
        if any(it.name == name for it in self.devices):
            raise BadText("an earlier device has this name")
        if any(it.address == address for it in self.devices if address):
            raise BadText("word 4: an earlier device has this address")
        self.devices.append(PlantDevice(name, profile, address))

    def _take_other(self, word: str, rest: str) -> None:
        """How long the plant runs, or where its records are."""
        if word == "seconds":
            wrong = "the seconds are a number from 1 to 1000000000"
            seconds = number_of(rest, 10**9, wrong)
            if not seconds:
                raise BadText(wrong)
            if self.seconds is not None:
                raise BadText("an earlier line says the same")
            self.seconds = seconds
        elif word == "record":
            if not rest:
                raise BadText("the path of the folder is missing")
            if self.record is not None:
                raise BadText("an earlier line says the same")
            self.record = rest
        else:
            raise BadText("a line begins with device, lose, repeat, reorder, delay, seed, at, every, when, seconds or record")


def _setting(word: str, value: str) -> int:
    """The value of a fault on purpose."""
    if word == "seed":
        return number_of(value, 2**64 - 1, "a seed is a number from 0 to 18446744073709551615")
    if word == "delay":
        return number_of(value, 60_000, "a delay is a number of milliseconds from 0 to 60000")
    return number_of(value, 100, "a percentage is a number from 0 to 100")


def read_plant(text: str) -> PlantFile:
    """The plant of a text. Raises BadPlant."""
    plant = PlantFile()
    lines = text.split("\n")
    for number, given in enumerate(lines, 1):
        said = given.strip(BLANKS)
        try:
            if said and not said.startswith("#"):
                plant.take(said)
        except BadText as bad:
            raise BadPlant(number, str(bad)) from None
    if not plant.devices:
        raise BadPlant(len(lines), "a plant has at least one device")
    return plant
