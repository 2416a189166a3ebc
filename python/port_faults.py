"""Faults on purpose at one device, as those of a station: a seed draws what becomes of each datagram that arrives (docs/PROFILE.md, section 30).

    plant = Plant()
    logger = plant.add(Device(ADAPTER), "logger")
    logger.port = PortFaults(lose=5, seed=7)

The same seed loses the same datagrams as `--lose 5 --seed 7` of a station does. `plant.Faults` are those of a whole network.
"""

from __future__ import annotations

from dataclasses import dataclass, field
from typing import Any, Callable

_MOST_WAITING, _LONGEST_MS = 62, 1000
_STEP, _LAST = 0x9E3779B97F4A7C15, 2**64 - 1


def drawn(seed: int, number: int) -> int:
    """The word of this number, from 0 on, that a seed draws: SplitMix64 (Steele, Lea and Flood)."""
    word = (seed + (number + 1) * _STEP) & _LAST
    word = (word ^ word >> 30) * 0xBF58476D1CE4E5B9 & _LAST
    word = (word ^ word >> 27) * 0x94D049BB133111EB & _LAST
    return word ^ word >> 31


@dataclass(eq=False)
class _Held:
    """A datagram that waits, until so many have arrived or its time is over."""

    give: Callable[[], object]
    behind: int
    is_over: bool = False


@dataclass
class PortFaults:
    """What becomes of the datagrams that arrive at a device: percentages, and the longest delay."""

    lose: int = 0
    repeat: int = 0
    reorder: int = 0
    """How many percent are overtaken by the next one, or wait for a second."""
    delay_ms: int = 0
    seed: int = 0
    arrived: int = 0
    """How many have arrived in this life of the device."""
    waiting: list[_Held] = field(default_factory=list)

    def begin(self) -> None:
        """Another life begins: what waits is lost, and the datagrams are counted anew."""
        for held in self.waiting:
            held.is_over = True
        self.waiting, self.arrived = [], 0

    def take(self, plant: Any, give: Callable[[], object]) -> None:
        """A datagram arrives, which `give` gives to the device: now, later, twice or not at all."""
        parts = [drawn(self.seed, self.arrived) >> bits & 0xFFFF for bits in (0, 16, 32, 48)]
        is_lost, is_repeated, is_overtaken = (part % 100 < rate for part, rate in zip(parts, (self.lose, self.repeat, self.reorder)))
        delay_ms = _LONGEST_MS if is_overtaken else parts[3] % (self.delay_ms + 1)
        has_room = len(self.waiting) <= _MOST_WAITING
        before, self.arrived = self.arrived, self.arrived + 1
        if not is_lost and delay_ms and has_room:
            self._hold(plant, give, plant.now_ms + delay_ms, before + 2 if is_overtaken else _LAST)
        elif not is_lost:
            give()
        if not is_lost and is_repeated and has_room:
            self._hold(plant, give, plant.now_ms, _LAST)
        for held in list(self.waiting):
            if held.behind <= self.arrived:
                self._release(held)

    def _hold(self, plant: Any, give: Callable[[], object], due_ms: int, behind: int) -> None:
        held = _Held(give, behind)
        self.waiting.append(held)
        plant.at(due_ms, self._release, held)

    def _release(self, held: _Held) -> None:
        """A datagram has waited enough."""
        if not held.is_over:
            held.is_over = True
            self.waiting.remove(held)
            held.give()
