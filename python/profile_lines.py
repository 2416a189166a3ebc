"""Profiles whose device has another incarnation, another address or other connection ids: of another life, or another device of a plant.

What is here takes and gives the text of a profile (docs/PROFILE.md, section 14) and leaves all its other bytes.
"""

from __future__ import annotations


def words_of(profile: str, kind: str) -> list[list[str]]:
    """The words of the lines of a profile that begin with a word."""
    return [line.split() for line in profile.split("\n") if line.startswith(f"{kind} ")]


def _with_word(profile: str, place: int, word: str) -> str:
    """A profile with another word at this place of its first line that is no comment."""
    lines = profile.split("\n")
    first = next(number for number, line in enumerate(lines) if line and not line.startswith("#"))
    words = lines[first].split(" ")
    words[place] = word
    lines[first] = " ".join(words)
    return "\n".join(lines)


def with_incarnation(profile: str, incarnation: int) -> str:
    """A profile with another incarnation."""
    return _with_word(profile, 1, str(incarnation))


def with_address(profile: str, address: str) -> str:
    """A profile whose device is at another address."""
    return _with_word(profile, 2, address)


def without_ids(profile: str) -> str:
    """A profile that states no connection ids: its device gives those of its incarnation."""
    return "\n".join(line for line in profile.split("\n") if not line.startswith("ids "))


def with_description(profile: str, serial: int, name: str) -> str:
    """An adapter's profile with a description, as a station has one: this serial number and name, unless it has one. A scanner's stays."""
    lines = profile.split("\n")
    kinds = [line.partition(" ")[0] for line in lines]
    if "adapter" in kinds and "describe" not in kinds:
        place = max(number for number, kind in enumerate(kinds) if kind in ("adapter", "output", "input", "config"))
        lines.insert(place + 1, f"describe {serial} {name.encode()[:32].hex()} 44818 100 15 000000000000 120")
    return "\n".join(lines)


def with_unused_ids(profile: str, left: int) -> str:
    """A profile for the next life of a device that has so many of the connection ids left that the profile states.

    If the profile states its ids, it states those that are left, but never the first one again: so no id is given twice.
    """
    lines = profile.split("\n")
    for place, line in enumerate(lines):
        if line.startswith("ids "):
            first, count = map(int, line.split()[1:])
            end, count = first + count, min(left, max(count - 1, 0))
            lines[place] = f"ids {first} 0" if end - count == 2**32 else f"ids {end - count} {count}"
    return "\n".join(lines)
