"""The sentences of faults, as a station prints them and `eip_station explain` has them: why a slot is not opened, and why a request has
no reply.

    for ms, notice in scanner.notices:
        if isinstance(notice, RefusalNotice):
            print(ms, refusal_words(notice))

The sentence of a refused call is the text of its exception.
"""

from __future__ import annotations

from typing import Optional, Union

from eip import ExplicitReply, NoticeKind, RefusalNotice, UnansweredNotice

GENERAL = {
    0x00: "success",
    0x01: "connection failure",
    0x02: "resource unavailable",
    0x03: "invalid parameter value",
    0x04: "path segment error",
    0x05: "path destination unknown",
    0x06: "partial transfer",
    0x07: "connection lost",
    0x08: "service not supported",
    0x09: "invalid attribute value",
    0x0A: "attribute list error",
    0x0B: "already in requested mode or state",
    0x0C: "object state conflict",
    0x0D: "object already exists",
    0x0E: "attribute not settable",
    0x0F: "privilege violation",
    0x10: "device state conflict",
    0x11: "reply data too large",
    0x12: "fragmentation of a primitive value",
    0x13: "not enough data",
    0x14: "attribute not supported",
    0x15: "too much data",
    0x16: "object does not exist",
    0x17: "service fragmentation sequence not in progress",
    0x18: "no stored attribute data",
    0x19: "store operation failure",
    0x1A: "routing failure, request packet too large",
    0x1B: "routing failure, response packet too large",
    0x1C: "missing attribute list entry data",
    0x1D: "invalid attribute value list",
    0x1E: "embedded service error",
    0x1F: "vendor specific error",
    0x20: "invalid parameter",
    0x21: "write-once value or medium already written",
    0x22: "invalid reply received",
    0x23: "buffer overflow",
    0x24: "message format error",
    0x25: "key failure in path",
    0x26: "path size invalid",
    0x27: "unexpected attribute in list",
    0x28: "invalid member ID",
    0x29: "member not settable",
    0x2A: "group 2 only server general failure",
    0x2B: "unknown Modbus error",
    0x2C: "attribute not gettable",
    0x2D: "instance not deletable",
    0x2E: "service not supported for specified path",
}
"""The names of general statuses (Volume 1, appendix B). Another one is `another status`."""

EXTENDED = {
    0x0100: "connection in use or duplicate Forward_Open",
    0x0103: "transport class and trigger combination not supported",
    0x0106: "ownership conflict",
    0x0107: "target connection not found",
    0x0108: "invalid network connection parameter",
    0x0109: "invalid connection size",
    0x0110: "target for connection not configured",
    0x0111: "RPI not supported",
    0x0112: "RPI not acceptable",
    0x0113: "out of connections",
    0x0114: "vendor id or product code mismatch",
    0x0115: "device type mismatch",
    0x0116: "revision mismatch",
    0x0117: "invalid produced or consumed application path",
    0x0118: "invalid or inconsistent configuration application path",
    0x0119: "non-listen only connection not opened",
    0x011A: "target object out of connections",
    0x011B: "RPI is smaller than the production inhibit time",
    0x011C: "transport class not supported",
    0x011D: "production trigger not supported",
    0x011E: "direction not supported",
    0x011F: "invalid O->T fixed or variable size",
    0x0120: "invalid T->O fixed or variable size",
    0x0121: "invalid O->T priority",
    0x0122: "invalid T->O priority",
    0x0123: "invalid O->T network connection type",
    0x0124: "invalid T->O network connection type",
    0x0125: "invalid O->T redundant owner",
    0x0126: "invalid configuration size",
    0x0127: "invalid O->T size",
    0x0128: "invalid T->O size",
    0x0129: "invalid configuration application path",
    0x012A: "invalid consuming application path",
    0x012B: "invalid producing application path",
    0x012C: "configuration symbol does not exist",
    0x012D: "consuming symbol does not exist",
    0x012E: "producing symbol does not exist",
    0x012F: "inconsistent application path combination",
    0x0130: "inconsistent consume data format",
    0x0131: "inconsistent produce data format",
    0x0132: "null Forward_Open not supported",
    0x0133: "connection time-out multiplier not acceptable",
    0x0134: "mismatched T->O size",
    0x0135: "mismatched T->O fixed or variable size",
    0x0136: "mismatched T->O priority",
    0x0137: "mismatched transport class",
    0x0138: "mismatched T->O production trigger",
    0x0139: "mismatched T->O production inhibit time",
    0x0203: "connection timed out",
    0x0204: "unconnected request timed out",
    0x0205: "parameter error in an unconnected request",
    0x0206: "message too large for Unconnected_Send",
    0x0207: "unconnected acknowledge without reply",
    0x0301: "no buffer memory available",
    0x0302: "network bandwidth not available for data",
    0x0303: "no consumed connection id filter available",
    0x0304: "not configured to send scheduled priority data",
    0x0305: "schedule signature mismatch",
    0x0306: "schedule signature validation not possible",
    0x0311: "port not available",
    0x0312: "link address not valid",
    0x0315: "invalid segment in the connection path",
    0x0316: "error in the connection path of Forward_Close",
    0x0317: "scheduling not specified",
    0x0318: "link address to self invalid",
    0x0319: "secondary resources unavailable",
    0x031A: "rack connection already established",
    0x031B: "module connection already established",
    0x031C: "miscellaneous",
    0x031D: "redundant connection mismatch",
    0x031E: "no more link consumer resources in the producing module",
    0x031F: "no link consumer resources configured in the producing module",
    0x0800: "network link in the path to the module is offline",
    0x0810: "no target application data available",
    0x0811: "no originator application data available",
    0x0812: "node address has changed since the network was scheduled",
    0x0813: "not configured for off-subnet multicast",
    0x0814: "invalid produce or consume data format",
}
"""The names of the extended statuses that the Connection Manager has under general status 1 (Volume 1, chapter 3)."""

ENCAPSULATION = {
    0x0000: "success",
    0x0001: "invalid or unsupported command",
    0x0002: "insufficient memory",
    0x0003: "incorrect data",
    0x0064: "invalid session handle",
    0x0065: "invalid length",
    0x0069: "unsupported protocol revision",
}
"""The names of the statuses of an encapsulation message (Volume 2, chapter 2)."""

_UNNAMED = "another status"
_UNREADABLE = "no readable reply"
_MISMATCHES = {
    NoticeKind.OTHER_TRIAD: "a reply for another connection",
    NoticeKind.OTHER_ID: "another T->O id than the requested one, or one in use",
    NoticeKind.OTHER_API: "an actual packet interval out of range",
}
_UNANSWERED = {
    NoticeKind.NO_REPLY_TIMED_OUT: "no reply came within the open time-out",
    NoticeKind.NO_REPLY_LOST: "its stream ended",
    NoticeKind.NO_REPLY_UNREADABLE: _UNREADABLE,
}


def encapsulation_words(status: int) -> str:
    """A status of an encapsulation message, with its number: four digits, or eight where they are needed."""
    return f"encapsulation status 0x{status:0{8 if status > 0xFFFF else 4}x} ({ENCAPSULATION.get(status, _UNNAMED)})"


def general_words(status: int) -> str:
    """A general status, with its number."""
    return f"general status 0x{status:02x} ({GENERAL.get(status, _UNNAMED)})"


def status_words(general: int, additional: Union[int, bytes, None] = None) -> str:
    """A general status, and its additional status: an extended status, or the bytes of one. Two bytes are an extended status."""
    if isinstance(additional, bytes):
        if len(additional) != 2:
            return f"{general_words(general)}, additional status {additional.hex() or '-'}"
        additional = int.from_bytes(additional, "little")
    return general_words(general) + _extended_words(general, additional)


def _extended_words(general: int, extended: Optional[int]) -> str:
    """An extended status behind a general one. That of a connection failure has a name."""
    if extended is None:
        return ", no extended status"
    name = f" ({EXTENDED.get(extended, _UNNAMED)})" if general == 1 else ""
    return f", extended status 0x{extended:04x}{name}"


def _reason(notice: RefusalNotice) -> str:
    """Why a reply did not open the connection of a slot."""
    if notice.kind in _MISMATCHES:
        return _MISMATCHES[notice.kind]
    if notice.kind == NoticeKind.UNREADABLE:
        return _UNREADABLE
    if notice.kind == NoticeKind.REFUSED_ENCAP:
        return encapsulation_words(notice.status or 0)
    said = status_words(notice.status or 0, notice.extended)
    return f"refused by the target: {said}" if notice.kind == NoticeKind.MISMATCH else said


def refusal_words(notice: RefusalNotice) -> str:
    """That a slot is not opened, and why."""
    return f"slot {notice.slot} is not opened: {_reason(notice)}"


def unanswered_words(notice: UnansweredNotice) -> str:
    """That an explicit request is not answered, and why."""
    encapsulation = notice.kind == NoticeKind.NO_REPLY_ENCAP
    why = encapsulation_words(notice.status or 0) if encapsulation else _UNANSWERED[notice.kind]
    return f"explicit request {notice.number} is not answered: {why}"


def reply_words(reply: ExplicitReply) -> str:
    """The statuses with which a target answers an explicit request."""
    return f"explicit request {reply.number} is answered: {status_words(reply.status, reply.additional)}"
