#!/usr/bin/env python3
"""Prints a trace of drawn events at an adapter with objects of its maker's own and class 3 connections, and behind each event the
outcome that this file expects: tools/play/modelled_adapter.py EVENTS SEED.

The model is written from docs/PROFILE.md alone (sections 6, 7, 13, 31, 32, 35 and 36) and shares no code with the crates. Of class 1 it
has input-only connections, whose triads, places and ids meet those of class 3. `eip_line step` has to end on the trace with status 0.
"""

import random
import struct
import sys

OWN = (100, 768)  # classes of the maker's own
INPUT, CONSUMED = 100, 152  # the points of class 1 connections
OPEN, LARGE_OPEN, CLOSE = 0x54, 0x5B, 0x4E
ROUTER, MANAGER = bytes.fromhex("20022401"), bytes.fromhex("0220062401")
VENDOR, ORIGINATOR, SERIALS = 0x1234, 0x0BAD_CAFE, 24
PROFILE = """\
adapter 16 192.168.1.10 255.255.255.0 1 12 7 2 3
output 150 4 zero zero
input 100 4
input 101 200
config 151 0
"""
DESCRIBED = "describe 305419896 50756d70 44818 100 15 02a1b2c3d4e5 120\n"
MOST_WAITING, MOST_OF_NODE, MOST_CONNECTIONS, MOST_COUNTED = 16, 4, 64, 64
ANSWER_MS, FIRST_DEADLINE_MS, LONGEST_TICK_MS, LONGEST_US = 10_000, 10_000, 60_000, 10_000_000
LONGEST_ANSWER, LONGEST_REPLY = 1400, 1404


def path_of(data):
    """The segments of a path, each with its kind and value; None if one does not read (4.1 to 4.5)."""
    at, segments = 0, []
    while at < len(data):
        kind, form = data[at] >> 2 & 7, data[at] & 3
        if data[at:at + 2] == b"\x34\x04" and at + 10 <= len(data):
            segments.append(("key", struct.unpack_from("<HHHBB", data, at + 2)))
            at += 10
        elif data[at] == 0x80 and at + 1 < len(data) and at + 2 + 2 * data[at + 1] <= len(data):
            segments.append(("data", None))
            at += 2 + 2 * data[at + 1]
        elif data[at] >> 5 == 1 and kind < 5 and form < 3 and at + (2, 4, 6)[form] <= len(data):
            value = data[at + (1, 2, 2)[form]:at + (2, 4, 6)[form]]
            segments.append((("class", "instance", "member", "point", "attribute")[kind], int.from_bytes(value, "little")))
            at += (2, 4, 6)[form]
        else:
            return None
    return segments


def key_fault(key):
    """The extended status of an electronic key that does not fit the device (4.8)."""
    vendor, kind, product, major, minor = key
    if vendor not in (0, 1) or product not in (0, 7):
        return 0x0114
    if kind not in (0, 12):
        return 0x0115
    fits_minor = minor == 0 or (minor <= 3 if major & 0x80 else minor == 3)
    return None if major & 0x7F in (0, 2) and fits_minor else 0x0116


def reply_of(service, status, data=b"", extended=None):
    words = b"" if extended is None else extended if isinstance(extended, bytes) else struct.pack("<H", extended)
    return bytes([service | 0x80, 0, status, len(words) // 2]) + words + data


def message(command, handle, context, data=b"", status=0):
    """An encapsulation message (12.1)."""
    return struct.pack("<HHII", command, len(data), handle, status) + context + bytes(4) + data


def unconnected(data):
    return struct.pack("<IHHHHHH", 0, 0, 2, 0, 0, 0xB2, len(data)) + data


def connected(connection, count, data, items=2, timeout=0):
    return struct.pack("<IHHHHIHHH", 0, timeout, items, 0xA1, 4, connection, 0xB1, len(data) + 2, count) + data


def in_whole_ms(rpi):
    """The packet interval for which a described device takes this one (7.13)."""
    return rpi // 1000 * 1000 if rpi <= LONGEST_US else rpi


def accepted(least, rpi):
    """What is said of a packet interval, and the one that is accepted (7.14)."""
    return (2, least) if rpi < least else (3, LONGEST_US) if rpi > LONGEST_US else (0, rpi)


class Opening:
    """The fields of a Forward_Open of either size (7), and what follows from them."""

    def __init__(self, service, data, described):
        self.service, large = service, service == LARGE_OPEN
        self.t_o_id, *triad, self.multiplier = struct.unpack_from("<IHHIB", data, 6)
        self.o_rpi, o_word, self.t_rpi, t_word = struct.unpack_from("<IIII" if large else "<IHIH", data, 22)
        if described:
            self.o_rpi, self.t_rpi = in_whole_ms(self.o_rpi), in_whole_ms(self.t_rpi)
        self.triad, self.trigger, self.path = tuple(triad), data[38 if large else 34], path_of(data[40 if large else 36:])
        kind, size = (29, 16) if large else (13, 9)  # the first bit of a word's type, and the bits of its size (5)
        self.sizes = [word & (1 << size) - 1 for word in (o_word, t_word)]
        self.types = [word >> kind & 3 for word in (o_word, t_word)]
        self.redundant = (o_word | t_word) >> kind + 2
        self.variable = [word >> kind - 4 & 1 for word in (o_word, t_word)]
        self.o_api, self.t_api = -(-self.o_rpi // 1000), -(-self.t_rpi // 1000)
        self.timeout = (4 << self.multiplier % 8) * self.o_api

    @property
    def rest(self):
        """The path behind its key."""
        return [it for it in self.path if it[0] != "key"]

    @property
    def key(self):
        return self.path[0][1] if self.path and self.path[0][0] == "key" else None

    def is_arranged(self, class_3):
        """Whether the path has the arrangement of a class 3 connection, or of one of class 1 (4.6)."""
        if class_3:
            return self.rest == [("class", 2), ("instance", 1)]
        kinds = ["instance" if kind == "point" else kind for kind, _ in self.rest]
        points = kinds[1:-1] if kinds[-1:] == ["data"] else kinds[1:]
        return kinds[:1] == ["class"] and points in (["instance"] * 2, ["instance"] * 3)


class Connection:
    """A connection of class 1 or class 3."""

    def __init__(self, opening, node, stream, number, now):
        self.triad, self.t_o_id, self.timeout = opening.triad, opening.t_o_id, opening.timeout
        self.node, self.stream, self.id = node, stream, 16 << 24 | number
        self.deadline, self.is_established = now + max(opening.timeout, FIRST_DEADLINE_MS), True
        self.o_size, self.t_size = opening.sizes
        self.last, self.reply = None, None  # of class 3: the count of the last executed message, and the frame of its reply
        self.api, self.due, self.sequence, self.count, self.is_new = opening.t_api, now, 1, 0, True  # of class 1: its production

    @property
    def words(self):
        return "%d %d %d" % self.triad

    def datagram(self, now, value):
        """What a class 1 connection that is due produces (11.5 to 11.7)."""
        self.count += self.is_new
        data = struct.pack("<HHHIIHHH", 2, 0x8002, 8, self.t_o_id, self.sequence, 0xB1, len(value) + 2, self.count) + value
        self.sequence, self.is_new = self.sequence + 1, False
        self.due = self.due + self.api if self.due + self.api > now else now + self.api
        return f"send {self.node} {self.node} {data.hex()}"


class Waiting:
    """A request to an own object that the application has not answered, and what brought it."""

    def __init__(self, number, service, now, node=None, stream=None, context=None, class3=None):
        self.number, self.service, self.late = number, service, now + ANSWER_MS
        self.node, self.stream, self.context, self.class3 = node, stream, context, class3


class Adapter:
    """The device, as PROFILE says. Each event records its line and its outcome."""

    def __init__(self, described, least, readers, class_3, most_of_node, openings, closers):
        self.described, self.least, self.readers, self.class_3 = described, least, readers, class_3
        self.most_of_node, self.openings, self.closers, self.seconds = most_of_node, openings * (most_of_node > 0), closers, {}
        places = f"places 1 {readers} 0" + f" {class_3}" * (class_3 is not None) + "\n"
        of_node = f"node-connections {most_of_node}" + f" openings {openings}" * (openings > 0) + "\n"
        limits = [f"least-rpi {least}\n"] * (least > 0) + [places] * (readers > 0) + [of_node] * (most_of_node > 0)
        objects = "".join(f"object {it}\n" for it in OWN)
        self.text = [PROFILE, DESCRIBED * described, *limits, "closers own\n" * closers, objects, "heartbeat 152 153\n"]
        self.points = {150: bytes(4), 100: bytes(4), 101: bytes(200), 151: b""}
        self.now, self.events, self.next_id, self.next_number = 0, 0, 1, 1
        self.streams, self.sessions, self.rows, self.class3_connections, self.waiting = {}, set(), [], [], []
        self.counters = dict.fromkeys(range(1, 9), 0)  # of the Connection Manager, by attribute (31.35)

    def record(self, line, verdict="done", parts=(), notes=()):
        self.events += 1
        outcome = [verdict, *parts, *(f"note {it}" for it in notes)]
        self.text.append(f"{line}\n" + "".join(f"{self.events} {it}\n" for it in outcome))

    # THE MESSAGE ROUTER: a reply and its notices, or None and the rest of the request

    def routed(self, request):
        """The reply and notices to a request; or no reply, and what it is to (6)."""
        service, data = request[0], request[2 + 2 * request[1]:] if len(request) > 1 else b""
        if len(request) < 2 or len(request) < 2 + 2 * request[1]:
            return self.counted(reply_of(service, 0x13)), []
        path = path_of(request[2:2 + 2 * request[1]])
        if path is None or [kind for kind, _ in path] not in (["class", "instance"], ["class", "instance", "attribute"]):
            return reply_of(service, 0x04), []
        at = tuple(value for _, value in path) + (None,) * (3 - len(path))
        if at[:2] == (6, 1) and service in (OPEN, LARGE_OPEN, CLOSE):
            return self.managed(service, data)
        if at[0] in OWN:
            return None, ("own", service, at, data)
        return self.served(service, *at, data)

    def managed(self, service, data):
        """A request to open or to close a connection, whose data have their length."""
        head, words = {CLOSE: (12, 10), OPEN: (36, 35), LARGE_OPEN: (40, 39)}[service]
        length = head + 2 * data[words] if len(data) >= head else head
        if len(data) != length:
            return self.counted(reply_of(service, 0x13 if len(data) < length else 0x15)), []
        return None, ("manager", service, data)

    def counted(self, reply):
        """The reply to a request, which is counted if it is one to open or to close a connection (31.35 to 31.39)."""
        service, general, extended = reply[0] & 0x7F, reply[2], int.from_bytes(reply[4:4 + 2 * reply[3]][:2], "little")
        if service in (OPEN, LARGE_OPEN, CLOSE):
            first = 5 if service == CLOSE else 1
            is_format, is_resource = general in (0x13, 0x15) or extended == 0x0315, extended == 0x0113
            self.counters[first] += 1
            if general:
                self.counters[first + (1 if is_format else 2 if is_resource or service == CLOSE else 3)] += 1
        return reply

    def served(self, service, number, instance, attribute, data):
        """A request to one of the device's own objects (31)."""
        values, services = None, {0x0E, 0x10}
        if number == 4 and instance in self.points:
            values = {3: self.points[instance], 4: struct.pack("<H", len(self.points[instance]))}
        elif (number, instance) == (6, 1):
            values, services = {it: struct.pack("<H", count) for it, count in self.counters.items()}, services if self.described else set()
        elif self.described and (number, instance) == (1, 1):
            values, services = self.identity(), services | {0x05}
        elif self.described and (number, instance) == (2, 1):
            values = {}
        if values is None:
            return reply_of(service, 0x05), []
        if not self.described and number == 4:  # (31.18)
            values, services = {3: values[3]}, {0x0E}
        if service not in services:
            return reply_of(service, 0x08), []
        if service == 0x05:
            return self.reset(data)
        if attribute not in values:
            return reply_of(service, 0x14), []
        if service == 0x10 or data:
            return reply_of(service, 0x0E if service == 0x10 else 0x15), []
        return reply_of(service, 0, values[attribute]), []

    def identity(self):
        state = 0x70 if any(it.is_established for it in self.rows) else 0x20 if self.rows else 0x30
        numbers = {1: 1, 2: 12, 3: 7, 5: state}
        return {it: struct.pack("<H", value) for it, value in numbers.items()} | {
            4: bytes([2, 3]), 6: struct.pack("<I", 305419896), 7: b"\x04Pump", 8: b"\x03"}

    def reset(self, data):
        if len(data) > 1 or data > b"\x01":
            return reply_of(0x05, 0x15 if len(data) > 1 else 0x20), []
        return reply_of(0x05, 0), [f"reset {data[0] if data else 0}"]

    # THE CONNECTION MANAGER

    def connects(self, service, data, node, stream):
        """The reply and the notices to an opening or a close (7, 8, 36)."""
        if service == CLOSE:
            return self.close(struct.unpack_from("<HHI", data, 2), node)
        opening = Opening(service, data, self.described)
        class_3 = opening.trigger == 0xA3 and stream is not None
        extended = self.refusal(opening, class_3, node)
        if extended:
            return self.refused(service, 1, opening.triad, extended)
        replaced = [it for it in self.rows if it.triad == opening.triad]
        self.rows = [it for it in self.rows if it not in replaced]
        made = Connection(opening, node, stream, self.next_id, self.now)
        self.next_id += 1
        self.count(node)
        (self.class3_connections if class_3 else self.rows).append(made)
        apis = opening.o_api * 1000, opening.t_api * 1000
        body = struct.pack("<IIHHIIIBB", made.id, made.t_o_id, *made.triad, *apis, 0, 0)
        return reply_of(service, 0, body), [*(f"replaced {it.words}" for it in replaced), f"opened {made.words} {made.id:08x}"]

    def opened_in_second(self, node):
        """When the second of a node began, and how many openings it has, if it runs (32.9)."""
        since, openings = self.seconds.get(node, (0, 0))
        return (since, openings) if openings and self.now < since + 1000 else (self.now, 0)

    def count(self, node):
        """An opening of a node is counted, and it is the last one of 64 (32.10)."""
        since, openings = self.opened_in_second(node)
        self.seconds = {it: second for it, second in self.seconds.items() if it != node and self.now < second[0] + 1000}
        for first in [*self.seconds][: max(0, len(self.seconds) + 1 - MOST_COUNTED)]:
            del self.seconds[first]
        self.seconds[node] = since, openings + 1

    def refused(self, service, status, triad, extended=None):
        return reply_of(service, status, struct.pack("<HHI", *triad) + bytes(2), extended), []

    def refusal(self, it, class_3, node):
        """The extended status of the first check that fails."""
        taken = any(one.triad == it.triad for one in self.class3_connections)
        taken = taken or any(one.triad == it.triad and (class_3 or one.is_established) for one in self.rows)
        mine = self.class3_connections if class_3 else [one for one in self.rows if one.is_established]
        if it.path is None or taken:
            return 0x0315 if it.path is None else 0x0100
        arranged = it.is_arranged(class_3)
        if arranged and it.key and key_fault(it.key):
            return key_fault(it.key)
        points = [("class", 4), ("point", CONSUMED), ("point", INPUT)]
        named = self.described  # (7.11)
        sizes = [own if named and varies and not class_3 else size for own, size, varies in zip((0x011F, 0x0120), (0x0127, 0x0128), it.variable)]
        checks = [
            (it.types[0] != 2, 0x0132 if named and it.types == [0, 0] else 0x0123), (it.types[1] != 2 if class_3 else it.types[1] in (0, 3), 0x0124),
            (not class_3 and it.trigger & 0x7F != 1, 0x0103),
            (it.multiplier > 7 or it.redundant, 0x0108 if not named else 0x0133 if it.multiplier > 7 else 0x0125),
            (not all(max(1, self.least) <= rpi <= LONGEST_US for rpi in (it.o_rpi, it.t_rpi)), self.acceptable(it) if named else 0x0111),
            (not arranged if class_3 else it.rest != points, 0x0117),
            (not it.sizes[0] if class_3 else it.sizes[0] != 2, sizes[0]),
            (not it.sizes[1] if class_3 else it.sizes[1] != len(self.points[INPUT]) + 2, sizes[1]),
            (len(self.class3_connections if class_3 else self.rows) >= MOST_CONNECTIONS, 0x0113),
            *((named and not class_3 and it.variable[at], sizes[at]) for at in (0, 1)),  # (7.12)
            (self.readers and (class_3 and self.class_3 is not None and len(mine) >= self.class_3 or not class_3 and len(mine) >= self.readers), 0x0113),
            (self.most_of_node and sum(one.node == node for one in mine) >= self.most_of_node, 0x0113),
            (self.openings and self.opened_in_second(node)[1] >= self.openings, 0x0113),
        ]
        return next((extended for fails, extended in checks if fails), None)

    def acceptable(self, it):
        """The extended status of intervals that are not accepted, and those that are (7.14)."""
        least = max(1000, -(-self.least // 1000) * 1000)
        (o_says, o_us), (t_says, t_us) = accepted(least, it.o_rpi), accepted(least, it.t_rpi)
        return struct.pack("<HBBII", 0x0112, o_says, t_says, o_us, t_us)

    def close(self, triad, node):
        found = [it for it in self.rows + self.class3_connections if it.triad == triad]
        if not found:
            return self.refused(CLOSE, 1, triad, 0x0107)
        if self.closers and found[0].node != node:
            return self.refused(CLOSE, 0x0F, triad)
        self.rows = [it for it in self.rows if it not in found]
        self.end(found)
        return reply_of(CLOSE, 0, struct.pack("<HHI", *triad) + bytes(2)), [f"closed {found[0].words}"]

    def end(self, ended):
        """Class 3 connections end, and the requests that came over them wait no more."""
        self.class3_connections = [it for it in self.class3_connections if it not in ended]
        self.waiting = [it for it in self.waiting if it.class3 is None or it.class3[0] not in ended]

    def end_stream(self, number):
        ended = [it for it in self.class3_connections if it.stream == number]
        self.end(ended)
        self.waiting = [it for it in self.waiting if it.stream != number]
        self.streams.pop(number)
        self.sessions.discard(number)
        return [f"dropped {it.words}" for it in ended]

    # REPLIES

    def carried(self, class3, count, reply):
        """A reply over a class 3 connection, which is kept (36.14, 36.22)."""
        if len(reply) > 4 and (len(reply) + 2 > class3.t_size or len(reply) > LONGEST_REPLY):
            reply = reply[:2] + b"\x11\0"
        frame = message(0x70, class3.stream + 1, bytes(8), connected(class3.t_o_id, count, reply))
        class3.reply = f"frame {class3.stream} {frame.hex()}"
        return class3.reply

    def answered(self, it, status, data):
        """The reply to a request that waited, over the way that it came."""
        reply = reply_of(it.service, status, data)
        if it.class3:
            return self.carried(*it.class3, reply)
        if it.node:
            return f"reply {it.node} {reply.hex()}"
        return f"frame {it.stream} {message(0x6F, it.stream + 1, it.context, unconnected(reply)).hex()}"

    def asker(self, node=None, stream=None, context=None, class3=None):
        """The node of a request that came this way (35.10)."""
        return node or (self.streams[stream] if class3 is None else class3[0].node)

    def has_room(self, **way):
        """Whether one more request of this way can wait (35.3, 35.10)."""
        shared = self.readers and self.class_3 is not None
        mine = sum(it.peer == self.asker(**way) for it in self.waiting)
        return len(self.waiting) < MOST_WAITING and not (shared and mine >= MOST_OF_NODE)

    def refer(self, asked, has_room, **way):
        """The verdict by which the application gets a request; None if there is no room for it."""
        _, service, (number, instance, attribute), data = asked
        if not has_room:
            return None
        self.waiting.append(Waiting(self.next_number, service, self.now, **way))
        self.waiting[-1].peer = self.asker(**way)
        self.next_number += 1
        named = "-" if attribute is None else attribute
        return f"asked {self.next_number - 1} {service} {number} {instance} {named} {data.hex() or '-'}"

    def reply(self, request, way, over):
        """Serves a request over a stream or over none: `over` makes a line of its reply."""
        reply, rest = self.routed(request)
        if reply is None and rest[0] == "own":
            verdict = self.refer(rest, self.has_room(**way), **way)
            return (verdict,) if verdict else ("done", [over(reply_of(rest[1], 0x02))])
        if reply is None:
            stream = way.get("stream")
            reply, rest = self.connects(*rest[1:], way["node"] if stream is None else self.streams[stream], stream)
            self.counted(reply)
        return "done", [over(reply)], rest

    # EVENTS

    def request(self, node, request):
        line = f"request {node} {request.hex() or '-'}"
        if not request:
            return self.record(line, "bad-frame")
        self.record(line, *self.reply(request, {"node": node}, lambda it: f"reply {node} {it.hex()}"))

    def frame(self, stream, command, handle, context, data, served):
        """A frame: refused if the stream is not open, or has no session of this handle."""
        line = f"frame {stream} {message(command, handle, context, data).hex()}"
        why = 0x01 if command == 0x70 and not self.described else 0x64
        refused = [f"frame {stream} {message(command, handle, context, b'', why).hex()}"]
        if stream not in self.streams:
            self.record(line, "fault NotAllowedNow")
        elif stream not in self.sessions or handle != stream + 1:
            self.record(line, "done", refused)
        else:
            self.record(line, *served(f"frame {stream} {message(command, handle, context, b'', 3).hex()}"))

    def send(self, stream, handle, context, request):
        """SendRRData (13.8)."""
        def served(incorrect):
            if not request:
                return "done", [incorrect]
            over = lambda it: f"frame {stream} {message(0x6F, handle, context, unconnected(it)).hex()}"
            return self.reply(request, {"stream": stream, "context": context}, over)

        self.frame(stream, 0x6F, handle, context, unconnected(request), served)

    def unit(self, stream, handle, context, data, reads, connection, count, request):
        """SendUnitData (36.14 to 36.22)."""
        def served(incorrect):
            found = [it for it in self.class3_connections if (it.id, it.stream) == (connection, stream)]
            if not reads or not found:
                return ("done", [incorrect]) if not reads else ("unknown",)
            if len(request) + 2 > found[0].o_size:
                return ("wrong-size",)
            if found[0].last != count:
                return self.executed(found[0], count, request) if request else ("done", [incorrect])
            found[0].deadline = self.now + found[0].timeout
            return "duplicate", [found[0].reply] * (found[0].reply is not None)

        self.frame(stream, 0x70, handle, context, data, served)

    def executed(self, it, count, request):
        has_room = self.has_room(class3=(it, count))  # (35.3: a request counts still that this message ends)
        it.deadline, it.last, it.reply = self.now + it.timeout, count, None
        self.waiting = [one for one in self.waiting if one.class3 is None or one.class3[0] is not it]
        reply, rest = self.routed(request)
        if reply is None and rest[0] == "own":
            verdict = self.refer(rest, has_room, class3=(it, count))
            return (verdict,) if verdict else ("done", [self.carried(it, count, reply_of(rest[1], 0x02))])
        if reply is None:
            reply, rest = self.counted(reply_of(rest[1], 0x08)), []
        return "done", [self.carried(it, count, reply)], rest

    def answer(self, number, status, data):
        line, found = f"answer {number} {status:02x} {data.hex() or '-'}", [it for it in self.waiting if it.number == number]
        if not found or len(data) > LONGEST_ANSWER:
            return self.record(line, "fault WrongLength" if found else "fault NotAllowedNow")
        self.waiting.remove(found[0])
        self.record(line, "done", [self.answered(found[0], status, data)])

    def tick(self, ms):
        if ms > LONGEST_TICK_MS:
            return self.record(f"tick {ms}", "fault TickTooLong")
        self.now += ms
        by_deadline = lambda them: sorted((it for it in them if it.deadline <= self.now), key=lambda it: (it.deadline, it.id))
        expired, ended = by_deadline(it for it in self.rows if it.is_established), by_deadline(self.class3_connections)
        self.counters[8] += len(expired) + len(ended)
        for it in expired:
            it.is_established = False
        self.end(ended)
        late = [it for it in self.waiting if it.late <= self.now]
        self.waiting = [it for it in self.waiting if it not in late]
        parts = [self.answered(it, 0x1F, b"") for it in late]
        due = sorted((it for it in self.rows if it.is_established and it.due <= self.now), key=lambda it: (it.due, it.id))
        parts += [it.datagram(self.now, self.points[INPUT]) for it in due]
        self.record(f"tick {ms}", "done", parts, [f"expired {it.words}" for it in expired + ended])

    def stream(self, number, node):
        is_refused = number in self.streams
        self.streams.setdefault(number, node)
        self.record(f"stream {number} {node}", "fault NotAllowedNow" if is_refused else "done")

    def cut(self, number):
        is_open = number in self.streams
        self.record(f"cut {number}", *(("done", [], self.end_stream(number)) if is_open else ("fault NotAllowedNow",)))

    def register(self, stream, context):
        data = struct.pack("<HH", 1, 0)
        line = f"frame {stream} {message(0x65, 0, context, data).hex()}"
        if stream not in self.streams:
            return self.record(line, "fault NotAllowedNow")
        reply = message(0x65, 0, context, b"", 1) if stream in self.sessions else message(0x65, stream + 1, context, data)
        self.sessions.add(stream)
        self.record(line, "done", [f"frame {stream} {reply.hex()}"])

    def unregister(self, stream, handle, context):
        line, is_own = f"frame {stream} {message(0x66, handle, context).hex()}", stream in self.sessions and handle == stream + 1
        if is_own:
            return self.record(line, "done", [], [f"stream-closed {stream}", *self.end_stream(stream)])
        self.record(line, "done" if stream in self.streams else "fault NotAllowedNow")

    def write(self, value):
        self.points[INPUT] = value
        for it in self.rows:
            it.is_new = True
        self.record(f"write {INPUT} {value.hex()}")


class Draw:
    """What is drawn: mostly what the device serves, now and then something wrong about it."""

    REQUESTS = [bytes.fromhex(it) for it in (
        "0e03200424643003 0e03200424653003 0e0320042464300300 0e03200424013003 0e03200124013007 050220012401 05022001240101 "
        "05022001240102 0e0320 0e 0e012064 0e0220062401 0e03206424 0e03200124013005 0e02200424aa 0e03206424612001 54022006240100 "
        "4e0220062401 0e0220022401 9002206424aa 1003200424643004 100320062401300100 1003200624013009 0e0320062401300100 5b03200624 54022001240100"
    ).split()] + [bytes.fromhex("0e0320062401") + bytes([0x30, it]) for it in range(1, 10)] + [b""]
    WRONG_PATHS = [bytes.fromhex(it) for it in "20022402 20042401 200224012401 2002 200224018000 2100020024 ff002401".split()] + [b""]

    def __init__(self, rand):
        self.rand = rand
        places, of_node = (rand.choice([0, 0, 3]), rand.choice([None, 2, 5])), (rand.choice([0, 0, 2, 30]), rand.choice([0, 1, 3]))
        limits = rand.choice([0, 0, 10_000]), *places, *of_node, rand.random() < 0.3
        self.device, self.is_calm = Adapter(rand.random() < 0.5, *limits), rand.random() < 0.4  # (calm: requests wait for long)

    def chance(self, percent):
        return self.rand.randrange(100) < percent

    def mostly(self, good, *bad):
        return good if self.chance(93) else self.rand.choice(bad)

    def node(self):
        return f"192.168.1.{20 + self.rand.randrange(3)}"

    def own_request(self):
        rand = self.rand
        path = rand.choice([b"\x20\x64", b"\x21\0\x64\0", b"\x21\0\0\x03", b"\x20\x65"]) + rand.choice([b"\x24\0", b"\x24\x01", b"\x25\0\x01\x02"])
        path += rand.choice([b"", b"\x30\x03", b"\x31\0\x03\x01"])
        service = rand.choice([0x0E, 0x10, 0x4B, 0x01, 0x05, OPEN, 0xCB])
        return bytes([service, len(path) // 2]) + path + rand.randbytes(rand.choice([0, 0, 2, 9]))

    def any_request(self):
        kind = self.rand.randrange(14)
        if kind < 7:
            return self.own_request()
        return self.opening() if kind == 7 else self.closing() if kind == 8 else self.rand.choice(self.REQUESTS)

    def opening(self):
        rand, large = self.rand, self.chance(20)
        head = struct.pack("<BBIIHHI", 10, 200, 0, rand.randrange(0x2000_0000, 0x2000_0400), rand.randrange(SERIALS), VENDOR, ORIGINATOR)
        if self.chance(15):  # an input-only connection of class 1
            body = head + struct.pack("<BBBBIHIHBB", rand.randrange(8), 0, 0, 0, 100_000, 0x4002, rand.choice([10_000_000, 250_000]), 0x4006, 1, 3)
            return bytes([OPEN]) + MANAGER + body + bytes.fromhex("20042c982c64")
        path = self.mostly(ROUTER, *self.WRONG_PATHS)
        path += b"\0" * (len(path) % 2)
        if self.chance(25):
            pick = lambda good, *bad: self.mostly(rand.choice(good), *bad)
            path = b"\x34\x04" + struct.pack("<HHHBB", pick([0, 1], 2), pick([0, 12], 13), pick([0, 7], 8),
                                             pick([0, 2, 0x82, 0x80], 3, 1, 0x83), pick([0, 3], 2, 4)) + path
        body = head + struct.pack("<BBBB", self.mostly(rand.randrange(8), 8, 255), 0, 0, 0)
        parts = self.interval(), self.parameters(large), self.interval(), self.parameters(large)
        body += struct.pack("<IIIIBB" if large else "<IHIHBB", *parts, self.mostly(0xA3, 0xA2, 0x23, 0x83), len(path) // 2) + path
        body = body[:-1] if self.chance(1) else body + b"\0" if self.chance(1) else body
        return bytes([LARGE_OPEN if large else OPEN]) + MANAGER + body

    def interval(self):
        return self.mostly(self.rand.choice([1000, 9999, 10_000, 10_001, 100_000, 1_000_000]), 0, 10_000_001, 1)

    def parameters(self, large):
        size = 0 if self.chance(5) else self.rand.choice([1, 4, 8, 12, 20, 40, 100, 204, 500, 511])
        size = size * self.rand.choice([1, 1, 3]) if large else size
        top = 29 if large else 13
        return size | self.rand.randrange(2) << top - 4 | self.mostly(2, 0, 1, 3) << top | self.mostly(0, 1) << top + 2

    def closing(self):
        rand, them = self.rand, self.device.class3_connections
        serial = rand.choice(them).triad[0] if them and self.chance(50) else rand.randrange(SERIALS)
        path = rand.choice([ROUTER, b"", b"\xff\xff"])
        return bytes([CLOSE]) + MANAGER + struct.pack("<BBHHIBB", 10, 200, serial, VENDOR, ORIGINATOR, len(path) // 2, 0) + path

    def open_stream(self):
        return self.rand.choice(list(self.device.streams) or [0])

    def unit(self):
        rand, them = self.rand, self.device.class3_connections
        it = rand.choice(them) if them and self.chance(97) else None
        stream = it.stream if it and self.chance(93) else self.open_stream()
        connection = it.id if it and self.chance(96) else rand.choice([16 << 24 | 1, 7])
        last = it.last or 0 if it else 0
        count = rand.choice([last, last, last + 1, last + 1, last + 1, last - 1, rand.randrange(65536)]) % 65536
        request = self.any_request() + bytes(rand.choice([1, 30, 200, 500]) if self.chance(10) else 0)
        more = self.chance(5)  # (a socket address item)
        data = connected(connection, count, request, 2 + more, rand.choice([0, 5])) + (b"\x01\x80\x10\0" + bytes(16)) * more
        reads = not self.chance(4)
        if not reads:
            address = data[:18]
            data = rand.choice([data[:-1], unconnected(request), b"", address + b"\xb1\0\0\0", address + b"\xb1\0\x01\0\x05", data + b"\0",
                                b"\x01" + data[1:], data[:6] + struct.pack("<H", 3 + more) + data[8:]])
        handle = stream + 1 if self.chance(97) else rand.randrange(5)
        self.device.unit(stream, handle, rand.randbytes(8), data, reads, connection, count, request)

    def send(self, request):
        stream = self.open_stream() if self.chance(98) else self.rand.randrange(20)
        self.device.send(stream, stream + 1 if self.chance(98) else self.rand.randrange(5), self.rand.randbytes(8), request)

    def answer(self):
        rand, device = self.rand, self.device
        if self.is_calm and self.chance(90):
            return self.unit() if self.chance(50) else self.send(self.own_request())
        number = rand.choice(device.waiting).number if device.waiting and self.chance(90) else rand.randrange(device.next_number + 2)
        length = rand.choice([0, 0, 1, 4, 4, 16, 34, 35, 100, 498, 1400, 1401])
        device.answer(number, rand.choice([0, 0, 0, 0x14, 0x1F, 0xFF]), rand.randbytes(length))

    def tick(self):
        rand, device = self.rand, self.device
        ms = rand.choice([0, 1, 1, 5, 20, 100, 300, 1000] if self.chance(93) else [9999, 10_000, 60_000, 60_001, 20_000])
        if self.is_calm and self.chance(95):
            ms = min(ms, rand.choice([0, 1, 10]))
        nearest = [it.deadline - device.now for it in device.class3_connections] + [it.late - device.now for it in device.waiting]
        if nearest and self.chance(3 if self.is_calm else 30):
            ms = max(0, rand.choice(nearest) - rand.choice([0, 0, 1]))
        device.tick(ms)

    def streamed(self):
        kind, stream, context = self.rand.randrange(7), self.rand.randrange(6), self.rand.randbytes(8)
        if kind < 4:
            self.device.stream(stream, self.node())
        if kind < 4 and self.chance(90) or kind == 6:
            self.device.register(stream, context)
        if kind == 4:
            self.device.cut(stream)
        if kind == 5:
            self.device.unregister(stream, stream + 1 if self.chance(70) else 9, context)

    def event(self):
        kind = self.rand.randrange(100)
        if kind < 7:
            self.streamed()
        elif kind < 31:
            self.send(self.opening() if kind < 19 else self.closing() if kind < 21 else self.any_request())
        elif kind < 36:
            self.device.request(self.node(), self.any_request() if self.chance(70) else self.rand.choice([self.opening, self.closing])())
        elif kind < 69:
            self.unit()
        elif kind < 84:
            self.answer()
        elif kind < 87:
            self.device.write(self.rand.randbytes(4))
        else:
            self.tick()


def main():
    draw = Draw(random.Random(int(sys.argv[2])))
    while draw.device.events < int(sys.argv[1]):
        draw.event()
    print("".join(draw.device.text), end="")


main()
