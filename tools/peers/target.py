#!/usr/bin/env python3
"""A target of EtherNet/IP class 1 connections with several places, written from the standard alone. It shares no code with the crates.

    tools/peers/target.py --own ADDRESS [--tcp P] [--udp P] [--peer-udp P] [--places N] [--seconds S]

It keeps lists of its sessions and of its connections, and says at its end how many there are. A test that runs it in a thread tells it
to misbehave, as targets of other makes do: see `Moods`. Each connection consumes one point and produces another one, point to point;
a consumed point below 200 is an output, which has one owner, and one from 200 on a heartbeat. An output has 4 bytes, an input has 4.
"""
import argparse, collections, select, socket, struct, sys, time

REGISTER, UNREGISTER, LIST_SERVICES, SEND_RR_DATA, NOP = 0x65, 0x66, 0x04, 0x6F, 0x00
FORWARD_OPEN, LARGE_FORWARD_OPEN, FORWARD_CLOSE = 0x54, 0x5B, 0x4E
CONNECTION_FAILURE, SERVICE_NOT_SUPPORTED = 0x01, 0x08
IN_USE, OWNED, NOT_FOUND, FULL = 0x0100, 0x0106, 0x0107, 0x0113
BAD_SESSION = 0x64
FIRST_HEARTBEAT = 200
MANAGER = bytes([0x20, 6, 0x24, 1])
LONG_OBJECT, LONG_BYTES = 0x300, 4000  # an object with a value that needs more than one reply of a small device


class Moods:
    """What a target does otherwise than most do. Each may be set at any time, and holds for the requests that come from then on."""

    def __init__(self):
        self.opens = collections.deque()  # what becomes of the next Forward_Opens, one each: see `Target.open`
        self.every_open = "serve"  # what becomes of the others
        self.closes = collections.deque()  # of the next Forward_Closes: see `Target.close`
        self.every_close = "serve"
        self.registers = collections.deque()  # of the next RegisterSessions: "serve", "refuse", "never"
        self.open_s = 0.0  # opens are served one after another, each for so long
        self.ends_with_stream = False  # its class 1 connections end with the stream over which they were opened
        self.item = None  # (address or "0.0.0.0", port) of the socket address item 8000 of each success
        self.size = None  # the bytes of its data, in place of those that were asked for
        self.more_words = ()  # further words of a refusal, and of a success
        self.silent = False  # no datagrams
        self.mute_points = set()  # the produced points of connections without datagrams


class Connection:
    """A class 1 connection of the target."""

    def __init__(self, peer, stream, triad, points, o_t, t_o, o_t_rpi, t_o_rpi, multiplier, size):
        now = time.monotonic()
        self.peer, self.stream, self.triad, self.points, self.o_t, self.t_o = peer, stream, triad, points, o_t, t_o
        self.rpi, self.time_out, self.size = t_o_rpi / 1e6, (4 << multiplier) * o_t_rpi / 1e6, size
        self.deadline, self.due, self.sequence = now + max(10.0, self.time_out), now, 0
        self.received, self.came_to = 0, collections.Counter()
        self.came = collections.deque(maxlen=1000)  # when each datagram came, and its data: of an output the run/idle header goes before it
        self.granted_ms, self.o_t_us = 0, 0  # the time-out of its request, and the O->T interval that it asked for

    def serial(self):
        return struct.unpack("<H", self.triad[:2])[0]


class Stream:
    """A TCP connection of a peer, and the messages in its bytes (Volume 2, chapter 2)."""

    def __init__(self, tcp, peer):
        self.tcp, self.peer, self.bytes, self.session, self.messages_in = tcp, peer, b"", 0, 0

    def messages(self):
        got = self.tcp.recv(65535)
        if not got:
            raise ConnectionError
        self.bytes += got
        while len(self.bytes) >= 24 and len(self.bytes) >= 24 + struct.unpack("<H", self.bytes[2:4])[0]:
            end = 24 + struct.unpack("<H", self.bytes[2:4])[0]
            message, self.bytes = self.bytes[:end], self.bytes[end:]
            self.messages_in += 1
            yield message


class Target:
    """The target. `turn` does what is to be done now."""

    def __init__(self, own, tcp=44818, udp=2222, peer_udp=2222, places=8):
        self.own, self.peer_udp, self.places, self.moods = own, peer_udp, places, Moods()
        self.listener = socket.create_server((own, tcp))
        self.udp = socket.socket(socket.AF_INET, socket.SOCK_DGRAM)
        self.udp.bind((own, udp))
        self.further = []  # sockets at which datagrams come that a reply has sent elsewhere
        self.streams, self.connections, self.sessions = [], [], {}
        self.next_id, self.next_session = 0x50000001, 1
        self.waiting = []  # (when, stream, bytes): replies that are late
        self.busy_until, self.drops = 0.0, False
        self.counts, self.log, self.unknown = collections.Counter(), [], collections.Counter()

    # WHAT A TEST SETS

    def listen_at(self, own, udp):
        """Receives datagrams at a further address and port, too."""
        self.further.append(socket.socket(socket.AF_INET, socket.SOCK_DGRAM))
        self.further[-1].bind((own, udp))

    def forget_sessions(self):
        """Each session that there is counts no more: requests of it are answered by status 0064."""
        self.sessions.clear()

    def drop_streams(self):
        """Cuts every stream, at the next turn."""
        self.drops = True

    def forget_connections(self):
        """As a target that has restarted."""
        self.connections.clear()

    def note(self, what):
        self.counts[what] += 1
        self.log.append((time.monotonic(), what))

    # MESSAGES

    def send(self, stream, bytes_, after=0.0):
        if after:
            self.waiting.append((time.monotonic() + after, stream, bytes_))
        elif stream in self.streams:
            stream.tcp.sendall(bytes_)

    def message(self, stream, command, session, context, data, status=0):
        return struct.pack("<HHII8sI", command, len(data), session, status, context, 0) + data

    def answer(self, stream, message):
        command, _, session, _, context, _ = struct.unpack("<HHII8sI", message[:24])
        if command == REGISTER:
            return self.register(stream, context, message[24:])
        if command == UNREGISTER:
            self.note("unregister")
            self.sessions.pop(session, None)
            return self.end_stream(stream)
        if command == NOP:
            return self.note("nop")
        if command != SEND_RR_DATA:
            self.note(f"command {command:#06x}")
            return self.send(stream, self.message(stream, command, session, context, b"", status=1))
        if self.sessions.get(session) is not stream:
            self.note("bad session")
            return self.send(stream, self.message(stream, command, session, context, b"", status=BAD_SESSION))
        return self.request(stream, session, context, message[24:])

    def register(self, stream, context, data):
        mood = self.moods.registers.popleft() if self.moods.registers else "serve"
        self.note("register")
        if mood == "never":
            return
        if mood == "refuse":
            return self.send(stream, self.message(stream, REGISTER, 0, context, b"", status=2))
        if stream.session in self.sessions:
            return self.send(stream, self.message(stream, REGISTER, stream.session, context, b"", status=1))
        stream.session, self.next_session = self.next_session, self.next_session + 1
        self.sessions[stream.session] = stream
        self.send(stream, self.message(stream, REGISTER, stream.session, context, data))

    def request(self, stream, session, context, data):
        length = struct.unpack("<H", data[14:16])[0]
        asked = data[16:16 + length]
        service, words = asked[0], asked[1]
        path, body = asked[2:2 + 2 * words], asked[2 + 2 * words:]
        items, after = b"", 0.0
        if path == MANAGER and service in (FORWARD_OPEN, LARGE_FORWARD_OPEN):
            reply, items, after = self.open(stream, service, body)
        elif path == MANAGER and service == FORWARD_CLOSE:
            reply, after = self.close(body)
        elif path[:4] == bytes([0x21, 0]) + struct.pack("<H", LONG_OBJECT):
            self.note("long")
            reply = bytes([service | 0x80, 0, 0, 0]) + bytes(LONG_BYTES)
        else:
            self.note(f"service {service:#04x}")
            reply = bytes([service | 0x80, 0, SERVICE_NOT_SUPPORTED, 0])
        if reply is None:
            return
        packet = struct.pack("<IHHHHHH", 0, 0, 3 if items else 2, 0, 0, 0xB2, len(reply)) + reply + items
        self.send(stream, self.message(stream, SEND_RR_DATA, session, context, packet), after)

    # FORWARD_OPEN AND FORWARD_CLOSE (Volume 1, chapter 3)

    def open(self, stream, service, body):
        """The reply, its items, and after how many seconds it is sent. None: never.

        The mood is "serve"; "deaf": nothing is opened or answered; "never": it is opened, and not answered; ("late", seconds);
        ("refuse", extended status); "triad", "id" or "api": the success has another one; "words": it has `more_words`."""
        mood = self.moods.opens.popleft() if self.moods.opens else self.moods.every_open
        kind = mood if isinstance(mood, str) else mood[0]
        self.note("open")
        after = 0.0
        if self.moods.open_s:
            now = time.monotonic()
            self.busy_until = max(now, self.busy_until) + self.moods.open_s
            after = self.busy_until - now
        if kind == "late":
            after += mood[1]
        if kind == "deaf":
            return None, b"", 0.0
        refused = self.opened(stream, service, body, (mood[1],) + tuple(self.moods.more_words) if kind == "refuse" else None)
        if kind == "never":
            return None, b"", 0.0
        if isinstance(refused, bytes):
            return refused, b"", after
        return self.success(service, refused, kind), self.item(), after

    def opened(self, stream, service, body, refusal):
        """The connection that a request opens, or the reply that refuses it."""
        large = service == LARGE_FORWARD_OPEN
        tick, ticks, _, t_o = struct.unpack("<BBII", body[:10])
        triad, multiplier = body[10:18], body[18]
        form = "<IIIIBB" if large else "<IHIHBB"
        end = 22 + struct.calcsize(form)
        o_t_rpi, _, t_o_rpi, t_o_word, _, _ = struct.unpack(form, body[22:end])
        points = points_of(body[end:])
        size = (t_o_word & (0xFFFF if large else 0x1FF)) - 2
        if refusal is not None:
            return self.refusal(service, refusal, triad)
        if any(it.triad == triad for it in self.connections):
            return self.refusal(service, (IN_USE,), triad)
        if points[0] < FIRST_HEARTBEAT and any(it.points[0] == points[0] for it in self.connections):
            return self.refusal(service, (OWNED,), triad)
        if len(self.connections) >= self.places:
            return self.refusal(service, (FULL,), triad)
        made = Connection(stream.peer, stream, triad, points, self.next_id, t_o, o_t_rpi, t_o_rpi, multiplier, size)
        self.next_id += 1
        made.granted_ms, made.o_t_us = (1 << (tick & 15)) * ticks, o_t_rpi
        self.connections.append(made)
        self.o_t_us, self.t_o_us = o_t_rpi, t_o_rpi
        return made

    def success(self, service, made, kind):
        triad, t_o, t_o_us = made.triad, made.t_o, self.t_o_us
        if kind == "triad":
            triad = struct.pack("<H", made.serial() ^ 0x5555) + triad[2:]
        if kind == "id":
            t_o ^= 0x00FF0000
        if kind == "api":
            t_o_us = 0
        words = self.moods.more_words if kind == "words" else ()
        return (bytes([service | 0x80, 0, 0, len(words)]) + struct.pack(f"<{len(words)}H", *words)
                + struct.pack("<II", made.o_t, t_o) + triad + struct.pack("<IIBB", self.o_t_us, t_o_us, 0, 0))

    def refusal(self, service, words, triad):
        self.note(f"refused {words[0]:04x}")
        return bytes([service | 0x80, 0, CONNECTION_FAILURE, len(words)]) + struct.pack(f"<{len(words)}H", *words) + triad + b"\0\0"

    def item(self):
        """A socket address item of O->T (Volume 2, chapter 2)."""
        if not self.moods.item:
            return b""
        address, port = self.moods.item
        return struct.pack("<HH", 0x8000, 16) + struct.pack(">HH4s8x", 2, port, socket.inet_aton(address))

    def close(self, body):
        """The reply, and after how many seconds it is sent. None: never.

        The mood is "serve"; "deaf": nothing is closed or answered; "never": it is closed, and not answered; ("late", seconds);
        "refuse": nothing is closed; "as_open": it is closed, and answered as an open."""
        mood = self.moods.closes.popleft() if self.moods.closes else self.moods.every_close
        kind = mood if isinstance(mood, str) else mood[0]
        triad = body[2:10]
        found = [it for it in self.connections if it.triad == triad]
        self.note("close" if found else "close of none")
        if kind == "deaf":
            return None, 0.0
        if kind != "refuse":
            self.connections = [it for it in self.connections if it.triad != triad]
        if kind == "never":
            return None, 0.0
        after = mood[1] if kind == "late" else 0.0
        if kind == "as_open":
            return bytes([FORWARD_OPEN | 0x80, 0, 0, 0]) + struct.pack("<II", 1, 1) + triad + struct.pack("<IIBB", 10000, 10000, 0, 0), after
        if kind == "refuse" or not found:
            return bytes([0xCE, 0, CONNECTION_FAILURE, 1]) + struct.pack("<H", NOT_FOUND) + triad + b"\0\0", after
        return bytes([0xCE, 0, 0, 0]) + triad + b"\0\0", after

    # DATAGRAMS (Volume 2, chapter 2)

    def receive(self, packet, peer, at):
        if len(packet) < 20:
            return
        identifier = struct.unpack("<I", packet[6:10])[0]
        found = [it for it in self.connections if it.o_t == identifier]
        if not found:
            self.unknown[identifier] += 1
            return
        connection = found[0]
        connection.received += 1
        connection.came_to[at.getsockname()] += 1
        connection.came.append((time.monotonic(), packet[20:]))
        connection.deadline = time.monotonic() + connection.time_out

    def produce(self):
        now = time.monotonic()
        self.connections = [it for it in self.connections if now < it.deadline]
        for it in self.connections:
            if self.moods.silent or it.points[1] in self.moods.mute_points or now < it.due:
                continue
            it.due, it.sequence = max(it.due + it.rpi, now), it.sequence + 1
            size = it.size if self.moods.size is None else self.moods.size
            value = (struct.pack("<I", it.sequence) + bytes(size))[:size]
            head = struct.pack("<HHHIIHHH", 2, 0x8002, 8, it.t_o, it.sequence, 0xB1, 2 + size, it.sequence % 65536)
            self.udp.sendto(head + value, (it.peer, self.peer_udp))

    # TURNS

    def end_stream(self, stream):
        if stream in self.streams:
            self.streams.remove(stream)
        stream.tcp.close()
        self.sessions = {number: of for number, of in self.sessions.items() if of is not stream}
        if self.moods.ends_with_stream:
            self.connections = [it for it in self.connections if it.stream is not stream]

    def turn(self):
        if self.drops:
            self.drops = False
            for stream in list(self.streams):
                self.end_stream(stream)
        readable, _, _ = select.select([self.listener, self.udp, *self.further, *(it.tcp for it in self.streams)], [], [], 0.001)
        if self.listener in readable:
            tcp, (peer, _) = self.listener.accept()
            self.streams.append(Stream(tcp, peer))
            self.note("stream")
        for udp in (self.udp, *self.further):
            if udp in readable:
                packet, (peer, _) = udp.recvfrom(65535)
                self.receive(packet, peer, udp)
        for stream in list(self.streams):
            if stream.tcp in readable:
                try:
                    for message in stream.messages():
                        self.answer(stream, message)
                except OSError:
                    self.end_stream(stream)
        self.send_waiting()
        self.produce()

    def send_waiting(self):
        now = time.monotonic()
        due = [it for it in self.waiting if it[0] <= now]
        self.waiting = [it for it in self.waiting if it[0] > now]
        for _, stream, bytes_ in due:
            try:
                self.send(stream, bytes_)
            except OSError:
                self.end_stream(stream)

    def stop(self):
        for it in [self.listener, self.udp, *self.further, *(stream.tcp for stream in self.streams)]:
            it.close()


def points_of(path):
    """The consumed and the produced point of a connection path: maybe an inhibit time, class 4, maybe a configuration, then both."""
    points = []
    while path and path[0] != 0x80:
        if path[0] == 0x34:
            path = path[10:]
        elif path[0] in (0x24, 0x2C):
            points, path = points + [path[1]], path[2:]
        elif path[0] in (0x25, 0x2D):
            points, path = points + [struct.unpack("<H", path[2:4])[0]], path[4:]
        else:
            path = path[2:]
    return points[-2:]


def main():
    parser = argparse.ArgumentParser(description=__doc__, formatter_class=argparse.RawDescriptionHelpFormatter)
    parser.add_argument("--own", required=True)
    for name, default in [("tcp", 44818), ("udp", 2222), ("peer-udp", 2222), ("places", 8)]:
        parser.add_argument(f"--{name}", type=int, default=default)
    parser.add_argument("--seconds", type=float, default=5.0)
    args = parser.parse_args()
    target, end = Target(args.own, args.tcp, args.udp, args.peer_udp, args.places), time.monotonic() + args.seconds
    while time.monotonic() < end:
        target.turn()
    print(f"{len(target.connections)} connections, {len(target.sessions)} sessions, {dict(target.counts)}")
    target.stop()


if __name__ == "__main__":
    try:
        main()
    except OSError as fault:
        sys.exit(f"target: {fault}")
