#!/usr/bin/env python3
"""An adapter of EtherNet/IP class 1 connections, written from the standard alone. It shares no code with the crates.

    tools/peers/small_adapter.py --own ADDRESS [--tcp P] [--udp P] [--peer-udp P] [--output 150 --out-len 4] [--input 100 --in-len 4]
        [--seconds S] [--want N] [--echo] [--keep-output]

It serves one output and one input: any peer may register a session and open one connection at a time, exclusive owner
(the connection path's consumed point is --output) or input only (any other point), point to point. It sends the input
at the requested interval: a count, or with --echo the output. The output is 0 without an owner; with --keep-output it stays as the
owner left it, which is a bug on purpose. After --seconds it ends with status 0 if it received and sent
--want datagrams and no message was other than the standard says, else it names the first difference.
"""
import argparse, select, socket, struct, sys, time


class Difference(Exception):
    pass


def expect(what, got, wanted):
    if got != wanted:
        raise Difference(f"{what}: {got!r}, and not {wanted!r}")


class Stream:
    """A TCP connection of a peer: its bytes become messages, each of which is answered (Volume 2, chapter 2)."""

    def __init__(self, tcp, peer):
        self.tcp, self.peer, self.bytes, self.session = tcp, peer, b"", 0

    def messages(self):
        """The messages that came, or None at the end of the stream."""
        try:
            got = self.tcp.recv(65535)
        except ConnectionError:
            return None
        if not got:
            return None
        self.bytes += got
        messages = []
        while len(self.bytes) >= 24 and len(self.bytes) >= 24 + struct.unpack("<H", self.bytes[2:4])[0]:
            end = 24 + struct.unpack("<H", self.bytes[2:4])[0]
            messages.append(self.bytes[:end])
            self.bytes = self.bytes[end:]
        return messages

    def reply(self, command, context, data):
        self.tcp.sendall(struct.pack("<HHII8sI", command, len(data), self.session, 0, context, 0) + data)


class Adapter:
    def __init__(self, args):
        self.args = args
        self.listener = socket.create_server((args.own, args.tcp))
        self.udp = socket.socket(socket.AF_INET, socket.SOCK_DGRAM)
        self.udp.bind((args.own, args.udp))
        self.streams, self.connection, self.next_id, self.sessions = [], None, 0x40000001, 0
        self.output = bytes(args.out_len)
        self.received = self.sent = self.opened = self.closed = 0

    def answer(self, stream, message):
        command, length, session, status, context, options = struct.unpack("<HHII8sI", message[:24])
        expect("the status and the options of a request", (status, options), (0, 0))
        if command == 0x65:
            expect("protocol version and options of RegisterSession", message[24:], struct.pack("<HH", 1, 0))
            expect("the session of RegisterSession", session, 0)
            self.sessions += 1
            stream.session = self.sessions
            stream.reply(command, context, message[24:])
        elif command == 0x66:
            expect("the session of UnRegisterSession", session, stream.session)
            return False
        elif command == 0x6F:
            expect("the session of SendRRData", session, stream.session)
            stream.reply(command, context, self.packet(stream.peer, message[24:]))
        else:
            raise Difference(f"command {command:#06x}")
        return True

    def packet(self, peer, data):
        interface, _, count, null, none, kind, length = struct.unpack("<IHHHHHH", data[:16])
        expect("interface and first items of SendRRData", (interface, null, none, kind), (0, 0, 0, 0xB2))
        reply = self.served(peer, data[16:16 + length])
        return struct.pack("<IHHHHHH", 0, 0, 2, 0, 0, 0xB2, len(reply)) + reply

    def served(self, peer, request):
        service, words = request[0], request[1]
        path, body = request[2:2 + 2 * words], request[2 + 2 * words:]
        expect("the path of a request", path, bytes([0x20, 6, 0x24, 1]))
        if service == 0x54:
            return self.open(peer, body)
        if service == 0x4E:
            return self.close(body)
        raise Difference(f"service {service:#04x}")

    def open(self, peer, body):
        """Forward_Open (Volume 1, chapter 3)."""
        _, _, o_t, t_o = struct.unpack("<BBII", body[:10])
        triad, multiplier = body[10:18], body[18]
        o_t_rpi, o_t_word, t_o_rpi, t_o_word, trigger, words = struct.unpack("<IHIHBB", body[22:36])
        path = body[36:]
        expect("the length of a connection path", len(path), 2 * words)
        expect("the transport class", trigger & 0x0F, 1)
        expect("the connection types", (o_t_word >> 13 & 3, t_o_word >> 13 & 3), (2, 2))
        points = points_of(path)
        owner = points[-2] == self.args.output
        expect("the produced point", points[-1], self.args.input)
        expect("the connection sizes", (o_t_word & 511, t_o_word & 511),
               (6 + self.args.out_len if owner else 2, 2 + self.args.in_len))
        if self.connection:
            return bytes([0xD4, 0, 1, 1]) + struct.pack("<H", 0x0106) + triad + b"\0\0"
        self.connection = {"peer": peer, "triad": triad, "o_t": self.next_id, "t_o": t_o, "owner": owner,
                           "rpi": t_o_rpi / 1e6, "due": time.monotonic(), "sequence": 0, "last": None,
                           "time_out": (4 << multiplier) * o_t_rpi / 1e6, "fed": time.monotonic() + 10}
        self.next_id, self.opened = self.next_id + 1, self.opened + 1
        return bytes([0xD4, 0, 0, 0]) + struct.pack("<II", self.next_id - 1, t_o) + triad + struct.pack("<IIBB", o_t_rpi, t_o_rpi, 0, 0)

    def close(self, body):
        """Forward_Close (Volume 1, chapter 3)."""
        triad = body[2:10]
        expect("the length of the path of a close", len(body) - 12, 2 * body[10])
        if not self.connection or self.connection["triad"] != triad:
            return bytes([0xCE, 0, 1, 1]) + struct.pack("<H", 0x0107) + triad + b"\0\0"
        self.end_connection()
        self.closed += 1
        return bytes([0xCE, 0, 0, 0]) + triad + b"\0\0"

    def receive(self, packet, peer):
        """A datagram to the target (Volume 2, chapter 2): a sequenced address and connected data."""
        if not self.connection or peer != self.connection["peer"]:
            return
        count, kind, length, identifier, sequence, data, size = struct.unpack("<HHHIIHH", packet[:18])
        expect("the items of a datagram", (count, kind, length, data), (2, 0x8002, 8, 0xB1))
        expect("the length of a datagram", len(packet), 18 + size)
        connection = self.connection
        if identifier != connection["o_t"]:
            return
        if connection["last"] is not None and not 0 < (sequence - connection["last"]) % 2**32 < 2**31:
            raise Difference(f"sequence number {sequence} behind {connection['last']}")
        connection["last"], connection["fed"] = sequence, time.monotonic()
        self.received += 1
        expect("the size of a datagram's data", size, 6 + self.args.out_len if connection["owner"] else 2)
        if connection["owner"]:
            run = struct.unpack("<I", packet[20:24])[0] & 1
            self.output = packet[24:] if run else bytes(self.args.out_len)

    def end_connection(self):
        """The connection has ended: the output that it owned is 0, unless a bug on purpose keeps it."""
        if self.connection["owner"] and not self.args.keep_output:
            self.output = bytes(self.args.out_len)
        self.connection = None

    def produce(self):
        connection = self.connection
        if not connection:
            return
        now = time.monotonic()
        if now > connection["fed"] + connection["time_out"]:
            self.end_connection()
        elif now >= connection["due"]:
            connection["due"] = max(connection["due"] + connection["rpi"], now)
            connection["sequence"] += 1
            self.sent += 1
            value = self.output if self.args.echo else struct.pack("<Q", self.sent)
            value = (value + bytes(self.args.in_len))[:self.args.in_len]
            head = struct.pack("<HHHIIHHH", 2, 0x8002, 8, connection["t_o"], connection["sequence"], 0xB1,
                               2 + len(value), connection["sequence"] % 65536)
            self.udp.sendto(head + value, (connection["peer"], self.args.peer_udp))

    def turn(self):
        sockets = {stream.tcp: stream for stream in self.streams}
        readable, _, _ = select.select([self.listener, self.udp, *sockets], [], [], 0.001)
        if self.listener in readable:
            tcp, (peer, _) = self.listener.accept()
            self.streams.append(Stream(tcp, peer))
        if self.udp in readable:
            packet, (peer, _) = self.udp.recvfrom(65535)
            self.receive(packet, peer)
        for tcp in readable:
            stream = sockets.get(tcp)
            if not stream:
                continue
            messages = stream.messages()
            if messages is None or not all(self.answer(stream, message) for message in messages):
                stream.tcp.close()
                self.streams.remove(stream)
        self.produce()


def points_of(path):
    """The instances and connection points of a connection path: class 4, configuration or none, consumed, produced."""
    points = []
    while path and path[0] not in (0x80, 0x43):
        if path[0] == 0x34:
            path = path[10:]
        elif path[0] in (0x24, 0x2C):
            points, path = points + [path[1]], path[2:]
        elif path[0] in (0x25, 0x2D):
            points, path = points + [struct.unpack("<H", path[2:4])[0]], path[4:]
        elif path[0] == 0x20:
            expect("the class of a connection path", path[1], 4)
            path = path[2:]
        else:
            raise Difference(f"segment {path[0]:#04x}")
    return points


def arguments(words=None):
    parser = argparse.ArgumentParser(description=__doc__, formatter_class=argparse.RawDescriptionHelpFormatter)
    parser.add_argument("--own", required=True)
    for name, default in [("tcp", 44818), ("udp", 2222), ("peer-udp", 2222), ("output", 150), ("out-len", 4), ("input", 100),
                          ("in-len", 4), ("want", 1)]:
        parser.add_argument(f"--{name}", type=int, default=default)
    parser.add_argument("--seconds", type=float, default=5.0)
    parser.add_argument("--echo", action="store_true")
    parser.add_argument("--keep-output", action="store_true")
    return parser.parse_args(words)


def main():
    args = arguments()
    try:
        adapter, end = Adapter(args), time.monotonic() + args.seconds
        while time.monotonic() < end:
            adapter.turn()
        print(f"opened {adapter.opened}, closed {adapter.closed}, received {adapter.received}, sent {adapter.sent}")
        if adapter.received < args.want or adapter.sent < args.want:
            raise Difference(f"fewer than {args.want} datagrams")
    except (Difference, OSError, struct.error, IndexError) as error:
        sys.exit(f"small_adapter: {type(error).__name__}: {error}")


if __name__ == "__main__":
    main()
