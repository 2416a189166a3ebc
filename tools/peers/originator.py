#!/usr/bin/env python3
"""An originator of EtherNet/IP class 1 connections, written from the standard alone. It shares no code with the crates.

    tools/peers/originator.py TARGET --own ADDRESS [--tcp P] [--udp P] [--output 150 --out-len 4] [--input 100 --in-len 4]
        [--config N] [--input-only 152 --listen-only 153] [--seconds S] [--rpi-ms N] [--multiplier CODE] [--list] [--no-multicast]

It registers a session, opens a connection of each kind (exclusive owner, input only, listen only; point to point and
multicast), exchanges data both ways, reads the output back, closes the connections and unregisters the session. --list
asks for the target's identity over UDP and TCP first. ADDRESS is its own address: it receives on UDP port --udp there.
It ends with status 0 if all was as the standard says, else it names the first difference and ends with status 1.
"""
import argparse, select, socket, struct, sys, time

EXCLUSIVE, INPUT_ONLY, LISTEN_ONLY = "exclusive owner", "input only", "listen only"
POINT_TO_POINT, MULTICAST = 2, 1


class Difference(Exception):
    pass


def expect(what, got, wanted):
    if got != wanted:
        raise Difference(f"{what}: {got!r}, and not {wanted!r}")


class Session:
    """A TCP connection with a registered session (Volume 2, chapter 2)."""

    addresses = []  # socket address items behind each request

    def __init__(self, args):
        self.tcp = socket.create_connection((args.target, args.tcp), args.patience, (args.own, 0))
        self.handle, self.context = 0, 0
        data = self.call(0x65, struct.pack("<HH", 1, 0), session=None)
        expect("protocol version and options of the session", data, struct.pack("<HH", 1, 0))

    def bytes(self, count):
        got = b""
        while len(got) < count:
            more = self.tcp.recv(count - len(got))
            if not more:
                raise Difference("the target closed the stream")
            got += more
        return got

    def send(self, command, data):
        self.context += 1
        context = struct.pack("<Q", self.context)
        self.tcp.sendall(struct.pack("<HHII8sI", command, len(data), self.handle, 0, context, 0) + data)
        return context

    def call(self, command, data, session=True):
        context = self.send(command, data)
        head = self.bytes(24)
        got, length, handle, status, echoed, options = struct.unpack("<HHII8sI", head)
        expect("the command of a reply", got, command)
        expect("the status of an encapsulation reply", status, 0)
        expect("the sender context of a reply", echoed, context)
        expect("the options of a reply", options, 0)
        if session is None and command == 0x65:
            self.handle = handle
            if handle == 0:
                raise Difference("the session handle is 0")
        elif session:
            expect("the session of a reply", handle, self.handle)
        return self.bytes(length)

    def request(self, request):
        """A request to the message router, and its reply with the other items of the packet."""
        packet = struct.pack("<IHHHHHH", 0, 5, 2 + len(self.addresses), 0, 0, 0xB2, len(request)) + request + b"".join(self.addresses)
        items = items_of(self.call(0x6F, packet)[6:])
        expect("the types of the first two items", [kind for kind, _ in items[:2]], [0, 0xB2])
        reply = items[1][1]
        expect("the service of a reply", reply[0], request[0] | 0x80)
        general, words = reply[2], reply[3]
        extended = struct.unpack(f"<{words}H", reply[4:4 + 2 * words])
        return general, extended, reply[4 + 2 * words:], dict(items[2:])


def items_of(packet):
    """The items of a common packet (Volume 2, chapter 2)."""
    (count,), rest, items = struct.unpack("<H", packet[:2]), packet[2:], []
    for _ in range(count):
        kind, length = struct.unpack("<HH", rest[:4])
        if len(rest) < 4 + length:
            raise Difference("an item ends behind its packet")
        items.append((kind, rest[4:4 + length]))
        rest = rest[4 + length:]
    expect("bytes behind the items of a packet", rest, b"")
    return items


class Connection:
    """A class 1 connection (Volume 1, chapter 3): opened, fed, received, closed."""

    serial = 0

    def __init__(self, args, session, kind, to_originator, group=None):
        Connection.serial += 1
        self.args, self.session, self.kind, self.to_originator = args, session, kind, to_originator
        self.sequence, self.count, self.seen, self.last = 0, 0, 0, None
        self.triad = struct.pack("<HHI", Connection.serial, 0x1337, 0xC0FFEE)
        self.asked_id = 0x70000000 + Connection.serial
        self.group = group

    def path(self):
        consumed = {EXCLUSIVE: self.args.output, INPUT_ONLY: self.args.input_only, LISTEN_ONLY: self.args.listen_only}
        path = bytes([0x20, 4])
        if self.args.config is not None:
            path += bytes([0x24, self.args.config])
        return path + bytes([0x2C, consumed[self.kind], 0x2C, self.args.input])

    def intervals(self):
        """The requested packet intervals of O->T, which may have one of its own, and T->O, in microseconds."""
        return getattr(self.args, "consumed_ms", self.args.rpi_ms) * 1000, self.args.rpi_ms * 1000

    def open(self):
        consumed, produced = self.intervals()
        out = 6 + self.args.out_len if self.kind == EXCLUSIVE else 2
        sizes, flags = (out, 2 + self.args.in_len), (0x4800, self.to_originator << 13 | 0x0800)
        large = max(sizes) > 511  # Large_Forward_Open: the flags are 16 bits above a size of 16 bits
        words = [flag << 16 * large | size for flag, size in zip(flags, sizes)]
        path = self.path()
        body = bytes([10, 250]) + struct.pack("<II", 0, self.asked_id) + self.triad + bytes([self.args.multiplier, 0, 0, 0])
        body += struct.pack("<IIII" if large else "<IHIH", consumed, words[0], produced, words[1]) + bytes([0x01, len(path) // 2]) + path
        return self.session.request(bytes([0x5B if large else 0x54, 2, 0x20, 6, 0x24, 1]) + body)

    def establish(self):
        general, extended, data, items = self.open()
        expect(f"the status of the reply to the open, {self.kind}", (general, extended), (0, ()))
        self.o_t, self.t_o = struct.unpack("<II", data[:8])
        expect("the triad of the reply to the open", data[8:16], self.triad)
        expect("the actual packet intervals", struct.unpack("<II", data[16:24]), self.intervals())
        expect("the size of an application reply and the reserved byte", data[24:], b"\0\0")
        if self.to_originator == POINT_TO_POINT:
            expect("the T->O id of a point to point connection", self.t_o, self.asked_id)
        else:
            family, port, address = struct.unpack(">HH4s", items[0x8001][:8])
            expect("the family and port of the T->O socket address", (family, port), (2, 2222))
            expect("the first bits of a group's address", address[0] >> 4, 14)
            self.group = socket.inet_ntoa(address)
        return self

    def refused(self, wanted):
        general, extended, data, _ = self.open()
        expect(f"the status of a refused open, {self.kind}", (general, extended), wanted)
        expect("the triad of a refused open", data[:8], self.triad)

    def produce(self, udp, data, run=1):
        self.sequence, self.count = self.sequence + 1, self.count + 1
        body = struct.pack("<H", self.count)
        if self.kind == EXCLUSIVE:
            body += struct.pack("<I", run) + data
        packet = struct.pack("<HHHIIHH", 2, 0x8002, 8, self.o_t, self.sequence, 0xB1, len(body)) + body
        udp.sendto(packet, (self.args.target, self.args.target_udp))

    def receive(self, packet):
        """A datagram of the connection: its sequence number rises, its data have the input's length."""
        items = items_of(packet)
        expect("the types of a datagram's items", [kind for kind, _ in items], [0x8002, 0xB1])
        connection, sequence = struct.unpack("<II", items[0][1])
        if connection != self.t_o:
            return
        expect("the length of a datagram's data", len(items[1][1]), 2 + self.args.in_len)
        if self.last is not None and not 0 < (sequence - self.last) % 2**32 < 2**31:
            raise Difference(f"sequence number {sequence} behind {self.last}")
        self.last, self.seen, self.data = sequence, self.seen + 1, items[1][1][2:]

    def close(self):
        path = self.path()
        body = bytes([10, 250]) + self.triad + bytes([len(path) // 2, 0]) + path
        general, extended, data, _ = self.session.request(bytes([0x4E, 2, 0x20, 6, 0x24, 1]) + body)
        expect("the status of the reply to the close", (general, extended), (0, ()))
        expect("the triad of the reply to the close", data[:8], self.triad)


class Sockets:
    """The UDP sockets of the originator: its own address, and the groups that it joins."""

    def __init__(self, args):
        self.args, self.own = args, self.bound(args.own, args.udp)
        self.groups = {}

    def bound(self, address, port):
        udp = socket.socket(socket.AF_INET, socket.SOCK_DGRAM)
        udp.setsockopt(socket.SOL_SOCKET, socket.SO_REUSEADDR, 1)
        udp.bind((address, port))
        return udp

    def join(self, group):
        if group not in self.groups:
            self.groups[group] = self.bound(group, 2222)
            member = socket.inet_aton(group) + socket.inet_aton(self.args.own)
            try:
                self.groups[group].setsockopt(socket.IPPROTO_IP, socket.IP_ADD_MEMBERSHIP, member)
            except OSError:
                pass  # an interface without groups: the target sends copies

    def exchange(self, connections, data, seconds, run=1):
        """Both ways for some seconds: each connection produces at its interval, and receives what is its own."""
        end, due = time.monotonic() + seconds, 0.0
        while time.monotonic() < end:
            if time.monotonic() >= due:
                due = time.monotonic() + self.args.rpi_ms / 1000
                for connection in connections:
                    connection.produce(self.own, data, run)
            readable, _, _ = select.select([self.own, *self.groups.values()], [], [], 0.001)
            for udp in readable:
                packet = udp.recv(65535)
                for connection in connections:
                    connection.receive(packet)


def exchange(args, session, sockets, connections, what):
    for connection in connections:
        if connection.group:
            sockets.join(connection.group)
    data = bytes((17 * (i + Connection.serial)) % 256 for i in range(args.out_len))
    sockets.exchange(connections, data, args.seconds)
    wanted = args.seconds * 1000 / args.rpi_ms / 2
    for connection in connections:
        if connection.seen < wanted:
            raise Difference(f"{connection.kind}: {connection.seen} datagrams in {args.seconds} s, fewer than {wanted}")
    if any(connection.kind == EXCLUSIVE for connection in connections):
        path = bytes([0x20, 4, 0x25, 0]) + struct.pack("<H", args.output) + bytes([0x30, 3])
        general, extended, value, _ = session.request(bytes([0x0E, len(path) // 2]) + path)
        expect("the status of Get_Attribute_Single", (general, extended), (0, ()))
        expect("the output that the owner set", value, data)
    print(f"{what}: {', '.join(str(connection.seen) for connection in connections)} datagrams")


def identity(args):
    """ListIdentity over UDP and over TCP (Volume 2, chapter 2): one item of type 12."""
    asked = struct.pack("<HHII8sI", 0x63, 0, 0, 0, b"\0\0whoami"[:8], 0)
    udp = socket.socket(socket.AF_INET, socket.SOCK_DGRAM)
    udp.bind((args.own, 0))
    udp.settimeout(args.patience)
    udp.sendto(asked, (args.target, args.tcp))
    tcp = socket.create_connection((args.target, args.tcp), args.patience, (args.own, 0))
    tcp.sendall(asked)
    tcp.settimeout(args.patience)
    for how, reply in ("UDP", udp.recv(2048)), ("TCP", tcp.recv(2048)):
        command, length, _, status = struct.unpack("<HHII", reply[:12])
        expect(f"the command, status and length of ListIdentity over {how}",
               (command, status, length), (0x63, 0, len(reply) - 24))
        [(kind, item)] = items_of(reply[24:])
        expect("the type of the identity item", kind, 12)
        version, family, port, address = struct.unpack("<H", item[:2]) + struct.unpack(">HH4s", item[2:10])
        expect("version, family and port of the identity item", (version, family, port), (1, 2, args.tcp))
        expect("the address of the identity item", socket.inet_ntoa(address), args.target)
        vendor, kind, product, major, minor, _, serial = struct.unpack("<HHHBBHI", item[18:32])
        name = item[33:33 + item[32]].decode("ascii")
        expect("the length of the identity item", len(item), 34 + len(name))
        print(f"identity over {how}: vendor {vendor} type {kind} product {product} revision {major}.{minor} "
              f"serial {serial:08x} name {name!r} state {item[-1]}")


def run(args):
    if args.list:
        identity(args)
    session, sockets = Session(args), Sockets(args)
    Connection(args, session, LISTEN_ONLY, MULTICAST).refused((1, (0x0119,)))
    owner = Connection(args, session, EXCLUSIVE, POINT_TO_POINT).establish()
    Connection(args, session, EXCLUSIVE, POINT_TO_POINT).refused((1, (0x0106,)))
    exchange(args, session, sockets, [owner], "exclusive owner, point to point")
    owner.close()
    reader = Connection(args, session, INPUT_ONLY, POINT_TO_POINT).establish()
    exchange(args, session, sockets, [reader], "input only, point to point")
    reader.close()
    if not args.no_multicast:
        owner = Connection(args, session, EXCLUSIVE, MULTICAST).establish()
        reader = Connection(args, session, INPUT_ONLY, MULTICAST).establish()
        listener = Connection(args, session, LISTEN_ONLY, MULTICAST).establish()
        expect("the T->O ids of one group", {owner.t_o, reader.t_o}, {listener.t_o})
        expect("the addresses of one group", {owner.group, reader.group}, {listener.group})
        exchange(args, session, sockets, [owner, reader, listener], "owner, reader and listener of one group")
        for connection in listener, reader, owner:
            connection.close()
    session.send(0x66, b"")
    expect("what follows UnRegisterSession", session.tcp.recv(1), b"")


def arguments(words=None):
    parser = argparse.ArgumentParser(description=__doc__, formatter_class=argparse.RawDescriptionHelpFormatter)
    parser.add_argument("target")
    parser.add_argument("--own", required=True)
    for name, default in [("tcp", 44818), ("udp", 2222), ("target-udp", 2222), ("output", 150), ("out-len", 4), ("input", 100),
                          ("in-len", 4), ("config", None), ("input-only", 152), ("listen-only", 153), ("rpi-ms", 10), ("multiplier", 2)]:
        parser.add_argument(f"--{name}", type=int, default=default)
    parser.add_argument("--seconds", type=float, default=1.0)
    parser.add_argument("--patience", type=float, default=10.0, help="seconds for a reply")
    parser.add_argument("--list", action="store_true")
    parser.add_argument("--no-multicast", action="store_true")
    return parser.parse_args(words)


def main():
    try:
        run(arguments())
    except (Difference, OSError, struct.error, KeyError, ValueError) as error:
        sys.exit(f"originator: {type(error).__name__}: {error}")


if __name__ == "__main__":
    main()
