#!/usr/bin/env python3
"""Asks a device what conformance tests, controllers and tools ask, and compares each answer with the one that the standard wants. It
shares no code with the devices of this repository.

    tools/peers/browser.py HOST [--port PORT] [--own ADDRESS] [--patience S] [--profile FILE] [--serial N] [--name TEXT]
                     [--identity VENDOR,TYPE,PRODUCT,MAJOR,MINOR] [--node ADDRESS] [--mask MASK] [--inactivity S]
                     [--link SPEED,FLAGS,MAC] [--output INSTANCE=LEN ..] [--input INSTANCE=LEN ..] [--config INSTANCE=LEN]
                     [--heartbeats INPUTONLY,LISTENONLY] [--resets] [--only RULE ..] [--all]

questions.py has the questions and the answers. What the maker says of the device is in its profile (--profile, as docs/PROFILE.md
has it) and in the options, which go before it; what neither says is taken from the device's reply to ListIdentity. Without points
nothing is opened. --resets asks for resets too, --only asks what these rules of docs/PROFILE.md say, --all prints each question.

It prints what ListIdentity and the attributes say, each question that is answered otherwise, with what was asked, wanted and got,
and `N questions, M answered otherwise`. What devices of this repository do not serve yet is counted by itself (`LEFT`). Status: 0 if
all is as it is to be; 1 if anything is otherwise, or if all of a part of `LEFT` is served; 2 if the device does not answer.
"""
import argparse, collections, fnmatch, ipaddress, socket, struct, sys, time

sys.dont_write_bytecode = True
import forms, questions  # noqa: E402

MOST_IN_A_SECOND = 24  # inquiries: a station takes 32
FENCE = forms.LIST_INTERFACES  # the message whose reply says that all others have come
NONE, END = "none", "end"  # no reply; the stream ends


def in_words(reply, asked):
    """A reply's status and data, and what of its header is not that of the request."""
    command, length, session, status, context, options = struct.unpack_from("<HHII8sI", reply)
    wanted = struct.unpack_from("<HHII8sI", asked)
    wrong = [name for name, is_so in (
        ("command", command == wanted[0]), ("length", length == len(reply) - 24), ("context", context == wanted[4]), ("options", options == 0),
        ("session", session == wanted[2] or command == forms.REGISTER),
    ) if not is_so]
    return f"{status:04x} {reply[24:].hex()}".strip() + "".join(f", another {name}" for name in wrong)


def items_of(packet):
    """The items behind interface handle and time-out."""
    interface, timeout, count = struct.unpack_from("<IHH", packet)
    items, at = [], 8
    for _ in range(count):
        kind, length = struct.unpack_from("<HH", packet, at)
        items.append((kind, packet[at + 4:at + 4 + length]))
        at += 4 + length
    if (interface, timeout, at) != (0, 0, len(packet)):
        raise ValueError(f"no items: {packet.hex()}")
    return items


class Stream:
    """A stream to a device, and the session on it."""

    def __init__(self, at, own, patience):
        end, self.session, self.fences = time.monotonic() + patience, 0, 0
        while True:
            try:
                self.tcp = socket.create_connection(at, patience, (own, 0) if own else None)
                break
            except ConnectionRefusedError:
                if time.monotonic() > end:
                    raise
                time.sleep(0.02)
        self.tcp.setsockopt(socket.IPPROTO_TCP, socket.TCP_NODELAY, 1)

    def received(self):
        """The next message; nothing at the end of the stream."""
        try:
            head = self.bytes(24)
            return head + self.bytes(struct.unpack_from("<H", head, 2)[0])
        except (ConnectionError, EOFError):
            return None

    def bytes(self, count):
        data = b""
        while len(data) < count:
            piece = self.tcp.recv(count - len(data))
            if not piece:
                raise EOFError
            data += piece
        return data

    def replies(self, asked):
        """What comes back until the reply to a message behind this one, and nothing more if the stream ends."""
        self.fences += 1
        context, got = struct.pack("<4sI", b"last", self.fences), []
        try:
            self.tcp.sendall(asked + forms.message(FENCE, context=context))
        except ConnectionError:
            return [None]
        while (reply := self.received()) is not None and reply[12:20] != context:
            got.append(reply)
        return got + ([None] if reply is None else [])

    def exchanged(self, command, data=b""):
        self.tcp.sendall(forms.message(command, data, self.session))
        reply = self.received()
        if reply is None:
            raise ConnectionError("the device ended the stream")
        return reply

    def register(self):
        self.session = struct.unpack_from("<I", self.exchanged(forms.REGISTER, struct.pack("<HH", 1, 0)), 4)[0]
        return self

    def close(self):
        self.tcp.close()


class Device:
    """A device at its encapsulation port, as questions ask it. Each call answers in words."""

    def __init__(self, options, maker):
        self.options, self.at, self.maker, self.sent, self.serial = options, (options.host, options.port), maker, collections.deque(), 0
        self.given = set()  # the connection ids that it has given
        self.udp = socket.socket(socket.AF_INET, socket.SOCK_DGRAM)
        if options.own:
            self.udp.bind((options.own, 0))
        self.udp.settimeout(options.patience)
        self.consumer = self.consuming()
        self.begin()

    def consuming(self):
        """Takes what class 1 connections of this host consume, so that the system sends no word of a closed port."""
        udp = socket.socket(socket.AF_INET, socket.SOCK_DGRAM)
        try:
            udp.bind((self.options.own or "127.0.0.1", 2222))
        except OSError:
            pass  # (another program has the port)
        return udp

    def begin(self):
        """A session, and a class 3 connection over it."""
        self.main = self.stream().register()
        self.class3, self.count = None, 0
        self.class3 = self.connect(forms.OWNER | {"kind": "class3", "rpi": 1_000_000, "multiplier": 7})
        if self.class3 is None:
            raise ConnectionError("it opens no class 3 connection")

    def stream(self):
        return Stream(self.at, self.options.own, self.options.patience)

    # ENCAPSULATION

    def datagram(self, bytes_):
        """The replies to a datagram, in words."""
        self.fence = getattr(self, "fence", 0) + 1
        context, got = struct.pack("<4sI", b"last", self.fence), []
        for each in bytes_, forms.message(FENCE, context=context):
            self.pace()
            self.udp.sendto(each, self.at)
        while (reply := self.udp.recvfrom(4096)[0])[12:20] != context:
            got.append(in_words(reply, bytes_))
        return ", then ".join(got) or NONE

    def pace(self):
        while len(self.sent) >= MOST_IN_A_SECOND and time.monotonic() - self.sent[0] < 1.1:
            time.sleep(0.01)
        if len(self.sent) >= MOST_IN_A_SECOND:
            self.sent.popleft()
        self.sent.append(time.monotonic())

    def over(self, stream, bytes_):
        """The replies to a message of a stream, in words."""
        return ", then ".join(END if it is None else in_words(it, bytes_) for it in stream.replies(bytes_)) or NONE

    def frame(self, bytes_, session=False):
        """The same over a new stream, with or without a session, whose handle is put into the message. A message may be several."""
        stream = self.stream()
        try:
            if session:
                bytes_ = bytes_(stream.register().session)
            return self.over(stream, bytes_)
        finally:
            stream.close()

    # THE MESSAGE ROUTER

    def asked(self, request, route="session"):
        """The message router's reply, by a route, and the items behind it."""
        if route == "class3":
            self.count = self.count % 65535 + 1
            return self.unit_of(self.class3, self.count, self.main.exchanged(forms.UNIT, self.packet(self.class3, self.count, request))), []
        reply = self.main.exchanged(forms.RR, forms.items((0, b""), (0xB2, request)))
        if len(reply) == 24:
            raise ValueError(in_words(reply, reply))
        items = items_of(reply[24:])
        return items[1][1], items[2:]

    def packet(self, connection, count, request):
        """The items of a message of a class 3 connection."""
        return forms.items((0xA1, struct.pack("<I", connection[0])), (0xB1, struct.pack("<H", count) + request))

    def unit_of(self, connection, count, reply):
        """What a reply to such a message carries: it has the connection's T->O id and the message's count."""
        if len(reply) == 24:
            raise ValueError(in_words(reply, reply))
        (address, to), (data, unit) = items_of(reply[24:])
        if (address, to, data, unit[:2]) != (0xA1, struct.pack("<I", connection[1]), 0xB1, struct.pack("<H", count)):
            raise ValueError(f"no reply of the connection: {reply.hex()}")
        return unit[2:]

    def unit(self, connection, count, request):
        """The reply to such a message, which may have none."""
        asked = forms.message(forms.UNIT, self.packet(connection, count, request), self.main.session)
        replies = self.main.replies(asked)
        if len(replies) != 1 or replies[0] is None:
            raise ValueError(", then ".join(END if it is None else in_words(it, asked) for it in replies) or NONE)
        return self.unit_of(connection, count, replies[0])

    def served(self, request, route="session", service=None):
        """The status, additional words and data of a reply, in words."""
        try:
            reply, _ = self.asked(request, route)
        except ValueError as fault:
            return str(fault)
        return router_words(reply, request[:1] if service is None else bytes([service]))

    # CLASS 3

    def over_class3(self, count, request):
        """The replies to a message of a class 3 connection of its own, in words."""
        return self.with_class3(500, lambda connection: self.unit(connection, count, request) and "a reply")

    def twice(self, request):
        """Whether a message that comes twice has one reply."""
        def ask(connection):
            replies = [self.unit(connection, 7, request) for _ in range(2)]
            return "the same reply" if replies[0] == replies[1] else f"{replies[0].hex()}, then {replies[1].hex()}"
        return self.with_class3(500, ask)

    def sized(self, request, size):
        """Whether a reply fits a T->O size: whole, or the status that says it does not."""
        def ask(connection):
            reply = self.unit(connection, 1, request)
            return f"{reply[2]:02x}" if reply[2] == 0x11 and len(reply) == 4 else "whole" if len(reply) <= max(size - 2, 4) else reply.hex()
        return self.with_class3(size, ask)

    def with_class3(self, size, ask):
        connection, words = self.opened(forms.OWNER | {"kind": "class3", "t_o_size": max(size, 1)})
        if connection is None:
            return f"not open: {words}"
        try:
            return ask(connection)
        except ValueError as fault:
            return str(fault)
        finally:
            self.closed(connection[2])

    # CONNECTIONS

    def opening(self, fields, serial):
        """The request that opens a connection, the T->O id and the triad."""
        t_o_id, triad = 0x70000000 + serial, struct.pack("<HHI", serial, 0x1337, 0xC0FFEE)
        return forms.opening(self.maker, fields, t_o_id, triad), t_o_id, triad

    def opened(self, fields, route="session"):
        """Opens a connection. Answers it, or none, and the reply in words."""
        self.serial += "serial" not in fields
        serial = fields.get("serial", self.serial)
        request, t_o_id, triad = self.opening(fields, serial)
        try:
            reply, items = self.asked(request, route)
        except ValueError as fault:
            return None, str(fault)
        if len(reply) < 30 or reply[2]:
            return None, router_words(reply, request[:1], triad + b"\0\0")
        o_t_id, t_o_got, triad_got, o_t_api, t_o_api, size, reserved = struct.unpack_from("<II8sIIBB", reply, 4)
        is_group = fields["cast"] == "multicast" and fields["kind"] != "class3"
        is_right = triad_got == triad and size == reserved == 0 and (is_group or t_o_got == t_o_id) and is_item(items, is_group)
        self.given.add(o_t_id)
        return (o_t_id, t_o_got, triad, fields), f"00 {o_t_api} {t_o_api}" + ("" if is_right else f", with {reply.hex()} {items}")

    def connect(self, fields):
        return self.opened(fields)[0]

    def closed(self, triad, **changed):
        """The reply to a Forward_Close, in words."""
        request = forms.closing(self.maker, triad, **changed)
        try:
            reply, _ = self.asked(request)
        except ValueError as fault:
            return str(fault)
        return router_words(reply, request[:1], triad + b"\0\0", triad + b"\0\0")

    def close_twice(self, fields, is_other):
        """The replies to two closes of a connection, over its session or over another one."""
        connection, words = self.opened(fields)
        if connection is None:
            return f"not open: {words}"
        main, stream = self.main, self.stream().register() if is_other else None
        self.main = stream or main
        try:
            return f"{self.closed(connection[2])}, then {self.closed(connection[2])}"
        finally:
            self.main = main
            if stream:
                stream.close()

    def counters(self):
        """The counters of the Connection Manager, 1 to 8."""
        numbers = struct.pack("<9H", 8, *range(1, 9))
        reply, _ = self.asked(forms.request(forms.GET_LIST, forms.path_of(forms.MANAGER, 1), numbers))
        if len(reply) != 4 + 2 + 8 * 6:
            raise ValueError(f"no counters: {reply.hex()}")
        return [struct.unpack_from("<H", reply, 6 + 6 * it + 4)[0] for it in range(8)]

    def counted(self, act):
        """What each of them counts of something that is done."""
        try:
            before = self.counters()
            act(self)
            return " ".join(str((now - then) % 65536) for then, now in zip(before, self.counters()))
        except ValueError as fault:
            return str(fault)

    def restarted(self, type_):
        """The reply to a reset, and what comes behind it: the stream ends, and no earlier life has given the connection ids of the next."""
        before = set(self.given)
        words = self.served(forms.request(forms.RESET, forms.path_of(forms.IDENTITY, 1), type_))
        self.main.tcp.settimeout(self.options.patience)
        try:
            if self.main.received() is not None:
                return f"{words}, then a message"
        except TimeoutError:
            return f"{words}, then the same life"
        self.begin()
        return f"{words}, then " + ("ids of an earlier life" if self.class3[0] in before else "a new life")

    def served_while(self, request, held):
        """The reply to a request while connections are open."""
        others = [self.connect(it) for it in held]
        words = self.served(request)
        for it in filter(None, reversed(others)):
            self.closed(it[2])
        return words if all(others) else f"a connection is not open, {words}"

    def open_while(self, fields, held=(), route="session"):
        """The reply to an opening while others are open; all are closed again."""
        others = [self.connect(it) for it in held]
        connection, words = self.opened(fields, route)
        for it in filter(None, [connection, *reversed(others)]):
            self.closed(it[2])
        return words if all(others) else f"another connection is not open, {words}"


def is_item(items, is_group):
    """Whether the reply has the item of a group, and has it only for a group."""
    if not is_group:
        return items == []
    return len(items) == 1 and items[0][0] == 0x8001 and items[0][1][:4] == b"\0\2\x08\xae" and items[0][1][4] == 239 and not any(items[0][1][8:])


def router_words(reply, service, refused=b"", done=b""):
    """A reply of the message router in words. The data that a refusal, or a success, is to have are left out."""
    if len(reply) < 4 or len(reply) < 4 + 2 * reply[3]:
        return f"no reply of a message router: {reply.hex()}"
    code, reserved, status, count = reply[:4]
    words, data = struct.unpack_from(f"<{count}H", reply, 4), reply[4 + 2 * count:]
    known = {0: done, 1: refused}.get(status, b"")
    data = b"" if known and data == known else data
    wrong = "" if (code, reserved) == (service[0] | 0x80, 0) else f", of service {code:02x}"
    return f"{status:02x}" + "".join(f"/{word:04x}" for word in words) + (f" {data.hex()}" if data else "") + wrong


def fits(wanted, got):
    """Whether an answer is one of those that are wanted, in which * stands for anything and ? for a character."""
    return wanted(got) if callable(wanted) else any(fnmatch.fnmatchcase(got, it) for it in wanted.split("|"))


# THE RUN


def learned(options, maker):
    """What ListIdentity says, where neither a profile nor an option says it."""
    stream = Stream((options.host, options.port), options.own, options.patience)
    reply = stream.exchanged(forms.LIST_IDENTITY)
    stream.close()
    data = reply[24:]
    if len(data) < 40:
        raise ConnectionError(f"no reply to ListIdentity: {reply.hex()}")
    address, = struct.unpack_from(">I", data, 12)
    vendor, kind, product, major, minor, status, serial, length = struct.unpack_from("<HHHBBHIB", data, 24)
    said = {"node": str(ipaddress.IPv4Address(address)), "vendor": vendor, "type": kind, "product": product, "major": major, "minor": minor,
            "serial": serial, "name": data[39:39 + length].decode(errors="replace")}
    for name, value in {**said, "status": f"{status:04x}", "state": data[-1]}.items():
        print(f"ListIdentity {name}: {value}")
    for name, value in said.items():
        if getattr(maker, name) is None:
            setattr(maker, name, value)


def ask_all(device, options, asked):
    """Asks, and prints what is otherwise. Answers how many were asked and how many are otherwise, of all and of each part of LEFT."""
    counts, otherwise, numbers = collections.Counter(), collections.Counter(), collections.Counter()
    for question in asked:
        numbers[question.rule] += 1
        try:
            got = question.ask(device)
        except (ConnectionError, TimeoutError, struct.error) as fault:
            got = f"nothing: {fault or type(fault).__name__}"
            device.begin()
        left = next((it for it in questions.LEFT if fnmatch.fnmatchcase(question.words, it)), "")
        is_so = fits(question.wanted, got)
        counts.update(["asked", left])
        otherwise[left] += not is_so
        if not is_so and (not left or options.all):
            wanted = question.wanted.__doc__ if callable(question.wanted) else question.wanted
            print(f"{question.rule} no. {numbers[question.rule]}, {question.words}: wanted {wanted}, got {got}", flush=True)
        elif options.all or question.is_read and is_so:
            print(f"{question.words}: {got}")
    return counts, otherwise


def judged(counts, otherwise, is_all):
    """Says what is left, and answers how the run ends. Of a part of the questions nothing says that all of a line of LEFT is served."""
    served = [it for it in questions.LEFT if counts[it] and not otherwise[it]] if is_all else []
    for it, why in questions.LEFT.items():
        if otherwise[it]:
            print(f"left: {it}, {otherwise[it]} of {counts[it]} questions: {why}")
    for it in served:
        print(f"left no more, since all is served: {it}")
    print(f"{counts['asked']} questions, {otherwise['']} answered otherwise" + (f", {sum(otherwise.values()) - otherwise['']} left" * bool(questions.LEFT)))
    return 1 if otherwise[""] or served else 0


def main():
    words = argparse.ArgumentParser(description="Asks a device what the standard wants to be answered.")
    words.add_argument("host")
    words.add_argument("--port", type=int, default=44818)
    words.add_argument("--patience", type=float, default=3.0, help="seconds until an answer has come")
    for name in "serial", "inactivity":
        words.add_argument(f"--{name}", type=int)
    for name in "own", "profile", "name", "identity", "node", "mask", "link", "heartbeats":
        words.add_argument(f"--{name}")
    for name in "output", "input", "config":
        words.add_argument(f"--{name}", action="append", default=[])
    words.add_argument("--only", nargs="+", metavar="RULE", help="the rules whose questions are asked: 31 is all of section 31")
    words.add_argument("--resets", action="store_true", help="asks for resets too")
    words.add_argument("--all", action="store_true", help="prints each question")
    options = words.parse_args()
    try:
        maker = forms.Maker(options)
        learned(options, maker)
        device = Device(options, maker)
        asked = [it for it in questions.questions(maker, options.resets) if not options.only or
                 any(it.rule == rule or it.rule.startswith((f"{rule}.", f"{rule},")) for rule in options.only)]
        return judged(*ask_all(device, options, asked), not options.only)
    except (OSError, ConnectionError, struct.error) as fault:
        print(f"{options.host} does not answer: {fault}")
        return 2


if __name__ == "__main__":
    sys.exit(main())
