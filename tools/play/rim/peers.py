"""Peers in this process: an originator, a stranger's streams, and a target with moods. They share no code with the crates."""

import contextlib, mmap, os, signal, socket, struct, sys, threading, time

from rim.host import TOP, Untried, Wrong, first_in_line

sys.path.insert(0, f"{TOP}/tools/peers")
import originator
import small_adapter
from originator import EXCLUSIVE, INPUT_ONLY, MULTICAST, POINT_TO_POINT

REGISTER = struct.pack("<HHII8sIHH", 0x65, 4, 0, 0, b"", 0, 1, 0)
FAULTS = (originator.Difference, OSError, struct.error, KeyError, ValueError)


@contextlib.contextmanager
def served(text):
    """What is done within is to be served as the standard says."""
    try:
        yield
    except FAULTS as fault:
        raise Wrong(f"{text}: {type(fault).__name__}: {fault}") from None


class Originator:
    """A session with the adapter, and what is asked over it."""

    def __init__(self, bench, host="peer", own=None, **more):
        own = own or bench.address[host]
        self.args = originator.arguments([bench.address["adapter"], "--own", own])
        vars(self.args).update({"patience": 3.0, **more})
        with bench.network.inside(host), served(f"the adapter serves {own}"):
            self.session = originator.Session(self.args)
            self.udp = socket.socket(socket.AF_INET, socket.SOCK_DGRAM)
            self.udp.bind((own, 0))
        bench.later(self)

    def open(self, kind=EXCLUSIVE, to_originator=POINT_TO_POINT, **more):
        """A connection; `more` names other points and lengths than the first ones."""
        args = originator.argparse.Namespace(**{**vars(self.args), **more})
        with served("a connection opens"):
            return originator.Connection(args, self.session, kind, to_originator).establish()

    def read(self, instance):
        """The bytes of a point, as hexadecimal digits (Get_Attribute_Single of the Assembly object, attribute 3)."""
        path = bytes([0x20, 4, 0x25, 0]) + struct.pack("<H", instance) + bytes([0x30, 3])
        with served(f"the adapter says what point {instance} holds"):
            general, extended, value, _ = self.session.request(bytes([0x0E, len(path) // 2]) + path)
            originator.expect("the status of Get_Attribute_Single", (general, extended), (0, ()))
        return value.hex()

    def feed(self, connection, data):
        return Feeder(self, connection, bytes.fromhex(data))

    def is_open(self):
        """Whether the adapter has not ended the stream."""
        self.session.tcp.settimeout(0.01)
        try:
            return self.session.tcp.recv(1, socket.MSG_PEEK) != b""
        except TimeoutError:
            return True
        except OSError:
            return False
        finally:
            self.session.tcp.settimeout(self.args.patience)

    def close(self):
        self.session.tcp.close()
        self.udp.close()


class Feeder:
    """A process that produces the data of a connection at its interval until it is stopped. It stands for another machine: it runs at
    real-time priority where this one allows it, and is kept by no thread of the test. It notes for how long it was silent."""

    def __init__(self, originator, connection, data):
        self.seconds = originator.args.rpi_ms / 1000
        self.time_out = (4 << originator.args.multiplier) * self.seconds
        self.noted, self.is_stopped = mmap.mmap(-1, 16), False
        self.note(0.0, time.monotonic())
        parent, self.pid = os.getpid(), os.fork()
        if self.pid == 0:
            try:
                self.produce(parent, originator.udp, connection, data)
            finally:
                os._exit(1)

    def note(self, longest, last):
        self.noted[:16] = struct.pack("<dd", longest, last)

    def produce(self, parent, udp, connection, data):
        os.closerange(3, udp.fileno())  # (else the input of a station would not end with its test's end of it)
        os.closerange(udp.fileno() + 1, 65536)
        first_in_line()
        longest, last = 0.0, time.monotonic()
        while os.getppid() == parent:
            before = time.monotonic()
            with contextlib.suppress(OSError):
                connection.produce(udp, data)
            longest, last = max(longest, time.monotonic() - last), before
            self.note(longest, last)
            time.sleep(self.seconds)

    def silent(self):
        """The longest time from one datagram to the next so far, in seconds."""
        longest, last = struct.unpack("<dd", self.noted[:16])
        return longest if self.is_stopped else max(longest, time.monotonic() - last)

    def keeps(self, condition, text):
        """As `need`, for what holds while the owner's datagrams come: an owner that this machine kept from sending them shows nothing."""
        if not condition:
            silent = self.silent()
            if silent >= self.time_out:
                raise Untried(f"this machine kept an owner of the test from sending for {silent:.2f} s, and its time-out is {self.time_out:.2f} s")
            raise Wrong(f"{text} (its longest silence was {silent:.3f} s)")

    def stop(self):
        if not self.is_stopped:
            self.is_stopped = True
            os.kill(self.pid, signal.SIGKILL)
            os.waitpid(self.pid, 0)

    close = stop


class Silent:
    """A stream that registers a session, or does not, and never speaks again."""

    def __init__(self, bench, own, host="peer", register=True):
        with bench.network.inside(host):
            self.tcp = socket.create_connection((bench.address["adapter"], 44818), 3, (own, 0))
        bench.later(self)
        self.reply = None
        if register:
            with contextlib.suppress(OSError):
                self.tcp.sendall(REGISTER)
                self.reply = self.tcp.recv(28)

    def is_registered(self):
        return self.reply is not None and len(self.reply) == 28 and self.reply[8:12] == bytes(4)

    def is_open(self):
        self.tcp.settimeout(0.001)
        try:
            return self.tcp.recv(65536) != b""
        except TimeoutError:
            return True
        except OSError:
            return False

    def close(self):
        self.tcp.close()


class Ending:
    """What is closed by a call of another name."""

    def __init__(self, close):
        self.close = close


class Target(small_adapter.Adapter):
    """tools/peers/small_adapter.py in a thread, with a mood: it may leave requests unanswered, or refuse them.

    `mood` gets each message's command and service, the number of such messages before it, and its stream, and says
    "serve", "ignore", or "refuse"."""

    def __init__(self, bench, mood, host="peer", **more):
        args = small_adapter.arguments(["--own", bench.address[host]])
        vars(args).update(more)
        with bench.network.inside(host):
            super().__init__(args)
        self.mood, self.counts, self.going, self.fault = mood, {}, True, None
        self.thread = threading.Thread(target=self.serve, daemon=True)
        self.thread.start()
        bench.later(Ending(self.stop))

    def answer(self, stream, message):
        kind = (struct.unpack("<H", message[:2])[0], message[40] if len(message) > 40 else None)
        before = self.counts.get(kind, 0)
        self.counts[kind] = before + 1
        mood = self.mood(kind, before, stream)
        if mood == "refuse":
            command, _, _, _, context, _ = struct.unpack("<HHII8sI", message[:24])
            stream.tcp.sendall(struct.pack("<HHII8sI", command, 0, 0, 2, context, 0))  # status 2: no resources
        return super().answer(stream, message) if mood == "serve" else True

    def serve(self):
        while self.going:
            try:
                self.turn()
            except ConnectionError:
                self.streams = [stream for stream in self.streams if stream.tcp.fileno() >= 0]
            except small_adapter.Difference as fault:
                self.fault = self.fault or str(fault)
            except (OSError, ValueError) as fault:
                self.fault = self.fault or f"{type(fault).__name__}: {fault}"
                return

    def stop(self):
        self.going = False
        self.thread.join()
        for it in [self.listener, self.udp, *(stream.tcp for stream in self.streams)]:
            it.close()
