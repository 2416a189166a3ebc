"""Class 3 connections, by an originator that shares no code with the crates: it loses replies and sends the message again with the
same count, and an object of the maker's own, which this process answers, counts what is executed."""

import random, re, shutil, struct, subprocess, threading, time
from rim.host import holds, need, run, sure, until, wait
from rim.pages import PORT, Events
from rim.peers import Originator, originator, served
from rim.plants import Plant, replays

COUNTER = 100  # the class of the maker's own object
ROUTER = bytes([0x20, 2, 0x24, 1])
MANAGER = bytes([2, 0x20, 6, 0x24, 1])
IDENTITY_NAME = bytes([0x0E, 3, 0x20, 1, 0x24, 1, 0x30, 7])
COUNT_UP = bytes([0x32, 2, 0x20, COUNTER, 0x24, 1])
CLASS_3 = 0xA3
RPI_US = 100_000
MULTIPLIER = 2  # the time-out is 16 packet intervals, the first one at least 10 s
TIME_OUT_S = 1.6
VENDOR, SERIAL = 0x1234, 0x0BAD_CAFE
READS = 1000
COUNTS = 100
LOSS = 0.2
OWN = (
    "adapter 16 {adapter} 255.255.255.0 7 12 9 4 5\noutput 150 4 zero zero\ninput 100 6\n"
    f"describe 305419896 50756d70 44818 1000 13 02a1b2c3d4e5 60\nobject {COUNTER}\nheartbeat 152 153\n"
)


class Class3Connection:
    """A class 3 connection: messages with counts, each sent until its reply is not lost."""

    def __init__(self, session, serial, size=500, loss=0.0, seed=1):
        self.session, self.serial, self.loss, self.drawn = session, serial, loss, random.Random(seed)
        self.count, self.repeated, self.t_o_id = 0, 0, 0x5000_0000 + serial
        word = 0x4200 | size  # point to point, of variable size
        body = struct.pack("<BBIIHHIBBBB", 10, 200, 0, self.t_o_id, serial, VENDOR, SERIAL, MULTIPLIER, 0, 0, 0)
        body += struct.pack("<IHIHBB", RPI_US, word, RPI_US, word, CLASS_3, len(ROUTER) // 2) + ROUTER
        self.opening = b"\x54" + MANAGER + body
        general, extended, reply, _ = session.request(self.opening)
        need((general, extended) == (0, ()), f"a class 3 connection opens: {general:02x} {extended}")
        self.o_t_id, t_o_id, number, vendor, originator, o_t_api, t_o_api = struct.unpack_from("<IIHHIII", reply)
        need((t_o_id, number, vendor, originator) == (self.t_o_id, serial, VENDOR, SERIAL), "the reply names the connection")
        need((o_t_api, t_o_api) == (RPI_US, RPI_US), "its packet intervals are those of the request")

    def send(self, request, count, connection=None):
        """Sends a message of this count."""
        message = struct.pack("<H", count) + request
        packet = struct.pack("<IHHHHIHH", 0, 0, 2, 0xA1, 4, connection or self.o_t_id, 0xB1, len(message)) + message
        head = struct.pack("<HHII8sI", 0x70, len(packet), self.session.handle, 0, bytes(8), 0)
        self.session.tcp.sendall(head + packet)

    def received(self):
        """The next connected reply: the bytes behind its encapsulation header."""
        head = self.session.bytes(24)
        command, length, handle, status = struct.unpack_from("<HHII", head)
        need((command, handle, status) == (0x70, self.session.handle, 0), f"a connected reply: {head.hex()}")
        need(head[12:] == bytes(12), f"the sender context and the options of a connected reply: {head.hex()}")
        return self.session.bytes(length)

    def read(self, reply, request):
        """The general status and the data of a reply to the last message."""
        interface, timeout, items, kind, four, connection, data, length, count = struct.unpack_from("<IHHHHIHHH", reply)
        need((interface, timeout, items, kind, four) == (0, 0, 2, 0xA1, 4), "the items of a connected reply")
        need((connection, data, length, count) == (self.t_o_id, 0xB1, len(reply) - 20, self.count), f"the reply to a message: {reply.hex()}")
        code, reserved, general, extended = reply[22:26]
        need((code, reserved) == (request[0] | 0x80, 0), "the service of a connected reply")
        return general, reply[26 + 2 * extended:]

    def asked(self, request):
        """What the reply to a new message says. A lost reply is one that is dropped: then the same message is sent again, and its
        reply has to be the lost one, byte for byte."""
        self.count = (self.count + 1) % 65536
        self.send(request, self.count)
        reply = self.received()
        while self.drawn.random() < self.loss:
            self.repeated += 1
            self.send(request, self.count)
            again = self.received()
            need(again == reply, f"a repeated message has the reply of the first: {again.hex()}")
        return self.read(reply, request)

    def close(self):
        """The general status of the reply to Forward_Close."""
        body = struct.pack("<BBHHIBB", 10, 200, self.serial, VENDOR, SERIAL, len(ROUTER) // 2, 0) + ROUTER
        return self.session.request(b"\x4e" + MANAGER + body)[0]


class Counter:
    """The application of an object: it counts the requests that the device gives it, and answers each with its number."""

    def __init__(self, bench, station):
        self.station, self.value, self.going, self.paused, self.fault = station, 0, True, False, None
        self.thread = threading.Thread(target=self.serve, daemon=True)
        self.thread.start()
        bench.later(self)

    def requests(self):
        """The requests that the station has printed, each by its words."""
        lines = [line.split() for line in self.station.lines()]
        return [words for words in lines if words[1:2] == ["at"] and words[3:4] == ["asked"]]

    def serve(self):
        while self.going:
            for words in [] if self.paused else self.requests()[self.value:]:
                self.value += 1
                try:
                    self.station.call(f"answer {words[4]} 00 {struct.pack('<I', self.value).hex()}")
                except Exception as fault:  # the station has ended: the part of the run says so
                    self.fault, self.going = fault, False
                    break
            time.sleep(0.002)

    def close(self):
        self.going = False
        self.thread.join()


def noted(station, what, serial):
    """Whether the station printed a notice of a connection."""
    words = ["note", what, str(serial), str(VENDOR), str(SERIAL)]
    return any(line.split()[1:6] == words for line in station.lines())


def count_it(bench, station):
    """`status` and the page count a class 3 connection by itself, and say no more of it."""
    line = re.compile(r"\d+ at \d+ status streams 1 sessions 1 connections 0 class-3 1 ids \d+ received 0 sent 0 applied 0 lost 0")
    station.call("status")
    wait(lambda: any(line.fullmatch(it) for it in station.lines()), "status counts a class 3 connection")
    need(not any(it.split()[3:4] == ["connection"] for it in station.lines()), "status tells of no class 1 connection")
    totals = Events(bench).next()["totals"]
    sure((totals["connections"], totals["class_3"]) == (0, 1), "status and the page count a class 3 connection by itself")


def read_identity(class3):
    """A thousand reads of the product name, some of whose replies are lost."""
    for _ in range(READS):
        need(class3.asked(IDENTITY_NAME) == (0, b"\x04Pump"), "the product name over a class 3 connection")
    need(class3.repeated > READS * LOSS / 2, "replies were lost")
    holds(f"the product name is read {READS} times over a class 3 connection, and {class3.repeated} lost replies come again")


def count_up(bench, station, class3):
    """An object of the maker's own is asked, some of its replies are lost, and each request is executed once."""
    counter, before = Counter(bench, station), class3.repeated
    for number in range(1, COUNTS + 1):
        need(class3.asked(COUNT_UP) == (0, struct.pack("<I", number)), f"the count {number} of an own object")
    sure(counter.value == COUNTS == len(counter.requests()),
         f"an own object is asked {COUNTS} times, {class3.repeated - before} replies are lost, and each request is executed once")
    # the same message again and again before the application answers: it is executed once, and has one reply
    counter.paused = True
    class3.count += 1
    for _ in range(3):
        class3.send(COUNT_UP, class3.count)
    wait(lambda: len(counter.requests()) == COUNTS + 1, "the request reaches the application")
    need(class3.session.request(IDENTITY_NAME)[0] == 0, "a request behind the messages")
    counter.paused = False
    need(class3.read(class3.received(), COUNT_UP) == (0, struct.pack("<I", COUNTS + 1)), "its reply")
    sure(class3.asked(COUNT_UP) == (0, struct.pack("<I", COUNTS + 2)),
         "a message that is repeated before its answer is executed once, and has one reply")
    counter.close()
    need(counter.fault is None, f"the application answers: {counter.fault}")


def leave_aside(class3):
    """Messages that are not executed have no reply; those behind them have."""
    class3.send(IDENTITY_NAME, class3.count + 1, class3.o_t_id + 1)
    class3.send(IDENTITY_NAME + bytes(500), class3.count + 1)
    sure(class3.asked(IDENTITY_NAME) == (0, b"\x04Pump"), "messages of no connection, and longer than theirs, are left aside")
    sure(class3.asked(class3.opening)[0] == 8, "a Forward_Open within a message is refused with 08")


def end_each_way(bench, station, originator):
    """A class 3 connection ends by its close, by its watchdog, and with its stream."""
    class3 = Class3Connection(originator.session, 2)
    need(class3.close() == 0, "a class 3 connection is closed")
    until(lambda: noted(station, "closed", 2), "a class 3 connection ends by Forward_Close")
    class3 = Class3Connection(originator.session, 3)
    class3.asked(IDENTITY_NAME)
    until(lambda: noted(station, "expired", 3), f"a class 3 connection whose messages end times out after {TIME_OUT_S} s", 5)
    other = Originator(bench, own=bench.network.extra[0])
    Class3Connection(other.session, 4)
    other.close()
    until(lambda: noted(station, "dropped", 4), "a class 3 connection ends with its stream")


def answer_late(bench, originator):
    """A request that the application does not answer is answered by the device."""
    if bench.args.short:
        return
    with served("the device answers for its application"):
        begin = time.monotonic()
        general = originator.session.request(COUNT_UP)[0]
        late = time.monotonic() - begin
    sure((general, 9.9 < late < 12) == (0x1F, True), f"a request that nobody answers is answered after {late:.1f} s with 1F")


def dissect(bench, name):
    """tshark reads the capture file of the record, if it is there."""
    if not shutil.which("tshark"):
        holds("(no dissection: it takes tshark)")
        return
    file, pcap = bench.file(f"{name}.pcap"), run(bench.program, "pcap", bench.file(f"{name}.trace"))
    need(pcap.returncode == 0, "the record becomes a capture file")
    with open(file, "wb") as out:
        out.write(pcap.stdout)
    bad = run("tshark", "-r", file, "-Y", "_ws.malformed", stdin=subprocess.DEVNULL)
    need(not bad.returncode and not bad.stdout, f"tshark says {(bad.stdout or bad.stderr).decode()[:400]}")
    words = ["-Y", "enip.command == 0x70 && cip", "-T", "fields", "-e", "frame.number"]
    units = run("tshark", "-r", file, *words, stdin=subprocess.DEVNULL)
    count = len(units.stdout.splitlines())
    sure(count > READS, f"tshark finds nothing malformed, and {count} messages of class 3 connections")


def run_class3(bench):
    """Class 3 connections with lost replies, and an object of the maker's own that counts."""
    bench.write("own.profile", OWN)
    station = bench.adapter("--record", bench.file("class3.trace"), "--page", str(PORT), profile="own", log="class3")
    originator = Originator(bench, patience=15.0)
    with served("a class 3 connection"):
        class3 = Class3Connection(originator.session, 1, loss=LOSS, seed=7)
        count_it(bench, station)
        read_identity(class3)
        count_up(bench, station, class3)
        leave_aside(class3)
        need(class3.close() == 0, "a class 3 connection is closed")
        end_each_way(bench, station, originator)
    answer_late(bench, originator)
    need(station.end() == 0, "the adapter ends with status 0")
    bench.replay_alone("class3")
    told = run(bench.program, "explain", bench.file("class3.trace"))
    sure(told.returncode == 0 and b"class 3 server; message router" in told.stdout, "its record is told in words")
    dissect(bench, "class3")
    bench.clear()


def run_plant_answers(bench):
    """The own object of a plant's device is answered by its script, and by a line of the input."""
    node = bench.network.extra[0]
    bench.write_exactly("plant_own.profile", OWN.format(adapter=node))
    number = 2**32 + 1  # the only device has all ids, from 1 on: its requests are numbered from 1 * 2^32 + 1 on
    text = f"device pump plant_own.profile\n  at 2000 answer {number} 00 0102\n"
    plant = Plant(bench, text, "--record", bench.file("answers"), log="answers")
    until(lambda: any("adapter at" in line for line in plant.said()), "a plant has a device with an own object")
    with bench.network.inside("peer"), served("an own object of a plant's device"):
        session = originator.Session(originator.arguments([node, "--own", bench.address["peer"]]))
        sure(session.request(COUNT_UP)[:3] == (0, (), bytes([1, 2])), "a line of its script answers a request")

        def type_it():
            wait(lambda: any(line.split()[3:5] == ["asked", str(number + 1)] for line in plant.of("pump")), "the request is printed")
            plant.call(f"pump answer {number + 1} 14 0304")

        typed = threading.Thread(target=type_it)
        typed.start()
        sure(session.request(COUNT_UP)[:3] == (0x14, (), bytes([3, 4])), "a line of the input answers the next one")
        typed.join()
        session.tcp.close()
    need(plant.end() == 0, "the plant ends with status 0")
    replays(bench, "answers")
    bench.clear()
