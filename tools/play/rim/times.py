"""A station's turns in time: datagrams that wait are taken before a time-out, none comes early, a busy loop rests, and the stream
of an owner or of a panel is not taken by strangers."""

import os, select, signal, struct, threading, time
from rim.class3 import IDENTITY_NAME, Class3Connection
from rim.host import Station, Untried, ahead, need, sure, usual, wait
from rim.peers import INPUT_ONLY, POINT_TO_POINT, Originator, Silent

NOP = bytes(24)
TIMES = 16  # the time-out of tools/peers/originator.py, in packet intervals
PAUSES, SILENCES, TRIES = 12, 60, 600
LATEST = 6  # milliseconds between datagrams of 2 ms: the shortest time-out of such a connection is 8, and rule 23.11 is for the last one
RESTS_A_SECOND = 100
ZEROS = b"output 150 00000000"
MOST_STREAMS = 16


def expired(adapter):
    return [line for line in adapter.lines() if " note expired " in line]


def run_in_time(bench):
    """Datagrams that arrived in time, while the station did not run, are taken before its tick."""
    adapter = bench.adapter(log="in_time")
    owner = Originator(bench, host="owner", rpi_ms=10)
    feeder = bench.later(owner.feed(owner.open(), "11223344"))
    wait(lambda: owner.read(150) == "11223344", "an owner's data reach the output")
    for _ in range(PAUSES):
        adapter.process.send_signal(signal.SIGSTOP)
        time.sleep(2.0 * TIMES * owner.args.rpi_ms / 1000)
        adapter.process.send_signal(signal.SIGCONT)
        time.sleep(0.1)
    feeder.keeps(not expired(adapter) and owner.read(150) == "11223344", "the output still has the owner's data")
    sure(not expired(adapter), f"{PAUSES} pauses of twice the time-out: the owner's datagrams waited at the socket, and it keeps its output")
    feeder.stop()
    wait(lambda: expired(adapter), "an owner that falls silent times out")
    need(adapter.end() == 0, "the adapter ends with status 0")
    bench.clear()


def run_not_early(bench):
    """The time from an owner's last datagram to the line of its output is never shorter than its time-out."""
    reader, writer = os.pipe()
    adapter = Station(bench, "adapter", "adapter", bench.file("adapter.profile"), out=writer, log="not_early")
    os.close(writer)
    wait(lambda: any(" adapter " in line for line in adapter.said()), "the adapter says that it serves")
    owner = Originator(bench, host="owner", rpi_ms=2)
    limit, took, tries = TIMES * owner.args.rpi_ms / 1000, [], 0
    while len(took) < SILENCES:
        if tries == TRIES:
            raise Untried(f"this machine kept the owner of the test from its interval {TRIES - len(took)} times of {TRIES}")
        tries += 1
        value = struct.pack("<I", tries)
        with ahead():
            longest, last = fell_silent(owner.open(), owner, value, 0.002 + (tries % 10) * 0.0001)
        zero = said_at(reader, f"output 150 {value.hex()}".encode(), ZEROS)
        if longest * 1000 < LATEST:  # (else it was late itself, and the output may be zero since before the last datagram)
            took.append(zero - last)
    os.close(reader)
    said = f"{min(took) * 1000:.2f} to {max(took) * 1000:.2f} ms after the last of {SILENCES} owners, of a time-out of {limit * 1000:.0f} ms"
    said += f", {tries - SILENCES} that were late themselves set aside"
    sure(min(took) >= limit, f"no time-out comes early: {said}")
    adapter.kill()
    bench.clear()


def fell_silent(connection, owner, value, interval):
    """Produces six times. Answers the longest time from before one to behind the next, and that before the last one."""
    longest, last = 0.0, time.monotonic()
    for turn in range(6):
        time.sleep(interval * (turn > 0))
        before, last = last, time.monotonic()
        connection.produce(owner.udp, value)
        longest = max(longest, time.monotonic() - before)
    return longest, last


def said_at(reader, before, text, seconds=15):
    """When a line with this text came, behind one with the text before."""
    end, got = time.monotonic() + seconds, b""
    while time.monotonic() < end:
        if select.select([reader], [], [], 1)[0]:
            got += os.read(reader, 65536)
            if text in got[got.find(before) if before in got else len(got):]:
                return time.monotonic()
    need(False, f"no line says {text} behind {before}")


def waits_of(adapter):
    """How often the loop of a station has given the processor away, and the seconds of a processor that it has had."""
    with open(f"/proc/{adapter.process.pid}/status") as file:
        waits = next(int(line.split()[1]) for line in file if line.startswith("voluntary_ctxt_switches"))
    with open(f"/proc/{adapter.process.pid}/schedstat") as file:
        return waits, int(file.read().split()[0]) / 1e9


def run_busy_streams(bench):
    """NOP without end over eight streams: the loop rests, an owner at 10 ms keeps its output."""
    adapter = bench.adapter(log="busy_streams")
    owner = Originator(bench, host="owner", rpi_ms=10)
    feeder = bench.later(owner.feed(owner.open(), "11223344"))
    wait(lambda: owner.read(150) == "11223344", "an owner's data reach the output")
    floods = [Flood(bench, bench.network.extra[0]) for _ in range(8)]
    time.sleep(0.5)
    (before, had), sent = waits_of(adapter), sum(flood.sent for flood in floods)
    time.sleep(2)
    (after, has), sent = waits_of(adapter), sum(flood.sent for flood in floods) - sent
    for flood in floods:
        flood.close()
    feeder.keeps(not expired(adapter), "the owner keeps its output beside the flood")
    # (of the processor's seconds that the loop had: while others have it, a loop can give none away)
    need(sent > 0 and has > had, f"the loop works: {sent} messages, {has - had:.2f} s")
    rests = (after - before) / (has - had)
    sure(rests >= RESTS_A_SECOND, f"{sent} messages over eight streams: in {has - had:.2f} s of a processor the loop gave it away {rests:.0f} times "
         "a second")
    need(adapter.is_running(), "the adapter runs on")
    bench.clear()


class Flood(Silent):
    """A stream over which NOP goes without end."""

    def __init__(self, bench, own):
        super().__init__(bench, own)
        self.going, self.sent = True, 0
        self.thread = threading.Thread(target=self.flood, daemon=True)
        with usual():
            self.thread.start()

    def flood(self):
        self.tcp.settimeout(1)
        while self.going:
            try:
                self.sent += self.tcp.send(NOP * 2000) // len(NOP)
            except TimeoutError:
                continue
            except OSError:
                return

    def close(self):
        self.going = False
        self.thread.join()
        self.tcp.close()


class Strangers:
    """Two addresses with as many streams as they get, each with a session, and if asked one connection of each address."""

    def __init__(self, bench, connected):
        self.bench, self.going, self.streams = bench, True, []
        for own in bench.network.extra[:2]:
            first = Originator(bench, own=own, rpi_ms=100)
            if connected:
                bench.later(first.feed(first.open(INPUT_ONLY, POINT_TO_POINT), ""))
            self.streams.append(first.session)
        self.more()

    def more(self):
        for own in self.bench.network.extra[:2]:
            self.streams += [Silent(self.bench, own) for _ in range(8)]

    def speak(self):
        """NOP over each stream that is open."""
        for stream in self.streams:
            try:
                stream.tcp.send(NOP)
            except OSError:
                pass


def run_owner_back(bench):
    """An owner whose stream breaks is let in again beside 16 streams of two addresses with connections."""
    adapter = bench.adapter(log="owner_back")
    owner = Originator(bench, host="owner", rpi_ms=100)
    bench.later(owner.feed(owner.open(), "11223344"))
    wait(lambda: owner.read(150) == "11223344", "an owner's data reach the output")
    strangers = Strangers(bench, True)
    for _ in range(3):
        strangers.speak()
        need(owner.is_open(), "the owner keeps its stream")
        owner.session.tcp.close()
        time.sleep(0.2)
        strangers.more()
        strangers.speak()
        begin = time.monotonic()
        again = Originator(bench, host="owner", patience=2.0, rpi_ms=100)
        need(again.read(150) == "11223344", "the output still has the owner's data")
        owner.session = again.session
    seconds = time.monotonic() - begin
    sure(seconds < 2, f"an owner whose stream breaks is back after {seconds:.2f} s, beside streams of two addresses with connections")
    need(adapter.is_running(), "the adapter runs on")
    bench.clear()


def run_panel_stays(bench):
    """A class 3 connection keeps its stream beside 16 sessions of two addresses without a connection."""
    adapter = bench.adapter(log="panel_stays")
    panel = Originator(bench, host="owner")
    class3 = Class3Connection(panel.session, 1)
    need(class3.asked(IDENTITY_NAME)[0] == 0, "a class 3 connection serves a panel")
    strangers = Strangers(bench, False)
    for _ in range(3):
        strangers.more()
        need(panel.is_open(), "the panel keeps its stream")
        need(class3.asked(IDENTITY_NAME)[0] == 0, "and its class 3 connection")
    sure(adapter.is_running(), f"a panel's class 3 connection keeps its stream, while {len(strangers.streams)} sessions of two addresses press in")
    bench.clear()


TWO_OUTPUTS = ("adapter 16 {adapter} 255.255.255.0 1 12 7 2 3\noutput 150 4 zero zero\noutput 160 4 zero zero\n"
               "input 100 4\nheartbeat 152 153\n")
UNREGISTER = struct.pack("<HHIIQI", 0x66, 0, 1, 0, 0, 0)


class Owners:
    """Two owners at addresses of their own, each of an output of its own, whose streams say nothing more."""

    def __init__(self, bench):
        self.watch = Originator(bench, own=bench.network.extra[0])
        self.owners = [(Originator(bench, host=host, rpi_ms=100, output=output), data)
                       for host, output, data in (("owner", 150, "11223344"), ("reader", 160, "55667788"))]
        for owner, data in self.owners:
            bench.later(owner.feed(owner.open(), data))
        wait(self.hold, "the data of both owners reach their outputs")
        self.watch.close()

    def hold(self):
        return [self.watch.read(150), self.watch.read(160)] == [data for _, data in self.owners]

    def need_streams(self, text):
        need(all(owner.is_open() for owner, _ in self.owners), f"both owners keep their streams: {text}")


def opened_count(streams):
    return sum(it.is_open() for it in streams)


def run_two_owners(bench):
    """Two owners whose streams have been silent longest keep them as newcomers come, each of which displaces one silent stream."""
    bench.write("two_outputs.profile", TWO_OUTPUTS)
    adapter, hosts = bench.adapter(profile="two_outputs", log="two_owners"), iter(bench.network.extra[1:])
    owners = Owners(bench)
    silent = [Silent(bench, next(hosts)) for _ in range(MOST_STREAMS - 2)]
    wait(lambda: opened_count(silent) == len(silent), "a place is free for each of 14 strangers", 3)
    for came in range(1, 4):
        silent.append(Silent(bench, next(hosts)))
        need(silent[-1].is_registered(), f"newcomer {came} gets in")
        need(opened_count(silent) == MOST_STREAMS - 2, f"{opened_count(silent)} of {len(silent)} strangers have a stream behind newcomer {came}")
        owners.need_streams(f"behind newcomer {came}")
    sure(not any(it.is_open() for it in silent[:3]), "three newcomers displace the three silent streams that were first, one each, and no owner's")
    run_freed_places(bench, silent, hosts)
    owners.need_streams("behind streams that the adapter closed")
    for came, own in enumerate(hosts, 1):
        Originator(bench, own=own, rpi_ms=100).open(INPUT_ONLY, POINT_TO_POINT)
        owners.need_streams(f"behind newcomer {came} with a connection")
    need(came > MOST_STREAMS and not any(it.is_open() for it in silent), "streams without a connection make room first")
    owners.watch = Originator(bench, own=bench.network.extra[1])
    sure(owners.hold(), f"{came} newcomers with connections displace each other's streams: both owners keep their streams and their outputs")
    need(adapter.end() == 0, "the adapter ends with status 0")
    bench.clear()


def run_freed_places(bench, silent, hosts):
    """Streams whose sessions end leave places that newcomers take, and none is displaced."""
    ending = [it for it in silent if it.is_open()][:2]
    for it in ending:
        it.tcp.sendall(UNREGISTER[:4] + it.reply[4:8] + UNREGISTER[8:])
    wait(lambda: not opened_count(ending), "the adapter closes a stream whose session ends", 3)
    stay = [it for it in silent if it.is_open()]
    stay += [Silent(bench, next(hosts)) for _ in ending]
    need(all(it.is_registered() for it in stay), "two newcomers get in")
    silent += stay[-len(ending):]
    sure(opened_count(stay) == MOST_STREAMS - 2, "a stream that the adapter closes leaves its place: two newcomers displace nobody")
