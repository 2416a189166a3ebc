"""The clock of a station, and its waits between two milliseconds."""

import contextlib, datetime, os, select, socket, struct, subprocess, time
from rim.host import Untried, Wrong, ahead, first_in_line, need, run, sure, wait
from rim.peers import INPUT_ONLY, POINT_TO_POINT, Originator, served
from rim.sockets import Flood
from rim.streams import Clock

CLOCK_S = 2.0
DAYS = "1970-01-01T00:00:00.001", "2027-12-31T23:59:30.250", "2028-02-29T12:00:00", "2028-03-01T00:00:00", "2028-07-04T10:00:00", "2100-03-01T01:02:03"
LATE_S = 10.0  # seconds from the moment at which a clock is set to the beginning of a record
STAMPS = 35  # SO_TIMESTAMPNS: Python has no name for it
DATAGRAMS, REPLIES, ROUNDS = 400, 300, 5
CYCLE_MS = 2
HEARTBEAT_MS = 10_000  # nothing arrives while datagrams are counted: an arrival would bring the next one forward
OF_WHOLE_MS = 0.2  # so many would leave so close to the earliest one if waits were of whole milliseconds
SOON_US = 250  # so close to the earliest one most datagrams leave, and few of those that wait for a whole millisecond


def clock_of(station):
    """The device's time, and the system's before and after it was asked for, in milliseconds."""
    before, count = time.monotonic(), len(station.lines())
    station.call("status")
    wait(lambda: any(line.split()[1:2] == ["at"] for line in station.lines()[count:]), "the state is said")
    line = next(line for line in station.lines()[count:] if line.split()[1:2] == ["at"])
    return int(line.split()[2]), before * 1000, time.monotonic() * 1000


def run_clock(bench):
    """A clock that is read many times in a millisecond gives each one once: the device's time is the system's."""
    adapter = bench.adapter(log="clock_rate")
    bench.later(Flood(bench))
    device, before, after = clock_of(adapter)
    time.sleep(CLOCK_S)
    later, next_before, next_after = clock_of(adapter)
    passed, least, most = later - device, next_before - after, next_after - before
    sure(least - 2 <= passed <= most + 2, f"a device whose clock is read all the time has {passed} ms, of {least:.0f} to {most:.0f} ms that passed")
    need(adapter.end() == 0, "the adapter ends with status 0")
    bench.clear()


def run_wall_clock(bench):
    """The first line of a record has the date and the time of the clock on the wall, in leap years and in others; `pcap` reads it so."""
    clock, words = bench.later(Clock(bench, "wall")), [bench.program, "adapter", bench.file("adapter.profile"), "--incarnation", "5"]
    env = {**os.environ, **dict(it.split("=", 1) for it in clock.env())}
    for text in DAYS:
        day, trace = datetime.datetime.fromisoformat(f"{text}+00:00"), bench.file("wall.trace")
        clock.set_wall(day.timestamp())
        done = run(*bench.network.at("adapter"), *words, "--record", trace, stdin=subprocess.DEVNULL, env=env)
        need(done.returncode == 0, f"a station at {text} ends with status 0: {done.stderr.decode()}")
        with open(trace) as file:
            said = datetime.datetime.fromisoformat(file.readline().split()[3].replace("Z", "+00:00"))
        need(0 <= (said - day).total_seconds() < LATE_S, f"a record that begins at {day} says {said}")
    sure(True, f"records that begin at {', '.join(DAYS)} say so")
    bench.clear()


def leavings(udp, count):
    """When so many datagrams left, by the system's stamps, each less its place in the cycle, in microseconds; none if they end."""
    found, first = [], None
    while len(found) < count:
        if not select.select([udp], [], [], 1)[0]:
            return []
        data, notes, _, _ = udp.recvmsg(2048, 128)
        seconds, nanoseconds = next(struct.unpack("qq", it) for _, kind, it in notes if kind == STAMPS)
        (sequence,) = struct.unpack("<I", data[10:14])
        first = sequence if first is None else first
        found.append(seconds * 10**6 + nanoseconds / 1000 - (sequence - first) * CYCLE_MS * 1000)
    return found


@contextlib.contextmanager
def read_by(peer):
    """A connection that consumes the input at each cycle, and over which nothing goes to the adapter meanwhile."""
    connection = peer.open(INPUT_ONLY, POINT_TO_POINT, consumed_ms=HEARTBEAT_MS)
    try:
        yield
    finally:
        with contextlib.suppress(Wrong):
            with served("a close"):
                connection.close()


def share(values, most):
    return sum(it < most for it in values) / max(len(values), 1)


def since_earliest(times):
    return [it - min(times) for it in times]


def best(tries, enough):
    """The best of some tries: on a busy machine the others are worse."""
    found = 0.0
    for _ in range(ROUNDS):
        found = max(found, tries())
        if found >= enough:
            break
    return found


def woken():
    """The share of waits of this test itself that end within SOON_US of their times."""
    late = []
    for _ in range(REPLIES):
        begin = time.monotonic()
        time.sleep(0.001)
        late.append((time.monotonic() - begin - 0.001) * 1e6)
    return share(late, SOON_US)


def judged(found, enough, text):
    """As `sure`, where this machine wakes those that wait. (Less than whole milliseconds would give is of the machine's making.)"""
    if found < enough and ((own := woken()) < enough or found < OF_WHOLE_MS):
        raise Untried(f"this machine wakes nobody in time: {own:.0%} of the test's own waits end within {SOON_US} us of their times. {text}")
    sure(found >= enough, text)


def run_waits(bench):
    """A wait ends at its time between two milliseconds, and a message ends it before. (Waits of whole milliseconds would spread
    the datagrams over one, a quarter of them within 250 us.)"""
    adapter = bench.adapter(log="waits", before=first_in_line)
    with bench.network.inside("peer"), socket.socket(socket.AF_INET, socket.SOCK_DGRAM) as udp:
        udp.setsockopt(socket.SOL_SOCKET, STAMPS, 1)
        udp.bind((bench.address["peer"], 2222))
        reader = Originator(bench, rpi_ms=CYCLE_MS)

        def in_time():
            while select.select([udp], [], [], 0)[0]:
                udp.recv(2048)
            with read_by(reader):
                return share(since_earliest(leavings(udp, DATAGRAMS)), SOON_US)

        def at_once():
            with read_by(reader):
                return share([asked(reader) for _ in range(REPLIES)], SOON_US)

        with ahead():
            found, answered = best(in_time, 0.6), best(at_once, 0.4)
        judged(found, 0.6, f"{found:.0%} of the datagrams of {CYCLE_MS} ms leave within {SOON_US} us of their times, between two milliseconds")
        judged(answered, 0.4, f"{answered:.0%} of the messages during such waits are answered within {SOON_US} us")
    need(adapter.end() == 0, "the adapter ends with status 0")
    bench.clear()


def asked(peer):
    """The microseconds until ListServices is answered."""
    begin = time.monotonic()
    with served("ListServices"):
        peer.session.call(4, b"", session=False)
    return (time.monotonic() - begin) * 1e6
