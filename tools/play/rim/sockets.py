"""What the sockets of a station are set to, what passes them, and how often the system is asked for what came."""

import contextlib, ctypes, errno, os, resource, select, signal, socket, struct, threading, time
from rim.host import PRESENT, Certain, Station, need, run, sure, usual, wait
from rim.pages import PORT, Events
from rim.peers import INPUT_ONLY, MULTICAST, REGISTER, Originator, Silent, Target, served

LONG = "adapter 16 {adapter} 255.255.255.0 1 12 7 2 3\noutput 150 1400 zero zero\ninput 100 1400\nheartbeat 152 153\n"
LENGTHS = {"out_len": 1400, "in_len": 1400}
NOTHING = bytes(24)  # NOP, which has no answer
PIDFD_GETFD = 438  # the number of the system's call on most machines; Python has no name for it
REFUSED = {errno.EPERM, errno.ENOSYS}  # what a system says that does not lend a socket of a child
IP_RECVTTL = 12  # the number of the option on Linux; Python has no name for it
COUNTERS = bytes([0x0E, 3, 0x20, 0xF6, 0x24, 1, 0x30, 4])  # Get_Attribute_Single of the Ethernet Link object, attribute 4
READS, READ_S = 300, 1  # the counters are read so often; the files that have them at most once in such a time
IDLE_S = 4  # seconds in which the wakes of a station are counted
MOST_WAKES = 5  # of an idle station in this time: one that tells a browser how it is wakes eight times, one that asks each millisecond 4,000 times
MOST_SHOWN = 8  # snapshots in two seconds: one each half second, and what the beginning of a life brings
LEFT_S = 2.5  # seconds in which a page finds that a browser has left: it says once in a second that it is there
MOST_TRYING = 60  # of one that opens a stream each second, which is refused
TRIES = 3
MOST_WORK = 0.6  # seconds of the processors for an idle station in this time: one that never waits takes what it gets
ROUNDED = 0.005  # seconds: the port and its device have milliseconds of their own
RETRY = 1.0  # seconds from a session that is refused to the next stream
REFUSALS = {1, 2, 3, 4, 5, 7}  # the sessions that a target refuses: the sixth is served, and its stream ends
WAITS = [1, 1, 1, 1, 2, 1, 1]  # seconds from the end of each stream to the next one: five refused, one served and cut, one refused
GIVEN_UP_MS = 10_000  # a stream is given up whose bytes its peer does not acknowledge for so long
INACTIVE_S = 120  # the usual inactivity time-out: a peer that is gone is to be found before it
ASKED = 4_194_304  # bytes: a station asks for so much room for the datagrams that wait at its socket
HELD = 1024  # bytes of it that a short datagram takes, at most
ROUND = 64  # so many datagrams come before a request that comes behind them
MOST_IN_FRONT = 4 * ROUND  # those of a round that has begun, and those before a tick, too
BURST = 100_000  # datagrams without a pause
SERVICES = struct.pack("<HHII8sI", 4, 0, 0, 0, b"", 0)  # ListServices, which needs no session


def sockets_of(station):
    """Copies of a child's sockets, which share their options; None where the system lends no socket of a child."""
    system, process = ctypes.CDLL(None, use_errno=True), os.pidfd_open(station.process.pid)
    found = []
    for fd in map(int, os.listdir(f"/proc/{station.process.pid}/fd")):
        with contextlib.suppress(OSError):
            if os.readlink(f"/proc/{station.process.pid}/fd/{fd}").startswith("socket:"):
                copy = system.syscall(PIDFD_GETFD, process, fd, 0)
                if copy < 0 and ctypes.get_errno() in REFUSED:
                    return None
                need(copy >= 0, f"a socket of a child is lent: {os.strerror(ctypes.get_errno())}")
                found.append(socket.socket(fileno=copy))
    os.close(process)
    return found


def streams_of(station):
    """Copies of a child's open streams; None where the system lends no socket of a child."""
    found = sockets_of(station)
    return None if found is None else [it for it in found if it.type == socket.SOCK_STREAM and is_joined(it)]


def is_joined(it):
    try:
        return bool(it.getpeername())
    except OSError:
        return False


def are_set(station):
    """Whether the streams of a station send at once, and whether the system looks after their peers."""
    streams = streams_of(station)
    if streams is None:
        print("options: the system lends no socket of a child, so nobody looks how streams are set")
        return True, True
    found = [it.getsockopt(socket.IPPROTO_TCP, socket.TCP_NODELAY) for it in streams]
    return bool(found) and all(found), bool(found) and all(map(has_watched_peer, streams))


def has_watched_peer(it):
    """Whether the system tests a stream that is idle, finds a peer that is gone in time, and gives up what is not acknowledged."""
    idle, again, most, given_up = (it.getsockopt(socket.IPPROTO_TCP, option) for option in
                                   (socket.TCP_KEEPIDLE, socket.TCP_KEEPINTVL, socket.TCP_KEEPCNT, socket.TCP_USER_TIMEOUT))
    return bool(it.getsockopt(socket.SOL_SOCKET, socket.SO_KEEPALIVE)) and idle + again * most < INACTIVE_S and given_up == GIVEN_UP_MS


def run_options(bench):
    """Streams send at once, and their peers are watched, on both sides; a datagram to a group leaves no network. A scanner opens its
    slots unasked."""
    adapter, peer = bench.adapter("--multicast", log="options"), bench.address["peer"]
    first = Originator(bench)
    at_once, watched = are_set(adapter)
    sure(at_once, "what an adapter writes over a stream that it accepted is sent at once")
    sure(watched, f"the system tests such a stream while it is idle, and gives it up after {GIVEN_UP_MS} ms without an acknowledgement")
    with bench.network.inside("peer"), socket.socket(socket.AF_INET, socket.SOCK_DGRAM) as group:
        connection = first.open(INPUT_ONLY, MULTICAST)
        group.bind((connection.group, 2222))
        group.setsockopt(socket.IPPROTO_IP, socket.IP_ADD_MEMBERSHIP, socket.inet_aton(connection.group) + socket.inet_aton(peer))
        group.setsockopt(socket.IPPROTO_IP, IP_RECVTTL, 1)
        group.settimeout(5)
        _, [(_, _, hops)], _, _ = group.recvmsg(2048, 64)
    sure(struct.unpack("i", hops) == (1,), f"a datagram to a group passes one network: {hops.hex()}")
    need(adapter.end() == 0, "the adapter ends with status 0")
    bench.clear()
    Target(bench, lambda *_: "serve")
    scanner = Station(bench, "owner", "scanner", bench.file("single.profile"), log="unasked")
    wait(scanner.is_established, "a scanner opens its slots, and nobody asks it to")
    at_once, watched = are_set(scanner)
    sure(at_once, "a scanner opens its slots unasked, and what it writes over a stream that it opened is sent at once")
    sure(watched, "the system tests that stream while it is idle too, and gives it up alike")
    need(scanner.end() == 0, "the scanner ends with status 0")
    bench.clear()


def run_long_points(bench):
    """Datagrams of the longest points arrive whole, both ways."""
    bench.write("long.profile", LONG)
    adapter, data = bench.adapter(profile="long", log="long_points"), os.urandom(1400).hex()
    owner = Originator(bench, **LENGTHS)
    with bench.network.inside("peer"), socket.socket(socket.AF_INET, socket.SOCK_DGRAM) as consumer:
        consumer.bind((bench.address["peer"], 2222))
        connection = owner.open()
        feeder = bench.later(owner.feed(connection, data))
        wait(lambda: owner.read(150) == data, "1,400 bytes of an owner reach the output")
        adapter.call(f"write 100 {data}")
        wait(lambda: consumed(consumer, connection) == data, "1,400 bytes of the input reach the owner")
    feeder.stop()
    sure(adapter.end() == 0, "datagrams of 1,400 bytes arrive whole, both ways")
    bench.clear()


def consumed(udp, connection):
    """The data of the next datagram."""
    need(select.select([udp], [], [], 5)[0], "a datagram comes")
    with served("a datagram of 1,400 bytes"):
        connection.receive(udp.recv(65536))
    return connection.data.hex()


class Flood:
    """Threads that send a stream and datagrams without a pause."""

    def __init__(self, bench):
        self.going, target = True, bench.address["adapter"]
        with bench.network.inside("peer"):
            tcp = socket.create_connection((target, 44818), 3, (bench.network.extra[0], 0))
            udp = socket.socket(socket.AF_INET, socket.SOCK_DGRAM)
            udp.bind((bench.network.extra[1], 0))
        udp.connect((target, 2222))
        self.sockets = [tcp, udp]
        self.threads = [threading.Thread(target=self.send, args=it, daemon=True) for it in ((tcp, NOTHING * 2000), (udp, NOTHING))]
        with usual():
            for it in self.threads:
                it.start()

    def send(self, to, data):
        while self.going:
            with contextlib.suppress(OSError):
                to.sendall(data)

    def close(self):
        self.going = False
        for it in self.threads:
            it.join()
        for it in self.sockets:
            it.close()


def run_flooded(bench):
    """While one peer has always something on its way, others are served."""
    adapter = bench.adapter(log="flooded")
    bench.later(Flood(bench))
    time.sleep(0.5)
    owner = Originator(bench, patience=10.0)
    bench.later(owner.feed(owner.open(), "11223344"))
    wait(lambda: owner.read(150) == "11223344", "an owner's data reach the output in a flood")
    sure(adapter.is_running(), "a flood of one peer that never pauses keeps no other from opening, and no data from an output")
    bench.clear()


def lost_at(station):
    """How many datagrams the system has dropped at the sockets of a station."""
    with open(f"/proc/{station.process.pid}/net/udp") as file:
        return sum(int(line.split()[12]) for line in file if line.split()[1].endswith(":08AE"))


def room_of(station):
    """The bytes of room that a station's socket of datagrams has; None where the system lends no socket of a child."""
    found = sockets_of(station)
    if found is None:
        return None
    return next(it.getsockopt(socket.SOL_SOCKET, socket.SO_RCVBUF) for it in found if it.type == socket.SOCK_DGRAM and it.getsockname()[1] == 2222)


def in_front(trace):
    """How many datagrams a record has in front of each ListServices."""
    found, count = [], 0
    with open(trace) as file:
        for words in filter(None, map(str.split, file)):
            count += words[0] == "datagram"
            if words[0] == "frame" and words[2] == SERVICES.hex():
                found.append(count)
    return found


def wait_and_go_on(adapter, owner, connection, stranger, count):
    """Datagrams come while a station does not run, and then a request."""
    adapter.process.send_signal(signal.SIGSTOP)
    for number in range(count):
        connection.produce(owner.udp, struct.pack("<I", number + 1))
    stranger.tcp.sendall(SERVICES)
    time.sleep(0.05)
    adapter.process.send_signal(signal.SIGCONT)
    need(stranger.tcp.recv(65536)[:1] == SERVICES[:1], "a request behind a burst is answered")
    last = struct.pack("<I", count).hex()
    wait(lambda: owner.read(150) == last, "the newest datagram of a burst reaches the output")


def flow(adapter, owner, connection):
    """A burst at full speed, beside reads over a stream: the datagrams that were dropped, the reads, and the longest of them."""
    before, child, longest, reads = lost_at(adapter), os.fork(), 0.0, 0
    if child == 0:
        try:
            for number in range(BURST):
                connection.produce(owner.udp, struct.pack("<I", number + 1))
        finally:
            os._exit(0)
    while os.waitpid(child, os.WNOHANG) == (0, 0):
        begin = time.monotonic()
        owner.read(150)
        longest, reads = max(longest, time.monotonic() - begin), reads + 1
    return lost_at(adapter) - before, reads, longest


def run_bursts(bench):
    """Datagrams that come faster than a station takes them wait, as many as its host allows, and come before a request that comes
    behind them: at most so many that others have their turn."""
    with open("/proc/sys/net/core/rmem_max") as file:
        room = 2 * min(ASKED, int(file.read()))
    trace, bursts = bench.file("bursts.trace"), [20, 40, 60, min(2000, room // HELD)]
    adapter = bench.adapter("--record", trace, log="bursts")
    owner = Originator(bench, host="owner", rpi_ms=1000)
    connection, stranger = owner.open(), Silent(bench, bench.network.extra[0])
    need(stranger.is_registered(), "a second peer registers a session")
    sure(room_of(adapter) in (None, room), f"the datagrams that wait at a station may take {room:,} bytes, as many as its host allows")
    for count in bursts:
        wait_and_go_on(adapter, owner, connection, stranger, count)
    sure(lost_at(adapter) == 0, f"{bursts[-1]} datagrams that come at once are all taken")
    lost, reads, longest = flow(adapter, owner, connection)
    sure(reads > 0, f"{BURST:,} datagrams without a pause: {lost:,} are dropped, and beside them {reads} reads over a stream take {longest * 1000:.1f} ms at most")
    need(adapter.end() == 0, "the adapter ends with status 0")
    fronts = [count - sum(bursts[:place]) for place, count in enumerate(in_front(trace)[-len(bursts):])]
    sure(fronts[:3] == bursts[:3] and ROUND <= fronts[3] <= MOST_IN_FRONT, f"a request that comes behind 20, 40, 60 and {bursts[3]} of them is "
         f"answered behind {', '.join(map(str, fronts))}")
    bench.clear()


def run_counted_frames(bench):
    """Frames that read the counters of the link: what the host has counted is read once in a second."""
    path = bench.file("counted_frames.trace")
    adapter, peer = bench.adapter("--record", path, log="counted_frames"), Originator(bench)

    def read():
        with served("the counters of the link"):
            general, extended, value, _ = peer.session.request(COUNTERS)
            need((general, extended, len(value)) == (0, (), 44), f"eleven counters are read: {general:02x} {value.hex()}")
        return value

    begin, values = time.monotonic(), set()
    for _ in range(READS):
        values.add(read())
    seconds = time.monotonic() - begin
    most = int(seconds / READ_S) + 1
    sure(1 <= len(values) <= most and values != {bytes(44)}, f"{READS} reads of the counters within {seconds:.2f} s: {len(values)} readings of them")
    time.sleep(READ_S + 0.1)
    sure(read() not in values, "a second later they are others")
    need(adapter.end() == 0, "the adapter ends with status 0")
    with open(path) as file:
        count = sum(line.startswith("counters ") for line in file)
    sure(2 <= count <= most + 1, f"the record has {count} entries of what the host has counted")
    done = run(bench.program, "replay", path)
    sure(done.returncode == 0, f"it replays{done.stderr.decode()}")
    bench.clear()


def run_no_files(bench):
    """A connection comes as no file is left for it: it is accepted once one is."""
    adapter = bench.adapter(log="no_files")
    first = Silent(bench, bench.network.extra[0])
    need(first.is_registered(), "a first peer registers a session")
    time.sleep(0.5)
    used = set(map(int, os.listdir(f"/proc/{adapter.process.pid}/fd")))
    least = next(it for it in range(len(used) + 1) if it not in used)
    resource.prlimit(adapter.process.pid, resource.RLIMIT_NOFILE, (least, resource.prlimit(adapter.process.pid, resource.RLIMIT_NOFILE)[1]))
    with bench.network.inside("peer"), socket.create_connection((bench.address["adapter"], 44818), 3, (bench.network.extra[1], 0)) as late:
        late.sendall(REGISTER)
        need(not select.select([late], [], [], 1.5)[0], "no file is left for a second peer, and it waits")
        first.close()
        need(select.select([late], [], [], 5)[0] and len(late.recv(28)) == 28, "a connection that could not be accepted is asked for again")
    sure(adapter.end() == 0, "a connection for which no file was left is accepted once one is")
    bench.clear()


def wakes_of(station):
    """How often the thread of the device has waited."""
    with open(f"/proc/{station.process.pid}/status") as file:
        return next(int(line.split()[1]) for line in file if line.startswith("voluntary_ctxt_switches"))


def worked_of(station):
    """The seconds for which the processors have worked for the station."""
    with open(f"/proc/{station.process.pid}/stat") as file:
        return sum(map(int, file.read().rpartition(")")[2].split()[11:13])) / os.sysconf("SC_CLK_TCK")


def wakes_and_work(station):
    """How often a station wakes in some seconds, and the seconds for which it works."""
    before, worked = wakes_of(station), worked_of(station)
    time.sleep(IDLE_S)
    return wakes_of(station) - before, worked_of(station) - worked


def run_idle(bench):
    """A station waits until something comes or is due: it neither wakes often nor works without a wait, though a browser has looked."""
    adapter = bench.adapter("--page", str(PORT), log="idle")
    events = Events(bench)
    need(events.next(), "a browser looks at its page")
    begin, shown = time.monotonic(), 0
    while time.monotonic() < begin + 2 and events.next(seconds=1):
        shown += 1
    sure(0 < shown <= MOST_SHOWN, f"a browser gets {shown} snapshots in 2 s of an adapter to which nothing comes")
    events.stream.close()
    time.sleep(LEFT_S)
    rests(adapter, "an adapter to which nothing comes, and whose browser has left,")
    need(adapter.end() == 0, "the adapter ends with status 0")
    scanner = Station(bench, "owner", "scanner", bench.file("owner.profile"), log="idle_owner")
    rests(scanner, "a scanner none of whose slots is started")
    scanner.call("start 0")
    rests(scanner, "a scanner whose target is not there", MOST_TRYING)
    need(scanner.end() == 0, "the scanner ends with status 0")
    bench.clear()


def rests(station, what, most_wakes=MOST_WAKES):
    """A station neither wakes often nor works without a wait."""
    # (what else the system has its thread do is not there each time)
    for _ in range(TRIES):
        wakes, seconds = wakes_and_work(station)
        if wakes <= most_wakes and seconds < MOST_WORK:
            break
    said = f"{what} wakes {wakes} times and works {seconds:.2f} s in {IDLE_S} s"
    if seconds >= MOST_WORK:
        raise Certain(said)
    sure(wakes <= most_wakes, said)


def waits_in(trace):
    """The seconds from each end of a stream to the next stream, by the ticks of a record: a machine that is late makes none shorter."""
    found, ms = [], None
    with open(trace) as file:
        for kind, *words in filter(None, map(str.split, file)):
            if kind == "cut":
                ms = 0
            elif kind == "tick" and ms is not None:
                ms += int(words[0])
            elif kind == "stream" and ms is not None:
                found, ms = [*found, ms / 1000], None
    return found


def run_refused_again(bench):
    """A wait ends where a stream is to be opened, whenever it began."""
    asked = []

    def mood(kind, *_):
        if kind[0] == 0x65:
            asked.append(time.monotonic())
        return "refuse"

    Target(bench, mood)
    trace = bench.file("refused_again.trace")
    scanner = bench.scanner("owner", "--record", trace, profile="single", log="refused_again")
    for tries in range(1, 4):
        wait(lambda: len(asked) >= tries, f"session {tries} is asked for", 5)
        time.sleep(max(0.0, asked[tries - 1] + 0.6 - time.monotonic()))
        scanner.call("read 0")  # (its outcome begins another wait)
    wait(lambda: len(asked) == 4, "a session is asked for again", 5)
    need(scanner.end() == 0, "the scanner ends with status 0")
    gaps = waits_in(trace)
    sure(RETRY - ROUNDED <= min(gaps) < RETRY + 0.4, f"after a session that is refused a stream is opened in {min(gaps):.2f} s, and no call delays it")
    bench.clear()


def run_tries(bench):
    """Tries to open a stream that are refused grow apart, and a slot that is established begins their count anew (rule 24.4)."""
    asked, refused = [], REFUSALS

    def mood(kind, *_):
        if kind[0] == 0x65:
            asked.append(time.monotonic())
            return "refuse" if len(asked) in refused else "serve"
        return "serve"

    target, trace = Target(bench, mood), bench.file("tries.trace")
    scanner = bench.scanner("owner", "--record", trace, profile="single", log="tries")
    wait(scanner.is_established, "a scanner whose target refused five sessions is established", 12)
    target.streams[-1].tcp.shutdown(socket.SHUT_RDWR)
    wait(lambda: len(asked) == len(WAITS) + 1, "another session is asked for behind one that is refused", 8)
    need(scanner.end() == 0, "the scanner ends with status 0")
    need(target.fault is None, f"the target finds nothing wrong: {target.fault}")
    gaps = waits_in(trace)
    as_said = len(gaps) >= len(WAITS) and all(wanted - ROUNDED <= gap < wanted + 0.5 for gap, wanted in zip(gaps, WAITS))
    sure(as_said, f"streams are opened after {' '.join(f'{gap:.2f}' for gap in gaps)} s: five sessions are refused, one is served and cut, "
         "the next one is refused")
    bench.clear()


def run_cut_stream(bench):
    """A target ends a stream whose connection goes on: the scanner opens another one, and registers a session on it."""
    asked = []

    def mood(kind, before, stream):
        if kind[0] == 0x65:
            asked.append(stream)
        return "serve"

    target = Target(bench, mood)
    scanner = bench.scanner("owner", profile="single", log="cut_stream")
    wait(scanner.is_established, "the scanner is established")
    asked[0].tcp.shutdown(socket.SHUT_RDWR)
    seconds = wait(lambda: len(asked) == 2, "a session is registered on another stream", 5)
    need(scanner.is_established() and scanner.states().count(PRESENT) == 1, f"its connection goes on: {scanner.states()}")
    sure(target.fault is None, f"a stream that its target ended is opened again after {seconds:.1f} s, and its connection goes on")
    need(scanner.end() == 0, "the scanner ends with status 0")
    bench.clear()
