"""Hosts, station programs and files of a test run. tools/play/stations and tools/long/soak_stations use it."""

import contextlib, ctypes, fcntl, mmap, os, random, select, shutil, signal, socket, struct, subprocess, tempfile, termios, time

TOP = os.path.dirname(os.path.dirname(os.path.dirname(os.path.dirname(os.path.realpath(__file__)))))
NAMES = ["adapter", "owner", "reader", "peer"]
EXTRA = range(40, 80)  # the last bytes of further addresses of the host `peer`
GROUPED = range(100, 250)  # those of an adapter at 127.x.x.x: each one gives its multicast connections a group of their own
USED = (socket.SOCK_STREAM, 44818), (socket.SOCK_DGRAM, 44818), (socket.SOCK_DGRAM, 2222)  # the ports of a station
UNGIVEN = range(20_000, 32_000)  # ports that no system gives away by itself
DRAWS = 2_000  # of an address, a group or a port that is free
KEEPING = 2221  # no station's port: a socket there keeps an address for its run
NEW_NETWORK = 0x40000000  # CLONE_NEWNET
ADAPTER = "adapter 16 {adapter} 255.255.255.0 1 12 7 2 3\noutput 150 4 zero zero\ninput 100 4\nheartbeat 152 153\n"
OWNER = "scanner 32 {owner} 1 101 1000 1000\nslot {adapter} exclusive - 150 100 4 4 10000 10000 2 {cast} - -\n"
READER = "scanner 48 {reader} 1 102 1000 1000\nslot {adapter} input - 152 100 0 4 10000 10000 2 multicast - -\n"
PRIORITY = 50  # of real time, between 1 and 99
OF_TEST, OF_STATION, FIRST = 10, 20, 90  # those of a test, of its stations, and of what goes before all of them
PULSE_S = 0.005
PRESENT = 3  # the standard's number of an established connection


class Wrong(Exception):
    pass


class Certain(Wrong):
    """What no machine that is late excuses."""


class Untried(Exception):
    """What a part is to show was not tried, since this machine kept the test's own peers from their time."""


def holds(text):
    print(text, flush=True)


def sure(condition, text):
    if not condition:
        raise Wrong(text)
    holds(text)


def need(condition, text):
    """As `sure`, without a line if it holds."""
    if not condition:
        raise Wrong(text)


def until(condition, text, seconds=15.0):
    wait(condition, text, seconds)
    holds(text)


def wait(condition, text, seconds=15.0):
    """As `until`, without a line; the text may be a call. Answers the seconds that it took."""
    begin = time.monotonic()
    while not condition():
        if time.monotonic() > begin + seconds:
            raise Wrong(f"not within {seconds:.1f} s: {text() if callable(text) else text}")
        time.sleep(0.01)
    return time.monotonic() - begin


def run(*words, **how):
    how.setdefault("preexec_fn", at_usual)
    return subprocess.run(words, stdout=subprocess.PIPE, stderr=subprocess.PIPE, **how)


def stepped(line, record):
    """What eip_line prints for the events of a record. It takes no sums, so it gets the record without its outcomes."""
    with open(record, "rb") as file:
        events = b"".join(it for it in file if not it[:1].isdigit())
    done = run(line, "step", input=events)
    need(done.returncode == 0, f"{record}: eip_line step has status {done.returncode}: {done.stderr.decode().strip()}")
    return done.stdout


def first_in_line(priority=PRIORITY):
    """Real-time priority, where the machine allows it."""
    with contextlib.suppress(PermissionError):
        os.sched_setscheduler(0, os.SCHED_FIFO, os.sched_param(priority))


@contextlib.contextmanager
def ahead():
    """Such a priority of this thread meanwhile."""
    before = os.sched_getscheduler(0), os.sched_getparam(0)
    first_in_line()
    try:
        yield
    finally:
        os.sched_setscheduler(0, *before)


def at_usual():
    os.sched_setscheduler(0, os.SCHED_OTHER, os.sched_param(0))


@contextlib.contextmanager
def usual():
    """The usual priority of this thread, and of those that it begins meanwhile: for what never waits. The system takes the processor for some
    50 ms of a second from all of real time, stations among them, where they would leave none to others."""
    before = os.sched_getscheduler(0), os.sched_getparam(0)
    at_usual()
    try:
        yield
    finally:
        os.sched_setscheduler(0, *before)


class Pulse:
    """A process at each processor that does nothing but sleep for 5 ms, before all others where the machine allows it. Where one is late, this
    machine has kept a processor from the test, its peers and its stations."""

    def __init__(self):
        parent, processors = os.getpid(), sorted(os.sched_getaffinity(0))
        self.noted, self.pids = mmap.mmap(-1, 16 * len(processors)), []
        for at, processor in enumerate(processors):
            self.pids.append(os.fork())
            if self.pids[-1] == 0:
                try:
                    self.sleep(at, processor, parent)
                finally:
                    os._exit(0)

    def sleep(self, at, processor, parent):
        os.closerange(3, 65536)
        os.sched_setaffinity(0, {processor})
        if os.sched_getscheduler(0) == os.SCHED_FIFO:
            first_in_line(FIRST)
        while os.getppid() == parent:
            begin = time.monotonic()
            self.noted[16 * at:16 * at + 16] = struct.pack("<dd", self.late(at, begin), begin)
            time.sleep(PULSE_S)

    def late(self, at, now):
        longest, last = struct.unpack("<dd", self.noted[16 * at:16 * at + 16])
        return max(longest, now - last - PULSE_S) if last else 0.0

    def begin(self):
        self.noted[:] = struct.pack("<dd", 0.0, time.monotonic()) * len(self.pids)

    def longest(self):
        """The longest time for which one was kept from going on since `begin`, in seconds."""
        return max(self.late(at, time.monotonic()) for at in range(len(self.pids)))

    def close(self):
        for pid in self.pids:
            os.kill(pid, signal.SIGKILL)
            os.waitpid(pid, 0)


def last(done):
    lines = (done.stdout + done.stderr).decode().splitlines()
    return lines[-1] if lines else "nothing said"


kept = []  # the sockets that keep what this run drew until its process ends, however it ends


def is_kept(address):
    """Whether this run alone has an address from now on: no other one that draws it can keep it."""
    socket_ = socket.socket(socket.AF_INET, socket.SOCK_DGRAM)
    try:
        socket_.bind((address, KEEPING))
    except OSError:
        socket_.close()
        return False
    kept.append(socket_)
    return True


def are_free(addresses, ports=USED):
    """Whether nobody uses these ports at any of these addresses."""
    with contextlib.ExitStack() as opened:
        try:
            for address in addresses:
                for kind, port in ports:
                    opened.enter_context(socket.socket(socket.AF_INET, kind)).bind((address, port))
        except OSError:
            return False
    return True


def free_hosts(lasts=(1,)):
    """The beginning of addresses of this host, 127.A.B., which no other run draws until this one ends, and at whose last bytes nobody
    uses a station's ports. One that is taken is drawn again."""
    drawn = random.SystemRandom()
    for _ in range(DRAWS):
        first = f"127.{drawn.randrange(1, 255)}.{drawn.randrange(1, 255)}."
        if is_kept(f"{first}254") and are_free(f"{first}{last}" for last in lasts):
            return first
    raise Wrong("no addresses of this host are free")


def group_of(last):
    """The first group of an adapter whose address has this last byte, under a mask of 24 bits (Volume 2, chapter 3)."""
    return socket.inet_ntoa(struct.pack(">I", 0xEFC00100 + 32 * (last - 1)))


def free_last():
    """The last byte of an adapter's address whose group no other run draws until this one ends."""
    drawn = random.SystemRandom()
    for _ in range(DRAWS):
        last = drawn.choice(GROUPED)
        if is_kept(group_of(last)):
            return last
    raise Wrong("no group is free")


def free_port(count=1):
    """A port of this host, or the first of so many behind one another, that nobody uses for TCP or UDP at any address. No other run
    draws it until this one ends, and a station may listen there."""
    drawn = random.SystemRandom()
    for _ in range(DRAWS):
        first, held = drawn.choice(UNGIVEN), []
        with contextlib.suppress(OSError):
            for port in range(first, first + count):
                held.append(socket.socket())
                held[-1].bind(("0.0.0.0", port))
                # (bound without this option the port was free; with it, who has the option too may listen there, as a station)
                held[-1].setsockopt(socket.SOL_SOCKET, socket.SO_REUSEADDR, 1)
            if are_free(["0.0.0.0"], [(socket.SOCK_DGRAM, port) for port in range(first, first + count)]):
                kept.extend(held)
                return first
        for it in held:
            it.close()
    raise Wrong("no port of this host is free")


class Network:
    """Four hosts: in namespaces joined by a bridge, or addresses of this host that no other run has."""

    def __init__(self, loopback):
        self.tag = f"eip{os.getpid()}"
        self.own = not loopback and self.made()
        lasts = {name: at + 1 for at, name in enumerate(NAMES)}
        if not self.own:
            lasts["adapter"] = free_last()
        self.first = "10.77.0." if self.own else free_hosts([*lasts.values(), *EXTRA])
        self.address = {name: f"{self.first}{last}" for name, last in lasts.items()}
        self.extra = [f"{self.first}{at}" for at in EXTRA]
        self.broadcast = f"{self.first}255"

    def made(self):
        """Whether namespaces were made."""
        try:
            self.ip("netns", "add", self.space("hub"))
        except (OSError, Wrong):
            return False
        self.ip("-n", self.space("hub"), "link", "add", "hub", "type", "bridge", "mcast_snooping", "0")
        self.ip("-n", self.space("hub"), "link", "set", "hub", "up")
        for at, name in enumerate(NAMES):
            space = self.space(name)
            self.ip("netns", "add", space)
            self.ip("link", "add", "eth0", "netns", space, "type", "veth", "peer", "name", name, "netns", self.space("hub"))
            self.ip("-n", self.space("hub"), "link", "set", name, "master", "hub", "up")
            self.ip("-n", space, "addr", "add", f"10.77.0.{at + 1}/24", "brd", "+", "dev", "eth0")
            self.ip("-n", space, "link", "set", "eth0", "up")
            self.ip("-n", space, "link", "set", "lo", "up")
            self.ip("-n", space, "route", "add", "224.0.0.0/4", "dev", "eth0")
        for at in EXTRA:
            self.ip("-n", self.space("peer"), "addr", "add", f"10.77.0.{at}/24", "dev", "eth0")
        return True

    def space(self, name):
        return f"{self.tag}-{name}"

    def ip(self, *words):
        done = run("ip", *words)
        if done.returncode:
            raise Wrong(f"ip {' '.join(words)}: {done.stderr.decode().strip()}")

    def at(self, name):
        """What runs a program at a host."""
        return ["ip", "netns", "exec", self.space(name)] if self.own else []

    @contextlib.contextmanager
    def inside(self, name):
        """Sockets that this thread makes meanwhile are sockets of a host."""
        if not self.own:
            yield
            return
        with open("/proc/thread-self/ns/net") as before, open(f"/var/run/netns/{self.space(name)}") as there:
            enter(there)
            try:
                yield
            finally:
                enter(before)

    def link(self, state):
        self.ip("-n", self.space("hub"), "link", "set", "adapter", state)

    def remove(self):
        for name in ["hub", *NAMES] if self.own else []:
            run("ip", "netns", "del", self.space(name))


def enter(space):
    if ctypes.CDLL(None, use_errno=True).setns(space.fileno(), NEW_NETWORK):
        raise Wrong(f"setns: {os.strerror(ctypes.get_errno())}")


class Pipe:
    """A pipe of a page, which nobody reads until `taken`."""

    PAGE = 4096

    def __init__(self):
        self.reader, self.writer = os.pipe()
        fcntl.fcntl(self.writer, fcntl.F_SETPIPE_SZ, self.PAGE)
        os.set_blocking(self.reader, False)
        self.text = b""

    def unread(self):
        count = fcntl.ioctl(self.reader, termios.FIONREAD, struct.pack("i", 0))
        return struct.unpack("i", count)[0]

    def handed_over(self):
        """The station alone has the writing end."""
        os.close(self.writer)

    def taken(self):
        """Reads what there is, and answers all lines that were read so far."""
        with contextlib.suppress(BlockingIOError):
            while got := os.read(self.reader, 65536):
                self.text += got
        return self.text.decode().splitlines()

    def close(self):
        os.close(self.reader)


class Station:
    """A running station: its standard input takes calls, and its lines go to a file, or to where `out` and `err` say.

    `before` is run in the new process, `env` has words for env(1). Hosts of namespaces join no group: unless the part of the run is on
    `groups`, copies go to consumers."""

    def __init__(self, test, name, kind, profile, *options, groups=False, log=None, out=None, err=None, stdin=subprocess.PIPE, env=(), before=None):
        if test.network.own and not groups and kind != "scanner" and "--multicast" not in options:
            options = (*options, "--unicast-copies")
        self.name, self.log, self.err = name, test.file(f"{log or name}.out"), test.file(f"{log or name}.err")
        with open(self.log, "wb") as own_out, open(self.err, "wb") as own_err:
            words = [*test.network.at(name), *(["env", *env] if env else []), test.program, kind, profile, *options]
            self.process = subprocess.Popen(words, stdin=stdin, stdout=out or own_out, stderr=err or own_err,
                                            preexec_fn=begins_at(test.priority, before))
        if self.process.stdin:
            os.set_blocking(self.process.stdin.fileno(), False)
        test.running.append(self)

    def call(self, *lines, seconds=10):
        """Writes calls, which the station is to take in some seconds."""
        left, input = "".join(line + "\n" for line in lines).encode(), self.process.stdin.fileno()
        while left:
            _, writable, _ = select.select([], [input], [], seconds)
            need(writable, f"the station {self.name} takes no calls")
            try:
                left = left[os.write(input, left):]
            except OSError:
                raise Wrong(f"the station {self.name} has ended: {self.said()}") from None

    def lines(self):
        """The whole lines of its standard output."""
        with open(self.log) as file:
            return whole_lines(file.read())

    def said(self):
        """The whole lines of its standard error."""
        with open(self.err) as file:
            return whole_lines(file.read())

    def states(self, slot=0):
        """The states that a slot took, in their order."""
        return [int(line.split()[4]) for line in self.lines() if line.split()[1:4] == ["note", "slot", str(slot)]]

    def is_running(self):
        return self.process.poll() is None

    def is_established(self, slot=0):
        return self.states(slot)[-1:] == [PRESENT]

    def end(self, seconds=10):
        """The status after the end of the standard input."""
        self.process.stdin.close()
        return self.status(seconds)

    def status(self, seconds=10):
        try:
            return self.process.wait(seconds)
        except subprocess.TimeoutExpired:
            raise Wrong(f"the station {self.name} does not end") from None

    def kill(self):
        if self.is_running():
            self.process.kill()
            self.process.wait()


def begins_at(priority, before):
    """What a station does before it begins: it takes its priority, if it is to have one of real time."""
    def begin():
        first_in_line(priority)
        if before:
            before()
    return begin if priority else before


def whole_lines(text):
    return text[:text.rfind("\n") + 1].splitlines()


class Bench:
    """The folder, the hosts and the stations of a test run."""

    priority = None  # of its stations

    def __init__(self, args):
        self.args, self.program, self.line = args, os.path.realpath(args.program), os.path.realpath(args.line)
        self.folder = args.keep or tempfile.mkdtemp()
        os.makedirs(self.folder, exist_ok=True)
        self.running, self.closing, self.network = [], [], Network(args.loopback)
        self.address = self.network.address
        for name, text in ("adapter", ADAPTER), ("owner", OWNER), ("reader", READER):
            self.write(f"{name}.profile", text.format(cast="multicast", **self.address))
        self.write("single.profile", OWNER.format(cast="p2p", owner=self.address["owner"], adapter=self.address["peer"]))

    def keep_only(self, names):
        """Removes all but these names from the folder: a part that is played again makes its folders and its pipes again."""
        for name in set(os.listdir(self.folder)) - names:
            path = self.file(name)
            if os.path.isdir(path) and not os.path.islink(path):
                shutil.rmtree(path)
            else:
                os.remove(path)

    def file(self, name):
        return os.path.join(self.folder, name)

    def write(self, name, text):
        """Writes a text with the addresses of the hosts to a file, and answers its path."""
        return self.write_exactly(name, text.format(**self.address))

    def write_exactly(self, name, text):
        with open(self.file(name), "w") as file:
            file.write(text)
        return self.file(name)

    def adapter(self, *options, profile="adapter", log=None, port=44818, **how):
        """An adapter that listens, at the TCP port that its options name."""
        station = Station(self, "adapter", "adapter", self.file(f"{profile}.profile"), *options, log=log or profile, **how)
        wait_for_port(self.network, "adapter", station, port)
        return station

    def scanner(self, name, *options, profile=None, log=None, **how):
        station = Station(self, name, "scanner", self.file(f"{profile or name}.profile"), *options, log=log or profile, **how)
        station.call("start 0", "mode run")
        return station

    def later(self, closing):
        """What is closed at the end at the latest. Answers it."""
        self.closing.append(closing)
        return closing

    def clear(self):
        """Ends the stations and the peers of a part of the run."""
        for it in self.closing:
            with contextlib.suppress(OSError):
                it.close()
        for station in self.running:
            with contextlib.suppress(OSError):
                station.process.send_signal(signal.SIGCONT)
            station.kill()
            if station.process.stdin:
                with contextlib.suppress(OSError):
                    station.process.stdin.close()
        self.running, self.closing = [], []

    def remove(self):
        self.clear()
        self.network.remove()
        if not self.args.keep:
            shutil.rmtree(self.folder)


def listens(network, host, address, port=44818):
    """Whether a TCP port of a host is open."""
    with network.inside(host):
        try:
            socket.create_connection((address, port), 1).close()
        except OSError:
            return False
    return True


def wait_for_port(network, host, station=None, port=44818):
    """Waits until the TCP port of a host is open."""
    end = time.monotonic() + 20
    while not listens(network, host, network.address[host], port):
        if station and not station.is_running():
            raise Wrong(f"the station {station.name} ended with status {station.process.returncode}: {station.said()}")
        if time.monotonic() > end:
            raise Wrong(f"nobody listens at {network.address[host]}")
        time.sleep(0.02)
