"""The files of a page: whatever browsers take, a device keeps its time, and its program the memory that it had."""

import contextlib, os, random, re, signal, socket, struct, sys, threading, time
from rim import outputs
from rim.host import Untried, first_in_line, holds, need, run, sure, usual, wait
from rim.outputs import LARGE
from rim.pages import BUSY, HOST, MOST, PORT, asked, connected, lengthen, status_of, word_of
from rim.peers import Originator

STAMPED = 35  # SO_TIMESTAMPNS: the system says when a datagram has come, whoever reads it later
INTERVAL_MS, LATE_MS = 2, 6  # an interval, and a gap between two productions in which two are missed
PRIORITY, LEAST, MOST_GROWN_KB = 50, 9_000_000, 2_048
LATE_S = 0.003  # of a control that sleeps for a millisecond
TIMES = 16  # the time-out of tools/peers/originator.py, in packet intervals
LITTLE = 100_000  # bytes of a record's second file


def is_alone():
    """Has this process run at one processor, which is drawn, since others may be bound to one, and at real-time priority if that is
    allowed."""
    os.sched_setaffinity(0, {random.SystemRandom().choice(sorted(os.sched_getaffinity(0)))})
    with contextlib.suppress(OSError):
        os.sched_setscheduler(0, os.SCHED_FIFO, os.sched_param(PRIORITY))


class Control:
    """A process at the same processor as the adapter, and before it: it is late where the machine keeps the processor from both."""

    def __init__(self, adapter):
        processors, parent = os.sched_getaffinity(adapter.process.pid), os.getpid()
        self.reader, writer = os.pipe()
        self.pid = os.fork()
        if self.pid == 0:
            try:
                os.closerange(3, writer)
                os.closerange(writer + 1, 65536)
                os.sched_setaffinity(0, processors)
                first_in_line(PRIORITY + 10)
                last = time.time()
                while os.getppid() == parent:
                    time.sleep(0.001)
                    now = time.time()
                    if now - last > LATE_S:
                        os.write(writer, struct.pack("<dd", last, now))
                    last = now
            finally:
                os._exit(0)
        os.close(writer)

    def late(self):
        """The times from before it was late to behind, in milliseconds."""
        self.close()
        with os.fdopen(self.reader, "rb") as file:
            return [(begin * 1000, end * 1000) for begin, end in struct.iter_unpack("<dd", file.read())]

    def close(self):
        if self.pid:
            os.kill(self.pid, signal.SIGKILL)
            os.waitpid(self.pid, 0)
            self.pid = 0


class Productions:
    """When the productions to an address came, in milliseconds."""

    def __init__(self, bench, own):
        with bench.network.inside("peer"):
            self.udp = bench.later(socket.socket(socket.AF_INET, socket.SOCK_DGRAM))
        self.udp.setsockopt(socket.SOL_SOCKET, STAMPED, 1)
        self.udp.setsockopt(socket.SOL_SOCKET, socket.SO_RCVBUF, 1 << 22)
        self.udp.bind((own, 2222))
        self.udp.settimeout(0.5)

    def gaps(self, seconds):
        """The gaps between those that come in so many seconds, each as its length and its end."""
        times, end = [], time.monotonic() + seconds
        while time.monotonic() < end:
            with contextlib.suppress(OSError):
                for _, kind, data in self.udp.recvmsg(2048, 128)[1]:
                    if kind == STAMPED:
                        whole, parts = struct.unpack("qq", data[:16])
                        times.append(whole * 1000 + parts / 1e6)
        return [(after - before, after) for before, after in zip(times, times[1:])]


class Browser(threading.Thread):
    """A browser that asks for the capture file again and again, and reads what it gets."""

    def __init__(self, bench, path):
        super().__init__(daemon=True)
        self.bench, self.path, self.going, self.statuses, self.got = bench, path, True, [], b""

    def run(self):
        while self.going:
            with contextlib.suppress(OSError):
                with connected(self.bench) as stream:
                    stream.sendall(f"GET {self.path} HTTP/1.1\r\nHost: {HOST}\r\n\r\n".encode())
                    parts = []
                    while part := stream.recv(262144):
                        parts.append(part)
                    answer = b"".join(parts)
                    self.statuses.append(status_of(answer[:64]))
                    if self.statuses[-1] == 200:
                        self.got = answer.partition(b"\r\n\r\n")[2]

    def close(self):
        self.going = False
        self.join()


def memory_of(station):
    """The most memory that its process has had, in KB."""
    with open(f"/proc/{station.process.pid}/status") as file:
        return int(re.search(r"VmHWM:\s+(\d+) kB", file.read())[1])


def told_gaps(gaps):
    return f"{sum(gap >= LATE_MS for gap, _ in gaps)} gaps of {LATE_MS} ms or more, the longest {max(gaps)[0]:.1f} ms, of {len(gaps)}"


def run_downloads(bench):
    """Eight browsers ask for the capture file of a long record without a pause, beside an owner of 2 ms, at one processor."""
    record, seconds = bench.file("long_page.trace"), 4 if bench.args.short else 20
    bench.write("large.profile", LARGE)
    adapter = bench.adapter("--page", str(PORT), "--record", record, profile="large", log="long_page", before=is_alone)
    is_first = os.sched_getscheduler(adapter.process.pid) == os.SCHED_FIFO
    holds("the adapter has one processor, " + ("at real-time priority" if is_first else "at usual priority: another one is not allowed here"))
    lengthen(bench, adapter, "long_page.trace", LEAST)
    before, interval, path = memory_of(adapter), sys.getswitchinterval(), f"/record.pcap?{word_of(bench)}"
    sys.setswitchinterval(0.0005)
    try:
        owner = Originator(bench, rpi_ms=INTERVAL_MS if is_first else 10)
        productions, feeder = Productions(bench, bench.address["peer"]), bench.later(owner.feed(owner.open(), "11223344"))
        wait(lambda: owner.read(150) == "11223344", "the owner's data reach the output")
        control = productions.gaps(seconds)
        browsers = [bench.later(Browser(bench, path)) for _ in range(MOST)]
        witness = bench.later(Control(adapter))
        with usual():
            for it in browsers:
                it.start()
        beside = productions.gaps(seconds)
        late = witness.late()
        is_kept, longest = owner.read(150) == "11223344", max((end - begin for begin, end in late), default=0)
        if not is_kept and longest >= TIMES * owner.args.rpi_ms / 2:
            raise Untried(f"the machine kept the processor from a process before the adapter for {longest:.0f} ms")
        feeder.keeps(is_kept, "the owner keeps its output")
        for it in browsers:
            it.close()
        feeder.stop()
    finally:
        sys.setswitchinterval(interval)
    statuses = [status for it in browsers for status in it.statuses]
    need(set(statuses) == {200, BUSY}, f"a download is served, and others are refused meanwhile: {set(statuses)}")
    holds(f"without browsers: {told_gaps(control)}")
    need(len(beside) > 0.9 * len(control), f"productions go on: {len(beside)}, and {len(control)} without browsers")
    # (while the machine kept the processor from a process that goes before the adapter, it kept it from the adapter too)
    missed = [(gap, end) for gap, end in beside if gap >= max(LATE_MS, max(control)[0]) and not any(begin < end and end - gap < back for begin, back in late)]
    sure(not is_first or not missed, f"beside {statuses.count(200)} downloads, and {statuses.count(BUSY)} that are refused, nothing is missed that is "
         f"not missed without: {told_gaps(beside)}; {len(late)} times the machine kept the processor from a process before the adapter")
    grown = memory_of(adapter) - before
    sure(grown < MOST_GROWN_KB, f"the downloads of a record of {os.path.getsize(record)} bytes take {grown} KB: {before} KB before")
    need(adapter.end() == 0, "the adapter ends with status 0")
    whole, last = run(bench.program, "pcap", record).stdout, max((it.got for it in browsers), key=len)
    sure(len(last) > 100_000 and whole.startswith(last), f"a download is the capture file so far: {len(last)} bytes of {len(whole)}")


def run_long_record(bench):
    """A record of two files, and a download of it, which has both, one behind the other."""
    answers, paths = [], [bench.file(f"long.trace{number}") for number in ("", ".2")]
    outputs.run_long_record(bench, "--page", str(PORT), meanwhile=lambda: answers.append(asked(bench, path=f"/record?{word_of(bench)}")))
    (status, record), (first, second) = answers[0], map(read_whole, paths)
    need(status == 200 and record.startswith(first), f"a download of {len(record)} bytes begins with the first file of {len(first)}")
    rest = record[len(first):]
    sure(len(rest) > LITTLE and second.startswith(rest), f"a download has all {len(first)} bytes of a record's first file, and {len(rest)} of its second one")


def read_whole(path):
    with open(path, "rb") as file:
        return file.read()
