"""`eip_line loop`, an adapter and a scanner over sockets of 127.0.0.1, and peers that do at its adapter what no peer should."""

import contextlib, errno, socket, struct, subprocess, threading, time
from rim.calls import CallFaults
from rim.host import Untried, first_in_line, free_port, need, sure, usual, wait
from rim.peers import EXCLUSIVE, POINT_TO_POINT, REGISTER, originator, served
from rim.sockets import NOTHING, is_joined, sockets_of, streams_of

HERE = "127.0.0.1"
TURNS = 1_000_000  # more than any of these runs makes
OWNED = (1, (0x0106,))  # the status of an opening whose output another connection owns
WATCHED = 11.5  # seconds: a connection whose first data do not come ends after 10
TIME_OUT_S = 0.16  # of a connection of a line: 16 packet intervals of 10 ms
TRIES = 4
PATIENCE = 60.0
STREAMS = 16  # of an adapter; the scanner of the line has one of them
MORE = 20  # peers one after another, more than streams
TOO_LONG = bytes([0x6F, 0, 0x01, 0x08])  # the beginning of a message of 2,049 bytes of data
LIST_SERVICES = struct.pack("<HHII8sI", 4, 0, 0, 0, b"", 0)
PATIENT = 180.0
FEW, FILLING = 300, 3000  # messages whose replies fill what is kept of a stream, if it is made small and if not


class Loop:
    """A line on this host, at ports that nobody uses, which goes on until it is closed."""

    def __init__(self, bench, env=()):
        self.tcp, self.udp = free_port(), free_port(2)
        words = [bench.line, "loop", "--tcp", self.tcp, "--udp", self.udp, "--turns", TURNS]
        self.process = subprocess.Popen([*(["env", *env] if env else []), *map(str, words)], stdout=subprocess.PIPE, stderr=subprocess.PIPE,
                                        preexec_fn=first_in_line)
        bench.later(self)
        wait(self.is_owned, "the scanner of a line owns the output of its adapter", 20)

    def peer(self, small=False):
        """A stream to the adapter; for a small one both systems keep few bytes that nobody reads."""
        tcp = socket.socket(socket.AF_INET, socket.SOCK_STREAM)
        if small:
            tcp.setsockopt(socket.SOL_SOCKET, socket.SO_RCVBUF, 2048)
            tcp.setsockopt(socket.IPPROTO_TCP, socket.TCP_MAXSEG, 536)
        tcp.setsockopt(socket.IPPROTO_TCP, socket.TCP_NODELAY, 1)
        tcp.settimeout(PATIENCE)
        tcp.connect((HERE, self.tcp))
        return tcp

    def is_owned(self):
        """Whether another connection owns the output: an opening is refused for that."""
        args = originator.arguments([HERE, "--own", HERE, "--tcp", str(self.tcp), "--patience", str(PATIENCE)])
        try:
            session = originator.Session(args)
        except ConnectionRefusedError:
            need(self.process.poll() is None, "a line goes on")
            return False
        with contextlib.closing(session.tcp), served("the adapter of a line answers an opening"):
            return originator.Connection(args, session, EXCLUSIVE, POINT_TO_POINT).open()[:2] == OWNED

    def is_running(self):
        return self.process.poll() is None

    def kept(self):
        """The seconds for which the line was ready and had no processor, so far."""
        with open(f"/proc/{self.process.pid}/schedstat") as file:
            return int(file.read().split()[1]) / 1e9

    def ended(self):
        """The status, and what was said on standard error."""
        said = self.process.communicate(timeout=10)[1].decode().strip()
        return self.process.returncode, said

    def close(self):
        self.process.kill()
        self.process.wait()
        self.process.stdout.close()
        self.process.stderr.close()


class Watch:
    """A thread that looks for some seconds whether the scanner of each line owns its output, ten times a second."""

    def __init__(self, lines):
        self.lines, self.fault, self.looks = lines, None, 0
        self.before = [line.kept() for line in lines]
        self.thread = threading.Thread(target=self.look, daemon=True)
        self.thread.start()

    def look(self):
        end = time.monotonic() + WATCHED
        while time.monotonic() < end and not self.fault:
            try:
                if not all(line.is_owned() for line in self.lines):
                    self.fault = "an output has lost its owner"
            except Exception as fault:  # (it is told by who waits for this thread)
                self.fault = repr(fault)
            self.looks += 1
            time.sleep(0.1)

    def join(self):
        self.thread.join()
        return self.fault

    def kept(self):
        """The longest time for which a line was kept from the processor meanwhile, in seconds."""
        return max(line.kept() - before for line, before in zip(self.lines, self.before))


# PEERS

def is_registered(tcp):
    """Whether the peer gets a session."""
    tcp.sendall(REGISTER)
    return answered(tcp)


def answered(tcp):
    got = b""
    while len(got) < 28:
        more = tcp.recv(28 - len(got))
        if not more:
            return False
        got += more
    return got[:2] == REGISTER[:2] and got[8:12] == bytes(4)


def is_ended(tcp):
    """Whether the adapter ends the stream, and answers nothing before."""
    try:
        return tcp.recv(1) == b""
    except ConnectionError:
        return True
    except TimeoutError:
        return False


def serves(line, what):
    """The next peer gets a session."""
    with contextlib.closing(line.peer()) as tcp:
        try:
            need(is_registered(tcp), f"{what}: the next peer gets a session")
        except OSError as fault:
            need(False, f"{what}: the next peer gets a session, and not {fault!r}")


def never_reads(line):
    """Its replies fill what the systems keep for it, then one is not written whole, and its stream ends."""
    with contextlib.closing(line.peer(small=True)) as tcp:
        need(is_registered(tcp), "a peer gets a session")
        count = FILLING
        for it in streams_of(line) or []:
            with it:  # (a copy keeps a socket open)
                if it.getpeername() == tcp.getsockname():
                    it.setsockopt(socket.SOL_SOCKET, socket.SO_SNDBUF, 1)  # so that few replies are enough
                    count = FEW
        try:
            tcp.sendall(LIST_SERVICES * count)
            # (what has arrived before the end is served before it, so no more is sent than is needed)
            wait(lambda: not tcp.send(LIST_SERVICES), "the stream of a peer that never reads ends", PATIENT)
        except ConnectionError:
            pass


def half_message(line):
    for _ in range(MORE):
        with contextlib.closing(line.peer()) as tcp:
            tcp.sendall(REGISTER[:10])
            time.sleep(0.01)


def single_bytes(line):
    with contextlib.closing(line.peer()) as tcp:
        for byte in REGISTER:
            tcp.sendall(bytes([byte]))
            time.sleep(0.003)
        need(answered(tcp), "a message in pieces of one byte gets its answer")


def too_long(line):
    with contextlib.closing(line.peer()) as tcp:
        tcp.sendall(TOO_LONG)
        need(is_ended(tcp), "a message that is too long ends its stream")


def flood(line):
    """One peer sends messages, and the scanner's own socket, where the system lends it, datagrams."""
    udp = [it for it in sockets_of(line) or [] if it.type == socket.SOCK_DGRAM and is_joined(it) and it.getpeername()[1] == line.udp]
    ended = threading.Event()

    def pour(to, data):
        while not ended.is_set():
            with contextlib.suppress(BlockingIOError, TimeoutError):
                to.send(data)

    with contextlib.closing(line.peer()) as tcp:
        threads = [threading.Thread(target=pour, args=it, daemon=True) for it in [(tcp, NOTHING * 2000), *((it, NOTHING) for it in udp)]]
        with usual():
            for thread in threads:
                thread.start()
        try:
            time.sleep(0.3)
            serves(line, "while a peer floods messages and datagrams")
        finally:
            ended.set()
            for thread in threads:
                thread.join()
            for it in udp:
                it.close()


def reset(line):
    for _ in range(MORE):
        with contextlib.closing(line.peer()) as tcp:
            tcp.sendall(REGISTER)
            time.sleep(0.01)
            tcp.setsockopt(socket.SOL_SOCKET, socket.SO_LINGER, struct.pack("ii", 1, 0))


def seventeen(line):
    with contextlib.ExitStack() as opened:
        peers = []
        for _ in range(STREAMS - 1):
            peers.append(opened.enter_context(contextlib.closing(line.peer())))
            need(is_registered(peers[-1]), f"peer {len(peers)} gets a session beside the scanner")
        with contextlib.closing(line.peer()) as one_more:
            need(is_ended(one_more), "a connection more than streams is closed without reading it")
        peers[0].close()
        time.sleep(0.2)
        serves(line, "one of sixteen streams has ended")


PEERS = {"a peer that never reads": never_reads, "half a message": half_message, "single bytes": single_bytes,
         "a message that is too long": too_long, "a reset": reset, "seventeen connections": seventeen, "floods of messages and datagrams": flood}


def run_lines(bench):
    """Two lines at once, whose data reach one another; and at another one, peers that do not behave."""
    watch = Watch([Loop(bench), Loop(bench)])
    line = Loop(bench)
    if streams_of(line) is not None:
        wait(lambda: len(streams_of(line)) == 2, "the peers' streams end, and both sides of the scanner's are left", 5)
        at_once = [it.getsockopt(socket.IPPROTO_TCP, socket.TCP_NODELAY) for it in streams_of(line)]
        sure(all(at_once), "what a line writes over a stream is sent at once, on both sides")
    for what, misbehave in PEERS.items():
        misbehave(line)
        serves(line, what)
        time.sleep(0.1)
    # (a flood of datagrams may have taken the place of the owner's)
    wait(line.is_owned, "the scanner of a line owns its output again", 30)
    need(line.is_running(), "a line goes on beside its peers")
    sure(True, f"a line goes on and serves the next peer: {', '.join(PEERS)}")
    fault, tries = watch.join(), 1
    while fault and tries < TRIES:  # (on a busy machine a connection times out; without data each one does, in each try)
        watch, tries = Watch(watch.lines), tries + 1
        fault = watch.join()
    if fault and watch.kept() >= TIME_OUT_S:
        raise Untried(f"this machine kept a line from the processor for {watch.kept():.2f} s, and its time-out is {TIME_OUT_S} s: {fault}")
    sure(fault is None, f"two lines at once: each owner keeps its output for {WATCHED} s, {watch.looks} looks {fault or ''}")
    bench.clear()


def run_line_calls(bench):
    """A datagram that a peer refuses ends no run; one that the system does not send ends it."""
    faults = CallFaults(bench, "line")
    line = Loop(bench, env=faults.env())
    for calls in {"send": errno.ECONNREFUSED}, {"receive": errno.ECONNREFUSED}, {"send": errno.EAGAIN}:
        faults.set(**calls)
        time.sleep(0.4)
        faults.set()
        need(line.is_running(), f"a line goes on where calls fail: {calls}")
    wait(line.is_owned, "the output is owned again", 20)
    sure(True, "a line whose datagrams are refused goes on")
    faults.set(send=errno.EMSGSIZE)
    status, said = line.ended()
    sure((status, said) == (1, "fault Port"), f"a line ends at a datagram that the system does not send: status {status}, {said}")
    line = Loop(bench, env=faults.set() or faults.env())
    faults.set(receive=errno.EBADF)
    status, said = line.ended()
    sure((status, said) == (1, "fault Port"), f"and at a socket that does not receive: status {status}, {said}")
    bench.clear()
