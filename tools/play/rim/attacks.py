"""What strangers do to a station beside its owner, each for some seconds: they open and close, make it produce, press in with streams,
flood it, ask for its record, and forge inquiries. tools/long/soak_stations has them among its mishaps."""

import contextlib, re, socket, struct, threading, time
from rim.host import Wrong, free_port
from rim.peers import INPUT_ONLY, POINT_TO_POINT, REGISTER, Originator, originator

PAGE = free_port()
NOTHING = struct.pack("<HHII8sI", 0, 0, 0, 0, b"", 0)
ASKED = struct.pack("<HHII8sI", 0x63, 0, 0, 0, struct.pack("<H", 65_000) + bytes(6), 0)  # ListIdentity, an answer within 65 s
WORD = re.compile(r"[0-9a-f]{32}")


def closed_behind(bench, peer):
    peer.close()
    with contextlib.suppress(ValueError):
        bench.closing.remove(peer)


@contextlib.contextmanager
def stranger(bench, own, **more):
    """A session of a stranger, as far as the station lets it in."""
    try:
        peer = Originator(bench, own=own, **more)
    except Wrong:
        yield None
        return
    try:
        yield peer
    finally:
        closed_behind(bench, peer)


def opens_and_closes(bench, own, seconds):
    """Input-only connections, opened and closed as fast as they are answered."""
    end = time.monotonic() + seconds
    with stranger(bench, own) as peer, contextlib.suppress(Wrong, *originator_faults()):
        while peer and time.monotonic() < end:
            peer.open(INPUT_ONLY, POINT_TO_POINT).close()


def productions(bench, own, seconds, count=40):
    """Input-only connections at 1 ms, which are left alone."""
    with stranger(bench, own, rpi_ms=1, multiplier=7) as peer, contextlib.suppress(Wrong, *originator_faults()):
        for _ in range(count if peer else 0):
            peer.open(INPUT_ONLY, POINT_TO_POINT)
        time.sleep(seconds)


def pressing_streams(bench, owns, seconds):
    """Streams of a few addresses, each with a connection, that say nothing else."""
    with contextlib.ExitStack() as held:
        for at in range(16):
            peer = held.enter_context(stranger(bench, owns[at % len(owns)], rpi_ms=100, multiplier=7))
            with contextlib.suppress(Wrong, *originator_faults()):
                if peer:
                    peer.open(INPUT_ONLY, POINT_TO_POINT)
        time.sleep(seconds)


def floods(bench, own, seconds, streams=8):
    """Streams that send NOP without a pause."""
    end, opened = time.monotonic() + seconds, []
    for _ in range(streams):
        with contextlib.suppress(OSError), bench.network.inside("peer"):
            tcp = socket.create_connection((bench.address["adapter"], 44818), 3, (own, 0))
            tcp.settimeout(0.2)
            opened.append(tcp)
    threads = [threading.Thread(target=flood, args=(tcp, end), daemon=True) for tcp in opened]
    for it in threads:
        it.start()
    for it in threads:
        it.join()


def flood(tcp, end):
    with contextlib.suppress(OSError):
        tcp.sendall(REGISTER)
        while time.monotonic() < end:
            with contextlib.suppress(TimeoutError):
                tcp.sendall(NOTHING * 1000)
    tcp.close()


def forged_inquiries(bench, own, seconds):
    """Inquiries that ask for an answer within 65 s."""
    end = time.monotonic() + seconds
    with bench.network.inside("peer"), socket.socket(socket.AF_INET, socket.SOCK_DGRAM) as udp:
        udp.bind((own, 0))
        while time.monotonic() < end:
            with contextlib.suppress(OSError):
                udp.sendto(ASKED, (bench.address["adapter"], 44818))
            time.sleep(0.1)


def browser(bench, path):
    """A stream of a browser of the page that has asked for a path, with the word that the page gave."""
    with bench.network.inside("adapter"):
        def asking(path):
            tcp = socket.create_connection(("127.0.0.1", PAGE), 3)
            tcp.settimeout(5)
            tcp.sendall(f"GET {path} HTTP/1.1\r\nHost: 127.0.0.1:{PAGE}\r\n\r\n".encode())
            return tcp

        with asking("/") as page, page.makefile("rb") as text:
            found = WORD.search(text.read().decode(errors="replace"))
        return asking(f"{path}?{found[0]}" if found else path)


def downloads(bench, seconds, count=8):
    """Browsers that ask for the capture of the record all at once, of which some read slowly."""
    end, streams = time.monotonic() + seconds, []
    for _ in range(count):
        with contextlib.suppress(OSError):
            streams.append(browser(bench, "/record.pcap"))
    while time.monotonic() < end and streams:
        for at, tcp in enumerate(streams):
            with contextlib.suppress(OSError):
                tcp.settimeout(0.001)
                tcp.recv(65536 if at % 2 else 100)
        time.sleep(0.005)
    for it in streams:
        it.close()


def originator_faults():
    return originator.Difference, OSError, struct.error
