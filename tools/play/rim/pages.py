"""The live page of a station: who gets it, what it takes, and that it slows no device."""

import contextlib, json, os, re, select, signal, socket, struct, subprocess, threading, time
from rim.host import OWNER, Wrong, free_port, holds, last, need, run, sure, until, wait
from rim.outputs import LARGE, devices_go_on
from rim.peers import Originator

PORT = free_port()
HOST = f"127.0.0.1:{PORT}"
TOKEN = re.compile(rf"eip_station: page at http://127\.0\.0\.1:{PORT}/#([0-9a-f]{{32}})")
WORD = re.compile(rb"const word = '([0-9a-f]{32})';")
BUSY, LATE, MOST = 503, 408, 8
PATHS = "/events", "/record", "/record.pcap"
TURNS, REFUSED_S = 20, 0.2  # a browser that is refused is refused within so many seconds, on a busy machine too
SMALL_SEGMENTS = 536  # with such ones, the system keeps little of what a browser has not read


def connected(bench, host="adapter"):
    """A stream to the page."""
    with bench.network.inside(host):
        stream = bench.later(served_soon())
    stream.settimeout(8)
    return stream


def served_soon(seconds=5.0):
    """A stream to the page, which may not be served yet."""
    end = time.monotonic() + seconds
    while True:
        try:
            return socket.create_connection(("127.0.0.1", PORT), 5)
        except ConnectionRefusedError:
            if time.monotonic() > end:
                raise
            time.sleep(0.02)


def slowly_connected(bench):
    """A stream to the page of which the system keeps little that is not read."""
    with bench.network.inside("adapter"):
        stream = bench.later(socket.socket())
    stream.setsockopt(socket.IPPROTO_TCP, socket.TCP_MAXSEG, SMALL_SEGMENTS)
    stream.setsockopt(socket.SOL_SOCKET, socket.SO_RCVBUF, 8192)
    stream.settimeout(8)
    stream.connect(("127.0.0.1", PORT))
    return stream


def told(stream):
    """All that a stream tells until it ends."""
    text = b""
    with contextlib.suppress(OSError):
        while got := stream.recv(65536):
            text += got
    return text


def asked(bench, method="GET", path="/", host=HOST, body=b"", **fields):
    """The status and the body of an answer."""
    head = [f"{method} {path} HTTP/1.1", *([f"Host: {host}"] if host else [])]
    head += [f"{name.replace('_', '-')}: {value}" for name, value in fields.items()]
    if body or method == "POST":
        head.append(f"Content-Length: {len(body)}")
    stream = connected(bench)
    stream.sendall(("\r\n".join(head) + "\r\n\r\n").encode() + body)
    answer = told(stream)
    stream.close()
    return status_of(answer), answer.partition(b"\r\n\r\n")[2]


def word_of(bench, host="adapter"):
    """The word that the page shows with each of its requests."""
    stream = connected(bench, host)
    stream.sendall(f"GET / HTTP/1.1\r\nHost: {HOST}\r\n\r\n".encode())
    found = WORD.search(told(stream))
    stream.close()
    need(found, "the page has a word of 32 digits")
    return found[1].decode()


def status_of(answer):
    found = re.match(rb"HTTP/1\.1 (\d{3}) ", answer)
    return int(found[1]) if found else None


class Events:
    """The event stream of a page, which is read as far as it is asked for."""

    def __init__(self, bench, host="adapter"):
        word = word_of(bench, host)
        self.stream = connected(bench, host)
        self.stream.sendall(f"GET /events?{word} HTTP/1.1\r\nHost: {HOST}\r\n\r\n".encode())
        self.text = b""

    def next(self, wanted=lambda snapshot: True, seconds=5.0):
        """The next snapshot of which this holds; None if none comes, or the stream ends."""
        end = time.monotonic() + seconds
        while time.monotonic() < end:
            front, found, rest = self.text.partition(b"\n\n")
            if not found:
                if not (got := self.stream.recv(65536)):
                    return None
                self.text += got
                continue
            self.text = rest
            if front.startswith(b"data: ") and wanted(snapshot := json.loads(front[6:])):
                return snapshot
        return None


def output(snapshot, point=150):
    return next(it for it in snapshot["outputs"] if it["point"] == point)


def run_page(bench):
    """The page of an adapter, which takes no call."""
    adapter = bench.adapter("--page", str(PORT), log="page")
    status, page = asked(bench)
    sure(status == 200 and page.startswith(b"<!doctype html>"), f"--page {PORT}: the page is served ({len(page)} bytes)")
    links = re.findall(rb"https?://|src=|@import|url\(", page)
    sure(not links, f"nothing of it comes from elsewhere {links}")
    need(asked(bench, host=f"localhost:{PORT}")[0] == 200, "localhost is a name of the page")
    strangers = [asked(bench, host=host)[0] for host in ("evil.example", f"evil.example:{PORT}", "127.0.0.1", HOST + "0", "")]
    strangers += [asked(bench, path="/events", Origin=origin)[0] for origin in ("http://evil.example", "null", f"https://{HOST}")]
    strangers += [asked(bench, path=path, Sec_Fetch_Site=site)[0] for site in ("cross-site", "same-site") for path in ("/", "/events")]
    sure(set(strangers) == {403}, f"another Host, and a page of another origin or site, are refused: {strangers}")
    own = [asked(bench, Sec_Fetch_Site=site)[0] for site in ("same-origin", "none")]
    need(own == [200, 200], f"the page itself and an address that is typed are served: {own}")
    need(status_of_two_hosts(bench) == 403, "two Hosts are refused")
    word = word_of(bench)
    told_so = [asked(bench, path=f"/nothing?{word}")[0], asked(bench, path=f"/record?{word}")[0], asked(bench, "DELETE")[0], asked(bench, "POST")[0],
               asked(bench, path="/call")[0], asked(bench, body=b"x")[0], asked(bench, Content_Length="x")[0],
               asked(bench, Cookie="x" * 20000)[0], garbage(bench)]
    sure(told_so == [404, 404, 405, 405, 405, 400, 400, 413, 400], f"what is no request of the page is refused: {told_so}")
    calls = [asked(bench, "POST", f"/call?{word}", body=b"write 100 01020304", X_Station_Token=token)[0] for token in ("", "0" * 32)]
    events = Events(bench)
    need(events.next(), "the event stream begins")
    need(calls == [403, 403], f"a call is refused without --page-writes: {calls}")
    owner = Originator(bench)
    feeder = bench.later(owner.feed(owner.open(), "11223344"))
    run_state(events, lambda it: it["bytes"] == "11223344" and it["owner"] and it["owner"]["mode"] == "run", "runs")
    adapter.call("write 100 0a0b0c0d")
    until(lambda: events.next()["inputs"][0]["bytes"] == "0a0b0c0d", "an input that the application writes is shown")
    words = [it["words"] for it in events.next()["events"]]
    sure(any("Forward_Open" in it for it in words) and any("writes point 100" in it for it in words), "the last events are told in words")
    feeder.stop()
    run_state(events, lambda it: it["owner"] is None and it["bytes"] == "00000000", "is lost")
    run_quiet(bench, events)
    need(not any("01020304" in line for line in adapter.lines()), "no call reached the device")
    sure(adapter.end() == 0, "a call is refused without --page-writes, and the adapter ends with status 0")


def run_quiet(bench, events):
    """An owner falls silent, and its adapter has nothing else to do. By the device's clock, the page is told at once."""
    late = []
    for _ in range(10):
        owner = Originator(bench)
        feeder = bench.later(owner.feed(owner.open(), "11223344"))
        need(events.next(lambda it: output(it)["owner"] and output(it)["owner"]["mode"] == "run"), "an owner runs")
        feeder.stop()
        lost = events.next(lambda it: output(it)["owner"] is None)
        need(lost, "it is lost")
        need("timed out" in lost["troubles"][-1]["words"], "its time-out is the last trouble")
        late.append(lost["ms"] - lost["events"][-1]["ms"])
        owner.close()
        bench.closing.remove(owner)
    sure(max(late) <= 60, f"a loss is shown so many milliseconds after the time-out: {late}")
    wall = events.next()["wall_ms"] / 1000
    sure(abs(wall - time.time()) < 2, "a snapshot has the time of the wall")
    gaps = [one["ms"] for one in (events.next() for _ in range(8))]
    gaps = [after - before for before, after in zip(gaps, gaps[1:])]
    sure(max(gaps) <= 1000, f"a quiet station says that it is there: {gaps}")


def run_page_scanner(bench):
    """The page of a scanner: what its slots receive and send."""
    bench.write("both.profile", OWNER.format(cast="multicast", **bench.address) + f"slot {bench.address['peer']} input - 152 100 0 4 10000 10000 2 p2p - -\n")
    adapter = bench.adapter(log="paged_adapter")
    scanner = bench.scanner("owner", "--page", str(PORT), profile="both", log="paged_scanner")
    wait(lambda: any(" page at " in line for line in scanner.said()), "its page is served")
    events = Events(bench, "owner")
    sure(events.next(lambda it: it["slots"][0]["state"] == "established" and it["slots"][0]["output"] == "00000000", 15),
         "the page of a scanner shows that its slot is established, and sends zeros")
    scanner.call("write 0 11223344")
    adapter.call("write 100 0a0b0c0d")
    sure(events.next(lambda it: it["slots"][0]["output"] == "11223344" and it["slots"][0]["bytes"] == "0a0b0c0d"),
         "it shows what the slot sends, and what it receives")
    need(events.next()["slots"][1]["output"] == "-", "a slot that sends no data has no output")
    terms = [[it[name] for name in ("kind", "consumed", "produced")] for it in events.next()["slots"]]
    need(terms == [["exclusive", 150, 100], ["input", 152, 100]], f"each slot has its kind and its points: {terms}")
    scanner.call("mode idle")
    need(events.next(lambda it: it["mode"] == "idle"), "the scanner's own mode is idle")
    scanner.call("mode run", "stop 1")
    stopped = events.next(lambda it: it["mode"] == "run" and it["slots"][1].get("wait") == "stopped")
    sure(stopped and "wait" not in stopped["slots"][0], "it shows its own mode, and that a call has stopped a slot")
    adapter.process.send_signal(signal.SIGSTOP)
    gone = events.next(lambda it: it["slots"][0]["time_outs"] == 1, 20)
    adapter.process.send_signal(signal.SIGCONT)
    need(gone, "a slot counts its time-outs")
    slot = gone["slots"][0]
    need(slot["last_time_out_ms"] == slot["since_ms"] or slot["state"] != "timed_out", f"and says when the last was: {slot}")
    sure(any("slot 0 is timed out" in it["words"] for it in gone["troubles"]), "a time-out is among the troubles")
    need(events.next(lambda it: it["slots"][0]["state"] == "established", 20), "the slot opens again")
    need(scanner.end() == 0 == adapter.end(), "both end with status 0")
    bench.clear()


def run_state(events, holds_of, what):
    found = events.next(lambda snapshot: holds_of(output(snapshot)))
    sure(found, f"the page shows that the owner of output 150 {what}")


def status_of_two_hosts(bench):
    stream = connected(bench)
    stream.sendall(f"GET / HTTP/1.1\r\nHost: {HOST}\r\nHost: {HOST}\r\n\r\n".encode())
    return status_of(told(stream))


def garbage(bench):
    stream = connected(bench)
    stream.sendall(b"\x16\x03\x01\x02\x00\x01\r\n\r\n")
    return status_of(told(stream))


def run_page_writes(bench):
    """The calls of a page, and its record."""
    trace = bench.file("paged.trace")
    adapter = bench.adapter("--page", str(PORT), "--page-writes", "--record", trace, log="page_writes")
    wait(lambda: any(TOKEN.fullmatch(line) for line in adapter.said()), "the token is printed")
    token = next(found[1] for found in map(TOKEN.fullmatch, adapter.said()) if found)
    word = word_of(bench)
    call = lambda body, **fields: asked(bench, "POST", f"/call?{word}", body=body, **fields)[0]
    wrong = [call(b"write 100 01010101"), call(b"write 100 01010101", X_Station_Token=token[:-1]),
             call(b"write 100 01010101", X_Station_Token=token.upper() if token.upper() != token else "0" * 32),
             call(b"write 100 01010101", X_Station_Token=token, Origin="http://evil.example"),
             call(b"write 100 01010101", X_Station_Token=token, host="evil.example")]
    sure(set(wrong) == {403}, f"a call without the right token, or of another page, is refused: {wrong}")
    bad = [call(body, X_Station_Token=token) for body in
           (b"read 100", b"status", b"write 100 0", b"write 100 01020304\nwrite 100 05060708", b"write 100 01020304\n",
            b"write 100 01020304\r", b"status\nwrite 100 01020304", b"tick 1", b"\xff\xfe", b"")]
    bad += [call(b"write 100 01020304", X_Station_Token=token, **field) for field in ({"Transfer_Encoding": "chunked"}, {"Content_Length": "18"})]
    sure(set(bad) == {400}, f"what is no such call is refused, nor is one in chunks or of two lengths taken: {bad}")
    need(call(b"write 100 " + b"0" * 5000, X_Station_Token=token) == 413, "a long one is refused")
    before, count = len(adapter.lines()), 5
    os.write(adapter.process.stdin.fileno(), b"write 100 ")
    taken = [call(f"write 100 0000000{at}".encode(), X_Station_Token=token) for at in range(count)]
    need(taken == [204] * count, f"calls with the token are taken: {taken}")
    wait(lambda: len(adapter.lines()) >= before + count, "the calls of the page are performed")
    os.write(adapter.process.stdin.fileno(), b"0a0b0c0d\n")
    watch = Originator(bench)
    until(lambda: watch.read(100) == "0a0b0c0d", "calls with the token are performed, between whole lines of the input")
    said = [line for line in adapter.said() if "no call" in line]
    need(not said, f"each line is whole, and not {said}")
    run_downloads(bench, trace)
    sure(adapter.end() == 0, "the adapter ends with status 0")
    bench.clear()
    run_no_input(bench)


def run_no_input(bench):
    """A service without an input takes the calls of its page."""
    adapter = bench.adapter("--page", str(PORT), "--page-writes", "--no-input", "--seconds", "8", log="page_alone")
    wait(lambda: any(TOKEN.fullmatch(line) for line in adapter.said()), "the token is printed")
    token = next(found[1] for found in map(TOKEN.fullmatch, adapter.said()) if found)
    need(asked(bench, "POST", f"/call?{word_of(bench)}", body=b"write 100 0c0d0e0f", X_Station_Token=token)[0] == 204, "the call is taken")
    watch = Originator(bench)
    until(lambda: watch.read(100) == "0c0d0e0f", "--no-input --page-writes: a station without an input takes the calls of its page")
    bench.clear()


def run_downloads(bench, trace):
    word = word_of(bench)
    status, record = asked(bench, path=f"/record?{word}")
    with open(trace, "rb") as file:
        need(status == 200 and file.read().startswith(record) and b"write 100" in record, "the record is handed out as it is so far")
    path = bench.file("handed.trace")
    with open(path, "wb") as file:
        file.write(record[:record.rfind(b"\n") + 1])
    need(run(bench.program, "replay", path).returncode == 0, "it replays")
    status, capture = asked(bench, path=f"/record.pcap?{word}")
    whole = run(bench.program, "pcap", path).stdout
    sure(status == 200 and capture.startswith(whole) and whole[:4] == bytes.fromhex("d4c3b2a1"),
         f"the record and its capture file are handed out while it is written ({len(capture)} bytes)")


def run_page_word(bench):
    """What is behind the page is for the page alone, which has a word; and each answer is for its own site alone."""
    options = ("--page", str(PORT), "--record", bench.file("worded.trace"), "--page-writes")
    adapter = bench.adapter(*options, log="page_word")
    wait(lambda: any(TOKEN.fullmatch(line) for line in adapter.said()), "the token is printed")
    word, token = word_of(bench), next(found[1] for found in map(TOKEN.fullmatch, adapter.said()) if found)
    wrong = ["", "?", f"?{word[:-1]}", f"?{word}0", f"?{word}?{word}", f"?word={word}", f"?{word}&", f"?{token}",
             f"?{word.upper()}" if word.upper() != word else "?" + "0" * 32, "?" + "0" * 32]
    refused = {asked(bench, path=path + query)[0] for path in PATHS for query in wrong}
    refused |= {asked(bench, "POST", "/call" + query, body=b"write 100 01020304", X_Station_Token=token)[0] for query in wrong}
    sure(refused == {403}, f"without the word that the page has, or with a wrong one, each other path is refused: {refused}")
    taken = [asked(bench, path=f"{path}?{word}")[0] for path in PATHS[1:]] + [
        asked(bench, "POST", f"/call?{word}", body=b"write 100 01020304", X_Station_Token=token)[0]]
    sure(taken == [200, 200, 204], f"with it they are served: {taken}")
    # (such a page, at an address of the network, says nothing of its site: its browser sends no Sec-Fetch-Site to this one)
    frames = [connected(bench) for _ in range(3 * MOST)]
    for it in frames:
        it.sendall(f"GET /events HTTP/1.1\r\nHost: {HOST}\r\n\r\n".encode())
    wait(lambda: asked(bench)[0] == 200, "the page is served again", 2)
    holds("frames of another site hold none of the eight places")
    for it in frames:
        it.close()
    heads = [whole_answer(bench, f"{method} {path}") for method, path in
             (("GET", "/"), ("GET", "/events"), ("GET", "/none"), ("PUT", "/"), ("GET", f"/record?{word}"), ("GET", f"/record.pcap?{word}"))]
    bare = [head[:30] for head in heads if b"\r\nCross-Origin-Resource-Policy: same-origin\r\n" not in head]
    need(not bare, f"each answer says that it is for its own origin: {bare}")
    framed = [head[:30] for head in heads if head.startswith(b"HTTP/1.1 200") and b"\r\nX-Frame-Options: DENY\r\n" not in head]
    sure(not framed, f"each answer is for its own site, and in no frame: {framed}")
    need(adapter.end() == 0, "the adapter ends with status 0")
    adapter = bench.adapter(*options, log="page_word_again")
    sure(word_of(bench) != word, "the word is another one at the next start")
    need(adapter.end() == 0, "the adapter ends with status 0")
    bench.clear()
    run_page_host(bench)


def whole_answer(bench, line):
    stream = connected(bench)
    stream.sendall(f"{line} HTTP/1.1\r\nHost: {HOST}\r\n\r\n".encode())
    return told(stream)


def run_page_host(bench):
    """A page that is reached by a name of its host."""
    adapter = bench.adapter("--page", str(PORT), "--page-host", "Plant-7.example", log="page_host")
    name, port = "plant-7.example", PORT
    served = [asked(bench, host=host)[0] for host in (f"{name}:{port}", f"PLANT-7.EXAMPLE:{port}", f"localhost:{port}", HOST)]
    served.append(asked(bench, host=f"{name}:{port}", Origin=f"http://{name}:{port}")[0])
    other = [asked(bench, host=host)[0] for host in (name, f"{name}:1", f"plant-7.example.org:{port}", f"-7.example:{port}")]
    sure((set(served), set(other)) == ({200}, {403}), f"--page-host: the page is served at that name too, and at no other one: {served} {other}")
    need(adapter.end() == 0, "the adapter ends with status 0")
    words = [bench.program, "adapter", bench.file("adapter.profile"), "--page", str(PORT), "--page-host"]
    bad = [run(*words, name, stdin=subprocess.DEVNULL, timeout=20) for name in ("", "a b", "a:80", "x" * 254, "caf\u00e9")]
    sure({it.returncode for it in bad} == {2}, f"what is no name of a host is refused: {last(bad[1])}")


def wait_for_refusal(bench, text):
    """Waits until a further browser is refused. A station on a busy host takes those before it later."""
    wait(lambda: asked(bench)[0] == BUSY, text, 2.5)


def half_asked(bench):
    """A browser that has sent half a request and has a place: that of the one before it may be taken for some milliseconds more."""
    for _ in range(TURNS):
        stream = connected(bench)
        stream.sendall(b"GET / HTTP/1.1\r\nHost: 127.")
        if not select.select([stream], [], [], REFUSED_S)[0]:
            return stream
        stream.close()
    raise Wrong("a browser has a place")


def run_slow_browsers(bench):
    """Browsers that read nothing, send half a request, or come in crowds, and a device with large points."""
    bench.write("large.profile", LARGE)
    adapter = bench.adapter("--page", str(PORT), "--record", bench.file("slow.trace"), profile="large", log="slow_page")
    word, unread = word_of(bench), [Events(bench) for _ in range(3)]
    for it in unread:
        it.stream.setsockopt(socket.SOL_SOCKET, socket.SO_RCVBUF, 4096)
    half = [half_asked(bench) for _ in range(MOST - len(unread))]
    wait_for_refusal(bench, "a ninth browser is refused")
    begin = time.monotonic()
    devices_go_on(bench, adapter, "browsers read nothing and send half a request", ["read 101"] * 200)
    late = {status_of(told(it)) for it in half}
    seconds = time.monotonic() - begin
    sure(late == {LATE} and seconds < 6, f"eight browsers are served at once, the ninth has status {BUSY}; half a request has status "
         f"{late} within {seconds:.1f} s")
    for it in unread:
        it.stream.close()
    run_unread_record(bench, adapter, word)
    crowd(bench)
    devices_go_on(bench, adapter, "after a crowd of browsers", ["read 101"] * 20)
    until(lambda: asked(bench)[0] == 200, "the page is served again", 10)
    need(adapter.end() == 0, "the adapter ends with status 0")
    bench.clear()


def lengthen(bench, adapter, name, least):
    """Has the record grow to so many bytes, by inputs that the application writes."""
    for _ in range(1000):
        if os.path.exists(bench.file(name)) and os.path.getsize(bench.file(name)) > least:
            return
        adapter.call(*[f"write 101 {os.urandom(1400).hex()}"] * 200)
        wait(lambda: bool(adapter.lines()), "the calls are taken")
    need(False, "the record grows")


def run_unread_record(bench, adapter, word):
    """Eight browsers ask for a record that is longer than what the system keeps for them, and read nothing."""
    lengthen(bench, adapter, "slow.trace", 9_000_000)
    time.sleep(1.2)  # (a station notices at the next snapshot that a browser has left)
    unread = [connected(bench) for _ in range(MOST)]
    for it in unread:
        it.sendall(f"GET /record?{word} HTTP/1.1\r\nHost: {HOST}\r\n\r\n".encode())
    begin = time.monotonic()
    waiting = [it for it in unread if readable(it)]
    refused = [status_of(told(it)) for it in unread if it.recv(12, socket.MSG_PEEK) == b"HTTP/1.1 503"]
    sure(len(waiting) == MOST and refused == [BUSY] * (MOST - 1), f"one file is sent at a time, and seven browsers are refused: {refused}")
    wait(lambda: asked(bench)[0] == 200, "the page is served meanwhile", 2)
    devices_go_on(bench, adapter, "a browser does not read the record", ["read 101"] * 20)
    wait(lambda: asked(bench, path=f"/record?{word}")[0] == 200, "another download begins", 20)
    holds(f"a browser that reads nothing loses its stream: another download begins after {time.monotonic() - begin:.1f} s")
    for it in unread:
        it.close()
    run_slowly_read_record(bench, adapter, word)


def readable(stream):
    """Whether the stream tells something within its time."""
    with contextlib.suppress(OSError):
        return bool(stream.recv(1, socket.MSG_PEEK))
    return False


def run_slowly_read_record(bench, adapter, word):
    """A browser reads the record slowly, and gets it whole, whatever time the whole takes."""
    slow = slowly_connected(bench)
    slow.sendall(f"GET /record?{word} HTTP/1.1\r\nHost: {HOST}\r\n\r\n".encode())
    begin, read = time.monotonic(), b""
    while time.monotonic() < begin + 9:
        read += slow.recv(4096)
        time.sleep(0.1)
    devices_go_on(bench, adapter, "a browser reads the record slowly", ["read 101"] * 20)
    read = (read + told(slow)).partition(b"\r\n\r\n")[2]
    with open(bench.file("slow.trace"), "rb") as file:
        sure(len(read) > 9_000_000 and file.read().startswith(read), f"a browser that reads slowly gets all of the record, "
             f"{len(read)} bytes in {time.monotonic() - begin:.1f} s")


def crowd(bench):
    """Browsers that come one behind another, and leave at once, or with a reset."""
    for turn in range(300):
        stream = connected(bench)
        if turn % 3:
            stream.sendall(b"GET / HTTP/1.1\r\n" if turn % 2 else os.urandom(300))
        if turn % 5 == 0:
            stream.setsockopt(socket.SOL_SOCKET, socket.SO_LINGER, struct.pack("ii", 1, 0))
        stream.close()
    holds("300 browsers came and left")


def run_page_port(bench):
    """The port of a page is in use, or no port."""
    with bench.network.inside("adapter"):
        taken = bench.later(socket.socket())
        taken.setsockopt(socket.SOL_SOCKET, socket.SO_REUSEADDR, 1)
        taken.bind(("127.0.0.1", PORT))
        taken.listen()
    words = [bench.program, "adapter", bench.file("adapter.profile"), "--page", str(PORT)]
    done = run(*bench.network.at("adapter"), *words, stdin=subprocess.DEVNULL, timeout=20)
    lines = [line for line in done.stderr.decode().splitlines() if "page" in line]
    sure(done.returncode == 5 and len(lines) == 1 and "in use" in lines[0], f"a page's port in use: status {done.returncode}, {lines}")
