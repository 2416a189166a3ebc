"""Where the page of a station is, what its event stream says, by numbers worked by hand, and browsers that vanish or are slow."""

import json, os, time
from rim.host import ADAPTER, holds, listens, need, sure, wait
from rim.pages import HOST, LATE, MOST, PORT, Events, asked, connected, slowly_connected, status_of, told, wait_for_refusal, word_of
from rim.peers import Originator, Silent
from rim.plants import begun

REQUEST_S = 3.0  # seconds in which a request has to arrive, however many reads that takes
MOST_EVENTS, TROUBLES = 32, 3
COUNTS = {"received": 5, "applied": 4, "lost": 3}  # those of the numbers 1, 2, 3, 7, and 7 again
ROW = COUNTS | {"duplicate": 0, "old": 1, "wrong_size": 0}  # those of their connection
PAUSE_MS = 4500  # a pause of a device: nearly as long as the 5 s after which a browser opens its event stream again
LONGEST_GAP = 3.5  # seconds
SOON = 15.0  # seconds: 3 for a write that waits, and the time until the system keeps no more of what is not read
MANY = "adapter 16 {adapter} 255.255.255.0 1 12 7 2 3\noutput 150 4 zero zero\n" + "".join(
    f"input {100 + at} 1400\n" for at in range(8)) + "heartbeat 152 153\n"  # a snapshot has all bytes of all points


def run_page_address(bench):
    """A page is at the one address that it is served at, which is 127.0.0.1 or that of --page-address."""
    second = "127.0.0.2"
    for options, own in ((), "127.0.0.1"), (("--page-address", second), second):
        adapter = bench.adapter("--page", str(PORT), *options, log="page_address")
        wait(lambda: listens(bench.network, "adapter", own, PORT), f"the page is served at {own}", 5)
        others = [it for it in ("127.0.0.1", second, "127.0.0.3", bench.address["adapter"]) if it != own]
        found = [it for it in others if listens(bench.network, "adapter", it, PORT)]
        sure(not found, f"a page at {own} is refused at {' and '.join(others)}: {found}")
        need(adapter.end() == 0, "the adapter ends with status 0")
        bench.clear()


def begin_events(stream, word):
    stream.sendall(f"GET /events?{word} HTTP/1.1\r\nHost: {HOST}\r\n\r\n".encode())


def until_told(stream, text):
    """Reads until a text has come, in however many pieces."""
    told, end = b"", time.monotonic() + SOON
    while text not in told:
        piece = stream.recv(65536)
        need(piece and time.monotonic() < end, f"the event stream says {text}, and not {told}")
        told += piece


def run_living_events(bench):
    """The event stream of a plant whose one device is paused says that it lives."""
    plant = begun(bench, 1, 0, lambda name: "", "--page", str(PORT), log="living")
    stream = connected(bench, "peer")
    begin_events(stream, word_of(bench, "peer"))
    until_told(stream, b"event: station")
    plant.call(f"adapter-0 pause {PAUSE_MS}", f"scanner-0 pause {PAUSE_MS}")
    begin, last, gaps, beats = time.monotonic(), time.monotonic(), [], 0
    while time.monotonic() < begin + PAUSE_MS / 1000:
        got = stream.recv(65536)
        need(got, "the event stream goes on")
        gaps.append(time.monotonic() - last)
        last, beats = time.monotonic(), beats + got.count(b":\n\n")
    sure(beats and max(gaps) < LONGEST_GAP, f"the event stream of devices that are paused for {PAUSE_MS / 1000} s says {beats} times that it "
         f"lives, and is silent for {max(gaps):.1f} s at most")
    status = plant.end()
    need(status == 0, f"the plant ends with status 0, and not {status}: {plant.said()}")
    bench.clear()


def run_vanished_browsers(bench):
    """Eight browsers vanish: they read nothing more of their event streams, and do not end them. Their places are free again."""
    bench.write("many.profile", MANY)
    adapter = bench.adapter("--page", str(PORT), profile="many", log="vanished")
    word = word_of(bench)
    for _ in range(MOST):
        begin_events(slowly_connected(bench), word)
    wait_for_refusal(bench, "a ninth browser is refused")

    def is_served():
        adapter.call("write 100 " + "00" * 1400)
        time.sleep(0.1)
        return asked(bench)[0] == 200

    seconds = wait(is_served, "the page is served beside eight browsers that vanished", SOON)
    holds(f"eight browsers that vanished hold their places for {seconds:.1f} s, and no longer")
    need(adapter.end() == 0, "the adapter ends with status 0")
    bench.clear()


def run_slow_request(bench):
    """A request that comes byte by byte has its time in all, and not for each byte."""
    adapter = bench.adapter("--page", str(PORT), log="slow_request")
    wait(lambda: asked(bench)[0] == 200, "the page is served", 5)
    stream, begin, left = connected(bench), time.monotonic(), iter(b"GET / HTTP/1.1\r\nHost: 127.0.0.1")
    stream.settimeout(0.3)
    answer = b""
    while not answer and time.monotonic() < begin + 3 * REQUEST_S:
        stream.sendall(bytes([next(left)]))
        answer = received(stream)
    seconds = time.monotonic() - begin
    sure(status_of(answer) == LATE and REQUEST_S - 0.5 < seconds < REQUEST_S + 1.5,
         f"a request of which a byte comes each 0.3 s has status {status_of(answer)} after {seconds:.1f} s")
    need(adapter.end() == 0, "the adapter ends with status 0")
    bench.clear()


def received(stream):
    """What a stream tells within its time."""
    try:
        return stream.recv(4096)
    except TimeoutError:
        return b""


def greeting_of(bench):
    """What an event stream begins with."""
    stream = connected(bench)
    begin_events(stream, word_of(bench))
    text = b""
    while b"event: station" not in text or not text.endswith(b"\n\n"):
        text += stream.recv(4096)
    stream.close()
    return json.loads(text.partition(b"event: station\ndata: ")[2].partition(b"\n\n")[0])


def run_page_numbers(bench):
    """A snapshot has the numbers of its device, each at its own place."""
    adapter = bench.adapter("--page", str(PORT), "--page-writes", log="page_numbers")
    begun_at = time.monotonic()
    allowed = {name: greeting_of(bench)[name] for name in ("name", "writes", "record")}
    need(allowed == {"name": "adapter", "writes": True, "record": False}, f"the page takes calls and has no record: {allowed}")
    owner, events = Originator(bench, consumed_ms=500, rpi_ms=200), Events(bench)
    connection = owner.open()
    for before in 0, 1, 2, 6, 6:
        connection.sequence = before
        connection.produce(owner.udp, bytes([0, 0, 0, before]))
    shown = lambda it: {name: it["counts"][name] for name in COUNTS} == COUNTS
    first = events.next(shown)
    need(first, f"the page shows {COUNTS}, and not {events.next()}")
    time.sleep(1)
    later = events.next(lambda it: it["ms"] >= first["ms"] + 1000)
    need(later and shown(later) and later["counts"]["sent"] >= first["counts"]["sent"] + 3, f"what is sent is counted by itself: {later}")
    need(abs(later["ms"] / 1000 - (time.monotonic() - begun_at)) < 1.5, f"a snapshot has the milliseconds of its device: {later['ms']}")
    run_troubles(bench, events)
    found = [(it["o_t_ms"], it["t_o_ms"], it["mode"], it["consumed"], it["produced"]) for it in later["connections"]]
    sure(found == [(500, 200, "run", 150, 100)], f"a snapshot has what arrived, was applied and lost, what was sent, and both intervals: {found}")
    run_row(connection, owner, events, later["connections"][0])
    run_last_events(bench, adapter, events)
    need(adapter.end() == 0, "the adapter ends with status 0")
    adapter = bench.adapter("--page", str(PORT), "--record", bench.file("page_numbers.trace"), log="page_numbers_again")
    allowed = {name: greeting_of(bench)[name] for name in ("writes", "record")}
    sure(allowed == {"writes": False, "record": True}, f"a page says whether it takes calls, and whether it has a record: {allowed}")
    need(adapter.end() == 0, "the adapter ends with status 0")
    bench.clear()
    run_piped_record(bench)
    run_page_names(bench)


def run_piped_record(bench):
    """A record that is a pipe cannot be read again, and so no page hands it out."""
    path = bench.file("page_pipe.trace")
    os.mkfifo(path)
    reader = os.open(path, os.O_RDWR | os.O_NONBLOCK)
    adapter = bench.adapter("--page", str(PORT), "--record", path, log="page_pipe")
    said, status = greeting_of(bench)["record"], asked(bench, path=f"/record?{word_of(bench)}")[0]
    sure((said, status) == (False, 404), f"a page whose record is a pipe has none: {said}, {status}")
    os.close(reader)
    bench.clear()


def run_page_names(bench):
    """Each event stream has the names of the profile once, before the first snapshot."""
    bench.write("page_names.profile", ADAPTER + "# name 150 Valves\n# bit 150 0 4 Stop\n")
    adapter = bench.adapter("--page", str(PORT), profile="page_names", log="page_names")
    for turn in range(2):
        stream, text = connected(bench), b""
        begin_events(stream, word_of(bench))
        while text.count(b"\ndata: {\"wall_ms\"") < 3:
            text += stream.recv(65536)
        names, snapshot = text.find(b"event: names\ndata: "), text.find(b"\ndata: {\"wall_ms\"")
        need(text.count(b"event: names") == 1 and 0 < names < snapshot, f"names come once, before the first snapshot: {text[:300]}")
        said = json.loads(text[names:].partition(b"data: ")[2].partition(b"\n")[0])
        need(said == {"150": "Valves", "150.0.4": "Stop"}, f"they are those of the profile: {said}")
        stream.close()
    sure(True, "each of two event streams has the names of the profile once, before its first snapshot")
    need(adapter.end() == 0, "the adapter ends with status 0")
    bench.clear()


def run_troubles(bench, events):
    """A trouble that comes again is one, with a count, and the times at which it came first and last."""
    own = bench.network.extra[0]
    ended = lambda it: [trouble for trouble in it["troubles"] if f" of {own} ended: its peer cut it" in trouble["words"]]
    for turn in range(1, TROUBLES + 1):
        Silent(bench, own).close()
        later = events.next(lambda it: [trouble["count"] for trouble in ended(it)] == [turn])
        need(later, f"a stream that its peer cuts {turn} times is one trouble, which came {turn} times")
    last = ended(later)[0]
    sure(last["first_ms"] < last["ms"] <= later["ms"], f"a trouble that came {TROUBLES} times is told once: {last}")


def run_row(connection, owner, events, row):
    """A connection has its counts, and the gaps between what was accepted: three of four datagrams, then one of a second and more."""
    need({name: row[name] for name in ROW} == ROW and row["gaps"]["count"] == 3, f"a connection has its counts and gaps: {row}")
    connection.sequence = 7
    connection.produce(owner.udp, bytes([0, 0, 0, 8]))
    later = events.next(lambda it: it["connections"][0]["gaps"]["count"] == 4)
    need(later, "a gap ends with the next accepted datagram")
    gaps = later["connections"][0]["gaps"]
    long = gaps["greatest_ms"]
    need(950 <= long < 5000 and long <= gaps["sum_ms"] < long + 200 and long - 200 < gaps["moved_ms"] <= gaps["sum_ms"] + 200,
         f"the gap is about as long as the pause: {gaps}")
    need(gaps["minute"] == {name: gaps[name] for name in gaps["minute"]}, f"all are of the last minute: {gaps}")
    connection.sequence = 8
    connection.produce(owner.udp, bytes(5))
    wrong = events.next(lambda it: it["connections"][0]["wrong_size"] == 1)
    sure(wrong and wrong["connections"][0]["gaps"]["count"] == 4, f"a connection has its counts, its gaps ({gaps}), and what has a wrong size")


def run_last_events(bench, adapter, events):
    """A snapshot has the newest events, in their order."""
    count = MOST_EVENTS + 8
    adapter.call(*(f"write 100 000000{value:02x}" for value in range(1, count + 1)))
    newest = lambda it: it["inputs"][0]["bytes"] == f"000000{count:02x}"
    last = events.next(newest)
    need(last, "the last call is shown")
    words = [it["words"].split("\n")[0] for it in last["events"]]
    wanted = [f"the application writes point 100, 4 bytes of data 000000{value:02x}" for value in range(count - MOST_EVENTS + 1, count + 1)]
    numbers = [it["number"] for it in last["events"]]
    sure(words == wanted and numbers == sorted(set(numbers)) and numbers[-1] <= last["number"],
         f"a snapshot has the last {MOST_EVENTS} events, in their order: {words[0]} .. {words[-1]}")
