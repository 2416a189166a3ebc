"""Resets that a peer requests: each ends a life of a station, and the next one begins in the same process (rule 26.38)."""

import contextlib, fcntl, os, time
from rim.host import Pipe, need, run, sure, until, wait
from rim.lives import incarnation_of
from rim.outputs import LARGE
from rim.pages import PORT, TOKEN, Events, asked, word_of
from rim.peers import Originator, originator, served

RESET = bytes([5, 2, 0x20, 1, 0x24, 1])  # service Reset of the Identity object's instance
SECONDS, RESET_S = 4, 2  # so long a station runs, and so long after its beginning it is reset
CALLS, AT_ONCE = 5, 0.3  # seconds: a station looks for calls each second by itself, and at once where its input wakes it
RESETS, LIFE_S = 10, 1  # so many resets, and from the beginning of a life to that of the next one it is at least so long
UNREAD_S, WRITES = 0.2, 40  # a record of so many long writes is not read for so long: less than a station waits for it at its end


def incarnations(adapter):
    """The incarnations of the lives that have begun."""
    return [int(line.split("incarnation ")[1].split(",")[0]) for line in adapter.said() if " adapter " in line and "incarnation " in line]


def reset(bench, adapter, meanwhile=lambda: None):
    """Resets an adapter, and waits for its next life."""
    lives, peer = len(incarnations(adapter)), Originator(bench)
    with served("a reset"):
        general, extended, _, _ = peer.session.request(RESET)
        originator.expect("the status of a reset", (general, extended), (0, ()))
    meanwhile()
    wait(lambda: len(incarnations(adapter)) > lives and not peer.is_open(), "a reset ends the life with its streams, and the next one begins")
    peer.close()


def taken_in(adapter, value):
    """The seconds until a call is answered."""
    adapter.call(f"write 100 {value:08x}", "read 100")
    return wait(lambda: any(line.endswith(f" value {value:08x}") for line in adapter.lines()), "a call is taken")


def run_reset_lives(bench):
    """The lives of a station without a state: their incarnations, and its input, which goes on."""
    adapter = bench.adapter("--incarnation", "255", log="reset_lives")
    for _ in range(2):
        reset(bench, adapter)
    sure(incarnations(adapter) == [255, 1, 2], f"--incarnation 255: the lives behind two resets have the incarnations {incarnations(adapter)}")
    late = sorted(taken_in(adapter, 0x0A0B0C00 + turn) for turn in range(CALLS))
    sure(late[CALLS // 2] < AT_ONCE, f"what is typed in the third life is taken within {late[0] * 1000:.0f} to {late[-1] * 1000:.0f} ms")
    need(adapter.end() == 0, "the adapter ends with status 0")
    bench.clear()
    run_counted_resets(bench)
    run_unread_reset(bench)
    run_forgotten_lives(bench)


def run_counted_resets(bench):
    """The lives of a station with a state, and with a time and a page that go on."""
    state, begin = bench.file("reset.state"), time.monotonic()
    adapter = bench.adapter("--state", state, "--incarnation", "9", "--seconds", str(SECONDS), "--page", str(PORT), "--page-writes", log="reset_seconds")
    events = Events(bench)
    need(events.next(), "a browser looks at the first life")
    token = next(found[1] for found in map(TOKEN.fullmatch, adapter.said()) if found)
    time.sleep(RESET_S)
    reset(bench, adapter)
    status, _ = asked(bench, "POST", f"/call?{word_of(bench)}", body=b"write 100 01020304", X_Station_Token=token)
    shown = status == 204 and events.next(lambda it: it["inputs"][0]["bytes"] == "01020304")
    sure(shown, "a call of the page reaches the second life, which the browser that looked at the first one sees")
    status, seconds = adapter.status(SECONDS + 5), time.monotonic() - begin
    sure(status == 0 and SECONDS - 0.2 < seconds < SECONDS + RESET_S - 0.5, f"--seconds {SECONDS}: a station that is reset after {RESET_S} s ends "
         f"after {seconds:.1f} s")
    sure(incarnations(adapter) == [9, 10] and incarnation_of(state) == 10 and not os.path.exists(state + ".new"),
         f"--state FILE --incarnation 9: the next life counts on: {incarnations(adapter)}")
    bench.clear()


def run_forgotten_lives(bench):
    """What an earlier run has recorded of its lives is removed when a station begins a record of this name."""
    first = bench.write_exactly("forgotten.trace", "of an earlier run\n")
    later = [bench.write_exactly(f"forgotten.trace.{it}", "of an earlier run\n") for it in ("life-2", "life-2.2", "life-3")]
    other = bench.write_exactly("forgotten.trace.life-5", "of no run that has a fourth life\n")
    adapter = bench.adapter("--record", first, log="reset_forgotten")
    need(adapter.end() == 0, "the adapter ends with status 0")
    left = [it for it in later if os.path.exists(it)]
    sure(not left and os.path.exists(other), f"a new record leaves nothing of an earlier run's lives beside it: {left}")
    bench.clear()


def run_unread_reset(bench):
    """The record of a life is a pipe that is read late: the next life waits for it, and nothing of it comes into the next one's record."""
    bench.write("large.profile", LARGE)
    path, text = bench.file("reset.trace"), []
    for it in path, f"{path}.life-2":
        with contextlib.suppress(FileNotFoundError):
            os.remove(it)
    os.mkfifo(path)
    reader = os.open(path, os.O_RDWR | os.O_NONBLOCK)
    fcntl.fcntl(reader, fcntl.F_SETPIPE_SZ, Pipe.PAGE)
    adapter = bench.adapter("--record", path, "--incarnation", "3", profile="large", log="reset_unread")

    def read_late():
        time.sleep(UNREAD_S)
        end = time.monotonic() + UNREAD_S
        while time.monotonic() < end:
            with contextlib.suppress(BlockingIOError):
                text.append(os.read(reader, 65536))

    adapter.call(*[f"write 101 {os.urandom(1400).hex()}" for _ in range(WRITES)])
    wait(lambda: len(adapter.lines()) > WRITES, "the calls are taken")
    reset(bench, adapter, read_late)
    need(adapter.end() == 0, "the adapter ends with status 0")
    os.close(reader)
    lives = [bench.write_exactly("reset.first", b"".join(text).decode()), f"{path}.life-2"]
    for life in lives:
        done = run(bench.program, "replay", life)
        need(done.returncode == 0, f"the record of a life replays: {done.stderr.decode()}")
    with open(lives[0]) as file:
        kept = sum(line.startswith("write 101") for line in file)
    sure(kept == WRITES, f"a record that is read late has all of its life, {kept} writes, and that of the next life has its own events alone")
    bench.clear()


def run_quick_resets(bench):
    """Resets as fast as they are served: a life begins at the earliest a second behind the beginning of the last one."""
    adapter, begin = bench.adapter("--incarnation", "20", log="quick_resets"), time.monotonic()
    for _ in range(RESETS):
        reset(bench, adapter)
    seconds, begun = time.monotonic() - begin, len(incarnations(adapter))
    sure(begun == RESETS + 1 and seconds >= LIFE_S * (RESETS - 1), f"{RESETS} resets that are sent as fast as they are served take {seconds:.1f} s")
    late = sorted(taken_in(adapter, 0x0A0B0D00 + turn) for turn in range(CALLS))
    sure(late[CALLS // 2] < AT_ONCE, f"what is typed behind them is taken within {late[0] * 1000:.0f} to {late[-1] * 1000:.0f} ms")
    peer = Originator(bench)
    with served("a reset"):
        originator.expect("the status of a reset", peer.session.request(RESET)[:2], (0, ()))
    late = taken_in(adapter, 0x0A0B0E00)
    sure(late < LIFE_S + AT_ONCE, f"what is typed behind a reset is taken by the next life, {late:.2f} s later")
    need(adapter.end() == 0, "the adapter ends with status 0")
    bench.clear()
