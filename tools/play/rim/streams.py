"""Streams that say nothing, targets that do not answer, links that are cut, clocks that jump."""

import mmap, os, shutil, signal, socket, struct, time
from rim.host import TOP, Wrong, holds, need, run, sure, wait
from rim.peers import INPUT_ONLY, POINT_TO_POINT, Originator, Silent, Target, served

OPEN_MS = 1000  # the open time-out of the scanner's profile
NOP, REGISTER, FORWARD_OPEN = (0, None), (0x65, None), (0x6F, 0x54)
NOP_MS, EARLY_MS = 60_000, 20_000  # the time from one NOP to the next, and a part of it
SOON = 5.0  # a scanner is established within so many seconds after its target or its link is well again
TWO_OWNERS = ("adapter 16 {adapter} 255.255.255.0 1 12 7 2 3\noutput 150 4 zero zero\noutput 160 4 zero zero\n"
              "input 100 4\nheartbeat 152 153\n")
TWO_SLOTS = ("scanner 32 {owner} 1 101 500 300\nslot {adapter} exclusive - 150 100 4 4 10000 10000 2 p2p - -\n"
             "slot {adapter} exclusive - 160 100 4 4 10000 10000 2 p2p - -\n")


# AN ADAPTER'S STREAMS

def run_silent(bench):
    adapter = bench.adapter(log="silent")
    owner = Originator(bench, host="owner")
    feeder = bench.later(owner.feed(owner.open(), "11223344"))
    wait(lambda: owner.read(150) == "11223344", "an owner's data reach the output")
    peer = bench.address["peer"]
    cuts = []
    for turn in range(20):
        cuts.append(Silent(bench, peer))
        need(cuts[-1].is_registered(), f"the scanner gets in after {turn} power cuts")
    alive = sum(it.is_open() for it in cuts)
    need(alive <= 8, f"{alive} streams of one address are open")
    holds(f"an honest scanner gets in after each of 20 power cuts ({alive} of its streams are open)")
    with served("an originator gets in after 20 power cuts of another one"):
        Originator(bench, host="reader").open(INPUT_ONLY, POINT_TO_POINT).close()
    holds("another originator gets in at once")
    strangers = [Silent(bench, own, register=False) for own in bench.network.extra[:16]]
    with served("an originator gets in beside 16 silent streams of other addresses"):
        late = Originator(bench, host="reader", patience=2.0)
        late.open(INPUT_ONLY, POINT_TO_POINT).close()
    holds("an originator gets in beside 16 silent streams of other addresses")
    strangers += [Silent(bench, own) for own in bench.network.extra[16:]]
    need(owner.is_open(), "the owner keeps its stream")
    feeder.keeps(owner.read(150) == "11223344", "the owner keeps its output")
    sure(adapter.is_running(), f"{len(strangers)} addresses took streams; the owner of an output kept its stream and its output")
    feeder.stop()
    need(adapter.end() == 0, "the adapter ends with status 0")
    bench.clear()


def run_inactivity(bench):
    adapter = bench.adapter("--inactivity", "1", log="inactive")
    owner = Originator(bench)
    feeder = bench.later(owner.feed(owner.open(), "55667788"))
    wait(lambda: owner.read(150) == "55667788", "an owner's data reach the output")
    mute = Silent(bench, bench.network.extra[0], register=False)
    begin = time.monotonic()
    seconds = wait(lambda: not owner.is_open() and not mute.is_open(), "--inactivity 1: silent streams end", 3)
    need(0.4 < seconds < 2.5, f"--inactivity 1: silent streams end after {seconds:.1f} s")
    time.sleep(max(0.0, begin + 2 - time.monotonic()))
    watch = Originator(bench, own=bench.network.extra[1])
    for _ in range(15):
        need(watch.read(150) == "55667788", "the connection of a silent stream lives on")
        time.sleep(0.1)
    need(watch.is_open(), "a stream that speaks stays open")
    sure([line for line in adapter.said() if line.endswith("ended: it was silent for 1 s")],
         f"--inactivity 1: silent streams end after {seconds:.1f} s, their connection lives on, and a line says so")
    feeder.stop()
    need(adapter.end() == 0, "the adapter ends with status 0")
    bench.clear()


# A SCANNER'S TARGETS

def run_mute_target(bench):
    begin = time.monotonic()
    established(bench, "a target that did not answer RegisterSession for 3 s",
                lambda kind, *_: "ignore" if kind == REGISTER and time.monotonic() < begin + 3 else "serve", begin + 3)


def run_refusing_target(bench):
    established(bench, "a target that refused RegisterSession once",
                lambda kind, before, _: "refuse" if kind == REGISTER and before == 0 else "serve", 0)


def run_dead_stream(bench):
    dead = []

    def mood(kind, before, stream):
        """The stream of the first Forward_Open is dead from then on."""
        if kind == FORWARD_OPEN and before == 0:
            dead.append(stream)
        return "ignore" if stream in dead else "serve"

    established(bench, "a target that does not answer over the stream of the first Forward_Open", mood, time.monotonic() + OPEN_MS / 1000)


def established(bench, what, mood, well):
    """A scanner is established soon after its target is well."""
    target = Target(bench, mood)
    scanner = bench.scanner("owner", profile="single", log="moods")
    well = max(well, time.monotonic())
    wait(scanner.is_established, f"{what}: the scanner is established", well - time.monotonic() + SOON)
    seconds = time.monotonic() - well
    sure(target.fault is None, f"{what}: the scanner is established after {max(seconds, 0):.1f} s")
    scanner.end()
    bench.clear()


def run_given_up(bench):
    """What waits in a stream that its originator has reset opens nothing."""
    adapter = bench.adapter(log="given_up")
    first = Originator(bench, host="peer", patience=0.3)
    adapter.process.send_signal(signal.SIGSTOP)
    try:
        first.open()
        need(False, "a stopped adapter answers")
    except Wrong:
        pass  # (it is stopped, so the request waits in its stream)
    first.session.tcp.setsockopt(socket.SOL_SOCKET, socket.SO_LINGER, struct.pack("ii", 1, 0))
    first.close()
    time.sleep(0.3)
    adapter.process.send_signal(signal.SIGCONT)
    owner = Originator(bench, host="owner")
    owner.open()
    holds("a Forward_Open that its originator gave up makes no owner")
    need(adapter.end() == 0, "the adapter ends")
    bench.clear()


# A LINK

def run_cuts(bench, times, rounds):
    """The link of an adapter is cut for some seconds, again and again."""
    bench.write("outputs.profile", TWO_OWNERS)
    bench.write("slots.profile", TWO_SLOTS)
    adapter = bench.adapter(profile="outputs", log="cuts")
    scanner = bench.scanner("owner", profile="slots", log="cuts_owner")
    scanner.call("start 1", "write 0 01010101", "write 1 02020202")
    wait(lambda: scanner.is_established(0) and scanner.is_established(1), "two slots are established")
    time.sleep(0.5)  # (so that data came: until the first ones a connection has 10 s)
    for seconds in times:
        away = [cut(bench, adapter, scanner, seconds) for _ in range(rounds)]
        sure(max(away) < SOON, f"a link that was cut for {seconds} s, {rounds} times: each slot is established within "
             f"{max(away):.1f} s, and nobody owns an output without data")
    need(scanner.end() == 0 == adapter.end(), "both end with status 0")
    bench.clear()


def cut(bench, adapter, scanner, seconds):
    """Cuts the link once, and answers the seconds that a slot was away after it came back."""
    before = [len(scanner.states(slot)) for slot in (0, 1)]
    notes = len(adapter.lines())
    down(bench, adapter)
    begin = time.monotonic()
    for slot in 0, 1:
        wait(lambda: len(scanner.states(slot)) > before[slot], f"the link is cut: slot {slot} loses its connection")
    time.sleep(max(0.0, begin + seconds - time.monotonic()))
    up(bench, adapter)
    back = time.monotonic()
    wait(lambda: scanner.is_established(0) and scanner.is_established(1), f"after a cut of {seconds} s both slots are established",
         seconds + 60)
    away = time.monotonic() - back
    time.sleep(1)
    need(scanner.is_established(0) and scanner.is_established(1), f"after a cut of {seconds} s both slots stay established")
    opened = [line.split()[2] for line in adapter.lines()[notes:] if line.split()[1:2] == ["note"]]
    need(opened.count("opened") == 2, f"after a cut of {seconds} s, {away:.1f} s: two openings, and not {opened}")
    return away


def down(bench, adapter):
    if bench.network.own:
        bench.network.link("down")
    else:
        adapter.process.send_signal(signal.SIGSTOP)


def up(bench, adapter):
    if bench.network.own:
        bench.network.link("up")
    else:
        adapter.process.send_signal(signal.SIGCONT)


# A CLOCK

class Clock:
    """A clock of a program, which tools/play/clock.c moves."""

    def __init__(self, bench, name="clock"):
        self.library, self.path = bench.file("clock.so"), bench.file(f"{name}.offset")
        if not os.path.exists(self.library):
            build_before("clock", self.library)
        self.file = open(self.path, "w+b")
        self.file.write(struct.pack("<qq", 0, 0))
        self.file.flush()
        self.offset = mmap.mmap(self.file.fileno(), 16)

    def env(self):
        return [f"LD_PRELOAD={self.library}", f"CLOCK_OFFSET={self.path}"]

    def jump(self, ms):
        now = struct.unpack("<q", self.offset[:8])[0]
        self.offset[:8] = struct.pack("<q", now + ms)

    def set_wall(self, seconds):
        """The clock on the wall shows this time now, in seconds since 1970 began."""
        self.offset[8:] = struct.pack("<q", round((seconds - time.time()) * 1000))

    def close(self):
        self.offset.close()
        self.file.close()


def build_before(name, library):
    """Builds a source of tools/play that is loaded before the C library."""
    kit = os.path.dirname(os.path.dirname(os.path.realpath(shutil.which("rt") or "")))
    compiler = f"{kit}/toolchain/bin/clang"
    words = [compiler, "-fuse-ld=lld"] if os.path.exists(compiler) else ["cc"]
    made = run(*words, "-O1", "-shared", "-fPIC", "-nostdlib", f"{TOP}/tools/play/{name}.c", "-o", library)
    need(made.returncode == 0, f"tools/play/{name}.c: {made.stderr.decode()}")


def run_pause(bench):
    """A pause of 70 s is given to the device whole."""
    clock, begin, trace = bench.later(Clock(bench)), time.monotonic(), bench.file("clock.trace")
    adapter = bench.adapter("--record", trace, log="clock", env=clock.env())
    feeder = fed(bench, "01020304")
    clock.jump(70_000)
    wait(lambda: any(line.endswith("output 150 00000000") for line in adapter.lines()), "the owner of before the pause times out")
    feeder.stop()
    fed(bench, "0a0b0c0d")
    wait(lambda: any(line.endswith("output 150 0a0b0c0d") for line in adapter.lines()), "the data of the next owner are printed")
    passed = time_of(adapter)
    sure(70_000 <= passed <= 70_010 + 1000 * (time.monotonic() - begin), f"a pause of 70 s is given to the device whole: {passed} ms")
    need(adapter.end() == 0, "the adapter ends with status 0")
    with open(trace) as file:
        ticks = [int(line.split()[1]) for line in file if line.startswith("tick ")]
    sure(max(ticks) <= 60_000 and sum(ticks) >= 70_000, f"the record's ticks are at most {max(ticks)} ms, and {sum(ticks)} ms in all")
    need(run(bench.program, "replay", trace).returncode == 0, "the record replays")


def run_clock_back(bench):
    """A clock that goes back costs nothing but its step."""
    clock = bench.later(Clock(bench))
    adapter = bench.adapter("--inactivity", "1", log="back", env=clock.env())
    feeder = fed(bench, "01020304")
    mute = Silent(bench, bench.network.extra[1])
    watch = Originator(bench, own=bench.network.extra[0])
    clock.jump(-5_000)
    feeder.stop()
    seconds = wait(lambda: watch.read(150) == "00000000", "after a clock that went back 5 s the watchdog of a lost owner expires", 8)
    sure(seconds < 1.5, f"a clock that goes back 5 s stops nothing: a watchdog expires after {seconds:.2f} s")
    wait(lambda: not mute.is_open(), "after a clock that went back 5 s a silent stream ends", 3)
    need(adapter.end() == 0, "the adapter ends with status 0")
    clock = bench.later(Clock(bench, "scanner"))
    adapter = bench.adapter(log="back_adapter")
    scanner = bench.scanner("owner", log="back_owner", env=clock.env())
    wait(scanner.is_established, "a scanner is established")
    time.sleep(0.5)  # (so that data came: until the first ones a connection has 10 s)
    clock.jump(-60_000)
    adapter.kill()
    wait(lambda: not scanner.is_established(), "the adapter is killed: the scanner notices")
    adapter = bench.adapter(log="back_again")
    seconds = wait(scanner.is_established, "after a clock that went back 60 s a scanner opens its stream again", 5)
    sure(True, f"a scanner whose clock went back 60 s opens its stream again: {seconds:.1f} s")
    need(scanner.end() == 0 == adapter.end(), "both end with status 0")


def run_sent_nop(bench):
    """A scanner sends NOP over its stream every 60 s, connected or not, so that its target keeps the stream."""
    clock, counts = bench.later(Clock(bench, "nops")), []

    def mood(kind, *_):
        counts.append(kind)
        return "ignore" if kind == NOP else "serve"

    target = Target(bench, mood)
    scanner = bench.scanner("owner", profile="single", log="nops", env=clock.env())
    wait(scanner.is_established, "a scanner is established")
    scanner.call("stop 0")
    wait(lambda: scanner.states()[-1] == 0, "its slot is closed")
    for turn in range(1, 4):
        clock.jump(NOP_MS - 10_000 if turn == 1 else NOP_MS - EARLY_MS)
        time.sleep(0.3)
        need(counts.count(NOP) == turn - 1, f"no NOP comes before its time: {counts.count(NOP)} behind jump {turn}")
        clock.jump(10_000 if turn == 1 else EARLY_MS)
        wait(lambda: counts.count(NOP) == turn, f"NOP {turn} comes within 2 s of its time", 2)
    need(counts.count(REGISTER) == 1 and target.fault is None, f"the stream stays the same: {target.fault}")
    sure(len(target.streams) == 1, f"a scanner whose clock jumps by {NOP_MS // 1000} s three times sends a NOP for each, over the same stream")
    need(scanner.end() == 0, "the scanner ends with status 0")
    bench.clear()


def fed(bench, data):
    """An owner whose data are at the output."""
    owner = Originator(bench)
    feeder = bench.later(owner.feed(owner.open(), data))
    wait(lambda: owner.read(150) == data, "an owner's data reach the output")
    return feeder


def time_of(adapter):
    """The device's time at the last change of an output."""
    return max(int(line.split()[2]) for line in adapter.lines() if line.split()[1:2] == ["at"])
