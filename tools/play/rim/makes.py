"""Targets of other makes, which tools/peers/target.py plays: they refuse, answer late or otherwise than was asked, forget sessions, name
another port, send a long reply. A scanner leaves no connection behind at them, and keeps those that are well."""

import random, re, socket, struct, sys, threading, time
from rim.host import PRESENT, TOP, Station, holds, need, run, sure, wait
from rim.peers import Ending

sys.path.insert(0, f"{TOP}/tools/peers")
import target

OPEN_MS, RETRY_MS = 500, 300
LEFT_S = 10.0  # after so long a target has no connection that no slot has
LONG_OBJECT = target.LONG_OBJECT


class Running(target.Target):
    """A target in a thread."""

    def __init__(self, bench, host="peer", **more):
        with bench.network.inside(host):
            super().__init__(bench.address[host], **more)
        self.going, self.fault = True, None
        self.thread = threading.Thread(target=self.serve, daemon=True)
        self.thread.start()
        bench.later(Ending(self.end))

    def serve(self):
        while self.going:
            try:
                self.turn()
            except (OSError, ValueError, struct.error, IndexError) as fault:
                self.fault = self.fault or f"{type(fault).__name__}: {fault}"

    def end(self):
        if self.going:
            self.going = False
            self.thread.join()
            self.stop()

    def points(self):
        """The consumed points of its connections, in order."""
        return sorted(it.points[0] for it in list(self.connections))


def knows(bench, line):
    """Whether the program knows this line of a scanner's profile."""
    return run(bench.program, "explain", bench.write_exactly("line.trace", profile(bench, 1, f"{line}\n"))).returncode == 0


def profile(bench, slots, tidy, o_t_us=1_000_000, t_o_us=10_000, multiplier=4, open_ms=OPEN_MS, kind="exclusive", trigger=""):
    """A scanner of slots with the points 150 and 100, 151 and 101, ..: its own time-outs are short, and the target's watchdogs long. The
    heartbeats of slots that own nothing go to 200, 201, .."""
    head = f"scanner 32 {bench.address['owner']} 1 101 {open_ms} {RETRY_MS}\n{tidy}"
    first, out = (150, 4) if kind == "exclusive" else (target.FIRST_HEARTBEAT, 0)
    return head + "".join(f"slot {bench.address['peer']} {kind} - {first + at} {100 + at} {out} 4 {o_t_us} {t_o_us} {multiplier} p2p - -{trigger}\n"
                          for at in range(slots))


def begin(bench, name, slots=1, tidy="", options=(), **of_profile):
    """A scanner whose slots are started."""
    path = bench.write_exactly(f"{name}.profile", profile(bench, slots, tidy, **of_profile))
    scanner = Station(bench, "owner", "scanner", path, "--incarnation", "32", *options, log=name)
    scanner.call("mode run", *(f"start {at}" for at in range(slots)))
    return scanner


def are_established(scanner, slots=1):
    return all(scanner.is_established(at) for at in range(slots))


def leaves_none(scanner, made, what, seconds=LEFT_S):
    """The scanner ends, and the target has no connection then."""
    need(scanner.end() == 0, f"{what}: the scanner ends with status 0")
    wait(lambda: not made.connections, lambda: f"{what}: no connection is left, and not {[it.serial() for it in made.connections]}", seconds)
    need(made.fault is None, f"{what}: {made.fault}")


# WHERE DATAGRAMS GO

def run_makes_items(bench):
    """The datagrams of a connection go to the address and the port that the reply names, each connection to its own."""
    made = Running(bench)
    own, other = bench.address["peer"], bench.network.extra[0]
    with bench.network.inside("peer"):
        made.listen_at(own, 2300)
        made.listen_at(other, 2301)
    for item, at in ((("0.0.0.0", 2300), (own, 2300)), ((other, 2301), (other, 2301)), (None, (own, 2222)), (("239.1.2.3", 2300), (own, 2300))):
        made.moods.item = item
        scanner = begin(bench, f"item_{at[1]}_{bool(item)}", o_t_us=10_000)
        wait(lambda: are_established(scanner), f"a target that names {item}: the scanner is established")
        wait(lambda: made.connections and made.connections[0].received > 20, f"a target that names {item} gets datagrams")
        came = dict(made.connections[0].came_to)
        need(set(came) == {at}, f"a target that names {item} gets its datagrams at {at}, and not {came}")
        leaves_none(scanner, made, f"a target that names {item}")
    sure(not made.unknown, "the datagrams of a connection go to the address and the port that the reply names, or to the target's at 2222")
    run_items_of_two(bench, made, own)


def run_items_of_two(bench, made, own):
    """One of two connections has a port of its own; when it is opened again without, its datagrams go to the usual one."""
    made.moods.item = ("0.0.0.0", 2300)
    scanner = begin(bench, "items_of_two", slots=2, o_t_us=10_000)
    wait(lambda: are_established(scanner, 2), "both slots are established")
    made.moods.item = None
    scanner.call("stop 1")
    wait(lambda: scanner.states(1)[-1] == 0, "slot 1 is closed")
    scanner.call("start 1")
    wait(lambda: are_established(scanner, 2), "and is opened again")
    of = {it.points[0]: it for it in made.connections}
    wait(lambda: all(it.received > 20 for it in of.values()), "both have datagrams")
    need(set(of[150].came_to) == {(own, 2300)} and set(of[151].came_to) == {(own, 2222)},
         f"each where its reply said: {[dict(it.came_to) for it in of.values()]}")
    leaves_none(scanner, made, "two slots")
    sure(not made.unknown, "a connection that is opened again without an item has its datagrams sent to the usual port, the other one to its own")
    bench.clear()


# STREAMS

def run_makes_streams(bench):
    """One slot that times out, or whose requests are not answered, costs no other slot of its target its stream."""
    made = Running(bench)
    made.moods.ends_with_stream = True
    scanner = begin(bench, "one_of_two", slots=2)
    wait(lambda: are_established(scanner, 2), "two slots of a target that ends class 1 with its stream are established")
    time.sleep(0.5)  # (so that data came: until the first ones a connection has 10 s)
    made.moods.mute_points = {101}
    wait(lambda: scanner.states(1).count(4) >= 1, "the data of one slot stop, and it times out")
    made.moods.every_open = "deaf"
    time.sleep(4)
    need(are_established(scanner), "the other one stays established, while the first one's requests are not answered")
    made.moods.every_open, made.moods.mute_points = "serve", set()
    need(scanner.states(0) == [2, PRESENT], f"the healthy slot was never lost: {scanner.states(0)}")
    sure(made.counts["stream"] == 1, "a slot that times out again and again, and whose requests are not answered, leaves the other one its stream")
    made.forget_connections()
    wait(lambda: not scanner.is_established(0), "the target forgets its connections: the slots time out")
    wait(lambda: are_established(scanner, 2), lambda: f"both are established again: {scanner.states(0)}, {scanner.states(1)}", 20)
    sure(made.counts["stream"] == 1, "a time-out of all slots of a target that answers leaves it the stream, too")
    need(scanner.end() == 0, "the scanner ends with status 0")
    bench.clear()


# SIZES

def run_makes_sizes(bench):
    """Data of another size are applied to nothing, and a line says so once for each connection, with both sizes."""
    made = Running(bench)
    made.moods.size = 8
    scanner = begin(bench, "sizes")
    wait(lambda: are_established(scanner), "the scanner is established")
    line = f"eip_station: slot 0: the datagrams of {bench.address['peer']} have 8 bytes of data, and the slot takes 4: none is applied"
    wait(lambda: line in scanner.said(), lambda: f"a line has both sizes: {scanner.said()}", 5)
    time.sleep(1)
    images = lambda: [it for it in scanner.lines() if " image 0 " in it][1:]
    need(scanner.said().count(line) == 1 and not images(), f"once, and nothing is applied: {images()}")
    scanner.call("stop 0")
    wait(lambda: scanner.states()[-1:] == [0], "the slot is closed")
    scanner.call("start 0")
    wait(lambda: scanner.said().count(line) == 2, "the next connection has its own line", 5)
    made.moods.size = None
    wait(lambda: images(), "data of the right size are applied", 5)
    leaves_none(scanner, made, "another size")
    sure(scanner.said().count(line) == 2, "data of another size are said once for each connection, with both sizes")
    bench.clear()


# LONG MESSAGES

def run_makes_long(bench):
    """A legal reply of more than 2,048 bytes ends no stream of a scanner; at an adapter the line says who ended it and why."""
    made = Running(bench)
    scanner = begin(bench, "long")
    wait(lambda: are_established(scanner), "the scanner is established")
    for turn in range(3):
        scanner.call(f"get {bench.address['peer']} {LONG_OBJECT} 1 1")
        wait(lambda: len([line for line in scanner.lines() if line.endswith(" unanswered unreadable")]) == turn + 1, "a long reply is unreadable")
        scanner.call(f"get {bench.address['peer']} 769 1 1")
        wait(lambda: made.counts["service 0x0e"] == turn + 1, "the next request is answered over the same stream")
    need(are_established(scanner) and scanner.states() == [2, PRESENT], f"the slot stays established: {scanner.states()}")
    sure(made.counts["stream"] == made.counts["register"] == 1, f"{target.LONG_BYTES} bytes of a reply are skipped: its request is unreadable, and the stream stays")
    leaves_none(scanner, made, "a long reply")
    bench.clear()
    adapter = bench.adapter(log="long_message")
    with bench.network.inside("peer"), socket.create_connection((bench.address["adapter"], 44818), 3, (bench.address["peer"], 0)) as tcp:
        tcp.sendall(struct.pack("<HHII8sI", 0x6F, 3000, 0, 0, b"", 0))
        wait(lambda: any(line.endswith("ended: this station ended it, since a message of more than 2048 bytes came") for line in adapter.said()),
             lambda: f"a line says who ended the stream: {adapter.said()}")
    sure(adapter.is_running(), "an adapter ends the stream of a message that is too long, and says that it did")
    need(adapter.end() == 0, "the adapter ends with status 0")
    bench.clear()


# WHAT A SCANNER LEAVES BEHIND

def needs(line):
    """A part that needs a line of a scanner's profile."""
    def needing(part):
        def run_if_known(bench):
            if not knows(bench, line):
                return holds(f"({part.__name__}: not tried: no scanner's profile has the line {line!r})")
            return part(bench)
        return run_if_known
    return needing


def run_makes_tidy(bench):
    """A scanner's station is tidy: its record has the line, once, whether its profile has it or not, and replays."""
    made = Running(bench)
    for own, tidy in (False, ""), (True, "tidy\n"):
        record = bench.file(f"tidy_{own}.trace")
        scanner = begin(bench, f"tidy_{own}", tidy=tidy, options=("--record", record))
        wait(lambda: are_established(scanner), "the scanner is established")
        leaves_none(scanner, made, "a station")
        with open(record) as file:
            lines = file.read().splitlines()
        at = next(at for at, line in enumerate(lines) if line.startswith("scanner "))
        need(lines[at + 1] == "tidy" and lines.count("tidy") == 1, f"a profile {'with' if own else 'without'} the line: {lines[at:at + 3]}")
        done = run(bench.program, "replay", record)
        need(done.returncode == 0, f"its record replays: {done.stderr.decode().strip()}")
    holds("a scanner's station is tidy, whether its profile says so or not: its record has the line once, and replays")
    bench.clear()


def run_makes_mismatch(bench):
    """A success that does not suit is closed."""
    for mood in "triad", "id", "api":
        made = Running(bench)
        made.moods.every_open = mood
        scanner = begin(bench, f"mismatch_{mood}")
        wait(lambda: made.counts["open"] >= 8, f"a target that answers another {mood}: the slot is tried again")
        need(len(made.connections) <= 1, f"and leaves none behind: {len(made.connections)}")
        made.moods.every_open = "serve"
        wait(lambda: are_established(scanner), f"a target that answered another {mood} is well again")
        time.sleep(0.5)
        need(len(made.connections) == 1 and made.counts["refused 0106"] == 0, f"one connection, and no refusal: {dict(made.counts)}")
        leaves_none(scanner, made, f"another {mood}")
        made.end()
        bench.clear()
    holds("a success with another triad, id or API is closed: the target has one connection then, and at the end none")


def run_makes_late(bench):
    """A success that comes for an opening that is no longer wanted is closed."""
    made = Running(bench)
    made.moods.opens.append(("late", 0.3))
    scanner = begin(bench, "late")
    wait(lambda: made.counts["open"] == 1, "the opening is under way")
    scanner.call("stop 0")
    wait(lambda: scanner.states()[-1:] == [0], "it is stopped")
    scanner.call("start 0")
    wait(lambda: are_established(scanner), "it is started again, and established")
    need(made.counts["refused 0106"] == 0 and len(made.connections) == 1, f"nothing of it is left: {dict(made.counts)}")
    made.moods.opens.extend([("late", 1.5), "never"])
    before = made.counts["open"]
    made.forget_connections()
    wait(lambda: made.counts["open"] >= before + 3, "two openings are not answered in time", 30)
    wait(lambda: are_established(scanner), "the next one is", 30)
    time.sleep(2)
    need(len(made.connections) == 1, f"one connection is left: {[it.serial() for it in made.connections]}")
    scanner.call("stop 0")
    wait(lambda: scanner.states()[-1:] == [0] and not made.connections, "it is closed")
    holds("a success that comes late, after a stop or after its time, is closed")
    for mood in ("late", 0.3), "never":
        made.moods.opens.append(mood)
        opened = made.counts["open"]
        scanner.call("start 0")
        wait(lambda: made.counts["open"] == opened + 1, "an opening is under way")
        leaves_none(scanner, made, f"an end while an opening is under way: {mood}", 2.0)
        scanner = begin(bench, f"late_{opened}")
        wait(lambda: are_established(scanner), "the next scanner is established")
        scanner.call("stop 0")
        wait(lambda: scanner.states()[-1:] == [0] and not made.connections, "it is closed")
    leaves_none(scanner, made, "a stopped slot")
    holds("a success that comes at an end in order is closed")
    bench.clear()


def run_makes_end(bench):
    """An end in order waits for an opening under way at most its time-out, and not for a slot whose target has no session."""
    made = Running(bench)
    made.moods.every_open, made.moods.every_close = "deaf", "deaf"
    scanner = begin(bench, "deaf_end", open_ms=3000)
    wait(lambda: made.counts["open"] == 1, "an opening is under way at a target that answers nothing")
    seconds = ended_in(scanner)
    need(2.5 < seconds < 4.0, f"the end waits for the open time-out of 3 s, and not {seconds:.1f} s")
    made.moods.every_open, made.moods.every_close = ("late", 1.0), "serve"
    scanner = begin(bench, "late_end", open_ms=3000)
    wait(lambda: made.counts["open"] == 2, "an opening is under way")
    seconds = ended_in(scanner)
    need(seconds < 1.0, f"the end waits for the reply to its close alone, and not {seconds:.1f} s")
    wait(lambda: not made.connections, "no connection is left", 2)
    made.moods.every_open = "serve"
    scanner = begin(bench, "gone_end", open_ms=3000)
    wait(lambda: are_established(scanner), "the scanner is established")
    made.end()
    wait(lambda: scanner.states()[-1:] == [4], "its target is gone, and it times out")
    seconds = ended_in(scanner)
    sure(seconds < 1.0, f"an end waits for the replies to its closes at most for the open time-out, and not for a target that is gone ({seconds:.1f} s)")
    bench.clear()


def ended_in(scanner):
    """The seconds that an end in order takes."""
    begin_s = time.monotonic()
    need(scanner.end() == 0, "the scanner ends with status 0")
    return time.monotonic() - begin_s


def run_makes_timeout(bench):
    """After a time-out the connection is closed before the next one is opened."""
    made = Running(bench)
    scanner = begin(bench, "timeout")
    for mood in "serve", "as_open", "never", "refuse", "forgotten":
        wait(lambda: are_established(scanner), f"{mood}: the scanner is established", 20)
        time.sleep(0.5)
        if mood == "forgotten":
            made.forget_connections()
        else:
            made.moods.closes.append(mood)
        made.moods.silent = True
        wait(lambda: not are_established(scanner), "its data stop, and it times out")
        made.moods.silent = False
        if mood == "refuse":  # (so the target keeps it, which the next one replaces once it forgets)
            wait(lambda: made.counts["refused 0106"] >= 1, "it refuses the close, and then the opening")
            made.forget_connections()
            made.counts["refused 0106"] = 0
    seconds = wait(lambda: are_established(scanner), "the scanner is established", 5)
    need(made.counts["refused 0106"] == 0 and len(made.connections) == 1, f"no refusal by its own connection: {dict(made.counts)}")
    leaves_none(scanner, made, "time-outs")
    holds(f"a connection that timed out is closed before the next one, whatever the reply: established {seconds:.1f} s after the last one")
    bench.clear()
    run_never_closed(bench)


def run_never_closed(bench):
    """A target that never answers the close of a connection that it does not have opens the next one all the same."""
    made = Running(bench)
    made.moods.every_close = "never"
    scanner = begin(bench, "never_closed")
    for _ in range(3):
        wait(lambda: are_established(scanner), "the scanner is established", 5)
        time.sleep(0.5)
        made.forget_connections()
        wait(lambda: not are_established(scanner), "its connection is forgotten, and it times out")
    wait(lambda: are_established(scanner), "the scanner is established", 5)
    need(made.counts["stream"] == 1, f"and keeps its stream: {dict(made.counts)}")
    sure(len(made.connections) == 1, "a target that answers no close opens the next connection all the same, over the same stream")
    made.moods.every_close = "serve"
    leaves_none(scanner, made, "closes that are not answered")
    bench.clear()


def run_makes_sessions(bench):
    """Status 0064 leads to a new session over the same stream, or over a new one if the target refuses that, or does not answer."""
    made = Running(bench)
    scanner = begin(bench, "sessions")
    for mood in ("serve", "serve", "refuse", "never"):
        wait(lambda: are_established(scanner), "the scanner is established", 10)
        time.sleep(0.5)
        registered, streams = made.counts["register"], made.counts["stream"]
        made.moods.registers.append(mood)
        made.forget_sessions()
        made.forget_connections()
        wait(lambda: made.counts["register"] > registered, lambda: f"its sessions are forgotten: it registers a new one: {dict(made.counts)}", 20)
        wait(lambda: are_established(scanner), f"a registration that the target may {mood}: the scanner is established again", 20)
        need((made.counts["stream"] == streams) == (mood == "serve"), f"a registration that the target may {mood}: {made.counts['stream'] - streams} new streams")
    sure(made.counts["bad session"] <= 8, f"a target that forgets its sessions is asked for a new one: {made.counts['bad session']} requests of a dead one")
    leaves_none(scanner, made, "forgotten sessions")
    bench.clear()


# CHANGES OF STATE

def run_makes_changes(bench):
    """A slot whose trigger is change of state sends a write and a change of mode at once, and no two datagrams within its inhibit time."""
    made = Running(bench)
    scanner = begin(bench, "changes", o_t_us=500_000, t_o_us=500_000, trigger=" change 50")
    wait(lambda: are_established(scanner), "the scanner is established")
    wait(lambda: made.connections[0].received >= 2, "its datagrams come")
    it = made.connections[0]
    for line, data in (("write 0 0a0b0c0d", "010000000a0b0c0d"), ("mode idle", "000000000a0b0c0d"), ("mode run", "010000000a0b0c0d")):
        before = it.received
        wait(lambda: it.received > before, "a datagram comes")
        time.sleep(max(0.0, it.came[-1][0] + 0.253 - time.monotonic()))
        begun = time.monotonic()
        scanner.call(line)
        wait(lambda: it.came[-1][1] == bytes.fromhex(data), f"{line}: its data come")
        need(it.came[-1][0] - begun < 0.1, f"{line}, 253 of 500 ms behind the last datagram: it is sent after {it.came[-1][0] - begun:.3f} s")
    before, begun = it.received, time.monotonic()
    for value in range(100):
        scanner.call(f"write 0 {value:08x}")
        time.sleep(0.01)
    wait(lambda: it.came[-1][1][4:] == struct.pack(">I", 99), "the newest output comes", 0.2)
    came, seconds = it.received - before, time.monotonic() - begun
    need(seconds / 0.05 * 0.5 < came <= seconds / 0.05 + 2, f"writes each 10 ms are sent each 50 ms: {came} datagrams in {seconds:.2f} s")
    leaves_none(scanner, made, "changes of state")
    sure(not made.unknown, f"a write and a change of mode are sent at once, and 100 writes in {seconds:.1f} s by {came} datagrams, 50 ms apart")
    bench.clear()


MOODS = ["serve", "serve", "serve", "triad", "id", "api", ("late", 0.3), ("late", 0.9), "never", "deaf", ("refuse", 0x0110)]
SLOTS, ACTS, LIVES = 3, 50, 20


def run_makes_random(bench):
    """A thousand random stops, starts, cuts, late and wrong replies leave nothing behind: lives of fifty acts, each with a seed of its own."""
    for _ in range(LIVES):
        run_life(bench, random.SystemRandom().randrange(1 << 32) if bench.args.seed is None else bench.args.seed)
    holds(f"{LIVES * ACTS} random stops, starts, cuts, late and wrong replies leave the target the connections of the slots, and none at an end")


def run_life(bench, seed):
    """Acts on a scanner of three slots and its target. One life of two ends as soon as there is a session, the others when all slots are
    established. A seed makes the same acts, and the machine their times."""
    rand, made, what = random.Random(seed), Running(bench, places=32), f"--seed {seed}"
    scanner = begin(bench, "random", slots=SLOTS, tidy=rand.choice(["", "openings 1\n", "openings 2\n"]))
    for _ in range(ACTS):
        act_at_random(rand, scanner, made)
        time.sleep(rand.random() * 0.1)
    made.moods.opens.clear()
    made.moods.closes.clear()
    if rand.random() < 0.5:
        is_well(scanner, made, what)
    wait(lambda: made.sessions, f"{what}: the scanner has a session")
    leaves_none(scanner, made, what)
    made.end()
    bench.clear()


def act_at_random(rand, scanner, made):
    act = rand.randrange(10)
    if act < 4:
        scanner.call(f"{rand.choice(['stop', 'start'])} {rand.randrange(SLOTS)}")
    elif act < 7:
        made.moods.opens.append(rand.choice(MOODS))
    elif act == 7:
        made.moods.closes.append(rand.choice(["serve", ("late", 0.3), "as_open", "never"]))
    elif rand.random() < 0.3:
        made.drop_streams() if act == 8 else made.forget_connections()


def is_well(scanner, made, what):
    """All slots are established within thirty seconds of their starts, and the target has their connections alone."""
    for _ in range(30):
        scanner.call(*(f"start {slot}" for slot in range(SLOTS)))
        time.sleep(1)
        if are_established(scanner, SLOTS):
            break
    need(are_established(scanner, SLOTS), f"{what}: all slots are established: {[scanner.states(at)[-3:] for at in range(SLOTS)]}")
    wait(lambda: made.points() == [150 + at for at in range(SLOTS)], lambda: f"{what}: the target has theirs alone: {made.points()}", LEFT_S)


# WHAT OTHER TARGETS TAKE

@needs("openings 1")
def run_makes_slow(bench):
    """A target that takes 700 ms for each open opens eight slots."""
    made = Running(bench)
    made.moods.open_s = 0.7
    scanner = begin(bench, "slow", slots=8, tidy="tidy\nopenings 1\n", open_ms=2000)
    seconds = wait(lambda: are_established(scanner, 8), lambda: f"all slots are established: {made.points()}", 20)
    need(made.counts["open"] == len(made.connections) == 8, f"each by its first request: {dict(made.counts)}")
    need({it.granted_ms for it in made.connections} == {2000}, f"each says the open time-out: {[it.granted_ms for it in made.connections]}")
    leaves_none(scanner, made, "a slow target")
    holds(f"a target that takes 700 ms for each open opens eight slots within {seconds:.1f} s, each by its first request")
    bench.clear()


@needs("openings 1")
def run_makes_places(bench):
    """Openings that are not answered give their place on, each after its own time; stops and cuts leave none behind."""
    made = Running(bench)
    made.moods.opens.extend(["deaf", ("late", 1.0), ("refuse", 0x0110)])
    scanner = begin(bench, "places", slots=4, tidy="openings 1\n")
    wait(lambda: are_established(scanner, 4), lambda: f"all slots are established: {made.points()}", 20)
    for _ in range(3):
        made.drop_streams()
        scanner.call("stop 1", "stop 3", "start 1", "start 3")
        time.sleep(0.2)
    wait(lambda: scanner.call("start 1", "start 3") or time.sleep(0.5) or are_established(scanner, 4), lambda: f"again: {made.points()}", 20)
    wait(lambda: made.points() == [150, 151, 152, 153], lambda: f"the target has the connections of the slots alone: {made.points()}", LEFT_S)
    leaves_none(scanner, made, "one opening at a time")
    holds("with one opening at a time, slots that are not answered, answered late, refused, stopped and cut off leave none behind")
    bench.clear()


def lives(bench, made, name, count, options):
    """The serial numbers of so many lives that are killed when their connections are open."""
    for life in range(count):
        scanner = begin(bench, name, kind="input", options=options)
        wait(lambda: are_established(scanner) and len(made.connections) == life + 1, "the scanner is established")
        scanner.kill()
    return [it.serial() for it in made.connections]


@needs("serials 1")
def run_makes_serials(bench):
    """The triads of a life that was killed do not come again."""
    made = Running(bench)
    serials = lives(bench, made, "serials", 4, ("--state", bench.file("serials.state")))
    steps = {(after - before) % 65535 for before, after in zip(serials, serials[1:])}
    need(steps == {257 * 128 % 65535}, f"each life begins half the circle behind the last one: {serials}")
    made.forget_connections()
    drawn = lives(bench, made, "uncounted", 4, ())
    need(made.counts["refused 0100"] == 0 and len(set(serials)) == len(set(drawn)) == 4, f"four lives have four serial numbers: {serials}, {drawn}")
    bench.write_exactly("old.state", "incarnation 7\nserial 9\n")
    made.forget_connections()
    lives(bench, made, "old", 1, ("--state", bench.file("old.state")))
    with open(bench.file("old.state")) as file:
        text = file.read()
    need(re.fullmatch(r"incarnation 32\nserial 9\nserials \d+\nids \d+ \d+\n", text), f"a state without these lines goes on with them: {text!r}")
    holds(f"lives that were killed go on with other serial numbers: {serials}; {drawn}")
    bench.clear()


@needs("serials 1")
def run_makes_copies(bench):
    """Two stations of one profile whose serial number is 0 are two originators."""
    made = Running(bench)
    text = profile(bench, 1, "", kind="input").replace(" 1 101 ", " 1 0 ")
    path = bench.write_exactly("copy.profile", text)
    for copy in range(2):
        state = bench.file(f"copy{copy}.state")
        scanner = Station(bench, "owner", "scanner", path, "--incarnation", "32", "--state", state, log=f"copy{copy}")
        scanner.call("start 0")
        wait(lambda: are_established(scanner) and len(made.connections) == copy + 1, "the scanner is established")
        scanner.kill()
    originators = {struct.unpack("<I", it.triad[4:8])[0] for it in made.connections}
    sure(len(originators) == 2 and 0 not in originators, f"two stations of one profile are two originators: {sorted(originators)}")
    bench.clear()


@needs("openings 1")
def run_makes_intervals(bench):
    """A scanner asks for O->T intervals of whole milliseconds, and keeps them."""
    made = Running(bench)
    for asked, kept in ((2500, 2000), (500, 1000), (20_999, 20_000)):
        scanner = begin(bench, f"interval_{asked}", o_t_us=asked)
        wait(lambda: are_established(scanner), "the scanner is established")
        need(made.connections[0].o_t_us == kept, f"of {asked} us it asks for {made.connections[0].o_t_us}")
        came, begun = made.connections[0].received, time.monotonic()
        time.sleep(2)
        rate = (made.connections[0].received - came) / (time.monotonic() - begun) * kept / 1e6
        need(rate > 0.9 or kept < 20_000, f"of an interval of {kept} us {rate:.2f} datagrams come in each")
        leaves_none(scanner, made, f"an interval of {asked} us")
    holds("intervals that are no whole milliseconds are asked for as whole ones, and kept")
    bench.clear()


def run_makes_words(bench):
    """The data of a connection whose success has an extended status word are counted, and an item behind it is obeyed."""
    made, own = Running(bench), bench.address["peer"]
    with bench.network.inside("peer"):
        made.listen_at(own, 2300)
    made.moods.every_open, made.moods.more_words, made.moods.item = "words", (0x0001,), (own, 2300)
    scanner = begin(bench, "words")
    wait(lambda: are_established(scanner), "the scanner is established")
    time.sleep(0.5)
    scanner.call("status")
    counted = lambda: [line.split() for line in scanner.lines() if " slot 0 " in line and " received " in line]
    wait(counted, "its status is printed")
    words = counted()[-1]
    need(int(words[words.index("received") + 1]) > 10, f"its datagrams are counted: {' '.join(words)}")
    need(set(made.connections[0].came_to) == {(own, 2300)}, f"its own go to the port of the item: {dict(made.connections[0].came_to)}")
    leaves_none(scanner, made, "a success with a word")
    holds("the data of a connection whose success has an extended status word are counted, and its own go where the item behind it says")
    bench.clear()
