"""Plants: many devices in one process, whose records settle, whose scripts do what they say, and whose files are refused by
their lines."""

import collections, errno, fcntl, glob, os, re, resource, signal, socket, struct, time
from rim.calls import CallFaults
from rim.host import PRESENT, Pipe, Station, Untried, need, run, sure, until, wait
from rim.pages import HOST, PORT, connected, status_of, told, word_of

VALVES, DRIVES, READERS = 4, 3, 2
RESTART_MS, SCRIPT_MS = 1500, 3500
DISK_BYTES = 40_000
PAUSE_MS = 60_000  # of a device that hangs
STEPS_S = 10.0  # seconds: two steps of a plant's end, of which none takes more than 5 s (rule 34.8)
TOLD_S, SHARE = 2, 4  # seconds; a device that is shown most often is shown at most so many times as often as any other one
AT_ONCE = 0.2  # seconds: a plant looks for typed lines each 20 ms
LONGEST_BYTES, TYPED_BYTES = 1400, 42_000  # of datagrams that are typed as digits: more than may wait at once
MARK = "write 100 c0ffee00"  # the line of a script in front of its cut
MOST_TICKS = 12  # of the turns of a cut: a device that goes on without it has a hundred in a second, one that was kept from the processor a long one
ADAPTER = "adapter 1 {node} 255.255.255.0 0 12 7 2 3\noutput 150 4 zero zero\ninput 100 4\nheartbeat 152 153\n"
OWNED = "slot {node} exclusive - 150 100 4 4 10000 10000 2 multicast - -\n"
READ = "slot {node} input - 152 100 0 4 10000 10000 2 multicast - -\n"
SCANNER = "scanner 1 {node} 0 {number} 1000 1000\n"


class Plant(Station):
    """A running plant at one host, which has all addresses."""

    def __init__(self, bench, text, *options, log="plant", **how):
        path = bench.write_exactly(f"{log}.plant", text)
        super().__init__(bench, "peer", "plant", path, *options, log=log, **how)

    def of(self, name):
        """The lines of a device, without its name."""
        return [line.split(" ", 1)[1] for line in self.lines() if line.split(" ", 1)[0] == name]

    def established(self, name):
        """The slots of a scanner that are established."""
        states = {}
        for line in self.of(name):
            words = line.split()
            if words[1:3] == ["note", "slot"]:
                states[words[3]] = int(words[4])
        return sum(state == PRESENT for state in states.values())


def profiles(bench, adapters, readers):
    """The profiles of a line: its adapters have one profile, the controller owns all of them, the others read them."""
    nodes = bench.network.extra
    bench.write_exactly("plant_adapter.profile", ADAPTER.format(node=nodes[0]))
    owned, read = ("".join(form.format(node=node) for node in nodes[:adapters]) for form in (OWNED, READ))
    for at in range(1 + readers):
        own = SCANNER.format(node=nodes[adapters + at], number=100 + at) + (read if at else owned)
        bench.write_exactly(f"plant_scanner{at}.profile", own)


def file_of(bench, adapters, readers, lines=lambda name: ""):
    """The file of such a plant; `lines` gives what stands behind a device's line."""
    nodes, text = bench.network.extra, ""
    for at in range(1 + readers):
        text += f"device scanner-{at} plant_scanner{at}.profile\n" + lines(f"scanner-{at}")
    for at in range(adapters):
        text += f"device adapter-{at} plant_adapter.profile {nodes[at]}\n" + lines(f"adapter-{at}")
    return text


def begun(bench, adapters, readers, lines=lambda name: "", *options, log="plant", **how):
    """A plant whose scanners have opened all their slots."""
    profiles(bench, adapters, readers)
    plant = Plant(bench, file_of(bench, adapters, readers, lines), "--record", bench.file(log), *options, log=log, **how)
    names = [f"scanner-{at}" for at in range(1 + readers)]
    until(lambda: all(plant.established(name) == adapters for name in names) or not plant.is_running(), f"{log}: all {1 + readers} scanners open {adapters} slots")
    need(plant.is_running(), f"{log}: it has ended: {plant.said()}")
    return plant


def records(bench, log):
    """The records of all lives, by their device and the number of the life."""
    found = [path for path in glob.glob(os.path.join(glob.escape(bench.file(log)), "*.trace"))]
    return sorted(found, key=lambda path: (path.split(".")[-3], int(path.split(".")[-2])))


def replays(bench, log):
    """Each record replays."""
    found = records(bench, log)
    for path in found:
        done = run(bench.program, "replay", path)
        need(done.returncode == 0, f"{path} replays: {done.stdout.decode()[-200:]}{done.stderr.decode()[-200:]}")
    sure(True, f"{log}: the records of {len(found)} lives replay")
    return found


def settled(bench, paths):
    done = run(bench.program, "settle", *paths)
    return done.returncode, done.stdout.decode().strip()


def noted(plant, adapters, *what):
    """How many notices of connections of these kinds the adapters of a plant have printed."""
    return sum(line.split()[1:2] == ["note"] and line.split()[2] in what for at in range(adapters) for line in plant.of(f"adapter-{at}"))


def run_plant(bench):
    """Ten devices: data go both ways, calls by name, and the records settle."""
    plant = begun(bench, VALVES + DRIVES, READERS, lambda name: "  at 300 mode run\n" if name == "scanner-0" else "")
    plant.call("scanner-0 write 2 01020304", "adapter-1 write 100 0a0b0c0d", "status", "adapter-3 status")
    until(lambda: any(line.endswith("output 150 01020304") for line in plant.of("adapter-2")), "a call by name: the owner's data reach an output")
    until(lambda: all(any(line.endswith("image 1 0a0b0c0d") for line in plant.of(f"scanner-{at}")) for at in range(1 + READERS)),
          "an input reaches the image of each scanner")
    counts = {name: sum(" status streams " in line for line in plant.of(name)) for name in ("adapter-0", "adapter-3", "scanner-2")}
    sure(counts == {"adapter-0": 1, "adapter-3": 2, "scanner-2": 1}, "`status` is said by all devices, and by one if its name is before it")
    plant.call("nobody status", "adapter-0 dance", "adapter-0", "adapter status")
    until(lambda: len([line for line in plant.said() if "of standard input" in line]) == 4, "four lines that are no calls are reported")
    need(all(any(f"line {number} of standard input names no device" in line for line in plant.said()) for number in (5, 8)),
         "the numbers of lines that name no device are said, and the beginning of a name is none")
    ended = noted(plant, VALVES + DRIVES, "expired", "dropped", "replaced")
    sure(plant.end() == 0, "the plant ends with status 0 when its input ends")
    opened, closed = noted(plant, VALVES + DRIVES, "opened"), noted(plant, VALVES + DRIVES, "closed")
    sure(closed == opened - ended >= (VALVES + DRIVES) * (1 + READERS), f"its scanners close each connection before its adapters end: {closed} of {opened}")
    paths = replays(bench, "plant")
    status, said = settled(bench, paths)
    sure(status == 0 and said.startswith("settled: 10 records, "), f"the records of ten devices settle: {said}")


def hung(bench, device):
    """A plant whose device is paused for a minute, and whose input has ended; and when that was."""
    plant = Plant(bench, device, log="hung")
    until(lambda: any("adapter at" in line for line in plant.said()), "a device lives")
    plant.call(f"a pause {PAUSE_MS}", "a status")
    time.sleep(0.2)
    plant.process.stdin.close()
    return plant, time.monotonic()


def run_plant_scripts(bench):
    """What scripts do: a cut, a pause, restarts with the next incarnation and with the same one, losses, and bytes that nobody
    sends."""
    told = {"adapter-0": f"  at 1500 {MARK}\n  at 1500 cut\n", "adapter-1": "  at 1500 pause 400\n", "adapter-2": "  at 1500 restart\n  at 3000 restart same\n",
            "scanner-1": "  lose 20\n  seed 3\n  at 2200 restart\n", "scanner-0": "  every 1000 mode run\n"}
    os.makedirs(bench.file("scripts"), exist_ok=True)
    for life in 2, 3:
        bench.write_exactly(f"scripts/adapter-0.{life}.trace", "of an earlier run\n")
    profiles(bench, 3, 1)
    paused, begin = hung(bench, f"device a plant_adapter.profile {bench.network.extra[9]}\n")
    plant = begun(bench, 3, 1, lambda name: told.get(name, ""), log="scripts")
    until(lambda: sum(" life " in line and "adapter-2: " in line for line in plant.said()) == 3, "a device restarts twice")
    time.sleep(0.5)
    until(lambda: all(plant.established(name) == 3 for name in ("scanner-0", "scanner-1")), "all slots are established again")
    time.sleep(0.5)
    sure(plant.end() == 0, "the plant ends with status 0")
    stops = [stopped(bench.file(f"scripts/scanner-1.{life}.trace")) for life in (1, 2)]
    sure(stops == [0, 3], f"a device that loses its power closes nothing, and one that ends in order each slot: {stops}")
    lives = [line.split("incarnation ")[1] for line in plant.said() if "adapter-2: adapter at" in line]
    sure(int(lives[1]) == int(lives[0]) + 1 and lives[2] == lives[1], f"the incarnations of its lives: {', '.join(lives)}")
    begun_with = [line for line in plant.of("adapter-2") if line.startswith("0 at 0 output 150 ")]
    sure(len(begun_with) == 3, "each of its lives begins with the line of its output")
    ended = {name: [line.split()[4] for line in plant.of("scanner-0") if line.split()[1:3] == ["note", "slot"] and line.split()[3] == slot] for name, slot in (("cut", "0"), ("pause", "1"))}
    sure("4" in ended["pause"] and "4" not in ended["cut"], "a pause ends a connection, and a cut does not: it outlives its stream")
    opened, cut, ticks = streams_cut(bench.file("scripts/adapter-0.1.trace"))
    if len(opened) < 2:
        raise Untried(f"this machine was late: of two streams {len(opened)} were open as the script cut them")
    sure(cut >= opened and ticks <= MOST_TICKS, f"a cut ends each stream that is open, before anything else comes over one: {sorted(cut)} of "
         f"{sorted(opened)}, with {ticks} ticks in between")
    paths = replays(bench, "scripts")
    sure(len(paths) == 8, f"five devices have eight lives, and no record of an earlier run is left")
    status = paused.status(2 * STEPS_S)
    sure(time.monotonic() - begin < 2 * STEPS_S, f"a plant does not wait without end for a device that hangs: status {status}")


def stopped(trace):
    """How many slots were stopped in a record."""
    with open(trace) as file:
        return sum(line.startswith("stop ") for line in file)


def streams_cut(trace):
    """The streams of a record that are open where MARK is written, those that are cut next, before anything else comes over a stream, and how
    many ticks are in between. (The turn behind MARK may take one arrival. Each cut is taken by a turn of its own, in front of which a tick
    may be.)"""
    with open(trace) as file:
        events = [words for words in map(str.split, file) if words[:1] in (["stream"], ["frame"], ["cut"], ["tick"]) or words == MARK.split()]
    at, opened, cut, ticks, others = events.index(MARK.split()), set(), set(), 0, 0
    for kind, stream, *_ in events[:at]:
        if kind != "tick":
            (opened.discard if kind == "cut" else opened.add)(stream)
    for kind, stream, *_ in events[at + 1:]:
        ticks, others = ticks + (kind == "tick"), others + (kind in ("stream", "frame"))
        if kind == "cut":
            cut.add(stream)
        elif kind != "tick" and (cut or others > 1):
            break
        if cut >= opened:
            break
    return opened, cut, ticks


def shown_at(plant, name, slot, data, behind=None):
    """The milliseconds of a scanner's life at which an image first had these data, behind others if they are named; None before."""
    shown = [(line.split()[-1], int(line.split()[2])) for line in plant.of(name) if f" image {slot} " in line]
    begin = [it for it, _ in shown].index(behind) if behind in [it for it, _ in shown] else 0
    return next((ms for it, ms in shown[begin:] if it == data), None)


def run_plant_times(bench):
    """The times of a script are those of the plant: a restart in front of a line changes nothing of them."""
    own, said = "11111111", f"  at {SCRIPT_MS} write 100 a1b2c3d4\n"
    told = {"adapter-0": f"  at 100 write 100 {own}\n  at {RESTART_MS} restart\n{said}", "adapter-1": said}
    plant = begun(bench, 2, 0, lambda name: told.get(name, ""), log="times")
    both = lambda: [shown_at(plant, "scanner-0", slot, "a1b2c3d4") for slot in (0, 1)]
    until(lambda: None not in both(), "an adapter that has restarted and one that has not perform their scripts")
    restarted, other = both()
    again = shown_at(plant, "scanner-0", 0, "00000000", behind=own)
    if again is None or again > other - RESTART_MS // 2:
        raise Untried(f"this machine was late: the scanner had the slot of the restarted adapter at {again} ms, and the line was due at {other}")
    need(any("adapter-0: adapter at" in line and ", life 2," in line for line in plant.said()), "the restart was in front of that line")
    sure(abs(restarted - other) < RESTART_MS // 2, f"`at {SCRIPT_MS}` is due {SCRIPT_MS} ms after the plant began, with a restart at {RESTART_MS} "
         f"in front of it too: the scanner sees both at {restarted} and {other} ms")
    after = [line for line in plant.of("scanner-0") if line.endswith(f" image 0 {own}")]
    need(len(after) <= 1, f"a line of the script that was taken is not taken in the next life: {after}")
    opened = noted(plant, 2, "opened")
    plant.call("scanner-0 restart")
    until(lambda: noted(plant, 2, "opened") >= opened + 2, "a scanner loses its power, and opens its slots again")
    sure(noted(plant, 2, "closed") == 0, "it closes no connection first")
    sure(plant.end() == 0, "the plant ends with status 0")
    bench.clear()


def run_plant_disk(bench):
    """The disk of the records becomes full: it is said of each device, the devices go on, and the plant has failed."""
    def limit():
        signal.signal(signal.SIGXFSZ, signal.SIG_IGN)
        resource.setrlimit(resource.RLIMIT_FSIZE, (DISK_BYTES, DISK_BYTES))

    plant, names = begun(bench, 1, 0, log="disk", before=limit), ("adapter-0", "scanner-0")
    says = lambda whose: all(f"eip_station: {name}: {whose} record cannot take more and has ended" in plant.said() for name in names)
    until(lambda: says("the"), "the disk of the records becomes full: a line says of each device that its record has ended", 30)
    plant.call("scanner-0 write 0 0a0b0c0d", "scanner-0 mode run")
    until(lambda: any(line.endswith("output 150 0a0b0c0d") for line in plant.of("adapter-0")), "the devices go on")
    status = plant.end()
    sure(status == 6 and says("its"), f"a plant whose records have ended has failed, and names each device: status {status}")
    replays(bench, "disk")
    bench.clear()
    run_last_record(bench)


def run_last_record(bench):
    """The record of a device fails behind its end: it is a pipe that nobody reads, and that ends."""
    os.makedirs(bench.file("piped"))
    os.mkfifo(bench.file("piped/a.1.trace"))
    reader = os.open(bench.file("piped/a.1.trace"), os.O_RDONLY | os.O_NONBLOCK)
    fcntl.fcntl(reader, fcntl.F_SETPIPE_SZ, Pipe.PAGE)
    plant = Plant(bench, f"device a plant_adapter.profile {bench.network.extra[0]}\n", "--record", bench.file("piped"), log="piped")
    plant.call(*(f"a write 100 {value:08x}" for value in range(Pipe.PAGE // 10)), "a read 100")
    until(lambda: any(" value " in line for line in plant.of("a")), "a device lives, and nobody reads its record")
    plant.process.stdin.close()
    time.sleep(0.5)
    need(plant.is_running() and not any("record" in line for line in plant.said()), f"its plant ends, and waits for the record: {plant.said()}")
    os.close(reader)
    status = plant.status()
    sure(status == 6, f"a plant whose device has ended as its record fails has failed: status {status}")
    bench.clear()


def has(file, text):
    with open(file) as opened:
        return text in opened.read()


def run_plant_raw(bench):
    """A datagram that no device sends is refused by settle, and named."""
    node = bench.network.extra[0]
    raw = "0200028008000100000099000000b100060099000000"
    plant = begun(bench, 2, 0, lambda name: f"  at 1000 send {node} {raw}\n" if name == "adapter-1" else "", log="raw")
    wait(lambda: has(bench.file("raw/adapter-0.1.trace"), f"datagram {bench.network.extra[1]} "), "a datagram of a script arrives at its time")
    need(plant.end() == 0, "the plant ends with status 0")
    status, said = settled(bench, replays(bench, "raw"))
    sure(status == 1 and "never sent by" in said and bench.network.extra[1] in said, f"the raw datagram is refused by settle: {said}")


def run_plant_sends(bench):
    """A datagram that is typed is sent at once, by devices that have nothing else to do. Records are where the plant's file says."""
    profiles(bench, 2, 0)
    nodes, late = bench.network.extra, []
    lines = "".join(f"device adapter-{at} plant_adapter.profile {nodes[at]}\n" for at in range(2))
    plant = Plant(bench, f"record kept\n{lines}", log="sends")
    until(lambda: sum("adapter at" in line for line in plant.said()) == 2, "two adapters live")
    with bench.network.inside("peer"), socket.socket(socket.AF_INET, socket.SOCK_DGRAM) as udp:
        udp.bind((nodes[5], 2222))
        udp.settimeout(3)
        for turn in range(9):
            time.sleep(0.13)
            begin = time.monotonic()
            plant.call(f"adapter-{turn % 2} send {nodes[5]} 00{turn:02x}")
            got, (node, port) = udp.recvfrom(100)
            need((got, node, port) == (bytes([0, turn]), nodes[turn % 2], 2222), f"the bytes of line {turn} come from its device: {got}, {node}:{port}")
            late.append(time.monotonic() - begin)
        for turn in range(TYPED_BYTES // LONGEST_BYTES):
            plant.call(f"adapter-0 send {nodes[5]} {'%04x' % turn * (LONGEST_BYTES // 2)}")
            need(udp.recv(2048) == struct.pack(">H", turn) * (LONGEST_BYTES // 2), f"line {turn} of {TYPED_BYTES} bytes is taken: {plant.said()}")
    sure(sorted(late)[4] < AT_ONCE, f"typed datagrams leave within {min(late) * 1000:.0f} to {max(late) * 1000:.0f} ms")
    need(plant.end() == 0, "the plant ends with status 0")
    names = sorted(os.listdir(bench.file("kept")))
    sure(names == ["adapter-0.1.trace", "adapter-1.1.trace"], f"`record` names a folder beside the plant's file: {names}")
    bench.clear()


def run_plant_files(bench):
    """Files that are no plants, and words that are wrong; and the port of a device that restarts is taken."""
    profiles(bench, 1, 0)
    nodes = bench.network.extra
    device = f"device a plant_adapter.profile {nodes[0]}\n"
    for name, text, status, words in [
        ("unknown", f"{device}dance\n", 3, "line 2"), ("call", f"{device}at 5 dance\n", 3, "line 2"), ("twice", f"{device}{device}", 3, "line 2"),
        ("none", "# nothing\n", 3, ""), ("no_profile", "device a missing.profile\n", 3, "missing.profile cannot be read"),
        ("shared", f"{device}device b plant_adapter.profile {nodes[0]}\n", 3, "an earlier device has this address"),
        ("elsewhere", "device a plant_adapter.profile 203.0.113.1\n", 4, "not of this host"),
    ]:
        plant = Plant(bench, text, log=f"bad_{name}")
        ended, said = plant.status(), " ".join(plant.said())
        need(ended == status and words in said and said.count("eip_station: ") == 1, f"{name}: status {ended}, {said}")
    sure(True, "files that are no plants are refused in one line, with their status")
    done = run(bench.program, "plant", bench.write_exactly("one.plant", device), "--serial", "5")
    sure(done.returncode == 2 and b"for one device" in done.stderr, "an option for one device is refused")
    os.makedirs(bench.file("taken/a.1.trace"))
    both = f"{device}device b plant_adapter.profile {nodes[1]}\n"
    plant = Plant(bench, both, "--record", bench.file("taken"), log="taken")
    sure(plant.status() == 6 and any("its record cannot be written" in line for line in plant.said()), "a device whose first record cannot be made ends the plant")
    plants = [Plant(bench, f"seconds 1\n{device}", "--no-input", log="seconds"),
              Plant(bench, f"seconds 600\ndevice a plant_adapter.profile {nodes[2]}\n", "--no-input", "--seconds", "1", "--quiet", log="own_seconds")]
    sure([it.status() for it in plants] == [0, 0], "a plant whose file says its seconds ends by itself, or where --seconds says others")
    told = [it.said() for it in plants]
    sure(any("a: adapter at" in line for line in told[0]) and not told[1], f"the life of a device is said in a line, and nothing with --quiet: {told}")
    run_taken_port(bench, device)


def run_taken_port(bench, device):
    """The port of a device is taken for a while as it restarts."""
    faults = CallFaults(bench, "taken")
    plant = Plant(bench, device, log="taken_port", env=faults.env())
    lives = lambda: sum("adapter at" in line for line in plant.said())
    until(lambda: lives() == 1, "a device lives")
    faults.set(bind=errno.EADDRINUSE)
    plant.call("a restart")
    time.sleep(0.3)
    need(lives() == 1 and plant.is_running(), f"its port is taken as it restarts: {plant.said()}")
    faults.set()
    until(lambda: lives() == 2, "a device whose port is taken as it restarts lives again once it is free")
    sure(plant.end() == 0, "its plant ends with status 0")


def posted(bench, call, token):
    """The status of a call of the page."""
    word, stream = word_of(bench, "peer"), connected(bench, "peer")
    stream.sendall(f"POST /call?{word} HTTP/1.1\r\nHost: {HOST}\r\nX-Station-Token: {token}\r\nContent-Length: {len(call)}\r\n\r\n{call}".encode())
    status = status_of(told(stream))
    stream.close()
    return status


def devices_shown(bench, count):
    """What the event stream of a plant's page begins with, and the devices of whose snapshots it has some, until there are so many."""
    word, stream, text, shown = word_of(bench, "peer"), connected(bench, "peer"), b"", set()
    stream.sendall(f"GET /events?{word} HTTP/1.1\r\nHost: {HOST}\r\n\r\n".encode())
    end = time.monotonic() + 10
    while len(shown) < count and time.monotonic() < end:
        text += stream.recv(65536)
        shown = {int(it.split(b"\n")[0][4:]) for it in text.split(b"\n\n")[:-1] if it.startswith(b"id: ")}
    stream.close()
    return text.partition(b"event: station\n")[2].split(b"\n")[0], shown


def snapshots_told(bench):
    """How many snapshots of each device an event stream of a plant's page has in a time, behind those that its beginning brings."""
    word, stream, text = word_of(bench, "peer"), connected(bench, "peer"), b""
    stream.sendall(f"GET /events?{word} HTTP/1.1\r\nHost: {HOST}\r\n\r\n".encode())
    begin = time.monotonic()
    while time.monotonic() < begin + 1 + TOLD_S:
        got = stream.recv(1 << 20)
        text += got if time.monotonic() > begin + 1 else b""
    stream.close()
    return collections.Counter(int(it.split(b"\n")[0][4:]) for it in text.split(b"\n\n")[1:-1] if it.startswith(b"id: "))


def run_plant_turns(bench):
    """Forty devices of a page have something new all the time, more than it tells: they take turns."""
    nodes, count = bench.network.extra, len(bench.network.extra)
    bench.write_exactly("turns.profile", SCANNER.format(node=nodes[0], number=100) + READ.format(node=bench.address["reader"]))
    plant = Plant(bench, "".join(f"device s{at} turns.profile {nodes[at]}\n  every 20 mode run\n" for at in range(count)), "--page", str(PORT), log="turns")
    until(lambda: sum("scanner at" in line for line in plant.said()) == count, f"{count} devices live")
    _, shown = devices_shown(bench, count)
    sure(shown == set(range(count)), f"each of {count} devices is shown, and {len(shown)} are")
    told = snapshots_told(bench)
    least, most = min(told[at] for at in range(count)), max(told.values())
    sure(least * SHARE >= most, f"none of them has to wait for another one: they are shown {least} to {most} times in {TOLD_S} s")
    need(plant.end() == 0, "the plant ends with status 0")


def run_plant_names(bench):
    """Lines of a plant have the names of the devices at their addresses behind them."""
    profiles(bench, 2, 0)
    with open(bench.file("plant_adapter.profile"), "a") as file:
        file.write("# name 150 Valves\n# name 150 Again\n")
    plant, nodes = Plant(bench, file_of(bench, 2, 0), log="plant_names"), [re.escape(it) for it in bench.network.extra]
    until(lambda: plant.established("scanner-0") == 2, "a scanner of a plant opens two slots")
    bad = f"eip_station: {bench.file('plant_adapter.profile')}: line 6: an earlier line names the same"
    sure(plant.said().count(bad) == 2, f"a name line that is bad is told for each device of the profile: {plant.said()}")
    plant.call("scanner-0 mode run", "scanner-0 write 1 0a0b0c0d")
    until(lambda: any(line.endswith(" output 150 0a0b0c0d # 150 (Valves)") for line in plant.of("adapter-1")), "an output has the name of its profile")
    wanted = {"adapter-1": [rf"\d+ at \d+ owner 150 {nodes[2]} run age \d+ # 150 \(Valves\), {nodes[2]} \(scanner-0\)",
                            rf"\d+ at \d+ connection .* {nodes[2]} exclusive 150 100 api .* # {nodes[2]} \(scanner-0\), 150 \(Valves\)"],
              "scanner-0": [rf"\d+ at \d+ slot {at} {nodes[at]} exclusive 150 100 config - established .* # {nodes[at]} \(adapter-{at}\)" for at in (0, 1)]}
    for name, forms in wanted.items():
        plant.call(f"{name} status")
        for form in forms:
            until(lambda: any(re.fullmatch(form, line) for line in plant.of(name)), f"`status` of {name} has {form}")
    opened = rf"eip_station: scanner-0: stream \d+ of {nodes[1]} is open # {nodes[1]} \(adapter-1\)"
    until(lambda: any(re.fullmatch(opened, line) for line in plant.said()), f"standard error has {opened}")
    sure(plant.end() == 0, "the plant ends with status 0")
    bench.clear()


def run_plant_page(bench):
    """The page of a plant has all devices, and hands calls on by their names."""
    plant = begun(bench, 3, 1, lambda name: "", "--page", str(PORT), "--page-writes", log="paged")
    token = next(line.partition("#")[2] for line in plant.said() if "page at" in line)
    begin, shown = devices_shown(bench, 5)
    sure(shown == {0, 1, 2, 3, 4}, f"the page of a plant gets snapshots of each of its five devices: {shown}")
    need(b'"devices":["scanner-0","scanner-1","adapter-0","adapter-1","adapter-2"]' in begin, f"it begins with their names: {begin}")
    statuses = [posted(bench, call, token) for call in ("adapter-1 write 100 a1b2c3d4", "write 100 a1b2c3d4", "adapter-1 cut")]
    lines = [posted(bench, call, token) for call in ("status\nadapter-1 write 100 01010101", "adapter-1 write 100 01010101\n", "x\radapter-1 mode run")]
    sure(lines == [400] * 3, f"a call with a line break is refused: {lines}")
    need(statuses == [204, 400, 400], f"it takes calls of a station behind a name alone: {statuses}")
    until(lambda: any(line.endswith("image 1 a1b2c3d4") for line in plant.of("scanner-1")), "a call of the page reaches the device that it names")
    sure(plant.end() == 0, "the plant ends with status 0")
