"""Outputs that nobody reads, records, and full disks: no device waits for them."""

import contextlib, datetime, os, re, resource, signal, socket, struct, subprocess, time
from rim.host import Pipe, need, holds, run, stepped, sure, until, wait
from rim.peers import INPUT_ONLY, Originator, POINT_TO_POINT, served

LARGE = ("adapter 16 {adapter} 255.255.255.0 1 12 7 2 3\noutput 150 4 zero zero\ninput 100 4\ninput 101 1400\n"
         "heartbeat 152 153\n")
LOST_OUT = re.compile(r"# (\d+) lines are lost here: nobody read them")
LOST_ERR = re.compile(r"eip_station: (\d+) lines are lost here: nobody read them")
WHOLE_LINE = re.compile(r"\d+ (done|value [0-9a-f]+|frame \d+ [0-9a-f]+|note .+|at \d+ output \d+ [0-9a-f]{8})"
                        r"|# \d+ lines are lost here: nobody read them")
ENDED = "eip_station: the record cannot take more and has ended"
FILE_BYTES = 16_777_216
LITTLE_MEMORY = 12_000_000
REST_BYTES = 20_000  # that a record's second file may still have once its disk is nearly full
AT_ONCE = 1.0  # the time-out of an owner is 160 ms; a busy host has the rest


def devices_go_on(bench, adapter, what, calls=()):
    """An owner opens and is lost while an output is stuck: its output takes the fault action, and others are served."""
    owner, watch = Originator(bench), Originator(bench, own=bench.network.extra[1])
    feeder = bench.later(owner.feed(owner.open(), "11223344"))
    wait(lambda: watch.read(150) == "11223344", f"{what}: the owner's data reach the output")
    stranger = Originator(bench, own=bench.network.extra[0])
    with served(f"{what}: a stranger's opens and closes are answered"):
        for _ in range(60):
            stranger.open(INPUT_ONLY, POINT_TO_POINT).close()
    adapter.call(*calls)
    feeder.keeps(watch.read(150) == "11223344", f"{what}: the owner keeps its output")
    feeder.stop()
    seconds = wait(lambda: watch.read(150) == "00000000", f"{what}: the output takes its fault action", 5)
    sure(seconds < AT_ONCE, f"{what}: the output takes its fault action in time, and the adapter goes on serving")


def run_unread_output(bench):
    """Standard output is a pipe that nobody reads."""
    bench.write("large.profile", LARGE)
    out = bench.later(Pipe())
    adapter = bench.adapter(profile="large", log="unread_out", out=out.writer)
    out.handed_over()
    devices_go_on(bench, adapter, "standard output is not read", ["read 101"] * 4000)
    adapter.call("write 100 0a0b0c0d", "read 100")
    until(lambda: [it for it in map(LOST_OUT.fullmatch, out.taken()) if it and int(it[1]) > 0],
          "it is read again, and one line says how many lines were lost")
    adapter.call("read 100")
    wait(lambda: out.taken()[-1].endswith("value 0a0b0c0d"), "the lines after the lost ones are read")
    lines = [line for line in out.taken() if not WHOLE_LINE.fullmatch(line)]
    need(not lines, f"each line is whole, and not {lines[:3]}")
    sure(adapter.end() == 0, "the adapter ends with status 0")


def run_shared_output(bench):
    """Standard output is a pipe that another program has made non-blocking."""
    bench.write("large.profile", LARGE)
    out = bench.later(Pipe())
    os.set_blocking(out.writer, False)
    adapter = bench.adapter(profile="large", log="shared_out", out=out.writer)
    out.handed_over()
    adapter.call(*["read 101"] * 60, "write 100 0a0b0c0d")
    wait(lambda: out.unread() > 0, "the output fills")
    time.sleep(0.2)
    wait(lambda: len(out.taken()) > 60, lambda: f"a non-blocking output that was full is read again: {len(out.taken())} lines")
    adapter.call("read 100")
    wait(lambda: out.taken()[-1].endswith("value 0a0b0c0d"), "a non-blocking output goes on")
    lines = [line for line in out.taken() if not WHOLE_LINE.fullmatch(line)]
    sure(not lines, f"a non-blocking output that was full goes on with whole lines when it is read again {lines[:1]}")
    need(adapter.end() == 0, "the adapter ends with status 0")


def run_unread_error(bench):
    """Standard error is a pipe that nobody reads."""
    bench.write("large.profile", LARGE)
    err = bench.later(Pipe())
    adapter = bench.adapter(profile="large", log="unread_err", err=err.writer)
    err.handed_over()
    devices_go_on(bench, adapter, "standard error is not read", ["no call"] * 20000)
    until(lambda: [it for it in map(LOST_ERR.fullmatch, err.taken()) if it and int(it[1]) > 0],
          "it is read again, and one line says how many lines were lost")
    sure(adapter.end() == 0, "the adapter ends with status 0")


def fresh(bench, name):
    """The path of a file that is not there yet."""
    with contextlib.suppress(FileNotFoundError):
        os.remove(bench.file(name))
    return bench.file(name)


def run_closed(bench):
    """Standard output has no reader any more, or is a full device."""
    bench.write("large.profile", LARGE)
    out = Pipe()
    adapter = bench.adapter(profile="large", log="closed_out", out=out.writer)
    out.handed_over()
    out.close()
    devices_go_on(bench, adapter, "standard output is closed", ["read 100"] * 20)
    adapter.end()
    bench.clear()
    with open("/dev/full", "wb") as full:
        adapter = bench.adapter(profile="large", log="full_out", out=full)
    devices_go_on(bench, adapter, "standard output is a full device", ["read 100"] * 20)
    adapter.end()
    bench.clear()


def run_broken_output(bench):
    """The reader of standard output ends, and another one comes: it gets nothing of what is printed behind the failure."""
    path = bench.file("broken.fifo")
    os.mkfifo(path)
    reader, writer = os.open(path, os.O_RDONLY | os.O_NONBLOCK), os.open(path, os.O_WRONLY)
    adapter = bench.adapter(log="broken_out", out=writer)
    os.close(writer)
    watch = Originator(bench)
    told(adapter, watch, "01020304")
    need(os.read(reader, 65536) != b"", "what it prints is read")
    os.close(reader)
    told(adapter, watch, "05060708")
    reader = os.open(path, os.O_RDONLY | os.O_NONBLOCK)
    told(adapter, watch, "0a0b0c0d")
    with contextlib.suppress(BlockingIOError):
        need(os.read(reader, 65536) == b"", "a print that failed is the last one")
    os.close(reader)
    sure(adapter.end() == 0, "the reader of standard output has ended: nothing more is printed, and the adapter goes on")


def told(adapter, watch, value):
    """Calls are performed, and the writer of their outcomes has had its time."""
    adapter.call("read 150", f"write 100 {value}")
    wait(lambda: watch.read(100) == value, "the calls are performed")
    time.sleep(0.3)


def run_unread_record(bench):
    """A record that nobody takes ends; the device goes on."""
    bench.write("large.profile", LARGE)
    fifo = fresh(bench, "fifo.trace")
    os.mkfifo(fifo)
    unread = os.open(fifo, os.O_RDWR | os.O_NONBLOCK)
    ends_alone(bench, "the record is a FIFO that nobody reads", fifo, "fifo", ["read 101"] * 8000)
    os.close(unread)


def run_full_disks(bench):
    """A record that a full disk refuses ends, with whole events; the device goes on."""
    bench.write("large.profile", LARGE)
    ends_alone(bench, "the record is a full device", "/dev/full", "full", ["read 101"] * 20)

    def limit():
        signal.signal(signal.SIGXFSZ, signal.SIG_IGN)
        resource.setrlimit(resource.RLIMIT_FSIZE, (300_000, 300_000))

    ends_alone(bench, "the disk of the record becomes full", bench.file("disk.trace"), "disk", ["read 101"] * 400, before=limit)
    replays(bench, "the record that a full disk ended", bench.file("disk.trace"))
    words = [bench.program, "adapter", bench.file("large.profile"), "--record", "/dev/full"]
    done = run(*bench.network.at("adapter"), *words, stdin=subprocess.DEVNULL)
    need(done.stderr.decode().splitlines().count(ENDED) == 1, f"a record that ends behind its last event is told in a line, and not {done.stderr}")
    sure(done.returncode == 6, f"a record that a full disk refuses as its station ends has status {done.returncode}")


def ends_alone(bench, what, record, log, calls, **how):
    adapter = bench.adapter("--record", record, profile="large", log=log, out=subprocess.DEVNULL, **how)
    devices_go_on(bench, adapter, what, calls)
    for _ in range(20):
        if ENDED in adapter.said():
            break
        adapter.call(*calls)
        time.sleep(0.2)
    wait(lambda: ENDED in adapter.said(), lambda: f"{what}: one line says that it has ended, and not {adapter.said()}")
    with served(f"{what}: the adapter goes on after it"):
        Originator(bench, own=bench.network.extra[2]).open(INPUT_ONLY, POINT_TO_POINT).close()
    status = adapter.end()
    need(adapter.said().count(ENDED) == 1, f"{what}: one line, and not {adapter.said()}")
    sure(status == 6, f"{what}: one line says so, the device goes on, and its status at the end is {status}")
    bench.clear()


def replays(bench, what, *files):
    """Files replay as one trace. Answers what was printed."""
    done = run(bench.program, "replay", *files)
    need(done.returncode == 0, f"{what}: eip_station replay has status {done.returncode}: {done.stderr.decode().strip()}")
    if sum(map(os.path.getsize, files)) <= FILE_BYTES:
        if len(files) == 1:
            need(done.stdout == stepped(bench.line, files[0]), f"{what}: eip_station replay prints what eip_line step prints")
    holds(f"{what} replays ({sum(map(os.path.getsize, files))} bytes)")
    return done.stdout


def run_long_record(bench, *options, meanwhile=lambda: None):
    """A record that has more bytes than one file, and is ended by a full disk. What is to be done while it is written goes before its end."""
    bench.write("large.profile", LARGE)
    first, second = bench.file("long.trace"), bench.file("long.trace.2")
    begin = datetime.datetime.now(datetime.timezone.utc)
    adapter = bench.adapter("--record", first, *options, profile="large", log="long", before=lambda: signal.signal(signal.SIGXFSZ, signal.SIG_IGN))
    owner = Originator(bench)
    feeder = bench.later(owner.feed(owner.open(), "01020304"))
    for turn in range(64):
        adapter.call(*[f"write 101 {os.urandom(1400).hex()}" for _ in range(100)])
        calls = 100 * (turn + 1)
        wait(lambda: len(adapter.lines()) > calls, "the calls are taken", 30)
    feeder.stop()
    stopped = time.time()
    meanwhile()
    resource.prlimit(adapter.process.pid, resource.RLIMIT_FSIZE, (os.path.getsize(second) + REST_BYTES,) * 2)
    adapter.call(*[f"write 101 {os.urandom(1400).hex()}" for _ in range(100)])
    wait(lambda: ENDED in adapter.said(), "the disk becomes full while the second file is written: a line says that the record has ended")
    sure(adapter.end() == 6, "an adapter that records 18 MB, until its disk is full, ends with status 6")
    ended = time.time()
    sizes = [os.path.getsize(it) if os.path.exists(it) else 0 for it in (first, second)]
    sure(sizes[0] <= FILE_BYTES and sizes[1] > 0 and sum(sizes) > FILE_BYTES, f"a full file is followed by FILE.2: {sizes}")
    printed = replays(bench, "the record of two files", first, second)
    one = bench.file("one.trace")
    with open(one, "wb") as whole:
        for it in first, second:
            with open(it, "rb") as file:
                whole.write(file.read())
    sure(replays(bench, "FILE and FILE.2 as one text", one) == printed, "both print the same")
    with open(first) as file:
        line = file.readline()
    found = re.fullmatch(r"# recorded from (\d{4}-\d\d-\d\dT\d\d:\d\d:\d\d\.\d{3})Z by eip_station \d+\.\d+\.\d+\n", line)
    need(found, f"the first line has the time, and not {line!r}")
    from_time = datetime.datetime.fromisoformat(found[1] + "+00:00")
    sure(abs((from_time - begin).total_seconds()) < 10, f"its first line has the time: {line.strip()}")
    told = run(bench.program, "explain", first, second)
    sure(told.returncode == 0 and b"Forward_Open" in told.stdout, "both files are told in words")
    run_pcap(bench, (begin.timestamp(), stopped, ended), first, second)
    limit = lambda: resource.setrlimit(resource.RLIMIT_AS, (LITTLE_MEMORY, LITTLE_MEMORY))
    done = run(bench.program, "replay", first, second, preexec_fn=limit)
    sure(done.returncode == 0 and done.stdout == printed, f"the replay of {sum(sizes)} bytes takes less than {LITTLE_MEMORY} bytes of memory")


def run_pcap(bench, moments, *files):
    done = run(bench.program, "pcap", *files)
    need(done.returncode == 0, f"pcap has status {done.returncode}: {done.stderr.decode().strip()}")
    times, at = [], 24
    need(done.stdout[:4] == bytes.fromhex("d4c3b2a1"), "pcap: microseconds, little-endian")
    while at < len(done.stdout):
        seconds, micro, length, _ = struct.unpack("<IIII", done.stdout[at:at + 16])
        times, at = times + [seconds + micro / 1e6], at + 16 + length
    need(at == len(done.stdout) and len(times) > 10, f"pcap: {len(times)} whole packets")
    need(times == sorted(times), "pcap: its packets are in the order of their times")
    # (an owner sends until it stops, and is answered until its time-out)
    begin, stopped, ended = moments
    sure(begin - 1 < times[0] and stopped - 10 < times[-1] < ended + 1, f"pcap has the time of day: {len(times)} packets from {times[0]:.3f} to "
         f"{times[-1]:.3f}, of a run from {begin:.3f} to {ended:.3f}")


def run_later_record(bench):
    """A record takes the place of a longer one of its name, with all its files."""
    bench.write("large.profile", LARGE)
    first, second, third = (bench.file(f"again.trace{number}") for number in ("", ".2", ".3"))
    adapter = bench.adapter("--record", first, profile="large", log="again")
    adapter.call(*[f"write 101 {os.urandom(1400).hex()}" for _ in range(20)])
    wait(lambda: len(adapter.lines()) > 20, "the calls are taken")
    need(adapter.end() == 0, "the adapter ends with status 0")
    for path in second, third:
        with open(path, "w") as file:
            file.write("# continues an earlier record\ntick 1\n")
    before = os.path.getsize(first)
    adapter = bench.adapter("--record", first, profile="large", log="again_later")
    adapter.call("read 100")
    wait(lambda: any(" value " in line for line in adapter.lines()), "the call is taken")
    need(adapter.end() == 0, "the adapter ends with status 0")
    with open(first) as file:
        lines = file.read().splitlines()
    need(lines[0].startswith("# recorded from ") and not any("write 101" in line for line in lines), "the later record has its own events alone")
    need(sum(line.startswith("adapter ") for line in lines) == 1 and lines.count("read 100") == 1, f"it has one profile and one call: {lines}")
    replays(bench, "the later record", first)
    left = [path for path in (second, third) if os.path.exists(path)]
    sure(not left, f"a record of {os.path.getsize(first)} bytes takes the place of one of {before} bytes, of which no file is left: {left}")
    bench.clear()


def run_strangers_bytes(bench):
    """Large datagrams of a stranger take little of a record."""
    bench.write("large.profile", LARGE)
    trace = bench.file("stranger.trace")
    adapter = bench.adapter("--record", trace, profile="large", log="stranger")
    with bench.network.inside("peer"):
        udp = bench.later(socket.socket(socket.AF_INET, socket.SOCK_DGRAM))
        udp.bind((bench.network.extra[3], 0))
    wait(lambda: os.path.exists(trace) and os.path.getsize(trace) > 0, "the record begins")
    before = os.path.getsize(trace)
    unknown = struct.pack("<HHHIIHH", 2, 0x8002, 8, 77, 1, 0xB1, 1400) + bytes(1400)
    for _ in range(100):
        for packet in bytes(65507), unknown:
            udp.sendto(packet, (bench.address["adapter"], 2222))
            time.sleep(0.002)
    adapter.call("read 100")
    wait(lambda: any("value" in line for line in adapter.lines()), "the adapter goes on")
    need(adapter.end() == 0, "the adapter ends with status 0")
    size = os.path.getsize(trace) - before
    sure(size < 200 * 130, f"100 datagrams of 65,507 bytes and 100 of 1,420 of a stranger take {size} bytes of the record")
    printed = replays(bench, "the record of a stranger's datagrams", trace)
    sure(b" malformed\n" in printed and b" unknown\n" in printed, "it has their verdicts")
    bench.clear()


def run_link(bench):
    """A record through a symbolic link."""
    os.symlink(bench.file("elsewhere"), fresh(bench, "link.trace"))
    words = [bench.program, "adapter", bench.file("adapter.profile"), "--record", bench.file("link.trace"), "--seconds", "1"]
    done = run(*bench.network.at("adapter"), *words, stdin=subprocess.PIPE)
    lines = done.stderr.decode().splitlines()
    need(not os.path.exists(bench.file("elsewhere")), "nothing is written through a symbolic link")
    sure(done.returncode == 6 and len(lines) == 1, f"a record through a symbolic link is refused: {' '.join(lines)}")
